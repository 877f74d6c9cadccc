#!/usr/bin/env python3
"""W9 of document 02 through the engine's C library: releases, and what a panel finds.

releases.py [--seed N] [--lists N] [--only K]

Every store of up to three commits with releases of their revisions at every place, in every order, those that break a rule among them: its number, and of those
that are accepted every read and every panel reading, by this test's own rule: what read gives "at the greatest released revision up to R, and refusal 8 if there is
none", the very part of the store and W3's number. Releases on every such store that is accepted, of every revision, by every seat and by numbers that are none, on
buffers that a release takes and on such that each other number refuses: the first number that holds and nothing changed, or one block more. Then random lists by
four seats in which half of the calls are releases and panel readings, on stores of 4 to 4,096 blocks. "Over lists with release calls too, what an engineer finds
follows from the accepted commits alone": the list without its releases and panel readings, and without the commits that found no room, answers the same and leaves
the same history and copies. "what a panel finds from those and the releases": every panel reading at the end is the read at the greatest of the revisions whose
release was answered with done. What was met is counted, and that some of it never came is a failure. At the first list that fails its seed and number are printed:
`--seed N --only K` runs that list alone.
"""
import collections, itertools, pathlib, random, sys

sys.path.insert(0, str(pathlib.Path(__file__).resolve().parent))
sys.path.insert(0, str(pathlib.Path(__file__).resolve().parent / 'model'))
import calls, layout, lists, sheets
from calls import fail
from engine import Engine
from sheets import ADD, CHANGE, DELETE, Release

SEATS = (1, 2, 3, 4)
COMMITS = [(2, 7, {5: (ADD, b'A', None), 6: (ADD, b'', None)}), (1, 8, {5: (CHANGE, b'B', None), 6: (DELETE, None, None)}),
           (4, 9, {5: (DELETE, None, None), 6: (ADD, b'C', None)})]
NO_SEATS = (0, 5, 6, 255, 256, 257, 260, 65537, 2 ** 31 + 1, 2 ** 32 - 1)
FAR = (256, 257, 65536, 65537, 65538, 2 ** 31 + 1, 2 ** 32 - 1)
STORES, ORDER, ASKED, LISTS = 'stores of three commits', 'numbers that hold', 'releases on them', 'random lists'
GROUPS = {
    STORES: ('accepted', 'released twice', 'of revision 0', 'before its revision', 'in falling order', 'two side by side', 'panels of an older revision',
             'panels that give 8'),
    ASKED: ('done', *(f'refused with {n}' for n in (1, 2, 3, 14, 7, 16, 13))),
    ORDER: (*(f'{n} before {m}' for n in (1, 2, 3, 14) for m in (7, 16)), *(f'{n} before 13' for n in (2, 3)), '7 before 16', '7 before 13', '16 before 13'),
    LISTS: ('with releases', 'without', 'releases done', 'commits', 'commits refused with 13 that go through without the releases', 'panels that differ from read'),
}
seen = collections.Counter()


def right(log):
    """W9: a release "names a revision from 1 to the last before it, none twice"."""
    for n, item in enumerate(log):
        if isinstance(item, Release):
            before = log[:n]
            last = sum(not isinstance(x, Release) for x in before)
            twice = any(isinstance(x, Release) and x.revision == item.revision for x in before)
            if item.revision < 1 or item.revision > last or twice:
                return False
    return True


def every_log():
    """The commits with up to three releases of revisions 0 to 3, at every place."""
    for commits in range(4):
        for count in range(4):
            for places in itertools.combinations_with_replacement(range(commits + 1), count):
                for revisions in itertools.product(range(4), repeat=count):
                    log = COMMITS[:commits]
                    for place, revision in reversed(list(zip(places, revisions))):
                        log = [*log[:place], Release(revision, 1 + (place + revision) % 4, 1000 * place + revision), *log[place:]]
                    yield log


def panels(engine, what, store, done, last):
    """Every panel reading: what read gives, and where, at the greatest of the released revisions up to R."""
    for revision, sheet in itertools.product((*range(last + 2), 65536), (5, 6, 7, 32)):
        calls.calls += 1
        shown = [r for r in done if r <= revision]
        if sheet > 31 or revision > last:
            wanted = ('no', 7)
        else:
            wanted = engine.part('read', store, None, max(shown), sheet) if shown else ('no', 8)
            seen[STORES, 'panels that give 8'] += wanted == ('no', 8)
            seen[STORES, 'panels of an older revision'] += wanted[0] == 'part' and max(shown) < revision
        got = engine.part('panel', store, None, revision, sheet)
        if got != wanted:
            fail(f'{what}: panel {revision} {sheet}: {got}, not {wanted}')


def every_store(engine):
    for log in every_log():
        last, done, what = len(sheets.commits_of(log)), sheets.released(log), f'{[x if isinstance(x, Release) else "commit" for x in log]}'
        model = sheets.Machine(1)
        model.log = sheets.commits_of(log)
        store = layout.store_bytes(9 + len(done), log)
        said = engine.log(store, 0, 0)
        calls.calls += 1
        seen[STORES, 'released twice'] += len(set(done)) < len(done)
        seen[STORES, 'of revision 0'] += 0 in done
        seen[STORES, 'before its revision'] += not right(log) and len(set(done)) == len(done) and 0 not in done
        if said != ('no', 7 if right(log) else 3):
            fail(f'{what}: {said}')
        if not right(log):
            continue
        seen[STORES, 'accepted'] += 1
        seen[STORES, 'in falling order'] += done != sorted(done)
        seen[STORES, 'two side by side'] += any(isinstance(a, Release) and isinstance(b, Release) for a, b in zip(log, log[1:]))
        for revision, sheet in itertools.product(range(last + 2), (5, 6, 7)):
            for name in ('read', 'log'):
                calls.calls += 1
                if engine.call(name, store, None, revision, sheet) != model.call(name, 1, revision, sheet):
                    fail(f'{what}: {name} {revision} {sheet}')
        panels(engine, what, store, done, last)
        for store, numbers in benches(log):
            every_release(engine, what, store, numbers, done, last)


def benches(log):
    """Stores with this log: with room, without, with a tail, and such that 1, 2 and 3 refuse. Each with the numbers of the buffer that hold, and 13 for the room."""
    used = len(layout.used_blocks(layout.store_bytes(16, log)))
    full, room = layout.store_bytes(max(used, 2), log), layout.store_bytes(used + 2, log)
    no_room = [13] * (used >= 2)
    yield room, []
    yield full, no_room
    yield layout.tailed(room, [layout.content(len(sheets.commits_of(log)) + 1, b'')]), [14]
    yield layout.tailed(room, [b'\xff' * 512]), [14]
    yield room[:-1], [1]
    yield layout.resealed(full[:3] + b'\1' + full[4:], 0), [3, *no_room]
    yield full[:3] + b'\1' + full[4:], [2, *no_room]


def every_release(engine, what, store, numbers, done, last):
    """Releases on a store of which these numbers hold."""
    some = [(r, k) for r in (*range(last + 2), *FAR) for k in SEATS] + [(r, k) for r in range(last + 2) for k in NO_SEATS]
    if numbers[:1] in ([1], [2], [3], [14]):
        some = [(r, k) for r in range(last + 2) for k in (3, 0)]
    for stamp, (revision, seat) in enumerate(some, 2 ** 32 - 20):
        own = [7] * (not 1 <= revision <= last or not 1 <= seat <= 4) + [16] * (revision in done)
        holds = [n for n in numbers if n != 13] + own + [n for n in numbers if n == 13]
        lent = bytearray(store)
        got = engine.release(lent, revision, seat, stamp % 2 ** 32)
        calls.calls += 1
        after = store
        if not holds:
            used = layout.used_blocks(store)
            after = layout.filled(len(store) // 512, [*used, layout.sealed(bytes([6, 0, 0, 0, revision, 0, seat, 0]) + (stamp % 2 ** 32).to_bytes(4, 'little'))])
        if got != (('no', holds[0]) if holds else ('done',)) or lent != after:
            fail(f'{what}: release {revision} by {seat}, where {holds} hold: {got}, or other bytes')
        seen[ASKED, f'refused with {holds[0]}' if holds else 'done'] += 1
        seen.update((ORDER, f'{n} before {later}') for n, later in itertools.combinations(holds, 2))


# ---- random lists

def random_list(engine, rng):
    """A list of calls with releases, held to the model; then the list without them, and every panel reading."""
    desk = calls.Desk.fresh(engine, rng.choice([4, 8, 12, 20, 40, 65, 200, 1000, 4096]))
    engineers, answers, done = [], [], []
    for _ in range(rng.choice([60, 120, 200])):
        c, twin = lists.release_call(rng, desk.model), lists.twin(desk.model)
        said = desk.call(*c)
        if c[0] == 'release':
            if said == ('done',):
                done.append(c[2])
            continue
        if c[0] == 'panel':
            seen[LISTS, 'panels that differ from read'] += said != desk.model.call('read', 1, *c[2:])
            continue
        seen[LISTS, 'commits'] += said[0] == 'revision'
        if c[0] in calls.COMMITS and said == ('no', 13):  # which commits are accepted depends on the releases, by room: the list without them leaves these out
            twin.used -= len(done)
            seen[LISTS, 'commits refused with 13 that go through without the releases'] += twin.call(*c)[0] in ('revision', 'stopped')
            continue
        engineers.append(c)
        answers.append(said)
    desk.whole()
    seen[LISTS, 'with releases' if done else 'without'] += 1
    seen[LISTS, 'releases done'] += len(done)
    if done != sheets.released(desk.model.log):
        fail('the model has other releases')
    panels(engine, 'at the end of a list', bytes(desk.store), done, desk.model.last())
    store, copies = bytearray(len(desk.store)), {k: bytearray(layout.COPY_LEN) for k in SEATS}
    engine.create_store(store)
    for k in SEATS:
        engine.create_copy(copies[k], k)
    got = [engine.call(name, store, copies[k], *args) for name, k, *args in engineers]
    calls.calls += len(engineers)
    if got != answers:
        n = next(n for n in range(len(got)) if got[n] != answers[n])
        fail(f'without the releases {engineers[n]} answers {got[n]}, not {answers[n]}')
    if copies != desk.copies or layout.log_of(bytes(store))[0] != desk.model.history:
        fail('without the releases other copies, or another history')


def main():
    given = lists.options(__doc__, 60)
    engine = Engine()
    if given.only is None:
        every_store(engine)
    for n in given.numbers if not calls.failed else ():
        random_list(engine, random.Random(f'{given.seed} {n}'))
        if calls.failed:
            print(f'failed in this list: tests/releases.py --seed {given.seed} --only {n}')
            break
    enough = given.enough and not calls.failed
    never = lists.tally(enough, [lists.BEFORE_ALL, lists.RELEASES, lists.PANELS, lists.RELEASE_NO_ROOM]) + lists.group_tally(enough, GROUPS, seen)
    print(f'{calls.calls} calls, {calls.failed} wrong')
    sys.exit(calls.failed + never != 0)


if __name__ == '__main__':
    main()
