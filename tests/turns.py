#!/usr/bin/env python3
"""W7 of document 02 through the engine's C library: the turn record, and commits through it.

turns.py [--seed N] [--lists N] [--only K]

Every record of the numbers 0 to 5, and every record in form with a large number in each of its places: ask and give by every seat and by numbers that are none, and
take; commits through it, with a mask and without, on buffers that a commit takes and on such that each of the other numbers refuses. Then the bound, "a waiting
seat holds the turn no later than the third giving or taking back that ended a turn after it asked": every list of calls on the record, by the records and waits that
they lead to, and random ones. Then random lists by four seats in which calls of every kind are mixed, on stores of 2 to 200 blocks: every answer, every byte of every
buffer and the record. "The history follows from the commits that got through": the list in which each commit through the record by the holder is a commit, and each
other one and the calls on the record are left out, leaves the same bytes. What was met is counted, and that some of it never came is a failure. At the first list
that fails its seed and number are printed: `--seed N --only K` runs that list alone.
"""
import collections, itertools, pathlib, random, sys

sys.path.insert(0, str(pathlib.Path(__file__).resolve().parent))
sys.path.insert(0, str(pathlib.Path(__file__).resolve().parent / 'model'))
import accept, calls, layout, lists, sheets, turns
from calls import ALL, fail
from engine import Engine
from turns import FREE, SEATS

RECORDS = list(itertools.product(range(6), repeat=4))
IN_FORM = [r for r in RECORDS if turns.in_form(r)]
LARGE = (255, 256, 257, 258, 259, 260, 65536, 65537, 2 ** 31, 2 ** 31 + 4, 2 ** 32 - 1)
WITH_LARGE = [(*r[:k], n, *r[k + 1:]) for r in IN_FORM for k in range(4) for n in LARGE]
NONE = (0, 5, 6, 255, 256, 257, 65537, 2 ** 31, 2 ** 31 + 1, 2 ** 32 - 1)  # no seats
CALLS = [('take',), *((name, seat) for name in ('ask', 'give') for seat in SEATS)]
STAMP = 7
COMMITS, ORDER, ALONE = 'commits with every record', 'numbers that hold', 'random calls on the record alone'
EVERY, SOME = 'turns that ended from an ask to holding it, in every list', 'in random lists'
GROUPS = {
    COMMITS: ('done', *(f'refused with {n}' for n in (1, 2, 3, 14, 4, 5, 6, 7, 15, 10, 11, 13)), '7 for the mask', '7 for the record'),
    ORDER: (*(f'{n} before 7' for n in (1, 2, 3, 14, 4, 5, 6)), '14 before 5', '5 before 15', '7 before 15', '7 before 10', '15 before 10', '15 before 11',
            '15 before 13'),
    EVERY: (0, 1, 2, 3),
    SOME: (0, 1, 2, 3),
    ALONE: lists.COUNTED[lists.RECORD],
}
seen = collections.Counter()


# ---- every record

def every_record(engine):
    done = 0
    for record in RECORDS + WITH_LARGE:
        for name, *seat in CALLS + [(name, n) for name in ('ask', 'give') for n in NONE]:
            said = calls.on_record(engine, 'every record', name, seat, list(record))
            done += (name, said[0]) == ('take', 'holder')
    if (len(IN_FORM), done) != (65, 65):
        fail(f'the model has {len(IN_FORM)} records in form, the engine {done}')


# ---- commits with every record

def worked(blocks, *some):
    """A machine with a revision that all four seats have, after these calls, which are done."""
    model = sheets.Machine(blocks)
    for c in (('add', 1, 5, b'A'), ('commit', 1, STAMP, ALL), *(('update', k, ALL, 1) for k in SEATS), *some):
        assert model.call(*c)[0] != 'no'
    return model


def benches():
    """Machines with a store and copies for them: a commit gives 10, is done, gives 11 and gives 13; then it is done but for a fault of the store, of the copy, and
    of both."""
    edits = [('edit', k, 5, b'B') for k in SEATS]
    other = [('edit', 1, 5, b'C'), ('commit', 1, STAMP, ALL), ('update', 1, ALL, 1), ('edit', 1, 5, b'B')]
    ready = worked(6, *edits)
    whole = lambda model: (layout.store_bytes(model.blocks, model.log), {k: layout.copy_bytes(k, model.seats[k]) for k in SEATS})
    for model in (worked(6), ready, worked(6, *other, *edits[1:]), worked(3, *edits)):
        yield model, *whole(model)
    store, copies = whole(ready)
    content, wrong = layout.content(2, b'B'), {k: c[:-1] + b'\1' for k, c in copies.items()}
    for bad in (store[:-1], store[:600] + b'\1' + store[601:], layout.resealed(store[:6] + b'\1' + store[7:], 0), layout.tailed(store, [content])):
        yield ready, bad, copies
    for bad in ({k: c[:-512] for k, c in copies.items()}, wrong, {k: layout.copy_bytes(k, [('normal', 2, b'')] * 32) for k in SEATS}):
        yield ready, store, bad
    yield ready, layout.tailed(store, [content, b'\xff' * 512]), wrong


def of_buffers(store, copy):
    """The numbers of the buffers that hold, in the order of the refusals."""
    number, trees, tail = accept.store_refusal(store)
    return [number] if number else [n for n in (14 * (tail > 0), accept.copy_refusal(copy, trees)) if n]


def every_commit(engine):
    """Commits through every record: the first number that holds and nothing changed, or what a commit does."""
    for model, store, copies in benches():
        for seat, mask in itertools.product(SEATS, (ALL, 0)):
            numbers, usual = of_buffers(store, copies[seat]), lists.twin(model)
            bare = usual.call('commit', seat, STAMP, mask)
            done = bare, (layout.store_bytes(model.blocks, usual.log), layout.copy_bytes(seat, usual.seats[seat]))
            for record in (RECORDS if seat < 3 else ()) if numbers else RECORDS + WITH_LARGE:
                model.turn = record
                first = numbers[0] if numbers else model.asked(seat, STAMP, mask, True)[0]
                wanted = (('no', first), (store, copies[seat])) if first else done
                buffers = bytearray(store), bytearray(copies[seat])
                got = engine.call('turn_commit', *buffers, STAMP, mask, turn=record)
                calls.calls += 1
                if (got, buffers) != wanted:
                    fail(f'a commit of {mask} by {seat} through {record}, where of the buffers {numbers} hold: {got}, not {wanted[0]}, or other bytes')
                seven = mask == 0 or not turns.in_form(record)
                met(first, numbers + [7] * seven + [15] * (record[0] != seat) + [bare[1]] * (mask > 0 and bare[0] == 'no'), mask)


def met(first, holds, mask):
    """Counts a commit whose first refusal is this one, or 0, where these numbers hold."""
    if first != (holds or [0])[0]:
        fail(f'the model has {first} first of {holds}')
    seen[COMMITS, f'refused with {first}' if first else 'done'] += 1
    seen[COMMITS, '7 for the record' if mask else '7 for the mask'] += first == 7
    seen.update((ORDER, f'{n} before {later}') for n, later in itertools.combinations(holds, 2))


# ---- the bound

def waited(engine, group, turn, waits, name, *seat):
    """Makes a call on a record, and holds the bound to it. The record after it, and the waits: by seat, for each ask since it held the turn, how many turns ended."""
    after, waits = list(turn), [set(w) for w in waits]
    said = calls.on_record(engine, 'the bound', name, seat, after)
    if not turns.in_form(after):
        fail(f'{name} {seat} on {turn} leaves {after}')
    if name == 'ask' and said[0] == 'holder':
        waits[seat[0] - 1].add(0)
    if turn[0] and after[0] != turn[0]:
        if name == 'ask' or seat and seat[0] != turn[0]:
            fail(f'{name} {seat} on {turn} ends a turn')
        waits = [{n + 1 for n in w} for w in waits]
    if after[0]:
        seen.update((group, n) for n in waits[after[0] - 1])
        waits[after[0] - 1] = set()
    for k in SEATS:
        if max(waits[k - 1], default=0) >= 3:
            fail(f'{name} {seat} on {turn} is the third that ended a turn since {k} asked, and {after[0]} holds it')
    return tuple(after), tuple(map(frozenset, waits))


def every_list(engine):
    """Every list of calls on the record, from a free one: each call once in every state that they lead to, a record and its waits."""
    start = FREE, (frozenset(),) * 4
    states, found = [start], {start}
    while states and not calls.failed:
        turn, waits = states.pop()
        for name, *seat in CALLS:
            state = waited(engine, EVERY, turn, waits, name, *seat)
            if state not in found:
                found.add(state)
                states.append(state)
    if len({turn for turn, _ in found}) != 65:
        fail('the lists lead to another number of records')
    return len(found)


def record_list(engine, rng):
    """A random list of calls on the record, from a free one."""
    turn, waits = FREE, [()] * 4
    for _ in range(rng.choice([20, 100, 400])):
        name, seat = rng.choice(['ask', 'ask', 'ask', 'give', 'give', 'take']), rng.choice([*SEATS * 5, turn[0], turn[0], rng.choice(NONE)])
        args = () if name == 'take' else (seat,)
        before = turn
        turn, waits = waited(engine, SOME, turn, waits, name, *args)
        seen[ALONE, lists.on_record(before, name, args, turns.called(before, name, *args)[0])] += 1


# ---- mixed lists

def mixed_list(engine, rng):
    """A list of calls of every kind, held to the model; then the list that it comes to, and the calls on the record alone."""
    desk = calls.Desk.fresh(engine, rng.choice([2, 3, 4, 8, 12, 32, 65, 200]))
    ordinary, answers, on_record = [], [], []
    for _ in range(rng.choice([60, 120, 200])):
        c, holder = lists.any_call(rng, desk.model), desk.turn[0]
        said = desk.call(*c)
        if c[0] in turns.CALLS:
            on_record.append(c)
        elif c[0] != 'turn_commit' or c[1] == holder:
            ordinary.append(('commit', *c[1:]) if c[0] == 'turn_commit' else c)
            answers.append(said)
        elif said[0] != 'no':
            fail(f'{c} got through, and {holder} holds the turn')
    desk.whole()
    store, copies, turn = bytearray(len(desk.store)), {k: bytearray(layout.COPY_LEN) for k in SEATS}, list(FREE)
    engine.create_store(store)
    for k in SEATS:
        engine.create_copy(copies[k], k)
    if [engine.call(name, store, copies[k], *args) for name, k, *args in ordinary] != answers:
        fail('the ordinary calls that a list comes to answer otherwise')
    if (store, copies) != (desk.store, desk.copies):
        fail('the ordinary calls that a list comes to leave other buffers')
    for name, _, *args in on_record:
        engine.on_record(name, turn, *args)
    if turn != desk.turn:
        fail('the calls on the record leave another one by themselves')
    calls.calls += len(ordinary) + len(on_record)


def main():
    given = lists.options(__doc__, 60)
    engine, states = Engine(), 0
    if given.only is None:
        every_record(engine)
        every_commit(engine)
        states = every_list(engine)
    for n in given.numbers if not calls.failed else ():
        rng = random.Random(f'{given.seed} {n}')
        record_list(engine, rng)
        mixed_list(engine, rng)
        if calls.failed:
            print(f'failed in this list: tests/turns.py --seed {given.seed} --only {n}')
            break
    enough = given.enough and not calls.failed
    never = lists.tally(enough, [r for r in lists.TURNS if r != lists.TURN_DAMAGED]) + lists.group_tally(enough, GROUPS, seen)
    print(f'{calls.calls} calls, {states} states of the record and its waits, {calls.failed} wrong')
    sys.exit(calls.failed + never != 0)


if __name__ == '__main__':
    main()
