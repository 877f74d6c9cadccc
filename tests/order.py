#!/usr/bin/env python3
"""W1 of document 02 through the engine's C library: a commit's changes by rising sheet number, its content blocks in the order of the changes that point to them.

order.py [--seed N] [--lists N] [--only K]

For each list of calls another one that makes the same history by other calls: both call by call and as scripts, on four fresh stores of one size, which must be
equal once their tails are cleared, though commits and clearings between were stopped half way and one of the stores is found with other tails on its way; and one
that makes another history, which must leave other bytes. W6: "W1 speaks of stores without a tail." W9: "For layout and W1 a history includes its releases and their
places", here the log of tests/model. Then a history in a random order of its changes and of its content blocks: accepted, and read as the model does; more calls on
it, which must leave the blocks that are there and lay out theirs in W1's order; and damage, as tests/calls.py and tests/replay.py do it. Then stores laid out by
hand. At the first list that fails its seed and number are printed: `--seed N --only K` runs that list alone.
"""
import collections, pathlib, random, sys

sys.path.insert(0, str(pathlib.Path(__file__).resolve().parent))
sys.path.insert(0, str(pathlib.Path(__file__).resolve().parent / 'model'))
import accept, calls, layout, lists, replay, sheets
from calls import fail
from engine import Engine
from sheets import ADD, CHANGE, COPY, DELETE, Release, commits_of, released

LOOKS = ('read', 'show', 'status', 'log', 'panel')
OF_RELEASE = ('release less', 'release more', 'place of a release', 'revision of a release', 'seat of a release', 'stamp of a release')
WAYS = ('last commit', 'stamp', 'seat', 'byte', 'length', 'source', 'action', *OF_RELEASE)
SHARED = ('copies that share a block', 'of them between two content blocks', 'in a block that W1 numbers otherwise', 'past block 255')
BETWEEN = ('calls on entries that no commit takes', 'looks', 'clears', 'stopped commits', 'stopped clearings',
           *(f'calls refused with {n}' for n in (*range(7, 15), 16)))
CUT = ('calls beside a tail', 'commits of a history as cut calls')
RING = 'rings of copies'
ANOTHER = tuple(f'another {way}' for way in WAYS)
RELEASED = ('releases of a history', 'commits of a history behind a release', 'stores in another order with releases', 'other histories by their releases alone')
seen = collections.Counter(dict.fromkeys(['pairs', 'tails cleared', 'stores in another order', 'left out', *SHARED, RING, *BETWEEN, *CUT, *RELEASED, *ANOTHER], 0))


# ---- histories

def used(log):
    """The blocks that a history takes."""
    model = sheets.Machine(4096)
    model.log = log
    return 1 + len(released(log)) + sum(1 + sum(map(model.content, changes.values())) for _, _, changes in model.history)


def can_be(log, blocks):
    """Whether calls can make the history: no change to the bytes that are there already, no release of a revision that is not there or that is released, and room."""
    model = sheets.Machine(blocks)
    model.log = log
    for n, (_, _, changes) in enumerate(model.history):
        tree = model.tree(n)
        if any(action == CHANGE and data == tree[i] for i, (action, data, _) in changes.items()):
            return False
    ahead = any(isinstance(item, Release) and not 1 <= item.revision <= len(commits_of(log[:n])) for n, item in enumerate(log))
    return not ahead and len(set(released(log))) == len(released(log)) and used(log) <= blocks


def random_bytes(rng):
    return rng.choice([b'', bytes([rng.randrange(4)]), rng.randbytes(rng.choice([1, 2, 16])), rng.randbytes(480)])


def random_source(rng, model, trees, sheet, changes):
    """A source for the sheet, or None: anything, the sheet itself as it was once, or a sheet that the commit then deletes, which is a move."""
    way, last, found = rng.choice(['none', 'any', 'any', 'itself', 'move']), model.last(), []
    if way == 'any':
        found = [(i, r) for r in range(1, last + 1) for i in trees[r]]
    elif way == 'itself':
        found = [(sheet, r) for r in range(1, last + 1) if sheet in trees[r]]
    elif way == 'move':
        found = [(i, r) for i in trees[last] if i not in changes for r in range(model.namer(last, i), last + 1)]
    source = rng.choice(found) if found else None
    if source and way == 'move':
        changes[source[0]] = (DELETE, None, None)
    return source


def random_commit(rng, model, sizes=(1, 2, 4, 7, 12, 32)):
    """A commit that can come next."""
    trees, changes = [model.tree(r) for r in range(model.last() + 1)], {}
    for sheet in rng.sample(range(32), rng.choice(sizes)):
        data = random_bytes(rng)
        if sheet in changes:
            continue
        if sheet in trees[-1]:
            changes[sheet] = (DELETE, None, None) if data == trees[-1][sheet] or rng.random() < 0.3 else (CHANGE, data, None)
            continue
        source = random_source(rng, model, trees, sheet, changes)
        if source and rng.random() < 0.7:
            data = trees[source[1]][source[0]]
        changes[sheet] = (COPY if source else ADD, data, source)
    return rng.randint(1, 4), rng.choice([0, 2 ** 32 - 1, rng.getrandbits(32)]), changes


def random_releases(rng, log):
    """Releases that can come next: none, one or two, of any revisions that aren't released."""
    left = [r for r in range(1, len(commits_of(log)) + 1) if r not in released(log)]
    return [random_release(rng, r) for r in rng.sample(left, min(len(left), rng.choice([0, 0, 1, 2])))]


def random_release(rng, revision):
    return Release(revision, rng.randint(1, 4), rng.choice([0, 2 ** 32 - 1, rng.getrandbits(32)]))


def random_history(rng, commits, *sizes):
    model = sheets.Machine(4096)
    for _ in range(commits):
        model.log.append(random_commit(rng, model, *sizes))
        model.log += random_releases(rng, model.log)
    return model.log


def other_release(rng, log, way):
    """A log that differs in a release: one more or less, or one of them at another place, of another revision, seat or stamp."""
    at = [n for n, item in enumerate(log) if isinstance(item, Release)]
    n = rng.randint(1, len(log)) if way == 'release more' else rng.choice(at) if at else None
    if n is None:
        return log
    if way == 'release more':
        return [*log[:n], random_release(rng, rng.randint(1, len(commits_of(log[:n])))), *log[n:]]
    rest, item = [*log[:n], *log[n + 1:]], log[n]
    if way == 'release less':
        return rest
    if way == 'place of a release':
        n = rng.randint(1, len(rest))
    elif way == 'revision of a release':
        item = item._replace(revision=rng.randint(1, len(commits_of(log))))
    elif way == 'seat of a release':
        item = item._replace(seat=rng.randint(1, 4))
    else:
        item = item._replace(stamp=item.stamp ^ 1 << rng.randrange(32))
    return [*rest[:n], item, *rest[n:]]


def another(rng, log, blocks):
    """A history that differs in one place and has room in so many blocks."""
    model, other = sheets.Machine(blocks), log
    model.log = log
    while other == log or not can_be(other, blocks):
        way = rng.choice(WAYS) if log else 'last commit'
        if way == 'last commit':
            last = max((n for n, item in enumerate(log) if not isinstance(item, Release)), default=0)
            other = rng.choice([log[:last], log + [random_commit(rng, model)]])
            continue
        if way in OF_RELEASE:
            other = other_release(rng, log, way)
            continue
        commits = [(n, item) for n, item in enumerate(log) if not isinstance(item, Release)]
        places = [(n, i) for n, (_, _, changes) in commits for i, c in changes.items() if c[2] or way not in ('source', 'action')]
        if not places:
            continue
        n, sheet = rng.choice(places)
        seat, stamp, changes = log[n]
        before = len(commits_of(log[:n]))
        action, data, source = changes[sheet]
        if way == 'stamp':
            stamp ^= 1 << rng.randrange(32)
        elif way == 'seat':
            seat = rng.randint(1, 4)
        elif way == 'byte' and data:
            at = rng.randrange(len(data))
            data = data[:at] + bytes([data[at] ^ 1 << rng.randrange(8)]) + data[at + 1:]
        elif way == 'length' and action != DELETE and len(data) < 480:
            data += b'\0'
        elif way == 'source':
            source = rng.choice([(i, r) for r in range(1, before + 1) for i in model.tree(r)])
        elif way == 'action':
            action, source = ADD, None
        other = [*log[:n], (seat, stamp, {**changes, sheet: (action, data, source)}), *log[n + 1:]]
    seen[f'another {way}'] += 1
    seen['other histories by their releases alone'] += way in OF_RELEASE
    return other


# ---- lists of calls

def mask(chosen):
    return sum(1 << i for i in chosen)


class Maker:
    """Makes calls on a model, and keeps them with their answers. `commit` makes a given commit in one way of many, with other work in between, `release` a given
    release."""

    def __init__(self, rng, model):
        self.rng, self.model, self.calls, self.said, self.seen = rng, model, [], [], collections.Counter()

    def call(self, *c):
        self.calls.append(c)
        self.said.append(self.model.call(*c))

    def random(self, count):
        for _ in range(count):
            self.call(*lists.random_call(self.rng, self.model))

    def does(self, *c):
        self.call(*c)
        assert self.said[-1] == ('done',), (c, self.said[-1])

    def script(self):
        return b''.join(replay.random_record(self.rng, c) for c in self.calls)

    def noise(self, seat=1, kept=frozenset()):
        """Random calls that leave the history, and these entries of the seat: looks, refused calls, work of other seats, and of this one on other sheets."""
        for _ in range(self.rng.choice([0, 0, 1, 2])):
            c, trial = lists.random_call(self.rng, self.model), lists.twin(self.model)
            answer = trial.call(*c)
            if trial.log == self.model.log and all(trial.seats[seat][i] == self.model.seats[seat][i] for i in kept):
                self.call(*c)
                if answer[0] == 'no':
                    what = f'calls refused with {answer[1]}'
                elif answer[0] == 'stopped':
                    what = 'stopped commits' if c[0] == 'commit_cut' else 'stopped clearings'
                else:
                    what = 'clears' if c[0] in ('clear', 'clear_cut') else BETWEEN[c[0] in LOOKS]
                self.seen[what] += 1

    def cut(self, *commit):
        """A commit that stops half way, now and then, if it would be done; a tail is cleared then, in one call or in several."""
        blocks = self.model.asked(*commit)[2]
        if blocks and self.rng.random() < 0.3:
            self.call('commit_cut', *commit, self.rng.randrange(blocks))
            self.seen['stopped commits'] += 1
        while self.model.tail and self.rng.random() < 0.5:
            self.call('clear_cut', 1, self.rng.randint(0, self.model.tail))
            self.seen['stopped clearings'] += self.said[-1] == ('stopped',)
        if self.model.tail:
            self.call('clear', 1)

    def based(self, seat, sheet, revision, kept):
        """Brings an entry to what it is at a revision, and perhaps others, but none that is kept."""
        free = [i for i in range(32) if i not in kept and i != sheet]
        chosen = {sheet, *self.rng.sample(free, min(len(free), self.rng.choice([0, 0, 1, 5])))}
        self.does('revert', seat, mask(chosen))
        self.noise(seat, kept | chosen)
        self.does('update', seat, mask(chosen), revision)
        self.noise(seat, kept | {sheet})

    def emptied(self, seat, sheet, kept):
        self.based(seat, sheet, self.rng.choice([r for r in range(self.model.last() + 1) if sheet not in self.model.tree(r)]), kept)

    def enter(self, seat, sheet, change, kept, taking='copy'):
        """Brings an entry to a change."""
        (action, data, source), last = change, self.model.last()
        if action in (CHANGE, DELETE):
            self.based(seat, sheet, self.rng.randint(self.model.namer(last, sheet), last), kept)
        elif action == ADD:
            self.emptied(seat, sheet, kept)
            self.does('add', seat, sheet, self.rng.choice([data, random_bytes(self.rng)]))
        else:
            self.based(seat, *source, kept)
            self.emptied(seat, sheet, kept | {source[0]})
            if self.rng.random() < 0.3:
                self.does('edit', seat, source[0], self.rng.choice([data, random_bytes(self.rng)]))
            self.does(taking, seat, source[0], sheet)
        if action == DELETE:
            self.does('delete', seat, sheet)
        elif self.model.seats[seat][sheet][-1] != data:
            self.does('edit', seat, sheet, data)

    def undone(self, seat, sheet, kept):
        """Work on an entry that is to be committed, and back."""
        kind, data = self.model.seats[seat][sheet][0], self.model.seats[seat][sheet][-1]
        empty = [i for i in range(32) if i not in kept and self.model.seats[seat][i] == sheets.EMPTY]
        edit, chosen, place = ('edit', seat, sheet, data), 1 << sheet, sheet
        way = self.rng.choice(['edit', 'move', 'update', 'remove'])
        if way == 'update':
            there, back = [('update', seat, chosen, self.model.last())] * 2
        elif kind == 'deleted':
            there, back = ('revert', seat, chosen), ('delete', seat, sheet)
        elif way == 'move' and kind != 'normal' and empty:
            place = self.rng.choice(empty)
            there, back = ('move', seat, sheet, place), ('move', seat, place, sheet)
        elif way == 'remove' and kind == 'normal':
            there, back = ('revert', seat, chosen), edit
        elif way == 'remove' and kind == 'added':
            there, back = ('delete', seat, sheet), ('add', seat, sheet, data)
        else:
            there, back = (*edit[:3], random_bytes(self.rng)), edit
        self.does(*there)
        self.noise(seat, kept | {place})
        self.does(*back)

    def commit(self, seat, stamp, changes):
        """Makes a commit: an entry for each change, then the call. An entry waits while its sheet is the source of a copy to be made; where copies wait for each
        other in a ring, one is made at another place first and moved at its turn. Whether there was such a place."""
        todo, kept, parked = self.rng.sample(list(changes), len(changes)), set(), {}
        sources = {i: c[2][0] for i, c in changes.items() if c[0] == COPY}
        while (sheet := in_ring(sources)) is not None:
            places = [i for i in range(32) if i not in kept and i not in sources.values() and (i not in changes or changes[i][0] != COPY)]
            if not places:
                return False
            parked[sheet] = self.rng.choice(places)
            self.enter(seat, parked[sheet], changes[sheet], kept)
            kept.add(parked[sheet])
            del sources[sheet]
            self.seen[RING] += 1
        while todo:
            self.noise(seat, kept)
            sheet = next(i for i in todo if i not in sources.values() and i not in parked.values())
            todo.remove(sheet)
            if sheet in parked:
                self.emptied(seat, sheet, kept)
                self.does('move', seat, parked[sheet], sheet)
                kept.remove(parked.pop(sheet))
            elif self.moves(sheet, changes, sources):
                self.enter(seat, sheet, changes[sheet], kept, 'move')
                todo.remove(sources[sheet])
                kept.add(sources.pop(sheet))
            else:
                self.enter(seat, sheet, changes[sheet], kept)
                sources.pop(sheet, None)
            kept.add(sheet)
            if self.rng.random() < 0.3:
                self.undone(seat, self.rng.choice([i for i in changes if i in kept and i not in todo]), kept)
        others = [i for i in range(32) if i not in changes and not self.model.pending(i, self.model.seats[seat][i])]
        commit = seat, stamp, mask(changes) | mask(self.rng.sample(others, self.rng.randint(0, len(others))))
        self.cut(*commit)
        if self.rng.random() < 0.3:
            self.call('commit_cut', *commit, self.model.asked(*commit)[2] + self.rng.choice([0, 0, 1, 33]))
            self.seen['commits of a history as cut calls'] += 1
        else:
            self.call('commit', *commit)
        return True

    def release(self, release):
        """Makes a release, without a tail."""
        self.noise()
        if self.model.tail:
            self.call('clear', 1)
        self.does('release', self.rng.randint(1, 4), *release)
        self.seen['releases of a history'] += 1

    def item(self, item):
        """Makes a commit or a release. Whether it could be made."""
        if isinstance(item, Release):
            self.release(item)
            return True
        self.seen['commits of a history behind a release'] += isinstance((self.model.log or [None])[-1], Release)
        return self.commit(*item)

    def moves(self, sheet, changes, sources):
        """Whether a move makes the entry: mostly, if it is a copy whose source the commit deletes, no other copy needs and no commit named since."""
        source, last = changes[sheet][2], self.model.last()
        if not source or changes.get(source[0]) != (DELETE, None, None) or list(sources.values()).count(source[0]) > 1:
            return False
        return source[1] >= self.model.namer(last, source[0]) and self.rng.random() < 0.8


def in_ring(sources):
    """A sheet whose source's source, and so on, is itself; or None."""
    for sheet in sources:
        at = sheet
        for _ in sources:
            at = sources.get(at)
            if at == sheet:
                return sheet
    return None


def made(rng, blocks, log):
    """Calls that make the history on a fresh store, or None."""
    maker = Maker(rng, sheets.Machine(blocks))
    if not all(map(maker.item, log)):
        return None
    for _ in range(20):
        maker.noise()
    assert maker.model.log == log
    return maker


def bare(maker):
    """The calls clear what tail they left."""
    if maker.model.tail:
        maker.call('clear', 1)


# ---- the engine

def in_order(store, first):
    """W1 in its own words, for the commits from this block on. The copies that share a block are counted."""
    blocks = layout.used_blocks(store)
    plain = layout.used_blocks(layout.store_bytes(len(store) // 512, layout.log_of(store)[0]))  # every commit in W1's order
    for number in range(first, len(blocks)):
        if blocks[number][0] == 6:
            if number != first:
                fail(f'the release in block {number} stands behind content')
            first = number + 1
        if blocks[number][0] != 3:
            continue
        named, actions, points, _ = zip(*layout.lines_of(blocks[number]))
        own = [n for n, point in enumerate(points) if point >= first]
        if list(named) != sorted(named) or [points[n] for n in own] != list(range(first, number)):
            fail(f'the commit in block {number} is in another order')
        for n, (_, _, point, _) in enumerate(layout.lines_of(plain[number])):
            if actions[n] == COPY and n not in own:
                seen.update(what for what, there in zip(SHARED, (True, own and own[0] < n < own[-1], points[n] != point, points[n] > 255)) if there)
        first = number + 1


def pair(engine, rng):
    """Two lists that make one history by other calls leave equal bytes; a third that makes another history leaves other bytes."""
    if rng.random() < 0.4:
        first = Maker(rng, sheets.Machine(rng.choice([4, 12, 32, 64, 200])))
        first.random(rng.choice([60, 150, 300]))
        blocks, log = first.model.blocks, first.model.log
        other = another(rng, log, blocks)
    else:
        log = random_history(rng, rng.choice([1, 3, 6, 10]))
        other = another(rng, log, 4096)
        blocks = max(used(log), used(other)) + rng.choice([0, 0, 1, 9, 100])
        first = made(rng, blocks, log)
    second, third = made(rng, blocks, log), made(rng, blocks, other)
    if None in (first, second, third):
        seen['left out'] += 1
        return
    assert first.model.log == second.model.log != third.model.log and first.calls != second.calls
    wanted = layout.store_bytes(blocks, log)
    for maker in (first, second, third):
        bare(maker)
    for what, maker in (('the first list', first), ('the second list', second)):
        desk, script, found = calls.Desk.fresh(engine, blocks), replay.Desk.fresh(engine, blocks), False
        for c in maker.calls:
            if found and c[0] in calls.ADDING:  # not a tail that the list's own calls left
                desk.call('clear', 1)
                seen['tails cleared'] += 1
                found = False
            desk.call(*c)
            if maker is second and (found or not desk.model.tail) and rng.random() < 0.1:
                desk.leave(calls.random_tail(rng, desk.model))
                found = True
            seen['calls beside a tail'] += desk.model.tail > 0
        desk.call('clear', 1)
        script.replay(what, maker.script(), maker.said)
        script.held_to(what, maker.model)
        if not desk.store == script.store == wanted:
            return fail(f'{what} leaves other bytes')
        in_order(desk.store, 1)
    script = replay.Desk.fresh(engine, blocks)
    script.replay('the third list', third.script(), third.said)
    script.held_to('the third list', third.model)
    if script.store == wanted:
        fail('another history leaves equal bytes')
    seen['pairs'] += 1
    seen.update(first.seen + second.seen + third.seen)


def other_order(engine, rng, number):
    """A store in a random order: it is accepted and read, and more calls leave its blocks and go on in W1's order. List 0 has block numbers of two bytes."""
    commits, room, rounds, *sizes = (rng.choice([1, 3, 6, 10]), rng.choice([10, 40, 100]), rng.choice([1, 3, 5])) if number else (20, 200, 5, [32])
    log = random_history(rng, commits, *sizes)
    before = made(rng, used(log) + room, log)
    if before is None:
        seen['left out'] += 1
        return
    model = before.model
    model.tail = 0
    if rng.random() < 0.3:
        model.seats = sheets.Machine(model.blocks).seats
    shuffled = lambda xs: rng.sample(xs, len(xs))
    store = layout.store_bytes(model.blocks, log, shuffled, shuffled)
    if accept.refusal(store) or layout.log_of(store) != (log, model.used, 0):
        return fail('the model refuses a store in another order')
    desk, more = calls.Desk(engine, lists.twin(model), store), Maker(rng, lists.twin(model))
    script = replay.Desk(engine, store, b''.join(desk.copies.values()))
    for revision in range(model.last() + 2):
        for sheet in range(33):
            for name in ('read', 'log', 'panel'):
                desk.call(name, 1, revision, sheet)
    for _ in range(rounds):
        more.commit(*random_commit(rng, more.model, *sizes))
        for release in random_releases(rng, more.model.log)[:more.model.blocks - more.model.used]:
            more.release(release)
        more.random(rng.choice([0, 10]))
    for c in more.calls:
        desk.call(*c)
    if desk.store[:model.used * 512] != store[:model.used * 512] or accept.refusal(desk.store):
        return fail('the calls changed blocks in use, or leave no layout')
    in_order(desk.store, model.used)
    script.replay('the calls as a script', more.script(), more.said)
    script.held_to('the calls as a script', more.model, bytes(desk.store))
    calls.damaged(engine, rng, desk)
    replay.damaged(engine, rng, script, more.model)
    seen['stores in another order'] += store != layout.store_bytes(model.blocks, log)
    seen['stores in another order with releases'] += store != layout.store_bytes(model.blocks, log) and bool(released(log))
    seen.update(more.seen)


def by_hand(engine):
    """Stores whose blocks are listed here: a commit on a fresh one, then one behind it, and the same behind the first in another order; and with a release between
    the two, or behind them."""
    c, b, l, r = layout.content, layout.commit_block, layout.line, layout.release_block
    one = [('add', 2, 9, b'I'), ('add', 2, 3, b'C'), ('add', 2, 5, b''), ('commit', 2, 7, 1 << 3 | 1 << 5 | 1 << 9)]
    two = [('edit', 2, 9, b'J'), ('copy', 2, 5, 7), ('add', 2, 1, b'A'), ('move', 2, 3, 30), ('edit', 2, 30, b'K'), ('commit', 2, 8, 2 ** 32 - 1)]
    store = lambda *blocks: b''.join(blocks).ljust(10 * 512, b'\0')
    first = [layout.label(), c(1, b'C'), c(1, b''), c(1, b'I'), b(1, 2, 7, [l(3, ADD, 1), l(5, ADD, 2), l(9, ADD, 3)])]
    older = [layout.label(), c(1, b''), c(1, b'I'), c(1, b'C'), b(1, 2, 7, [l(9, ADD, 2), l(3, ADD, 3), l(5, ADD, 1)])]
    second = lambda shared, at=5: [c(2, b'A'), c(2, b'J'), c(2, b'K'), b(2, 2, 8, [
        l(1, ADD, at), l(3, DELETE, 0), l(7, COPY, shared, (5, 1)), l(9, CHANGE, at + 1), l(30, COPY, at + 2, (3, 1))])]
    release, released = [('release', 1, 1, 4, 9)], r(1, 4, 9)
    plain = [(one, first), (two, first + second(2))]
    between = [(one, first), (release, [*first, released]), (two, [*first, released, *second(2, 6)])]
    behind = [*plain, (release, [*first, *second(2), released])]
    for parts in (plain, between, behind):
        desk = calls.Desk.fresh(engine, 10)
        for some, wanted in parts:
            for call in some:
                desk.call(*call)
            if desk.store != store(*wanted):
                fail('the fresh store is not as listed')
    for some, wanted in ((two, second(1)), (release + two, [released, *second(1, 6)]), (two + release, [*second(1), released])):
        model = sheets.Machine(10)
        for call in one:
            model.call(*call)
        desk = calls.Desk(engine, model, store(*older))
        for call in some:
            desk.call(*call)
        if desk.store != store(*older, *wanted):
            fail('the store in another order is not as listed')


def main():
    given = lists.options(__doc__, 60)
    engine = Engine()
    wrong = lambda: calls.failed + replay.failed
    for n in given.numbers:
        rng = random.Random(f'{given.seed} {n}')
        pair(engine, rng)
        other_order(engine, rng, n)
        if wrong():
            print(f'failed in this list: tests/order.py --seed {given.seed} --only {n}')
            break
    by_hand(engine)
    if given.enough and not wrong():
        for what in (*SHARED, *BETWEEN, *CUT, *RELEASED, 'tails cleared'):
            if not seen[what]:
                fail(f'the lists have none of: {what}')
        if seen['left out'] > given.lists // 10:
            fail('too many are left out')
    print('; '.join(f'{what}: {count}' for what, count in seen.items()))
    print(f'{calls.calls} calls, {replay.scripts} scripts, {wrong()} wrong')
    sys.exit(wrong() != 0)


if __name__ == '__main__':
    main()
