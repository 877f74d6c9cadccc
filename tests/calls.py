#!/usr/bin/env python3
"""Lists of calls by four seats through the engine's C library, held to the model after every call.

calls.py [--seed N] [--lists N] [--only K]

For each list a fresh store of 2 to 4,096 blocks, four fresh copies and a free turn record; answers, every byte of every buffer, the record, and reads are compared.
Cut commits and clearings, calls on the record and commits through it, releases and panel readings are among the calls, and in half of the lists the store is found
with a tail now and then, as a power cut leaves it. Then damage, with and without a tail: bytes of the buffers changed, resealed or not, blocks exchanged or made
release blocks, lengths wrong; the first refusal that holds by tests/model/accept.py must come and nothing may change, and where the buffers are accepted all the
same, the call must do as the model does. How often the calls met what W2, W3, W5, W6, W7 and W9 of document 02 are about is printed, and that some of it never came
is a failure.
At the first list that fails its seed and number are printed: `--seed N --only K` runs that list alone.
"""
import pathlib, random, sys

sys.path.insert(0, str(pathlib.Path(__file__).resolve().parent))
sys.path.insert(0, str(pathlib.Path(__file__).resolve().parent / 'model'))
import accept, layout, lists, sheets, turns
from engine import Engine

CHANGING = ('add', 'edit', 'delete', 'copy', 'move', 'commit', 'commit_cut', 'turn_commit', 'update', 'revert')
STORE_ONLY = lists.STORE_ONLY
COMMITS = ('commit', 'commit_cut', 'turn_commit')
ADDING = (*COMMITS, 'release')  # to the log
ALL = 0xffffffff
calls = failed = 0


def fail(what):
    global failed
    failed += 1
    if failed <= 10:
        print(what if len(what) < 400 else what[:400] + ' ..')


def played(model, store, some):
    """The model's answers to these calls, and the store after them. The store has the model's log, in any order."""
    answers = []
    for c in some:
        item = model.adds(c)[1]
        answers.append(lists.made(model, c))
        if c[0] in ('clear', 'clear_cut'):
            store = layout.cleared(store, *c[2:])
        elif item:
            store = layout.appended(store, item, *(c[4:] if c[0] == 'commit_cut' else ()))
    return answers, store


# ---- the power

def after(model, store, call, n):
    """The store after n block writes of a commit, a release or a clearing that the model would do."""
    return layout.cleared(store, n) if call[0] == 'clear' else layout.appended(store, model.adds(call)[1], n)


def cut_by(engine, call, store, copy, n):
    """The engine makes n block writes of a commit or a clearing that would be done, or of a release, of which there is no cut call: it has one write. What it
    answers."""
    name, _, *args = call
    if name != 'release':
        return engine.call(f'{name}_cut', store, copy, *args, n)
    return engine.call(name, store, copy, *args) if n else None


def due(model, call, n):
    """The block that its write number n, counted from 0, is for."""
    return model.used + model.tail - 1 - n if call[0] == 'clear' else model.used + n


def with_block(store, number, block):
    return store[:number * 512] + block + store[number * 512 + 512:]


# ---- tails

def junk(rng, revision):
    """Blocks with a wrong check by what they are: nearly right ones, and any."""
    commit = layout.commit_block(revision, rng.randint(1, 4), rng.getrandbits(32), [layout.line(i, 1, 1 + i) for i in range(rng.randint(1, 32))])
    half = rng.randrange(1, 508)
    release = layout.release_block(rng.randint(1, max(1, revision - 1)), rng.randint(1, 4), rng.getrandbits(32))
    blocks = {
        'a commit block, half written': commit[:half] + bytes(512 - half),
        'a release block, its check not written': release[:508] + bytes(4),
        'a release block, half written': release[:rng.randrange(1, 7)].ljust(512, b'\0'),
        'zeros with a check': bytes(508) + rng.choice([b'\1\0\0\0', b'\0\0\0\1', rng.randbytes(3) + b'\1']),
        'zeros with a check that is not reduced': bytes(508) + layout.two(65521) * 2,
        'a check that is not reduced': layout.sealed([3])[:508] + layout.two(3 + 65521) + layout.two(3 * 508),
        'ones': b'\xff' * 512,
        'any': rng.randbytes(512),
    }
    content = layout.content(revision, rng.randbytes(rng.choice([0, 1, 480])))
    for what, whole in ('commit', commit), ('release', release), ('content', content), ('label', layout.label()):
        at = rng.choice([0, 1, 4, 508, 511, rng.randrange(512)])
        blocks[f'a {what} block with a bit flipped'] = whole[:at] + bytes([whole[at] ^ 1 << rng.randrange(8)]) + whole[at + 1:]
    for kind in (*range(10), 255):
        blocks[f'any of kind {kind}'] = bytes([kind]) + rng.randbytes(511)
    assert all(b != layout.sealed(b[:508]) for b in blocks.values())
    return blocks


def random_tail(rng, model):
    """The blocks of a tail for a store with the model's log; none if it has no room."""
    room, revision = model.blocks - model.used, model.last() + 1
    count = min(room, rng.choice([0, 1, 2, rng.randint(0, 32), 32, 32]))
    tail = [layout.content(revision, rng.choice([b'', b'A', rng.randbytes(480)])) for _ in range(count)]
    if count < room and (count == 0 or rng.random() < 0.5):
        tail.append(rng.choice(list(junk(rng, revision).values())))
    if tail:
        both = len(tail) > count > 0
        lists.seen['content and junk' if both else 'content alone' if count else 'junk alone'] += 1
        lists.seen['32 contents and junk' if both else '32 contents'] += count == 32
        lists.seen['behind the label'] += model.used == 1
        lists.seen['up to the last block'] += len(tail) == room
    return tail


class Desk:
    """A store, four copies and a turn record beside the model: a store that has the model's log, in any order, and its tail, and the model's copies and record."""

    def __init__(self, engine, model, store):
        self.engine, self.model, self.store, self.laid_out, self.turn = engine, model, bytearray(store), bytes(store), list(model.turn)
        self.copies = {k: bytearray(layout.copy_bytes(k, entries)) for k, entries in model.seats.items()}

    @classmethod
    def fresh(cls, engine, blocks):
        desk = cls(engine, sheets.Machine(blocks), layout.store_bytes(blocks, []))
        desk.store = bytearray(b'\x5a' * blocks * 512)
        if engine.create_store(desk.store) != ('done',) or desk.store != desk.laid_out:
            fail(f'create of a store of {blocks} blocks')
        for k, wanted in desk.copies.items():
            desk.copies[k] = bytearray(b'\x5a' * layout.COPY_LEN)
            if engine.create_copy(desk.copies[k], k) != ('done',) or desk.copies[k] != wanted:
                fail(f'create of the copy of seat {k}')
        return desk

    def leave(self, tail):
        """The store is found with these blocks behind its history."""
        self.laid_out = layout.tailed(self.laid_out, tail)
        self.store[:] = self.laid_out
        lists.found(self.model, len(tail))

    def power(self, call, n, how, wrong):
        """The power fails while a commit, a release or a clearing that would be done writes its block number n, which is then old, new, or this block with a wrong
        check. What is written up to there, and the new block, is what the engine's cut calls write, or the release."""
        global calls
        stores = []
        for some in (n, n + 1):
            calls += 1
            store = bytearray(self.store)
            cut_by(self.engine, call, store, bytearray(self.copies[call[1]]), some)
            stores.append(bytes(store))
            if store != after(self.model, self.laid_out, call, some):
                fail(f'{call}, cut after {some} writes, leaves another store')
        before, new = stores
        self.laid_out = {'old': before, 'new': new, 'junk': with_block(before, due(self.model, call, n), wrong)}[how]
        self.store[:] = self.laid_out
        self.model.power(call, n, how)
        lists.since.pop(self.model, None)
        return ('cut',)

    def call(self, name, seat, *args):
        global calls
        calls += 1
        what = f'{name} by {seat} {args}'
        before = {k: bytes(c) for k, c in self.copies.items()}
        [wanted], self.laid_out = played(self.model, self.laid_out, [(name, seat, *args)])
        got = self.engine.call(name, self.store, self.copies[seat], *args, turn=self.turn)
        if got != wanted:
            fail(f'{what}: {got}, not {wanted}')
        if tuple(self.turn) != self.model.turn:
            fail(f'{what} leaves {self.turn}, not {self.model.turn}')
        if self.store != self.laid_out:
            fail(f'{what} leaves another store')
        elif (wanted[0] == 'revision' or name == 'release') and layout.log_of(self.laid_out) != (self.model.log, self.model.used, self.model.tail):
            fail(f'{what} leaves another history')
        for k, copy in self.copies.items():
            changes = k == seat and name in CHANGING and wanted[0] not in ('no', 'stopped')
            if copy != (layout.copy_bytes(k, self.model.seats[k]) if changes else before[k]):
                fail(f'{what} leaves another copy of seat {k}')
        return wanted

    def whole(self):
        """The store of a desk that was fresh follows from its history, with the releases, alone, but for a tail."""
        size = self.model.used * 512
        if self.store[:size] != layout.store_bytes(self.model.blocks, self.model.log)[:size]:
            fail('the calls leave another layout of the history')

    def look(self, rng):
        """Reads, and panel readings, at every revision of one sheet, and of every sheet at one; of many revisions a sample."""
        global calls
        last, sheet, revision = self.model.last(), rng.randrange(32), rng.randint(0, self.model.last())
        revisions = range(last + 1) if last < 40 else rng.sample(range(last + 1), 40)
        for r, i in [(r, sheet) for r in revisions] + [(revision, i) for i in range(32)]:
            for name in ('read', 'panel'):
                calls += 1
                if self.engine.call(name, self.store, None, r, i) != self.model.call(name, 1, r, i):
                    fail(f'{name} {r} {i}')


def random_list(engine, rng, number):
    """A list of random calls. List 0 fills a store of 4,096 blocks to its last block first, and so do a few others with smaller ones."""
    desk = Desk.fresh(engine, rng.choice([2, 3, 4, 8, 12, 32, 64, 65, 200, 1000, 4096]) if number else 4096)
    count, tails = rng.choice([60, 150, 300]), rng.choice([0, 0.04])
    if number == 0 or desk.model.blocks < 1000 and rng.random() < 0.15:
        fill(desk, rng)
        count = 60
    for n in range(count):
        if rng.random() < tails:
            desk.leave(random_tail(rng, desk.model))
        desk.call(*lists.random_call(rng, desk.model))
        if rng.random() < 0.25:
            desk.call(*lists.turn_call(rng, desk.model))
        if n % 20 == 0:
            desk.look(rng)
    desk.whole()
    return desk


def fill(desk, rng):
    """Commits of many sheets by the seats in turn, until one finds no room; then smaller ones, until none does. A release now and then."""
    for most in (32, 4, 1):
        answer = ()
        while answer != ('no', 13):
            seat, model = rng.randint(1, 4), desk.model
            desk.call('revert', seat, ALL)
            desk.call('update', seat, ALL, model.last())
            for sheet in rng.sample(range(32), most):
                data = bytes([rng.getrandbits(8)]) * rng.choice([1, 7, 480])
                desk.call('add' if model.seats[seat][sheet] == sheets.EMPTY else 'edit', seat, sheet, data)
            answer = desk.call('commit', seat, rng.getrandbits(32), ALL)
            if rng.random() < 0.1:
                desk.call('release', seat, max(0, model.last() - rng.choice([0, 0, 1])), rng.randint(1, 4), rng.getrandbits(32))


def entry(rng, last):
    """Some entry, whose base or source may be absent."""
    revision, data = max(1, last + rng.choice([1, 0, 0, -1])), bytes(rng.choice([0, 1, 480]))
    return rng.choice([('normal', revision, data), ('added', data), ('deleted', revision), ('copied', (rng.choice([0, 1, 2, 3, 5, 31]), revision), data)])


def put_release(rng, store, last):
    """Writes a release block into the store: behind the blocks that aren't zero, or over any of them. Whether it stands there is counted."""
    blocks = layout.filled_blocks(store)
    number = min(len(store) // 512 - 1, rng.choice([len(blocks), len(blocks), rng.randrange(len(blocks) + 1)]))
    revision = min(65535, max(0, rng.choice([last, rng.randint(0, last + 1), rng.randint(0, last + 1), 256 + last])))
    block = layout.release_block(revision, rng.choice([1, 2, 3, 4, 4, 0, 5, 255]), rng.getrandbits(32))
    if rng.random() < 0.2:
        at = rng.choice([1, 2, 3, 7, 12, 15, 16, 507])
        block = layout.sealed(block[:at] + b'\1' + block[at + 1:508])
    store[number * 512:number * 512 + 512] = block
    if number and blocks[number - 1][:1] == b'\2':
        lists.seen['a release block put behind a content block'] += 1
    lists.seen['a release block put where it ' + ('does not' if accept.refusal(bytes(store)) else 'stands')] += 1


def damage(rng, store, copy, last):
    """Changes a byte or a block of one of the buffers, or its length, and mostly seals the block again."""
    if rng.random() < 0.1 and len(store) >= 1024 and len(store) % 512 == 0:
        put_release(rng, store, last)
        return
    if rng.random() < 0.2:
        at = rng.choice([1, 2, 3, 4, 6, 8, 32]) * 512
        copy[at:at + 512] = layout.entry_block(entry(rng, last))
        return
    buffer = rng.choice([store, copy])
    kind = rng.choice(['byte'] * 8 + ['head'] * 6 + ['exchange'] * 2 + ['number'] * 2 + ['blank'] + ['length'] * 2)
    blocks, filled = len(buffer) // 512, len(layout.filled_blocks(buffer))
    number = rng.randrange(min(blocks, rng.choice([4, 33, 4096]))) if rng.random() < 0.7 else min(blocks - 1, max(0, filled - rng.randint(0, 3)))
    at = number * 512
    if kind == 'byte':
        buffer[at + rng.randrange(512)] ^= 1 << rng.randrange(8)
    elif kind == 'head':
        buffer[at + rng.randrange(32)] = rng.choice([0, 1, 2, 3, 4, 5, 6, 31, 32, 224, 255])
    elif kind == 'number':  # a length, a revision or a stamp that is one more or one less
        field = at + rng.choice([2, 4, 8])
        value = layout.two_at(buffer, field) + rng.choice([-1, 1])
        buffer[field:field + 2] = layout.two(value % 65536)
    elif kind == 'exchange':
        other = rng.randrange(len(buffer) // 512) * 512
        buffer[at:at + 512], buffer[other:other + 512] = buffer[other:other + 512], buffer[at:at + 512]
    elif kind == 'blank':
        buffer[at:at + 512] = bytes(512)
        return
    else:
        if rng.random() < 0.5:
            del buffer[-rng.choice([1, 511, 512]):]
        else:
            buffer.extend(bytes(rng.choice([1, 511, 512])))
        return
    if rng.random() < 0.85:
        buffer[at:at + 512] = layout.sealed(bytes(buffer[at:at + 508]))


def damaged(engine, rng, desk):
    """Calls on damaged buffers."""
    for _ in range(40 if desk.model.blocks <= 200 else 8):
        seat = rng.randint(1, 4)
        store, copy = bytearray(desk.store), bytearray(desk.copies[seat])
        if rng.random() < 0.4:
            store[:] = layout.tailed(store, random_tail(rng, desk.model))
        for _ in range(rng.choice([0, 1, 1, 1, 2])):
            damage(rng, store, copy, desk.model.last())
        ready = sum(1 << i for i in lists.current(desk.model, seat))
        commit, n = (seat, rng.getrandbits(32), rng.choice([ALL, ready or ALL])), rng.choice([0, 1, 2, 33])
        last = desk.model.last()
        of_release = ('release', seat, rng.choice([last, rng.randint(0, last + 1), *sheets.released(desk.model.log)[:2]]), rng.randint(0, 4), rng.getrandbits(32))
        some = [('commit', *commit), *[('commit_cut', *commit, n), ('turn_commit', *commit)] * 2, ('clear_cut', seat, n), *[of_release] * 2,
                ('panel', seat, rng.randint(0, last), rng.choice([0, 1, 2, 3, 5, 31]))]
        name, _, *args = lists.random_call(rng, desk.model) if rng.random() < 0.5 else rng.choice(some)
        turn = rng.choice([[seat, seat % 4 + 1, 0, 0], [rng.randint(0, 5) for _ in range(4)], desk.turn])
        on_buffers(engine, f'{name} {args} with {turn} on damaged buffers', name, args, store, copy, turn)


def on_buffers(engine, what, name, args, store, copy, turn=turns.FREE):
    """A call on buffers of any origin, through a turn record if it is such a commit: the refusal that comes first and nothing changed, or as the model does it. Its
    answer."""
    global calls
    calls += 1
    before = bytes(store), bytes(copy)
    number = accept.refusal(store, None if name in STORE_ONLY else copy, name in ADDING)
    if number == 14 and name in COMMITS:
        lists.seen[f'14 before {accept.refusal(store, copy)}'] += 1
    if number and name in ('commit_cut', 'clear_cut', 'turn_commit', 'release', 'panel'):
        lists.seen[f'{name} gives {number}'] += 1
        lists.seen[f'{name} refused at 0'] += args[-1] == 0
    got = engine.call(name, store, copy, *args, turn=turn)
    if number:
        if got != ('no', number):
            fail(f'{what}: {got}, not {number}')
        if (bytes(store), bytes(copy)) != before:
            fail(f'{what} changed a buffer')
    else:
        accepted(what, name, args, got, before, store, copy, turn)
    return got


def on_record(engine, what, name, args, turn):
    """A call on a turn record of any numbers: its answer and the record after it, as the model has them. Its answer."""
    global calls
    calls += 1
    before = tuple(turn)
    wanted = turns.called(before, name, *args)
    got = engine.on_record(name, turn, *args)
    if (got, tuple(turn)) != wanted:
        fail(f'{what}: {name} {args} on {before}: {got} and {turn}, not {wanted}')
    return got


def accepted(what, name, args, got, before, store, copy, turn):
    """A call on buffers of any origin that are accepted."""
    model = sheets.Machine(len(store) // 512)
    model.log, model.used, model.tail = layout.log_of(before[0])
    model.turn, seat = tuple(turn), 1
    if name not in STORE_ONLY:
        seat = before[1][1]
        model.seats[seat] = layout.entries_of(before[1])
    [wanted], wanted_store = played(model, before[0], [(name, seat, *args)])
    lists.seen[f'{name} stopped'] += wanted == ('stopped',)
    if wanted[0] == 'no':
        lists.seen[f'{name} gives {wanted[1]}'] += 1
    if got != wanted:
        fail(f'{what}: {got}, not {wanted}')
    if store != wanted_store:
        fail(f'{what} leaves another store')
    if copy != (layout.copy_bytes(seat, model.seats[seat]) if name in CHANGING and wanted[0] not in ('no', 'stopped') else before[1]):
        fail(f'{what} leaves another copy')


def main():
    given = lists.options(__doc__, 80)
    engine = Engine()
    for n in given.numbers:
        rng = random.Random(f'{given.seed} {n}')
        damaged(engine, rng, random_list(engine, rng, n))
        if failed:
            print(f'failed in this list: tests/calls.py --seed {given.seed} --only {n}')
            break
    never = lists.tally(given.enough and not failed, lists.COUNTED)
    print(f'{calls} calls, {failed} wrong')
    sys.exit(failed + never != 0)


if __name__ == '__main__':
    main()
