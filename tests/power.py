#!/usr/bin/env python3
"""W6 of document 02 through the engine's C library: the power fails at any block write of a commit, of a clearing or, by W9, of a release.

power.py [--seed N] [--lists N] [--only K]

Random lists by four seats, on stores of 3 to 4,096 blocks; one of 2 has no room for a commit. At a commit that would be done, the blocks that it writes come from
the engine's own cut calls with n = 0, 1, 2, ..: each write must change the one block that is due and none in use, and be the model's. Then for every write the
stores that a power cut can leave: "Blocks already written are new, the block being written is old, new or junk with a wrong check, and blocks due later are still
old." Of each found store every read, log, status and show must be as before the commit or, exactly if the commit block is new, as after it, with all four working
copies as they were; a commit gives 14 exactly if there is a tail; and after 0 to 5 clearings that are cut in the same way, clear must give the very bytes of the
store before or of the finished one. The list goes on from one of the found stores. Clearings and releases of the list are cut at every write likewise; a release
has one, and stands exactly if its block is new: every panel reading is as before it or as after it. Then a store of 4 blocks, commits of one sheet, of two and of a
delete alone, a release, and clearings of every tail, cut at every byte of every write. What was met is counted, and that some of it never came is a failure. At the
first list that fails its seed and number are printed: `--seed N --only K` runs that list alone.
"""
import collections, functools, pathlib, random, sys

sys.path.insert(0, str(pathlib.Path(__file__).resolve().parent))
sys.path.insert(0, str(pathlib.Path(__file__).resolve().parent / 'model'))
import calls, layout, lists, script, sheets
from calls import ALL, fail
from engine import Engine

SEATS = (1, 2, 3, 4)
ZERO = bytes(512)
KINDS = ('old', 'new', 'any', 'new and then old', 'old and then new', 'new with a bit flipped', 'old with a bit flipped', 'new with a bit of its check flipped', 'ones',
         'zeros with a byte of the check', *(f'kind {k} and zeros' for k in (*range(1, 10), 255)), 'a later commit, its check off by one',
         'a release, its check off by one', 'new, its check off by one')
SEALED = ('new with a bit flipped, sealed', 'a later commit', 'a content of the next revision', 'a release')
COMMITS = ('the first content', 'a content between', 'the last content', 'the commit block', 'the only block')
STORES = ('with the commit', 'without it', 'without a tail', 'content alone', 'content and junk', 'junk alone', '32 contents and junk', 'up to the last block')
ON = ('old', 'new content', 'junk', 'the commit', 'the finished commit')
OWNERS = ('refused with 11', 'agrees', 'has a delete, 12', 'nothing pending then, 10')
ROW = ('none', *map(str, range(1, 6)))
RELEASED = ('standing', 'not standing', 'without a tail', 'junk alone', 'behind a commit', 'behind a release', 'up to the last block', 'of an older revision')
AFTER = ('old', 'new', 'junk', 'the finished release')
GROUPS = {'kinds at a commit': KINDS, 'kinds at a clearing': KINDS, 'kinds at a release': KINDS, 'with a right check': SEALED, 'writes of a commit': COMMITS,
          'found stores': STORES, 'cut clearings in a row': ROW, 'lists went on from': ON, 'the owner of a finished commit': OWNERS,
          'cut clearings in lists': ('old', 'new', 'junk'), 'found after a release': RELEASED, 'lists went on from a release': AFTER,
          'a release on a found store': ('done', *(f'refused with {n}' for n in (7, 13, 14, 16)))}
seen = collections.Counter()


def sealed(block):
    return block == layout.sealed(block[:508])


# ---- blocks that are being written

def flipped(rng, block, *places):
    at = rng.randrange(*places)
    return block[:at] + bytes([block[at] ^ 1 << rng.randrange(8)]) + block[at + 1:]


def off_by_one(block):
    return block[:508] + layout.two((layout.two_at(block, 508) + 1) % 65536) + block[510:]


def kinds(rng, old, new, revision):
    """What can stand in a block that is to become new, by kind. Some have a right check."""
    at, check = rng.randrange(1, 512), rng.randrange(508, 512)
    later = layout.commit_block(revision + 1, rng.randint(1, 4), rng.getrandbits(32), [layout.line(i, 1, 1 + i) for i in range(rng.randint(1, 32))])
    release = layout.release_block(rng.randint(1, max(1, revision - 1)), rng.randint(1, 4), rng.getrandbits(32))
    yield 'old', old
    yield 'new', new
    yield 'any', rng.randbytes(512)
    yield 'new and then old', new[:at] + old[at:]
    yield 'old and then new', old[:at] + new[at:]
    yield 'new with a bit flipped', flipped(rng, new, 508)
    yield 'old with a bit flipped', flipped(rng, old, 508)
    yield 'new with a bit of its check flipped', flipped(rng, new, 508, 512)
    yield 'ones', b'\xff' * 512
    yield 'zeros with a byte of the check', ZERO[:check] + bytes([rng.randint(1, 255)]) + ZERO[check + 1:]
    for kind in (*range(1, 10), 255):
        yield f'kind {kind} and zeros', bytes([kind]) + ZERO[1:]
    yield 'a later commit, its check off by one', off_by_one(later)
    yield 'a release, its check off by one', off_by_one(release)
    yield 'new, its check off by one', off_by_one(new)
    yield 'new with a bit flipped, sealed', layout.sealed(flipped(rng, new, 508)[:508])
    yield 'a later commit', later
    yield 'a content of the next revision', layout.content(revision, b'')
    yield 'a release', release


def every_byte(old, new):
    """The block written up to each byte, from the front and from the back, and with a bit of each byte flipped."""
    for at in range(512):
        yield f'new up to byte {at}', new[:at] + old[at:]
        yield f'old up to byte {at}', old[:at] + new[at:]
        yield f'byte {at} flipped', new[:at] + bytes([new[at] ^ 1 << at % 8]) + new[at + 1:]


# ---- every read, log, status and show, and panel readings

@functools.lru_cache(5000)
def record(*call):
    return script.call_record(*call)


class Looks:
    """Every read and log of these sheets up to two revisions after the last, or of many revisions some, and every status and show; panel readings of all sheets at
    two revisions, and at all of them of two sheets: as a script, and what a machine answers."""

    def __init__(self, rng, last, sheets, kept):
        self.sheets, self.kept = sheets, kept  # by revision, its commit and the answers at it: they stay while the commit does
        self.revisions = range(last + 3) if last < 30 else [0, 1, *sorted(rng.sample(range(2, last - 1), 4)), *range(last - 1, last + 3)]
        self.by_seats = [(name, k, i) for k in SEATS for name in ('status', 'show') for i in sheets]
        some, few = rng.sample(sorted(sheets), 2), [last, rng.randint(0, last)]
        self.by_panels = [('panel', 1, r, i) for r in self.revisions for i in some] + [('panel', 1, r, i) for r in few for i in sheets]
        self.calls = [c for r in self.revisions for c in self.of(r)] + self.by_seats + self.by_panels
        self.text = bytearray(b''.join(record(*c) for c in self.calls))

    def of(self, r):
        return [(name, 1, r, i) for name in ('read', 'log') for i in self.sheets]

    def at(self, model, r):
        commit = model.history[r - 1] if 0 < r <= model.last() else None
        if r > model.last() or r not in self.kept or self.kept[r][0] is not commit:
            self.kept[r] = commit, b''.join(script.answer_record(model.call(*c)) for c in self.of(r))
        return self.kept[r][1]

    def answers(self, model):
        return b''.join(self.at(model, r) for r in self.revisions) + b''.join(script.answer_record(model.call(*c)) for c in self.by_seats + self.by_panels)


class Stand:
    """A machine without a tail, its store, and its answers."""

    def __init__(self, model, store, looks):
        self.model, self.store, self.wanted = model, store, looks.answers(model)
        self.model.tail = 0


# ---- found stores

class Test:
    def __init__(self, engine, rng, sheets=range(33)):
        self.engine, self.rng, self.sheets, self.kept = engine, rng, sheets, {}

    def same(self, what, got, wanted):
        if got != wanted:
            fail(f'{what}: {got}, not {wanted}')

    def bytes_same(self, what, got, wanted):
        if got != wanted:
            at = next(k for k in range(len(wanted)) if got[k:k + 1] != wanted[k:k + 1])
            fail(f'{what}: another byte {at % 512} of block {at // 512}')

    def tear(self, desk, call, kinds, writes=None, most=5):
        """Cuts a commit, a release or a clearing of the desk, which would be done, at these of its writes, with the block being written as `kinds(old, new)` says.
        The found stores, each with the number of the write and old, new or junk. The desk stays."""
        model, store = desk.model, bytes(desk.store)
        stores = self.sequence(desk, call)
        if calls.failed:
            return []
        looks = Looks(self.rng, model.last(), self.sheets, self.kept)
        before, whole = Stand(lists.twin(model), layout.cleared(store), looks), None
        if call[0] != 'clear':
            finished = lists.twin(model)
            finished.power(call, len(stores) - 2, 'new')
            whole = Stand(finished, stores[-1], looks)
        if call[0] == 'commit':
            self.owner(whole, call)
        self.looks, self.copies = looks, b''.join(desk.copies.values())
        found = []
        for n in range(len(stores) - 1) if writes is None else writes:
            place = calls.due(model, call, n)
            old, new = (stores[k][place * 512:place * 512 + 512] for k in (n, n + 1))
            for kind, block in kinds(old, new):
                what = f'{call}, write {n}, {kind}'
                state = 'old' if block == old else 'new' if block == new else 'junk'
                torn = calls.with_block(stores[n], place, block)
                if state == 'junk' and sealed(block):  # the rule says nothing of it
                    self.right_check(what, kind, torn, desk)
                    continue
                after = lists.twin(model)
                after.power(call, n, state)
                added = len(after.log) > len(model.log)
                if call[0] == 'release':
                    self.count_release(call, model, kind, state, after)
                else:
                    self.count(call, n, len(stores) - 2, kind, state, added, after)
                self.found(what, torn, whole if added else before, after.tail, most)
                found.append((n, state, torn))
        return found

    def count(self, call, n, k, kind, state, committed, after):
        seen[f'kinds at a {"commit" if call[0] == "commit" else "clearing"}', kind] += 1
        if call[0] != 'commit':
            return
        seen['writes of a commit', 'the only block' if k == 0 else 'the commit block' if n == k else 'the first content' if n == 0
             else 'the last content' if n == k - 1 else 'a content between'] += 1
        junk, contents = state == 'junk', after.tail - (state == 'junk')
        tail = 'without a tail' if not after.tail else 'junk alone' if not contents else 'content and junk' if junk else 'content alone'
        for what, there in zip(STORES, (committed, not committed, tail == STORES[2], tail == STORES[3], tail == STORES[4], tail == STORES[5], junk and contents == 32,
                                        after.tail and after.used + after.tail == after.blocks)):
            seen['found stores', what] += bool(there)

    def count_release(self, call, model, kind, state, after):
        """"a release standing or not": exactly if its block is new."""
        if (len(after.log) > len(model.log), after.tail) != {'old': (False, 0), 'new': (True, 0), 'junk': (False, 1)}[state]:
            fail(f'the model has another store after {call}, {state}')
        seen['kinds at a release', kind] += 1
        behind = isinstance(model.log[-1], sheets.Release)
        for what, there in zip(RELEASED, (state == 'new', state != 'new', not after.tail, after.tail, not behind, behind, model.used + 1 == model.blocks,
                                          call[2] < model.last())):
            seen['found after a release', what] += bool(there)

    def sequence(self, desk, call):
        """The stores after 0, 1, 2, .. writes, by the engine's cut calls. With n enough it is the usual call, answer and copy included. A release has one write and
        no cut call."""
        if call[0] == 'release':
            return self.one_write(desk, call)
        (name, seat, *args), model = call, desk.model
        blocks, usual = model.writes(call), lists.twin(model)
        answer, stores = usual.call(*call), []
        for n in (*range(blocks + 2), 33, 34, 2 ** 32 - 1, None):
            store, copy = bytearray(desk.store), bytearray(desk.copies[seat])
            what = f'{call}, n = {n}'
            said = self.engine.call(*((name, store, copy, *args) if n is None else (f'{name}_cut', store, copy, *args, n)))
            stops = n is not None and n < blocks
            self.same(what, said, ('stopped',) if stops else answer)
            self.bytes_same(f'{what}, the store', store, calls.after(model, desk.laid_out, call, n if stops else 33))
            self.bytes_same(f'{what}, the copy', copy, desk.copies[seat] if stops or name == 'clear' else layout.copy_bytes(seat, usual.seats[seat]))
            if n == len(stores) <= blocks:
                stores.append(bytes(store))
        for n in range(blocks):
            changed = [k for k in range(model.blocks) if stores[n][k * 512:k * 512 + 512] != stores[n + 1][k * 512:k * 512 + 512]]
            if changed != [calls.due(model, call, n)] or changed[0] < model.used:
                fail(f'{call}: write {n} changes {changed}')
        return stores

    def one_write(self, desk, call):
        store = bytearray(desk.store)
        self.same(f'{call}', self.engine.release(store, *call[2:]), ('done',))
        self.bytes_same(f'{call}, the store', store, calls.after(desk.model, desk.laid_out, call, 1))
        changed = [k for k in range(desk.model.blocks) if store[k * 512:k * 512 + 512] != desk.store[k * 512:k * 512 + 512]]
        if changed != [desk.model.used]:
            fail(f'{call} changes {changed}')
        return [bytes(desk.store), bytes(store)]

    def found(self, what, store, stand, tail, most=5):
        """A store that is found, with so many blocks of a tail: accepted, with the history of the stand; commit; cut clearings, and what clear then leaves."""
        self.looked(what, store, stand)
        for name, seat, *args in self.rng.sample(self.looks.calls, 4):
            copy = self.copies[(seat - 1) * layout.COPY_LEN:seat * layout.COPY_LEN]
            self.same(f'{what}: {name} {args}', self.engine.call(name, store, copy, *args), stand.model.call(name, seat, *args))
        self.committed(what, store, stand, tail)
        self.cleared(what, bytearray(store), stand, tail, most)

    def looked(self, what, found, stand):
        store, copies, answers = bytearray(found), bytearray(self.copies), bytearray(len(self.looks.text))
        self.same(what, self.engine.replay(self.looks.text, store, copies, answers), ('done',))
        if answers != stand.wanted:
            n = next(n for n in range(len(self.looks.calls)) if answers[n * 512:n * 512 + 512] != stand.wanted[n * 512:n * 512 + 512])
            fail(f'{what}: another answer of {self.looks.calls[n]}')
        if store != found or copies != self.copies:
            fail(f'{what}: looking changed a buffer')

    def committed(self, what, found, stand, tail):
        """Commit, cut or not, by any seat, and release: 14 exactly if there is a tail."""
        seat, last = self.rng.choice(SEATS), stand.model.last()
        commit = ('commit', seat, self.rng.getrandbits(32), self.rng.choice([ALL, ALL, 0]))
        release = ('release', seat, self.rng.choice([last, last, self.rng.randint(0, last + 1)]), self.rng.choice([1, 2, 3, 4, 4, 5]), self.rng.getrandbits(32))
        for c in (commit, ('commit_cut', *commit[1:], self.rng.choice([0, 1, 33])), release):
            store, copy = bytearray(found), bytearray(self.copies[(seat - 1) * layout.COPY_LEN:seat * layout.COPY_LEN])
            if tail:
                wanted, wanted_store, wanted_copy = ('no', 14), found, bytes(copy)
            else:
                model = lists.twin(stand.model)
                [wanted], wanted_store = calls.played(model, stand.store, [c])
                wanted_copy = layout.copy_bytes(seat, model.seats[seat])
            if c == release:
                seen['a release on a found store', 'done' if wanted[0] == 'done' else f'refused with {wanted[1]}'] += 1
            self.same(f'{what}: {c}', self.engine.call(c[0], store, copy, *c[2:]), wanted)
            self.bytes_same(f'{what}: {c}, the store', store, wanted_store)
            self.bytes_same(f'{what}: {c}, the copy', copy, wanted_copy)

    def cleared(self, what, store, stand, tail, most):
        """Up to so many cut clearings in a row, and a clearing."""
        used, made = stand.model.used, 0
        for _ in range(self.rng.randint(0, most)):
            if not tail:
                break
            n, revision = self.rng.randrange(tail), stand.model.last() + 1
            steps = []
            for some in (n, n + 1):
                step = bytearray(store)
                self.same(f'{what}: a clearing cut after {some} writes', self.engine.clear_cut(step, some), ('stopped',) if some < tail else ('done',))
                left = (used + tail - some) * 512
                self.bytes_same(f'{what}: a clearing cut after {some} writes', step, bytes(store[:left]) + bytes(len(store) - left))
                steps.append(step)
            place = used + tail - 1 - n
            old, new = (bytes(step[place * 512:place * 512 + 512]) for step in steps)
            kind, block = self.rng.choice([x for x in kinds(self.rng, old, new, revision) if x[0] not in SEALED])
            if block not in (old, new) and sealed(block):
                break
            store = bytearray(calls.with_block(bytes(steps[0]), place, block))
            tail -= n + (block == new)
            made += 1
            self.looked(f'{what}: a cut clearing, write {n}, {kind}', bytes(store), stand)
        seen['cut clearings in a row', ROW[made]] += 1
        for again in ('clear', 'clear again'):
            self.same(f'{what}: {again}', self.engine.clear(store), ('done',))
            self.bytes_same(f'{what}: {again} after {made} cut clearings', store, stand.store)

    def right_check(self, what, kind, store, desk):
        """A block that is neither old nor new and has a right check: a call refuses and changes nothing, or does as the model does."""
        seen['with a right check', kind] += 1
        seat = self.rng.choice(SEATS)
        for c in [('read', desk.model.last(), 5), ('clear',), ('clear_cut', 1), ('commit', 7, ALL), ('commit_cut', 7, ALL, 1), ('status', 5),
                  ('panel', desk.model.last(), 5), ('release', desk.model.last(), 3, 9)]:
            calls.on_buffers(self.engine, f'{what}: {c}', c[0], c[1:], bytearray(store), bytearray(desk.copies[seat]))

    def owner(self, whole, call):
        """The commit block is new and the copy is as before: its owner "meets 11", and by W2 agrees at the next update, unless it deleted."""
        _, seat, stamp, mask = call
        desk, last = calls.Desk(self.engine, lists.twin(whole.model), whole.store), whole.model.last()
        self.same(f'{call} again', desk.call(*call), ('no', 11))
        seen['the owner of a finished commit', 'refused with 11'] += 1
        deletes = any(action == sheets.DELETE for action, _, _ in whole.model.history[-1][2].values())
        self.same(f'{call} and an update', desk.call('update', seat, mask, last), ('no', 12) if deletes else ('done',))
        seen['the owner of a finished commit', 'has a delete, 12' if deletes else 'agrees'] += 1
        if deletes:
            desk.call('revert', seat, mask)
            self.same(f'{call}, revert and an update', desk.call('update', seat, mask, last), ('done',))
        self.same(f'{call} after an update', desk.call(*call), ('no', 10))
        seen['the owner of a finished commit', 'nothing pending then, 10'] += 1

    # ---- lists

    def some_kinds(self, revision):
        return lambda old, new: kinds(self.rng, old, new, revision)

    def commit(self, desk, call, writes=None):
        """A commit of a list, cut everywhere; the list then goes on from one of the found stores, or with the commit done."""
        found = self.tear(desk, call, self.some_kinds(desk.model.last() + 1), writes)
        if calls.failed:
            return
        if self.rng.random() < 0.3:
            seen['lists went on from', 'the finished commit'] += 1
            desk.call(*call)
            return
        groups, blocks = collections.defaultdict(list), desk.model.writes(call)
        for n, state, store in found:
            groups[state if state != 'new' else 'the commit' if n + 1 == blocks else 'new content'].append((n, state, store))
        what = self.rng.choice(sorted(groups))
        seen['lists went on from', what] += 1
        n, state, store = self.rng.choice(groups[what])
        desk.model.power(call, n, state)
        desk.store[:] = desk.laid_out = store

    def release(self, desk, call):
        """A release of a list, cut likewise; the list then goes on from one of the found stores, or with the release done."""
        found = self.tear(desk, call, self.some_kinds(desk.model.last() + 1))
        if calls.failed:
            return
        if self.rng.random() < 0.3:
            seen['lists went on from a release', 'the finished release'] += 1
            desk.call(*call)
            return
        how = self.rng.choice(['old', 'new', 'junk'])
        seen['lists went on from a release', how] += 1
        n, state, store = self.rng.choice([x for x in found if x[1] == how])
        desk.model.power(call, n, state)
        desk.store[:] = desk.laid_out = store

    def do(self, desk, c):
        """A call of a list. A commit or a release that is done is cut everywhere."""
        if c[0] in ('commit', 'release') and desk.model.writes(c):
            (self.commit if c[0] == 'commit' else self.release)(desk, c)
        else:
            desk.call(*c)

    def clear(self, desk):
        """Clears the tail of a list's store, now and then cut everywhere."""
        while desk.model.tail and self.rng.random() < 0.6:
            seat, how = self.rng.choice(SEATS), self.rng.choice(['old', 'new', 'junk'])
            call, n = ('clear', seat), self.rng.randrange(desk.model.tail)
            if desk.model.tail < 8:
                self.tear(desk, call, self.some_kinds(desk.model.last() + 1), [n], 2)
            desk.power(call, n, how, self.rng.choice(list(calls.junk(self.rng, desk.model.last() + 1).values())))
            seen['cut clearings in lists', how] += 1
        desk.call('clear', 1)

    def work(self, desk, most):
        """Work of a seat on the last revision, and a commit of it."""
        seat, model, rng = self.rng.choice(SEATS), desk.model, self.rng
        desk.call('revert', seat, ALL)
        desk.call('update', seat, ALL, model.last())
        there, deletes = sorted(model.tree(model.last())), rng.random() < 0.2
        for sheet in rng.sample(there, min(len(there), most)) if deletes and there else rng.sample(range(32), most):
            entry = model.seats[seat][sheet]
            if entry == sheets.EMPTY and there and rng.random() < 0.4:
                desk.call(rng.choice(['copy', 'move']), seat, rng.choice(there), sheet)
            elif entry == sheets.EMPTY:
                desk.call('add', seat, sheet, rng.choice([b'', b'A', rng.randbytes(rng.randint(1, 20)), rng.randbytes(480)]))
            elif deletes or rng.random() < 0.2:
                desk.call('delete', seat, sheet)
            else:
                desk.call('edit', seat, sheet, rng.randbytes(rng.randint(1, 20)))
        return ('commit', seat, rng.getrandbits(32), ALL)

    def random_list(self, number):
        rng = self.rng
        if number == 0:
            return self.largest()
        desk = calls.Desk.fresh(self.engine, {1: 100, 2: 4096}.get(number) or rng.choice([3, 4, 5, 8, 12, 20, 40, 65, 200, 600]))
        for n in range(1 if number == 1 else rng.choice([3, 5, 7])):
            for _ in range(rng.choice([0, 2, 6])):
                self.do(desk, lists.random_call(rng, desk.model))
            if desk.model.tail:
                self.clear(desk)
            self.do(desk, self.work(desk, 32 if number == 1 else rng.choice([1, 1, 2, 3, 6])))
            for _ in range(rng.choice([0, 0, 1, 2])):
                if desk.model.tail:
                    self.clear(desk)
                left = [r for r in range(1, desk.model.last() + 1) if r not in sheets.released(desk.model.log)]
                if left:
                    self.do(desk, ('release', 1, rng.choice([left[-1], rng.choice(left)]), rng.choice(SEATS), rng.getrandbits(32)))
            if calls.failed:
                return
        if desk.model.tail:
            self.clear(desk)
        desk.whole()

    def largest(self):
        """A store of 4,096 blocks with room for just one commit of 32 sheets; cut at some of its writes."""
        model = sheets.Machine(4096)
        model.log = [(1, n, {5: (sheets.CHANGE if n else sheets.ADD, b'%d' % n, None)}) for n in range(2031)]
        model.used = 4063
        model.seats[4] = [('added', b'%d' % i) for i in range(32)]
        model.seats[4][5] = ('normal', model.last(), b'5')
        desk = calls.Desk(self.engine, model, layout.store_bytes(4096, model.log))
        sample = lambda old, new: [x for x in kinds(self.rng, old, new, model.last() + 1) if x[0] in ('old', 'new') or x[0] not in SEALED and self.rng.random() < 0.4]
        self.tear(desk, ('commit', 4, 7, ALL), sample, [0, 1, 31, 32], 2)
        self.tear(desk, ('release', 1, 2031, 4, 7), sample, None, 2)


# ---- every byte

def small(engine, some):
    """A desk with a store of 4 blocks after these calls."""
    desk = calls.Desk.fresh(engine, 4)
    for c in some:
        assert desk.call(*c)[0] != 'no'
    return desk


def exhaustive(engine, rng):
    """A store of 4 blocks: commits of one sheet, of two and of a delete alone, and a release, at every write the block cut at every byte; then every tail, cleared
    likewise."""
    test = Test(engine, rng, (0, 5, 6, 9, 31, 32))
    one, two, delete = [('add', 1, 5, b'A')], [('add', 1, 5, b''), ('add', 1, 9, bytes(range(1, 256)) + bytes(range(225)))], [('delete', 1, 5)]
    commit = ('commit', 1, 7, ALL)
    for some in (one, two, [*one, commit, *delete]):
        test.tear(small(engine, some), commit, every_byte, None, 1)
    test.tear(small(engine, [*one, commit]), ('release', 1, 1, 3, 9), every_byte, None, 1)
    content = [layout.content(1, data) for data in (b'A', b'', bytes(range(1, 256)) + bytes(range(225)))]
    wrong = [layout.label()[:-1] + b'\xff', b'\xff' * 512, content[0][:100] + ZERO[100:]]
    for tail in ([content[0]], [content[2], content[0]], [wrong[0]], [content[1], wrong[1]], [content[0], content[2], content[1]], [content[2], content[1], wrong[2]]):
        desk = small(engine, one)
        desk.leave(tail)
        test.tear(desk, ('clear', 1), every_byte, None, 1)


def main():
    given = lists.options(__doc__, 50)
    engine = Engine()
    for n in given.numbers:
        Test(engine, random.Random(f'{given.seed} {n}')).random_list(n)
        if calls.failed:
            print(f'failed in this list: tests/power.py --seed {given.seed} --only {n}')
            break
    if given.only is None:
        exhaustive(engine, random.Random(given.seed))
    never = lists.group_tally(given.enough and not calls.failed, GROUPS, seen)
    stores = sum(seen['found stores', what] for what in STORES[:2])
    cut = sum(count for (group, *_), count in seen.items() if group == 'kinds at a clearing')
    released = sum(seen['found after a release', what] for what in RELEASED[:2])
    print(f'{stores} stores found after a commit was cut, {cut} after a clearing was, {released} after a release was, {calls.failed} wrong')
    sys.exit(calls.failed + never != 0)


if __name__ == '__main__':
    main()
