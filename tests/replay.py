#!/usr/bin/env python3
"""Scripts through the engine's C library, held to the model: every answer and every byte of the store, the copies and the answers.

replay.py [--seed N] [--lists N] [--only K]

Lists of random calls by four seats, cut commits and clearings, releases and panel readings among them, in several scripts on one desk and in one script on another;
or in several scripts, and the store is found with a tail between them. What a record has no use for holds anything, and so does what the answers have beyond the
script. Then damaged buffers, with and without a tail, and bad scripts: the first refusal by tests/model/accept.py and nothing changed, or the model's run. Then
every fault alone and every two of them, scripts that begin on a tail, cut calls, releases and panel readings in records written by hand, and the worked script of
docs/LAYOUT.md. What the calls met of W2, W3, W5, W6 and W9 is counted as in tests/calls.py.
At the first list that fails its seed and number are printed: `--seed N --only K` runs that list alone.
"""
import itertools, pathlib, random, re, sys

sys.path.insert(0, str(pathlib.Path(__file__).resolve().parent))
sys.path.insert(0, str(pathlib.Path(__file__).resolve().parent / 'model'))
import accept, layout, lists, script, sheets
from calls import damage, junk, played, random_tail
from engine import Engine

SEATS = (1, 2, 3, 4)
ALL = 0xffffffff
NO_KINDS = (0, 16, 17, 18, 19, 22, 255)  # of a call's record; 16 to 19 are calls on the turn record and commits through it, which no script has
scripts = calls = failed = 0


def fail(what):
    global failed
    failed += 1
    if failed <= 10:
        print(what if len(what) < 400 else what[:400] + ' ..')


def cut(copies):
    return {k: copies[(k - 1) * layout.COPY_LEN:k * layout.COPY_LEN] for k in SEATS}


class Desk:
    """A store and four copies side by side."""

    def __init__(self, engine, store, copies):
        self.engine, self.store, self.copies = engine, bytearray(store), bytearray(copies)

    @classmethod
    def fresh(cls, engine, blocks):
        empty = sheets.Machine(blocks)
        return cls(engine, layout.store_bytes(blocks, []), b''.join(layout.copy_bytes(k, empty.seats[k]) for k in SEATS))

    def replay(self, what, text, wanted, rest=b''):
        """A script that must be done, with these answers; the answers' rest must stay."""
        global scripts, calls
        scripts += 1
        calls += len(wanted)
        answers = bytearray(b'\x5a' * len(text) + rest)
        said = self.engine.replay(text, self.store, self.copies, answers)
        if said != ('done',):
            fail(f'{what}: {said}')
        for n, a in enumerate(wanted):
            got = bytes(answers[n * 512:n * 512 + 512])
            if got != script.answer_record(a):
                fail(f'{what}, call {n}: {got.hex()}, not {a}')
        if answers[len(text):] != rest:
            fail(f'{what} changed the rest of the answers')

    def refused(self, what, text, answers, number):
        """A script that must be refused, with nothing changed."""
        global scripts
        scripts += 1
        before = bytes(self.store), bytes(self.copies), bytes(answers)
        said = self.engine.replay(text, self.store, self.copies, answers)
        if said != ('no', number):
            fail(f'{what}: {said}, not {number}')
        if (bytes(self.store), bytes(self.copies), bytes(answers)) != before:
            fail(f'{what} changed a buffer')

    def leave(self, tail):
        """The store is found with these blocks behind its history."""
        self.store[:] = layout.tailed(self.store, tail)

    def held_to(self, what, model, store=None):
        """Every byte of the layouts that the calls write: on a fresh store that of the history, on another one the store given."""
        if self.store != (store or layout.store_bytes(model.blocks, model.log)):
            fail(f'{what} leaves another store')
        for k, copy in cut(self.copies).items():
            if copy != layout.copy_bytes(k, model.seats[k]):
                fail(f'{what} leaves another copy of seat {k}')


def random_record(rng, call):
    return script.call_record(*call, unused=rng.choice([bytes(512), rng.randbytes(512)]))


def random_calls(rng, model, store, count):
    """Calls, the answers of the model, which makes them, and the store after them."""
    some, answers = [], []
    for _ in range(count):
        c = lists.random_call(rng, model)
        if c[0] in ('add', 'edit') and rng.random() < 0.02:
            c = (*c[:-1], rng.randbytes(rng.randint(477, script.MOST)))
        some.append(c)
        said, store = played(model, store, [c])
        answers += said
    return some, answers, store


def random_list(engine, rng):
    """A list in several scripts on one desk, and in one script on another. The latter where no script found a tail that no call made."""
    blocks, tails = rng.choice([2, 3, 4, 8, 12, 32, 64, 65, 200, 1000, 4096]), rng.random() < 0.4
    model, desk, store, whole, said = sheets.Machine(blocks), Desk.fresh(engine, blocks), layout.store_bytes(blocks, []), b'', []
    for n in range(rng.randint(1, 8)):
        if tails and rng.random() < 0.7:
            tail = random_tail(rng, model)
            desk.leave(tail)
            store = layout.tailed(store, tail)
            lists.found(model, len(tail))
        some, answers, store = random_calls(rng, model, store, rng.choice([0, 1, 2, 20, 60, 60]))
        text = b''.join(random_record(rng, c) for c in some)
        desk.replay(f'script {n}', text, answers, rng.randbytes(rng.choice([0, 1, 511, 512, 1000])))
        desk.held_to(f'script {n}', model, store)
        whole, said = whole + text, said + answers
    if layout.cleared(store) != layout.store_bytes(blocks, model.log):
        fail('the scripts leave another layout of the history')
    if not tails:
        other = Desk.fresh(engine, blocks)
        other.replay('the whole script', whole, said, rng.randbytes(rng.choice([0, 700])))
        other.held_to('the whole script', model, store)
    return desk, model


def filling(engine):
    """One script that fills a store of 4,096 blocks to its last block."""
    model, some = sheets.Machine(4096), []
    for n in range(124):
        some += [('edit' if n else 'add', 1, i, bytes([n])) for i in range(32)] + [('commit', 1, n, ALL)]
    some += [('edit', 1, 0, b'x'), ('commit', 1, 124, ALL), ('edit', 1, 0, b'y'), ('commit', 1, 125, ALL), ('delete', 1, 0), ('commit', 1, 126, ALL)]
    some += [('delete', 1, 1), ('commit', 1, 127, ALL)]
    said, text = [model.call(*c) for c in some], b''.join(script.call_record(*c) for c in some)
    if model.used != 4096 or said[-1] != ('no', 13):
        fail('the script that fills a store does not')
    desk = Desk.fresh(engine, 4096)
    desk.replay('the script that fills a store', text, said)
    desk.held_to('the script that fills a store', model)


def bad_script(rng, text):
    """The script with a fault that makes it bad."""
    text = bytearray(text)
    at = rng.randrange(len(text) // 512) * 512
    fault = rng.choice(['kind', 'seat', 'bytes', 'length'])
    if fault == 'kind':
        text[at] = rng.choice(NO_KINDS)
    elif fault == 'seat':
        text[at + 1] = rng.choice([0, 5, 255])
    elif fault == 'bytes':
        text[at + 2:at + 4] = rng.choice([497, 512, 65535]).to_bytes(2, 'little')
    elif rng.random() < 0.5:
        del text[-rng.choice([1, 511]):]
    else:
        text.extend(bytes(rng.choice([1, 511])))
    return bytes(text)


def damaged(engine, rng, good, model):
    """Buffers that are damaged, in any number of places: the refusal that comes first, or the model's run."""
    for n in range(25 if model.blocks <= 200 else 5):
        store, copies = bytearray(good.store), {k: bytearray(c) for k, c in cut(good.copies).items()}
        if rng.random() < 0.4:
            store[:] = layout.tailed(store, random_tail(rng, model))
        for _ in range(rng.choice([0, 1, 1, 2])):
            damage(rng, store, copies[rng.choice(SEATS)], model.last())
        if rng.random() < 0.1:
            a, b = rng.sample(SEATS, 2)
            copies[a], copies[b] = copies[b], copies[a]
        some = [lists.random_call(rng, model) for _ in range(rng.randint(1, 6))]
        text = b''.join(random_record(rng, c) for c in some)
        if rng.random() < 0.2:
            text = bad_script(rng, text)
        desk = Desk(engine, store, b''.join(copies.values()))
        answers = bytearray(rng.randbytes(max(0, len(text) - (rng.choice([1, 512]) if rng.random() < 0.1 else 0))))
        what = f'damage {n}'
        number = accept.replay_refusal(text, bytes(store), bytes(desk.copies), answers)
        if number:
            desk.refused(what, text, answers, number)
            continue
        accepted = sheets.Machine(len(store) // 512)
        accepted.log, accepted.used, accepted.tail = layout.log_of(bytes(store))
        accepted.seats = {k: layout.entries_of(c) for k, c in copies.items()}
        said, wanted = played(accepted, bytes(store), some)
        desk.replay(what, text, said)
        desk.held_to(what, accepted, wanted)


# ---- faults

def in_store(change):
    return lambda s: s.update(store=bytearray(change(bytearray(s['store']))))


def in_copy(k, block, data):
    """The copy of seat k with another block."""
    def change(s):
        at = (k - 1) * layout.COPY_LEN + block * 512
        s['copies'][at:at + 512] = data
    return change


def in_script(change):
    return lambda s: s.update(script=bytes(change(bytearray(s['script']))))


def changed(at, data):
    def change(buffer):
        buffer[at:at + len(data)] = data
        return buffer
    return change


def faults():
    """In the order of the refusals: the buffer that has the fault, the refusal, and what makes the fault. The store has one revision, the script three calls."""
    out = [('store', 1, in_store(lambda b: b[:-1])), ('store', 1, in_store(lambda b: b[:512])), ('store', 1, in_store(lambda b: b + bytes(512 * 4096))),
           ('store', 2, in_store(changed(600, b'\1'))), ('store', 2, in_store(changed(5, b'\1'))),
           ('store', 3, in_store(changed(0, layout.sealed([1, 2])))), ('store', 3, in_store(changed(4 * 512, b'junk'))),
           ('copies', 4, lambda s: s['copies'].pop()), ('copies', 4, lambda s: s['copies'].append(0)), ('copies', 4, lambda s: s.update(copies=s['copies'][:layout.COPY_LEN]))]
    for k in SEATS:
        out += [(f'copy {k}', 5, in_copy(k, 3, bytes(512))), (f'copy {k}', 5, in_copy(k, 0, layout.sealed([4, 5]))),
                (f'copy {k}', 6, in_copy(k, 32, layout.entry_block(('normal', 2, b'')))),
                (f'copy {k}', 7, in_copy(k, 0, layout.sealed([4, k % 4 + 1])))]
    bad = [lambda b: b[:-1], lambda b: b + bytes(1), lambda b: b[:1], lambda b: b + bytes(512)]
    for record in (0, 1, 2):
        bad += [changed(512 * record, bytes([kind])) for kind in NO_KINDS]
        for kind in (13, 14, 15, 20, 21):
            bad += [changed(512 * record, bytes([kind, seat])) for seat in (0, 5)] + [changed(512 * record, bytes([kind, 1]) + layout.two(497))]
        bad += [changed(512 * record + 1, bytes([seat])) for seat in (0, 5, 255)]
        bad += [changed(512 * record + 2, layout.two(n)) for n in (497, 65535)]
    out += [('script', 7, in_script(b)) for b in bad]
    return out + [('answers', 7, lambda s, n=n: s.update(answers=s['answers'][:n])) for n in (1535, 1024, 0)]


def one_revision(blocks=8):
    """A model with one revision, its store of so many blocks and its copies."""
    model = sheets.Machine(blocks)
    model.call('add', 2, 5, b'A')
    model.call('commit', 2, 7, 1 << 5)
    return model, layout.store_bytes(blocks, model.log), b''.join(layout.copy_bytes(k, model.seats[k]) for k in SEATS)


def every_fault(engine):
    """Each fault alone, and every two of them in different buffers: the one that comes first."""
    model, store, copies = one_revision()
    text = b''.join(script.call_record(*c) for c in [('add', 1, 6, b'B' * script.MOST), ('edit', 2, 5, b'C'), ('commit', 2, 8, 1 << 5)])
    Desk(engine, store, copies).replay('no fault', text, [('no', 7), ('done',), ('revision', 2)], b'rest')
    none = Desk(engine, store, copies)
    none.replay('the empty script', b'', [], b'rest')
    none.held_to('the empty script', model)
    for chosen in itertools.chain(([f] for f in faults()), itertools.combinations(faults(), 2)):
        places = [f[0] for f in chosen]
        if len(set(places)) < len(places) or places[0] == 'copies' and places[-1].startswith('copy '):
            continue
        s = dict(script=text, store=bytearray(store), copies=bytearray(copies), answers=bytearray(b'\x5a' * len(text)))
        for _, _, make in chosen:
            make(s)
        Desk(engine, s['store'], s['copies']).refused(f'faults {[f[:2] for f in chosen]}', s['script'], s['answers'], chosen[0][1])
    swapped = {k: copies[(k - 1) * layout.COPY_LEN:k * layout.COPY_LEN] for k in (1, 3, 2, 4)}
    Desk(engine, store, b''.join(swapped.values())).refused('copies in another order', text, bytearray(1536), 7)


def on_tails(engine):
    """Scripts that begin on a tail: a commit; then an edit, a commit, a clear and the commit again, which leaves the store that it leaves where there was no tail."""
    model, store, copies = one_revision()
    edit, commit, after = ('edit', 2, 5, b'C'), ('commit', 2, 8, 1 << 5), lists.twin(model)
    for c in (edit, commit):
        after.call(*c)
    for what, last in junk(random.Random(0), 2).items():
        for tail in ([last], [layout.content(2, b'C')], [layout.content(2, b'C')] * 3 + [last]):
            desk = Desk(engine, store, copies)
            desk.leave(tail)
            desk.replay(f'on a tail with {what}', script.call_record(*commit), [('no', 14)])
            desk.held_to(f'on a tail with {what}', model, layout.tailed(store, tail))
            some = [edit, commit, ('clear', 3), commit, ('clear', 1)]
            desk.replay(f'on a tail with {what}', b''.join(script.call_record(*c) for c in some), [('done',), ('no', 14), ('done',), ('revision', 2), ('done',)])
            desk.held_to(f'after a tail with {what}', after)


def cut_calls(engine):
    """Records of cut calls by hand: kind 14 has n in bytes 12-15, kind 15 in bytes 4-7; where the call stopped bytes 8-11 of its answer's record are 1."""
    record = lambda *head: bytes(head).ljust(512, b'\0')
    add, stopped, zeros, revision = record(1, 2, 1, 0, 5, 0, 0, 0, 0, 0, 0, 0, 0, 0, 0, 0, 65), record(0, 0, 0, 0, 0, 0, 0, 0, 1), record(), record(0, 0, 0, 0, 1)
    commit = lambda *n: record(14, 2, 0, 0, 7, 0, 0, 0, 255, 255, 255, 255, *n)
    clear = lambda *n: record(15, 4, 0, 0, *n)
    look = record(9, 1, 0, 0, 1, 0, 0, 0, 5), record(*[0] * 8, 1, *[0] * 19, 1, 0, 0, 0, 65)
    most = (255, 255, 255, 255)
    rows = [(commit(), record(10)), (clear(), zeros), (add, zeros), (commit(), stopped), (commit(), stopped), (clear(), zeros), (commit(1), stopped),
            (commit(), record(14)), (commit(*most), record(14)), (record(6, 2, 0, 0, 7, 0, 0, 0, 255), record(14)), (clear(), stopped), (clear(1), zeros), (clear(1), zeros),
            (commit(0, 1), revision), (commit(*most), record(10)), (clear(*most), zeros), look]
    for enough in ((2,), (3,), (2, 1), (2, 0, 1), (2, 0, 0, 1), (0, 0, 1), (0, 0, 0, 1), most):
        rows[13] = commit(*enough), revision
        desk = Desk.fresh(engine, 4)
        text, wanted = (b''.join(column) for column in zip(*rows))
        answers = bytearray(b'\x5a' * len(text))
        if engine.replay(text, desk.store, desk.copies, answers) != ('done',) or answers != wanted:
            fail(f'the records by hand, with n of {enough}')
        desk.held_to('the records by hand', one_revision(4)[0])
    for kept, blocks in ((3, 1), (4, 0)):  # the records before the cut leave a store with a block of content, and the fresh one
        desk, text = Desk.fresh(engine, 4), b''.join((add, commit(), commit(1), clear(1))[:kept])
        engine.replay(text, desk.store, desk.copies, bytearray(len(text)))
        if desk.store != layout.tailed(layout.store_bytes(4, []), [layout.content(1, b'A')] * blocks):
            fail('the records by hand leave another tail')


def releases(engine):
    """Records of releases and panel readings by hand: kind 20 has the revision in bytes 4-7, the stamp in 8-11 and the seat in 12-15, kind 21 revision and sheet."""
    record = lambda *head: bytes(head).ljust(512, b'\0')
    four = lambda n: n.to_bytes(4, 'little')
    release = lambda revision, stamp, seat, by=1: record(20, by, 0, 0, *four(revision), *four(stamp), *four(seat))
    panel = lambda revision, sheet, by=1: record(21, by, 0, 0, *four(revision), *four(sheet))
    part = lambda number, *data: record(*[0] * 8, number, *[0] * 19, len(data), 0, 0, 0, *data)
    add, edit, zeros = record(1, 2, 1, 0, 5, *[0] * 11, 65), record(2, 2, 1, 0, 5, *[0] * 11, 66), record()
    commit, cut = (record(kind, 2, 0, 0, 7, 0, 0, 0, 255, 255, 255, 255, *n) for kind, n in ((6, ()), (14, (1,))))
    rows = [(release(1, 9, 3), record(7)), (panel(0, 5), record(8)), (add, zeros), (commit, record(0, 0, 0, 0, 1)), (panel(1, 5), record(8)),
            (release(0, 9, 3), record(7)), (release(2, 9, 3), record(7)), (release(65537, 9, 3), record(7)), (release(1, 9, 0, 3), record(7)),
            (release(1, 9, 5, 3), record(7)), (release(1, 9, 257), record(7)), (edit, zeros), (cut, record(*[0] * 8, 1)), (release(1, 9, 3), record(14)),
            (release(0, 9, 0), record(14)), (panel(1, 5), record(8)), (record(13, 1), zeros), (release(1, 2 ** 32 - 2, 3, 4), zeros), (panel(1, 5, 4), part(1, 65)),
            (panel(0, 5), record(8)), (panel(1, 6), record(8)), (panel(1, 32), record(7)), (panel(2, 5), record(7)), (release(1, 9, 3), record(16)),
            (release(1, 9, 0), record(7)), (commit, record(0, 0, 0, 0, 2)), (panel(2, 5), part(1, 65)), (record(9, 1, 0, 0, 2, 0, 0, 0, 5), part(2, 66)),
            (release(2, 0, 4), record(13)), (release(1, 0, 4), record(16)), (release(2, 0, 5), record(7))]
    text, wanted = (b''.join(column) for column in zip(*rows))
    desk, answers = Desk.fresh(engine, 6), bytearray(b'\x5a' * len(text))
    if engine.replay(text, desk.store, desk.copies, answers) != ('done',) or answers != wanted:
        fail('the records of releases by hand')
    model = one_revision(6)[0]
    for c in (('release', 1, 1, 3, 2 ** 32 - 2), ('edit', 2, 5, b'B'), ('commit', 2, 7, ALL)):
        model.call(*c)
    desk.held_to('the records of releases by hand', model)


def example(engine):
    """The worked script of docs/LAYOUT.md, byte by byte as its table has it."""
    def record(cell):
        out = bytearray(512)
        for at, data in re.findall(r'(\d+)(?:–\d+)?: `([0-9a-f ]+)`', cell):
            out[int(at):int(at) + len(bytes.fromhex(data))] = bytes.fromhex(data)
        return bytes(out)

    paper = (lists.ROOT / 'docs' / 'LAYOUT.md').read_text().split('## A worked script')[1]
    rows = [line.split('|')[2:4] for line in paper.splitlines() if line.startswith('|')][2:]
    text, wanted = (b''.join(record(row[k]) for row in rows) for k in (0, 1))
    if len(rows) != 5:
        fail('docs/LAYOUT.md has another worked script')
    desk, answers = Desk.fresh(engine, 4), bytearray(b'\x5a' * len(text))
    if desk.engine.replay(text, desk.store, desk.copies, answers) != ('done',) or answers != wanted:
        fail('the worked script of docs/LAYOUT.md')
    checks = [(layout.two_at(desk.store, k + 508), layout.two_at(desk.store, k + 510)) for k in range(0, 2048, 512)]
    if checks != [(2, 1015), (69, 34006), (21, 10479), (0, 0)]:
        fail('the worked script of docs/LAYOUT.md leaves another store')


def main():
    given = lists.options(__doc__, 200)
    engine = Engine()
    for n in given.numbers:
        rng = random.Random(f'{given.seed} {n}')
        damaged(engine, rng, *random_list(engine, rng))
        if failed:
            print(f'failed in this list: tests/replay.py --seed {given.seed} --only {n}')
            break
    filling(engine)
    every_fault(engine)
    on_tails(engine)
    cut_calls(engine)
    releases(engine)
    example(engine)
    never = lists.tally(given.enough and not failed, [r for r in lists.COUNTED if r not in (lists.FIRST, lists.DAMAGED, *lists.TURNS, lists.RELEASE_DAMAGED)])
    print(f'{scripts} scripts, {calls} calls done, {failed} wrong')
    sys.exit(failed + never != 0)


if __name__ == '__main__':
    main()
