#!/usr/bin/env python3
"""Lists and calls with known answers, on the engine's C library and on tests/model: samples that were made elsewhere, and lists written by hand from W2, W3, W5, W6,
W7 and W9.

samples.py FILE..

A file of lists (its name ends in `lists.jsonl`): each list call by call and as scripts; every answer, and at the end the used blocks, the history, the entries, the
turn record and the sha256 of every buffer. A script has no calls on the record and no commits through it: these are made by themselves, between two scripts. A file
of cases (`cases.jsonl`): each call on the buffers and the record that it is handed, good or damaged; its answer and every byte after it.
tests/vectors/README.md describes both. The lists written by hand are run with any FILE, or with none.
"""
import hashlib, itertools, json, pathlib, sys

sys.path.insert(0, str(pathlib.Path(__file__).resolve().parent))
sys.path.insert(0, str(pathlib.Path(__file__).resolve().parent / 'model'))
import calls, layout, lists, replay, script, turns
from calls import ALL, fail
from engine import Engine


def read(path):
    """The lists or cases of a file, which has some."""
    found = [json.loads(line) for line in open(path)]
    if not found:
        fail(f'{path} has nothing')
    print(f'{path}: {len(found)}')
    return found


# ---- lists

def by_calls(engine, what, blocks, some, answers):
    """Call by call, on the engine beside the model. Both are then at the end."""
    desk, before = calls.Desk.fresh(engine, blocks), calls.failed
    for c, wanted in zip(some, answers, strict=True):
        if c[0] == 'found':
            desk.leave(c[1])
            continue
        said = desk.power(*c[2:], WRONG) if c[0] == 'power' else desk.call(*c)
        if said != wanted:
            fail(f'the model at {c}: {said}, not {wanted}')
    desk.whole()
    if calls.failed > before:
        print(f'failed in {what}')
    return desk


def torn(engine, desk, call, n, how):
    """A store after a power cut at the call's block write n, by the cut calls, or the release, alone."""
    stores = [bytearray(desk.store), bytearray(desk.store)]
    for k in (0, 1):
        calls.cut_by(engine, call, stores[k], replay.cut(desk.copies)[call[1]], n + k)
    place = next(k for k in range(len(desk.store) // 512) if stores[0][k * 512:k * 512 + 512] != stores[1][k * 512:k * 512 + 512])
    return {'old': stores[0], 'new': stores[1], 'junk': calls.with_block(bytes(stores[0]), place, WRONG)}[how]


def alone(engine, desk, call):
    """Makes a call of a list by itself, between two scripts."""
    name, seat, *args = call
    copies = replay.cut(desk.copies)
    said = engine.call(name, desk.store, copies[seat], *args, turn=desk.turn)
    desk.copies[:] = b''.join(copies.values())
    return said


def by_script(engine, what, blocks, some, answers):
    """As one script; what a script doesn't have is made by itself, between two scripts: a call on the turn record, a commit through it, and a call that takes more
    bytes than a script's record holds. There the power can fail, too, or the store be found with a tail."""
    desk = replay.Desk.fresh(engine, blocks)
    desk.turn = list(turns.FREE)
    short = lambda pair: pair[0][0] in script.KINDS and (pair[0][0] not in ('add', 'edit') or len(pair[0][-1]) <= script.MOST)
    for encodable, pairs in itertools.groupby(zip(some, answers), short):
        part, said = zip(*pairs)
        if encodable:
            desk.replay(what, b''.join(script.call_record(*c) for c in part), said, b'rest')
            continue
        for c, a in zip(part, said):
            if c[0] == 'found':
                desk.leave(c[1])
            elif c[0] == 'power':
                desk.store[:] = torn(engine, desk, *c[2:])
            elif alone(engine, desk, c) != a:
                fail(f'{what}, between scripts: {c} is not {a}')
    return desk


def ends(what, end, wanted, store, copies, turn):
    """What the buffers and the record hold at the end of a list."""
    log, used, tail = layout.log_of(store)
    if (used, tail, log, {k: layout.entries_of(c) for k, c in copies.items()}, tuple(turn)) != wanted:
        fail(f'{what}: another end')
    digest = lambda buffer: hashlib.sha256(buffer).hexdigest()
    if {'store': None if tail else digest(store), 'copies': [digest(c) for c in copies.values()]} != end['sha256']:
        fail(f'{what}: other bytes at the end')


def from_lists(engine, path):
    for number, l in enumerate(read(path)):
        what = f'{path}, list {number}'
        blocks, some, answers, *wanted = lists.from_json(l)
        desk, scripted = (run(engine, what, blocks, some, answers) for run in (by_calls, by_script))
        if lists.stands(desk.model) != tuple(wanted):
            fail(f'{what}: another end of the model')
        ends(what, l['end'], tuple(wanted), desk.store, desk.copies, desk.turn)
        ends(f'{what} as scripts', l['end'], tuple(wanted), scripted.store, replay.cut(scripted.copies), scripted.turn)


# ---- cases

def lent(buffer):
    """A buffer of a case. Where the call takes none it is empty."""
    out = bytearray(buffer['len'] if buffer else 0)
    for at, data in buffer['runs'] if buffer else ():
        out[at:at + len(data) // 2] = bytes.fromhex(data)
    return out


def answered(engine, what, name, args, store, copy, turn):
    """The engine's answer in the words of a case. The model is held to the engine but where it has no such call, at create."""
    if name == 'create_store':
        return engine.create_store(store)
    if name == 'create_copy':
        return engine.create_copy(copy, *args)
    if name in turns.CALLS:
        return calls.on_record(engine, what, name, args, turn)
    answer = calls.on_buffers(engine, what, name, args, store, copy, turn)
    if name in ('read', 'show', 'panel'):
        return engine.part(name, store, copy, *args)
    if answer[0] == 'log':
        action, source = answer[4] or (0, None)
        return (*answer[:4], action, *(source or (0, 0)))
    return answer


def from_cases(engine, path):
    for number, case in enumerate(read(path)):
        what = f'{path}, case {number} ({case["note"]}), {case["call"]}'
        store, copy, turn = lent(case['store']), lent(case['copy']), case['second'] and list(case['second'])
        after = [*(lent(case[f'{name}_after'] or case[name]) for name in ('store', 'copy')), case['second_after'] or case['second']]
        args = [bytes.fromhex(a) if isinstance(a, str) else a for a in case['args']]
        got = answered(engine, what, case['call'], args, store, copy, turn or turns.FREE)
        if list(got) != case['answer']:
            fail(f'{what}: {got}, not {case["answer"]}')
        if [store, copy, turn] != after:
            fail(f'{what} leaves other buffers or another record')


# ---- W2, W3, W5, W6, W7 and W9 by hand

START = [(('add', 1, 4, b'A'), 'done'), (('add', 1, 5, b'A'), 'done'), (('add', 1, 6, b'A'), 'done'), (('commit', 1, 7, ALL), 'revision 1'),
         (('update', 2, ALL, 1), 'done')]
WRONG = layout.label()[:-1] + b'\xff'  # a block with a wrong check


def found(*tail):
    """The store is found with these blocks behind its history; nothing is answered."""
    return ('found', list(tail)), None


def cut(call, n, how):
    """The power fails while the call writes its block number n, which is then old, new or junk."""
    return ('power', 1, call, n, how), 'cut'


def ask(seat, holder):
    """The seat asks, and this one holds the turn then."""
    return ('ask', 1, seat), f'holder {holder}'


def give(seat, holder):
    return ('give', 1, seat), f'holder {holder}'


def take(holder):
    return ('take', 1), f'holder {holder}'


def through(seat, said, mask=ALL):
    """A commit through the turn record."""
    return ('turn_commit', seat, 7, mask), said


def release(revision, said='done', seat=3, stamp=9):
    """The release of a revision."""
    return ('release', 1, revision, seat, stamp), said


def panel(revision, sheet, said):
    """What a panel finds: bytes and W3's number, or the refusal."""
    return ('panel', 1, revision, sheet), f'no {said}' if isinstance(said, int) else ('bytes', *said)


TWO = [(('add', 1, 5, b'A'), 'done'), (('add', 1, 9, b'B'), 'done')]  # a commit of two content blocks and the commit block
BY_HAND = {
    # W2
    'the same edit': START + [
        (('edit', 1, 5, b'B'), 'done'), (('edit', 2, 5, b'B'), 'done'), (('status', 2, 5), 'status 2 1'), (('commit', 1, 8, ALL), 'revision 2'),
        (('status', 2, 5), 'status 4 2'), (('commit', 2, 9, ALL), 'no 11'), (('status', 2, 5), 'status 4 2'),
        (('update', 2, ALL, 2), 'done'), (('status', 2, 5), 'status 1 2'), (('commit', 2, 9, ALL), 'no 10'), (('show', 2, 5), ('bytes', b'B', None))],
    'the same bytes added': [
        (('add', 1, 5, b'AB'), 'done'), (('add', 2, 5, b'AB'), 'done'), (('status', 2, 5), 'status 5 0'), (('commit', 1, 7, ALL), 'revision 1'),
        (('status', 2, 5), 'status 5 1'), (('commit', 2, 8, ALL), 'no 11'),
        (('update', 2, ALL, 1), 'done'), (('status', 2, 5), 'status 1 1'), (('commit', 2, 8, ALL), 'no 10'),
        (('edit', 2, 5, b'C'), 'done'), (('commit', 2, 8, ALL), 'revision 2'), (('log', 1, 2, 5), ('log', 2, 8, 1, (2, None)))],
    'copies of the same bytes, one of them edited': START + [
        (('copy', 2, 5, 8), 'done'), (('copy', 2, 5, 9), 'done'), (('edit', 2, 9, b'C'), 'done'),
        (('add', 1, 8, b'A'), 'done'), (('add', 1, 9, b'C'), 'done'), (('commit', 1, 8, ALL), 'revision 2'),
        (('status', 2, 8), 'status 7 2'), (('status', 2, 9), 'status 7 2'), (('commit', 2, 9, ALL), 'no 11'),
        (('update', 2, ALL, 2), 'done'), (('status', 2, 8), 'status 1 2'), (('status', 2, 9), 'status 1 2'), (('commit', 2, 9, ALL), 'no 10'),
        (('edit', 2, 8, b'D'), 'done'), (('commit', 2, 9, ALL), 'revision 3'), (('log', 1, 3, 8), ('log', 2, 9, 1, (2, None)))],
    'copies by both, from other sheets': START + [
        (('copy', 1, 6, 8), 'done'), (('copy', 2, 5, 8), 'done'), (('commit', 1, 8, ALL), 'revision 2'), (('log', 1, 2, 8), ('log', 1, 8, 1, (4, (6, 1)))),
        (('update', 2, ALL, 2), 'done'), (('status', 2, 8), 'status 1 2'), (('delete', 2, 8), 'done'), (('status', 2, 8), 'status 6 2')],
    'an older tree': START + [
        (('edit', 1, 5, b'B'), 'done'), (('commit', 1, 8, ALL), 'revision 2'), (('edit', 1, 5, b'C'), 'done'), (('commit', 1, 9, ALL), 'revision 3'),
        (('edit', 2, 5, b'B'), 'done'), (('update', 2, ALL, 3), 'no 12'), (('update', 2, ALL, 2), 'done'), (('status', 2, 5), 'status 3 3'),
        (('show', 2, 5), ('bytes', b'B', None)), (('commit', 2, 10, ALL), 'no 10'),
        (('update', 3, ALL, 1), 'done'), (('edit', 3, 5, b'C'), 'done'), (('update', 3, ALL, 2), 'no 12'), (('status', 3, 5), 'status 4 3'),
        (('update', 3, ALL, 3), 'done'), (('status', 3, 5), 'status 1 3'), (('edit', 3, 5, b'A'), 'done'), (('update', 3, ALL, 2), 'no 12'),
        (('update', 3, ALL, 1), 'done'), (('status', 3, 5), 'status 3 3'), (('show', 3, 5), ('bytes', b'A', None)),
        (('add', 4, 5, b'B'), 'done'), (('update', 4, ALL, 3), 'no 12'), (('update', 4, ALL, 1), 'no 12'), (('status', 4, 5), 'status 5 3'),
        (('update', 4, ALL, 2), 'done'), (('status', 4, 5), 'status 3 3')],
    'deleted by both': START + [
        (('delete', 1, 5), 'done'), (('delete', 2, 5), 'done'), (('commit', 1, 8, ALL), 'revision 2'), (('status', 2, 5), 'status 6 2'),
        (('commit', 2, 9, ALL), 'no 11'), (('update', 2, ALL, 2), 'no 12'), (('status', 2, 5), 'status 6 2'),
        (('delete', 2, 6), 'done'), (('edit', 1, 6, b''), 'done'), (('commit', 1, 9, ALL), 'revision 3'), (('update', 2, 1 << 6, 3), 'no 12'),
        (('revert', 2, ALL), 'done'), (('update', 2, ALL, 3), 'done'), (('status', 2, 5), 'status 0 2'), (('status', 2, 6), 'status 1 3')],
    'empty sheets': [
        (('add', 1, 5, b''), 'done'), (('add', 2, 5, b''), 'done'), (('add', 3, 5, b'\0'), 'done'), (('commit', 1, 7, ALL), 'revision 1'),
        (('update', 2, ALL, 1), 'done'), (('status', 2, 5), 'status 1 1'), (('show', 2, 5), ('bytes', b'', None)), (('update', 3, ALL, 1), 'no 12'),
        (('edit', 3, 5, b''), 'done'), (('update', 3, ALL, 1), 'done'), (('status', 3, 5), 'status 1 1'),
        (('edit', 1, 5, b'A'), 'done'), (('commit', 1, 8, ALL), 'revision 2'), (('update', 2, ALL, 2), 'done'),
        (('edit', 1, 5, b''), 'done'), (('commit', 1, 9, ALL), 'revision 3'), (('edit', 2, 5, b''), 'done'), (('status', 2, 5), 'status 4 3'),
        (('update', 2, ALL, 3), 'done'), (('status', 2, 5), 'status 1 3')],
    'empty bytes beside an absent sheet': START + [
        (('add', 2, 8, b''), 'done'), (('update', 2, 1 << 8, 1), 'done'), (('status', 2, 8), 'status 5 0'),
        (('update', 2, 1 << 8, 0), 'done'), (('status', 2, 8), 'status 5 0'),
        (('copy', 2, 6, 9), 'done'), (('edit', 2, 9, b''), 'done'), (('update', 2, 1 << 9, 1), 'done'), (('status', 2, 9), 'status 7 0'),
        (('commit', 2, 8, 1 << 8 | 1 << 9), 'revision 2'), (('log', 1, 2, 8), ('log', 2, 8, 2, (1, None))), (('log', 1, 2, 9), ('log', 2, 8, 2, (4, (6, 1)))),
        (('delete', 1, 5), 'done'), (('commit', 1, 9, ALL), 'revision 3'), (('edit', 2, 5, b''), 'done'), (('status', 2, 5), 'status 4 3'),
        (('update', 2, 1 << 5, 3), 'no 12'), (('update', 2, 1 << 5, 0), 'no 12')],
    'beside a conflict': START + [
        (('edit', 1, 4, b'B'), 'done'), (('edit', 1, 5, b'B'), 'done'), (('edit', 1, 6, b'B'), 'done'), (('commit', 1, 8, ALL), 'revision 2'),
        (('edit', 2, 4, b'C'), 'done'), (('edit', 2, 5, b'B'), 'done'), (('edit', 2, 6, b'C'), 'done'),
        (('update', 2, ALL, 2), 'no 12'), (('update', 2, 1 << 4 | 1 << 5, 2), 'no 12'), (('update', 2, 1 << 5 | 1 << 6, 2), 'no 12'),
        (('status', 2, 5), 'status 4 2'), (('update', 2, 1 << 5, 2), 'done'), (('status', 2, 5), 'status 1 2'), (('status', 2, 4), 'status 4 2'),
        (('edit', 2, 4, b'B'), 'done'), (('update', 2, 1 << 5, 2), 'done'), (('status', 2, 4), 'status 4 2'),
        (('update', 2, 1 << 4 | 1 << 5, 2), 'done'), (('status', 2, 4), 'status 1 2'), (('status', 2, 6), 'status 4 2')],
    'all kinds at once': START + [
        (('edit', 1, 5, b'B'), 'done'), (('add', 1, 8, b'C'), 'done'), (('add', 1, 9, b'A'), 'done'), (('commit', 1, 8, ALL), 'revision 2'),
        (('edit', 2, 5, b'B'), 'done'), (('add', 2, 8, b'C'), 'done'), (('copy', 2, 6, 9), 'done'), (('add', 2, 10, b'D'), 'done'), (('edit', 2, 4, b'E'), 'done'),
        (('update', 2, ALL, 2), 'done'), (('status', 2, 5), 'status 1 2'), (('status', 2, 8), 'status 1 2'), (('status', 2, 9), 'status 1 2'),
        (('status', 2, 10), 'status 5 0'), (('status', 2, 4), 'status 2 1'), (('commit', 2, 9, ALL ^ (1 << 4 | 1 << 10)), 'no 10'),
        (('commit', 2, 9, ALL), 'revision 3'), (('log', 1, 3, 4), ('log', 2, 9, 2, (2, None)))],
    'other bytes': START + [
        (('edit', 1, 5, b'AB'), 'done'), (('commit', 1, 8, ALL), 'revision 2'),
        *((c, said) for data in (b'AC', b'BB', b'B', b'ABC', b'AB\0', b'') for c, said in ((('edit', 2, 5, data), 'done'), (('update', 2, ALL, 2), 'no 12'))),
        (('edit', 2, 5, b'AB'), 'done'), (('update', 2, ALL, 2), 'done'),
        (('edit', 1, 5, b'x' * 480), 'done'), (('commit', 1, 9, ALL), 'revision 3'),
        (('edit', 2, 5, b'x' * 479), 'done'), (('update', 2, ALL, 3), 'no 12'), (('edit', 2, 5, b'x' * 479 + b'y'), 'done'), (('update', 2, ALL, 3), 'no 12'),
        (('edit', 2, 5, b'y' + b'x' * 479), 'done'), (('update', 2, ALL, 3), 'no 12'), (('edit', 2, 5, b'x' * 480), 'done'), (('update', 2, ALL, 3), 'done')],
    # W3
    'added, changed, deleted, added again': [
        (('status', 3, 5), 'status 0 0'), (('read', 1, 0, 5), 'no 8'), (('show', 3, 5), 'no 8'),
        (('add', 1, 5, b'A'), 'done'), (('status', 1, 5), 'status 5 0'), (('status', 3, 5), 'status 0 0'), (('show', 1, 5), ('bytes', b'A', None)),
        (('commit', 1, 7, ALL), 'revision 1'), (('status', 1, 5), 'status 1 1'), (('status', 3, 5), 'status 8 1'), (('read', 1, 1, 5), ('bytes', b'A', 1)),
        (('edit', 1, 5, b'B'), 'done'), (('status', 1, 5), 'status 2 1'), (('commit', 1, 8, ALL), 'revision 2'), (('status', 1, 5), 'status 1 2'),
        (('status', 3, 5), 'status 8 2'), (('read', 1, 2, 5), ('bytes', b'B', 2)), (('read', 1, 1, 5), ('bytes', b'A', 1)), (('show', 3, 5), ('bytes', b'B', 2)),
        (('delete', 1, 5), 'done'), (('status', 1, 5), 'status 6 2'), (('show', 1, 5), ('bytes', b'B', 2)),
        (('commit', 1, 9, ALL), 'revision 3'), (('status', 1, 5), 'status 0 3'), (('status', 3, 5), 'status 0 3'), (('read', 1, 3, 5), 'no 8'),
        (('show', 3, 5), 'no 8'),
        (('add', 1, 5, b'C'), 'done'), (('status', 1, 5), 'status 5 3'), (('commit', 1, 10, ALL), 'revision 4'), (('status', 1, 5), 'status 1 4'),
        (('status', 3, 5), 'status 8 4'), (('read', 1, 4, 5), ('bytes', b'C', 4)), (('read', 1, 3, 5), 'no 8'), (('read', 1, 2, 5), ('bytes', b'B', 2)),
        (('read', 1, 1, 5), ('bytes', b'A', 1)), (('read', 1, 0, 5), 'no 8'), (('read', 1, 5, 5), 'no 7'), (('status', 1, 32), 'no 7')],
    'copied and moved': START + [
        (('copy', 1, 5, 8), 'done'), (('status', 1, 8), 'status 7 0'), (('commit', 1, 8, ALL), 'revision 2'), (('status', 1, 8), 'status 1 2'),
        (('status', 1, 5), 'status 1 1'), (('status', 3, 5), 'status 8 1'), (('read', 1, 2, 8), ('bytes', b'A', 2)), (('read', 1, 2, 5), ('bytes', b'A', 1)),
        (('copy', 1, 6, 9), 'done'), (('edit', 1, 9, b'B'), 'done'), (('commit', 1, 9, ALL), 'revision 3'), (('read', 1, 3, 9), ('bytes', b'B', 3)),
        (('read', 1, 3, 6), ('bytes', b'A', 1)), (('status', 2, 6), 'status 1 1'),
        (('move', 1, 5, 10), 'done'), (('status', 1, 5), 'status 6 1'), (('status', 1, 10), 'status 7 0'), (('commit', 1, 10, ALL), 'revision 4'),
        (('status', 1, 5), 'status 0 4'), (('status', 1, 10), 'status 1 4'), (('status', 2, 5), 'status 3 4'), (('read', 1, 4, 10), ('bytes', b'A', 4)),
        (('read', 1, 4, 5), 'no 8'), (('read', 1, 3, 5), ('bytes', b'A', 1)), (('read', 1, 4, 8), ('bytes', b'A', 2)),
        (('move', 1, 10, 5), 'done'), (('status', 1, 5), 'status 7 4'), (('commit', 1, 11, ALL), 'revision 5'), (('status', 1, 5), 'status 1 5'),
        (('status', 1, 10), 'status 0 5'), (('read', 1, 5, 5), ('bytes', b'A', 5)), (('read', 1, 4, 10), ('bytes', b'A', 4)),
        (('copy', 2, 5, 11), 'done'), (('commit', 2, 12, ALL), 'revision 6'), (('log', 1, 6, 11), ('log', 2, 12, 1, (4, (5, 1)))),
        (('read', 1, 6, 11), ('bytes', b'A', 6)), (('read', 1, 6, 5), ('bytes', b'A', 5))],
    'every status': START + [
        (('status', 2, 0), 'status 0 0'), (('status', 3, 4), 'status 8 1'), (('status', 2, 4), 'status 1 1'), (('edit', 2, 4, b'B'), 'done'),
        (('status', 2, 4), 'status 2 1'),
        (('edit', 1, 5, b'B'), 'done'), (('commit', 1, 8, ALL), 'revision 2'), (('status', 2, 5), 'status 3 2'), (('edit', 2, 5, b'C'), 'done'),
        (('status', 2, 5), 'status 4 2'), (('delete', 2, 5), 'done'), (('status', 2, 5), 'status 6 2'), (('delete', 2, 6), 'done'),
        (('status', 2, 6), 'status 6 1'),
        (('add', 3, 5, b'D'), 'done'), (('status', 3, 5), 'status 5 2'), (('add', 3, 9, b'D'), 'done'), (('status', 3, 9), 'status 5 0'),
        (('copy', 1, 5, 9), 'done'), (('status', 1, 9), 'status 7 0'), (('update', 3, 1 << 6, 1), 'done'), (('copy', 3, 6, 4), 'done'),
        (('status', 3, 4), 'status 7 1'),
        (('delete', 1, 6), 'done'), (('commit', 1, 9, 1 << 6), 'revision 3'), (('status', 1, 6), 'status 0 3'), (('status', 4, 6), 'status 0 3'),
        (('status', 2, 6), 'status 6 3'), (('status', 3, 6), 'status 3 3'), (('edit', 3, 6, b'E'), 'done'), (('status', 3, 6), 'status 4 3'),
        (('add', 4, 6, b'F'), 'done'), (('status', 4, 6), 'status 5 3'), (('copy', 1, 4, 6), 'done'), (('status', 1, 6), 'status 7 3')],
    'older bases': START + [
        (('edit', 1, 5, b'B'), 'done'), (('commit', 1, 8, ALL), 'revision 2'), (('edit', 1, 4, b'B'), 'done'), (('commit', 1, 9, ALL), 'revision 3'),
        (('edit', 1, 5, b'C'), 'done'), (('commit', 1, 10, ALL), 'revision 4'),
        (('status', 2, 4), 'status 3 3'), (('status', 2, 5), 'status 3 4'), (('status', 2, 6), 'status 1 1'),
        (('update', 2, ALL, 2), 'done'), (('status', 2, 4), 'status 3 3'), (('status', 2, 5), 'status 3 4'), (('status', 2, 6), 'status 1 1'),
        (('update', 2, ALL, 3), 'done'), (('status', 2, 4), 'status 1 3'), (('status', 2, 5), 'status 3 4'), (('show', 2, 5), ('bytes', b'B', None)),
        (('update', 2, ALL, 4), 'done'), (('status', 2, 4), 'status 1 3'), (('status', 2, 5), 'status 1 4'), (('status', 2, 6), 'status 1 1'),
        (('update', 2, ALL, 0), 'done'), (('status', 2, 4), 'status 8 3'), (('status', 2, 5), 'status 8 4'), (('show', 2, 5), ('bytes', b'C', 4)),
        (('update', 2, ALL, 1), 'done'), (('status', 2, 5), 'status 3 4'), (('show', 2, 5), ('bytes', b'A', None)), (('edit', 2, 6, b'D'), 'done'),
        (('update', 2, 1 << 6, 4), 'done'), (('status', 2, 6), 'status 2 1'), (('revert', 2, ALL), 'done'), (('status', 2, 6), 'status 1 1'),
        (('status', 2, 5), 'status 3 4')],
    'read at every revision': START + [
        (('edit', 1, 5, b'B'), 'done'), (('commit', 1, 8, ALL), 'revision 2'), (('edit', 1, 6, b'B'), 'done'), (('commit', 1, 9, ALL), 'revision 3'),
        (('delete', 1, 5), 'done'), (('commit', 1, 10, ALL), 'revision 4'), (('edit', 1, 6, b'C'), 'done'), (('commit', 1, 11, ALL), 'revision 5'),
        (('add', 1, 5, b'D'), 'done'), (('commit', 1, 12, ALL), 'revision 6'),
        *((('read', 1, r, 4), ('bytes', b'A', 1)) for r in (1, 2, 3, 4, 5, 6)),
        (('read', 1, 1, 5), ('bytes', b'A', 1)), (('read', 1, 2, 5), ('bytes', b'B', 2)), (('read', 1, 3, 5), ('bytes', b'B', 2)), (('read', 1, 4, 5), 'no 8'),
        (('read', 1, 5, 5), 'no 8'), (('read', 1, 6, 5), ('bytes', b'D', 6)),
        (('read', 1, 1, 6), ('bytes', b'A', 1)), (('read', 1, 2, 6), ('bytes', b'A', 1)), (('read', 1, 3, 6), ('bytes', b'B', 3)),
        (('read', 1, 4, 6), ('bytes', b'B', 3)), (('read', 1, 5, 6), ('bytes', b'C', 5)), (('read', 1, 6, 6), ('bytes', b'C', 5))],
    'shown from the store and from the copy': START + [
        (('show', 3, 5), ('bytes', b'A', 1)), (('show', 2, 5), ('bytes', b'A', None)), (('delete', 2, 5), 'done'), (('show', 2, 5), ('bytes', b'A', 1)),
        (('edit', 1, 5, b'B'), 'done'), (('show', 1, 5), ('bytes', b'B', None)), (('commit', 1, 8, ALL), 'revision 2'), (('show', 1, 5), ('bytes', b'B', None)),
        (('show', 2, 5), ('bytes', b'B', 2)), (('show', 3, 5), ('bytes', b'B', 2)), (('show', 3, 4), ('bytes', b'A', 1)),
        (('update', 3, 1 << 5, 1), 'done'), (('show', 3, 5), ('bytes', b'A', None)), (('add', 4, 5, b'X'), 'done'), (('show', 4, 5), ('bytes', b'X', None)),
        (('copy', 2, 4, 9), 'done'), (('show', 2, 9), ('bytes', b'A', None)), (('show', 4, 9), 'no 8'),
        (('delete', 1, 5), 'done'), (('commit', 1, 9, ALL), 'revision 3'), (('show', 1, 5), 'no 8'), (('show', 2, 5), 'no 8'),
        (('show', 3, 5), ('bytes', b'A', None)),
        (('add', 1, 5, b''), 'done'), (('commit', 1, 10, ALL), 'revision 4'), (('show', 1, 5), ('bytes', b'', None)), (('show', 2, 5), ('bytes', b'', 4)),
        (('read', 1, 4, 5), ('bytes', b'', 4))],
    'commits that do not name the sheet': START + [
        (('edit', 1, 4, b'B'), 'done'), (('commit', 1, 8, ALL), 'revision 2'), (('status', 2, 5), 'status 1 1'), (('read', 1, 2, 5), ('bytes', b'A', 1)),
        (('show', 3, 5), ('bytes', b'A', 1)),
        (('edit', 2, 4, b'C'), 'done'), (('commit', 2, 9, ALL), 'no 11'), (('status', 2, 4), 'status 4 2'), (('status', 1, 4), 'status 1 2'),
        (('read', 1, 2, 4), ('bytes', b'B', 2)), (('update', 2, ALL, 2), 'no 12'), (('status', 2, 4), 'status 4 2'),
        (('commit', 1, 9, ALL), 'no 10'), (('commit', 1, 9, 0), 'no 7'), (('status', 1, 4), 'status 1 2'), (('status', 1, 5), 'status 1 1'),
        (('edit', 1, 5, b'B'), 'done'), (('edit', 1, 6, b'B'), 'done'), (('commit', 1, 9, 1 << 6), 'revision 3'), (('status', 1, 5), 'status 2 1'),
        (('status', 1, 6), 'status 1 3'), (('commit', 1, 10, ALL), 'revision 4'), (('status', 1, 4), 'status 1 2'), (('status', 1, 5), 'status 1 4'),
        (('status', 1, 6), 'status 1 3'), (('edit', 1, 4, b'B'), 'done'), (('commit', 1, 11, ALL), 'no 10'), (('status', 1, 4), 'status 1 2'),
        (('read', 1, 4, 4), ('bytes', b'B', 2)), (('read', 1, 4, 5), ('bytes', b'B', 4)), (('read', 1, 4, 6), ('bytes', b'B', 3))],
    'no room': START + [
        *((('add', 4, i, b'X'), 'done') for i in range(7, 32)), (('commit', 4, 8, ALL), 'revision 2'), (('status', 4, 31), 'status 1 2'),
        (('edit', 1, 5, b'B'), 'done'), (('commit', 1, 9, ALL), 'no 13'), (('status', 1, 5), 'status 2 1'), (('read', 1, 2, 5), ('bytes', b'A', 1)),
        (('delete', 1, 4), 'done'), (('commit', 1, 9, 1 << 4), 'revision 3'), (('status', 1, 4), 'status 0 3'), (('status', 2, 4), 'status 3 3'),
        (('delete', 1, 6), 'done'), (('commit', 1, 10, 1 << 6), 'no 13'), (('status', 1, 6), 'status 6 1'), (('status', 2, 6), 'status 1 1'),
        (('read', 1, 3, 6), ('bytes', b'A', 1)), (('read', 1, 2, 4), ('bytes', b'A', 1))],
    # W5
    'clears without a tail': [
        (('clear', 1), 'done'), (('read', 1, 0, 5), 'no 8'), (('add', 1, 5, b'A'), 'done'), (('clear', 2), 'done'), (('status', 1, 5), 'status 5 0'),
        (('commit', 1, 7, ALL), 'revision 1'), (('clear', 3), 'done'), (('clear', 4), 'done'), (('read', 1, 1, 5), ('bytes', b'A', 1)),
        (('edit', 1, 5, b'B'), 'done'), (('clear', 1), 'done'), (('commit', 1, 8, ALL), 'revision 2'), (('read', 1, 2, 5), ('bytes', b'B', 2))],
    'beside content': START + [
        found(layout.content(2, b'B'), layout.content(2, b'')),
        (('read', 1, 1, 5), ('bytes', b'A', 1)), (('read', 1, 2, 5), 'no 7'), (('log', 1, 1, 5), ('log', 1, 7, 3, (1, None))), (('log', 1, 2, 5), 'no 7'),
        (('status', 3, 5), 'status 8 1'), (('show', 3, 5), ('bytes', b'A', 1)), (('update', 3, ALL, 1), 'done'), (('update', 3, ALL, 2), 'no 7'),
        (('edit', 1, 5, b'B'), 'done'), (('status', 1, 5), 'status 2 1'), (('revert', 1, 1 << 5), 'done'), (('edit', 1, 5, b'B'), 'done'),
        (('add', 2, 8, b'C'), 'done'), (('copy', 2, 5, 9), 'done'), (('move', 2, 6, 10), 'done'), (('delete', 2, 4), 'done'), (('show', 2, 4), ('bytes', b'A', 1)),
        (('commit', 1, 8, ALL), 'no 14'), (('commit', 2, 8, ALL), 'no 14'), (('clear', 3), 'done'), (('read', 1, 1, 5), ('bytes', b'A', 1)),
        (('commit', 1, 8, ALL), 'revision 2'), (('read', 1, 2, 5), ('bytes', b'B', 2)), (('commit', 2, 9, ALL), 'revision 3'),
        (('log', 1, 3, 9), ('log', 2, 9, 5, (4, (5, 1)))), (('clear', 3), 'done'), (('read', 1, 3, 10), ('bytes', b'A', 3))],
    'beside a block with a wrong check': START + [
        found(WRONG), (('read', 1, 1, 6), ('bytes', b'A', 1)), (('status', 2, 6), 'status 1 1'), (('edit', 2, 6, b'B'), 'done'), (('commit', 2, 8, ALL), 'no 14'),
        (('clear', 2), 'done'), (('commit', 2, 8, ALL), 'revision 2'), found(layout.content(3, b'C'), WRONG), (('read', 1, 2, 6), ('bytes', b'B', 2)),
        (('delete', 1, 4), 'done'), (('commit', 1, 9, ALL), 'no 14'), (('clear', 1), 'done'), (('clear', 1), 'done'), (('commit', 1, 9, ALL), 'revision 3'),
        (('read', 1, 3, 4), 'no 8')],
    'commits refused for the tail first': START + [
        found(WRONG), (('commit', 1, 8, 0), 'no 14'), (('commit', 1, 8, ALL), 'no 14'), (('clear', 1), 'done'), (('commit', 1, 8, 0), 'no 7'),
        (('commit', 1, 8, ALL), 'no 10'), (('edit', 1, 5, b'B'), 'done'), (('edit', 2, 5, b'C'), 'done'), (('commit', 1, 8, ALL), 'revision 2'),
        found(layout.content(3, b'C')), (('commit', 2, 9, ALL), 'no 14'), (('update', 2, ALL, 2), 'no 12'), (('clear', 1), 'done'), (('commit', 2, 9, ALL), 'no 11')],
    'a fresh store with a tail': [
        found(*[layout.content(1, b'A')] * 31), (('read', 1, 0, 5), 'no 8'), (('read', 1, 1, 5), 'no 7'), (('log', 1, 1, 5), 'no 7'), (('status', 1, 5), 'status 0 0'),
        (('show', 1, 5), 'no 8'), (('add', 1, 5, b'A'), 'done'), (('commit', 1, 7, ALL), 'no 14'), (('clear', 1), 'done'), (('commit', 1, 7, ALL), 'revision 1'),
        (('read', 1, 1, 5), ('bytes', b'A', 1))],
    'no room behind the tail, and none counted': START + [
        *((('add', 4, i, b'X'), 'done') for i in range(6, 32)), (('status', 4, 31), 'status 5 0'), found(*[layout.content(2, b'X')] * 26, WRONG),
        (('commit', 4, 8, ALL), 'no 14'), (('commit', 4, 8, ALL ^ 1 << 6), 'no 14'), (('clear', 4), 'done'), (('commit', 4, 8, ALL), 'no 11'),
        (('commit', 4, 8, ALL ^ 1 << 6), 'revision 2'), (('edit', 1, 5, b'B'), 'done'), (('commit', 1, 9, ALL), 'no 13'), (('delete', 1, 4), 'done'),
        (('commit', 1, 9, 1 << 4), 'revision 3'), (('clear', 1), 'done'), (('read', 1, 3, 31), ('bytes', b'X', 2))],
    # W6
    'a commit stopped at each of its writes': TWO + [
        (('commit_cut', 1, 7, ALL, 0), 'stopped'), (('status', 1, 5), 'status 5 0'), (('commit_cut', 1, 7, ALL, 0), 'stopped'), (('clear_cut', 1, 0), 'done'),
        (('commit_cut', 1, 7, ALL, 1), 'stopped'), (('status', 1, 5), 'status 5 0'), (('read', 1, 1, 5), 'no 7'), (('commit_cut', 1, 7, ALL, 1), 'no 14'),
        (('commit', 1, 7, ALL), 'no 14'), (('clear_cut', 1, 0), 'stopped'), (('commit', 1, 7, ALL), 'no 14'), (('clear_cut', 1, 1), 'done'),
        (('commit_cut', 1, 7, ALL, 2), 'stopped'), (('status', 1, 9), 'status 5 0'), (('log', 1, 1, 5), 'no 7'), (('show', 1, 9), ('bytes', b'B', None)),
        (('commit_cut', 1, 7, ALL, 3), 'no 14'), (('clear_cut', 2, 1), 'stopped'), (('commit', 1, 7, ALL), 'no 14'), (('clear_cut', 3, 1), 'done'),
        (('commit_cut', 1, 7, ALL, 3), 'revision 1'), (('status', 1, 5), 'status 1 1'), (('read', 1, 1, 9), ('bytes', b'B', 1)),
        (('commit_cut', 1, 8, ALL, 3), 'no 10'), (('clear_cut', 1, 0), 'done')],
    'n more than enough': TWO + [
        (('commit_cut', 1, 7, 1 << 5, 2), 'revision 1'), (('commit_cut', 1, 8, 1 << 9, 4294967295), 'revision 2'), (('delete', 1, 5), 'done'),
        (('commit_cut', 1, 9, ALL, 33), 'revision 3'), (('copy', 1, 9, 10), 'done'), (('commit_cut', 1, 10, ALL, 2), 'revision 4'),
        (('log', 1, 4, 10), ('log', 1, 10, 1, (4, (9, 2)))), (('clear_cut', 1, 4294967295), 'done'), (('read', 1, 4, 10), ('bytes', b'B', 4))],
    'commits of no content': START + [
        (('delete', 2, 5), 'done'), (('commit_cut', 2, 8, ALL, 0), 'stopped'), (('status', 2, 5), 'status 6 1'), (('clear_cut', 2, 0), 'done'),
        (('commit_cut', 2, 8, ALL, 1), 'revision 2'), (('status', 2, 5), 'status 0 2'), (('copy', 2, 4, 10), 'done'), (('move', 2, 6, 11), 'done'),
        (('commit_cut', 2, 9, ALL, 0), 'stopped'), (('commit', 2, 9, ALL), 'revision 3'), (('log', 1, 3, 11), ('log', 2, 9, 3, (4, (6, 1))))],
    'refused whatever n is': START + [
        *((('commit_cut', 1, 8, 0, n), 'no 7') for n in (0, 1, 33)), *((('commit_cut', 1, 8, ALL, n), 'no 10') for n in (0, 1, 33)),
        (('edit', 1, 5, b'B'), 'done'), (('edit', 2, 5, b'C'), 'done'), (('commit_cut', 1, 8, ALL, 2), 'revision 2'),
        *((('commit_cut', 2, 9, ALL, n), 'no 11') for n in (0, 1, 33)), *((('add', 4, i, b'X'), 'done') for i in range(7, 32)), (('add', 4, 0, b'X'), 'done'),
        *((('commit_cut', 4, 9, ALL, n), 'no 13') for n in (0, 1, 26, 27, 33)), *((('commit_cut', 4, 9, ALL ^ 1, n), 'no 13') for n in (0, 1, 25, 26)),
        (('commit_cut', 4, 9, ALL ^ 129, 0), 'stopped'), (('commit_cut', 4, 9, ALL ^ 129, 24), 'stopped'), *((('commit_cut', 4, 9, 0, n), 'no 14') for n in (0, 1, 33)),
        (('clear', 1), 'done'), (('commit_cut', 4, 9, ALL ^ 129, 25), 'revision 3'), (('delete', 1, 4), 'done'), (('commit_cut', 1, 10, ALL, 0), 'no 13')],
    'a stopped commit, cleared, and another by another seat': TWO + [
        (('commit_cut', 1, 7, ALL, 2), 'stopped'), (('add', 2, 5, b'C'), 'done'), (('commit', 2, 8, ALL), 'no 14'), (('clear_cut', 2, 1), 'stopped'),
        (('clear', 2), 'done'), (('commit', 2, 8, ALL), 'revision 1'), (('log', 1, 1, 5), ('log', 2, 8, 1, (1, None))), (('commit_cut', 1, 7, ALL, 2), 'no 11'),
        (('update', 1, ALL, 1), 'no 12'), (('edit', 1, 5, b'C'), 'done'), (('update', 1, ALL, 1), 'done'), (('commit_cut', 1, 7, ALL, 1), 'stopped'),
        (('read', 1, 1, 9), 'no 8'), (('clear_cut', 4, 5), 'done'), (('commit_cut', 1, 7, ALL, 2), 'revision 2'), (('read', 1, 2, 9), ('bytes', b'B', 2))],
    'the power fails within a commit': TWO + [
        cut(('commit', 1, 7, ALL), 0, 'old'), (('status', 1, 5), 'status 5 0'), (('clear_cut', 1, 0), 'done'),
        cut(('commit', 1, 7, ALL), 0, 'junk'), (('read', 1, 1, 5), 'no 7'), (('commit', 1, 7, ALL), 'no 14'), (('clear_cut', 1, 0), 'stopped'),
        (('clear_cut', 1, 1), 'done'), cut(('commit', 1, 7, ALL), 0, 'new'), (('commit', 2, 7, ALL), 'no 14'), (('clear_cut', 1, 1), 'done'),
        cut(('commit', 1, 7, ALL), 1, 'junk'), (('show', 1, 9), ('bytes', b'B', None)), (('clear_cut', 1, 1), 'stopped'), (('clear_cut', 1, 1), 'done'),
        cut(('commit', 1, 7, ALL), 2, 'old'), (('clear_cut', 1, 1), 'stopped'), (('clear', 1), 'done'),
        cut(('commit', 1, 7, ALL), 2, 'junk'), (('log', 1, 1, 5), 'no 7'), (('status', 2, 5), 'status 0 0'), (('clear_cut', 1, 2), 'stopped'), (('clear', 1), 'done'),
        (('commit', 1, 7, ALL), 'revision 1'), (('read', 1, 1, 9), ('bytes', b'B', 1))],
    'the power fails when the commit block is new': TWO + [
        cut(('commit', 1, 7, ALL), 2, 'new'), (('read', 1, 1, 5), ('bytes', b'A', 1)), (('log', 1, 1, 9), ('log', 1, 7, 2, (1, None))), (('status', 2, 9), 'status 8 1'),
        (('status', 1, 5), 'status 5 1'), (('clear_cut', 1, 0), 'done'), (('commit', 1, 7, ALL), 'no 11'), (('commit_cut', 1, 7, ALL, 0), 'no 11'),
        (('update', 1, ALL, 1), 'done'), (('status', 1, 5), 'status 1 1'), (('commit', 1, 7, ALL), 'no 10'), (('edit', 1, 5, b'C'), 'done'),
        cut(('commit', 1, 8, ALL), 1, 'new'), (('status', 1, 5), 'status 4 2'), (('read', 1, 2, 5), ('bytes', b'C', 2)), (('update', 1, ALL, 2), 'done'),
        (('status', 1, 5), 'status 1 2'), (('delete', 1, 9), 'done'), cut(('commit', 1, 9, ALL), 0, 'new'), (('read', 1, 3, 9), 'no 8'),
        (('status', 1, 9), 'status 6 3'), (('update', 1, ALL, 3), 'no 12'), (('revert', 1, 1 << 9), 'done'), (('update', 1, ALL, 3), 'done'),
        (('status', 1, 9), 'status 0 3')],
    'the power fails within clearings': TWO + [
        (('commit_cut', 1, 7, ALL, 2), 'stopped'), cut(('clear', 1), 0, 'old'), cut(('clear', 1), 0, 'junk'), (('commit', 1, 7, ALL), 'no 14'),
        (('read', 1, 1, 5), 'no 7'), cut(('clear', 2), 0, 'junk'), (('clear_cut', 2, 0), 'stopped'), cut(('clear', 3), 1, 'old'), (('clear_cut', 3, 1), 'done'),
        (('commit_cut', 1, 7, ALL, 2), 'stopped'), cut(('clear', 1), 1, 'junk'), cut(('clear', 1), 0, 'old'), (('commit', 1, 7, ALL), 'no 14'),
        cut(('clear', 1), 0, 'new'), (('clear', 1), 'done'), (('commit', 1, 7, ALL), 'revision 1'), (('edit', 1, 9, b'C'), 'done'),
        cut(('commit', 1, 8, ALL), 1, 'junk'), cut(('clear', 1), 0, 'new'), cut(('clear', 1), 0, 'junk'), (('read', 1, 1, 9), ('bytes', b'B', 1)),
        (('clear_cut', 1, 1), 'done'), (('commit_cut', 1, 8, ALL, 2), 'revision 2'), (('read', 1, 2, 9), ('bytes', b'C', 2))],
    # W7
    'a line of four': [
        take(0), give(1, 0), give(3, 0), ask(3, 3), ask(3, 3), give(1, 3), take(0), ask(1, 1), ask(2, 1), ask(3, 1), ask(4, 1), ask(1, 1), ask(2, 1), ask(4, 1),
        give(2, 1), give(4, 1), give(1, 2), give(1, 2), take(3), ask(1, 3), give(3, 4), give(3, 4), ask(3, 4), ask(2, 4), take(1), give(1, 3), give(3, 2), ask(3, 2),
        give(2, 3), give(3, 0), give(3, 0), take(0), ask(4, 4), give(4, 0)],
    'no later than the third': [
        ask(2, 2), ask(4, 2), ask(1, 2), ask(3, 2), give(3, 2), give(1, 2), take(4), ask(2, 4), ask(3, 4), give(2, 4), give(4, 1), ask(4, 1), ask(3, 1), take(3),
        give(3, 2), take(4), take(0), ask(1, 1), ask(3, 1), ask(2, 1), ask(4, 1), take(3), ask(1, 3), take(2), ask(3, 2), take(4), ask(2, 4), take(1), give(1, 3),
        give(3, 2), give(2, 0)],
    'seats that are none': [
        *((c, 'no 7') for seat in (0, 5, 255, 256, 257, 65537, 2147483649, 4294967295) for c in (('ask', 1, seat), ('give', 1, seat))), take(0), ask(1, 1), ask(2, 1),
        *((c, 'no 7') for seat in (0, 5, 257, 258, 65537, 4294967295) for c in (('ask', 1, seat), ('give', 1, seat))), ask(4, 1), take(2), take(4), take(0)],
    'commits by the holder and by others': START + [
        (('edit', 1, 5, b'B'), 'done'), (('edit', 2, 5, b'C'), 'done'), through(1, 'no 15'), through(2, 'no 15'), ask(2, 2), through(1, 'no 15'), ask(1, 2),
        through(1, 'no 15'), (('status', 1, 5), 'status 2 1'), (('read', 1, 2, 5), 'no 7'), through(2, 'revision 2'), (('read', 1, 2, 5), ('bytes', b'C', 2)),
        (('log', 1, 2, 5), ('log', 2, 7, 1, (2, None))), (('status', 2, 5), 'status 1 2'), through(1, 'no 15'), through(2, 'no 10'), ask(2, 2), give(2, 1),
        through(2, 'no 15'), through(1, 'no 11'), (('update', 1, ALL, 2), 'no 12'), (('revert', 1, 1 << 5), 'done'), (('update', 1, ALL, 2), 'done'),
        (('edit', 1, 5, b'D'), 'done'), (('edit', 1, 6, b'D'), 'done'), through(1, 'revision 3', 1 << 6), (('status', 1, 5), 'status 2 2'), through(1, 'revision 4'),
        (('log', 1, 4, 5), ('log', 1, 7, 1, (2, None))), give(1, 0), (('edit', 1, 5, b'E'), 'done'), through(1, 'no 15'), ask(3, 3), (('delete', 3, 5), 'no 8'),
        (('update', 3, ALL, 4), 'done'), (('delete', 3, 5), 'done'), (('copy', 3, 4, 9), 'done'), through(3, 'revision 5'), (('read', 1, 5, 5), 'no 8'),
        (('log', 1, 5, 9), ('log', 3, 7, 2, (4, (4, 4)))), take(0), through(3, 'no 15')],
    'the commit without the record': START + [
        ask(1, 1), (('edit', 1, 5, b'B'), 'done'), (('edit', 2, 6, b'C'), 'done'), (('commit', 2, 8, ALL), 'revision 2'), through(2, 'no 15'), give(2, 1),
        through(1, 'revision 3'), (('add', 4, 9, b'D'), 'done'), (('commit_cut', 4, 9, ALL, 33), 'revision 4'), take(0), (('edit', 1, 5, b'E'), 'done'),
        (('commit', 1, 10, ALL), 'revision 5'), take(0), (('read', 1, 5, 6), ('bytes', b'C', 2)), (('read', 1, 5, 9), ('bytes', b'D', 4))],
    '7, then 15, then the refusals of a commit': START + [
        through(1, 'no 7', 0), through(1, 'no 15'), ask(1, 1), through(1, 'no 7', 0), through(2, 'no 7', 0), through(2, 'no 15'), through(1, 'no 10'),
        through(2, 'no 15', 1), (('edit', 1, 5, b'B'), 'done'), (('edit', 2, 5, b'C'), 'done'), through(1, 'no 10', 1 << 6), through(1, 'revision 2', 1 << 5),
        through(2, 'no 15'), through(2, 'no 7', 0), ask(2, 1), through(2, 'no 15'), give(1, 2), through(2, 'no 7', 0), through(2, 'no 11'),
        through(2, 'no 10', 1 << 6), *((('add', 4, i, b'X'), 'done') for i in range(8, 32)), (('commit', 4, 9, ALL), 'revision 3'), (('add', 3, 7, b'X'), 'done'),
        through(3, 'no 15'), ask(3, 2), through(3, 'no 15'), take(3), through(3, 'no 13'), through(3, 'no 7', 0), (('update', 3, 1 << 4, 3), 'done'),
        (('delete', 3, 4), 'done'), through(3, 'no 13'), through(2, 'no 15'), take(0), through(3, 'no 15')],
    'beside a tail': START + [
        (('edit', 1, 5, b'B'), 'done'), (('commit_cut', 1, 8, ALL, 1), 'stopped'), through(1, 'no 14'), through(1, 'no 14', 0), ask(1, 1), through(1, 'no 14'),
        through(1, 'no 14', 0), through(2, 'no 14'), ask(2, 1), (('clear_cut', 1, 0), 'stopped'), through(1, 'no 14'), (('clear', 1), 'done'),
        through(1, 'revision 2'), give(1, 2), found(WRONG), (('edit', 2, 6, b'C'), 'done'), through(2, 'no 14'), take(0), through(2, 'no 14'), ask(2, 2),
        (('clear', 3), 'done'), through(2, 'revision 3'), (('read', 1, 3, 6), ('bytes', b'C', 3)), (('read', 1, 3, 5), ('bytes', b'B', 2))],
    'the power fails while a seat holds the turn': TWO + [
        ask(1, 1), ask(2, 1), cut(('commit', 1, 7, ALL), 1, 'junk'), through(1, 'no 14'), (('clear', 1), 'done'), cut(('commit', 1, 7, ALL), 2, 'new'),
        through(1, 'no 11'), ask(1, 1), (('update', 1, ALL, 1), 'done'), through(1, 'no 10'), give(1, 2), (('add', 2, 5, b'A'), 'done'), through(2, 'no 11'),
        (('update', 2, ALL, 1), 'done'), (('edit', 2, 5, b'C'), 'done'), through(2, 'revision 2'), give(2, 0)],
    # W9
    'nothing released': [
        panel(0, 5, 8), panel(1, 5, 7), panel(0, 32, 7), release(0, 'no 7'), release(1, 'no 7'), *START, panel(0, 5, 8), panel(1, 5, 8), panel(2, 5, 7), panel(1, 31, 8),
        panel(1, 32, 7), (('read', 1, 1, 5), ('bytes', b'A', 1))],
    'released one after the other': START + [
        (('edit', 1, 5, b'B'), 'done'), (('commit', 1, 8, ALL), 'revision 2'), (('edit', 1, 5, b'C'), 'done'), (('commit', 1, 9, ALL), 'revision 3'), panel(3, 5, 8),
        release(2), panel(0, 5, 8), panel(1, 5, 8), panel(2, 5, (b'B', 2)), panel(3, 5, (b'B', 2)), panel(2, 4, (b'A', 1)), panel(4, 5, 7),
        (('read', 1, 3, 5), ('bytes', b'C', 3)), (('read', 1, 1, 5), ('bytes', b'A', 1)), release(3), panel(1, 5, 8), panel(2, 5, (b'B', 2)), panel(3, 5, (b'C', 3)),
        panel(3, 4, (b'A', 1)), release(1), panel(0, 5, 8), panel(1, 5, (b'A', 1)), panel(2, 5, (b'B', 2)), panel(3, 5, (b'C', 3)),
        *(release(r, 'no 16') for r in (1, 2, 3)), (('log', 1, 3, 5), ('log', 1, 9, 1, (2, None)))],
    'a later release of an older revision': START + [
        *((c, said) for r in range(2, 7) for c, said in ((('edit', 1, 5, b'%d' % r), 'done'), (('commit', 1, r, ALL), f'revision {r}'))),
        release(5), *(panel(r, 5, 8) for r in range(5)), *(panel(r, 5, (b'5', 5)) for r in (5, 6)), release(2), *(panel(r, 5, 8) for r in (0, 1)),
        *(panel(r, 5, (b'2', 2)) for r in (2, 3, 4)), *(panel(r, 5, (b'5', 5)) for r in (5, 6)), release(3), panel(2, 5, (b'2', 2)), panel(3, 5, (b'3', 3)),
        panel(4, 5, (b'3', 3)), panel(5, 5, (b'5', 5)), panel(6, 5, (b'5', 5)), panel(6, 4, (b'A', 1)), panel(7, 5, 7)],
    'sheets that come and go': [
        (('add', 1, 5, b'A'), 'done'), (('commit', 1, 7, ALL), 'revision 1'), release(1), (('delete', 1, 5), 'done'), (('add', 1, 6, b''), 'done'),
        (('commit', 1, 8, ALL), 'revision 2'), panel(2, 5, (b'A', 1)), panel(2, 6, 8), (('read', 1, 2, 5), 'no 8'), (('read', 1, 2, 6), ('bytes', b'', 2)), release(2),
        panel(1, 5, (b'A', 1)), panel(1, 6, 8), panel(2, 5, 8), panel(2, 6, (b'', 2)), (('add', 1, 5, b'B'), 'done'), (('commit', 1, 9, ALL), 'revision 3'),
        panel(3, 5, 8), panel(3, 6, (b'', 2)), (('show', 2, 5), ('bytes', b'B', 3)), (('move', 1, 6, 8), 'done'), (('commit', 1, 10, ALL), 'revision 4'), release(3),
        panel(4, 5, (b'B', 3)), panel(4, 6, (b'', 2)), panel(4, 8, 8), release(4), panel(4, 6, 8), panel(4, 8, (b'', 4)), panel(3, 6, (b'', 2))],
    'releases refused': START + [
        release(0, 'no 7'), release(2, 'no 7'), *(release(r, 'no 7') for r in (257, 65536, 65537, 2 ** 31 + 1, 2 ** 32 - 1)),
        *(release(1, 'no 7', k) for k in (0, 5, 255, 256, 257, 65537, 2 ** 31 + 1, 2 ** 32 - 1)), release(0, 'no 7', 0), release(1, 'done', 4, 2 ** 32 - 1),
        release(1, 'no 16'), release(1, 'no 16', 1, 0), release(1, 'no 7', 0), release(1, 'no 7', 5), release(2, 'no 7'), release(0, 'no 7'),
        (('edit', 1, 5, b'B'), 'done'), (('commit', 1, 8, ALL), 'revision 2'), release(1, 'no 16'), release(2, 'done', 1, 0), release(2, 'no 16'), release(3, 'no 7'),
        *(panel(r, i, 7) for r, i in ((3, 5), (65536, 5), (65537, 5), (2 ** 32 - 1, 5), (2, 32), (2, 256), (2, 261), (2, 2 ** 32 - 1)))],
    'releases beside a tail': START + [
        release(1), (('edit', 1, 5, b'B'), 'done'), (('commit', 1, 8, ALL), 'revision 2'), (('edit', 1, 5, b'C'), 'done'), (('commit_cut', 1, 9, ALL, 1), 'stopped'),
        *(release(r, 'no 14', k) for r, k in ((2, 3), (1, 3), (0, 3), (3, 3), (2, 0), (1, 5))), panel(2, 5, (b'A', 1)), panel(0, 5, 8), panel(3, 5, 7),
        (('clear_cut', 1, 0), 'stopped'), release(2, 'no 14'), (('clear', 1), 'done'), panel(1, 5, (b'A', 1)), release(1, 'no 16'), release(2), found(WRONG),
        release(2, 'no 14'), panel(2, 5, (b'B', 2)), (('clear', 2), 'done'), release(2, 'no 16'), panel(2, 5, (b'B', 2)), (('commit', 1, 9, ALL), 'revision 3'),
        found(layout.content(4, b'')), release(3, 'no 14'), (('clear', 1), 'done'), release(3), panel(3, 5, (b'C', 3))],
    'no room for a release': START + [
        *((('add', 4, i, b'X'), 'done') for i in range(7, 31)), (('commit', 4, 8, ALL), 'revision 2'), release(2), panel(2, 30, (b'X', 2)), (('delete', 1, 4), 'done'),
        (('commit', 1, 9, 1 << 4), 'revision 3'), release(1, 'no 13'), release(3, 'no 13'), release(2, 'no 16'), release(4, 'no 7'), release(0, 'no 7'),
        release(1, 'no 7', 5), panel(3, 4, (b'A', 1)), panel(1, 4, 8), (('delete', 1, 5), 'done'), (('commit', 1, 10, 1 << 5), 'no 13'), (('clear', 1), 'done')],
    'what engineers find beside releases': START + [
        (('status', 2, 5), 'status 1 1'), release(1), (('status', 2, 5), 'status 1 1'), (('status', 1, 5), 'status 1 1'), (('read', 1, 1, 5), ('bytes', b'A', 1)),
        (('read', 1, 2, 5), 'no 7'), (('log', 1, 1, 5), ('log', 1, 7, 3, (1, None))), (('log', 1, 2, 5), 'no 7'), (('update', 2, ALL, 2), 'no 7'),
        (('commit', 2, 8, ALL), 'no 10'), (('edit', 2, 5, b'B'), 'done'), (('commit', 2, 8, ALL), 'revision 2'), (('copy', 1, 6, 9), 'done'),
        (('commit', 1, 9, ALL), 'revision 3'), (('log', 1, 3, 9), ('log', 1, 9, 1, (4, (6, 1)))), release(3), release(2), (('status', 1, 5), 'status 3 2'),
        (('edit', 1, 5, b'C'), 'done'), (('commit', 1, 10, ALL), 'no 11'), (('update', 1, ALL, 3), 'no 12'), (('read', 1, 3, 9), ('bytes', b'A', 3)),
        panel(3, 9, (b'A', 3)), panel(2, 9, 8), panel(2, 5, (b'B', 2)), (('show', 3, 5), ('bytes', b'B', 2))],
    'releases and turns': START + [
        ask(2, 2), release(1, 'done', 4), (('edit', 2, 5, b'B'), 'done'), through(1, 'no 15'), through(2, 'revision 2'), release(2, 'done', 2), give(2, 0),
        panel(2, 5, (b'B', 2)), panel(1, 5, (b'A', 1))],
    'the power fails within a release': START + [
        cut(('release', 1, 1, 3, 9), 0, 'old'), panel(1, 5, 8), (('clear_cut', 1, 0), 'done'), cut(('release', 1, 1, 3, 9), 0, 'junk'), panel(1, 5, 8),
        (('read', 1, 1, 5), ('bytes', b'A', 1)), release(1, 'no 14'), (('commit', 1, 8, ALL), 'no 14'), (('clear_cut', 1, 0), 'stopped'), cut(('clear', 1), 0, 'junk'),
        release(1, 'no 14'), (('clear_cut', 1, 1), 'done'), panel(1, 5, 8), cut(('release', 1, 1, 3, 9), 0, 'new'), panel(1, 5, (b'A', 1)), release(1, 'no 16'),
        (('clear_cut', 1, 0), 'done'), (('edit', 1, 5, b'B'), 'done'), cut(('commit', 1, 8, ALL), 1, 'junk'), panel(1, 5, (b'A', 1)), (('clear', 1), 'done'),
        panel(1, 5, (b'A', 1)), (('commit', 1, 8, ALL), 'revision 2'), cut(('release', 1, 2, 1, 0), 0, 'junk'), panel(2, 5, (b'A', 1)), (('clear', 1), 'done'),
        release(2), panel(2, 5, (b'B', 2))],
}
LONG = {  # on a larger store
    'past revision 255': START + [
        *((c, said) for r in range(2, 256) for c, said in ((('edit', 1, 4, b'%d' % r), 'done'), (('commit', 1, r, ALL), f'revision {r}'))),
        (('edit', 1, 5, b'B'), 'done'), (('commit', 1, 8, ALL), 'revision 256'), (('edit', 1, 4, b'B'), 'done'), (('commit', 1, 9, ALL), 'revision 257'),
        (('status', 2, 4), 'status 3 257'), (('status', 2, 5), 'status 3 256'), (('status', 2, 6), 'status 1 1'), (('show', 3, 5), ('bytes', b'B', 256)),
        (('read', 1, 257, 5), ('bytes', b'B', 256)), (('read', 1, 255, 5), ('bytes', b'A', 1)), (('read', 1, 256, 4), ('bytes', b'255', 255)),
        (('read', 1, 257, 4), ('bytes', b'B', 257)), (('read', 1, 257, 6), ('bytes', b'A', 1)),
        release(256), release(0, 'no 7'), release(258, 'no 7'), release(65536 + 257, 'no 7'), panel(255, 4, 8), panel(256, 4, (b'255', 255)), panel(257, 4, (b'255', 255)),
        panel(257, 5, (b'B', 256)), release(1), panel(1, 4, (b'A', 1)), panel(255, 4, (b'A', 1)), panel(257, 4, (b'255', 255)), release(257), release(257, 'no 16'),
        panel(256, 4, (b'255', 255)), panel(257, 4, (b'B', 257)), panel(258, 4, 7), (('edit', 1, 4, b'C'), 'done'), (('commit', 1, 10, ALL), 'revision 258'),
        panel(258, 4, (b'B', 257)), (('read', 1, 258, 4), ('bytes', b'C', 258))],
}


def in_words(text):
    """`no 12`, as the model answers it."""
    word, *numbers = text.split()
    return (word, *map(int, numbers))


def from_hand(engine):
    for what, rows in (BY_HAND | LONG).items():
        blocks = 600 if what in LONG else 32
        some, answers = zip(*((c, in_words(said) if isinstance(said, str) else said) for c, said in rows))
        desk = by_calls(engine, what, blocks, some, answers)
        scripted = by_script(engine, what, blocks, some, answers)
        scripted.held_to(f'{what} as scripts', desk.model, bytes(desk.store))
        if scripted.turn != desk.turn:
            fail(f'{what} as scripts leaves another record')


def main():
    engine = Engine()
    from_hand(engine)
    for path in sys.argv[1:]:
        (from_cases if path.endswith('cases.jsonl') else from_lists)(engine, path)
    wrong = calls.failed + replay.failed
    print(f'{calls.calls} calls, {replay.scripts} scripts, {wrong} wrong')
    sys.exit(wrong != 0)


if __name__ == '__main__':
    main()
