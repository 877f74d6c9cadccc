#!/usr/bin/env python3
"""Computes the machine of crates/model and the turn record of crates/turns by the prover on whole lists of calls, and holds them to lists made elsewhere.

lists.py FILE        every list of a file of lists, one JSON object a line: see tests/vectors/README.md
lists.py --random N [SEED]   a list of N random calls by four seats, and N / 4 more, of which half are on the turn record or through it, and N / 4 more, of which half
                     are releases and panel readings, with the answers and the end of tests/model; it begins on a fresh store with a tail

For each list two theorems by `refl` are written into a crate in a folder of its own: the answers are those of the list, and the machine's
state and the record at the end are the list's. A power cut is no call: a list that has some is cut there, and each part
begins in the state that tests/model has after the cut. Then the prover checks them.
"""
import argparse, collections, json, pathlib, random, re, shutil, subprocess, sys, tempfile, weakref

ROOT = pathlib.Path(__file__).resolve().parent.parent
sys.path.insert(0, str(ROOT / 'tests' / 'model'))
import sheets

NAMES = dict(add='Add', edit='Edit', delete='Delete', copy='Copy', move='Move', commit='Commits', update='Update',
             revert='Revert', read='Read', show='Show', status='Status', log='Log', clear='Clears', commit_cut='CommitsCut', clear_cut='ClearsCut',
             release='Release', panel='Panel')
ON_RECORD = dict(ask='Ask', give='Give', take='TakeBack')
STORE_ONLY = ('read', 'log', 'clear', 'clear_cut', 'release', 'panel')
HEAD = '''use Rattle.std.specs.Prelude.{◌≡◌, List, [], ◌∷◌, replicate}
use Rattle.std.proofs.Common.{refl}
use Rattle.model.specs.History.{tree, Change, nothing, add, change, delete, copy, Commit}
use Rattle.model.specs.Entry.{Entry, empty, normal, added, deleted, copied}
use Rattle.model.specs.Log.{released}
use Rattle.model.specs.Machine.{State, fresh}
use Rattle.model.specs.Machine.{Add, Edit, Delete, Copy, Move, Commits, Update, Revert, Read, Show, Status, Log, Clears, CommitsCut, ClearsCut, Release, Panel}
use Rattle.model.specs.Machine.{Answer, refused, done, revision, stopped, bytes, status, logged}
use Rattle.model.proofs.Play.{◌does◌}
use Rattle.turns.specs.Turns.{Ask, Give, TakeBack, no_turn, held_by, free, queue_of, in_form, turn_call}
use Rattle.turns.specs.Mixed.{Move as AnyCall, plain, turns, commits, said, held, Table, table, moved, said_by}

'''


def cons(xs):
    return ' ∷ '.join(list(xs) + ['[]'])


def data(b):
    if len(b) > 20 and len(set(b)) == 1:
        return f'(replicate {len(b)} {b[0]})'
    return f'({cons(map(str, b))})' if b else '[]'


def call(name, seat, *args):
    if name in ON_RECORD:
        return f'turns ({" ".join([ON_RECORD[name], *map(str, args)])})'
    if name == 'turn_commit':
        return ' '.join(['commits', str(seat), *map(str, args)])
    return f'plain ({seat} does ' + ' '.join([NAMES[name], *(data(x) if isinstance(x, bytes) else str(x) for x in args)]) + ')'


def answer(name, a):
    """What a call answers: one on the record, or any other."""
    if name in ON_RECORD:
        return f'held ({"no_turn" if a[0] == "no" else "held_by"} {a[1]})'
    return f'said ({told_by_machine(a)})'


def told_by_machine(a):
    if a[0] == 'log':
        action, source = a[4] or (0, None)
        return 'logged ' + ' '.join(map(str, (*a[1:4], action, *(source or (0, 0)))))
    if a[0] == 'bytes':
        return f'bytes {data(a[1])} {a[2] or 0}'
    return {'done': 'done', 'no': 'refused', 'revision': 'revision', 'stopped': 'stopped', 'status': 'status'}[a[0]] + ''.join(f' {x}' for x in a[1:])


def change(c):
    if c is None:
        return 'nothing'
    action, b, source = c
    return {1: 'add', 2: 'change', 3: 'delete', 4: 'copy'}[action] + ''.join(f' {x}' for x in source or ()) + (f' {data(b)}' if action != 3 else '')


def entry(e):
    return {
        'empty': lambda: 'empty',
        'normal': lambda: f'normal {e[1]} {data(e[2])}',
        'added': lambda: f'added {data(e[1])}',
        'deleted': lambda: f'deleted {e[1]}',
        'copied': lambda: f'copied {e[1][0]} {e[1][1]} {data(e[2])}',
    }[e[0]]()


def marks(log):
    """The releases of a log, each with the last revision before it."""
    for n, item in enumerate(log):
        if isinstance(item, sheets.Release):
            yield f'record {{ after = {len(sheets.commits_of(log[:n]))}; mark = released {item.revision} {item.seat} {item.stamp} }}'


def state(n, used, tail, log, seats, turn):
    history = sheets.commits_of(log)
    commits = cons(f'record {{ seat = {seat}; stamp = {stamp}; changes = {cons(change(cs.get(i)) for i in range(32))} }}' for seat, stamp, cs in history)
    rows = cons(f'({cons(map(entry, seats[k]))})' for k in (1, 2, 3, 4))
    machine = f'blocks = {n}; used = {used}; tail = {tail}; history = {commits}; marks = {cons(marks(log))}; seats = {rows}'
    return f'table (record {{ {machine} }}) ({cons(map(str, turn))})'


def theorems(n, calls, answers, *end, start=None):
    """The theorems of a list: blocks, calls, answers, and at the end used blocks, those of the tail, log, entries and the record. It starts fresh, or as given."""
    unfolds = 'unfolding tree queue_of in_form turn_call'
    return (HEAD + f'abbrev calls : List AnyCall\ncalls = {cons(call(*c) for c in calls)}\n\n'
            f'abbrev start : Table\nstart = {state(n, *start) if start else f"table (fresh {n}) free"}\n\n'
            f'answered : said_by start calls ≡ {cons(answer(c[0], a) for c, a in zip(calls, answers))}\n{unfolds}\nanswered = refl\n\n'
            f'left : moved start calls ≡ {state(n, *end)}\n{unfolds}\nleft = refl\n')


def stands(m):
    """What stands in a machine, apart from it: used blocks, those of the tail, log, entries and the record."""
    return m.used, m.tail, list(m.log), {k: list(entries) for k, entries in m.seats.items()}, m.turn


def parts(n, calls, answers, *end):
    """The theorems of a list for each part of it between power cuts."""
    m, start, some, said = sheets.Machine(n), None, [], []
    for c, a in zip(calls, answers):
        if c[0] != 'power':
            m.call(*c)
            some.append(c)
            said.append(a)
            continue
        if some:
            yield theorems(n, some, said, *stands(m), start=start)
        m.power(*c[2:])
        start, some, said = stands(m), [], []
    yield theorems(n, some, said, *end, start=start)


def from_json(l):
    """A list of a file in the model's terms: blocks, calls, answers, and at the end used blocks, those of the tail, log, entries and the record."""
    tuples = lambda x: tuple(map(tuples, x)) if isinstance(x, list) else x
    hexed = lambda x: None if x is None else bytes.fromhex(x)

    def args(c):
        if c[0] == 'power':  # the call, the number of its write, and how that block is found
            return ('power', 1, args(c[1]), *c[2:])
        seat, rest = (1, c[1:]) if c[0] in STORE_ONLY or c[0] in ON_RECORD else (c[1], c[2:])
        return (c[0], seat, *(hexed(x) if isinstance(x, str) else x for x in rest))

    def said(a):
        return ('bytes', hexed(a[1]), a[2]) if a[0] == 'bytes' else tuples(a)

    def change_of(x):
        return (x['action'], hexed(x['data']), tuples(x['source']))

    def entry_of(e):
        b = hexed(e['data'])
        return [('normal', e['base'], b), ('added', b), ('deleted', e['base']), ('copied', tuples(e['source']), b)][e['state'] - 1]

    def item_of(x):
        if 'release' in x:
            return sheets.Release(*x['release'])
        c = x['commit']
        return c['seat'], c['stamp'], {int(i): change_of(y) for i, y in c['changes'].items()}

    end, seats = l['end'], {k: [sheets.EMPTY] * 32 for k in (1, 2, 3, 4)}
    log = [item_of(x) for x in end['history']['items']]
    for k, entries in end['entries'].items():
        for i, e in entries.items():
            seats[int(k)][int(i)] = entry_of(e)
    return l['n'], [args(c) for c in l['calls']], [said(a) for a in l['answers']], end['used'], end['tail'], log, seats, tuples(end['turn'])


# ---- random calls

W2, W3 = 'W2, entries of updates', 'W3, numbers'
CLEARS, BESIDE, TAILS, FIRST = 'W5, clears and 14', 'W5, beside a tail', 'W5, tails', 'W5, commits of damaged copies'
CUTS, NO_ROOM, DAMAGED = 'W6, cut calls', 'W6, no room', 'W6, cut calls on damaged buffers'
TURNS = RECORD, THROUGH, TURN_NO_ROOM, TURN_DAMAGED = ('W7, calls on the record', 'W7, commits through it', 'W7, no room',
                                                       'W7, commits through it on damaged buffers')
BEFORE_ALL, RELEASES, PANELS = 'W9, before a release', 'W9, releases', 'W9, panel readings'
RELEASE_NO_ROOM, RELEASE_DAMAGED = 'W9, no room', 'W9, on damaged buffers'
COUNTED = {
    W2: ('modified that agree', 'added that agree', 'copied that agree', 'empty that agree', 'that agree with an older tree alone', 'that agree beside a conflict',
         'conflicts equal to the last tree alone', 'conflicts of equal length', 'conflicts deleted by both'),
    W3: ('below R in a read', 'below the newest in a read', 'in a show of an empty entry', 'in a show of a deleted entry', 'none for own bytes of a named sheet',
         '0 for an absent sheet', 'above 0 for an absent sheet', '0 for an added or copied entry', 'above 0 for an added entry', 'above 0 for a copied entry',
         'above the base of a normal entry', 'above the base of a deleted entry', 'below the base of an entry', 'of an add', 'of a change', 'of a delete',
         'of a copy', 'of a sheet that came back', 'below a copy from the sheet'),
    CLEARS: ('clears of a tail', 'clears without a tail', 'commits refused with 14'),
    BESIDE: (*(f'{name} done' for name in NAMES if name not in ('commit', 'clear', 'commit_cut', 'clear_cut', 'release')), 'commit that goes through without it',
             'commit that is refused without it', 'release that goes through without it', 'release that is refused without it'),
    TAILS: ('content alone', 'junk alone', 'content and junk', '32 contents', '32 contents and junk', 'behind the label', 'up to the last block'),
    FIRST: ('14 before 4', '14 before 5', '14 before 6'),
    CUTS: ('commits stopped at 0', 'commits stopped among the contents', 'commits stopped before the commit block', 'commits of no content stopped',
           'cut commits done with just enough', 'cut commits done with more', *(f'cut commits refused with {n}' for n in (7, 10, 11, 14)), 'cut commits refused at 0',
           'clearings stopped at 0', 'clearings stopped after a block', 'clearings stopped before the last block', 'cut clearings done with just enough',
           'cut clearings done with more', 'cut clearings at 0 without a tail', 'commits after a stopped one was cleared'),
    NO_ROOM: ('cut commits refused with 13',),
    DAMAGED: (*(f'commit_cut gives {n}' for n in (1, 2, 3, 4, 5, 6, 14)), *(f'clear_cut gives {n}' for n in (1, 2, 3)), 'commit_cut refused at 0',
              'clear_cut refused at 0', 'commit_cut stopped', 'clear_cut stopped'),
    RECORD: ('asks that get the turn', 'asks that join the end', 'asks while holding', 'asks while waiting', 'asks refused with 7', 'givings that pass it on',
             'givings that leave nobody', 'givings by a waiting seat', 'givings by a seat not in line', 'givings when nobody holds', 'givings refused with 7',
             'takings that pass it on', 'takings that leave nobody', 'takings when nobody holds'),
    THROUGH: ('commits through', *(f'through, refused with {n}' for n in (7, 10, 11, 14, 15)), '15 when nobody holds', '15 for a waiting seat',
              '15 for a seat not in line', '15 where a commit would be done', '15 where a commit gives 10', '15 where a commit gives 11'),
    TURN_NO_ROOM: ('through, refused with 13', '15 where a commit gives 13'),
    TURN_DAMAGED: tuple(f'turn_commit gives {n}' for n in (1, 2, 3, 4, 5, 6, 7, 14, 15)),
    BEFORE_ALL: ('panel: 8 without a release',),
    RELEASES: ('releases of the last revision', 'releases of an older one', 'releases of one below a released one', 'releases behind a commit',
               'releases behind a release', 'commits behind a release', *(f'releases refused with {n}' for n in (7, 14, 16)), '7 for revision 0',
               '7 for a revision after the last', '7 for a revision that is one in 16 bits', '7 for the seat', '7 for a seat that is one in 8 bits',
               'release: 14 before 7', 'release: 14 before 16', 'release: 7 before 16'),
    PANELS: ('panels at a released revision', 'panels above it', 'panels of one that was not released last', 'panels of other bytes than read',
             'panels of a sheet that tree R lacks', 'panels with a number below what they read', 'panel: 8 before every released revision',
             'panel: 8 at revision 0', 'panel: 8 where read finds the sheet', 'panel: 8 where an older released tree has it', 'panel: 7 for the revision',
             'panel: 7 for the sheet'),
    RELEASE_NO_ROOM: ('releases refused with 13', 'release: 7 before 13', 'release: 16 before 13', 'commits with no room beside the releases'),
    RELEASE_DAMAGED: (*(f'release gives {n}' for n in (1, 2, 3, 7, 14, 16)), *(f'panel gives {n}' for n in (1, 2, 3, 7, 8)), 'a release block put where it stands',
                      'a release block put where it does not', 'a release block put behind a content block'),
}
seen = collections.Counter()
since = weakref.WeakKeyDictionary()  # machines on whose store a commit stopped and left blocks, and whether these were cleared since
IN_LIST, THEN, AT_LAST = (W2, W3, CLEARS, CUTS, BEFORE_ALL), (RECORD, THROUGH), (RELEASES, PANELS)  # what the prover's random list meets
FOUND = 3  # the blocks of the tail that it begins with


def met(m, seat, mask, revision):
    """What of W2 an update meets."""
    tree, last = m.tree(revision), m.tree(m.last())
    chosen = [(i, e) for i, e in enumerate(m.seats[seat]) if mask >> i & 1 and m.pending(i, e)]
    conflicts = [(i, e) for i, e in chosen if m.updated(i, e, revision) is None]
    for i, e in conflicts:
        if e[0] == 'deleted':
            if i not in tree and m.namer(revision, i) > e[1]:
                yield 'conflicts deleted by both'
        elif last.get(i) == e[-1]:
            yield 'conflicts equal to the last tree alone'
        elif i in tree and len(tree[i]) == len(e[-1]):
            yield 'conflicts of equal length'
    for i, e in chosen:
        if not m.agrees(i, e, revision):
            continue
        if conflicts:
            yield 'that agree beside a conflict'
            continue
        yield {'normal': 'modified'}.get(e[0], e[0]) + ' that agree'
        if e[-1] == b'':
            yield 'empty that agree'
        if last.get(i) != e[-1]:
            yield 'that agree with an older tree alone'


def told(m, name, seat, args, answer):
    """What of W3 the answer of a read, a show or a status has."""
    sheet, number, entry = args[-1], answer[-1], m.seats[seat][args[-1]]
    revision, newest = args[0] if name == 'read' else m.last(), m.namer(m.last(), sheet)
    such = f'{"an" if entry[0][0] in "ae" else "a"} {entry[0]} entry'
    if number is None:
        if newest:
            yield 'none for own bytes of a named sheet'
        return
    if name == 'read':
        if number < revision:
            yield 'below R in a read'
        if number < newest:
            yield 'below the newest in a read'
    elif name == 'show':
        yield f'in a show of {such}'
    elif entry[0] in ('normal', 'deleted'):
        if number != entry[1]:
            yield f'above the base of {such}' if number > entry[1] else 'below the base of an entry'
    elif answer[1] == 0:
        yield ('above 0' if number else '0') + ' for an absent sheet'
    elif entry != sheets.EMPTY:
        yield f'above 0 for {such}' if number else '0 for an added or copied entry'
    if any(source and source[0] == sheet for _, _, changes in m.history[number:revision] for _, _, source in changes.values()):
        yield 'below a copy from the sheet'
    if number:
        action = m.history[number - 1][2][sheet][0]
        yield 'of ' + {sheets.ADD: 'an add', sheets.CHANGE: 'a change', sheets.DELETE: 'a delete', sheets.COPY: 'a copy'}[action]
        if action in (sheets.ADD, sheets.COPY) and m.namer(number - 1, sheet):
            yield 'of a sheet that came back'


def twin(m):
    """The same machine, apart."""
    other = sheets.Machine(m.blocks)
    other.log, other.used, other.tail, other.turn = list(m.log), m.used, m.tail, m.turn
    other.seats = {k: list(entries) for k, entries in m.seats.items()}
    return other


def without_tail(m, call):
    """The answer that a call would have on the store without its tail."""
    bare = twin(m)
    bare.tail = 0
    return bare.call(*call)


def cut_commit(n, blocks, answer):
    """What of W6 a cut commit of so many blocks meets."""
    if answer[0] == 'no':
        yield f'cut commits refused with {answer[1]}'
        if n == 0:
            yield 'cut commits refused at 0'
    elif n >= blocks:
        yield 'cut commits done with just enough' if n == blocks else 'cut commits done with more'
    elif blocks == 1:
        yield 'commits of no content stopped'
    else:
        yield 'commits stopped at 0' if n == 0 else 'commits stopped before the commit block' if n == blocks - 1 else 'commits stopped among the contents'


def cut_clearing(n, tail):
    """What of W6 a cut clearing of a tail of so many blocks meets."""
    if n >= tail:
        if n == 0 or tail:
            yield 'cut clearings at 0 without a tail' if n == 0 else 'cut clearings done with just enough' if n == tail else 'cut clearings done with more'
        return
    yield 'clearings stopped at 0' if n == 0 else 'clearings stopped after a block'
    if n and n == tail - 1:
        yield 'clearings stopped before the last block'


def on_record(before, name, args, answer):
    """What of W7 a call on this record meets."""
    holder, seat = before[0], args[0] if args else before[0]  # taking back is as giving back by the holder
    what = {'ask': 'asks', 'give': 'givings', 'take': 'takings'}[name]
    if answer[0] == 'no':
        return f'{what} refused with {answer[1]}'
    if holder == 0:
        return what + (' that get the turn' if name == 'ask' else ' when nobody holds')
    if name == 'ask':
        return what + (' while holding' if seat == holder else ' while waiting' if seat in before else ' that join the end')
    if seat == holder:
        return what + (' that pass it on' if before[1] else ' that leave nobody')
    return what + (' by a waiting seat' if seat in before else ' by a seat not in line')


def through(m, seat, bare, answer):
    """What of W7 a commit through the record meets, where a commit answers as `bare`."""
    yield 'commits through' if answer[0] == 'revision' else f'through, refused with {answer[1]}'
    if answer == ('no', 15):
        yield '15 when nobody holds' if m.turn[0] == 0 else '15 for a waiting seat' if seat in m.turn else '15 for a seat not in line'
        yield '15 where a commit would be done' if bare[0] == 'revision' else f'15 where a commit gives {bare[1]}'


def releasing(m, revision, seat, stamp):
    """What of W9 a release meets."""
    done, last = sheets.released(m.log), m.last()
    lines = (14, m.tail), (7, not 1 <= revision <= last or not 1 <= seat <= 4), (16, revision in done), (13, m.used + 1 > m.blocks)
    holds = [n for n, there in lines if there]
    yield from (f'release: {holds[0]} before {n}' for n in holds[1:])
    if holds:
        yield f'releases refused with {holds[0]}'
    if holds[:1] == [7]:
        faults = revision == 0, revision > last, revision > last and 1 <= revision % 65536 <= last, not 1 <= seat <= 4, seat > 4 and 1 <= seat % 256 <= 4
        names = 'revision 0', 'a revision after the last', 'a revision that is one in 16 bits', 'the seat', 'a seat that is one in 8 bits'
        yield from (f'7 for {what}' for what, there in zip(names, faults) if there)
    if not holds:
        yield 'releases of the last revision' if revision == last else 'releases of an older one'
        yield 'releases behind a release' if isinstance(m.log[-1], sheets.Release) else 'releases behind a commit'
        if revision < max(done, default=0):
            yield 'releases of one below a released one'


def on_panel(m, revision, sheet, answer):
    """What of W9 a panel reading meets."""
    done = sheets.released(m.log)
    if answer == ('no', 7):
        yield 'panel: 7 for the sheet' if sheet > 31 else 'panel: 7 for the revision'
        return
    shown, tree = [r for r in done if r <= revision], m.tree(revision)
    if not shown:
        yield 'panel: 8 before every released revision' if done else 'panel: 8 without a release'
        if revision == 0:
            yield 'panel: 8 at revision 0'
        return
    at = max(shown)
    if answer[0] == 'no':
        if sheet in tree:
            yield 'panel: 8 where read finds the sheet'
        if any(sheet in m.tree(r) for r in shown):
            yield 'panel: 8 where an older released tree has it'
        return
    yield 'panels at a released revision' if at == revision else 'panels above it'
    if at != shown[-1]:
        yield 'panels of one that was not released last'
    if sheet not in tree:
        yield 'panels of a sheet that tree R lacks'
    elif tree[sheet] != answer[1]:
        yield 'panels of other bytes than read'
    if answer[2] < at:
        yield 'panels with a number below what they read'


def goes_on(m, name, tail, answer):
    """Whether the call is a commit after a stopped one left blocks and these were cleared."""
    if answer[0] == 'stopped' and name == 'commit_cut' and m.tail:
        since[m] = 'stopped'
    elif tail and not m.tail and since.get(m) == 'stopped':
        since[m] = 'cleared'
    elif answer[0] == 'revision':
        return since.pop(m, None) == 'cleared'
    return False


def found(m, tail):
    """The machine's store is found with so many blocks of a tail."""
    m.tail = tail
    since.pop(m, None)


def made(m, call):
    """The model makes the call. What of W2, W3, W5, W6, W7 and W9 it meets is counted."""
    name, seat, *args = call
    if name == 'update' and args[1] <= m.last():
        seen.update(met(m, *call[1:]))
    tail, blocks = m.tail, m.asked(seat, *args[:2])[2] if name == 'commit_cut' else 0
    turn, bare = m.turn, twin(m).call('commit', seat, *args) if name == 'turn_commit' else None
    behind, releases = bool(m.log) and isinstance(m.log[-1], sheets.Release), len(sheets.released(m.log))
    if name == 'release':
        seen.update(releasing(m, *args))
    answer = m.call(*call)
    if name == 'panel':
        seen.update(on_panel(m, *args, answer))
    seen['commits behind a release'] += behind and answer[0] == 'revision'
    if answer == ('no', 13) and name == 'commit' and releases:
        roomy = twin(m)
        roomy.blocks += releases
        seen['commits with no room beside the releases'] += roomy.call(*call)[0] == 'revision'
    if name in ON_RECORD:
        seen[on_record(turn, name, args, answer)] += 1
    elif name == 'turn_commit':
        seen.update(through(m, seat, bare, answer))
    if name == 'clear':
        seen['clears of a tail' if tail else 'clears without a tail'] += 1
    elif name == 'clear_cut':
        seen.update(cut_clearing(*args, tail))
    elif answer == ('no', 14):
        seen['commits refused with 14'] += name == 'commit'
        what = 'release' if name == 'release' else 'commit'
        seen[f'{what} that is refused without it' if without_tail(m, call)[0] == 'no' else f'{what} that goes through without it'] += 1
    elif tail and answer[0] != 'no':
        seen[f'{name} done'] += 1
    if name == 'commit_cut':
        seen.update(cut_commit(args[2], blocks, answer))
    seen['commits after a stopped one was cleared'] += goes_on(m, name, tail, answer)
    if answer[0] in ('bytes', 'status') and name != 'panel':
        seen.update(told(m, name, seat, args, answer))
    return answer


def unmet(requests):
    """What of these requests never came."""
    return [what for request in requests for what in COUNTED[request] if not seen[what]]


def tally(enough, requests):
    """Prints how often the calls met what these requests are about. How much of it never came, where the calls were enough."""
    never = unmet(requests) if enough else []
    for request in requests:
        print(f'{request}: ' + '; '.join(f'{what}: {seen[what]}' for what in COUNTED[request]))
    for what in never:
        print(f'none came: {what}')
    return len(never)


def group_tally(enough, groups, seen):
    """The same for what a test counts by itself, by group."""
    never = [(group, what) for group, members in groups.items() for what in members if enough and not seen[group, what]]
    for group, members in groups.items():
        print(f'{group}: ' + '; '.join(f'{what}: {seen[group, what]}' for what in members))
    for group, what in never:
        print(f'none came: {group}: {what}')
    return len(never)


def options(doc, count):
    """The options of a test of random lists: the numbers of the lists to run, and whether they are at least as many as its own count."""
    parser = argparse.ArgumentParser(description=doc, formatter_class=argparse.RawDescriptionHelpFormatter)
    parser.add_argument('--seed', type=int, default=1)
    parser.add_argument('--lists', type=int, default=count)
    parser.add_argument('--only', type=int, metavar='K')
    given = parser.parse_args()
    given.numbers = range(given.lists) if given.only is None else [given.only]
    given.enough = given.only is None and given.lists >= count
    return given


def current(m, seat):
    """The sheets that a commit of the seat can take."""
    return [i for i, e in enumerate(m.seats[seat]) if m.pending(i, e) and not m.out_of_date(i, e)]


def cut(rng, m, commit):
    """A commit as a cut call: with any n, mostly one that its blocks bring up."""
    blocks = m.asked(*commit[1:])[2]
    return ('commit_cut', *commit[1:], rng.choice([0, max(0, blocks - 2), max(0, blocks - 1), blocks, blocks, blocks + 1, rng.choice([33, 34, 2 ** 32 - 1])]))


def to_cut(rng, m):
    """A call that leads to W6. A clearing of a tail, mostly cut, or a commit beside it; a cut commit of what a seat can commit, or of what takes no content block; or
    one more sheet for that."""
    if m.tail:
        seat, n = rng.randint(1, 4), rng.choice([0, 1, m.tail - 1, m.tail, m.tail + 1, rng.randint(0, m.tail)])
        commit = ('commit', seat, rng.getrandbits(32), 0xffffffff)
        return rng.choice([('clear', seat), *[('clear_cut', seat, n)] * 3, commit, cut(rng, m, commit)])
    can = {k: current(m, k) for k in m.seats}
    light = [(k, sum(1 << i for i in can[k] if not m.content(m.change(i, m.seats[k][i])))) for k in can]
    light = [(k, mask) for k, mask in light if mask]
    if light and rng.random() < 0.15:
        seat, mask = rng.choice(light)
        return cut(rng, m, ('commit', seat, rng.getrandbits(32), mask))
    seat, tree = max(can, key=lambda k: len(can[k])), m.tree(m.last())
    ready = can[seat]
    free = [i for i, e in enumerate(m.seats[seat]) if e == sheets.EMPTY and i not in tree]
    if free and (len(ready) < 2 or rng.random() < 0.3):
        return ('add', seat, rng.choice(free), bytes(rng.choice([0, 1, 2])))
    chosen = rng.sample(ready, rng.randint(1, len(ready))) if ready and rng.random() < 0.5 else ready
    return cut(rng, m, ('commit', seat, rng.getrandbits(32), sum(1 << i for i in chosen)))


def random_call(rng, m):
    if rng.random() < (0.25 if m.tail else 0.06):
        return to_cut(rng, m)
    if m.history and rng.random() < 0.35:
        return same_edit(rng, m)
    if m.history and rng.random() < 0.06:
        return to_release(rng, m)
    name = rng.choice(list(NAMES) + ['add', 'edit', 'commit', 'commit', 'update'])
    if m.history and name in ('read', 'show', 'status') and rng.random() < 0.6:
        return look(rng, m)
    sheet = lambda: rng.choice([0, 1, 2, 3, 5, 7, 31, 31, rng.randrange(34)])
    mask = lambda: rng.choice([0xffffffff, rng.getrandbits(32), 1 << sheet() % 32, 0])
    revision = lambda: rng.choice([m.last(), rng.randint(0, m.last() + 1)])
    content = lambda: bytes(rng.getrandbits(8) for _ in range(rng.choice([0, 1, 1, 2, 3]))) if rng.random() < 0.97 else b'\7' * rng.choice([480, 481])
    args = {'add': lambda: (sheet(), content()), 'edit': lambda: (sheet(), content()), 'delete': lambda: (sheet(),),
            'copy': lambda: (sheet(), sheet()), 'move': lambda: (sheet(), sheet()), 'commit': lambda: (rng.getrandbits(32), mask()),
            'update': lambda: (mask(), revision()), 'revert': lambda: (mask(),), 'read': lambda: (revision(), sheet()),
            'show': lambda: (sheet(),), 'status': lambda: (sheet(),), 'log': lambda: (revision(), sheet()), 'clear': tuple,
            'clear_cut': lambda: (rng.choice([0, 1, 2 ** 32 - 1]),), 'release': lambda: (revision(), rng.randint(0, 5), rng.getrandbits(32)),
            'panel': lambda: (revision(), sheet())}
    if name == 'commit_cut':
        return cut(rng, m, ('commit', rng.randint(1, 4), *args['commit']()))
    return (name, rng.randint(1, 4), *args[name]())


def to_release(rng, m):
    """A call that leads to W9: a panel's reading, or a release, mostly of a revision that isn't released yet."""
    last, done = m.last(), sheets.released(m.log)
    if not m.tail and rng.random() < (0.5 if done else 0.75):
        return ('panel', rng.randint(1, 4), *to_panel(rng, m, done))
    left, seat = [r for r in range(1, last + 1) if r not in done], rng.randint(1, 4)
    other = [*[rng.choice(done or [1])] * 3, 0, last + 1, 65536 + rng.randint(1, last), 2 ** 32 - 1]
    revision = rng.choice([left[-1], rng.choice(left)]) if left and rng.random() < 0.5 else rng.choice(other)
    by = seat if rng.random() < 0.8 else rng.choice([0, 5, 256, 256 + seat, 65536 + seat, 2 ** 32 - 1])
    return ('release', rng.randint(1, 4), revision, by, rng.choice([0, 2 ** 32 - 1, rng.getrandbits(32)]))


def telling(m, done):
    """Readings of a panel that tell the greatest released revision from an older one and from R itself: of a sheet that a released tree lacks and an older released one has, and
    of one that a released tree has and the last tree before the next release lacks."""
    readings, older, order = [], set(), sorted(done)
    for r, end in zip(order, [*(q - 1 for q in order[1:]), m.last()]):
        tree = set(m.tree(r))
        readings += ((r, i) for i in sorted(older - tree))
        readings += ((end, i) for i in sorted(tree - set(m.tree(end))))
        older |= tree
    return readings


def to_panel(rng, m, done):
    """A reading that tells. Or a revision, mostly about a released one, and a sheet that a commit named: one that went or changed since the release, if there is any."""
    last, named = m.last(), sorted({i for _, _, changes in m.history for i in changes})
    if rng.random() < 0.3 and (readings := telling(m, done)):
        return rng.choice(readings)
    revision = max(0, rng.choice(done) + rng.choice([-1, 0, 0, 1, 2])) if done and rng.random() < 0.5 else rng.choice([0, *[last, rng.randint(0, last)] * 4])
    released, tree = (m.tree(r) for r in (max((r for r in done if r <= revision), default=0), revision))
    gone, other = [i for i in released if i not in tree], [i for i in tree if tree[i] != released.get(i)]
    if rng.random() < 0.08:
        return rng.choice([(last + 1, named[0]), (65536 + revision, named[0]), (revision, 32), (revision, 256 + named[0])])
    return revision, rng.choice(rng.choice([some for some in (gone, other, named) if some]))


def to_change(rng, m):
    """A call that makes the trees differ: a seat changes or deletes a sheet that it has as it is, or commits what it can."""
    seat, tree = rng.randint(1, 4), m.tree(m.last())
    ready = current(m, seat)
    if ready and rng.random() < 0.6:
        return ('commit', seat, rng.getrandbits(32), sum(1 << i for i in ready))
    own = [i for i, e in enumerate(m.seats[seat]) if e[0] == 'normal' and i in tree and m.namer(m.last(), i) <= e[1]]
    if not own:
        return rng.choice([('update', seat, 0xffffffff, m.last()), ('update', seat, 0xffffffff, m.last()), ('revert', seat, 0xffffffff)])
    sheet = rng.choice(own)
    return ('delete', seat, sheet) if rng.random() < 0.3 else ('edit', seat, sheet, bytes([rng.getrandbits(8)]))


def release_call(rng, m):
    """A call of a list that is for W9."""
    if not m.history:
        return random_call(rng, m)
    if m.tail and rng.random() < 0.5:
        return to_cut(rng, m)
    return rng.choice([to_release, to_release, to_release, to_change, to_change, random_call])(rng, m) if rng.random() < 0.9 else to_cut(rng, m)


def turn_call(rng, m):
    """A call on the turn record, or one that leads to a commit through it: mostly by the holder, of what the seat can commit, or one more sheet for that."""
    name, seat, holder = rng.choice(['ask', 'ask', 'ask', 'give', 'give', 'take', *['turn_commit'] * 5]), rng.randint(1, 4), m.turn[0]
    if name == 'take':
        return ('take', 1)
    if name != 'ask' and holder and rng.random() < 0.6:
        seat = holder
    if name != 'turn_commit':
        return (name, 1, seat if rng.random() < 0.95 else rng.choice([0, 5, 255, 256, 256 + seat, 65536 + seat, 2 ** 31 + seat, 2 ** 32 - 1]))
    ready, tree = current(m, seat), m.tree(m.last())
    free = [i for i, e in enumerate(m.seats[seat]) if e == sheets.EMPTY and i not in tree]
    if not ready and free and rng.random() < 0.5:
        return ('add', seat, rng.choice(free), bytes(rng.choice([0, 1, 2])))
    return ('turn_commit', seat, rng.getrandbits(32), rng.choice([0xffffffff, 1 << rng.randrange(32), 0, *[sum(1 << i for i in ready or range(32))] * 4]))


def any_call(rng, m):
    """A call of any kind."""
    return turn_call(rng, m) if rng.random() < 0.5 else random_call(rng, m)


def same_edit(rng, m):
    """A call that leads to W2. A seat types what a revision has of a sheet, or copies a sheet there first; updates an entry that agrees; deletes what the last
    tree lacks, and updates that; or commits."""
    seat, revisions = rng.randint(1, 4), [m.last(), rng.randint(1, m.last()), rng.randint(1, m.last())]
    entries, trees = m.seats[seat], {r: m.tree(r) for r in revisions}
    there = [(i, r) for r in revisions for i in trees[r] if entries[i][0] != 'deleted']
    agreeing = [(i, r) for i, r in there if entries[i][-1] == trees[r][i] and m.agrees(i, entries[i], r)]
    other = [(i, r) for i, r in there if entries[i][-1] != trees[r][i]]
    gone = [i for i, e in enumerate(entries) if e[0] in ('normal', 'deleted') and i not in trees[m.last()]]
    if gone and rng.random() < 0.15:
        sheet = rng.choice(gone)
        return ('delete', seat, sheet) if entries[sheet][0] == 'normal' else ('update', seat, 1 << sheet, m.last())
    if agreeing and rng.random() < 0.7:
        sheet, revision = rng.choice(agreeing)
        before = m.namer(revision, sheet) - 1  # the sheet had other bytes there, or none
        return ('update', seat, rng.choice([1 << sheet, 1 << sheet, 0xffffffff]), rng.choice([revision, before]))
    if not other or rng.random() < 0.25:
        ready = current(m, seat) or [31]
        commit = ('commit', seat, rng.getrandbits(32), rng.choice([1 << rng.choice(ready), sum(1 << i for i in ready)]))
        return commit if rng.random() < 0.8 else cut(rng, m, commit)
    normal = [i for i, e in enumerate(entries) if e[0] == 'normal']
    sheet, revision = rng.choice([(i, r) for i, r in other if i in normal] or other if rng.random() < 0.5 else other)
    if entries[sheet] == sheets.EMPTY and normal and rng.random() < 0.5:
        return ('copy', seat, rng.choice(normal), sheet)
    data = bytearray(trees[revision][sheet])
    if data and rng.random() < 0.1:  # nearly the same
        data[rng.randrange(len(data))] ^= 1 << rng.randrange(8)
    return ('add' if entries[sheet] == sheets.EMPTY else 'edit', seat, sheet, bytes(data))


def look(rng, m):
    """A call that shows W3: a seat looks at a sheet that it deletes, that it adds or copies, that a commit named, or that a commit deleted."""
    seat, tree, named = rng.randint(1, 4), m.tree(m.last()), sorted({i for _, _, changes in m.history for i in changes})
    gone = [i for i in named if i not in tree]
    deleted, new = ([i for i, e in enumerate(m.seats[seat]) if e[0] in kinds] for kinds in (['deleted'], ['added', 'copied']))
    sheet = rng.choice(rng.choice([deleted, new, named, gone]) or named)
    return rng.choice([('read', seat, rng.randint(1, m.last()), sheet), ('show', seat, sheet), ('status', seat, sheet), ('status', seat, sheet)])


def random_calls(seed, m, count, choose, requests):
    """Random calls on a machine like m: the seed's first list of so many that meets all of these requests, if one of two hundred does. The calls, the answers and
    the machine after them."""
    before = collections.Counter(seen)
    for n in range(200):
        rng, after, calls, answers = random.Random(f'{seed} {n}'), twin(m), [], []
        seen.clear()
        seen.update(before)
        while len(calls) < count:
            calls.append(choose(rng, after))
            answers.append(made(after, calls[-1]))
        if not unmet(requests):
            break
    return calls, answers, after


def random_list(count, seed):
    """Random calls by four seats on a store that is found with a tail, then a quarter as many of any kind, and as many that are for W9: the theorems, and how many
    calls."""
    m = sheets.Machine(4096)
    found(m, FOUND)
    calls, answers, end = [], [], m
    for some, choose, requests in (count, random_call, IN_LIST), (count // 4, any_call, THEN), (count // 4, release_call, AT_LAST):
        more, said, end = random_calls(seed, end, some, choose, requests)
        calls += more
        answers += said
    return theorems(4096, calls, answers, *stands(end), start=stands(m)), len(calls)


def main():
    if len(sys.argv) >= 3 and sys.argv[1] == '--random':
        text, calls = random_list(int(sys.argv[2]), int(sys.argv[3]) if len(sys.argv) > 3 else 1)
        count, texts = 1, [text]
        if tally(int(sys.argv[2]) >= 1000, IN_LIST + THEN + AT_LAST):
            sys.exit(1)
    elif len(sys.argv) == 2:
        lists = [from_json(json.loads(line)) for line in open(sys.argv[1])]
        count, calls, texts = len(lists), sum(len(l[1]) for l in lists), [text for l in lists for text in parts(*l)]
    else:
        sys.exit(__doc__)
    needs = dict(line.split(':') for line in (ROOT / 'crates.txt').read_text().splitlines() if line and line[0] != '#')
    names = [*needs['turns'].split(), 'turns']
    with tempfile.TemporaryDirectory() as folder:
        repo = pathlib.Path(folder)
        for name in names:
            shutil.copytree(ROOT / 'crates' / name, repo / 'crates' / name, ignore=shutil.ignore_patterns('out', 'must-fail'))
        crate = repo / 'crates' / 'lists'
        for part in ('src', 'specs', 'proofs'):
            (crate / part).mkdir(parents=True)
        (repo / 'crates.txt').write_text(''.join(f'{name}:{needs[name]}\n' for name in names) + f'lists: {" ".join(names)}\n')
        (crate / 'src' / 'lib.rt').write_text('// Lists of calls, computed: see proofs/.\n#![tactic(auto)]\n')
        (crate / 'specs' / 'Lib.antt').write_text('')
        (crate / 'proofs' / 'Lib.antt').write_text(''.join(f'pub mod List{i}\n' for i in range(len(texts))))
        for i, text in enumerate(texts):
            (crate / 'proofs' / f'List{i}.antt').write_text(text)
        done = subprocess.run(['rt', 'check'], cwd=crate, capture_output=True, text=True)
    as_computed = done.returncode == 0 and re.search('^logic=proved ', done.stdout, re.M)
    if not as_computed:
        print(done.stdout[-4000:], done.stderr[-4000:])
    print(f'{count} lists, {calls} calls: ' + ('all as computed' if as_computed else 'DIFFERENT'))
    sys.exit(0 if as_computed else 1)


if __name__ == '__main__':
    main()
