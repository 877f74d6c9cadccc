#!/usr/bin/env python3
"""W5 of document 02 through the engine's C library: stores that end in a tail, and stores whose end is no tail. The calls that W6 cuts and those of W9 are among
them.

tails.py [SEED]

Every store of 2 to 5 blocks out of eight: its number, and what clear leaves. Each rule of the tail broken alone, with the number that must come from every call.
Tails of every size with every kind of block with a wrong check: every call but commit and release answers as on the bare store, which has zero blocks there, and
leaves the tail; commit gives 14, whatever the working copy, and whatever n if it is cut, and so does release, whatever it is given; a clear that is cut leaves all
but the n highest blocks of the tail; clear gives the bare store, and a commit or a release then what it gives there. Stores whose last commit block or release
block was damaged, which read as a history that is one commit or one release shorter and a tail. A store of 4,096 blocks and one of 2.
"""
import itertools, pathlib, random, re, sys

sys.path.insert(0, str(pathlib.Path(__file__).resolve().parent))
sys.path.insert(0, str(pathlib.Path(__file__).resolve().parent / 'model'))
import calls, layout, sheets, stores
from calls import ALL
from engine import Engine
from stores import expect

BLANK = bytes(512)
WRONG = layout.label()[:-1] + b'\xff'
content, commit_block, line, release_block = layout.content, layout.commit_block, layout.line, layout.release_block
RELEASES = [(3, 4, 9), (1, 4, 9), (2, 4, 9), (0, 4, 9), (4, 4, 9), (3, 0, 9), (2, 5, 9)]  # of those of `desk`, 3 is none yet


def desk():
    """A model with three revisions, of which 1 and 2 are released, and a working copy of seat 2 that a commit takes, with a modified, an added, a deleted and a
    copied entry; it needs 3 blocks."""
    model = sheets.Machine(4096)
    for c in [('add', 1, 4, b'A'), ('add', 1, 5, b''), ('add', 1, 6, b'C'), ('commit', 1, 7, ALL), ('edit', 1, 5, b'B'), ('commit', 1, 8, ALL), ('release', 1, 2, 3, 9),
              ('delete', 1, 6), ('commit', 1, 9, ALL), ('release', 1, 1, 3, 9), ('update', 2, ALL, 3), ('edit', 2, 5, b'D'), ('add', 2, 8, b'E'), ('copy', 2, 4, 7), ('delete', 2, 4)]:
        assert model.call(*c)[0] != 'no'
    return model, layout.copy_bytes(2, model.seats[2])


def expect_bytes(what, got, wanted):
    """Two buffers are equal, or the place where they first differ."""
    expect(what, None if got == wanted else next(k for k in range(len(wanted)) if got[k:k + 1] != wanted[k:k + 1]), None)


# ---- short stores

def every_short_store(engine):
    """Stores as words: a zero block, the label, a wrong check, a content of revision 1 and of 2, commit 1, which adds block 1, commit 2, a delete, and a release of
    revision 1."""
    blocks = {'0': BLANK, 'L': layout.label(), 'w': WRONG, 'a': content(1, b'A'), 'b': content(2, b'B'),
              'A': commit_block(1, 2, 7, [line(5, 1, 1)]), 'B': commit_block(2, 2, 8, [line(5, 3, 0)]), 'R': release_block(1, 3, 9)}
    bytes_of = lambda word: b''.join(blocks[x] for x in word)
    for word in map(''.join, itertools.chain.from_iterable(itertools.product(blocks, repeat=n) for n in (2, 3, 4, 5))):
        whole = re.fullmatch('(?:(L)a*|(LaAR?)b*|(LaARB|LaABR?))w?0*', word)
        wrong = 'w' in word.rstrip('0')[:-1] or word[0] == 'w'
        if wrong or not whole:
            unchanged(engine, f'{word}: clear', 'clear', (), bytes_of(word), b'', 2 if wrong else 3)
        else:
            bare = whole[whole.lastindex]
            clears(engine, word, bytes_of(word), bytes_of(bare.ljust(len(word), '0')))
            expect(f'{word}: revisions', [engine.log(bytes_of(word), r, 5)[0] for r in (1, 2)], ['log' if commit in bare else 'no' for commit in 'AB'])
            if 'A' in bare:
                expect(f'{word}: a panel', engine.panel(bytes_of(word), 1, 5), ('bytes', b'A', 1) if 'R' in bare else ('no', 8))


# ---- stores whose end is no tail

def broken_rules(engine):
    model, copy = desk()
    history = layout.used_blocks(layout.store_bytes(16, model.log))
    next_one = len(model.history) + 1
    more, release = content(next_one, b'A'), release_block(3, 4, 9)
    label, damaged = history[0], history[0][:100] + b'\1' + history[0][101:]
    shaped = lambda *head: layout.sealed(bytes(head))
    bad = {
        2: {
            'wrong, content': [*history, WRONG, more], 'wrong, wrong': [*history, WRONG, WRONG], 'content, wrong, content': [*history, more, WRONG, more],
            'content, wrong, wrong': [*history, more, WRONG, WRONG], 'wrong, zero block, wrong': [*history, WRONG, BLANK, WRONG],
            'wrong, commit': [*history, WRONG, commit_block(next_one, 2, 7, [line(5, 3, 0)])], 'wrong before the last commit': [*history[:-1], WRONG, history[-1]],
            'a damaged content block before a tail': [label, history[1][:20] + b'\1' + history[1][21:], *history[2:], more],
            'a damaged release block before a tail': [*history[:-1], history[-1][:20] + b'\1' + history[-1][21:], more],
            'a damaged commit block before a tail': [*history[:-2], history[-2][:20] + b'\1' + history[-2][21:], history[-1], more],
            'wrong, release': [*history, WRONG, release], 'content, wrong, release': [*history, more, WRONG, release],
            'a damaged release block before a commit': [*history[:-3], history[-3][:6] + b'\1' + history[-3][7:], *history[-2:]],
            'a damaged label': [damaged], 'a damaged label, content': [damaged, content(1, b'')], 'a damaged label, wrong': [damaged, WRONG],
            'a damaged label, zero block, wrong': [damaged, BLANK, WRONG], 'a damaged label, history': [damaged, *history[1:]], 'any block alone': [WRONG],
        },
        3: {
            'zero block, wrong': [*history, BLANK, WRONG], 'zero block, content': [*history, BLANK, more], 'content, zero block, wrong': [*history, more, BLANK, WRONG],
            'content, zero block, content': [*history, more, BLANK, more], 'label, zero block, wrong': [label, BLANK, WRONG],
            'label, zero block, content': [label, BLANK, content(1, b'')],
            'zero block for label, wrong': [BLANK, WRONG], 'zero block for label, content': [BLANK, content(1, b'')],
            'zero block for label, history, wrong': [BLANK, *history[1:], WRONG], 'nothing but zero blocks': [BLANK, BLANK],
            'another label, wrong': [shaped(1, 2), WRONG], 'a second label': [*history, label], 'content, a second label': [*history, more, label],
            'a second label, wrong': [*history, label, WRONG],
            '33 contents': [*history, *[more] * 33], '33 contents, wrong': [*history, *[more] * 33, WRONG], '40 contents': [*history, *[more] * 40],
            'content, a commit of another': [*history, more, commit_block(next_one, 2, 7, [line(5, 3, 0)])],
            'content, a commit of the last revision': [*history, more, commit_block(next_one - 1, 2, 7, [line(5, 2, len(history))])],
            'a commit of no change': [*history, commit_block(next_one, 2, 7, [])],
            'content, release': [*history, more, release], 'content, release, wrong': [*history, more, release, WRONG],
            'content, release, content': [*history, more, release, more], '32 contents, release': [*history, *[more] * 32, release],
            'zero block, release': [*history, BLANK, release], 'a release twice, wrong': [*history, release, release, WRONG],
            'a release of revision 1 again': [*history, release_block(1, 4, 9)], 'a release of the next revision': [*history, release_block(next_one, 4, 9)],
            'content, a release of its revision': [*history, more, release_block(next_one, 4, 9)], 'label, release, wrong': [label, release_block(1, 4, 9), WRONG],
            **{f'kind {kind}': [*history, more, shaped(kind, 1)] for kind in (0, 4, 5, 6, 7, 9, 255)},
        },
    }
    for revision in (0, next_one - 1, next_one + 1, next_one + 256, 65535):
        other = content(revision, b'A')
        bad[3].update({f'content of revision {revision}': [*history, other], f'content of revision {revision}, wrong': [*history, other, WRONG],
                       f'content, content of revision {revision}': [*history, more, other], f'content of revision {revision}, content': [*history, other, more]})
    for revision in (0, 2, 65535):
        bad[3][f'label, content of revision {revision}'] = [label, content(revision, b'')]
    for at in (1, *range(6, 16), 17, 300, 507):
        bad[3][f'content with byte {at}'] = [*history, layout.sealed(more[:at] + b'\1' + more[at + 1:508]), WRONG]
    for length in (481, 492, 512, 65535):
        bad[3][f'content of {length} bytes'] = [*history, layout.sealed(bytes([2, 0]) + layout.two(length) + layout.two(next_one) + bytes(10) + b'\1' * 480)]
    for number, cases in bad.items():
        for what, blocks in cases.items():
            for zeros in (max(0, 2 - len(blocks)), 3):
                refused(engine, what, b''.join(blocks) + BLANK * zeros, copy, number)


def refused(engine, what, store, copy, number):
    """Every call gives the number, clear, commit, cut or not, and release too, and changes nothing."""
    for name, *args in CALLS + [('clear',), ('clear_cut', 0), ('clear_cut', 1), ('commit', 9, ALL), ('commit_cut', 9, ALL, 0), ('commit_cut', 9, ALL, 33),
                                *(('release', *given) for given in RELEASES)]:
        unchanged(engine, f'{what}: {name}', name, args, store, copy, number)


def unchanged(engine, what, name, args, store, copy, number):
    """The call gives the number and changes nothing."""
    buffers = bytearray(store), bytearray(copy)
    expect(what, engine.call(name, *buffers, *args), ('no', number))
    expect_bytes(f'{what}, the store', buffers[0], store)
    expect_bytes(f'{what}, the copy', buffers[1], copy)


def clears(engine, what, store, bare):
    """Clear is done and leaves the bare store, which it leaves as it is. What it leaves."""
    store = bytearray(store)
    for again in ('clear', 'clear again'):
        expect(f'{what}: {again}', engine.clear(store), ('done',))
        expect_bytes(f'{what}: {again}, the store', store, bare)
    return store


# ---- tails

CALLS = [(name, revision, sheet) for name in ('read', 'log', 'panel') for revision in (0, 1, 2, 3, 4) for sheet in (4, 5, 6, 32)] + [
    (name, sheet) for name in ('show', 'status', 'delete') for sheet in (4, 5, 6, 7, 8, 9, 32)] + [
    ('add', 9, b'X'), ('add', 5, b'X'), ('add', 9, b'X' * 481), ('edit', 5, b'X'), ('edit', 8, b''), ('edit', 9, b''), ('copy', 5, 9), ('copy', 7, 8), ('copy', 9, 10),
    ('move', 5, 9), ('move', 4, 9), ('move', 8, 6), ('update', ALL, 3), ('update', ALL, 2), ('update', 1 << 6, 1), ('update', ALL, 4), ('update', 0, 3),
    ('revert', ALL), ('revert', 1 << 4), ('revert', 0)]


def beside(engine, what, bare, tail, copy, all_calls=True):
    """What each call does on a store with a tail, held to the model and to what the engine does on the bare store, and what clear leaves."""
    store = layout.tailed(bare, tail)
    for name, *args in CALLS if all_calls else CALLS[::9]:
        said = f'{what}: {name} {args}'
        on_tail, on_bare = (bytearray(store), bytearray(copy)), (bytearray(bare), bytearray(copy))
        expect(said, calls.on_buffers(engine, said, name, args, *on_tail), engine.call(name, *on_bare, *args))
        expect_bytes(f'{said}, the store', on_tail[0], store)
        expect_bytes(f'{said}, the copy', on_tail[1], on_bare[1])
        if name in ('read', 'show', 'panel'):
            expect(f'{said}, the part', engine.part(name, store, copy, *args), engine.part(name, bare, copy, *args))
    for why, other in (('', copy), (' of no length', b''), (' too short', copy[:-512]), (' too long', copy + BLANK), (' with a wrong check', copy[:-1] + b'\1'),
                       (' that does not fit', layout.copy_bytes(2, [('normal', 60000, b'')] * 32))):
        for mask in (ALL, 0, 1 << 31):
            unchanged(engine, f'{what}: commit with a copy{why}', 'commit', (9, mask), store, other, 14)
            for n in (0, 33):
                unchanged(engine, f'{what}: commit cut at {n} with a copy{why}', 'commit_cut', (9, mask, n), store, other, 14)
    for given in RELEASES:
        unchanged(engine, f'{what}: release {given}', 'release', given, store, copy, 14)
    for n in {0, 1, len(tail) - 1, len(tail), len(tail) + 1, 2 ** 32 - 1}:
        cleared = bytearray(store)
        expect(f'{what}: clear cut at {n}', engine.clear_cut(cleared, n), ('stopped',) if n < len(tail) else ('done',))
        expect_bytes(f'{what}: clear cut at {n}, the store', cleared, layout.tailed(bare, tail[:max(0, len(tail) - n)]))
    for given in RELEASES:
        after, wanted, said = clears(engine, what, store, bare), bytearray(bare), f'{what}: release {given} after clear'
        expect(said, engine.release(after, *given), engine.release(wanted, *given))
        expect_bytes(f'{said}, the store', after, wanted)
    after, wanted = (clears(engine, what, store, bare), bytearray(copy)), (bytearray(bare), bytearray(copy))
    expect(f'{what}: commit after clear', engine.call('commit', *after, 9, ALL), engine.call('commit', *wanted, 9, ALL))
    expect_bytes(f'{what}: commit after clear, the store', after[0], wanted[0])
    expect_bytes(f'{what}: commit after clear, the copy', after[1], wanted[1])


def sizes(engine, rng):
    """Every size, up to the store's last block and not, behind blocks in W1's order and in another."""
    model, copy = desk()
    next_one = len(model.history) + 1
    shuffled = lambda xs: rng.sample(xs, len(xs))
    for count in range(33):
        kinds = calls.junk(rng, next_one)
        some = kinds if count in (0, 1, 2, 32) else {what: kinds[what] for what in rng.sample(list(kinds), 2)}
        for what, last in [('none', None), *some.items()]:
            tail = [content(next_one, rng.choice([b'', b'A', rng.randbytes(480)])) for _ in range(count)] + ([last] if last else [])
            for zeros in (0, 5):
                order = rng.choice([None, shuffled])
                bare = layout.store_bytes(model.used + len(tail) + zeros, model.log, order, order)
                if tail:
                    beside(engine, f'{count} contents, junk: {what}', bare, tail, copy, count < 3)
                else:
                    clears(engine, 'without a tail', bare, bare)


def smallest_and_largest(engine, rng):
    empty = layout.copy_bytes(1, [sheets.EMPTY] * 32)
    for tail in ([content(1, b'')], [content(1, b'A' * 480)], *([b] for b in calls.junk(rng, 1).values())):
        beside(engine, 'the store of 2 blocks', layout.store_bytes(2, []), tail, empty)
    history = [(1, n, {5: (sheets.CHANGE if n else sheets.ADD, b'%d' % n, None)}) for n in range(2031)]
    bare = layout.store_bytes(4096, history)
    copy = layout.copy_bytes(1, [('added', b'X')] + [sheets.EMPTY] * 31)
    for tail in ([WRONG], [content(2032, b'')], [content(2032, b'')] * 32 + [WRONG]):
        beside(engine, 'the store of 4,096 blocks', bare, tail, copy, False)


def last_block_damaged(engine, rng):
    """A commit block that was damaged later, in each of its bytes: its content is a tail with it, and the history one commit shorter. Releases stay."""
    model, copy = desk()
    most = (4, 10, {i: (sheets.ADD, b'%d' % i, None) for i in range(9, 32)} | {i: (sheets.CHANGE, b'%d' % i, None) for i in (4, 5)})
    for log in (model.history[:1], model.history[:2], model.history, model.log[:4], [*model.log, most], [(1, 7, {i: (sheets.ADD, b'', None) for i in range(32)})]):
        commits, *blocks = len(sheets.commits_of(log)), *layout.used_blocks(layout.store_bytes(64, log))
        zeros = rng.choice([0, 2])
        bare = layout.store_bytes(len(blocks) + zeros, log[:-1])
        for at in range(512):
            last = bytearray(blocks[-1])
            last[at] ^= rng.randint(1, 255)
            damaged = b''.join(blocks[:-1]) + bytes(last) + BLANK * zeros
            what = f'byte {at} of commit {commits}'
            for c in [('read', commits - 1, 5), ('read', commits, 5), ('log', commits - 1, 4), ('log', commits, 4), ('panel', commits - 1, 5), ('panel', commits, 5)]:
                expect(f'{what}: {c}', engine.call(c[0], damaged, None, *c[1:]), engine.call(c[0], bare, None, *c[1:]))
            calls.on_buffers(engine, what, 'add', (9, b'X'), bytearray(damaged), bytearray(copy))  # the copy has base 3
            unchanged(engine, f'{what}: commit', 'commit', (9, ALL), damaged, copy, 14)
            clears(engine, what, damaged, bare)


def last_release_damaged(engine, rng):
    """A release block that was damaged later, in each of its bytes, behind a commit or a release: it is a tail, the history stays and the release is gone."""
    model, copy = desk()
    for log in (model.log[:3], model.log, [*model.log, sheets.Release(3, 1, 2 ** 32 - 1)]):
        blocks, last, revision = layout.used_blocks(layout.store_bytes(64, log)), log[-1], len(sheets.commits_of(log))
        zeros = rng.choice([1, 2])
        bare = layout.store_bytes(len(blocks) + zeros, log[:-1])
        for at in range(512):
            block = bytearray(blocks[-1])
            block[at] ^= rng.randint(1, 255)
            damaged, what = b''.join(blocks[:-1]) + bytes(block) + BLANK * zeros, f'byte {at} of the release of {last.revision}'
            for c in [(name, r, i) for name in ('read', 'panel') for r in range(revision + 2) for i in (5, 6)] + [('log', revision, 5), ('log', revision + 1, 5)]:
                expect(f'{what}: {c}', engine.call(c[0], damaged, None, *c[1:]), engine.call(c[0], bare, None, *c[1:]))
            unchanged(engine, f'{what}: release', 'release', last, damaged, copy, 14)
            unchanged(engine, f'{what}: commit', 'commit', (9, ALL), damaged, copy, 14)
            again = clears(engine, what, damaged, bare)
            expect(f'{what}: release after clear', engine.release(again, *last), ('done',))
            expect_bytes(f'{what}: release after clear, the store', again, b''.join(blocks) + BLANK * zeros)


def main():
    seed = int(sys.argv[1]) if len(sys.argv) > 1 else 1
    engine, rng = Engine(), random.Random(seed)
    for length in (0, 1, 511, 512, 1023, 1025, 4097 * 512):
        store = (layout.store_bytes(2, []) + bytes(length))[:length]
        unchanged(engine, f'clear of {length} bytes', 'clear', (), store, b'', 1)
    every_short_store(engine)
    broken_rules(engine)
    sizes(engine, rng)
    smallest_and_largest(engine, rng)
    last_block_damaged(engine, rng)
    last_release_damaged(engine, rng)
    wrong = stores.failed + calls.failed
    print(f'{stores.passed + stores.failed} answers, {wrong} wrong' + (f': tests/tails.py {seed}' if wrong else ''))
    sys.exit(wrong != 0)


if __name__ == '__main__':
    main()
