#!/usr/bin/env python3
"""Stores handed to the engine, good and bad, each with the answer that document 01 and W5 and W9 of document 02 fix.

Lengths; every single-byte change of a good store (2, 3 or a tail, by the block); each rule of "Blocks" and of the release block broken in a resealed store (3);
histories in sheet order and in others, read back at every revision, by panels too. Nothing may change in a buffer that is only read. Tails are in tests/tails.py,
releases at every place in tests/releases.py.
"""
import pathlib, random, sys

sys.path.insert(0, str(pathlib.Path(__file__).resolve().parent))
sys.path.insert(0, str(pathlib.Path(__file__).resolve().parent / 'model'))
import layout, sheets
from engine import Engine

passed = failed = 0


def expect(what, got, wanted):
    global passed, failed
    if got == wanted:
        passed += 1
    else:
        failed += 1
        if failed <= 10:
            print(f'{what}: {got}, not {wanted}'[:400])


def refusal(engine, store):
    """The number that opening gives, 0 for none; the store must stay."""
    before = bytes(store)
    answer = engine.log(store, 0, 0)  # revision 0 is 7 where the store is accepted
    assert bytes(store) == before
    return 0 if answer == ('no', 7) else answer[1]


def history(rng, blocks, calls):
    """A history made by random calls of the model."""
    import lists
    m = sheets.Machine(blocks)
    for _ in range(calls):
        m.call(*lists.random_call(rng, m))
    return m


def lengths(engine):
    good = layout.store_bytes(2, [])
    for n in (0, 1, 511, 512, 513, 1023, 1025, 4097 * 512, 4096 * 512 + 1):
        expect(f'length {n}', refusal(engine, bytearray((good + bytes(n))[:n])), 1)
    for blocks in (2, 3, 32, 4096):
        store = bytearray(blocks * 512)
        expect(f'create of {blocks} blocks', engine.create_store(store), ('done',))
        expect(f'fresh store of {blocks} blocks', bytes(store), layout.store_bytes(blocks, []))
        expect(f'{blocks} blocks', refusal(engine, store), 0)
    for n in (0, 1, 512, 4097 * 512):
        store = bytearray(b'\x5a' * n)
        expect(f'create of {n} bytes', engine.create_store(store), ('no', 1))
        expect(f'create of {n} bytes leaves them', bytes(store), b'\x5a' * n)


def single_bytes(engine):
    """Each byte changed of a store with two commits, and of one with a release between them and one behind them. Refusal 2 skips "the last block that isn't all
    zero", so in the last of these, and in the zero block behind it, it makes a tail; in the next block it stands behind a zero block."""
    one, two = (2, 7, {5: (1, b'A', None)}), (2, 8, {5: (3, None, None), 6: (4, b'A', (5, 1))})
    # the store, the block of the last commit or release, the last revision and what a panel finds there if that block is changed, and if the next one is
    for what, log, end, before, after in (('', [one, two], 3, (1, 8), (2, 8)),
                                          (' with releases', [one, sheets.Release(1, 4, 9), two, sheets.Release(2, 1, 0)], 5, (2, 8), (2, b'A'))):
        good = layout.store_bytes(end + 3, log)
        wanted = [2] * end + [0, 0, 3]
        expect(f'the good store{what}', refusal(engine, bytearray(good)), 0)
        for k in range(len(good)):
            store, block = bytearray(good), k // 512
            store[k] ^= 1 + k % 255
            expect(f'byte {k} changed{what}', refusal(engine, store), wanted[block])
            if block in (end, end + 1):
                last, found = before if block == end else after
                logged = [engine.log(store, r, 6)[0] for r in (1, 2, 3)]
                expect(f'byte {k} changed{what}, the last revision', logged, ['log' if r <= last else 'no' for r in (1, 2, 3)])
                expect(f'byte {k} changed{what}, a panel', engine.panel(store, last, 6), ('no', found) if found == 8 else ('bytes', found, last))


def broken_rules(engine):
    c, b, l, r = layout.content, layout.commit_block, layout.line, layout.release_block
    one = [layout.label(), c(1, b'A'), b(1, 2, 7, [l(5, 1, 1)])]
    two = one + [c(2, b'B'), b(2, 2, 8, [l(5, 2, 3)])]
    pair = [c(2, b'1'), c(2, b'2')]
    good = {
        'one commit': one, 'two': two,
        'a move': one + [b(2, 2, 8, [l(6, 4, 1, (5, 1)), l(5, 3, 0)])],
        'a modified copy': one + [c(2, b'B'), b(2, 2, 8, [l(6, 4, 3, (5, 1))])],
        'a copy from an older revision': two + [b(3, 2, 9, [l(6, 4, 1, (5, 1))])],
        'changes in another order': one + pair + [b(2, 2, 8, [l(7, 1, 3), l(6, 1, 4)])],
        'contents in another order': one + pair + [b(2, 2, 8, [l(6, 1, 4), l(7, 1, 3)])],
        'a change to the same bytes': one + [c(2, b'A'), b(2, 2, 8, [l(5, 2, 3)])],
        'contents without a commit, a tail': one + [c(2, b'')],
        'a release': one + [r(1, 3, 9)],
        'releases by seats 1 and 4, of stamps 0 and the largest': two + [r(1, 1, 0), r(2, 4, 2 ** 32 - 1)],
        'releases in falling order': two + [r(2, 3, 9), r(1, 3, 9)],
        'a commit behind a release': one + [r(1, 3, 9), c(2, b'B'), b(2, 2, 8, [l(5, 2, 4)])],
        'a copy of what stands before a release': one + [r(1, 3, 9), b(2, 2, 8, [l(6, 4, 1, (5, 1))]), r(2, 1, 0)],
        'a release, contents without a commit': one + [r(1, 3, 9), c(2, b'')],
    }
    bad = {
        'no label': [bytes(512)] + one[1:],
        'a label in the middle': one + [layout.label()],
        'a block after a blank one': one + [bytes(512), c(2, b'')],
        'contents without a commit, then one of another revision': one + [c(2, b''), b(3, 2, 9, [l(5, 2, 3)])],
        'a content of another revision': one + [c(1, b'B'), b(2, 2, 8, [l(5, 2, 3)])],
        'a commit of another revision': one + [c(2, b'B'), b(3, 2, 8, [l(5, 2, 3)])],
        'seat 0': [one[0], one[1], b(1, 0, 7, [l(5, 1, 1)])],
        'seat 5': [one[0], one[1], b(1, 5, 7, [l(5, 1, 1)])],
        'no change': one + [b(2, 2, 8, [])],
        '33 changes': one + [c(2, b'')] * 33 + [layout.sealed((bytes([3, 0, 33, 0, 2, 0, 2, 0, 8]) + bytes(7) + b''.join(l(i, 1, 3 + i) for i in range(33)))[:508])],
        'sheet 32': [one[0], one[1], b(1, 2, 7, [l(32, 1, 1)])],
        'a sheet twice': one + pair + [b(2, 2, 8, [l(6, 1, 3), l(6, 1, 4)])],
        'add of a present sheet': one + [c(2, b''), b(2, 2, 8, [l(5, 1, 3)])],
        'change of an absent one': one + [c(2, b''), b(2, 2, 8, [l(6, 2, 3)])],
        'delete of an absent one': one + [b(2, 2, 8, [l(6, 3, 0)])],
        'delete with a block': one + [b(2, 2, 8, [l(5, 3, 1)])],
        'add with another commit\'s block': one + [b(2, 2, 8, [l(6, 1, 1)])],
        'add with a source': one + [c(2, b''), b(2, 2, 8, [l(6, 1, 3, (5, 1))])],
        'action 0': one + [c(2, b''), b(2, 2, 8, [l(6, 0, 3)])],
        'action 5': one + [c(2, b''), b(2, 2, 8, [l(6, 5, 3)])],
        'copy to a present sheet': one + [b(2, 2, 8, [l(5, 4, 1, (5, 1))])],
        'copy from revision 0': one + [b(2, 2, 8, [l(6, 4, 1, (5, 0))])],
        'copy from its own revision': one + [b(2, 2, 8, [l(6, 4, 1, (5, 2))])],
        'copy of an absent sheet': one + [b(2, 2, 8, [l(6, 4, 1, (7, 1))])],
        'copy of sheet 32': one + [b(2, 2, 8, [l(6, 4, 1, (32, 1))])],
        'the newest block for an older revision': two + [b(3, 2, 9, [l(6, 4, 3, (5, 1))])],
        'own content with the source\'s bytes': one + [c(2, b'A'), b(2, 2, 8, [l(6, 4, 3, (5, 1))])],
        'a content that no change points to': one + [c(2, b''), b(2, 2, 8, [l(5, 3, 0)])],
        'a content that two point to': one + [c(2, b''), b(2, 2, 8, [l(6, 1, 3), l(7, 1, 3)])],
        'a block number past the end': one + [b(2, 2, 8, [l(6, 1, 60000)])],
        'kind 4': one + [layout.sealed([4, 1])],
        'kind 0 with a byte': one + [layout.sealed([0, 0, 0, 1])],
        'a release of revision 0': one + [r(0, 3, 9)],
        'a release of a revision that is not there': one + [r(2, 3, 9)],
        'a release of revision 65,535': one + [r(65535, 3, 9)],
        'a release of revision 257': one + [r(257, 3, 9)],
        'a release before its revision': one + [r(2, 3, 9), c(2, b'B'), b(2, 2, 8, [l(5, 2, 4)])],
        'a release behind the label': [one[0], r(1, 3, 9)],
        'a release of revision 0 behind the label': [one[0], r(0, 3, 9)],
        'a release before its commit': [one[0], r(1, 3, 9), c(1, b'A'), b(1, 2, 7, [l(5, 1, 2)])],
        'a release for the label': [r(1, 3, 9)] + one,
        'a revision released twice': one + [r(1, 3, 9), r(1, 3, 9)],
        'a revision released twice, by another seat with another stamp': one + [r(1, 3, 9), r(1, 4, 8)],
        'a revision released twice, with a commit between': one + [r(1, 3, 9), c(2, b'B'), b(2, 2, 8, [l(5, 2, 4)]), r(1, 3, 9)],
        'a revision released twice, with another between': two + [r(1, 3, 9), r(2, 3, 9), r(1, 3, 9)],
        'a release by seat 0': one + [r(1, 0, 9)],
        'a release by seat 5': one + [r(1, 5, 9)],
        'a release by seat 255': one + [r(1, 255, 9)],
        'a release behind content': one + [c(2, b'B'), r(1, 3, 9)],
        'a release between content and commit block': one + [c(2, b'B'), r(1, 3, 9), b(2, 2, 8, [l(5, 2, 3)])],
        'a release between two contents': one + [c(2, b'1'), r(1, 3, 9), c(2, b'2'), b(2, 2, 8, [l(6, 1, 3), l(7, 1, 5)])],
        'a release behind a zero block': one + [bytes(512), r(1, 3, 9)],
        'a change that points to a release': one + [r(1, 3, 9), b(2, 2, 8, [l(5, 2, 3)])],
        'a release that takes a revision': one + [r(1, 3, 9), c(3, b'B'), b(3, 2, 8, [l(5, 2, 4)])],
        'the content of a tail that counts a release': one + [r(1, 3, 9), c(3, b'')],
    }
    for what, blocks in good.items():
        expect(what, refusal(engine, bytearray(b''.join(blocks) + bytes(512))), 0)
    for what, blocks in bad.items():
        expect(what, refusal(engine, bytearray(b''.join(blocks) + bytes(512))), 3)
    # bytes that are not named
    store = b''.join([*two, r(2, 3, 9)]) + bytes(512)
    for number, named in ((0, {0, 1}), (1, {0, 2, 3, 4, 5} | set(range(16, 17))), (2, {0, 2, 3, 4, 5, 6} | set(range(8, 12)) | set(range(16, 24))),
                          (5, {0, 4, 5, 6} | set(range(8, 12)))):
        for k in set(range(508)) - named:
            changed = bytearray(store)
            changed[number * 512 + k] = 1
            expect(f'byte {k} of block {number}', refusal(engine, layout.resealed(bytes(changed), number)), 3)
    for length in (481, 496, 497, 512, 65535):
        block = layout.sealed(bytes([2, 0]) + layout.two(length) + layout.two(2) + bytes(10) + b'\1' * 480)
        expect(f'length {length}', refusal(engine, bytearray(b''.join(one + [block, b(2, 2, 8, [l(5, 2, 3)])]))), 3)


def histories(engine, rng, count):
    for _ in range(count):
        m = history(rng, rng.choice([8, 32, 64, 65, 200]), rng.choice([20, 100, 200]))
        shuffled = lambda xs: rng.sample(xs, len(xs))
        for order in (None, shuffled):
            store = bytearray(layout.store_bytes(m.blocks, m.log, order))
            expect('a history', refusal(engine, store), 0)
            for revision in range(m.last() + 2):
                for sheet in (*range(32), 32, 2 ** 32 - 1):
                    for name in ('read', 'log', 'panel'):
                        expect(f'{name} {revision} {sheet}', engine.call(name, store, None, revision, sheet), m.call(name, 1, revision, sheet))


def main():
    seed = int(sys.argv[1]) if len(sys.argv) > 1 else 1
    engine = Engine()
    lengths(engine)
    single_bytes(engine)
    broken_rules(engine)
    histories(engine, random.Random(seed), 12)
    print(f'{passed + failed} answers, {failed} wrong' + (f': tests/stores.py {seed}' if failed else ''))
    sys.exit(failed != 0)


if __name__ == '__main__':
    main()
