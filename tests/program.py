#!/usr/bin/env python3
"""The samples of document 01's program, and random inputs.

program.py [--seed N] [--inputs N] [PROGRAM]

Each input of tests/vectors/program is run on the model and on the engine's C library, by the reading of lines in tests/model/program.py; what is printed must be
the sample's output. Random inputs are run on both, and must agree; what their `up` lines met of W2 is counted as in tests/calls.py. With a PROGRAM, it is run on
all of them too.
"""
import argparse, pathlib, random, subprocess, sys

ROOT = pathlib.Path(__file__).resolve().parent
sys.path.insert(0, str(ROOT))
sys.path.insert(0, str(ROOT / 'model'))
import layout, lists, program, sheets
from engine import Engine

INPUTS = 200
failed = 0


def by_model(text):
    machine = sheets.Machine(program.BLOCKS)
    return program.printed(text, lambda *c: lists.made(machine, c))


def by_library(engine, text):
    store = bytearray(program.BLOCKS * 512)
    copies = {k: bytearray(layout.COPY_LEN) for k in (1, 2)}
    engine.create_store(store)
    for k, copy in copies.items():
        engine.create_copy(copy, k)
    return program.printed(text, lambda name, seat, *args: engine.call(name, store, copies[seat], *args))


def line(rng, machine):
    """A line, mostly one that says something; the machine knows which revisions and sheets there are."""
    seat = rng.choice([1, 2])
    held_by = [i for i, e in enumerate(machine.seats[seat]) if e[0] != 'empty']
    there = list(machine.tree(machine.last()))
    any_sheet = lambda: rng.choice([0, 1, 2, 3, 5, 31, rng.randrange(34)])
    sheet = lambda some: rng.choice(some) if some and rng.random() < 0.8 else any_sheet()
    revision = lambda: rng.choice([machine.last(), rng.randint(0, machine.last() + 1)])
    big = rng.choice([2 ** 32 - 1, 2 ** 32, 10 ** 12, rng.getrandbits(32)])
    who = seat if rng.random() < 0.96 else rng.choice([0, 3, 4, 12])

    def typed(i):
        """A sheet and its bytes, often those that a revision has."""
        same = machine.tree(revision()).get(i)
        data = rng.randbytes(rng.choice([0, 1, 1, 2, 3, 9])) if same is None or rng.random() < 0.4 else same
        return [who, i, data.hex() or '-']

    kind = rng.choice(['add', 'add', 'set', 'set', 'del', 'cp', 'mv', 'put', 'put', 'up', 'up', 'get', 'get'])
    words = {'add': lambda: typed(any_sheet()), 'set': lambda: typed(sheet(held_by)), 'del': lambda: [who, sheet(held_by)],
             'cp': lambda: [who, sheet(held_by), any_sheet()], 'mv': lambda: [who, sheet(held_by), any_sheet()],
             'put': lambda: [who, rng.choice([big, rng.randrange(100)])], 'up': lambda: [who, revision()],
             'get': lambda: [revision(), sheet(there)]}[kind]()
    words = [kind] + [str(w) for w in words]
    if rng.random() < 0.06:
        words[rng.randrange(len(words))] = rng.choice(['', '-', '00', '01', str(big), 'x', '+1', '-1', '4', '4g', '4A', '1 1', '\t1', '1\r', 'Add', 'adds', 'ge'])
    return ' '.join(words).encode()


def script(rng):
    machine = sheets.Machine(program.BLOCKS)
    lines, most = [], rng.choice([200, 1000, 4000, 4000])
    while sum(len(l) + 1 for l in lines) < most:
        l = line(rng, machine)
        c = program.parsed(l)
        if c:
            machine.call(*c)
        lines.append(l)
    data = b'\n'.join(lines) + rng.choice([b'', b'\n', b'\n\n'])
    return data[:4096] if rng.random() < 0.8 else data


def long_sheets(rng):
    """Sheets of 479 to 482 bytes, printed again and again."""
    size = rng.choice([479, 480, 481, 482])
    data = bytes(rng.getrandbits(8) for _ in range(size)).hex().encode()
    lines = [b'add 1 7 ' + data, b'put 1 1', b'add 2 8 ' + data, b'put 2 2'] + [b'get 1 7', b'get 2 8'] * 100
    return b'\n'.join(lines)


def limits(rng):
    """Inputs of 4,095 to 4,098 bytes, with and without lines in them."""
    size = rng.choice([4095, 4096, 4097, 4098, 9000])
    return (rng.choice([b'get 0 0\n', b'\n', b'x', b'put 1 0\n', b' ', b'add 1 5 -\nput 1 1\n']) * size)[:size]


def expect(what, text, wanted, runs):
    global failed
    for who, run in runs.items():
        got = run(text)
        if got != wanted:
            failed += 1
            line = next((k for k, (a, b) in enumerate(zip(got.split(b'\n'), wanted.split(b'\n')), 1) if a != b), 'the last')
            print(f'{what}: the {who} prints something else, from line {line}')


def main():
    parser = argparse.ArgumentParser(description=__doc__, formatter_class=argparse.RawDescriptionHelpFormatter)
    parser.add_argument('--seed', type=int, default=1)
    parser.add_argument('--inputs', type=int, default=INPUTS)
    parser.add_argument('program', nargs='?', metavar='PROGRAM')
    given = parser.parse_args()
    engine = Engine()
    runs = {'library': lambda text: by_library(engine, text)}
    if given.program:
        runs['program'] = lambda text: subprocess.run([given.program], input=text, stdout=subprocess.PIPE, check=True).stdout
    samples = sorted((ROOT / 'vectors' / 'program').glob('*.in'))
    for path in samples:
        expect(path.name, path.read_bytes(), path.with_suffix('.out').read_bytes(), dict(model=by_model, **runs))
    lists.seen.clear()
    for n in range(given.inputs):
        rng = random.Random(f'{given.seed} {n}')
        for make in (script, long_sheets, limits) if n % 10 == 0 else (script,):
            text = make(rng)
            expect(f'seed {given.seed}, {make.__name__} {n}', text, by_model(text), runs)
    never = lists.tally(given.inputs >= INPUTS, [lists.W2])
    print(f'{len(samples)} samples, {given.inputs} random inputs, {failed} wrong')
    sys.exit(failed + never != 0 or not samples)


if __name__ == '__main__':
    main()
