#!/usr/bin/env python3
"""W8 of document 02, the program that rehearses a handover day: samples, days by hand and random lines.

rehearsal.py [--seed N] [--days N] [PROGRAM]

The samples of tests/vectors/08-rehearsal.txt, days whose output was worked out by hand from document 02, lines with one fault in each of their places, and inputs
of about 4,096 bytes: tests/model/rehearsal.py must print what is written, and so must the PROGRAM, if one is given. Then random lines, a quarter of them with a
fault of a known kind, which must print `?`; for the good ones the program must print what the model does. The two claims of W8 are held to the numbers printed for
every good line: "Asks equal commits plus the one waiting or holding, if any. No completed wait exceeds the holding times of the other three together." Every day is
also rehearsed by the calls on the model of the store, and the samples, those by hand and every tenth random one on the C library beside it, every answer and every
byte, as in tests/calls.py: no call is refused, the rows are the same, and the store has each commit's seat and step. What was met is counted, and that some of it
never came is a failure.
"""
import argparse, collections, json, pathlib, random, subprocess, sys

ROOT = pathlib.Path(__file__).resolve().parent
sys.path.insert(0, str(ROOT))
sys.path.insert(0, str(ROOT / 'model'))
import calls, lists, rehearsal, sheets
from calls import fail
from engine import Engine
from turns import SEATS

DAYS = 1000
NEVER = '0 0 0'
BY_HAND = {
    '3 1 1 1 1 1 1 1 1': ('1 2 0', '1 2 1', '0 1 2', '0 1 0'),  # document 02's own
    # one step: all ask and seat 1 holds; nobody asks; the fourth alone does
    '1 1 1 1 1 1 1 1 1': ('0 1 0', '0 1 0', '0 1 0', '0 1 0'),
    '1 2 1 3 1 4 1 60 1': (NEVER, NEVER, NEVER, NEVER),
    '1 60 60 60 60 60 60 1 60': (NEVER, NEVER, NEVER, '0 1 0'),
    # all ask in step 60, the last, and not before
    '60 60 60 60 60 60 60 60 60': ('0 1 0', '0 1 0', '0 1 0', '0 1 0'),
    '59 60 1 60 1 60 1 60 1': (NEVER, NEVER, NEVER, NEVER),
    # a seat alone: it holds in 1 and 2, commits in 3 and 5, and asks in 1, 3 and 5
    '5 1 2 60 1 60 1 60 1': ('2 3 0', NEVER, NEVER, NEVER),
    # it asks in 2, not in 4, when it holds, commits in 5, and asks in 6
    '7 60 1 2 3 60 1 60 1': (NEVER, '1 2 0', NEVER, NEVER),
    # it asks in 3, 6, .., 57 and commits in 5, 8, .., 59, the last step, with nobody waiting
    '59 60 1 60 1 3 2 60 1': (NEVER, NEVER, '19 19 0', NEVER),
    # seat 1 holds from 1 and would be over in 61; in 60; in 59, and seat 2, which waited 58, in 60
    '60 1 60 1 1 1 1 1 1': ('0 1 0', '0 1 0', '0 1 0', '0 1 0'),
    '60 1 59 1 1 1 1 1 1': ('1 2 0', '0 1 59', '0 1 0', '0 1 0'),
    '60 1 58 1 1 1 1 1 1': ('1 2 0', '1 2 58', '0 1 59', '0 1 0'),
    # all ask in 1; commits in 3, 6 and 10, and then seat 4 has waited 2 + 3 + 4; a step less and it waits still
    '10 1 2 1 3 1 4 1 1': ('1 2 0', '1 2 2', '1 2 5', '0 1 9'),
    '9 1 2 1 3 1 4 1 1': ('1 2 0', '1 2 2', '0 1 5', '0 1 0'),
    # seats 4 to 1 ask in 1 to 4; 4 commits in 6 and asks, 3 in 11, and asks in 12; 2 has waited from 3 to 11
    '12 4 5 3 5 2 5 1 5': ('0 1 0', '0 1 8', '1 2 4', '1 2 0'),
    # 4 asks in 1, 2 and 4 and commits in 2 and 4; 1 gets the turn in 2, which was given back in that step, commits in 3 and asks in 4; 2 waits from 3 to 4
    '4 2 1 3 1 4 1 1 1': ('1 2 0', '0 1 1', '0 1 0', '2 3 1'),
    # 1 holds in 7 to 12 and 14 to 19; 2 waits from 9 to 12, the longest, and from 18 to 19, and commits in 13 and 20: nobody is left in line
    '20 7 5 9 1 60 1 60 1': ('2 2 0', '2 2 3', NEVER, NEVER),
    # 1 holds in 7 to 12, 14 to 19 and 21 to 26; 2 waits from 11 to 12, and from 22 to 26, the longest
    '26 7 5 11 1 60 1 60 1': ('3 3 0', '1 2 4', NEVER, NEVER),
    # the most commits: 1 in 2, 4, .., 60 and 2 in 3, 5, .., 59, each after a wait of 1; 3 and 4 ask in 60
    '60 1 1 1 1 60 60 60 60': ('30 31 1', '29 30 1', '0 1 0', '0 1 0'),
}
NO_NUMBERS = ('', '0', '61', '99', '100', '00', '01', '060', '+1', '-1', '1.0', '0x1', 'x', '1x', '257', '65537', '4294967295', '4294967296', '4294967297',
              '18446744073709551617', '1' * 40, '0' * 40 + '1', '\xb2')  # in the place of a number
GAPS = ('', ' ', '  ', '\t', ' \t', '\n', '\n\n', '\n ', ' \n', '\r', '\r\n', '\n\r', '\v', '\f', '\0', '\n\0', ',', '_', '\x85', '\xa0', '\x1a')
LONG = (4095, 4096, 4097, 4098, 9000)
RANGES = ((1, 1), (1, 3), (1, 10), (10, 60), (1, 60))
BAD, GOOD, THERE, THROUGH = 'bad lines', 'good lines', 'days', 'days by the calls on the library'
seen = collections.Counter()


# ---- lines

def at(words, k, gap, end=''):
    """The line of these words with another gap in place k: 0 is before the first word, 9 behind the last."""
    return ' '.join(words[:k]) + gap + ' '.join(words[k:]) + end


def every_fault():
    """A good line with each thing that is none of its numbers in the place of each, with each gap in each place where it is wrong, and of other lengths."""
    words = '12 1 2 3 4 5 6 7 8'.split()
    yield from (' '.join((words * 3)[:n]) + end for n in range(28) if n != 9 for end in ('', '\n'))
    for k in range(9):
        yield from (' '.join([*words[:k], word, *words[k + 1:]]) for word in NO_NUMBERS)
    for k in range(10):
        yield from (at(words, k, gap) for gap in GAPS if gap not in {0: [''], 9: ['', '\n']}.get(k, [' ']))


def long_inputs():
    """Inputs of about 4,096 bytes and more that begin or end with a good line."""
    good = '3 1 1 1 1 1 1 1 1'
    for size in LONG:
        for fill in ('\n', ' ', '0', '1', ' 1', '\0', good + '\n'):
            yield good + (fill * size)[:size - len(good)]
            yield (fill * size)[:size - len(good)] + good


def good(rng):
    """The numbers of a good line: short and long periods and holding times, of one range for all seats or of its own for each."""
    ranges, alike = [(rng.choice(RANGES), rng.choice(RANGES)) for _ in SEATS], rng.random() < 0.5
    steps = rng.choice([1, 2, 3, 59, 60, 60, 60, 60, rng.randint(1, 10), rng.randint(1, 60), rng.randint(1, 60), rng.randint(1, 60)])
    return [steps, *(rng.randint(*r) for pair in (ranges[:1] * 4 if alike else ranges) for r in pair)]


def faults(rng):
    """A good line with one fault, by its kind."""
    numbers, k, end = good(rng), rng.randrange(9), rng.choice(['', '\n'])
    words = list(map(str, numbers))
    line, gap = ' '.join(words), rng.randint(1, 8)
    word = lambda *some: ' '.join([*words[:k], rng.choice(some), *words[k + 1:]]) + end
    longer = rng.choice([4097 - len(line), rng.randint(4097, 9000)])
    return {
        'empty': '', 'a line end alone': '\n', 'two lines': f'{line}\n{line}{end}', 'a second line end': line + '\n\n', 'a line end first': f'\n{line}{end}',
        'a line end inside': at(words, gap, rng.choice(['\n', ' \n', '\n '])), 'a carriage return': line + rng.choice(['\r', '\r\n', '\n\r']),
        '0': word('0'), '61': word('61'), 'above 61': word(str(rng.randint(62, 255))), 'a leading zero': word('0' + words[k], '000' + words[k], '00'),
        'right in 8 bits': word(str(numbers[k] + 2 ** 8)), 'right in 16 bits': word(str(numbers[k] + 2 ** 16)),
        'right in 32 bits': word(str(numbers[k] + 2 ** 32)), 'right in 64 bits': word(str(numbers[k] + 2 ** 64)),
        '2^32 and about it': word('4294967295', '4294967296'), 'a very long number': word(words[k] * rng.randint(20, 1000)),
        'no number': ' ' * rng.randint(1, 9) + end, 'too few numbers': ' '.join(words[:gap]) + end, 'one number less': ' '.join(words[:8]) + end,
        'one number more': f'{line} {rng.randint(1, 60)}{end}', 'too many numbers': ' '.join([line] * rng.randint(2, 100)) + end,
        'a tab': at(words, rng.randint(0, 9), '\t', end), 'two spaces': at(words, gap, '  ', end), 'a space first': f' {line}{end}', 'a space last': f'{line} {end}',
        'a sign': word('+' + words[k], '-' + words[k]), 'a letter': word(words[k] + 'x', 'x' + words[k], '0x' + words[k], words[k] + 'e0', 'l'),
        'a point or comma': word(words[k] + '.', words[k] + '.0', words[k] + ',', '1,0'),
        'another byte': at(words, rng.randint(0, 9), chr(rng.choice([n for n in range(256) if chr(n) not in '0123456789 \n'])), end),
        'another byte behind the line end': line + '\n' + chr(rng.choice([n for n in range(256) if n != 10])),
        'more than 4,096 bytes': line + (rng.choice(['\n', ' ', '0', '1', ' 1', 'x']) * longer)[:longer],
    }


KINDS = tuple(faults(random.Random(1)))
GROUPS = {
    BAD: KINDS,
    GOOD: ('with a line end', 'without a line end', 'of one step', 'of 60 steps'),
    THERE: ('nobody asks', 'a seat that never asks', 'a seat that asks and never commits', 'a seat with ten commits or more', 'a commit in each of the steps 2 to 60',
            'four that ask in a step', 'a seat that asks in the step in which it gave back', 'an ask left out by a waiting seat', 'an ask left out by the holder',
            *(f'{n} waiting when the turn is given back' for n in range(4)), 'a turn given back to nobody and got in that step by another seat',
            'a holder whose time is over at the last step', 'a holder whose time is over a step later', 'a wait that ends at the last step',
            'a wait equal to the bound', 'a wait of ten or more', 'a longest wait before a shorter', 'a longest wait after a shorter',
            'a wait at the end longer than the longest', *(f'{n} in line at the end' for n in range(5))),
    THROUGH: ('days', 'days without a commit', 'adds', 'edits', 'stores with 119 blocks in use'),
}


def met(steps, settings, events, line):
    """What a day has of what the tests are to meet."""
    when = lambda kind, seat, upto=steps: [step for step, what, who in events if (what, who) == (kind, seat) and step <= upto]
    commits, in_line = [(step, seat) for step, what, seat in events if what == 'commits'], []
    for step, what, seat in events:
        if what == 'asks':
            in_line.append(seat)
        elif what == 'commits':
            in_line.remove(seat)
            yield f'{len(in_line)} waiting when the turn is given back'
            if not in_line and any((step, 'gets', k) in events for k in SEATS if k != seat):
                yield 'a turn given back to nobody and got in that step by another seat'
    for seat, (period, time) in settings.items():
        asks, gets, waits = when('asks', seat), when('gets', seat), rehearsal.waits(events, seat)
        longest, own = max(waits, default=0), [step for step, who in commits if who == seat]
        for step in set(range(period, steps + 1, period)) - set(asks):
            holds = len(when('asks', seat, step)) == len(when('gets', seat, step))
            yield 'an ask left out by the holder' if holds else 'an ask left out by a waiting seat'
        yield from held({
            'a seat that never asks': not asks,
            'a seat that asks and never commits': asks and not own,
            'a seat with ten commits or more': len(own) >= 10,
            'a seat that asks in the step in which it gave back': set(asks) & set(own),
            'a holder whose time is over at the last step': own[-1:] == [steps],
            'a holder whose time is over a step later': line[:1] == [seat] and gets[-1:] == [steps + 1 - time],
            'a wait equal to the bound': bound(settings, seat) in waits,
            'a wait of ten or more': longest >= 10,
            'a wait that ends at the last step': gets[-1:] == [steps] and waits[-1],
            'a longest wait before a shorter': waits and longest > waits[-1],
            'a longest wait after a shorter': waits and longest > waits[0],
            'a wait at the end longer than the longest': seat in line[1:] and steps - asks[-1] > longest})
    yield from held({
        'nobody asks': not events,
        'four that ask in a step': any(all((step, 'asks', k) in events for k in SEATS) for step in range(1, steps + 1)),
        'a commit in each of the steps 2 to 60': len(commits) == 59,
        f'{len(line)} in line at the end': True})


def held(some):
    return [what for what, holds in some.items() if holds]


# ---- days

def bound(settings, seat):
    return sum(time for k, (_, time) in settings.items() if k != seat)


def claims(what, output, settings, line):
    """W8's claims on the numbers printed for a day, which leaves these seats in line."""
    for seat, row in zip(SEATS, output.splitlines()):
        commits, asks, longest = map(int, row.split())
        if asks != commits + (seat in line):
            fail(f'{what}: seat {seat} has {asks} asks and {commits} commits, and in line are {line}')
        if longest > bound(settings, seat):
            fail(f'{what}: seat {seat} has waited {longest} steps, more than the others hold')


def by_calls(what, day, wanted, call):
    """The day by the calls has these rows. The seat and step of each revision."""
    try:
        got, history = rehearsal.by_calls(*day, call)
    except AssertionError as refused:
        fail(f'{what}: {refused}')
        return None
    if got != wanted:
        fail(f'{what}: by the calls the rows are {got}, not {wanted}')
    return history


def on_library(engine, what, day, wanted):
    """The day by the calls on the library and the model of it. The log has each commit's seat and step, and each seat's sheet its last step."""
    desk, revisions = calls.Desk.fresh(engine, rehearsal.BLOCKS), {}
    history = by_calls(what, day, wanted, desk.call) or []
    for revision, (seat, step) in enumerate(history, 1):
        action = sheets.CHANGE if seat in revisions else sheets.ADD
        revisions[seat] = revision
        if desk.call('log', 1, revision, seat) != ('log', seat, step, 1, (action, None)):
            fail(f'{what}: revision {revision} is not the commit of seat {seat} in step {step}')
        seen[THROUGH, 'adds' if action == sheets.ADD else 'edits'] += 1
    for seat in SEATS:
        read = ('bytes', bytes([history[revisions[seat] - 1][1], 0]), revisions[seat]) if seat in revisions else ('no', 8)
        if desk.call('read', 1, len(history), seat) != read:
            fail(f'{what}: the sheet of seat {seat} is not {read}')
    seen[THROUGH, 'days'] += 1
    seen[THROUGH, 'days without a commit'] += not history
    seen[THROUGH, 'stores with 119 blocks in use'] += desk.model.used == 119


def expect(what, text, wanted, runs, engine=None):
    """Each prints what is wanted. A good line is rehearsed by the calls too, with an engine on the library."""
    before = calls.failed
    for who, run in runs.items():
        got = run(text)
        if got != wanted:
            fail(f'{what}: the {who} prints {got}, not {wanted}')
    day = rehearsal.parsed(text)
    if day and wanted != b'?\n':
        events, line = rehearsal.happens(*day)
        rows = rehearsal.rows(events)
        claims(what, wanted, day[1], line)
        by_calls(what, day, rows, sheets.Machine(rehearsal.BLOCKS).call)
        if engine:
            on_library(engine, what, day, rows)
    if before < 10 and calls.failed > before:
        print(f'failed: {what}, {text[:200]}')


def random_line(given, n, runs, engine):
    """Line n of the seed: three good ones, and then one with a fault, of each kind in turn."""
    rng, what = random.Random(f'{given.seed} {n}'), f'seed {given.seed}, line {n}'
    if n % 4 == 3:
        kind = KINDS[n // 4 % len(KINDS)]
        seen[BAD, kind] += 1
        expect(f'{what}, {kind}', faults(rng)[kind].encode('latin-1'), b'?\n', runs)
        return
    end = rng.choice(['', '\n'])
    text = (' '.join(map(str, good(rng))) + end).encode()
    day = rehearsal.parsed(text)
    if day is None:
        fail(f'{what}: the model takes {text} for a bad line')
        return
    expect(what, text, rehearsal.printed(text), runs, engine if n % 10 == 0 else None)
    seen[GOOD, 'with a line end' if end else 'without a line end'] += 1
    seen[GOOD, 'of one step'] += day[0] == 1
    seen[GOOD, 'of 60 steps'] += day[0] == 60
    seen.update((THERE, some) for some in set(met(*day, *rehearsal.happens(*day))))


def main():
    parser = argparse.ArgumentParser(description=__doc__, formatter_class=argparse.RawDescriptionHelpFormatter)
    parser.add_argument('--seed', type=int, default=1)
    parser.add_argument('--days', type=int, default=DAYS)
    parser.add_argument('program', nargs='?', metavar='PROGRAM')
    given = parser.parse_args()
    engine = Engine()
    runs = {'model': rehearsal.printed}
    if given.program:
        runs['program'] = lambda text: subprocess.run([given.program], input=text, stdout=subprocess.PIPE, check=True).stdout
    lines = [json.loads(line).encode('latin-1') for line in open(ROOT / 'vectors' / '08-rehearsal.txt')]
    samples = list(zip(lines[::2], lines[1::2]))
    for n, (text, wanted) in enumerate(samples):
        expect(f'sample {n}', text, wanted, runs, engine)
    by_hand = [(line + end, ''.join(row + '\n' for row in rows)) for line, rows in BY_HAND.items() for end in ('', '\n')]
    for text, wanted in by_hand:
        expect('by hand', text.encode(), wanted.encode(), runs, engine)
    faulty = [*every_fault(), *long_inputs()]
    for text in faulty:
        expect('a line with a fault', text.encode('latin-1'), b'?\n', runs)
    for n in range(given.days):
        random_line(given, n, runs, engine)
    never = lists.group_tally(given.days >= DAYS and not calls.failed, GROUPS, seen)
    print(f'{len(samples)} samples, {len(by_hand)} by hand, {len(faulty)} with a fault in each place, {given.days} random lines, {calls.failed} wrong')
    sys.exit(calls.failed + never != 0 or not samples)


if __name__ == '__main__':
    main()
