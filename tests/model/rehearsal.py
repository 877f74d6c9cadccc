"""W8 of document 02 in plain Python, made apart from the engine: a handover day rehearsed, and what the program prints of it.

A day is its steps and the settings, by seat (period, holding time). `happens` rehearses it on plain seats in a line, `by_calls` by the calls on a store, its copies
and a turn record, given something that makes them. A row has a seat's commits, its asks and its longest completed wait.
"""
import re

import program
from turns import SEATS

BLOCKS = 121
LINE = re.compile(' '.join([program.NUMBER] * 9).encode() + b'\n?')


def parsed(text):
    """The day of an input: "one line, numbers and line end as in document 01's program: the steps, then period and holding time of seats 1 to 4, one space
    between"; None for "anything else"."""
    match = LINE.fullmatch(text) if len(text) <= 4096 else None
    numbers = [int(n) for n in match.groups()] if match else [0]
    return (numbers[0], dict(zip(SEATS, zip(numbers[1::2], numbers[2::2])))) if all(1 <= n <= 60 for n in numbers) else None


def happens(steps, settings):
    """What happens on a day, in order, as (step, 'asks', 'gets' or 'commits', seat), and who is in line at its end."""
    events, line, got = [], [], 0  # in line are the holder and those waiting, longest first; the holder got the turn in that step
    for step in range(1, steps + 1):
        if line and step - got == settings[line[0]][1]:  # "A holding time counts from the step of the grant"
            events.append((step, 'commits', line.pop(0)))
            if line:
                got = step
                events.append((step, 'gets', line[0]))
        for seat, (period, _) in settings.items():
            if step % period == 0 and seat not in line:
                line.append(seat)
                events.append((step, 'asks', seat))
                if line == [seat]:
                    got = step
                    events.append((step, 'gets', seat))
    return events, line


def waits(events, seat):
    """The completed waits of a seat, from each ask to its grant."""
    asked, got = ([step for step, what, who in events if (what, who) == (kind, seat)] for kind in ('asks', 'gets'))
    return [b - a for a, b in zip(asked, got)]


def rows(events):
    count = lambda kind, seat: sum((what, who) == (kind, seat) for _, what, who in events)
    return [(count('commits', seat), count('asks', seat), max(waits(events, seat), default=0)) for seat in SEATS]


def printed(text):
    day = parsed(text)
    return ''.join(' '.join(map(str, row)) + '\n' for row in rows(happens(*day)[0])).encode() if day else b'?\n'


def by_calls(steps, settings, call):
    """The rows of the day by the calls, and the seat and step of each revision. `call(name, seat, *args)` makes a call and answers as the machine of sheets.py does;
    none is refused. Who holds the turn is known from the answers alone."""
    tallies, waiting, history, holder, over = {seat: [0, 0, 0] for seat in SEATS}, {}, [], 0, 0

    def done(*c):
        answer = call(*c)
        assert answer[0] != 'no', f'{c} in step {step} is refused with {answer[1]}'
        return answer

    def turn(name, seat):
        nonlocal holder, over
        _, holder = done(name, seat, seat)
        if holder in waiting:  # the call granted it the turn
            tallies[holder][2] = max(tallies[holder][2], step - waiting.pop(holder))
            over = step + settings[holder][1]

    for step in range(1, steps + 1):
        if holder and step == over:  # "commits its own sheet .. with the step's number as two bytes and as stamp, and gives back"
            done('edit' if tallies[holder][0] else 'add', holder, holder, step.to_bytes(2, 'little'))
            done('turn_commit', holder, step, 1 << holder)
            history.append((holder, step))
            tallies[holder][0] += 1
            turn('give', holder)
        for seat in SEATS:
            if step % settings[seat][0] == 0 and seat != holder and seat not in waiting:
                tallies[seat][1] += 1
                waiting[seat] = step
                turn('ask', seat)
    return [tuple(t) for t in tallies.values()], history
