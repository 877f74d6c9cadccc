"""The turn record of W7 in plain Python, made apart from the engine: "four numbers: the holder, then those waiting, longest first, 0 where none". It stands above
the engine: nothing here speaks of a store. The commit through it is in sheets.py, beside the commit.

A record is a tuple of four numbers. An answer is ('no', 7) or ('holder', the seat that holds the turn after the call, 0 for none).
"""
SEATS = (1, 2, 3, 4)
FREE = (0, 0, 0, 0)


def in_form(record):
    """7 covers "a record with a number above 4, a seat twice or a seat after a 0"."""
    above = any(n > 4 for n in record)
    twice = any(n and record.count(n) > 1 for n in record)
    after = any(n == 0 and later for n, later in zip(record, record[1:]))
    return not (above or twice or after)


def ask(line, seat):
    """"if nobody holds the turn it gets it, otherwise it joins the end", and "asking while waiting or holding" changes nothing"""
    return line if seat in line else [*line, seat]


def give(line, seat):
    """"The holder gives back .. and the longest waiting seat, if any, gets the turn"; "by another seat" it changes nothing"""
    return line[1:] if line[:1] == [seat] else line


def take(line):
    """"the planner takes back from the holder", likewise; "when nobody holds" it changes nothing"""
    return line[1:]


CALLS = dict(ask=ask, give=give, take=take)


def called(record, name, *seat):
    """The answer of a call on a record, and the record after it. Taking back has no calling seat."""
    if not in_form(record) or not set(seat) <= set(SEATS):
        return ('no', 7), record
    line = CALLS[name]([n for n in record if n], *seat)
    return ('holder', (line or [0])[0]), (*line, *FREE)[:4]
