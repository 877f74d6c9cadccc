"""The program of document 01 in plain Python: what it prints for an input, given something that does the calls.

`printed(text, call)` takes the input's bytes; `call(name, seat, *args)` answers as the model does, on a fresh store of 32 blocks with seats 1 and 2.
"""
import re

BLOCKS = 32
ALL = 0xffffffff
NUMBER = '(0|[1-9][0-9]*)'
HEX = '(-|(?:[0-9a-f][0-9a-f])+)'
LINES = {word: re.compile(' '.join((word, *fields)).encode()) for word, fields in dict(
    add=(NUMBER, NUMBER, HEX), set=(NUMBER, NUMBER, HEX), cp=(NUMBER, NUMBER, NUMBER), mv=(NUMBER, NUMBER, NUMBER),
    put=(NUMBER, NUMBER), up=(NUMBER, NUMBER), get=(NUMBER, NUMBER), **{'del': (NUMBER, NUMBER)}).items()}
CALLS = {'add': 'add', 'set': 'edit', 'del': 'delete', 'cp': 'copy', 'mv': 'move', 'put': 'commit', 'up': 'update', 'get': 'read'}


def parsed(line):
    """The call of a line: name, seat, arguments; None if the line is none."""
    word = line.split(b' ')[0].decode('latin-1')
    match = LINES[word].fullmatch(line) if word in LINES else None
    if match is None:
        return None
    hexed = match.groups()[2:] if word in ('add', 'set') else ()
    numbers = [int(g) for g in match.groups()[:len(match.groups()) - len(hexed)]]
    data = [b'' if h == b'-' else bytes.fromhex(h.decode()) for h in hexed]
    if any(n > 0xffffffff for n in numbers) or word != 'get' and numbers[0] not in (1, 2):
        return None
    if word == 'get':
        return ('read', 1, *numbers)
    if word == 'put':
        return ('commit', *numbers, ALL)
    if word == 'up':
        return ('update', numbers[0], ALL, numbers[1])
    return (CALLS[word], *numbers, *data)


def said(answer):
    if answer[0] == 'no':
        return f'no {answer[1]}'
    if answer[0] == 'bytes':
        return f'ok {answer[1].hex() or "-"}'
    return ' '.join(['ok'] + [str(x) for x in answer[1:]])


def printed(text, call):
    if len(text) > 4096:
        return b'?\n'
    lines = text.split(b'\n')
    if lines[-1] == b'':
        lines.pop()
    calls = map(parsed, lines)
    return ''.join((said(call(*c)) if c else '?') + '\n' for c in calls).encode()
