"""Scripts and answers in bytes, in plain Python, made apart from the engine: the records of docs/LAYOUT.md."""
RECORD = 512
MOST = 496  # bytes that a call of a script can take
NAMES = ('add', 'edit', 'delete', 'copy', 'move', 'commit', 'update', 'revert', 'read', 'show', 'status', 'log', 'clear', 'commit_cut', 'clear_cut')
KINDS = {name: kind for kind, name in enumerate(NAMES, 1)} | dict(release=20, panel=21)  # 16 to 19, the turn record's, are in no script


def four(*numbers):
    return b''.join(n.to_bytes(4, 'little') for n in numbers)


def call_record(name, seat, *args, unused=bytes(RECORD)):
    """The record of a call. What it has no use for comes from `unused`."""
    data = args[-1] if name in ('add', 'edit') else None
    numbers = args if data is None else args[:-1]
    if name == 'release':  # the third number is the seat
        revision, by, stamp = args
        numbers = revision, stamp, by
    out = bytearray(unused)
    out[0:2] = KINDS[name], seat
    out[4:4 + 4 * len(numbers)] = four(*numbers)
    if data is not None:
        out[16:16 + len(data)] = data
    if data is not None or int.from_bytes(out[2:4], 'little') > MOST:
        out[2:4] = len(data or b'').to_bytes(2, 'little')
    assert len(out) == RECORD
    return bytes(out)


def answer_record(answer):
    kind, *rest = answer
    data = b''
    numbers = [0] * 7
    if kind == 'no':
        numbers[0] = rest[0]
    elif kind in ('revision', 'status'):
        numbers[1:1 + len(rest)] = rest
    elif kind == 'stopped':
        numbers[2] = 1
    elif kind == 'log':
        action, source = rest[3] or (0, None)
        numbers[1:] = *rest[:3], action, *(source or (0, 0))
    elif kind == 'bytes':
        data, numbers[2] = rest[0], rest[1] or 0
    return (four(*numbers, len(data)) + data).ljust(RECORD, b'\0')


def records_ok(script):
    records = [script[k:k + RECORD] for k in range(0, len(script), RECORD)]
    return all(len(r) == RECORD and r[0] in KINDS.values() and 1 <= r[1] <= 4 and int.from_bytes(r[2:4], 'little') <= MOST for r in records)
