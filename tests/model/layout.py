"""The blocks of document 01 in plain Python, made apart from the engine: bytes of a history and of a working copy, and back. "For layout and W1 a history includes
its releases and their places" (W9): the log of sheets.py.

`store_bytes` lays a log out, in the order of W1 (document 02) or in orders of the caller's; `appended` lays one more commit or release out behind the blocks of a
store in any order, or its first blocks, as W6 cuts it; `tailed` puts the tail of W5 behind them, `cleared` takes it away, or a part of it; `log_of` and
`entries_of` read buffers that are known to be layouts.
Nothing here checks a layout: accept.py does.
"""
import functools

from sheets import COPY, DELETE, Release

BLOCK = 512
COPY_LEN = 33 * BLOCK


def sums(block):
    a = b = 0
    for x in block[:508]:
        a = (a + x) % 65521
        b = (b + a) % 65521
    return a, b


@functools.lru_cache(100_000)
def with_check(block):
    a, b = sums(block)
    return block + a.to_bytes(2, 'little') + b.to_bytes(2, 'little')


def sealed(named):
    """A block: its named bytes, zeros, and the check."""
    return with_check(bytes(named) + bytes(508 - len(named)))


def resealed(buffer, number):
    """The buffer with the check of a block written anew."""
    at = number * BLOCK
    return buffer[:at] + sealed(buffer[at:at + 508]) + buffer[at + BLOCK:]


def two(n):
    return n.to_bytes(2, 'little')


def two_at(block, k):
    return block[k] + 256 * block[k + 1]


def label():
    return sealed([1, 1])


def content(revision, data):
    return sealed(bytes([2, 0]) + two(len(data)) + two(revision) + bytes(10) + data)


def line(sheet, action, block, source=None):
    s, r = source or (0, 0)
    return bytes([sheet, action]) + two(block) + bytes([s, 0]) + two(r)


def commit_block(revision, seat, stamp, lines):
    return sealed(bytes([3, 0]) + two(len(lines)) + two(revision) + bytes([seat, 0]) + stamp.to_bytes(4, 'little') + bytes(4) + b''.join(lines))


def release_block(revision, seat, stamp):
    """W9: "A release block (byte 0 = 6, 4–5 revision, 6 seat, 8–11 stamp)"."""
    return sealed(bytes([6, 0, 0, 0]) + two(revision) + bytes([seat, 0]) + stamp.to_bytes(4, 'little'))


def commit_blocks(first, commit, trees, order=None, contents=None):
    """The blocks of the commit that comes after these trees, the first of them with this number, and the tree after it.

    A tree goes from sheet to block number and bytes. W1: the changes stand by rising sheet number, the content blocks in the order of the changes that point to
    them. `order(sheets)` may give the changes another order, and `contents(sheets)` the content blocks another than that of the changes.
    """
    seat, stamp, changes = commit
    points, tree = {}, dict(trees[-1])
    sheets = (order or sorted)(list(changes))
    for sheet in sheets:
        action, data, source = changes[sheet]
        if action == DELETE:
            points[sheet] = 0
        elif action == COPY and trees[source[1]][source[0]][1] == data:
            points[sheet] = trees[source[1]][source[0]][0]
    own = (contents or list)([i for i in sheets if i not in points])
    points.update((sheet, first + n) for n, sheet in enumerate(own))
    for sheet, (action, data, _) in changes.items():
        if action == DELETE:
            del tree[sheet]
        else:
            tree[sheet] = (points[sheet], data)
    revision = len(trees)
    lines = [line(i, changes[i][0], points[i], changes[i][2]) for i in sheets]
    return [content(revision, changes[i][1]) for i in own] + [commit_block(revision, seat, stamp, lines)], tree


def filled(blocks, used):
    """A store of so many blocks that has these in use."""
    assert len(used) <= blocks
    return b''.join(used) + bytes((blocks - len(used)) * BLOCK)


def store_bytes(blocks, log, order=None, contents=None):
    """A store of so many blocks with this log, in the order of W1 or in others: see `commit_blocks`."""
    used, trees = [label()], [{}]
    for item in log:
        if isinstance(item, Release):
            used.append(release_block(*item))
            continue
        more, tree = commit_blocks(len(used), item, trees, order, contents)
        used += more
        trees.append(tree)
    return filled(blocks, used)


def filled_blocks(store):
    """The blocks up to the last one that isn't all zero."""
    size = len(store.rstrip(b'\0'))
    return [bytes(store[k:k + BLOCK]) for k in range(0, size, BLOCK)]


def used_blocks(store):
    """The blocks in use of a store that is known to be a layout: up to the last commit or release block, or the label. A tail stands behind them. It has content
    blocks, and a block with a wrong check."""
    blocks = filled_blocks(store)
    while blocks[-1][0] not in (1, 3, 6) or blocks[-1] != sealed(blocks[-1][:508]):
        blocks.pop()
    return blocks


def cleared(store, n=33):
    """A store that is known to be a layout, without its tail, or after n block writes of a clearing: "zero blocks from its highest block down"."""
    used, blocks = used_blocks(store), filled_blocks(store)
    return filled(len(store) // BLOCK, blocks[:max(len(used), len(blocks) - n)])


def tailed(store, tail):
    """A store that is known to be a layout, with these blocks as its tail."""
    return filled(len(store) // BLOCK, used_blocks(store) + tail)


def held(block):
    """The bytes of a content block."""
    return block[16:16 + two_at(block, 2)]


def lines_of(block):
    """The changes of a commit block: sheet, action, block number, source."""
    for k in range(16, 16 + 8 * two_at(block, 2), 8):
        l = block[k:k + 8]
        yield l[0], l[1], two_at(l, 2), (l[4], two_at(l, 6)) if l[1] == COPY else None


def log_of(store):
    """The log that a store is known to lay out, its used blocks, and those of its tail."""
    blocks, log = used_blocks(store), []
    for b in blocks:
        stamp = int.from_bytes(b[8:12], 'little')
        if b[0] == 3:
            changes = {sheet: (action, None if action == DELETE else held(blocks[point]), source) for sheet, action, point, source in lines_of(b)}
            log.append((b[6], stamp, changes))
        elif b[0] == 6:
            log.append(Release(two_at(b, 4), b[6], stamp))
    return log, len(blocks), len(filled_blocks(store)) - len(blocks)


def writes(store, item):
    """What one more commit or release writes behind the used blocks of a store that is known to be a layout, in the order of W1, which is that of its writes: "Commit
    writes its content blocks in rising order, then its commit block"; a release has one block."""
    if isinstance(item, Release):
        return [release_block(*item)]
    used, trees = used_blocks(store), [{}]
    for b in used:
        if b[0] == 3:
            tree = dict(trees[-1])
            for sheet, action, point, _ in lines_of(b):
                if action == DELETE:
                    del tree[sheet]
                else:
                    tree[sheet] = (point, held(used[point]))
            trees.append(tree)
    return commit_blocks(len(used), item, trees)[0]


def appended(store, item, n=33):
    """A store that is known to be a layout without a tail, with one more commit or release, or the first n blocks of it, behind its used blocks. What stands there
    already stays, whatever its order."""
    return filled(len(store) // BLOCK, used_blocks(store) + writes(store, item)[:n])


def entry_block(entry):
    kind = entry[0]
    state = ['empty', 'normal', 'added', 'deleted', 'copied'].index(kind)
    base = entry[1] if kind in ('normal', 'deleted') else 0
    source = entry[1] if kind == 'copied' else (0, 0)
    data = entry[-1] if kind in ('normal', 'added', 'copied') else b''
    return sealed(bytes([5, state]) + two(len(data)) + two(base) + bytes([source[0], 0]) + two(source[1]) + bytes(6) + data)


def copy_bytes(seat, entries):
    return sealed([4, seat]) + b''.join(map(entry_block, entries))


def entry_of(block):
    """The entry that a block is known to lay out."""
    data = bytes(block[16:16 + two_at(block, 2)])
    base, source = two_at(block, 4), (block[6], two_at(block, 8))
    return [('empty',), ('normal', base, data), ('added', data), ('deleted', base), ('copied', source, data)][block[1]]


def entries_of(copy):
    """The entries that a working copy is known to lay out."""
    return [entry_of(copy[(1 + i) * BLOCK:(2 + i) * BLOCK]) for i in range(32)]
