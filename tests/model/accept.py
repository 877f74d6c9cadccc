"""Acceptance in plain Python, made apart from the engine: which of refusals 1 to 6, and 14 for a commit or a release, comes first for two buffers, or 0; and which
of 1 to 7 for a replay."""
from layout import BLOCK, COPY_LEN, commit_block, content, entry_block, entry_of, filled_blocks, held, label, release_block, sealed, two_at
from script import records_ok
from sheets import ADD, CHANGE, COPY, DELETE

BLANK = bytes(BLOCK)


def cut(buffer):
    return [bytes(buffer[k:k + BLOCK]) for k in range(0, len(buffer), BLOCK)]


def checked(blocks):
    return all(b == sealed(b[:508]) for b in blocks)


def next_tree(blocks, block, trees, contents):
    """The tree after a commit block, or None if the block breaks a rule. Trees go from sheet to content block number."""
    revision, m, seat = len(trees), two_at(block, 2), block[6]
    lines = [block[k:k + 8] for k in range(16, 16 + 8 * m, 8)]
    if not 1 <= m <= 32 or not 1 <= seat <= 4:
        return None
    if block != commit_block(revision, seat, int.from_bytes(block[8:12], 'little'), lines):
        return None
    before, after, named, own = trees[-1], dict(trees[-1]), set(), []
    for l in lines:
        sheet, action, point, source_sheet, source = l[0], l[1], two_at(l, 2), l[4], two_at(l, 6)
        if sheet > 31 or sheet in named or l[5] != 0 or (sheet in before) != (action in (CHANGE, DELETE)):
            return None
        named.add(sheet)
        if action != COPY and (source_sheet, source) != (0, 0):
            return None
        if action == DELETE:
            if point != 0:
                return None
            del after[sheet]
            continue
        if action == COPY:
            if not 1 <= source < revision or source_sheet not in trees[source]:
                return None
            used = trees[source][source_sheet]
            if point in contents and held(blocks[point]) == held(blocks[used]):
                return None
            if point not in contents and point != used:
                return None
        elif action not in (ADD, CHANGE) or point not in contents:
            return None
        if point in contents:
            own.append(point)
        after[sheet] = point
    return after if sorted(own) == contents else None


def stands(block, last, released):
    """W9: whether the release block "names a revision from 1 to the last before it, none twice", by a seat, and is in form."""
    revision, seat = two_at(block, 4), block[6]
    if not 1 <= revision <= last or revision in released or not 1 <= seat <= 4:
        return False
    return block == release_block(revision, seat, int.from_bytes(block[8:12], 'little'))


def trees_of(blocks):
    """The tree of every revision, and the number of blocks in the tail; None if the blocks aren't the layout of a history and, maybe, a tail."""
    if blocks[0] != label():
        return None
    trees, contents, released, number = [{}], [], set(), 1
    while number < len(blocks) and blocks[number] != BLANK and checked([blocks[number]]):
        b = blocks[number]
        if b[0] == 2:
            if two_at(b, 2) > 480 or b != content(len(trees), held(b)):
                return None
            contents.append(number)
        elif b[0] == 3:
            tree = next_tree(blocks, b, trees, contents)
            if tree is None:
                return None
            trees.append(tree)
            contents = []
        elif b[0] == 6:  # it "may follow any commit or release": not a content block, nor the label, since it names a revision before it
            if contents or not stands(b, len(trees) - 1, released):
                return None
            released.add(two_at(b, 4))
        else:
            return None
        number += 1
    # W5, the tail: "up to 32 well-formed content blocks that carry the next revision, and after them at most one block with a wrong check", then "zero blocks"
    junk = int(number < len(blocks) and not checked([blocks[number]]))
    if len(contents) > 32 or any(b != BLANK for b in blocks[number + junk:]):
        return None
    return trees, len(contents) + junk


def store_refusal(store):
    """The first of 1 to 3 that holds, or 0; the trees of an accepted store, and the number of blocks in its tail."""
    if len(store) % BLOCK or not 2 <= len(store) // BLOCK <= 4096:
        return 1, None, None
    blocks = cut(store)
    last = len(filled_blocks(store)) - 1  # "Refusal 2 skips the last block that isn't all zero, unless it is the label"
    if not checked(b for n, b in enumerate(blocks) if n == 0 or n != last):
        return 2, None, None
    found = trees_of(blocks)
    return (3, None, None) if found is None else (0, *found)


def entry_lawful(block):
    if block[0] != 5 or block[1] > 4 or two_at(block, 2) > 480 or block[6] > 31:
        return False
    entry = entry_of(block)
    if entry[0] in ('normal', 'deleted') and entry[1] < 1 or entry[0] == 'copied' and entry[1][1] < 1:
        return False
    return block == entry_block(entry)


def fits(sheet, entry, trees):
    if entry[0] in ('normal', 'deleted'):
        return entry[1] < len(trees) and sheet in trees[entry[1]]
    if entry[0] == 'copied':
        return entry[1][1] < len(trees) and entry[1][0] in trees[entry[1][1]]
    return True


def copy_refusal(copy, trees):
    """The first of 4 to 6 that holds for a copy beside a store with these trees, or 0."""
    if len(copy) != COPY_LEN:
        return 4
    blocks = cut(copy)
    if not checked(blocks) or not 1 <= blocks[0][1] <= 4 or blocks[0] != sealed([4, blocks[0][1]]) or not all(map(entry_lawful, blocks[1:])):
        return 5
    return 0 if all(fits(i, entry_of(b), trees) for i, b in enumerate(blocks[1:])) else 6


def refusal(store, copy=None, adds=False):
    """The first of 1 to 6 that holds for a call that takes the store, or the store and the copy, and for one that adds to the log, a commit, cut or not, through the
    turn record or not, or a release, 14, "checked right after 3"; 0 for none."""
    number, trees, tail = store_refusal(store)
    if not number and adds and tail:
        return 14
    return number if number or copy is None else copy_refusal(copy, trees)


def replay_refusal(script, store, copies, answers):
    """The first of 1 to 7 that holds for a replay; 0 for none."""
    number, trees, _ = store_refusal(store)
    if number:
        return number
    if len(copies) != 4 * COPY_LEN:
        return 4
    for k in range(4):
        copy = copies[k * COPY_LEN:(k + 1) * COPY_LEN]
        number = copy_refusal(copy, trees) or 7 * (copy[1] != k + 1)
        if number:
            return number
    return 0 if records_ok(script) and len(answers) >= len(script) else 7
