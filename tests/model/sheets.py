"""A model of document 01, with the requests of document 02 up to W9, in plain data, made apart from the engine: no buffers, no blocks, nothing shared with the
crates. W1 moves nothing here: it is the order of the blocks, in layout.py. W2 moves update. W3 moves what read, show and status answer. W4 moves no answer. W5
adds the number of the tail's blocks, which commit minds and clear makes 0. W6 adds the cut calls, which make a tail and leave one, and what a power cut leaves,
which is no call. W7 adds the commit through the turn record; the record and its own calls are in turns.py, and stand beside the rest here. W8 moves nothing here.
W9 adds the releases, which stand in the log among the commits, and the panel's reading.

A tree is a dict from sheet to bytes. A change is (action, bytes, source); a commit is (seat, stamp, {sheet: change}). The log has the commits and the releases in
their common order, the history is its commits.
An entry is ('empty',), ('normal', base, bytes), ('added', bytes), ('deleted', base) or ('copied', (sheet, revision), bytes).
An answer is ('no', number), ('done',), ('revision', R), ('stopped',), ('bytes', bytes, W3's number or None for a seat's own bytes),
('status', 0 to 8, W3's number), ('log', seat, stamp, m, change or None), where the change is (action, source or None), or ('holder', seat or 0).
"""
import collections

import turns

ADD, CHANGE, DELETE, COPY = 1, 2, 3, 4
EMPTY = ('empty',)
Release = collections.namedtuple('Release', 'revision seat stamp')


def commits_of(log):
    """W9: a release "isn't a revision itself"."""
    return [item for item in log if not isinstance(item, Release)]


def released(log):
    """The released revisions, in the order of their releases."""
    return [item.revision for item in log if isinstance(item, Release)]


class Machine:
    def __init__(self, blocks):
        self.blocks = blocks
        self.used = 1
        self.tail = 0
        self.log = []
        self.seats = {seat: [EMPTY] * 32 for seat in (1, 2, 3, 4)}
        self.turn = turns.FREE

    # ---- trees

    @property
    def history(self):
        return commits_of(self.log)

    def last(self):
        return len(self.history)

    def tree(self, revision):
        sheets = {}
        for _, _, changes in self.history[:revision]:
            for sheet, (action, data, _) in changes.items():
                if action == DELETE:
                    del sheets[sheet]
                else:
                    sheets[sheet] = data
        return sheets

    def namer(self, revision, sheet):
        """The last commit up to the revision that names the sheet, or 0."""
        history = self.history
        for number in range(min(revision, len(history)), 0, -1):
            if sheet in history[number - 1][2]:
                return number
        return 0

    def find(self, revision, sheet):
        """W3: a sheet's bytes in tree R, None if it is absent, and "the number of the last commit up to R that named it, or 0 if none did"."""
        return self.tree(revision).get(sheet), self.namer(revision, sheet)

    # ---- entries

    def modified(self, sheet, entry):
        return entry[0] == 'normal' and entry[2] != self.tree(entry[1])[sheet]

    def pending(self, sheet, entry):
        return entry[0] in ('added', 'deleted', 'copied') or self.modified(sheet, entry)

    def out_of_date(self, sheet, entry):
        if entry[0] in ('added', 'copied'):
            return sheet in self.tree(self.last())
        if entry[0] == 'deleted' or self.modified(sheet, entry):
            return self.namer(self.last(), sheet) > entry[1]
        return False

    def change(self, sheet, entry):
        if entry[0] == 'added':
            return (ADD, entry[1], None)
        if entry[0] == 'normal':
            return (CHANGE, entry[2], None)
        if entry[0] == 'deleted':
            return (DELETE, None, None)
        return (COPY, entry[2], entry[1])

    def content(self, change):
        """How many content blocks the change takes."""
        action, data, source = change
        if action == COPY:
            return int(self.tree(source[1])[source[0]] != data)
        return int(action != DELETE)

    def agrees(self, sheet, entry, revision):
        """W2: a "modified, added or copied entry whose bytes equal tree R's". An absent sheet equals nothing."""
        if entry[0] not in ('added', 'copied') and not self.modified(sheet, entry):
            return False
        return self.tree(revision).get(sheet) == entry[-1]

    def updated(self, sheet, entry, revision):
        """What update makes of a chosen entry, or None for a conflict."""
        tree = self.tree(revision)
        if not self.pending(sheet, entry):
            return ('normal', revision, tree[sheet]) if sheet in tree else EMPTY
        if self.agrees(sheet, entry, revision):  # W2: update takes it "as normal with base R"
            return ('normal', revision, entry[-1])
        if entry[0] in ('normal', 'deleted'):
            if self.namer(revision, sheet) == self.namer(entry[1], sheet):
                return (entry[0], revision, *entry[2:])
            return None
        return None if sheet in tree else entry

    def reverted(self, sheet, entry):
        if entry[0] in ('normal', 'deleted'):
            return ('normal', entry[1], self.tree(entry[1])[sheet])
        return EMPTY

    # ---- calls

    def call(self, name, seat, *args):
        return getattr(self, 'do_' + name)(self.seats[seat], seat, *args)

    def do_add(self, entries, seat, sheet, data):
        if sheet > 31 or len(data) > 480:
            return ('no', 7)
        if entries[sheet] != EMPTY:
            return ('no', 9)
        entries[sheet] = ('added', data)
        return ('done',)

    def do_edit(self, entries, seat, sheet, data):
        if sheet > 31 or len(data) > 480:
            return ('no', 7)
        if entries[sheet][0] in ('empty', 'deleted'):
            return ('no', 8)
        entries[sheet] = (*entries[sheet][:-1], data)
        return ('done',)

    def do_delete(self, entries, seat, sheet):
        if sheet > 31:
            return ('no', 7)
        entry = entries[sheet]
        if entry[0] in ('empty', 'deleted'):
            return ('no', 8)
        entries[sheet] = ('deleted', entry[1]) if entry[0] == 'normal' else EMPTY
        return ('done',)

    def do_copy(self, entries, seat, sheet, target):
        if sheet > 31 or target > 31:
            return ('no', 7)
        entry = entries[sheet]
        if entry[0] in ('empty', 'deleted'):
            return ('no', 8)
        if entries[target] != EMPTY:
            return ('no', 9)
        entries[target] = ('copied', (sheet, entry[1]), entry[2]) if entry[0] == 'normal' else entry
        return ('done',)

    def do_move(self, entries, seat, sheet, target):
        answer = self.do_copy(entries, seat, sheet, target)
        if answer == ('done',):
            self.do_delete(entries, seat, sheet)
        return answer

    def asked(self, seat, stamp, mask, in_turn=False):
        """What a commit, or one through the turn record, is to write: its refusal or 0, the commit, and the number of its blocks."""
        entries = self.seats[seat]
        if self.tail:  # W5: "14, commit on a store that has a tail, checked right after 3"
            return 14, None, 0
        if mask == 0 or in_turn and not turns.in_form(self.turn):
            return 7, None, 0
        if in_turn and self.turn[0] != seat:  # W7: "15, a commit through the record by a seat that doesn't hold the turn, checked after 7"
            return 15, None, 0
        chosen = [i for i in range(32) if mask >> i & 1 and self.pending(i, entries[i])]
        if not chosen:
            return 10, None, 0
        if any(self.out_of_date(i, entries[i]) for i in chosen):
            return 11, None, 0
        changes = {i: self.change(i, entries[i]) for i in chosen}
        blocks = sum(self.content(c) for c in changes.values()) + 1
        if self.used + blocks > self.blocks:
            return 13, None, 0
        return 0, (seat, stamp, changes), blocks

    def asked_release(self, revision, seat, stamp):
        """What a release is to write, likewise: "Refusal 13 covers its one block, by which U grows, 14 a store with a tail"."""
        if self.tail:
            return 14, None, 0
        if not 1 <= revision <= self.last() or not 1 <= seat <= 4:  # "7 covers 0 and a seat outside 1 to 4", and as everywhere a revision that exceeds the last
            return 7, None, 0
        if revision in released(self.log):  # "16, a release of a revision already released, checked after 7"
            return 16, None, 0
        if self.used + 1 > self.blocks:
            return 13, None, 0
        return 0, Release(revision, seat, stamp), 1

    def adds(self, call):
        """What a commit of any kind, or a release, is to write, likewise. Any other call adds nothing to the log."""
        name, seat, *args = call
        if name == 'release':
            return self.asked_release(*args)
        if name in ('commit', 'commit_cut', 'turn_commit'):
            return self.asked(seat, *args[:2], name == 'turn_commit')
        return 0, None, 0

    def do_commit(self, entries, seat, stamp, mask, in_turn=False):
        number, commit, blocks = self.asked(seat, stamp, mask, in_turn)
        if number:
            return ('no', number)
        self.used += blocks
        self.log.append(commit)
        for i, (action, data, _) in commit[2].items():
            entries[i] = EMPTY if action == DELETE else ('normal', self.last(), data)
        return ('revision', self.last())

    def do_commit_cut(self, entries, seat, stamp, mask, n):
        """W6: "it stops after n block writes, the working copy untouched, and answers that it stopped; with n enough for all its writes it is the usual call". Its
        content blocks come first, so the n blocks are content, the tail."""
        number, _, blocks = self.asked(seat, stamp, mask)
        if number or n >= blocks:
            return self.do_commit(entries, seat, stamp, mask)
        self.tail = n
        return ('stopped',)

    def do_turn_commit(self, entries, seat, stamp, mask):
        """W7: the working copy's seat calls; the record stays."""
        return self.do_commit(entries, seat, stamp, mask, True)

    def do_update(self, entries, seat, mask, revision):
        if mask == 0 or revision > self.last():
            return ('no', 7)
        chosen = {i: self.updated(i, entries[i], revision) for i in range(32) if mask >> i & 1}
        if None in chosen.values():
            return ('no', 12)
        for i, entry in chosen.items():
            entries[i] = entry
        return ('done',)

    def do_revert(self, entries, seat, mask):
        if mask == 0:
            return ('no', 7)
        for i in range(32):
            if mask >> i & 1:
                entries[i] = self.reverted(i, entries[i])
        return ('done',)

    def do_clear(self, entries, seat):
        """W5: "A new call on the store alone clears the tail .. without a tail it changes nothing". Whose seat it is doesn't matter."""
        self.tail = 0
        return ('done',)

    def do_clear_cut(self, entries, seat, n):
        """W6, likewise. Clearing writes a zero block for each block of the tail."""
        if n >= self.tail:
            return self.do_clear(entries, seat)
        self.tail -= n
        return ('stopped',)

    def do_ask(self, entries, seat, calling):
        """W7: a call on the record alone. Whose working copy it is doesn't matter."""
        answer, self.turn = turns.called(self.turn, 'ask', calling)
        return answer

    def do_give(self, entries, seat, calling):
        answer, self.turn = turns.called(self.turn, 'give', calling)
        return answer

    def do_take(self, entries, seat):
        answer, self.turn = turns.called(self.turn, 'take')
        return answer

    def do_release(self, entries, seat, revision, by, stamp):
        """W9: a call on the store alone; `by` is its seat. Whose working copy it is doesn't matter."""
        number, release, blocks = self.asked_release(revision, by, stamp)
        if number:
            return ('no', number)
        self.used += blocks
        self.log.append(release)
        return ('done',)

    def do_panel(self, entries, seat, revision, sheet):
        """W9: "A panel reading R gets what read, or its companion, gives at the greatest released revision up to R, and refusal 8 if there is none." """
        if sheet > 31 or revision > self.last():
            return ('no', 7)
        shown = [r for r in released(self.log) if r <= revision]
        return self.do_read(entries, seat, max(shown), sheet) if shown else ('no', 8)

    def do_read(self, entries, seat, revision, sheet):
        if sheet > 31 or revision > self.last():
            return ('no', 7)
        data, number = self.find(revision, sheet)
        return ('no', 8) if data is None else ('bytes', data, number)

    def do_show(self, entries, seat, sheet):
        if sheet > 31:
            return ('no', 7)
        if entries[sheet][0] in ('normal', 'added', 'copied'):
            return ('bytes', entries[sheet][-1], None)
        return self.do_read(entries, seat, self.last(), sheet)

    def do_status(self, entries, seat, sheet):
        if sheet > 31:
            return ('no', 7)
        entry, (data, number) = entries[sheet], self.find(self.last(), sheet)
        if entry == EMPTY:
            status = 0 if data is None else 8
        elif entry[0] == 'normal':
            status = 1 + self.modified(sheet, entry) + 2 * (number > entry[1])
        else:
            status = {'added': 5, 'deleted': 6, 'copied': 7}[entry[0]]
        return ('status', status, number)

    def do_log(self, entries, seat, revision, sheet):
        if sheet > 31 or revision == 0 or revision > self.last():
            return ('no', 7)
        by, stamp, changes = self.history[revision - 1]
        change = changes.get(sheet)
        return ('log', by, stamp, len(changes), change and (change[0], change[2]))

    # ---- the power

    def writes(self, call):
        """How many blocks a commit, a release or a clearing writes; 0 for one that is refused or has nothing to write."""
        return self.tail if call[0] == 'clear' else self.adds(call)[2]

    def power(self, call, n, how):
        """W6: the power fails while a commit or a clearing that would be done writes its block number n, counted from 0. "Blocks already written are new, the block
        being written is old, new or junk with a wrong check, and blocks due later are still old." No working copy changes. W9: "W6's cut rule includes the block, a
        release standing or not"."""
        if call[0] == 'clear':  # from the highest block down; new is a zero block
            self.tail -= n + (how == 'new')
            return
        _, item, blocks = self.adds(call)
        if how == 'new' and n + 1 == blocks:  # the commit block, or the release's one block, is new
            self.log.append(item)
            self.used += blocks
        else:
            self.tail = n + (how != 'old')
