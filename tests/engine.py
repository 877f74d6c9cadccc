"""The engine through its C library, for tests: builds it and wraps each call. Buffers are bytearrays that the calls change in place, a turn record is a list of four
numbers likewise.

Answers are those of tests/model: ('no', number), ('done',), ('revision', R), ('stopped',), ('bytes', bytes, number or None), ('status', 0 to 8, number),
('log', ..), ('holder', seat or 0).
"""
import ctypes, os, pathlib, subprocess, tempfile

ROOT = pathlib.Path(__file__).resolve().parent.parent
u32, size_t = ctypes.c_uint32, ctypes.c_size_t


class Answer(ctypes.Structure):
    _fields_ = [('refusal', u32), ('value', u32)]


class CutAnswer(ctypes.Structure):
    _fields_ = [('refusal', u32), ('stopped', u32), ('value', u32)]


class Place(ctypes.Structure):
    _fields_ = [('refusal', u32), ('buffer', u32), ('start', size_t), ('len', size_t), ('revision', u32)]


class Standing(ctypes.Structure):
    _fields_ = [('refusal', u32), ('status', u32), ('revision', u32)]


class Turn(ctypes.Structure):
    _fields_ = [(n, u32) for n in ('holder', 'first', 'second', 'third')]


class LogEntry(ctypes.Structure):
    _fields_ = [(n, u32) for n in ('refusal', 'seat', 'stamp', 'changes', 'action', 'source_sheet', 'source_revision')]


RESULTS = dict(read=Place, show=Place, panel=Place, status=Standing, log=LogEntry, commit_cut=CutAnswer, clear_cut=CutAnswer)  # of the other calls Answer
NAMES = dict(ask='turn_ask', give='turn_give', take='turn_take', turn_commit='commit_in_turn', panel='panel_read')  # the other calls have their names in C too


def build():
    """The static library as one that Python can load. SHEETSTORE_LIB names the folder of a libsheetstore.a that is built already."""
    folder = os.environ.get('SHEETSTORE_LIB')
    if folder is None:
        subprocess.run([ROOT / 'tools' / 'build', 'sheetstore'], check=True, stdout=subprocess.DEVNULL)
        folder = ROOT / 'target' / 'staticlib'
    archive = pathlib.Path(folder) / 'libsheetstore.a'
    with tempfile.TemporaryDirectory() as own:  # tests run beside each other
        library = pathlib.Path(own) / 'libsheetstore.so'
        subprocess.run(['gcc', '-shared', '-o', library, '-Wl,--whole-archive', archive, '-Wl,--no-whole-archive'], check=True)
        return ctypes.CDLL(str(library))


class Engine:
    def __init__(self):
        self.library = build()

    @staticmethod
    def lent(buffer):
        """A buffer as a pointer and a length."""
        if isinstance(buffer, bytearray):
            return (ctypes.c_uint8 * len(buffer)).from_buffer(buffer), size_t(len(buffer))
        return bytes(buffer), size_t(len(buffer))

    def _call(self, name, *args):
        """What the C call hands back. Refused, all but the refusal is zero."""
        flat = []
        for a in args:
            flat.extend(self.lent(a) if isinstance(a, (bytes, bytearray)) else (u32(a) if isinstance(a, int) else a,))
        f = getattr(self.library, 'sheets_' + NAMES.get(name, name))
        f.restype = RESULTS.get(name, Answer)
        r = f(*flat)
        assert not r.refusal or not any(getattr(r, field) for field, _ in r._fields_[1:])
        return r

    def _answer(self, name, *args):
        r = self._call(name, *args)
        if r.refusal:
            return ('no', r.refusal)
        if name in ('commit_cut', 'clear_cut') and r.stopped:
            assert (r.stopped, r.value) == (1, 0)
            return ('stopped',)
        if name in ('commit', 'commit_cut', 'turn_commit'):
            return ('revision', r.value)
        if name in ('ask', 'give', 'take'):
            return ('holder', r.value)
        assert r.value == 0
        return ('done',)

    def create_store(self, store):
        return self._answer('create_store', store)

    def create_copy(self, copy, seat):
        return self._answer('create_copy', copy, seat)

    def part(self, name, store, copy, *args):
        """Where read, panel reading or show finds the bytes: ('part', 'store', place, length, W3's number), or ('part', 'copy', place, length), which has none."""
        r = self._call(name, store, *((copy,) if name == 'show' else ()), *args)
        if r.refusal:
            return ('no', r.refusal)
        assert (r.buffer, r.revision > 0) in ((0, True), (1, False)) and (name == 'show' or r.buffer == 0)
        return ('part', 'copy', r.start, r.len) if r.buffer else ('part', 'store', r.start, r.len, r.revision)

    def read(self, store, revision, sheet):
        return self._bytes('read', store, None, revision, sheet)

    def panel(self, store, revision, sheet):
        return self._bytes('panel', store, None, revision, sheet)

    def show(self, store, copy, sheet):
        return self._bytes('show', store, copy, sheet)

    def _bytes(self, name, store, copy, *args):
        found = self.part(name, store, copy, *args)
        if found[0] == 'no':
            return found
        _, buffer, start, length, *number = found
        return ('bytes', bytes({'store': store, 'copy': copy}[buffer][start:start + length]), *(number or [None]))

    def status(self, store, copy, sheet):
        r = self._call('status', store, copy, sheet)
        return ('no', r.refusal) if r.refusal else ('status', r.status, r.revision)

    def log(self, store, revision, sheet):
        r = self._call('log', store, revision, sheet)
        if r.refusal:
            return ('no', r.refusal)
        source = (r.source_sheet, r.source_revision)
        assert r.action == 4 or source == (0, 0)
        return ('log', r.seat, r.stamp, r.changes, (r.action, source if r.action == 4 else None) if r.action else None)

    def clear(self, store):
        return self._answer('clear', store)

    def clear_cut(self, store, n):
        return self._answer('clear_cut', store, n)

    def release(self, store, revision, seat, stamp):
        return self._answer('release', store, revision, seat, stamp)

    def replay(self, script, store, copies, answers):
        return self._answer('replay', script, store, copies, answers)

    def on_record(self, name, turn, *seat):
        """A call on the turn record, which C takes by its address."""
        record = Turn(*turn)
        answer = self._answer(name, ctypes.byref(record), *seat)
        turn[:] = (getattr(record, field) for field, _ in Turn._fields_)
        return answer

    def call(self, name, store, copy, *args, turn=None):
        """A call as the model names it, on the two buffers, the turn record or all three."""
        if name in ('ask', 'give', 'take'):
            return self.on_record(name, turn, *args)
        if name == 'turn_commit':  # C takes the record by value
            return self._answer(name, store, copy, Turn(*turn), *args)
        if name in ('read', 'log', 'clear', 'clear_cut', 'release', 'panel'):
            return getattr(self, name)(store, *args)
        if name in ('show', 'status'):
            return getattr(self, name)(store, copy, *args)
        return self._answer(name, store, copy, *args)
