//! The declarations of `include/sheetstore.h`.

#[repr(C)]
pub struct Answer {
    pub refusal: u32,
    pub value: u32,
}

#[repr(C)]
pub struct CutAnswer {
    pub refusal: u32,
    pub stopped: u32,
    pub value: u32,
}

#[repr(C)]
pub struct Place {
    pub refusal: u32,
    pub buffer: u32,
    pub start: usize,
    pub len: usize,
    pub revision: u32,
}

#[repr(C)]
pub struct Standing {
    pub refusal: u32,
    pub status: u32,
    pub revision: u32,
}

#[repr(C)]
pub struct LogEntry {
    pub refusal: u32,
    pub seat: u32,
    pub stamp: u32,
    pub changes: u32,
    pub action: u32,
    pub source_sheet: u32,
    pub source_revision: u32,
}

/// Whose turn it is to commit: the seat that holds it, then those waiting, longest first.
///
/// A seat [asks](Turn::ask): it gets the turn if nobody holds it, otherwise it joins the end of those waiting. The holder [gives back](Turn::give), or the
/// planner [takes back](Turn::take) from the holder, and the longest waiting seat, if any, gets the turn. [`commit_in_turn`](super::commit_in_turn) is the
/// commit of the seat that holds it. The record is the caller's to keep, as the [four numbers](Turn::numbers) that it is, 0 where none.
///
/// A record with a number above 4, a seat twice or a seat after a 0 is not in form: every call on it is refused with
/// [`Refusal::Range`](super::Refusal::Range), wherever the bad number stands.
///
/// From a free record on, a seat that asked holds the turn no later than the third giving or taking back that ended a turn after it asked. That says nothing
/// of time: a holder that never gives back keeps the turn until the planner takes it back.
#[derive(Clone, Copy, Debug, Default, PartialEq, Eq, Hash)]
#[repr(C)]
pub struct Turn {
    holder: u32,
    first: u32,
    second: u32,
    third: u32,
}

impl Turn {
    /// The record of these numbers: the holder, then those waiting, longest first, 0 where none. Whether it is in form is for the calls to check.
    pub const fn from_numbers([holder, first, second, third]: [u32; 4]) -> Self {
        Self { holder, first, second, third }
    }

    /// The four numbers.
    pub const fn numbers(self) -> [u32; 4] {
        [self.holder, self.first, self.second, self.third]
    }
}

extern "C" {
    pub fn sheets_create_store(store: *mut u8, store_len: usize) -> Answer;
    pub fn sheets_create_copy(copy: *mut u8, copy_len: usize, seat: u32) -> Answer;
    pub fn sheets_add(store: *const u8, store_len: usize, copy: *mut u8, copy_len: usize, sheet: u32, bytes: *const u8, bytes_len: usize) -> Answer;
    pub fn sheets_edit(store: *const u8, store_len: usize, copy: *mut u8, copy_len: usize, sheet: u32, bytes: *const u8, bytes_len: usize) -> Answer;
    pub fn sheets_delete(store: *const u8, store_len: usize, copy: *mut u8, copy_len: usize, sheet: u32) -> Answer;
    pub fn sheets_copy(store: *const u8, store_len: usize, copy: *mut u8, copy_len: usize, from: u32, to: u32) -> Answer;
    pub fn sheets_move(store: *const u8, store_len: usize, copy: *mut u8, copy_len: usize, from: u32, to: u32) -> Answer;
    pub fn sheets_commit(store: *mut u8, store_len: usize, copy: *mut u8, copy_len: usize, stamp: u32, mask: u32) -> Answer;
    pub fn sheets_clear(store: *mut u8, store_len: usize) -> Answer;
    pub fn sheets_commit_cut(store: *mut u8, store_len: usize, copy: *mut u8, copy_len: usize, stamp: u32, mask: u32, n: u32) -> CutAnswer;
    pub fn sheets_clear_cut(store: *mut u8, store_len: usize, n: u32) -> CutAnswer;
    pub fn sheets_turn_ask(turn: *mut Turn, seat: u32) -> Answer;
    pub fn sheets_turn_give(turn: *mut Turn, seat: u32) -> Answer;
    pub fn sheets_turn_take(turn: *mut Turn) -> Answer;
    pub fn sheets_commit_in_turn(store: *mut u8, store_len: usize, copy: *mut u8, copy_len: usize, turn: Turn, stamp: u32, mask: u32) -> Answer;
    pub fn sheets_update(store: *const u8, store_len: usize, copy: *mut u8, copy_len: usize, mask: u32, revision: u32) -> Answer;
    pub fn sheets_revert(store: *const u8, store_len: usize, copy: *mut u8, copy_len: usize, mask: u32) -> Answer;
    pub fn sheets_read(store: *const u8, store_len: usize, revision: u32, sheet: u32) -> Place;
    pub fn sheets_show(store: *const u8, store_len: usize, copy: *const u8, copy_len: usize, sheet: u32) -> Place;
    pub fn sheets_status(store: *const u8, store_len: usize, copy: *const u8, copy_len: usize, sheet: u32) -> Standing;
    pub fn sheets_log(store: *const u8, store_len: usize, revision: u32, sheet: u32) -> LogEntry;
    pub fn sheets_release(store: *mut u8, store_len: usize, revision: u32, seat: u32, stamp: u32) -> Answer;
    pub fn sheets_panel_read(store: *const u8, store_len: usize, revision: u32, sheet: u32) -> Place;
    pub fn sheets_replay(script: *const u8, script_len: usize, store: *mut u8, store_len: usize, copies: *mut u8, copies_len: usize, answers: *mut u8, answers_len: usize) -> Answer;
}
