//! The engine's C library, the inner functions that crate `measure` exports, and zlib's adler32.

#[path = "../../bindings/rust/src/ffi.rs"]
#[allow(dead_code)]
mod ffi;

use crate::commit::Cut;
pub use ffi::{Answer, LogEntry, Place, Standing, Turn};

mod c {
    pub use super::ffi::*;
    extern "C" {
        pub fn measure_look_up(store: *const u8, store_len: usize, n: usize, used: usize, r: usize, i: usize) -> usize;
        pub fn measure_status(
            store: *const u8,
            store_len: usize,
            copy: *const u8,
            copy_len: usize,
            n: usize,
            used: usize,
            last: usize,
            seat: u32,
            i: usize,
        ) -> u32;
        pub fn adler32(adler: u64, bytes: *const u8, len: u32) -> u64;
    }
}

pub fn create_copy(copy: &mut [u8], seat: u32) -> Answer {
    unsafe { c::sheets_create_copy(copy.as_mut_ptr(), copy.len(), seat) }
}

pub fn add(store: &[u8], copy: &mut [u8], sheet: u32, bytes: &[u8]) -> Answer {
    unsafe { c::sheets_add(store.as_ptr(), store.len(), copy.as_mut_ptr(), copy.len(), sheet, bytes.as_ptr(), bytes.len()) }
}

pub fn edit(store: &[u8], copy: &mut [u8], sheet: u32, bytes: &[u8]) -> Answer {
    unsafe { c::sheets_edit(store.as_ptr(), store.len(), copy.as_mut_ptr(), copy.len(), sheet, bytes.as_ptr(), bytes.len()) }
}

pub fn delete(store: &[u8], copy: &mut [u8], sheet: u32) -> Answer {
    unsafe { c::sheets_delete(store.as_ptr(), store.len(), copy.as_mut_ptr(), copy.len(), sheet) }
}

pub fn copy_sheet(store: &[u8], copy: &mut [u8], from: u32, to: u32) -> Answer {
    unsafe { c::sheets_copy(store.as_ptr(), store.len(), copy.as_mut_ptr(), copy.len(), from, to) }
}

pub fn move_sheet(store: &[u8], copy: &mut [u8], from: u32, to: u32) -> Answer {
    unsafe { c::sheets_move(store.as_ptr(), store.len(), copy.as_mut_ptr(), copy.len(), from, to) }
}

pub fn commit(store: &mut [u8], copy: &mut [u8], stamp: u32, mask: u32) -> Answer {
    unsafe { c::sheets_commit(store.as_mut_ptr(), store.len(), copy.as_mut_ptr(), copy.len(), stamp, mask) }
}

pub fn clear(store: &mut [u8]) -> Answer {
    unsafe { c::sheets_clear(store.as_mut_ptr(), store.len()) }
}

#[cfg(not(feature = "before-w6"))]
pub fn commit_cut(store: &mut [u8], copy: &mut [u8], stamp: u32, mask: u32, n: u32) -> Cut {
    cut(unsafe { c::sheets_commit_cut(store.as_mut_ptr(), store.len(), copy.as_mut_ptr(), copy.len(), stamp, mask, n) })
}

#[cfg(not(feature = "before-w6"))]
pub fn clear_cut(store: &mut [u8], n: u32) -> Cut {
    cut(unsafe { c::sheets_clear_cut(store.as_mut_ptr(), store.len(), n) })
}

#[cfg(not(feature = "before-w6"))]
fn cut(answer: ffi::CutAnswer) -> Cut {
    match (answer.refusal, answer.stopped) {
        (0, 0) => Ok(Some(answer.value)),
        (0, _) => Ok(None),
        (refusal, _) => Err(refusal),
    }
}

/// The usual commit, whatever n is.
#[cfg(feature = "before-w6")]
pub fn commit_cut(store: &mut [u8], copy: &mut [u8], stamp: u32, mask: u32, _n: u32) -> Cut {
    usual(commit(store, copy, stamp, mask))
}

/// The usual clearing, whatever n is.
#[cfg(feature = "before-w6")]
pub fn clear_cut(store: &mut [u8], _n: u32) -> Cut {
    usual(clear(store))
}

#[cfg(feature = "before-w6")]
fn usual(answer: Answer) -> Cut {
    match answer.refusal {
        0 => Ok(Some(answer.value)),
        refusal => Err(refusal),
    }
}

#[cfg(not(feature = "before-w7"))]
pub fn commit_in_turn(store: &mut [u8], copy: &mut [u8], turn: Turn, stamp: u32, mask: u32) -> Answer {
    unsafe { c::sheets_commit_in_turn(store.as_mut_ptr(), store.len(), copy.as_mut_ptr(), copy.len(), turn, stamp, mask) }
}

/// The usual commit, whatever the record is.
#[cfg(feature = "before-w7")]
pub fn commit_in_turn(store: &mut [u8], copy: &mut [u8], _turn: Turn, stamp: u32, mask: u32) -> Answer {
    commit(store, copy, stamp, mask)
}

#[cfg(not(feature = "before-w7"))]
pub fn turn_ask(turn: &mut Turn, seat: u32) -> Answer {
    unsafe { c::sheets_turn_ask(turn, seat) }
}

#[cfg(not(feature = "before-w7"))]
pub fn turn_give(turn: &mut Turn, seat: u32) -> Answer {
    unsafe { c::sheets_turn_give(turn, seat) }
}

#[cfg(not(feature = "before-w7"))]
pub fn turn_take(turn: &mut Turn) -> Answer {
    unsafe { c::sheets_turn_take(turn) }
}

pub fn update(store: &[u8], copy: &mut [u8], mask: u32, revision: u32) -> Answer {
    unsafe { c::sheets_update(store.as_ptr(), store.len(), copy.as_mut_ptr(), copy.len(), mask, revision) }
}

pub fn revert(store: &[u8], copy: &mut [u8], mask: u32) -> Answer {
    unsafe { c::sheets_revert(store.as_ptr(), store.len(), copy.as_mut_ptr(), copy.len(), mask) }
}

pub fn read(store: &[u8], revision: u32, sheet: u32) -> Place {
    unsafe { c::sheets_read(store.as_ptr(), store.len(), revision, sheet) }
}

#[cfg(not(feature = "before-w9"))]
pub fn panel_read(store: &[u8], revision: u32, sheet: u32) -> Place {
    unsafe { c::sheets_panel_read(store.as_ptr(), store.len(), revision, sheet) }
}

#[cfg(not(feature = "before-w9"))]
pub fn release(store: &mut [u8], revision: u32, seat: u32, stamp: u32) -> Answer {
    unsafe { c::sheets_release(store.as_mut_ptr(), store.len(), revision, seat, stamp) }
}

pub fn show(store: &[u8], copy: &[u8], sheet: u32) -> Place {
    unsafe { c::sheets_show(store.as_ptr(), store.len(), copy.as_ptr(), copy.len(), sheet) }
}

pub fn status(store: &[u8], copy: &[u8], sheet: u32) -> Standing {
    unsafe { c::sheets_status(store.as_ptr(), store.len(), copy.as_ptr(), copy.len(), sheet) }
}

pub fn log(store: &[u8], revision: u32, sheet: u32) -> LogEntry {
    unsafe { c::sheets_log(store.as_ptr(), store.len(), revision, sheet) }
}

pub fn replay(script: &[u8], store: &mut [u8], copies: &mut [u8], answers: &mut [u8]) -> Answer {
    unsafe {
        c::sheets_replay(
            script.as_ptr(),
            script.len(),
            store.as_mut_ptr(),
            store.len(),
            copies.as_mut_ptr(),
            copies.len(),
            answers.as_mut_ptr(),
            answers.len(),
        )
    }
}

/// Of an accepted store alone.
pub fn look_up(store: &[u8], used: usize, r: usize, i: usize) -> usize {
    unsafe { c::measure_look_up(store.as_ptr(), store.len(), store.len() / 512, used, r, i) }
}

/// Of an accepted store and a working copy that fits it alone.
pub fn inner_status(store: &[u8], copy: &[u8], used: usize, last: usize, seat: u32, i: usize) -> u32 {
    unsafe { c::measure_status(store.as_ptr(), store.len(), copy.as_ptr(), copy.len(), store.len() / 512, used, last, seat, i) }
}

pub fn adler(bytes: &[u8]) -> u64 {
    unsafe { c::adler32(1, bytes.as_ptr(), bytes.len() as u32) }
}
