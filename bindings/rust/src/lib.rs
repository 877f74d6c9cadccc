//! Safe calls of the verified sheet store.
//!
//! A *store* is a buffer of 2 to 4,096 blocks of [`BLOCK`] bytes that holds the revisions of one pool. A *working copy* is a buffer of
//! [`COPY_LEN`] bytes that belongs to a seat, 1 to 4. Both are lent by the caller. Every call checks all that it is handed, finishes on every
//! input, and either does its work or answers a [`Refusal`] and leaves every buffer and turn record unchanged; only [`commit_cut`] and [`clear_cut`] may stop
//! within their work, and answer that.
//!
//! ```
//! use sheetstore::{self as sheets, Refusal, ALL, BLOCK, COPY_LEN};
//!
//! let mut store = vec![0; 32 * BLOCK];
//! let mut copy = vec![0; COPY_LEN];
//! sheets::create_store(&mut store)?;
//! sheets::create_copy(&mut copy, 2)?;
//!
//! sheets::add(&store, &mut copy, 5, b"stop after 30 s")?;
//! let first = sheets::commit(&mut store, &mut copy, 7, ALL)?;
//! sheets::edit(&store, &mut copy, 5, b"stop after 20 s")?;
//! sheets::commit(&mut store, &mut copy, 8, ALL)?;
//!
//! // Revision 1 is what was committed then; the bytes are a part of the store.
//! assert_eq!(sheets::read(&store, first, 5)?.bytes, b"stop after 30 s");
//! assert_eq!(sheets::read(&store, 0, 5), Err(Refusal::Missing));
//!
//! // Beside a sheet stands the revision that set it.
//! sheets::add(&store, &mut copy, 6, b"pH 7.2")?;
//! let last = sheets::commit(&mut store, &mut copy, 9, ALL)?;
//! let sheet = sheets::read(&store, last, 5)?;
//! assert_eq!((last, sheet.bytes, sheet.revision), (3, &b"stop after 20 s"[..], 2));
//! # Ok::<(), Refusal>(())
//! ```
//!
//! The part that [`read`] hands back is borrowed from the store, so the store cannot change while it is in use:
//!
//! ```compile_fail,E0502
//! # let mut store = vec![0; 32 * sheetstore::BLOCK];
//! # let mut copy = vec![0; sheetstore::COPY_LEN];
//! let sheet = sheetstore::read(&store, 1, 5).unwrap();
//! sheetstore::commit(&mut store, &mut copy, 9, sheetstore::ALL).unwrap();
//! println!("{:?}, revision {}", sheet.bytes, sheet.revision);
//! ```
//!
//! Seats that commit often take turns by a record, [`Turn`], and [`commit_in_turn`]. A poolside panel shows what was released, by [`release`] and
//! [`panel_read`]. A list of calls by all four seats is made at once by [`replay`].
#![deny(missing_docs)]

mod answers;
mod ffi;
mod script;
mod turn;

pub use answers::{Action, Cut, LogEntry, Refusal, Sheet, Shown, Standing, Status};
pub use ffi::Turn;
pub use script::{Answers, Call, Reply, Script, MAX_BYTES, RECORD_LEN};

/// Bytes of a block.
pub const BLOCK: usize = 512;
/// Bytes of a working copy.
pub const COPY_LEN: usize = 33 * BLOCK;
/// Bytes of the working copies of seats 1 to 4 side by side.
pub const COPIES_LEN: usize = 4 * COPY_LEN;
/// The mask that chooses every sheet; bit i chooses sheet i.
pub const ALL: u32 = u32::MAX;

/// A C answer as a value or a refusal.
fn value(answer: ffi::Answer) -> Result<u32, Refusal> {
    answers::unless_refused(answer.refusal).map(|_| answer.value)
}

/// A C answer that carries no value.
fn done(answer: ffi::Answer) -> Result<(), Refusal> {
    value(answer).map(|_| ())
}

/// Makes a fresh store, with no revision. What the buffer held does not matter.
pub fn create_store(store: &mut [u8]) -> Result<(), Refusal> {
    // SAFETY: the pointer and the length are those of one slice that is lent for the call, here and in every call below.
    done(unsafe { ffi::sheets_create_store(store.as_mut_ptr(), store.len()) })
}

/// Makes a fresh working copy of a seat, with 32 empty entries. What the buffer held does not matter.
pub fn create_copy(copy: &mut [u8], seat: u32) -> Result<(), Refusal> {
    done(unsafe { ffi::sheets_create_copy(copy.as_mut_ptr(), copy.len(), seat) })
}

/// The empty entry of a sheet becomes added, with these bytes.
pub fn add(store: &[u8], copy: &mut [u8], sheet: u32, bytes: &[u8]) -> Result<(), Refusal> {
    done(unsafe { ffi::sheets_add(store.as_ptr(), store.len(), copy.as_mut_ptr(), copy.len(), sheet, bytes.as_ptr(), bytes.len()) })
}

/// Replaces the bytes of a normal, added or copied entry.
pub fn edit(store: &[u8], copy: &mut [u8], sheet: u32, bytes: &[u8]) -> Result<(), Refusal> {
    done(unsafe { ffi::sheets_edit(store.as_ptr(), store.len(), copy.as_mut_ptr(), copy.len(), sheet, bytes.as_ptr(), bytes.len()) })
}

/// A normal entry becomes deleted, an added or copied one empty.
pub fn delete(store: &[u8], copy: &mut [u8], sheet: u32) -> Result<(), Refusal> {
    done(unsafe { ffi::sheets_delete(store.as_ptr(), store.len(), copy.as_mut_ptr(), copy.len(), sheet) })
}

/// The empty entry of sheet `to` becomes a copy of that of sheet `from`.
pub fn copy_sheet(store: &[u8], copy: &mut [u8], from: u32, to: u32) -> Result<(), Refusal> {
    done(unsafe { ffi::sheets_copy(store.as_ptr(), store.len(), copy.as_mut_ptr(), copy.len(), from, to) })
}

/// Copies sheet `from` to sheet `to`, then deletes `from`.
pub fn move_sheet(store: &[u8], copy: &mut [u8], from: u32, to: u32) -> Result<(), Refusal> {
    done(unsafe { ffi::sheets_move(store.as_ptr(), store.len(), copy.as_mut_ptr(), copy.len(), from, to) })
}

/// The pending entries that the mask chooses become the next revision, which is the answer. The blocks in use stay as they are; the content blocks are written
/// in rising order, then the commit block. Two stores of one size that began fresh and have no tail are equal byte by byte exactly if their histories are the
/// same, with the same releases in the same places. A store that has a tail is refused with [`Refusal::Tail`]: see [`clear`].
pub fn commit(store: &mut [u8], copy: &mut [u8], stamp: u32, mask: u32) -> Result<u32, Refusal> {
    value(unsafe { ffi::sheets_commit(store.as_mut_ptr(), store.len(), copy.as_mut_ptr(), copy.len(), stamp, mask) })
}

/// Clears the tail of a store. Where contact is lost within a commit or a release, the store ends in a tail: up to 32 content blocks of the next revision and
/// at most one block with a wrong check. Every call but [`commit`], [`commit_cut`], [`commit_in_turn`] and [`release`] works then, as if the tail were zero
/// blocks. Clear writes zero blocks there, from the highest block down; without a tail it changes nothing.
///
/// Wherever the power fails within a commit, a release or a clear, and the blocks written before are new, the block being written is old, new or has a wrong
/// check, and those due later are old, the store found is accepted. Its history is the one before, or the one with the whole commit or the release, the latter
/// exactly if the commit block or the release's block is new. The working copy is outside of this.
///
/// ```
/// use sheetstore::{self as sheets, Refusal, ALL, BLOCK, COPY_LEN};
///
/// let mut store = vec![0; 32 * BLOCK];
/// let mut copy = vec![0; COPY_LEN];
/// sheets::create_store(&mut store)?;
/// sheets::create_copy(&mut copy, 2)?;
/// sheets::add(&store, &mut copy, 5, b"stop after 30 s")?;
/// sheets::commit(&mut store, &mut copy, 7, ALL)?;
///
/// store[3 * BLOCK..3 * BLOCK + 2].copy_from_slice(&[2, 7]); // a block that was half written behind revision 1
/// assert_eq!(sheets::read(&store, 1, 5)?.bytes, b"stop after 30 s");
/// sheets::edit(&store, &mut copy, 5, b"stop after 20 s")?;
/// assert_eq!(sheets::commit(&mut store, &mut copy, 8, ALL), Err(Refusal::Tail));
///
/// sheets::clear(&mut store)?;
/// assert_eq!(sheets::commit(&mut store, &mut copy, 8, ALL), Ok(2));
/// # Ok::<(), Refusal>(())
/// ```
pub fn clear(store: &mut [u8]) -> Result<(), Refusal> {
    done(unsafe { ffi::sheets_clear(store.as_mut_ptr(), store.len()) })
}

/// A [`commit`] that stops after n block writes, to try what a cut leaves. It is refused exactly as [`commit`] is, whatever n is, and leaves both buffers
/// unchanged then.
///
/// A commit of k content blocks has k + 1 writes: the content blocks in rising order, then the commit block. With n at most k the answer is
/// [`Cut::Stopped`]: the first n content blocks stand in the store behind the blocks in use, all other blocks and the working copy are untouched. From n = 1
/// on that is a tail, so the next commit is refused with [`Refusal::Tail`] until the store is cleared; with n = 0 nothing is written. With n above k it is
/// [`commit`], the working copy included: the answer is [`Cut::Done`] with the revision.
///
/// ```
/// use sheetstore::{self as sheets, Cut, Refusal, ALL, BLOCK, COPY_LEN};
///
/// let mut store = vec![0; 32 * BLOCK];
/// let mut copy = vec![0; COPY_LEN];
/// sheets::create_store(&mut store)?;
/// sheets::create_copy(&mut copy, 2)?;
/// sheets::add(&store, &mut copy, 5, b"stop after 30 s")?;
/// sheets::add(&store, &mut copy, 6, b"pH 7.2")?;
///
/// assert_eq!(sheets::commit_cut(&mut store, &mut copy, 7, ALL, 1), Ok(Cut::Stopped));
/// assert_eq!(sheets::read(&store, 1, 5), Err(Refusal::Range));
/// assert_eq!(sheets::commit_cut(&mut store, &mut copy, 7, ALL, 3), Err(Refusal::Tail));
///
/// sheets::clear(&mut store)?;
/// assert_eq!(sheets::commit_cut(&mut store, &mut copy, 7, ALL, 3), Ok(Cut::Done(1)));
/// # Ok::<(), Refusal>(())
/// ```
pub fn commit_cut(store: &mut [u8], copy: &mut [u8], stamp: u32, mask: u32, n: u32) -> Result<Cut<u32>, Refusal> {
    let answer = unsafe { ffi::sheets_commit_cut(store.as_mut_ptr(), store.len(), copy.as_mut_ptr(), copy.len(), stamp, mask, n) };
    answers::cut(answer, |revision| revision)
}

/// A [`clear`] that stops after n block writes. It is refused exactly as [`clear`] is, whatever n is, and leaves the store unchanged then.
///
/// Clear has one write for each block of the tail, from the highest down. With n below their number the answer is [`Cut::Stopped`]: the n highest blocks of
/// the tail are zero, the others untouched, so that the tail is n blocks shorter. With n equal to their number or above it is [`clear`]: the answer is
/// [`Cut::Done`], and the store has no tail. Without a tail there is no write, so that is the answer for every n, and the store stays as it is.
pub fn clear_cut(store: &mut [u8], n: u32) -> Result<Cut<()>, Refusal> {
    answers::cut(unsafe { ffi::sheets_clear_cut(store.as_mut_ptr(), store.len(), n) }, |_| ())
}

/// A [`commit`] through a turn record. It is refused as [`commit`] is, but for two lines: a record that is not in form is refused with [`Refusal::Range`], as
/// mask 0 is, and right after that a seat that does not hold the turn with [`Refusal::NotHolding`]. The seat is the working copy's. Not refused, it is
/// [`commit`].
///
/// The record stays as it is: giving back is a call of its own. [`commit`] itself asks for no turn.
///
/// ```
/// use sheetstore::{self as sheets, Refusal, Turn, ALL, BLOCK, COPY_LEN};
///
/// let (mut store, mut one, mut two) = (vec![0; 32 * BLOCK], vec![0; COPY_LEN], vec![0; COPY_LEN]);
/// sheets::create_store(&mut store)?;
/// sheets::create_copy(&mut one, 1)?;
/// sheets::create_copy(&mut two, 2)?;
/// sheets::add(&store, &mut one, 5, b"stop after 30 s")?;
/// sheets::add(&store, &mut two, 6, b"pH 7.2")?;
///
/// let mut turn = Turn::free();
/// assert_eq!(turn.ask(1), Ok(Some(1)));
/// assert_eq!(turn.ask(2), Ok(Some(1))); // seat 2 waits
/// assert_eq!(sheets::commit_in_turn(&mut store, &mut two, turn, 7, ALL), Err(Refusal::NotHolding));
/// assert_eq!(sheets::commit_in_turn(&mut store, &mut one, turn, 7, ALL), Ok(1));
///
/// assert_eq!(turn.give(1), Ok(Some(2)));
/// assert_eq!(sheets::commit_in_turn(&mut store, &mut two, turn, 8, ALL), Ok(2));
/// assert_eq!(turn.take(), Ok(None)); // the planner takes the turn back from seat 2, and nobody waits
/// assert_eq!(turn, Turn::free());
/// # Ok::<(), Refusal>(())
/// ```
pub fn commit_in_turn(store: &mut [u8], copy: &mut [u8], turn: Turn, stamp: u32, mask: u32) -> Result<u32, Refusal> {
    value(unsafe { ffi::sheets_commit_in_turn(store.as_mut_ptr(), store.len(), copy.as_mut_ptr(), copy.len(), turn, stamp, mask) })
}

/// The entries that the mask chooses come to a revision, unless one of them is a conflict. One whose own bytes are the ones that its sheet has there
/// agrees: no conflict, and unmodified from then on.
pub fn update(store: &[u8], copy: &mut [u8], mask: u32, revision: u32) -> Result<(), Refusal> {
    done(unsafe { ffi::sheets_update(store.as_ptr(), store.len(), copy.as_mut_ptr(), copy.len(), mask, revision) })
}

/// The entries that the mask chooses come back to their base; added and copied ones become empty.
pub fn revert(store: &[u8], copy: &mut [u8], mask: u32) -> Result<(), Refusal> {
    done(unsafe { ffi::sheets_revert(store.as_ptr(), store.len(), copy.as_mut_ptr(), copy.len(), mask) })
}

/// The part of a buffer that a C place names, and the revision beside it.
fn part<'a>(place: ffi::Place, store: &'a [u8], copy: &'a [u8]) -> Result<Sheet<'a>, Refusal> {
    answers::unless_refused(place.refusal)?;
    let buffer = if place.buffer == 0 { store } else { copy };
    Ok(Sheet { bytes: &buffer[place.start..place.start + place.len], revision: place.revision })
}

/// A sheet at a revision: its bytes, a part of the store, nothing copied, and the last commit up to that revision that named it.
pub fn read(store: &[u8], revision: u32, sheet: u32) -> Result<Sheet<'_>, Refusal> {
    part(unsafe { ffi::sheets_read(store.as_ptr(), store.len(), revision, sheet) }, store, &[])
}

/// What a seat sees: its own bytes, a part of the working copy, where the entry is normal, added or copied; otherwise the last
/// revision's, a part of the store, and the last commit that named the sheet.
pub fn show<'a>(store: &'a [u8], copy: &'a [u8], sheet: u32) -> Result<Shown<'a>, Refusal> {
    part(unsafe { ffi::sheets_show(store.as_ptr(), store.len(), copy.as_ptr(), copy.len(), sheet) }, store, copy).map(answers::shown)
}

/// The status of a sheet's entry, and the last commit that named the sheet, if one did.
pub fn status(store: &[u8], copy: &[u8], sheet: u32) -> Result<Standing, Refusal> {
    answers::standing(unsafe { ffi::sheets_status(store.as_ptr(), store.len(), copy.as_ptr(), copy.len(), sheet) })
}

/// What a revision is, and what it did to a sheet.
pub fn log(store: &[u8], revision: u32, sheet: u32) -> Result<LogEntry, Refusal> {
    answers::logged(unsafe { ffi::sheets_log(store.as_ptr(), store.len(), revision, sheet) })
}

/// Releases a revision, 1 to the last, for [`panel_read`]: one block, with the seat, 1 to 4, and the stamp, behind the blocks in use. It is no revision itself,
/// and what [`read`], [`show`], [`status`] and [`log`] find follows from the commits alone. Revisions may be released in any order; one that is released
/// already is refused with [`Refusal::Released`], a store that has a tail with [`Refusal::Tail`], as by [`commit`].
///
/// ```
/// use sheetstore::{self as sheets, Refusal, ALL, BLOCK, COPY_LEN};
///
/// let mut store = vec![0; 32 * BLOCK];
/// let mut copy = vec![0; COPY_LEN];
/// sheets::create_store(&mut store)?;
/// sheets::create_copy(&mut copy, 2)?;
/// sheets::add(&store, &mut copy, 5, b"stop after 30 s")?;
/// sheets::commit(&mut store, &mut copy, 7, ALL)?;
/// sheets::edit(&store, &mut copy, 5, b"stop after 20 s")?;
/// let last = sheets::commit(&mut store, &mut copy, 8, ALL)?;
///
/// assert_eq!(sheets::panel_read(&store, last, 5), Err(Refusal::Missing));
/// sheets::release(&mut store, 1, 2, 9)?;
/// assert_eq!(sheets::panel_read(&store, last, 5)?.bytes, b"stop after 30 s");
/// assert_eq!(sheets::read(&store, last, 5)?.bytes, b"stop after 20 s");
///
/// assert_eq!(sheets::release(&mut store, 1, 2, 9), Err(Refusal::Released));
/// sheets::release(&mut store, last, 2, 9)?;
/// assert_eq!(sheets::panel_read(&store, last, 5)?.bytes, b"stop after 20 s");
/// # Ok::<(), Refusal>(())
/// ```
pub fn release(store: &mut [u8], revision: u32, seat: u32, stamp: u32) -> Result<(), Refusal> {
    done(unsafe { ffi::sheets_release(store.as_mut_ptr(), store.len(), revision, seat, stamp) })
}

/// What a poolside panel shows of a sheet: what [`read`] gives at the greatest released revision up to this one, whichever was released last. Where there is
/// no such release, or its tree lacks the sheet, even if an older released one has it, the answer is [`Refusal::Missing`].
pub fn panel_read(store: &[u8], revision: u32, sheet: u32) -> Result<Sheet<'_>, Refusal> {
    part(unsafe { ffi::sheets_panel_read(store.as_ptr(), store.len(), revision, sheet) }, store, &[])
}

/// Makes the calls of a script in order, on one store and the working copies of seats 1 to 4 side by side. The buffers are checked once. The answers need
/// [`RECORD_LEN`] bytes for each call; what they have beyond that is kept. Refused calls among the others change nothing, and the rest are made all the same.
///
/// Where the buffers are refused, no call is made: refusals 1 to 6 as for any call, the copies in order; [`Refusal::Range`] for a copy that is not of its
/// place's seat, and for answers that are too short.
///
/// ```
/// use sheetstore::{self as sheets, Call, Refusal, Reply, Script, Sheet, Shown, ALL, BLOCK, COPIES_LEN, COPY_LEN, RECORD_LEN};
///
/// let (mut store, mut copies) = (vec![0; 32 * BLOCK], vec![0; COPIES_LEN]);
/// sheets::create_store(&mut store)?;
/// for (seat, copy) in (1..).zip(copies.chunks_exact_mut(COPY_LEN)) {
///     sheets::create_copy(copy, seat)?;
/// }
///
/// let mut script = Script::new();
/// script.push(2, Call::Add { sheet: 5, bytes: b"stop after 30 s" })?;
/// script.push(2, Call::Commit { stamp: 7, mask: ALL })?;
/// script.push(3, Call::Show { sheet: 5 })?;
/// script.push(3, Call::Delete { sheet: 6 })?;
///
/// let mut answers = vec![0; script.len() * RECORD_LEN];
/// let said: Vec<_> = sheets::replay(&script, &mut store, &mut copies, &mut answers)?.collect();
/// let shown = Shown::Last(Sheet { bytes: b"stop after 30 s", revision: 1 });
/// assert_eq!(said, [Ok(Reply::Done), Ok(Reply::Revision(1)), Ok(Reply::Show(shown)), Err(Refusal::Missing)]);
/// # Ok::<(), Refusal>(())
/// ```
pub fn replay<'a>(script: &'a Script, store: &mut [u8], copies: &mut [u8], answers: &'a mut [u8]) -> Result<Answers<'a>, Refusal> {
    let text = script.as_bytes();
    done(unsafe {
        ffi::sheets_replay(
            text.as_ptr(),
            text.len(),
            store.as_mut_ptr(),
            store.len(),
            copies.as_mut_ptr(),
            copies.len(),
            answers.as_mut_ptr(),
            answers.len(),
        )
    })?;
    Ok(Answers::new(script, answers))
}
