//! Lists of calls in bytes, and their answers: the records of `docs/LAYOUT.md`.

use crate::answers::{self, LogEntry, Refusal, Sheet, Shown, Standing};
use crate::ffi;
use std::iter::Zip;
use std::slice::ChunksExact;

/// Bytes of the record of a call, and of the record of an answer.
pub const RECORD_LEN: usize = 512;
/// The most bytes that a call of a script can take.
pub const MAX_BYTES: usize = 496;

const BYTES_AT: usize = 16;
const ANSWER_BYTES_AT: usize = 32;

/// A call of a script, as the function of its name makes it.
#[derive(Clone, Copy, Debug, PartialEq, Eq, Hash)]
pub enum Call<'a> {
    /// [`add`](crate::add)
    Add {
        /// The sheet.
        sheet: u32,
        /// The bytes that it gets.
        bytes: &'a [u8],
    },
    /// [`edit`](crate::edit)
    Edit {
        /// The sheet.
        sheet: u32,
        /// The bytes that it gets.
        bytes: &'a [u8],
    },
    /// [`delete`](crate::delete)
    Delete {
        /// The sheet.
        sheet: u32,
    },
    /// [`copy_sheet`](crate::copy_sheet)
    Copy {
        /// The sheet to copy.
        from: u32,
        /// The sheet that is made.
        to: u32,
    },
    /// [`move_sheet`](crate::move_sheet)
    Move {
        /// The sheet to move.
        from: u32,
        /// The sheet that is made.
        to: u32,
    },
    /// [`commit`](crate::commit)
    Commit {
        /// The commit's stamp.
        stamp: u32,
        /// The chosen sheets.
        mask: u32,
    },
    /// [`update`](crate::update)
    Update {
        /// The chosen sheets.
        mask: u32,
        /// The revision.
        revision: u32,
    },
    /// [`revert`](crate::revert)
    Revert {
        /// The chosen sheets.
        mask: u32,
    },
    /// [`read`](crate::read)
    Read {
        /// The revision.
        revision: u32,
        /// The sheet.
        sheet: u32,
    },
    /// [`show`](crate::show)
    Show {
        /// The sheet.
        sheet: u32,
    },
    /// [`status`](crate::status)
    Status {
        /// The sheet.
        sheet: u32,
    },
    /// [`log`](crate::log)
    Log {
        /// The revision.
        revision: u32,
        /// The sheet.
        sheet: u32,
    },
    /// [`clear`](crate::clear)
    Clear,
    /// [`commit_cut`](crate::commit_cut)
    CommitCut {
        /// The commit's stamp.
        stamp: u32,
        /// The chosen sheets.
        mask: u32,
        /// The writes after which it stops.
        n: u32,
    },
    /// [`clear_cut`](crate::clear_cut)
    ClearCut {
        /// The writes after which it stops.
        n: u32,
    },
    /// [`release`](crate::release)
    Release {
        /// The revision.
        revision: u32,
        /// The seat that the release names.
        seat: u32,
        /// The release's stamp.
        stamp: u32,
    },
    /// [`panel_read`](crate::panel_read)
    Panel {
        /// The revision.
        revision: u32,
        /// The sheet.
        sheet: u32,
    },
}

/// A list of calls by seats 1 to 4, for [`replay`](crate::replay).
#[derive(Clone, Debug, Default, PartialEq, Eq)]
pub struct Script {
    records: Vec<u8>,
}

impl Script {
    /// No calls.
    pub fn new() -> Self {
        Self::default()
    }

    /// Adds a call by a seat at the end. A seat that is not 1 to 4, and more than [`MAX_BYTES`] bytes, are refused with [`Refusal::Range`].
    /// Read, log, clear, cut or not, release and panel reading use no working copy, so any of the four seats will do; a release names its own.
    pub fn push(&mut self, seat: u32, call: Call<'_>) -> Result<(), Refusal> {
        let (kind, numbers, bytes): (u8, [u32; 3], &[u8]) = match call {
            Call::Add { sheet, bytes } => (1, [sheet, 0, 0], bytes),
            Call::Edit { sheet, bytes } => (2, [sheet, 0, 0], bytes),
            Call::Delete { sheet } => (3, [sheet, 0, 0], &[]),
            Call::Copy { from, to } => (4, [from, to, 0], &[]),
            Call::Move { from, to } => (5, [from, to, 0], &[]),
            Call::Commit { stamp, mask } => (6, [stamp, mask, 0], &[]),
            Call::Update { mask, revision } => (7, [mask, revision, 0], &[]),
            Call::Revert { mask } => (8, [mask, 0, 0], &[]),
            Call::Read { revision, sheet } => (9, [revision, sheet, 0], &[]),
            Call::Show { sheet } => (10, [sheet, 0, 0], &[]),
            Call::Status { sheet } => (11, [sheet, 0, 0], &[]),
            Call::Log { revision, sheet } => (12, [revision, sheet, 0], &[]),
            Call::Clear => (13, [0; 3], &[]),
            Call::CommitCut { stamp, mask, n } => (14, [stamp, mask, n], &[]),
            Call::ClearCut { n } => (15, [n, 0, 0], &[]),
            Call::Release { revision, seat, stamp } => (20, [revision, stamp, seat], &[]),
            Call::Panel { revision, sheet } => (21, [revision, sheet, 0], &[]),
        };
        if !(1..=4).contains(&seat) || bytes.len() > MAX_BYTES {
            return Err(Refusal::Range);
        }
        let mut record = [0; RECORD_LEN];
        record[0] = kind;
        record[1] = seat as u8;
        record[2..4].copy_from_slice(&(bytes.len() as u16).to_le_bytes());
        for (field, number) in record[4..BYTES_AT].chunks_exact_mut(4).zip(numbers) {
            field.copy_from_slice(&number.to_le_bytes());
        }
        record[BYTES_AT..BYTES_AT + bytes.len()].copy_from_slice(bytes);
        self.records.extend_from_slice(&record);
        Ok(())
    }

    /// The number of calls.
    pub fn len(&self) -> usize {
        self.records.len() / RECORD_LEN
    }

    /// Whether there are no calls.
    pub fn is_empty(&self) -> bool {
        self.records.is_empty()
    }

    /// The records of the calls.
    pub fn as_bytes(&self) -> &[u8] {
        &self.records
    }
}

/// What a call of a script answered, where it was not refused.
#[derive(Clone, Copy, Debug, PartialEq, Eq, Hash)]
pub enum Reply<'a> {
    /// It did its work, and has nothing to tell.
    Done,
    /// The revision of a commit, or of a cut one that had writes enough.
    Revision(u32),
    /// A cut call stopped after its n writes.
    Stopped,
    /// The sheet that was read, for a panel or not. Its bytes are a part of the answers.
    Read(Sheet<'a>),
    /// What a seat sees. The bytes are a part of the answers.
    Show(Shown<'a>),
    /// The status of a sheet's entry, and the revision to print beside the sheet.
    Status(Standing),
    /// What log tells.
    Log(LogEntry),
}

/// The answers of a script's calls, in order.
#[derive(Clone, Debug)]
pub struct Answers<'a> {
    records: Zip<ChunksExact<'a, u8>, ChunksExact<'a, u8>>,
}

impl<'a> Answers<'a> {
    pub(crate) fn new(script: &'a Script, answers: &'a [u8]) -> Self {
        Self { records: script.records.chunks_exact(RECORD_LEN).zip(answers.chunks_exact(RECORD_LEN)) }
    }
}

impl<'a> Iterator for Answers<'a> {
    type Item = Result<Reply<'a>, Refusal>;

    fn next(&mut self) -> Option<Self::Item> {
        self.records.next().map(|(call, answer)| reply(call[0], answer))
    }

    fn size_hint(&self) -> (usize, Option<usize>) {
        self.records.size_hint()
    }
}

impl ExactSizeIterator for Answers<'_> {}

/// The answer of a call of this kind.
fn reply(kind: u8, record: &[u8]) -> Result<Reply<'_>, Refusal> {
    let number = |at: usize| u32::from_le_bytes([record[at], record[at + 1], record[at + 2], record[at + 3]]);
    answers::unless_refused(number(0))?;
    let sheet = || Sheet { bytes: &record[ANSWER_BYTES_AT..ANSWER_BYTES_AT + number(28) as usize], revision: number(8) };
    Ok(match kind {
        14 | 15 if number(8) != 0 => Reply::Stopped,
        6 | 14 => Reply::Revision(number(4)),
        9 | 21 => Reply::Read(sheet()),
        10 => Reply::Show(answers::shown(sheet())),
        11 => Reply::Status(answers::standing(ffi::Standing { refusal: 0, status: number(4), revision: number(8) })?),
        12 => Reply::Log(answers::logged(ffi::LogEntry {
            refusal: 0,
            seat: number(4),
            stamp: number(8),
            changes: number(12),
            action: number(16),
            source_sheet: number(20),
            source_revision: number(24),
        })?),
        _ => Reply::Done,
    })
}
