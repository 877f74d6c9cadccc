//! The answers of the calls, and how they come from the C library's numbers.

use crate::ffi;
use std::error::Error;
use std::fmt;

/// Why a call was refused: the lines of document 01's "When the engine says no", and 14 to 16 of document 02, with their numbers.
#[derive(Clone, Copy, Debug, PartialEq, Eq, Hash)]
#[repr(u32)]
pub enum Refusal {
    /// The store's length is no multiple of 512, or its blocks are fewer than 2 or more than 4,096.
    StoreLength = 1,
    /// Some store block's check is wrong.
    StoreCheck = 2,
    /// The store's blocks aren't the layout of a history.
    StoreLayout = 3,
    /// The working copy's length isn't 16,896.
    CopyLength = 4,
    /// The working copy has a wrong check or a broken layout.
    CopyLayout = 5,
    /// The working copy doesn't fit the store.
    Unfit = 6,
    /// A seat, sheet number, length, mask or revision is out of range, or a turn record is not in form.
    Range = 7,
    /// Nothing is there.
    Missing = 8,
    /// The entry to add, or the target of a copy or move, isn't empty.
    Occupied = 9,
    /// No chosen entry is pending at commit.
    NothingPending = 10,
    /// A chosen entry is out of date at commit.
    OutOfDate = 11,
    /// Update meets a conflict.
    Conflict = 12,
    /// The commit or the release does not fit in the store's unused blocks.
    NoRoom = 13,
    /// The store to commit to, or to release in, has a tail. This is checked right after [`StoreLayout`](Refusal::StoreLayout).
    Tail = 14,
    /// The seat that commits in turn doesn't hold the turn. This is checked right after [`Range`](Refusal::Range).
    NotHolding = 15,
    /// The revision to release is released already. This is checked right after [`Range`](Refusal::Range).
    Released = 16,
}

const REFUSALS: [Refusal; 16] = [
    Refusal::StoreLength,
    Refusal::StoreCheck,
    Refusal::StoreLayout,
    Refusal::CopyLength,
    Refusal::CopyLayout,
    Refusal::Unfit,
    Refusal::Range,
    Refusal::Missing,
    Refusal::Occupied,
    Refusal::NothingPending,
    Refusal::OutOfDate,
    Refusal::Conflict,
    Refusal::NoRoom,
    Refusal::Tail,
    Refusal::NotHolding,
    Refusal::Released,
];

impl Refusal {
    /// The documents' number, 1 to 16.
    pub fn number(self) -> u32 {
        self as u32
    }
}

impl fmt::Display for Refusal {
    fn fmt(&self, f: &mut fmt::Formatter<'_>) -> fmt::Result {
        let why = match self {
            Refusal::StoreLength => "the store's length is wrong",
            Refusal::StoreCheck => "a store block's check is wrong",
            Refusal::StoreLayout => "the store is not the layout of a history",
            Refusal::CopyLength => "the working copy's length is wrong",
            Refusal::CopyLayout => "the working copy has a wrong check or a broken layout",
            Refusal::Unfit => "the working copy does not fit the store",
            Refusal::Range => "a number is out of range",
            Refusal::Missing => "nothing is there",
            Refusal::Occupied => "the entry is not empty",
            Refusal::NothingPending => "no chosen entry is pending",
            Refusal::OutOfDate => "a chosen entry is out of date",
            Refusal::Conflict => "a chosen entry is a conflict",
            Refusal::NoRoom => "the store has no room",
            Refusal::Tail => "the store has a tail",
            Refusal::NotHolding => "the seat does not hold the turn",
            Refusal::Released => "the revision is released already",
        };
        write!(f, "refusal {}: {why}", self.number())
    }
}

impl Error for Refusal {}

/// The refusal with this number as an error; 0 is none.
pub fn unless_refused(number: u32) -> Result<(), Refusal> {
    (number as usize).checked_sub(1).map_or(Ok(()), |k| Err(REFUSALS[k]))
}

/// What a call that stops after n block writes answers, where it is not refused.
#[derive(Clone, Copy, Debug, PartialEq, Eq, Hash)]
#[must_use = "a call that stopped has not done its work"]
pub enum Cut<T> {
    /// It stopped: n writes are made, and at least one is not.
    Stopped,
    /// n was enough for all its writes: what the usual call answers.
    Done(T),
}

/// A C answer of a cut call as what it answers or a refusal; `done` makes the usual call's answer from its value.
pub fn cut<T>(answer: ffi::CutAnswer, done: impl FnOnce(u32) -> T) -> Result<Cut<T>, Refusal> {
    unless_refused(answer.refusal)?;
    Ok(if answer.stopped == 0 { Cut::Done(done(answer.value)) } else { Cut::Stopped })
}

/// The status of a sheet's entry, with document 01's numbers.
#[derive(Clone, Copy, Debug, PartialEq, Eq, Hash)]
#[repr(u32)]
pub enum Status {
    /// The entry is empty, and the last tree lacks the sheet.
    Absent = 0,
    /// As the last revision has it.
    UpToDate = 1,
    /// The seat's bytes differ from the base's.
    Modified = 2,
    /// A commit after the base names the sheet.
    NeedsPatch = 3,
    /// Both: modified, and a commit after the base names the sheet.
    NeedsMerge = 4,
    /// Added.
    Added = 5,
    /// Deleted.
    Deleted = 6,
    /// Copied.
    Copied = 7,
    /// The entry is empty, and the last tree has the sheet.
    NeedsCheckout = 8,
}

const STATUSES: [Status; 9] = [
    Status::Absent,
    Status::UpToDate,
    Status::Modified,
    Status::NeedsPatch,
    Status::NeedsMerge,
    Status::Added,
    Status::Deleted,
    Status::Copied,
    Status::NeedsCheckout,
];

/// The status of a sheet's entry, and the revision to print beside the sheet.
#[derive(Clone, Copy, Debug, PartialEq, Eq, Hash)]
pub struct Standing {
    /// The status.
    pub status: Status,
    /// The last commit that named the sheet, its delete included; none if no commit did.
    pub revision: Option<u32>,
}

/// A C standing as a standing or a refusal.
pub fn standing(standing: ffi::Standing) -> Result<Standing, Refusal> {
    unless_refused(standing.refusal)?;
    Ok(Standing { status: STATUSES[standing.status as usize], revision: (standing.revision != 0).then_some(standing.revision) })
}

/// A sheet as some revision has it, and the revision to print beside it.
#[derive(Clone, Copy, Debug, PartialEq, Eq, Hash)]
pub struct Sheet<'a> {
    /// The bytes.
    pub bytes: &'a [u8],
    /// The last commit that named the sheet, up to the revision that was looked at.
    pub revision: u32,
}

/// What a seat sees of a sheet.
#[derive(Clone, Copy, Debug, PartialEq, Eq, Hash)]
pub enum Shown<'a> {
    /// The seat's own bytes, which have no revision beside them.
    Own(&'a [u8]),
    /// What the last revision has.
    Last(Sheet<'a>),
}

impl<'a> Shown<'a> {
    /// The bytes of either.
    pub fn bytes(self) -> &'a [u8] {
        match self {
            Shown::Own(bytes) => bytes,
            Shown::Last(sheet) => sheet.bytes,
        }
    }
}

/// What C shows: the seat's own bytes have 0 beside them.
pub fn shown(sheet: Sheet<'_>) -> Shown<'_> {
    match sheet.revision {
        0 => Shown::Own(sheet.bytes),
        _ => Shown::Last(sheet),
    }
}

/// What a commit did to a sheet.
#[derive(Clone, Copy, Debug, PartialEq, Eq, Hash)]
pub enum Action {
    /// Added it.
    Add,
    /// Changed its bytes.
    Change,
    /// Deleted it.
    Delete,
    /// Made it as a copy.
    Copy {
        /// The sheet that was copied.
        sheet: u32,
        /// The revision it was copied from.
        revision: u32,
    },
}

/// What log tells of a commit and a sheet.
#[derive(Clone, Copy, Debug, PartialEq, Eq, Hash)]
pub struct LogEntry {
    /// The seat that committed, 1 to 4.
    pub seat: u32,
    /// The stamp that the seat gave.
    pub stamp: u32,
    /// How many sheets the commit changed, 1 to 32.
    pub changes: u32,
    /// What it did to the sheet, if anything.
    pub action: Option<Action>,
}

/// A C log entry as an entry or a refusal.
pub fn logged(entry: ffi::LogEntry) -> Result<LogEntry, Refusal> {
    unless_refused(entry.refusal)?;
    let action = match entry.action {
        0 => None,
        1 => Some(Action::Add),
        2 => Some(Action::Change),
        3 => Some(Action::Delete),
        _ => Some(Action::Copy { sheet: entry.source_sheet, revision: entry.source_revision }),
    };
    Ok(LogEntry { seat: entry.seat, stamp: entry.stamp, changes: entry.changes, action })
}
