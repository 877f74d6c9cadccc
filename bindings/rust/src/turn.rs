//! The calls on a turn record.

use crate::{ffi, value, Refusal, Turn};

/// The holder that a call leaves, if any.
fn holder_left(answer: ffi::Answer) -> Result<Option<u32>, Refusal> {
    value(answer).map(seat)
}

/// A number of a record as a seat, 0 for none.
fn seat(number: u32) -> Option<u32> {
    (number != 0).then_some(number)
}

impl Turn {
    /// A free record: nobody holds the turn, nobody waits.
    pub const fn free() -> Self {
        Self::from_numbers([0; 4])
    }

    /// The seat that holds the turn, if any: the first number, unless it is 0.
    pub fn holder(self) -> Option<u32> {
        seat(self.numbers()[0])
    }

    /// The seats that wait, longest first: the other numbers up to a 0.
    pub fn waiting(self) -> impl Iterator<Item = u32> {
        self.numbers().into_iter().skip(1).map_while(seat)
    }

    /// A seat asks: it gets the turn if nobody holds it, otherwise it joins the end of those waiting. Nothing changes if it waits or holds the turn already. The
    /// answer is the holder that the call leaves. A seat that is not 1 to 4, and a record that is not in form, are refused with [`Refusal::Range`].
    pub fn ask(&mut self, seat: u32) -> Result<Option<u32>, Refusal> {
        // SAFETY: the pointer is that of a record that is lent for the call, here and in the calls below.
        holder_left(unsafe { ffi::sheets_turn_ask(self, seat) })
    }

    /// A seat gives back: if it holds the turn, the longest waiting seat gets it, if any; else nothing changes. The answer is the holder that the call leaves. A
    /// seat that is not 1 to 4, and a record that is not in form, are refused with [`Refusal::Range`].
    pub fn give(&mut self, seat: u32) -> Result<Option<u32>, Refusal> {
        holder_left(unsafe { ffi::sheets_turn_give(self, seat) })
    }

    /// The planner takes back: the longest waiting seat gets the turn, if any; nothing changes if nobody holds it. The answer is the holder that the call
    /// leaves. A record that is not in form is refused with [`Refusal::Range`].
    pub fn take(&mut self) -> Result<Option<u32>, Refusal> {
        holder_left(unsafe { ffi::sheets_turn_take(self) })
    }
}
