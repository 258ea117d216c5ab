//! Why a call was refused: one cause and one place.

use std::fmt;

/// The causes in the order of their numbers.
#[derive(Clone, Copy, Debug, PartialEq, Eq, PartialOrd, Ord)]
#[repr(u8)]
pub enum Cause {
    TableLengths = 1,
    QuadCount,
    PointCount,
    NoPoint,
    NoEdge,
    NoMark,
    FriendDirection,
    NoStart,
    Walk,
    Unmet,
    InWork,
    NoLevel,
    TooManyQuads,
    TooFewWords,
    NotInWork,
    OutOfRange,
    StrangeSlip,
    TaskLeft,
    ValueLength,
    PastLimit,
    Line,
    Room,
}

impl Cause {
    pub fn number(self) -> u32 {
        self as u32
    }

    pub fn at(self, place: usize) -> Refusal {
        Refusal { cause: self, place }
    }

    /// A refusal without a place of its own.
    pub fn plain(self) -> Refusal {
        self.at(0)
    }
}

#[derive(Clone, Copy, Debug, PartialEq, Eq)]
pub struct Refusal {
    pub cause: Cause,
    pub place: usize,
}

impl Refusal {
    pub fn number(&self) -> u32 {
        self.cause.number()
    }

    /// The line that answers with this refusal.
    pub fn frame(&self) -> String {
        format!("ff {:x} {:x}\n", self.number(), self.place)
    }
}

impl fmt::Display for Refusal {
    fn fmt(&self, f: &mut fmt::Formatter<'_>) -> fmt::Result {
        write!(f, "refusal {} at {} ({:?})", self.number(), self.place, self.cause)
    }
}

impl std::error::Error for Refusal {}

/// `Err` if there is a place.
pub(crate) fn refuse_at(cause: Cause, place: Option<usize>) -> Result<(), Refusal> {
    place.map_or(Ok(()), |p| Err(cause.at(p)))
}

/// `Err` without a place if the test holds.
pub(crate) fn refuse_if(cause: Cause, holds: bool) -> Result<(), Refusal> {
    if holds { Err(cause.plain()) } else { Ok(()) }
}

#[cfg(test)]
mod tests {
    use super::*;

    #[test]
    fn frames_are_hexadecimal() {
        assert_eq!(Cause::Line.at(3).frame(), "ff 15 3\n");
        assert_eq!(Cause::Room.plain().frame(), "ff 16 0\n");
        assert_eq!(Cause::Unmet.at(0x1f).frame(), "ff a 1f\n");
    }
}
