//! How a run ends.

use std::fmt;

/// The traps with their numbers ("Stepping and ending").
#[derive(Clone, Copy, Debug, PartialEq, Eq, PartialOrd, Ord)]
pub enum Trap {
    OddAddress = 1,
    OutsideRegion = 2,
    ShiftTooFar = 3,
    FourLoopsActive = 4,
    LimitsLeft = 5,
    OverflowA = 6,
    OverflowB = 7,
}

impl Trap {
    pub fn number(self) -> u8 {
        self as u8
    }
}

#[derive(Clone, Copy, Debug, PartialEq, Eq, PartialOrd, Ord)]
pub enum Ending {
    Done,
    Spent,
    Trap(Trap),
    /// The number of the refusal: a run's is 1 to 7 of the table of "Program file", a
    /// decoded run's 1 to 8.
    Refused(u8),
}

impl Ending {
    /// The code of a bag's ending; a refusal has none.
    pub fn code(self) -> Option<u8> {
        match self {
            Ending::Done => Some(0x00),
            Ending::Spent => Some(0x10),
            Ending::Trap(trap) => Some(0x20 + trap.number()),
            Ending::Refused(_) => None,
        }
    }
}

impl fmt::Display for Ending {
    fn fmt(&self, f: &mut fmt::Formatter) -> fmt::Result {
        match self {
            Ending::Done => write!(f, "done"),
            Ending::Spent => write!(f, "spent"),
            Ending::Trap(trap) => write!(f, "trap{}", trap.number()),
            Ending::Refused(number) => write!(f, "refused{number}"),
        }
    }
}
