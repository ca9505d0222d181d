//! The machine: its state, settings, memory and steps.

use crate::flow::Flow;
use crate::mode::Mode;
use crate::settings::Settings;

/// A register for every byte and a word for every number of 16 bits, so that no index
/// needs a test; operations reach W0..W13 and the words of memory.
pub const REGISTERS: usize = 256;
pub const PLACES: usize = 65_536;

pub struct Machine {
    pub settings: Settings,
    pub mode: Mode,
    pub w: [u16; REGISTERS],
    /// A and B.
    pub accumulators: [i64; 2],
    /// OA and OB.
    pub overflow: [bool; 2],
    /// SA and SB.
    pub saturated: [bool; 2],
    pub flow: Flow,
    pub steps: u32,
    pub memory: Box<[u16; PLACES]>,
}

impl Machine {
    #[inline(always)]
    pub fn register(&self, number: u8) -> u16 {
        self.w[usize::from(number)]
    }

    #[inline(always)]
    pub fn set_register(&mut self, number: u8, word: u16) {
        self.w[usize::from(number)] = word;
    }
}

/// The traps by their numbers.
#[derive(Clone, Copy, PartialEq, Eq, PartialOrd, Ord)]
pub enum Trap {
    OddAddress = 1,
    OutsideRegion,
    ShiftTooFar,
    FourLoopsActive,
    LimitsLeft,
    OverflowA,
    OverflowB,
}

impl Trap {
    /// Traps 1 to 4 leave no effect and no step; after 5 to 7 the step is complete.
    #[inline(always)]
    pub fn is_without_effect(self) -> bool {
        self <= Trap::FourLoopsActive
    }
}

/// How a step ends.
pub type Step = Result<(), Trap>;

/// Whether a step is complete.
#[inline(always)]
pub fn is_complete(step: Step) -> bool {
    !matches!(step, Err(trap) if trap.is_without_effect())
}
