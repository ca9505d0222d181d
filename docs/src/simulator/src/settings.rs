//! Settings of a run and refusal 6.

use crate::address::BASE;

/// A circular buffer: register, first byte S, last byte E; register 15 is none.
#[derive(Clone, Copy, Debug, PartialEq, Eq)]
pub struct Circular {
    pub register: u8,
    pub start: u16,
    pub end: u16,
}

impl Circular {
    pub const NONE: Circular = Circular {
        register: 15,
        start: 0,
        end: 0,
    };
}

/// The bit-reversed register and its N words; register 15 is none.
#[derive(Clone, Copy, Debug, PartialEq, Eq)]
pub struct BitReversed {
    pub register: u8,
    pub words: u16,
}

impl BitReversed {
    pub const NONE: BitReversed = BitReversed {
        register: 15,
        words: 0,
    };
}

#[derive(Clone, Copy, Debug, PartialEq, Eq)]
pub struct Settings {
    /// Words of the X part; the rest is Y's.
    pub x_words: u16,
    pub trap_word: u16,
    pub x: Circular,
    pub y: Circular,
    pub reversed: BitReversed,
}

impl Settings {
    /// No correction and no trap word.
    pub fn plain(x_words: u16) -> Settings {
        Settings {
            x_words,
            trap_word: 0,
            x: Circular::NONE,
            y: Circular::NONE,
            reversed: BitReversed::NONE,
        }
    }

    /// Trap word bit 10.
    pub fn traps_overflow_a(&self) -> bool {
        (self.trap_word >> 10) & 1 == 1
    }

    /// Trap word bit 9.
    pub fn traps_overflow_b(&self) -> bool {
        (self.trap_word >> 9) & 1 == 1
    }

    /// Trap word bit 8.
    pub fn traps_limits_left(&self) -> bool {
        (self.trap_word >> 8) & 1 == 1
    }

    /// Whether refusal 6 is not given, with that many words of memory.
    pub fn are_accepted(&self, words: usize) -> bool {
        let x_words = usize::from(self.x_words);
        (2..=30_720).contains(&words)
            && (1..words).contains(&x_words)
            && self.trap_word & !0x0700 == 0
            && circular_is_good(&self.x, 0..=13, 0, words)
            && circular_is_good(&self.y, 10..=11, x_words, words)
            && self.reversed_is_good()
    }

    fn reversed_is_good(&self) -> bool {
        let BitReversed { register, words } = self.reversed;
        match register {
            15 => words == 0,
            0..=13 => {
                register != self.x.register
                    && words.is_power_of_two()
                    && (2..=1_024).contains(&words)
            }
            _ => false,
        }
    }
}

/// S even, E odd, E - S at least 5, within words `first` up to `end`.
fn circular_is_good(
    buffer: &Circular,
    registers: std::ops::RangeInclusive<u8>,
    first: usize,
    end: usize,
) -> bool {
    let (low, high) = (usize::from(buffer.start), usize::from(buffer.end));
    if buffer.register == 15 {
        return low == 0 && high == 0;
    }
    let base = usize::from(BASE);
    registers.contains(&buffer.register)
        && low % 2 == 0
        && high % 2 == 1
        && high >= low + 5
        && low >= base + 2 * first
        && high < base + 2 * end
}
