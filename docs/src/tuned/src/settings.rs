//! Settings of a run, taken apart.

use crate::address::Buffer;

/// A register with its circular buffer; 15 is no register.
pub struct Circular {
    pub register: u8,
    pub buffer: Buffer,
}

impl Circular {
    /// The buffer in which a register's steps are corrected.
    pub fn of(&self, register: u8) -> Buffer {
        if register == self.register {
            self.buffer
        } else {
            Buffer::NONE
        }
    }
}

pub struct Settings {
    /// Words of memory.
    pub words: usize,
    /// Words of the X part; the rest is Y's.
    pub x_words: usize,
    /// COVTE.
    pub traps_limits_left: bool,
    /// OVATE and OVBTE.
    pub traps_overflow: [bool; 2],
    pub x: Circular,
    pub y: Circular,
    /// The bit-reversed register, and its N words; 15 is none.
    pub reversed: u8,
    pub reversed_words: u16,
}
