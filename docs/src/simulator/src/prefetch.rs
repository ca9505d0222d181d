//! The X and Y reads of kinds 1 to 7, from the old registers.

use crate::address::{step_in_y, step_outside_y, ByteAddress};
use crate::ending::Trap;
use crate::memory::Memory;
use crate::operand::{Fetched, Moved};
use crate::operation::{Difference, Prefetch, Read, ReadAddress, Register};
use crate::settings::Settings;

/// Words on their way to registers, and the pointers to change.
#[derive(Clone, Copy, Debug, PartialEq, Eq)]
pub struct Arrivals {
    words: [Option<(Register, u16)>; 2],
    moved: [Option<Moved>; 2],
}

impl Arrivals {
    /// Pointers first, so that a loaded word beats a pointer change.
    pub fn land(&self, w: &mut [u16; 14]) {
        for moved in self.moved.iter().flatten() {
            moved.land(w);
        }
        for &(register, word) in self.words.iter().flatten() {
            w[usize::from(register)] = word;
        }
    }
}

/// Which of the two reads: they differ in the sum of registers, the part of
/// memory and the circular buffer.
#[derive(Clone, Copy)]
enum Side {
    X,
    Y,
}

impl Side {
    /// W9 + W12 or W11 + W13, never corrected.
    fn sum(self, w: &[u16; 14]) -> u16 {
        match self {
            Side::X => w[9].wrapping_add(w[12]),
            Side::Y => w[11].wrapping_add(w[13]),
        }
    }

    /// X reads fall in the first part, Y reads in the rest.
    fn word(self, memory: &Memory, address: u16) -> Result<u16, Trap> {
        match self {
            Side::X => memory.read_x(ByteAddress(address)),
            Side::Y => memory.read_y(ByteAddress(address)),
        }
    }

    fn step(self, settings: &Settings, pointer: Register, old: u16, step: i16) -> u16 {
        match self {
            Side::X => step_outside_y(settings, pointer, old, step),
            Side::Y => step_in_y(settings, pointer, old, step),
        }
    }
}

/// A read: at the sum of two registers, or at a pointer that is then stepped.
fn read(
    side: Side,
    from: ReadAddress,
    w: &[u16; 14],
    settings: &Settings,
    memory: &Memory,
) -> Result<Fetched, Trap> {
    match from {
        ReadAddress::Indexed => {
            let word = side.word(memory, side.sum(w))?;
            Ok(Fetched { word, moved: None })
        }
        ReadAddress::Stepped { pointer, step } => {
            let old = w[usize::from(pointer)];
            let word = side.word(memory, old)?;
            let to = side.step(settings, pointer, old, step);
            let moved = Some(Moved { pointer, to });
            Ok(Fetched { word, moved })
        }
    }
}

/// The reads of kinds 1 to 4 and 7: X's traps before Y's.
pub fn fetch(
    prefetch: Prefetch,
    w: &[u16; 14],
    settings: &Settings,
    memory: &Memory,
) -> Result<Arrivals, Trap> {
    let mut arrivals = Arrivals {
        words: [None; 2],
        moved: [None; 2],
    };
    let sides = [(Side::X, prefetch.x), (Side::Y, prefetch.y)];
    for (place, (side, wanted)) in sides.into_iter().enumerate() {
        if let Some(Read { from, destination }) = wanted {
            let fetched = read(side, from, w, settings, memory)?;
            arrivals.words[place] = Some((destination, fetched.word));
            arrivals.moved[place] = fetched.moved;
        }
    }
    Ok(arrivals)
}

/// The reads of kinds 5 and 6: X word minus Y word, reduced to 16 bits.
pub fn fetch_difference(
    difference: Difference,
    w: &[u16; 14],
    settings: &Settings,
    memory: &Memory,
) -> Result<Arrivals, Trap> {
    let x = read(Side::X, difference.x, w, settings, memory)?;
    let y = read(Side::Y, difference.y, w, settings, memory)?;
    let word = x.word.wrapping_sub(y.word);
    Ok(Arrivals {
        words: [Some((difference.destination, word)), None],
        moved: [x.moved, y.moved],
    })
}
