//! The operand of kinds 12 to 15, and the pointers of kinds 17 and 18: traps
//! are found and new pointers worked out here from the old registers, before
//! anything changes.

use crate::address::{step_outside_y, step_up_after_store, ByteAddress, WordIndex};
use crate::ending::Trap;
use crate::memory::Memory;
use crate::operation::{Change, Operand, Register};
use crate::settings::Settings;

/// A pointer with its new value.
#[derive(Clone, Copy, Debug, PartialEq, Eq)]
pub struct Moved {
    pub pointer: Register,
    pub to: u16,
}

impl Moved {
    pub fn land(self, w: &mut [u16; 14]) {
        w[usize::from(self.pointer)] = self.to;
    }
}

/// A word that was read, and the pointer change that goes with it.
#[derive(Clone, Copy, Debug, PartialEq, Eq)]
pub struct Fetched {
    pub word: u16,
    pub moved: Option<Moved>,
}

/// Where a word is stored.
#[derive(Clone, Copy, Debug, PartialEq, Eq)]
pub enum Place {
    Register(Register),
    Memory(WordIndex),
}

impl Place {
    pub fn put(self, word: u16, w: &mut [u16; 14], memory: &mut Memory) {
        match self {
            Place::Register(register) => w[usize::from(register)] = word,
            Place::Memory(index) => memory.put(index, word),
        }
    }
}

/// A checked place and the pointer change that goes with it.
#[derive(Clone, Copy, Debug, PartialEq, Eq)]
pub struct Destination {
    pub place: Place,
    pub moved: Option<Moved>,
}

impl Destination {
    /// Store the word, then change the pointer.
    pub fn store(self, word: u16, w: &mut [u16; 14], memory: &mut Memory) {
        self.place.put(word, w, memory);
        if let Some(moved) = self.moved {
            moved.land(w);
        }
    }
}

/// The word of LAC's or ADD's operand.
pub fn fetch(
    operand: Operand,
    w: &[u16; 14],
    settings: &Settings,
    memory: &Memory,
) -> Result<Fetched, Trap> {
    match operand {
        Operand::Register(register) => Ok(Fetched {
            word: w[usize::from(register)],
            moved: None,
        }),
        Operand::Memory { pointer, change } => fetch_at(pointer, change, w, settings, memory),
    }
}

/// A plain read at a pointer (kinds 12, 13, 17), anywhere in memory.
pub fn fetch_at(
    pointer: Register,
    change: Change,
    w: &[u16; 14],
    settings: &Settings,
    memory: &Memory,
) -> Result<Fetched, Trap> {
    let old = w[usize::from(pointer)];
    let word = memory.read(ByteAddress(old))?;
    let to = match change {
        Change::Stay => old,
        Change::Up => step_outside_y(settings, pointer, old, 2),
        Change::Down => step_outside_y(settings, pointer, old, -2),
    };
    let moved = Some(Moved { pointer, to });
    Ok(Fetched { word, moved })
}

/// The place of SAC's or SAC.R's operand.
pub fn destination(
    operand: Operand,
    w: &[u16; 14],
    settings: &Settings,
    memory: &Memory,
) -> Result<Destination, Trap> {
    match operand {
        Operand::Register(register) => Ok(Destination {
            place: Place::Register(register),
            moved: None,
        }),
        Operand::Memory { pointer, change } => destination_at(pointer, change, w, settings, memory),
    }
}

/// A store's place at a pointer (kinds 14, 15, 18); form 2 is the one that the
/// bit-reversed register changes.
pub fn destination_at(
    pointer: Register,
    change: Change,
    w: &[u16; 14],
    settings: &Settings,
    memory: &Memory,
) -> Result<Destination, Trap> {
    let old = w[usize::from(pointer)];
    let place = Place::Memory(memory.place(ByteAddress(old))?);
    let to = match change {
        Change::Stay => old,
        Change::Up => step_up_after_store(settings, pointer, old),
        Change::Down => step_outside_y(settings, pointer, old, -2),
    };
    let moved = Some(Moved { pointer, to });
    Ok(Destination { place, moved })
}
