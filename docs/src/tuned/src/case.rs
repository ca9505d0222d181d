//! A case of CASES.md, short or long: its parts, and the start of a run.

use crate::address::Buffer;
use crate::flow::{Flow, Loop};
use crate::machine::{Machine, PLACES, REGISTERS};
use crate::mode::Mode;
use crate::operation::{operations, Operation};
use crate::settings::{Circular, Settings};

const HEADER: usize = 112;
const LONG_HEADER: usize = 320;
/// A case with this `what` and above is long.
const FIRST_LONG: u8 = 16;

pub struct Case<'a> {
    header: &'a [u8],
    /// The program file.
    pub file: &'a [u8],
    /// The words of memory, two bytes each.
    memory: &'a [u8],
}

/// The first case of a stream and what follows it, unless it breaks off.
pub fn first(stream: &[u8]) -> Option<(Case<'_>, &[u8])> {
    let is_long = *stream.get(HEADER - 1)? >= FIRST_LONG;
    let length = if is_long { LONG_HEADER } else { HEADER };
    let (header, rest) = stream.split_at_checked(length)?;
    let second = if is_long { long_at(header, 260) } else { 0 };
    let (file, rest) = rest.split_at_checked(long_at(header, 0) as usize)?;
    let (_, rest) = rest.split_at_checked(second as usize)?;
    let (memory, rest) = rest.split_at_checked(2 * long_at(header, 4) as usize)?;
    let case = Case {
        header,
        file,
        memory,
    };
    Some((case, rest))
}

impl Case<'_> {
    pub fn what(&self) -> u8 {
        self.header[HEADER - 1]
    }

    pub fn budget(&self) -> u32 {
        long_at(self.header, 8)
    }

    /// L, the words of the lent slice of a long case.
    pub fn lent_words(&self) -> u32 {
        long_at(self.header, 264)
    }

    /// The machine at the start of the run, and the operations.
    pub fn start(&self) -> (Machine, Vec<Operation>) {
        let header = self.header;
        let settings = self.settings();
        let operations = operations(self.file, &settings);
        let flag = |number: u32| (header[110] >> number) & 1 == 1;
        let machine = Machine {
            settings,
            mode: Mode::of(word_at(header, 108)),
            w: self.registers(),
            accumulators: [number_at(header, 60), number_at(header, 68)],
            overflow: [flag(0), flag(1)],
            saturated: [flag(2), flag(3)],
            flow: self.flow(&operations),
            steps: 0,
            memory: self.memory(),
        };
        (machine, operations)
    }

    fn settings(&self) -> Settings {
        let header = self.header;
        let traps = word_at(header, 14);
        let bit = |number: u32| (traps >> number) & 1 == 1;
        Settings {
            words: self.memory.len() / 2,
            x_words: usize::from(word_at(header, 12)),
            traps_limits_left: bit(8),
            traps_overflow: [bit(10), bit(9)],
            x: circular_at(header, 16),
            y: circular_at(header, 22),
            reversed: header[28],
            reversed_words: word_at(header, 30),
        }
    }

    fn registers(&self) -> [u16; REGISTERS] {
        let mut w = [0; REGISTERS];
        for (number, word) in w.iter_mut().take(14).enumerate() {
            *word = word_at(self.header, 32 + 2 * number);
        }
        w
    }

    fn flow(&self, operations: &[Operation]) -> Flow {
        let header = self.header;
        let active = usize::from(header[78]);
        let mut loops = [Loop::default(); 4];
        for (number, slot) in loops.iter_mut().take(active).enumerate() {
            let do_number = word_at(header, 80 + 2 * number);
            *slot = Loop {
                do_number,
                last: operations[usize::from(do_number)].last,
                passes: long_at(header, 88 + 4 * number),
            };
        }
        Flow {
            pc: usize::from(word_at(header, 76)),
            active,
            loops,
            repeat: long_at(header, 104),
        }
    }

    fn memory(&self) -> Box<[u16; PLACES]> {
        let mut memory = vec![0; PLACES];
        for (word, two) in memory.iter_mut().zip(self.memory.chunks_exact(2)) {
            *word = word_at(two, 0);
        }
        memory.try_into().expect("all places")
    }
}

fn circular_at(header: &[u8], at: usize) -> Circular {
    Circular {
        register: header[at],
        buffer: Buffer::new(word_at(header, at + 2), word_at(header, at + 4)),
    }
}

/// Two bytes, low byte first.
fn word_at(bytes: &[u8], at: usize) -> u16 {
    u16::from_le_bytes([bytes[at], bytes[at + 1]])
}

/// Four bytes, low byte first.
fn long_at(bytes: &[u8], at: usize) -> u32 {
    u32::from(word_at(bytes, at)) | u32::from(word_at(bytes, at + 2)) << 16
}

/// Eight bytes, low byte first, two's complement.
fn number_at(bytes: &[u8], at: usize) -> i64 {
    let bits = u64::from(long_at(bytes, at)) | u64::from(long_at(bytes, at + 4)) << 32;
    bits as i64
}
