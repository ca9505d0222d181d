//! Operations decoded once, with all that the settings decide about them.

use crate::address::Buffer;
use crate::settings::{Circular, Settings};

/// Whether and where a prefetch reads.
#[derive(Clone, Copy, PartialEq, Eq)]
pub enum Read {
    No,
    /// At a pointer that is then stepped.
    Stepped,
    /// At W9 + W12 or W11 + W13.
    Indexed,
}

/// X's or Y's read of kinds 1 to 7.
#[derive(Clone, Copy)]
pub struct Prefetch {
    pub read: Read,
    pub pointer: u8,
    pub destination: u8,
    pub step: i16,
    pub buffer: Buffer,
}

/// Where kinds 1, 3, 4 and 7 write the other accumulator back.
#[derive(Clone, Copy, PartialEq, Eq)]
pub enum WriteBack {
    No,
    Register,
    Memory,
}

/// What kinds 12 to 15, 17 and 18 do with their operand.
#[derive(Clone, Copy, PartialEq, Eq)]
pub enum Form {
    Direct,
    Memory,
    ThenUp,
    ThenDown,
    /// Then the next bit-reversed address.
    ThenReversed,
}

#[derive(Clone, Copy)]
pub struct Operation {
    /// What is executed: the kind, `PLAIN` more for a plain one of kinds 1 to 7.
    pub code: u8,
    pub kind: u8,
    /// b1, a target or a register.
    pub register: u8,
    /// The factors of kinds 2 to 6.
    pub m: u8,
    pub n: u8,
    pub x: Prefetch,
    pub y: Prefetch,
    pub write_back: WriteBack,
    /// b3, the register or pointer from kind 11 on.
    pub operand: u8,
    pub form: Form,
    /// The buffer of the operand, or of W13 in kinds 1 to 7.
    pub buffer: Buffer,
    pub shift: i16,
    /// The number in b2-3.
    pub number: u16,
    /// The number in b4-5, a loop's last operation.
    pub last: u16,
}

/// Plain are kinds 1 to 7 with two stepped reads and no write-back.
pub const PLAIN: u8 = 32;

impl Operation {
    /// 0 for A, 1 for B.
    #[inline(always)]
    pub fn target(&self) -> usize {
        usize::from(self.register & 1)
    }
}

/// The operations of a program file.
pub fn operations(file: &[u8], settings: &Settings) -> Vec<Operation> {
    let all = operation_bytes(file);
    all.map(|bytes| decoded(bytes, settings)).collect()
}

/// The bytes of a file's operations, 8 each.
pub fn operation_bytes(file: &[u8]) -> impl Iterator<Item = &[u8]> {
    let blocks = file.chunks_exact(512);
    blocks.flat_map(|block| block[8..].chunks_exact(8).take(usize::from(block[2])))
}

fn decoded(bytes: &[u8], settings: &Settings) -> Operation {
    let kind = bytes[0];
    let multiplies = kind <= 7;
    let x = prefetch(bytes[3], 12, bytes[5] & 15, &settings.x);
    let y = prefetch(bytes[4], 13, bytes[5] >> 4, &settings.y);
    let is_plain = x.read == Read::Stepped && y.read == Read::Stepped && bytes[6] == 0;
    Operation {
        code: kind + if multiplies && is_plain { PLAIN } else { 0 },
        kind,
        register: bytes[1],
        m: bytes[2] & 15,
        n: bytes[2] >> 4,
        x,
        y,
        write_back: write_back(bytes[6]),
        operand: bytes[3],
        form: form(bytes, settings),
        buffer: settings.x.of(if multiplies { 13 } else { bytes[3] }),
        shift: i16::from(bytes[2]) - 8,
        number: u16::from_le_bytes([bytes[2], bytes[3]]),
        last: u16::from_le_bytes([bytes[4], bytes[5]]),
    }
}

/// The prefetch of a byte b3 or b4, of which `indexed` means the sum of registers.
fn prefetch(byte: u8, indexed: u8, destination: u8, circular: &Circular) -> Prefetch {
    let pointer = byte & 15;
    Prefetch {
        read: match byte {
            0 => Read::No,
            _ if pointer == indexed => Read::Indexed,
            _ => Read::Stepped,
        },
        pointer,
        destination,
        step: 2 * (i16::from(byte >> 4) - 3),
        buffer: circular.of(pointer),
    }
}

fn write_back(byte: u8) -> WriteBack {
    match byte {
        0 => WriteBack::No,
        1 => WriteBack::Register,
        _ => WriteBack::Memory,
    }
}

/// The form in b4; the bit-reversed register counts in kinds 14, 15 and 18.
fn form(bytes: &[u8], settings: &Settings) -> Form {
    let is_reversed = bytes[3] == settings.reversed && matches!(bytes[0], 14 | 15 | 18);
    match bytes[4] {
        0 => Form::Direct,
        1 => Form::Memory,
        2 if is_reversed => Form::ThenReversed,
        2 => Form::ThenUp,
        _ => Form::ThenDown,
    }
}
