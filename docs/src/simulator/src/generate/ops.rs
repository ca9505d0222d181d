//! Operations as bytes b0 to b7, with the paper's names. Targets are 0 for A and
//! 1 for B.

use crate::generate::forms::Bytes;

/// An operation without any effect but its step: literal 0 to W0.
pub const IDLE: Bytes = [16, 0, 0, 0, 0, 0, 0, 0];
pub const END_EARLY: Bytes = [23, 0, 0, 0, 0, 0, 0, 0];
pub const CLEAR_S: Bytes = [25, 0, 0, 0, 0, 0, 0, 0];

/// b3 of an X read, b4 of a Y read: a pointer with its step by c, 0..6.
pub const fn stepped(pointer: u8, c: u8) -> u8 {
    pointer | c << 4
}

/// X at W8 + 2 and Y at W10 + 2, to W6 and W7; the write-back b6.
pub fn clr(target: u8, b6: u8) -> Bytes {
    [1, target, 0, 0x48, 0x4A, 0x76, b6, 0]
}

/// W4 x W5 alone.
pub fn mpy(target: u8) -> Bytes {
    [2, target, 0x54, 0, 0, 0, 0, 0]
}

pub fn mac(target: u8) -> Bytes {
    [3, target, 0x54, 0, 0, 0, 0, 0]
}

pub fn msc(target: u8) -> Bytes {
    [4, target, 0x54, 0, 0, 0, 0, 0]
}

/// W4 x W5 by kind 2, 3 or 4; X at W8 + 2 and Y at W10 + 2, to W4 and W5.
pub const fn multiply_and_read(kind: u8, target: u8) -> Bytes {
    [kind, target, 0x54, 0x48, 0x4A, 0x54, 0, 0]
}

/// W4 squared; X at W8 + 2 minus Y at W10 + 2 to W6.
pub fn ed(target: u8) -> Bytes {
    [5, target, 0x44, 0x48, 0x4A, 0x06, 0, 0]
}

pub fn edac(target: u8) -> Bytes {
    [6, target, 0x44, 0x48, 0x4A, 0x06, 0, 0]
}

/// No read; the write-back b6.
pub fn movsac(target: u8, b6: u8) -> Bytes {
    [7, target, 0, 0, 0, 0, b6, 0]
}

pub fn sum(target: u8) -> Bytes {
    [8, target, 0, 0, 0, 0, 0, 0]
}

pub fn subtract(target: u8) -> Bytes {
    [9, target, 0, 0, 0, 0, 0, 0]
}

pub fn negate(target: u8) -> Bytes {
    [10, target, 0, 0, 0, 0, 0, 0]
}

pub fn shift_by(target: u8, register: u8) -> Bytes {
    [11, target, 0, register, 0, 0, 0, 0]
}

/// Kinds 12 to 15.
pub fn scaled(kind: u8, target: u8, shift: i8, register: u8, form: u8) -> Bytes {
    [kind, target, (shift + 8) as u8, register, form, 0, 0, 0]
}

pub fn literal(register: u8, word: u16) -> Bytes {
    with_word(16, register, word)
}

pub fn load(register: u8, pointer: u8, form: u8) -> Bytes {
    [17, register, 0, pointer, form, 0, 0, 0]
}

pub fn store(register: u8, pointer: u8, form: u8) -> Bytes {
    [18, register, 0, pointer, form, 0, 0, 0]
}

pub fn repeat(count: u16) -> Bytes {
    with_word(19, 0, count)
}

pub fn repeat_by(register: u8) -> Bytes {
    [20, register, 0, 0, 0, 0, 0, 0]
}

pub fn do_to(count: u16, last: u16) -> Bytes {
    with_last(with_word(21, 0, count), last)
}

pub fn do_by(register: u8, last: u16) -> Bytes {
    with_last([22, register, 0, 0, 0, 0, 0, 0], last)
}

pub fn set_mode(word: u16) -> Bytes {
    with_word(24, 0, word)
}

fn with_word(kind: u8, b1: u8, word: u16) -> Bytes {
    let [low, high] = word.to_le_bytes();
    [kind, b1, low, high, 0, 0, 0, 0]
}

fn with_last(mut operation: Bytes, last: u16) -> Bytes {
    [operation[4], operation[5]] = last.to_le_bytes();
    operation
}

/// A plain access of kinds 12 to 15, 17, 18 through a pointer. Shift 0; A for
/// even pointers; W4 is loaded or stored.
pub fn access(kind: u8, pointer: u8, form: u8) -> Bytes {
    match kind {
        17 => load(4, pointer, form),
        18 => store(4, pointer, form),
        _ => scaled(kind, pointer % 2, 0, pointer, form),
    }
}

/// The kinds of plain accesses.
pub const ACCESSES: [u8; 6] = [12, 13, 14, 15, 17, 18];
