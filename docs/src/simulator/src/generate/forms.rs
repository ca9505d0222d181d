//! Every kind in every form it has: operations as bytes, all of them good.

use super::tiny::IDLE;
use crate::decode::LENGTH;
use crate::encode::encode;

/// An operation's bytes b0 to b7.
pub type Bytes = [u8; LENGTH];

/// Literal counts of REPEAT and DO, each byte at its ends.
const COUNTS: [u16; 5] = [0, 1, 0x00FF, 0x0100, 0x7FFF];
const LITERALS: [u16; 7] = [0, 1, 0x00FF, 0x0100, 0x7FFF, 0x8000, 0xFFFF];

/// Operations of one kind in all its forms, with idle ones where REPEAT and DO
/// need them. They stand well as a program.
pub fn forms(kind: u8) -> Vec<Bytes> {
    match kind {
        1..=4 | 7 => multiplies(kind),
        5 | 6 => squares(kind),
        8..=10 => (0..2).map(|b1| with_b1(kind, b1)).collect(),
        11 => shifts(),
        12..=15 => scaled(kind),
        16 => literals(),
        17 | 18 => moves(kind),
        19 | 20 => repeats(kind),
        21 | 22 => loops(kind),
        24 => modes(),
        _ => vec![with_b1(kind, 0)],
    }
}

fn with_b1(kind: u8, b1: u8) -> Bytes {
    [kind, b1, 0, 0, 0, 0, 0, 0]
}

fn with_word(kind: u8, b1: u8, word: u16) -> Bytes {
    let [low, high] = word.to_le_bytes();
    [kind, b1, low, high, 0, 0, 0, 0]
}

/// The 15 bytes of a read: two pointers with seven steps each, and the sum.
pub fn reads(pointers: [u8; 2], indexed: u8) -> Vec<u8> {
    let steps = |pointer| (0..7).map(move |c| pointer | c << 4);
    pointers
        .into_iter()
        .flat_map(steps)
        .chain([indexed])
        .collect()
}

/// b3, b4, b5 without a read, with each X read alone, each Y read alone, and
/// each X read with two Y reads; both reads go to each two registers.
fn prefetches() -> Vec<[u8; 3]> {
    let (x, y) = (reads([8, 9], 0x0C), reads([10, 11], 0x0D));
    let mut all = vec![[0, 0, 0]];
    for i in 0..15 {
        let data = |offset: usize| 4 + ((i + offset) % 4) as u8;
        all.push([x[i], 0, data(0)]);
        all.push([0, y[i], data(0) << 4]);
        for (other, offset) in [(i, 1), (i + 7, 2 + i / 4 % 2)] {
            all.push([x[i], y[other % 15], data(0) | data(offset) << 4]);
        }
    }
    all
}

fn multiplies(kind: u8) -> Vec<Bytes> {
    let form = |(i, [b3, b4, b5]): (u8, [u8; 3])| {
        let factors = (4 + i % 4) | (4 + i / 4 % 4) << 4;
        let b2 = if kind == 1 || kind == 7 { 0 } else { factors };
        let b6 = if kind == 2 { 0 } else { i % 3 };
        [kind, i / 16 % 2, b2, b3, b4, b5, b6, 0]
    };
    (0..).zip(prefetches()).map(form).collect()
}

fn squares(kind: u8) -> Vec<Bytes> {
    let both = prefetches().into_iter().filter(|b| b[0] != 0 && b[1] != 0);
    let form = |(i, [b3, b4, b5]): (u8, [u8; 3])| {
        let b2 = 0x11 * (4 + i % 4);
        [kind, i / 4 % 2, b2, b3, b4, b5 & 15, 0, 0]
    };
    (0..).zip(both).map(form).collect()
}

fn shifts() -> Vec<Bytes> {
    let form = |i: u8| [11, i % 2, 0, i / 2, 0, 0, 0, 0];
    (0..28).map(form).collect()
}

/// Every register in every operand form; every shift and target among them.
fn scaled(kind: u8) -> Vec<Bytes> {
    let form = |i: u8| {
        let (register, form) = (i / 4, i % 4);
        let b2 = (5 * register + form) % 16;
        [kind, (register + form) % 2, b2, register, form, 0, 0, 0]
    };
    (0..56).map(form).collect()
}

/// Two literals for each register.
fn literals() -> Vec<Bytes> {
    let form = |i: u8| with_word(16, i / 2, LITERALS[usize::from(i % 7)]);
    (0..28).map(form).collect()
}

/// Every register and every pointer in every form.
fn moves(kind: u8) -> Vec<Bytes> {
    let form = |i: u8| {
        let (register, form) = (i / 3, i % 3 + 1);
        [kind, register, 0, (register + i % 3) % 14, form, 0, 0, 0]
    };
    (0..42).map(form).collect()
}

/// REPEATs or DOs with their counts or registers, DO's last not yet set.
fn heads(kind: u8) -> Vec<Bytes> {
    if kind == 19 || kind == 21 {
        COUNTS.map(|count| with_word(kind, 0, count)).to_vec()
    } else {
        (0..14).map(|register| with_b1(kind, register)).collect()
    }
}

fn repeats(kind: u8) -> Vec<Bytes> {
    let repeat = |head| [head, encode(&IDLE)];
    heads(kind).into_iter().flat_map(repeat).collect()
}

/// DOs one after the other, each with a body of two.
fn loops(kind: u8) -> Vec<Bytes> {
    let body = encode(&IDLE);
    let around = |(i, mut head): (u8, Bytes)| {
        head[4] = 3 * i + 2;
        [head, body, body]
    };
    (0..).zip(heads(kind)).flat_map(around).collect()
}

/// All 128 good mode words.
fn modes() -> Vec<Bytes> {
    (0..128).map(|i| with_word(24, 0, mode_word(i))).collect()
}

/// A good mode word by its number, 0..127: bits 0, 1, 4 to 7 and 12 in any way.
pub fn mode_word(number: u16) -> u16 {
    (number & 3) | (number >> 2 & 15) << 4 | (number >> 6) << 12
}
