//! Every kind in every form. Mode words, accumulators and flags take turns, so
//! that each setting meets many forms; all of these steps are complete.

use crate::generate::bench::Bench;
use crate::generate::forms::{mode_word, reads, Bytes};
use crate::generate::ops::*;

/// Accumulators by turns: small, within 32 bits, beyond them.
const A: [i64; 5] = [
    305_419_896,
    -81_985_530,
    19_088_743_041,
    -1_000_003,
    -300_000_123_457,
];
const B: [i64; 7] = [
    -1_164_413_356,
    2_000_000_011,
    98_304,
    -7_777_777_777,
    32_768,
    -2_147_450_881,
    123_456_789_012,
];
/// Words for a direct operand and counts for REPEAT and DO, by turns.
const WORDS: [u16; 7] = [0x7FFF, 0x8000, 0x0001, 0xFFFF, 0x4A3B, 0xB4C5, 0x0000];
const COUNTS: [u16; 7] = [0x0000, 0xFFFF, 0x0001, 0x8000, 0x7FFF, 0x4003, 0xC000];
/// Kind 11's shifts.
const SHIFTS: [i16; 17] = [
    -16, -15, -9, -8, -7, -3, -2, -1, 0, 1, 2, 7, 8, 9, 14, 15, 16,
];

pub fn cases() -> Vec<Bench> {
    let mut all = Vec::new();
    for kind in [1, 2, 3, 4, 7] {
        all.extend((0..20).map(|i| prefetching(kind, i)));
    }
    all.extend((0..15).map(|i| square(5, i)));
    all.extend((0..15).map(|i| square(6, i)));
    for kind in 8..=10 {
        all.extend((0..4).map(|i| of_both(kind, i)));
    }
    all.extend(shifts());
    for kind in 12..=15 {
        all.extend((0..20).map(|i| operand(kind, i)));
    }
    all.extend((0..14).map(|i| turn(i, literal(i as u8, 0x1235 * (i as u16 + 1)))));
    for kind in [17, 18] {
        all.extend((0..18).map(|i| moved(kind, i)));
    }
    all.extend(repeats());
    all.extend(loops());
    all.extend(controls());
    all
}

/// The operation between idle ones, its place, the mode word, the accumulators
/// and the flags by turns.
fn turn(i: usize, operation: Bytes) -> Bench {
    let mut program = vec![IDLE; i % 3];
    program.extend([operation, IDLE, IDLE, IDLE]);
    let mode = mode_word((37 * i + 11) as u16 % 128);
    Bench::of(&program)
        .at(i as u16 % 3)
        .both(A[i % 5], B[i % 7])
        .mode(mode)
        .flags((i * 7 / 2 % 16) as u8)
}

/// No read, then the 15 that there are.
fn with_none(reads: Vec<u8>) -> Vec<u8> {
    [vec![0], reads].concat()
}

/// Every X read and every Y read of a kind, in pairs that differ from kind to
/// kind; write-back and target by turns.
fn prefetching(kind: u8, i: usize) -> Bench {
    let own = usize::from(kind);
    let (x, y) = (reads([8, 9], 0x0C), reads([10, 11], 0x0D));
    let b3 = with_none(x)[i % 16];
    let b4 = with_none(y)[(i + i / 16 * 6 + own) % 16];
    let data = |offset: usize| 4 + ((i + offset) % 4) as u8;
    let x_data = if b3 == 0 { 0 } else { data(0) };
    let y_data = if b4 == 0 { 0 } else { data(1 + i % 3) << 4 };
    let b2 = match kind {
        1 | 7 => 0,
        _ => data(i / 4) | data(2 + i / 5) << 4,
    };
    let b6 = match kind {
        2 => 0,
        _ => ((i + own / 2) % 3) as u8,
    };
    let target = (i / 3 % 2) as u8;
    let bench = turn(
        i + 24 * own,
        [kind, target, b2, b3, b4, x_data | y_data, b6, 0],
    );
    sums(bench, own % 2 == 0, b3 == 0x0C, b4 == 0x0D, b6 == 2)
}

/// Registers for W9 + W12 = 100A and W11 + W13 = 101A hex; `past` 65,536 where
/// the write-back does not need W13 as an address.
fn sums(bench: Bench, past: bool, x: bool, y: bool, writes: bool) -> Bench {
    let bench = match (x, past) {
        (true, true) => bench.w(9, 0xF004).w(12, 0x2006),
        _ => bench,
    };
    match (y, past && !writes) {
        (true, true) => bench.w(11, 0xF00E).w(13, 0x200C),
        (true, false) => bench.w(11, 0x000E),
        _ => bench,
    }
}

fn square(kind: u8, i: usize) -> Bench {
    let b3 = reads([8, 9], 0x0C)[i];
    let b4 = reads([10, 11], 0x0D)[(2 * i + usize::from(kind)) % 15];
    let b2 = 0x11 * (4 + i as u8 % 4);
    let destination = 4 + (i as u8 / 2) % 4;
    let bytes = [kind, i as u8 % 2, b2, b3, b4, destination, 0, 0];
    let bench = turn(i + 15 * usize::from(kind), bytes);
    sums(bench, kind == 6, b3 == 0x0C, b4 == 0x0D, false)
}

/// Kinds 8 to 10: each target with a mode word and with all its bits turned.
fn of_both(kind: u8, i: usize) -> Bench {
    let turned = 127 * (i / 2 % 2) as u16;
    let number = ((37 * u16::from(kind) + 11) % 128) ^ turned;
    let bench = turn(
        3 * i + usize::from(kind),
        [kind, i as u8 % 2, 0, 0, 0, 0, 0, 0],
    );
    bench.mode(mode_word(number))
}

/// Every register, shifts from -16 to 16.
fn shifts() -> Vec<Bench> {
    let case = |(i, by): (usize, i16)| {
        let register = (5 * i % 14) as u8;
        turn(i, shift_by(i as u8 % 2, register)).w(register, by as u16)
    };
    SHIFTS.into_iter().enumerate().map(case).collect()
}

/// Every shift, over the four kinds with every form; registers by turns.
fn operand(kind: u8, i: usize) -> Bench {
    let shift = if i < 16 { i as i8 } else { 5 * (i as i8 - 16) } - 8;
    let form = ((i + i / 16 * 2 + usize::from(kind)) % 4) as u8;
    let register = ((3 * i + usize::from(kind)) % 14) as u8;
    let word = match form {
        0 => WORDS[i % 7],
        _ => 0x1000 + 2 * (5 * i as u16 % 16),
    };
    let target = (i / 2 % 2) as u8;
    turn(
        i + 24 * usize::from(kind),
        scaled(kind, target, shift, register, form),
    )
    .w(register, word)
}

/// Loads and stores, every register and every pointer.
fn moved(kind: u8, i: usize) -> Bench {
    let (register, pointer) = ((i % 14) as u8, ((3 * i + 4) % 14) as u8);
    let address = 0x1000 + 2 * (7 * i as u16 % 16);
    turn(i, [kind, register, 0, pointer, 1 + i as u8 % 3, 0, 0, 0]).w(pointer, address)
}

fn repeats() -> Vec<Bench> {
    let literals = [0, 1, 0x00FF, 0x0100, 0x7FFF].into_iter().enumerate();
    let by_literal = literals.map(|(i, count)| turn(i, repeat(count)));
    let by_register = (0..14).map(|i| turn(i, repeat_by(i as u8)).w(i as u8, COUNTS[i % 7]));
    by_literal.chain(by_register).collect()
}

/// DO with bodies of two and three operations.
fn loops() -> Vec<Bench> {
    let last = |i: usize| (i % 3 + 2 + i / 3 % 2) as u16;
    let literals = [0, 1, 0x00FF, 0x0100, 0x7FFF].into_iter().enumerate();
    let by_literal = literals.map(|(i, count)| turn(i, do_to(count, last(i))));
    let by_register =
        (0..14).map(|i| turn(i, do_by(i as u8, last(i))).w(i as u8, COUNTS[(i + 3) % 7]));
    by_literal.chain(by_register).collect()
}

/// Kinds 23, 24 and 25, kind 25 with no flag, each S flag, all flags.
fn controls() -> Vec<Bench> {
    let modes = (0..6).map(|i| turn(i, set_mode(mode_word((51 * i + 5) as u16 % 128))));
    let clears = [0, 4, 8, 15].map(|flags| turn(7, CLEAR_S).flags(flags));
    let mut all = vec![turn(1, END_EARLY), turn(2, END_EARLY)];
    all.extend(modes);
    all.extend(clears);
    all
}
