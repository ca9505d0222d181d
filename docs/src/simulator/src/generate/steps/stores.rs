//! Stores: ties with each RND, SATDW at its limits, shifts before them.

use crate::generate::bench::Bench;
use crate::generate::ops::*;

const SATDW: u16 = 0x0020;
const RND: u16 = 0x0002;

pub fn cases() -> Vec<Bench> {
    let mut all = ties();
    all.extend(written_back());
    all.extend(truncated());
    all.extend(at_the_limits());
    all.extend(shifted());
    all.extend(shifted_ties());
    all
}

/// The value with this quotient and remainder by 65,536.
fn value(quotient: i64, remainder: i64) -> i64 {
    65_536 * quotient + remainder
}

/// Kind 14 or 15 to W3 of a value, the accumulator by turns.
fn stored(kind: u8, target: usize, shift: i8, value: i64, mode: u16) -> Bench {
    let target = target as u8 % 2;
    let bench = Bench::one(scaled(kind, target, shift, 3, 0));
    bench.target(target, value, 1 << 20).mode(mode)
}

/// Rounded at a tie and next to it: even and odd quotients, below 0 too.
fn ties() -> Vec<Bench> {
    let mut all = Vec::new();
    for (i, quotient) in [2, 3, -2, -3].into_iter().enumerate() {
        for remainder in [32_767, 32_768, 32_769] {
            let value = value(quotient, remainder);
            all.push(stored(15, i, 0, value, SATDW));
            all.push(stored(15, i, 0, value, SATDW | RND));
        }
    }
    for (i, quotient) in [0, -1].into_iter().enumerate() {
        let value = value(quotient, 32_768);
        all.push(stored(15, i, 0, value, 0));
        all.push(stored(15, i, 0, value, RND));
    }
    all
}

/// Write-backs of the other accumulator: ties, and the limits of a word.
fn written_back() -> Vec<Bench> {
    let values = [
        value(4, 32_768),
        value(5, 32_768),
        value(-4, 32_768),
        value(-5, 32_768),
        value(32_767, 32_768),
        value(-32_769, 32_768),
        value(40_000, 40_000),
    ];
    let mut all = Vec::new();
    for (i, value) in (0..).zip(values) {
        for rnd in [0, RND] {
            let (target, b6) = (i % 2, 1 + u8::from(rnd == 0));
            let mode = rnd | (SATDW * u16::from(i / 2 % 2));
            let operation = if i < 4 {
                movsac(target, b6)
            } else {
                clr(target, b6)
            };
            all.push(
                Bench::one(operation)
                    .target(target, 1 << 20, value)
                    .mode(mode),
            );
        }
    }
    all
}

/// Kind 14 does not round.
fn truncated() -> Vec<Bench> {
    let values = [
        value(2, 32_768),
        value(3, 65_535),
        value(-1, 32_768),
        value(-2, 65_535),
    ];
    let case = |(i, value)| stored(14, i, 0, value, SATDW | RND);
    values.into_iter().enumerate().map(case).collect()
}

/// Truncated and rounded at 32,767 and -32,768, SATDW on and off.
fn at_the_limits() -> Vec<Bench> {
    let values = [
        value(32_767, 32_767),
        value(32_767, 32_768),
        value(32_768, 0),
        value(-32_768, 0),
        value(-32_769, 65_535),
        value(-32_769, 32_768),
        value(-32_769, 32_767),
    ];
    let mut all = Vec::new();
    for (i, value) in values.into_iter().enumerate() {
        for kind in [14, 15] {
            all.push(stored(kind, i, 0, value, SATDW));
            all.push(stored(kind, i, 0, value, RND));
        }
    }
    all
}

/// Shifts of both signs on any value: what passes 40 bits is not lost before
/// SATDW sees it.
fn shifted() -> Vec<Bench> {
    let values = [(1 << 39) - 1, -(1 << 39), 0x12_3456_789A, -0x01_2345_6789];
    let mut all = Vec::new();
    for (i, value) in values.into_iter().enumerate() {
        for (j, shift) in [-8, -3, 1, 7].into_iter().enumerate() {
            let kind = 14 + ((i + j) % 2) as u8;
            let mode = SATDW * ((i / 2 + j + 1) % 2) as u16;
            all.push(stored(kind, i + j / 2, shift, value, mode));
        }
    }
    all
}

/// Ties after the shift: its floor drops the low bits, or the left shift makes
/// them.
fn shifted_ties() -> Vec<Bench> {
    let mut all = Vec::new();
    for (i, mode) in [0, RND].into_iter().enumerate() {
        all.push(stored(15, i, 1, 2 * value(6, 32_768) + 1, mode));
        all.push(stored(15, i, 7, 128 * value(-6, 32_768) + 127, mode));
        all.push(stored(15, i, -1, value(3, 16_384), mode));
        all.push(stored(15, i, -8, 256 * 9 + 128, mode));
    }
    all
}
