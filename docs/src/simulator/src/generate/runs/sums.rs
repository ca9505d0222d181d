//! Sums carried over thousands of steps, close to and across the limits of 32
//! and 40 bits, with saturation on and off.

use super::build::{add, Program};
use crate::generate::bench::Bench;
use crate::generate::forms::Bytes;
use crate::generate::ops::*;

/// Saturation off; on at 32 bits; on at 40 bits; the other accumulator's alone.
const MODES: [u16; 4] = [0x0020, 0x00E0, 0x00F0, 0x0030];
const OTHER_ONLY: [u16; 2] = [0x0040, 0x0080];

pub fn cases() -> Vec<Bench> {
    let mut all = across();
    all.extend(there_and_back());
    all.extend(trapped());
    all.extend(unsigned());
    all
}

/// W4 squared added; X and Y words are not needed to change.
fn square(target: u8) -> Bytes {
    [6, target, 0x44, 0x38, 0x3A, 0x06, 0, 0]
}

/// Operations that add the same each time, with W4, W5 and the other accumulator.
fn adding(target: u8) -> [(Bytes, u16, u16, i64); 7] {
    [
        (mac(target), 0x7FFF, 0x7FFF, 3),
        (msc(target), 0x7FFF, 0x7FFF, 3),
        (square(target), 0x8000, 0, 3),
        (sum(target), 0, 0, 1_073_741_825),
        (subtract(target), 0, 0, 1_073_741_823),
        (add(target, 4), 0x7FFF, 0, -9),
        (scaled(13, target, -4, 4, 0), 0x8000, 0, -9),
    ]
}

/// 3,000 times and more, from near 0 through all limits, and from just below.
fn across() -> Vec<Bench> {
    let mut all = Vec::new();
    for target in [0, 1] {
        let modes = [&MODES[..], &OTHER_ONLY[usize::from(target)..][..1]].concat();
        for (i, (operation, w4, w5, other)) in adding(target).into_iter().enumerate() {
            for (j, &mode) in modes.iter().enumerate() {
                let count = 3_000 + 7 * (i + 3 * j) as u16;
                let program = Program::new()
                    .repeated(count, operation)
                    .op(sum(1 - target));
                let own = [5, (1 << 31) - 100_000, -(1 << 39) + 70_000][(i + j) % 3];
                let bench = program.bench().mode(mode).w(4, w4).w(5, w5);
                all.push(bench.target(target, own, other));
            }
        }
    }
    all
}

/// Up across a limit and down again in a loop: S stays, O comes and goes.
fn there_and_back() -> Vec<Bench> {
    let mut all = Vec::new();
    for target in [0, 1] {
        for mode in MODES {
            for own in [(1 << 31) - 50_000_000, -(1 << 31) + 7, (1 << 39) - 1] {
                let program = Program::new().looped(59, |body| {
                    body.repeated(16, mac(target))
                        .op(scaled(15, target, 0, 0, 0))
                        .repeated(17, msc(target))
                        .op(movsac(1 - target, 1))
                });
                let bench = program.bench().mode(mode).w(4, 0x2000).w(5, 0x0555);
                all.push(bench.target(target, own, -1));
            }
        }
    }
    all
}

/// The same sums with trap words: the step that leaves the limits, or overflows.
fn trapped() -> Vec<Bench> {
    let mut all = Vec::new();
    for target in [0, 1] {
        for (i, (operation, w4, w5, other)) in adding(target).into_iter().enumerate() {
            for (j, traps) in [0x0100, 0x0400, 0x0200, 0x0700].into_iter().enumerate() {
                let program = Program::new().looped(40, |body| {
                    body.op(IDLE)
                        .repeated(99, operation)
                        .op(scaled(14, target, 0, 0, 0))
                });
                let bench = program.bench().traps(traps).w(4, w4).w(5, w5);
                let mode = [0x0000, 0x0050, 0x00A0, 0x00C0][(i + j) % 4];
                all.push(bench.mode(mode).target(target, 11, other));
            }
        }
    }
    all
}

/// Unsigned and integer products: US 1 with IF 0 and 1, signed with IF 1.
fn unsigned() -> Vec<Bench> {
    let mut all = Vec::new();
    for mode in [0x1000, 0x1001, 0x0001, 0x10D0, 0x10C1, 0x00F1] {
        for operation in [mac(0), msc(1), square(1), [2, 0, 0x44, 0, 0, 0, 0, 0]] {
            let program = Program::new().repeated(1_200, operation).op(sum(0));
            all.push(program.bench().mode(mode).w(4, 0xFFFF).w(5, 0xFFFE));
        }
    }
    all
}
