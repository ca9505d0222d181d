//! Exact results just inside and just outside of each limit, for A and B, in
//! each saturation mode; O redone and S staying.

use crate::accumulator::{NARROW, WIDE};
use crate::generate::bench::Bench;
use crate::generate::forms::Bytes;
use crate::generate::ops::*;

/// SATA and SATB.
const SATURATION: [u16; 2] = [0x0080, 0x0040];
const ACCSAT: u16 = 0x0010;

/// An operation of a target, its accumulator for a result at a limit, and what
/// leads one beyond.
type Row = (fn(u8) -> Bytes, i64, i64);

pub fn cases() -> Vec<Bench> {
    let mut all = Vec::new();
    for target in [0, 1] {
        all.extend(sums(target));
        all.extend(overflow(target));
        all.extend(beyond(target));
    }
    all.extend(in_every_kind(NARROW, 0));
    all.extend(in_every_kind(WIDE, ACCSAT));
    all.extend(products());
    all.extend(redone());
    all
}

/// The sum of both accumulators with this exact result.
fn sum_to(target: u8, result: i64) -> Bench {
    let part = if result < 0 { -1_000 } else { 1_000 };
    Bench::one(sum(target)).target(target, result - part, part)
}

/// Saturation off, with the other accumulator's on or ACCSAT 1; on with each
/// ACCSAT: at both limits and one beyond.
fn sums(target: u8) -> Vec<Bench> {
    let own = SATURATION[usize::from(target)];
    let other = SATURATION[usize::from(1 - target)];
    let modes = [
        (other, WIDE),
        (ACCSAT, WIDE),
        (own, NARROW),
        (own | ACCSAT, WIDE),
    ];
    let mut all = Vec::new();
    for (mode, (low, high)) in modes {
        let mut results = vec![low - 1, high + 1];
        if mode != ACCSAT {
            results.extend([low, high]);
        }
        let case = |result| sum_to(target, result).mode(mode);
        all.extend(results.into_iter().map(case));
    }
    all
}

/// O at the limits of 32 bits, saturation off and wide.
fn overflow(target: u8) -> Vec<Bench> {
    let (low, high) = NARROW;
    let wide = SATURATION[usize::from(target)] | ACCSAT;
    let off = [low - 1, low, high, high + 1].map(|result| sum_to(target, result).mode(0));
    let on = [low - 1, high + 1].map(|result| sum_to(target, result).mode(wide));
    off.into_iter().chain(on).collect()
}

/// An accumulator beyond 32 bits when saturation is on already.
fn beyond(target: u8) -> [Bench; 2] {
    let mode = SATURATION[usize::from(target)];
    let sum = Bench::one(sum(target)).target(target, 1 << 35, 7);
    let shift = Bench::one(shift_by(target, 2)).target(target, -(1 << 35), 7);
    [sum.mode(mode), shift.w(2, 0).mode(mode)]
}

/// Kinds 3, 4, 6, 9, 10, 11, 13, each exactly at a limit and one beyond, the
/// target by turns and saturating.
fn in_every_kind((low, high): (i64, i64), accsat: u16) -> Vec<Bench> {
    // W4 x W5 doubled is 98,304, W4 squared and doubled 18, W4 as ADD's word
    // 196,608; W2 is -1.
    let rows: [Row; 7] = [
        (mac, high - 98_304, 1),
        (msc, low + 98_304, -1),
        (edac, high - 18, 1),
        (|target| scaled(13, target, 0, 4, 0), high - 196_608, 1),
        (subtract, low + 1_000, -1),
        (negate, low + 1, -1),
        (|target| shift_by(target, 2), low / 2, -1),
    ];
    let mut all = Vec::new();
    for (i, (operation, own, beyond)) in (0..).zip(rows) {
        for (j, own) in (0..).zip([own, own + beyond]) {
            let target = (i + j) % 2;
            let bench = Bench::one(operation(target)).target(target, own, 1_000);
            let mode = SATURATION[usize::from(target)] | accsat;
            all.push(bench.mode(mode).w(4, 3).w(5, 0x4000).w(2, 0xFFFF));
        }
    }
    all
}

/// Products, squares and LAC at 32 bits: 2 x 32,768 squared is just outside.
fn products() -> Vec<Bench> {
    let rows = [
        (mpy(0), 0x8000, 0x8000, 0x0080),
        (mpy(1), 0x8000, 0x8001, 0x0040),
        (mpy(1), 0x8000, 0x8000, 0x0000),
        (mpy(0), 0x8000, 0x8000, 0x0081),
        (mpy(0), 0xFFFF, 0xFFFF, 0x1081),
        (mpy(1), 0xFFFF, 0x8000, 0x1041),
        (mpy(1), 0xFFFF, 0x8000, 0x1040),
        (ed(1), 0x8000, 0, 0x0040),
        (ed(0), 0x7FFF, 0, 0x0080),
        (ed(0), 0xFFFF, 0, 0x1090),
        (scaled(12, 0, -1, 4, 0), 0x4000, 0, 0x0080),
        (scaled(12, 1, -1, 4, 0), 0x3FFF, 0, 0x0040),
        (scaled(12, 1, -1, 4, 0), 0xC000, 0, 0x0040),
        (scaled(12, 0, -1, 4, 0), 0xBFFF, 0, 0x0080),
    ];
    let case = |(operation, w4, w5, mode)| Bench::one(operation).w(4, w4).w(5, w5).mode(mode);
    rows.map(case).to_vec()
}

/// All flags set, a small result of every kind that writes an accumulator.
fn redone() -> Vec<Bench> {
    let mut all = Vec::new();
    for target in [0, 1] {
        let kinds = [
            [clr(target, 1), mpy(target), mac(target)],
            [msc(target), ed(target), edac(target)],
            [sum(target), subtract(target), negate(target)],
            [
                shift_by(target, 2),
                scaled(12, target, 0, 3, 0),
                scaled(13, target, 0, 3, 0),
            ],
        ];
        let own = kinds.concat().into_iter().skip(target.into()).step_by(2);
        all.extend(own.map(|operation| Bench::one(operation).both(70_000, -5).flags(0b1111)));
    }
    all
}
