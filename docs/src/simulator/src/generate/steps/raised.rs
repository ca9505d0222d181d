//! Traps 5, 6 and 7: each alone and in their order, in every kind that writes an
//! accumulator; flags that do not trap; the step complete.

use crate::generate::bench::Bench;
use crate::generate::ops::*;

const TOP: i64 = (1 << 39) - 1;
const BOTTOM: i64 = -(1 << 39);
const COVTE: u16 = 0x0100;
/// OVATE and OVBTE.
const OVERFLOW: [u16; 2] = [0x0400, 0x0200];
/// SATA and SATB.
const SATURATION: [u16; 2] = [0x0080, 0x0040];

pub fn cases() -> Vec<Bench> {
    let mut all = Vec::new();
    for target in [0, 1] {
        let own = OVERFLOW[usize::from(target)];
        all.extend(leaving(target).into_iter().map(|bench| bench.traps(COVTE)));
        all.extend(
            overflowing(target)
                .into_iter()
                .map(|bench| bench.traps(own)),
        );
        all.extend(each_bit(target));
        all.extend(saturating(target));
        all.extend(others(target));
    }
    all.extend(untouched());
    all.extend(complete());
    all
}

/// Steps that leave the 40 bits: kinds 3, 4, 6, 8, 9, 10, 11, 13.
fn leaving(target: u8) -> Vec<Bench> {
    let with = |operation, own, other| {
        let bench = Bench::one(operation).target(target, own, other);
        bench.mode(0x0000).w(4, 3).w(5, 0x4000)
    };
    vec![
        with(mac(target), TOP, 5),
        with(msc(target), BOTTOM, 5),
        with(edac(target), TOP, 5),
        with(sum(target), TOP, 1),
        with(subtract(target), BOTTOM, 1),
        with(negate(target), BOTTOM, 5),
        with(shift_by(target, 2), 1 << 38, 5).w(2, 0xFFFF),
        with(scaled(13, target, 0, 4, 0), TOP, 5),
    ]
}

/// Steps that stay within 40 bits and leave 32: kinds 2 to 6, 8 to 13.
fn overflowing(target: u8) -> Vec<Bench> {
    let with = |operation, own, other| {
        let bench = Bench::one(operation).target(target, own, other);
        bench.mode(0x0000).w(4, 0x8000).w(5, 0x8000)
    };
    vec![
        with(mpy(target), 9, 5),
        with(mac(target), 0, 5),
        with(msc(target), -1, 5),
        with(ed(target), 9, 5),
        with(edac(target), 7, 5),
        with(sum(target), (1 << 31) - 1, 1),
        with(subtract(target), -(1 << 31), 1),
        with(negate(target), -(1 << 31), 5),
        with(shift_by(target, 2), 1 << 30, 5).w(2, 0xFFFF),
        with(scaled(12, target, -1, 4, 0), 9, 5),
        with(scaled(13, target, 0, 3, 0), (1 << 31) - 65_536, 5).w(3, 1),
    ]
}

/// A sum that leaves 40 bits and one that leaves 32, under each trap word.
fn each_bit(target: u8) -> Vec<Bench> {
    let leaving = Bench::one(sum(target)).target(target, TOP, 1).mode(0x0020);
    let overflowing = Bench::one(sum(target)).both(1 << 31, 1).mode(0x0020);
    let words = [0x0000, 0x0200, 0x0400, 0x0600, 0x0700];
    let mut all: Vec<Bench> = words.map(|word| leaving.clone().traps(word)).to_vec();
    all.extend([0x0100, 0x0200, 0x0400, 0x0700].map(|word| overflowing.clone().traps(word)));
    // The low 40 bits are 0: S without O.
    let to_zero = Bench::one(sum(target)).both(BOTTOM, BOTTOM).mode(0x0000);
    all.push(to_zero.clone().traps(0x0600));
    all.push(to_zero.traps(0x0700));
    all
}

/// Saturation on: 5 never, 6 and 7 with the wide limits; on for the other
/// accumulator alone.
fn saturating(target: u8) -> Vec<Bench> {
    let own = SATURATION[usize::from(target)];
    let other = SATURATION[usize::from(1 - target)];
    let with = |mode, traps| {
        let bench = Bench::one(sum(target)).target(target, TOP, 1);
        bench.mode(mode).traps(traps)
    };
    vec![
        with(own | 0x0010, COVTE),
        with(own | 0x0010, 0x0700),
        with(own, 0x0700),
        with(other | 0x0010, 0x0700),
    ]
}

/// The other accumulator's flag and bit: a write in range, and one that
/// overflows without its own bit.
fn others(target: u8) -> Vec<Bench> {
    let other = OVERFLOW[usize::from(1 - target)];
    let far = 1 << 35;
    let bench = |operation| Bench::one(operation).target(target, far, far);
    vec![
        bench(clr(target, 0)).flags(0b1111).traps(0x0700),
        bench(negate(target)).flags(0b0011).traps(other),
        bench(scaled(12, target, 0, 3, 0))
            .flags(0b0011)
            .traps(0x0700),
    ]
}

/// Flags set before do not trap in kinds that write no accumulator.
fn untouched() -> Vec<Bench> {
    let operations = [
        movsac(0, 1),
        movsac(1, 2),
        scaled(14, 0, 0, 4, 0),
        scaled(15, 1, 0, 1, 2),
        literal(3, 0xABCD),
        load(4, 0, 2),
        store(4, 0, 2),
        set_mode(0x0000),
        CLEAR_S,
    ];
    let case = |operation| {
        let bench = Bench::one(operation).both(1 << 35, -(1 << 36));
        bench.flags(0b1111).traps(0x0700)
    };
    operations.map(case).to_vec()
}

/// Reads, write-back, flags, repeat, passes and pc as after any other step.
fn complete() -> Vec<Bench> {
    let full = |target| [3, target, 0x54, 0x58, 0x1A, 0x76, 2, 0];
    let program = |operation| [do_to(0, 3), IDLE, repeat(4), operation, IDLE];
    let placed = |operation| Bench::of(&program(operation)).at(3).mode(0x0002);
    let last = Bench::of(&[IDLE, full(1)]).at(1).mode(0x0000);
    vec![
        placed(full(0))
            .both(1 << 32, 0x1_8000)
            .within(0, 2)
            .repeating(1)
            .traps(0x0400),
        placed(full(0))
            .both(1 << 32, 0x2_8000)
            .within(0, 1)
            .repeating(1)
            .traps(0x0700),
        placed(full(1))
            .both(0x3_8000, TOP)
            .within(0, 2)
            .repeating(2)
            .traps(0x0700)
            .w(5, 0x1111),
        last.both(-0x1_8000, 1 << 33).traps(0x0200),
    ]
}
