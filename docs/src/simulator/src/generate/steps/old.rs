//! Old registers: what is read before it is changed in the same step.

use crate::generate::bench::Bench;
use crate::generate::ops::*;

/// The kinds with a write-back, each with a target.
const WRITING_BACK: [(u8, u8); 4] = [(1, 0), (3, 1), (4, 0), (7, 1)];

pub fn cases() -> Vec<Bench> {
    let mut all = squares();
    all.extend(products());
    all.extend(sums());
    all.extend(read_and_written());
    all.extend(own_pointers());
    all.extend(stepped_operands());
    all.extend(round_and_written());
    all
}

/// ED and EDAC: the old m is squared, the difference lands in m or beside it.
/// 89AB hex minus 3C2D hex is below what a signed word holds.
fn squares() -> Vec<Bench> {
    let mut all = Vec::new();
    for kind in [5, 6] {
        for (m, destination) in [(4, 4), (5, 5), (6, 6), (7, 7), (4, 5)] {
            let bytes = [kind, m % 2, 0x11 * m, 0x58, 0x2B, destination, 0, 0];
            let bench = Bench::one(bytes).mode(0x0020 | u16::from(m % 2));
            all.push(bench.w(8, 0x1006));
        }
    }
    all
}

/// Both factors are loaded over, either way round.
fn products() -> Vec<Bench> {
    let forms = [(2, 0x54), (3, 0x54), (4, 0x54), (3, 0x45)];
    let case = |(kind, b5)| Bench::one([kind, 0, 0x54, 0x48, 0x2A, b5, 0, 0]);
    forms.map(case).to_vec()
}

/// Y at W11 + W13 = 101A hex while W13 is written or stepped.
fn sums() -> Vec<Bench> {
    let mut all = Vec::new();
    for (kind, target) in WRITING_BACK {
        for b6 in [1, 2] {
            let target = (target + b6) % 2;
            let bytes = writing(kind, target, 0, 0x0D, 0x60, b6);
            all.push(Bench::one(bytes).w(11, 0x000E));
        }
    }
    all
}

/// A prefetching operation with b3, b4, b5, b6; factors W4 and W5 where it has
/// some.
fn writing(kind: u8, target: u8, b3: u8, b4: u8, b5: u8, b6: u8) -> [u8; 8] {
    let b2 = if kind == 1 || kind == 7 { 0 } else { 0x54 };
    [kind, target, b2, b3, b4, b5, b6, 0]
}

/// The write-back goes to the word that the X or the Y read takes.
fn read_and_written() -> Vec<Bench> {
    let mut all = Vec::new();
    for (kind, target) in WRITING_BACK {
        let x = writing(kind, target, 0x48, 0x2A, 0x76, 2);
        all.push(Bench::one(x).w(8, 0x100C));
        let y = writing(kind, 1 - target, 0x48, 0x2A, 0x76, 2);
        all.push(Bench::one(y).w(13, 0x1018));
    }
    all
}

/// Kinds 17 and 18 with b1 = b3.
fn own_pointers() -> Vec<Bench> {
    let mut all = Vec::new();
    for register in [0, 13] {
        for form in 1..=3 {
            all.push(Bench::one(load(register, register, form)));
            all.push(Bench::one(store(register, register, form)));
        }
    }
    all
}

/// Kinds 12 to 15: the word at the old pointer, then the step.
fn stepped_operands() -> Vec<Bench> {
    let mut all = Vec::new();
    for kind in 12..=15 {
        for form in 1..=3 {
            all.push(Bench::one(scaled(kind, form % 2, 0, 1, form)));
        }
    }
    all
}

/// X's register 13 with a write-back: round, within, beside; at W11 + W13 too,
/// and to W13 itself.
fn round_and_written() -> Vec<Bench> {
    let buffer = |bytes| Bench::one(bytes).x(13, 0x1008, 0x100F);
    let mut all = Vec::new();
    for (kind, target) in WRITING_BACK {
        all.push(buffer(writing(kind, target, 0, 0, 0, 2)).w(13, 0x100E));
    }
    let plain = writing(3, 0, 0x58, 0x1A, 0x76, 2);
    all.push(buffer(plain).w(13, 0x100C));
    all.push(buffer(plain).w(13, 0x1010));
    let sum = writing(4, 1, 0, 0x0D, 0x40, 2);
    all.push(buffer(sum).w(13, 0x100E).w(11, 0x000C));
    let own = writing(7, 0, 0, 0x0D, 0x50, 1);
    all.push(buffer(own).w(13, 0x100E).w(11, 0x000C));
    all
}
