//! The bit-reversed register: stores of form 2, and everything else at it.

use crate::generate::bench::Bench;
use crate::generate::ops::*;

pub fn cases() -> Vec<Bench> {
    let mut all = stores();
    all.extend(round());
    all.extend(other_forms());
    all.extend(other_uses());
    all
}

/// A store through a pointer: kinds 14, 15, 18.
fn storing(kind: u8, pointer: u8, form: u8, address: u16) -> Bench {
    Bench::one(access(kind, pointer, form)).w(pointer, address)
}

/// Every N with every kind, registers and places by turns.
fn stores() -> Vec<Bench> {
    let mut all = Vec::new();
    for i in 0..30_u16 {
        let kind = [14, 15, 18][usize::from(i % 3)];
        let register = (5 * i % 14) as u8;
        let bench = storing(kind, register, 2, 0x1000 + 2 * (7 * i % 16));
        all.push(bench.reversed(register, 2 << (i / 3)));
    }
    all
}

/// The last index goes to the first, in the second group of N words too; in
/// memories of 64 and 1,024 words.
fn round() -> Vec<Bench> {
    let at = |address: u16, words| storing(18, 1, 2, address).reversed(1, words);
    vec![
        at(0x1002, 2),
        at(0x101E, 2),
        at(0x100E, 4),
        at(0x100E, 8),
        at(0x101E, 8),
        at(0x101E, 16),
        at(0x107E, 64).memory(64, 30),
        at(0x17FE, 1_024).memory(1_024, 500),
    ]
}

/// Forms 1 and 3 of the storing kinds; b1 = b3.
fn other_forms() -> Vec<Bench> {
    let mut all = Vec::new();
    for kind in [14, 15, 18] {
        for form in [1, 3] {
            all.push(storing(kind, 2, form, 0x1006).reversed(2, 8));
        }
    }
    all.push(Bench::one(store(1, 1, 2)).reversed(1, 16));
    all
}

/// Loads, prefetches and the write-back at the register; other registers; Y's
/// register and the bit-reversed one in one.
fn other_uses() -> Vec<Bench> {
    let mut all = Vec::new();
    for kind in [12, 13, 17] {
        all.push(storing(kind, 1, 2, 0x1004).reversed(1, 8));
    }
    all.extend([
        Bench::one(clr(0, 2)).w(13, 0x1004).reversed(13, 8),
        Bench::one(movsac(1, 2)).w(13, 0x1002).reversed(13, 4),
        Bench::one(clr(1, 0)).w(8, 0x1004).reversed(8, 8),
        Bench::one([2, 0, 0x54, 0x49, 0, 6, 0, 0]).reversed(9, 16),
        Bench::one(ed(0)).w(10, 0x1014).reversed(10, 4),
        // A store at another register, beside X's circular one too.
        storing(18, 3, 2, 0x1004).reversed(2, 8),
        storing(14, 3, 2, 0x100A)
            .reversed(2, 8)
            .x(3, 0x1004, 0x100B),
        storing(15, 2, 2, 0x100A)
            .reversed(2, 8)
            .x(3, 0x1004, 0x100B),
    ]);
    let both = |bench: Bench| bench.w(11, 0x101A).y(11, 0x1014, 0x101B).reversed(11, 8);
    all.push(both(Bench::one(store(4, 11, 2))));
    all.push(both(Bench::one(store(4, 11, 3))));
    all.push(both(Bench::one([7, 0, 0, 0, stepped(11, 4), 0x40, 0, 0])));
    all
}
