//! Runs over decoded operations in which kind 24 changes the mode word: products, limits
//! and stores before and after it, in loops and repeats.

use super::build::{add, Program};
use super::decoded_kinds::by_turns;
use super::kinds;
use crate::form::Form;
use crate::generate::bench::Bench;
use crate::generate::ops::*;

/// Two mode words that differ in US, IF, SATA and SATB, ACCSAT, SATDW, RND, one each, then
/// in several.
const PAIRS: [[u16; 2]; 9] = [
    [0x0020, 0x1020],
    [0x0020, 0x0021],
    [0x0020, 0x00E0],
    [0x00E0, 0x00F0],
    [0x0020, 0x0000],
    [0x0020, 0x0022],
    [0x1001, 0x00F2],
    [0x00A0, 0x1063],
    [0x0000, 0x10F3],
];

pub fn cases() -> Vec<Form> {
    let mut all = kinds::modes();
    for pair in PAIRS {
        let [one, other] = pair;
        for [first, second] in [pair, [other, one]] {
            all.extend(starts(looped(first, second), first));
            all.push(repeated(first, second));
            all.push(nested(first, second));
        }
    }
    all.extend(in_last_places());
    all.extend(trapped());
    by_turns(all)
}

/// A product, a sum that may leave the limits, and stores of both.
fn worked(program: Program) -> Program {
    let stores = [scaled(15, 0, 0, 0, 2), scaled(14, 1, -2, 0, 2)];
    program.ops(&[mac(0), msc(1), add(0, 6)]).ops(&stores)
}

/// The body is worked by one mode word at first, by the other in the passes after that.
fn looped(first: u16, second: u16) -> Bench {
    let program = Program::new().looped(3, |body| {
        worked(worked(body).op(set_mode(second))).op(movsac(1, 1))
    });
    program.bench().memory(40, 20).mode(first).w(0, 0x1000)
}

/// Sums within 32 bits, at their limits and at those of 40 bits.
fn starts(bench: Bench, mode: u16) -> Vec<Bench> {
    let sums = [
        (98_304, -32_768),
        (2_147_000_000, -2_147_000_000),
        (549_755_000_000, -549_755_000_000),
    ];
    let factors = [(0x8000, 0x8000), (0xFFFF, 0x0003), (0x7BC1, 0xFACE)];
    let start = |((a, b), (m, n))| {
        let bench = bench.clone().both(a, b).w(4, m).w(5, n);
        bench.w(6, if mode & 1 == 0 { 0x7FFF } else { 0x8001 })
    };
    sums.into_iter().zip(factors).map(start).collect()
}

/// Kind 24 repeated, and repeated products before it and after it.
fn repeated(first: u16, second: u16) -> Bench {
    let program = Program::new().looped(2, |body| {
        let once = body.repeated(2, mac(0)).repeated(3, set_mode(second));
        let twice = once.repeated(2, mac(0)).op(scaled(15, 0, 0, 0, 2));
        twice
            .op(set_mode(first))
            .repeated(1, [3, 1, 0x54, 0, 0, 0, 2, 0])
    });
    let bench = program.bench().memory(40, 20).mode(first);
    bench
        .both(2_000_000_000, -49_152)
        .w(0, 0x1020)
        .w(13, 0x1000)
}

/// Four loops in each other, in the innermost of which both mode words are set by turns.
fn nested(first: u16, second: u16) -> Bench {
    let program = Program::new().looped(1, |a| {
        a.op(mac(0))
            .looped(1, |b| {
                b.op(set_mode(second))
                    .looped(1, |c| {
                        c.op(msc(1))
                            .looped(1, |d| d.ops(&[add(0, 6), set_mode(first), mac(0)]))
                            .op(scaled(15, 0, -1, 0, 2))
                    })
                    .op(add(1, 7))
            })
            .op(scaled(14, 1, 0, 0, 2))
    });
    let bench = program.bench().memory(40, 20).mode(first);
    bench.both(2_100_000_000, -2_100_000_000).w(0, 0x1000)
}

/// Kind 24 as the last operation of a loop, alone and repeated, with each budget up to its
/// second pass.
fn in_last_places() -> Vec<Bench> {
    let body = [mac(0), scaled(15, 0, 0, 0, 2)];
    let alone = Program::new().looped(2, |all| all.ops(&body).op(set_mode(0x1021)));
    let repeated = Program::new().looped(2, |all| all.ops(&body).repeated(1, set_mode(0x00F2)));
    let all = [alone, repeated].map(|program| program.bench().w(0, 0x1000));
    let budgets = |bench: Bench| (0..9).map(move |budget| bench.clone().budget(budget));
    all.into_iter().flat_map(budgets).collect()
}

/// Saturation that is turned off, so that limits are left with COVTE, and turned on, so
/// that they are not; trap 6 after ACCSAT 1.
fn trapped() -> Vec<Bench> {
    let changed = |first: u16, second: u16, traps: u16| {
        let body = |body: Program| body.op(add(0, 6)).op(set_mode(second));
        let program = Program::new().looped(9, body).op(store(4, 0, 2));
        program
            .bench()
            .mode(first)
            .traps(traps)
            .both((1 << 39) - 1, 0)
    };
    vec![
        changed(0x00B0, 0x0030, 0x0100),
        changed(0x0030, 0x00B0, 0x0100),
        changed(0x00A0, 0x00B0, 0x0400),
        changed(0x00B0, 0x00A0, 0x0500).both(5, 5),
    ]
}
