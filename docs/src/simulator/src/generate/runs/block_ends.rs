//! The bit-reversed register at the ends of blocks and of memory, from places within a
//! block, with other steps beside its own. Most programs have a line for each step, so
//! that each pointer is shown.

use super::next_addresses::shown;
use crate::generate::bench::Bench;
use crate::generate::forms::Bytes;
use crate::generate::ops::*;

const POINTER: u8 = 1;
/// The most words that a run accepts: the last one is at FFFE hex.
const MOST_WORDS: usize = 30_720;

pub fn cases() -> Vec<Bench> {
    let mut all = first_blocks();
    all.extend(widths());
    all.extend(starts_within());
    all.extend(out_of_memory());
    all.extend(beside());
    all.push(top());
    all
}

/// The pointer at an address with N; memory of so many words.
fn at(operations: &[Bytes], address: u16, n: u16, words: usize) -> Bench {
    let bench = Bench::of(operations).memory(words, 1);
    bench.reversed(POINTER, n).w(POINTER, address)
}

/// So many stores, by kinds 14, 15 and 18 in turn.
fn stores(count: usize) -> Vec<Bytes> {
    let kinds = [14, 15, 18].into_iter().cycle().take(count);
    kinds.map(|kind| access(kind, POINTER, 2)).collect()
}

/// A line for each step of the operations.
fn each_step(operations: &[Bytes], address: u16, n: u16, words: usize) -> Vec<Bench> {
    let budgets = 1..=operations.len() as u32;
    let bench = at(operations, address, n, words);
    budgets.map(|budget| bench.clone().budget(budget)).collect()
}

/// N 2: 1000, 1002, 1000 hex. N 8, row H of document 01's table: 1200, 1208, 1204 hex,
/// then the whole round.
fn first_blocks() -> Vec<Bench> {
    let mut all = each_step(&stores(3), 0x1000, 2, 2);
    let round = at(&stores(8), 0x1200, 8, 264);
    all.extend([1, 2, 8].map(|budget| round.clone().budget(budget)));
    all
}

/// Index 1 of each N: a reversal of too many bits gives the same for several N.
fn widths() -> Vec<Bench> {
    let at_one = |width: u32| at(&stores(1), 0x1002, 1 << width, 2);
    (1..=10).map(at_one).collect()
}

/// The block is the one that the address lies in, wherever the pointer starts.
fn starts_within() -> Vec<Bench> {
    let mut all = each_step(&stores(5), 0x1012, 16, 16);
    all.extend(each_step(&stores(3), 0x1008, 8, 16));
    all.extend(each_step(&stores(3), 0x101A, 8, 16));
    all
}

/// A next address outside of memory traps where it is used; an odd address and one below
/// memory trap at once.
fn out_of_memory() -> Vec<Bench> {
    let mut all = each_step(&stores(2), 0x1010, 8, 12);
    all.extend(each_step(&stores(2), 0x1000, 1_024, 2));
    all.extend([0x1011, 0x0FFE].map(|address| at(&stores(1), address, 8, 16)));
    all
}

/// Kinds 14, 15 and 18: form 2 at the register, then form 3 and a load at it and form 2
/// at another register, which step plainly, then form 2 at the register again.
fn beside() -> Vec<Bench> {
    let mixed = |kind: u8| {
        let operations = [
            access(kind, POINTER, 2),
            access(kind, POINTER, 3),
            access(17, POINTER, 2),
            access(kind, 2, 2),
            access(kind, POINTER, 2),
        ];
        let benches = each_step(&operations, 0x1004, 8, 16);
        benches.into_iter().map(|bench| bench.w(2, 0x1002))
    };
    [14, 15, 18].into_iter().flat_map(mixed).collect()
}

/// The last two blocks of 1,024 words: both ends of each, the last word at FFFE hex, and
/// places within.
fn top() -> Bench {
    let addresses = [
        0xFFFE, 0xF800, 0xFC00, 0xFA00, 0xFBFE, 0xFFFC, 0xF802, 0xFDFE, //
        0xFF00, 0xF8F0, 0xF7FE, 0xF000, 0xF400, 0xF002, 0xF6A4, 0xFBFC,
    ];
    let bench = shown(POINTER, &addresses).reversed(POINTER, 1_024);
    bench.words(vec![0; MOST_WORDS], 1)
}
