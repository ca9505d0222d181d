//! Windows: empty, at both ends, the whole memory, past its end by one and by
//! far, with bags and without.

use super::build::{AGAIN, ON};
use crate::bags::Serving;
use crate::generate::bench::Bench;
use crate::generate::ops::*;
use crate::generate::runs::build::{add, Program};

/// The words of memory.
const WORDS: u32 = 16;

pub fn services() -> Vec<Serving> {
    let mut all = within();
    all.extend(past());
    all.extend(every_place());
    all
}

/// Every word of memory is added to B.
fn adding() -> Bench {
    let program = Program::new()
        .op(literal(0, 0x1000))
        .looped(15, |body| body.op(load(4, 0, 2)).op(add(1, 4)));
    program.bench()
}

/// Three bags of this window, the second without a budget.
fn served(first: u32, size: u32) -> Serving {
    let words = |from: u16| -> Vec<u16> { (from..).take(size as usize).collect() };
    Serving::on(adding())
        .window_at(first, size)
        .bag(1_000, ON, &words(0x0100))
        .bag(0, AGAIN, &words(0xFF00))
        .bag(1_000, ON, &words(0x7FF8))
}

fn within() -> Vec<Serving> {
    let windows = [
        (0, 0),
        (1, 0),
        (WORDS, 0),
        (0, 1),
        (7, 1),
        (WORDS - 1, 1),
        (0, WORDS - 1),
        (1, WORDS - 1),
        (0, WORDS),
    ];
    let mut all = windows.map(|(first, size)| served(first, size)).to_vec();
    // The smallest and a larger memory, all of them.
    let pair = Bench::one(add(0, 4)).memory(2, 1);
    all.push(Serving::on(pair).window_at(0, 2).bag(9, ON, &[3, 4]));
    let large = adding().memory(2_048, 1_024);
    let words: Vec<u16> = (0..2_048).collect();
    let large = Serving::on(large).window_at(0, 2_048).bag(99, ON, &words);
    all.push(large.bag(99, AGAIN, &words));
    all
}

/// First and size whose sum is above the words of memory; in 32 bits some of the
/// sums are small again.
const PAST: [(u32, u32); 17] = [
    (WORDS + 1, 0),
    (WORDS, 1),
    (0, WORDS + 1),
    (1, WORDS),
    (WORDS - 1, 2),
    (65_536, 0),
    (u32::MAX, 0),
    (u32::MAX, 1),
    (u32::MAX, 2),
    (0, u32::MAX),
    (1, u32::MAX),
    (5, u32::MAX - 4),
    (u32::MAX, u32::MAX),
    (1 << 31, 1 << 31),
    (u32::MAX - 2, 7),
    (0, 1 << 24),
    ((1 << 31) + 8, 1 << 31),
];

/// With no bags, with words as far as the size allows, and with fewer.
fn past() -> Vec<Serving> {
    let mut all = Vec::new();
    for (first, size) in PAST {
        let none = Serving::on(adding()).window_at(first, size);
        let one = none.clone().bag(1_000, ON, &[]);
        let words = (size as usize).min(20);
        all.extend([none, one.lists(1, words)]);
    }
    // 256 bags of 2^24 words are 2^32.
    let many = Serving::on(adding()).window_at(0, 1 << 24);
    all.push(many.bags(&[(3, ON); 256]));
    all
}

/// Two words at every place, the last of which is past the end.
fn every_place() -> Vec<Serving> {
    let at = |first| {
        let serving = Serving::on(adding()).window_at(first, 2);
        let serving = serving.bag(1_000, AGAIN, &[0x1111, 0x2222]);
        serving.bag(1_000, AGAIN, &[0xFFFF, 0x8000])
    };
    (0..WORDS).map(at).collect()
}
