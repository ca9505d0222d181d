//! Programs of one to 64 blocks, loops across blocks, memory of 2 to 30,720
//! words.

use super::build::{add, Program};
use crate::file::MOST_OPERATIONS;
use crate::generate::bench::Bench;
use crate::generate::forms::Bytes;
use crate::generate::ops::*;

pub fn cases() -> Vec<Bench> {
    let mut all = lengths();
    all.extend(across_blocks());
    all.extend(whole());
    all.extend(memories());
    all.extend(large_memories());
    all
}

/// The operation at a place of a long program: sums that mix what was before.
fn mixed(place: usize) -> Bytes {
    let target = (place / 3 % 2) as u8;
    match place % 7 {
        0 => add(target, 4),
        1 => literal(4, (place * 40_503) as u16),
        2 => mac(1 - target),
        3 => scaled(14, target, 1, 5, 0),
        4 => msc(target),
        5 => subtract(target),
        _ => scaled(15, 1 - target, -1, 6, 0),
    }
}

pub fn straight(count: usize) -> Vec<Bytes> {
    (0..count).map(mixed).collect()
}

/// So many operations, with a budget to the end, to the middle and to the last.
fn lengths() -> Vec<Bench> {
    let mut all = Vec::new();
    for count in [
        1, 2, 62, 63, 64, 65, 125, 126, 127, 128, 189, 190, 400, 1_000,
    ] {
        let bench = Bench::of(&straight(count));
        let budgets = [10_000, count as u32 - 1, count as u32 / 2];
        all.extend(budgets.map(|budget| bench.clone().budget(budget)));
    }
    all
}

/// DO's place, its last and its literal.
pub type Looped = (u16, u16, u16);

pub fn with_loops(count: usize, loops: &[Looped]) -> Vec<Bytes> {
    let mut operations = straight(count);
    for &(place, last, literal) in loops {
        operations[usize::from(place)] = do_to(literal, last);
    }
    operations
}

/// DO at the end of a block, at the start of one, over blocks, lasts at the ends
/// of blocks; REPEAT in one block and its operation in the next.
fn across_blocks() -> Vec<Bench> {
    let loops: [(usize, &[Looped]); 8] = [
        (64, &[(61, 63, 3)]),
        (65, &[(62, 64, 3)]),
        (66, &[(63, 65, 3)]),
        (127, &[(10, 125, 2), (60, 66, 3)]),
        (127, &[(0, 126, 1), (62, 125, 2), (63, 124, 1)]),
        (190, &[(30, 188, 2), (31, 187, 0), (100, 126, 4)]),
        (300, &[(0, 255, 1), (256, 299, 2), (5, 62, 3), (63, 65, 9)]),
        (300, &[(0, 299, 3), (250, 257, 6)]),
    ];
    let mut all = Vec::new();
    for (count, loops) in loops {
        let bench = Bench::of(&with_loops(count, loops));
        all.extend([10_000, 700, 133].map(|budget| bench.clone().budget(budget)));
    }
    for place in [61, 62, 63, 125, 188] {
        let mut operations = straight(190);
        operations[place] = repeat(5);
        operations[place + 1] = add(0, 4);
        all.push(Bench::of(&operations).budget(10_000));
        let middle = Bench::of(&operations).budget(10_000).at(place as u16 + 1);
        all.push(middle.repeating(3));
    }
    all
}

/// The longest programs.
fn whole() -> Vec<Bench> {
    let most = MOST_OPERATIONS;
    let last = most as u16 - 1;
    let looped = with_loops(most, &[(0, last, 4), (1, last - 1, 0), (2_000, 2_300, 7)]);
    let start = Bench::of(&looped).at(last).within(0, 2);
    vec![
        Bench::of(&straight(most)).budget(u32::MAX),
        Bench::of(&straight(most - 1)).budget(4_030),
        Bench::of(&looped).budget(100_000),
        start.budget(9_000),
    ]
}

/// Words stored up and down to the end of memory, X and Y parts of all sizes.
fn memories() -> Vec<Bench> {
    let sizes = [
        (2, 1),
        (3, 1),
        (3, 2),
        (4, 2),
        (100, 99),
        (100, 1),
        (1_000, 500),
    ];
    let mut all = Vec::new();
    for (count, x_words) in sizes {
        let fill = Program::new()
            .ops(&[literal(0, 0x1000), literal(1, 0x1000 + 2 * count - 2)])
            .repeated(count - 1, store(5, 0, 2));
        let down = fill.clone().op(add(0, 4)).repeated(999, load(6, 1, 3));
        let over = fill.repeated(0, store(5, 0, 2));
        let sized = |program: Program| program.bench().memory(count.into(), x_words);
        all.extend([sized(down), sized(over)]);
        let reads = |b3, b4| Program::new().repeated(600, [7, 0, 0, b3, b4, 0x76, 0, 0]);
        let ends = |program: Program| {
            let y = 0x1000 + 2 * x_words;
            sized(program)
                .w(8, 0x1000)
                .w(10, y)
                .w(9, y - 2)
                .w(11, 0x0FFE + 2 * count)
        };
        all.extend([ends(reads(0x48, 0x3A)), ends(reads(0x39, 0x4A))]);
        all.extend([ends(reads(0x29, 0x3A)), ends(reads(0x38, 0x2B))]);
    }
    all
}

/// The largest memory: filled to its end; round at its top, where a sum passes
/// 65,536, in loads, stores, write-backs, X reads and Y reads; and not round.
fn large_memories() -> Vec<Bench> {
    let fill = Program::new()
        .op(literal(0, 0x1000))
        .repeated(32_767, store(0, 0, 2));
    let moves = Program::new().looped(99, |body| {
        body.ops(&[store(0, 0, 2), load(4, 0, 2), movsac(0, 2)])
            .op(add(1, 4))
    });
    let reads = |b3, b4| {
        Program::new().looped(50, |body| {
            body.ops(&[[3, 0, 0x54, b3, b4, 0x54, 2, 0], add(1, 5)])
        })
    };
    let sized = |program: Program, x_words| program.bench().memory(30_720, x_words);
    let top = |bench: Bench| bench.w(8, 0xFFF8).w(10, 0xFFFA).w(13, 0xFFF6);
    vec![
        sized(fill, 15_360).budget(u32::MAX),
        sized(moves, 100)
            .x(0, 0xFFF0, 0xFFFF)
            .w(0, 0xFFF4)
            .w(13, 0xFF00),
        top(sized(reads(0x68, 0x3A), 30_719))
            .x(8, 0xFFEE, 0xFFFD)
            .w(10, 0xFFFE)
            .w(13, 0x1000),
        top(sized(reads(0x39, 0x5A), 100))
            .y(10, 0xFFF0, 0xFFFF)
            .x(13, 0xFFF2, 0xFFFF),
        top(sized(reads(0x39, 0x4A), 100)),
    ]
}
