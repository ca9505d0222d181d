//! Long runs: dozens of 10,000 to 200,000 steps, some of a million and more.

use super::build::{add, words, Program};
use crate::generate::bench::Bench;
use crate::generate::forms::Bytes;
use crate::generate::ops::*;

pub fn cases() -> Vec<Bench> {
    let mut all = Vec::new();
    for turn in 0..6 {
        all.extend(shapes(turn).map(set));
    }
    all.extend(spent_on_the_way());
    all.extend(millions());
    all
}

/// X: 64 words with a buffer of 60, Y: 64 words with one of 50.
fn set(program: Program) -> Bench {
    let bench = program.bench().budget(u32::MAX);
    bench
        .words(words(9, 128, -32_768, 32_767), 64)
        .x(8, 0x1002, 0x1079)
        .y(10, 0x1084, 0x10E7)
        .w(8, 0x1002)
        .w(10, 0x1084)
        .w(0, 0x1080)
}

const MAC: Bytes = multiply_and_read(3, 0);
/// W5 x W6 from B, reads by + 4 and - 6.
const MSC: Bytes = [4, 1, 0x65, 0x58, 0x0A, 0x65, 0, 0];
/// W5 x W6 from B, no reads.
const MSC_STILL: Bytes = [4, 1, 0x65, 0, 0, 0, 0, 0];

/// Programs of 10,000 to 200,000 steps, another number of them in each turn.
fn shapes(turn: u16) -> [Program; 6] {
    let pair = |body: Program| body.ops(&[MAC, MSC]);
    [
        Program::new().looped(turn, |body| {
            body.repeated(20_000 + 1_111 * turn, MAC)
                .op(scaled(15, 0, 7, 3, 0))
        }),
        Program::new().looped(99 + turn, |body| {
            body.looped(99, pair).ops(&[store(4, 0, 1), sum(1)])
        }),
        Program::new()
            .ops(&[literal(3, 0xFFFF - turn), repeat_by(3), MAC])
            .repeated(17, MSC),
        Program::new().looped(32_767 - turn, pair).op(sum(0)),
        Program::new().looped(7, |a| {
            a.looped(9 + turn, |b| {
                b.op(add(1, 4))
                    .looped(11, |c| c.looped(12, pair).op(negate(1)))
                    .repeated(3, MAC)
            })
            .op(MSC)
        }),
        Program::new().looped(3_000 + 100 * turn, |body| {
            body.op(MAC)
                .looped(50, |inner| inner.ops(&[END_EARLY, MSC, add(0, 4), MAC]))
                .op(scaled(14, 1, 3, 5, 0))
        }),
    ]
}

/// Budgets that end in the middle of those.
fn spent_on_the_way() -> Vec<Bench> {
    let mut all = Vec::new();
    for (i, program) in (0..).zip(shapes(5)) {
        for budget in [10_007 + 31 * i, 17_777 + i] {
            all.push(set(program.clone()).budget(budget));
        }
    }
    // Words written in every pass, the last ones left as the budget ends.
    let writing = Program::new().looped(32_767, |body| {
        body.ops(&[[3, 0, 0x54, 0x38, 0x4A, 0x54, 2, 0], MSC_STILL])
    });
    for budget in [10_000, 33_333, 65_537, 65_538] {
        let bench = set(writing.clone()).x(13, 0x1010, 0x1027).w(13, 0x1014);
        all.push(bench.budget(budget));
    }
    all
}

fn millions() -> [Bench; 3] {
    let repeats = Program::new().looped(30, |body| body.repeated(32_767, MAC));
    let loops = Program::new().looped(9, |a| {
        a.looped(9, |b| {
            b.looped(99, |c| c.looped(49, |d| d.ops(&[MAC, MSC])).op(sum(0)))
                .op(negate(0))
        })
        .op(store(5, 0, 1))
    });
    let endless = Program::new().looped(32_767, |a| {
        a.looped(32_767, |b| b.op(MSC).repeated(32_767, MAC))
            .op(MSC)
    });
    [set(repeats), set(loops), set(endless).budget(1_234_567)]
}
