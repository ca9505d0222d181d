//! Endings: each trap with bags after it that go on or start again, done and
//! started again, budgets of 0 and the largest.

use super::build::{AGAIN, ON};
use crate::bags::Serving;
use crate::generate::bench::Bench;
use crate::generate::ops::*;
use crate::generate::runs::budgets::programs;
use crate::generate::runs::build::{add, Program};

pub fn services() -> Vec<Serving> {
    let mut all = after_programs();
    all.extend(mended());
    all.extend(every_trap());
    all.extend(largest());
    all
}

/// Programs that are done or trap in loops and repeats: to their end, cut, and
/// then gone on with or started again.
fn after_programs() -> Vec<Serving> {
    let patterns: [&[(u32, u8)]; 5] = [
        &[(5_000, ON), (5_000, ON), (5_000, AGAIN)],
        &[(5_000, AGAIN), (5_000, AGAIN), (5, ON)],
        &[(7, ON), (4, ON), (5_000, ON), (0, ON)],
        &[(9, ON), (0, AGAIN), (11, ON), (5_000, ON), (3, AGAIN)],
        &[(0, ON), (0, AGAIN), (1, ON), (1, AGAIN), (5_000, ON)],
    ];
    let mut all = Vec::new();
    for bench in programs() {
        all.extend(patterns.map(|bags| Serving::on(bench.clone()).bags(bags)));
    }
    all
}

/// Traps 1 to 3 by a word of the window: the pointer or the shift is loaded anew
/// where the program starts again, and is the old one where it goes on.
fn mended() -> Vec<Serving> {
    let pointer = [literal(0, 0x1000), load(1, 0, 1), load(4, 1, 2), add(0, 4)];
    let shift = [literal(0, 0x1000), load(2, 0, 1), shift_by(0, 2), add(1, 4)];
    let words: [(&[_], [u16; 4]); 3] = [
        (&pointer, [0x1005, 0x1004, 0x1003, 0x1006]),
        (&pointer, [0x0FFE, 0x1004, 0x1020, 0x101E]),
        (&shift, [17, 3, 0xFFEF, 0xFFFF]),
    ];
    let mut all = Vec::new();
    for (program, [a, b, c, d]) in words {
        let serving = Serving::on(Bench::of(program)).window_at(0, 1);
        let serving = serving.bag(50, ON, &[a]).bag(50, ON, &[b]);
        let again = serving.clone().bag(50, AGAIN, &[b]).bag(50, ON, &[c]);
        all.push(again.bag(50, AGAIN, &[c]).bag(50, AGAIN, &[d]));
        all.push(
            serving
                .bag(0, AGAIN, &[b])
                .bag(2, ON, &[c])
                .bag(9, ON, &[d]),
        );
    }
    all
}

/// A program in two loops, and an operation in the inner one's last place.
fn nested(operation: crate::generate::forms::Bytes) -> Bench {
    let program = Program::new().op(add(1, 4)).looped(2, |outer| {
        outer
            .looped(1, |inner| inner.op(IDLE).repeated(1, operation))
            .op(add(1, 5))
    });
    program.bench().both(0, 0)
}

/// Each trap in the last place of two loops, then two bags that go on or start
/// again in every way.
fn every_trap() -> Vec<Serving> {
    let top = (1 << 39) - 1;
    let benches = [
        nested(load(6, 3, 1)).w(3, 0x1001),
        nested(store(6, 3, 2)).w(3, 0x101C),
        nested(shift_by(0, 3)).w(3, 17),
        nested(sum(0)).both(top, 1).traps(0x0100),
        nested(add(1, 6)).both(1, top).traps(0x0300).mode(0x0080),
        nested(sum(0)).both((1 << 31) - 1, 1).traps(0x0400),
        nested(add(1, 6)).both(1, (1 << 31) - 1).traps(0x0200),
        four_loops(),
    ];
    let mut all = Vec::new();
    for bench in benches {
        for ways in [[ON, ON], [ON, AGAIN], [AGAIN, ON], [AGAIN, AGAIN]] {
            let [second, third] = ways;
            let serving = Serving::on(bench.clone()).bags(&[(90, ON), (90, second)]);
            all.push(serving.bags(&[(90, third)]));
        }
    }
    all
}

/// A fifth loop: trap 4.
fn four_loops() -> Bench {
    let inner = |d: Program| d.looped(0, |e| e.op(IDLE).op(IDLE)).op(IDLE);
    let program = Program::new().looped(0, |a| {
        a.looped(0, |b| b.looped(0, |c| c.looped(0, inner).op(IDLE)).op(IDLE))
            .op(IDLE)
    });
    program.bench()
}

/// The largest budget on programs that end or trap, and 0 on all of them.
fn largest() -> Vec<Serving> {
    let bags = [
        (u32::MAX, ON),
        (u32::MAX, AGAIN),
        (0, AGAIN),
        (0, ON),
        (u32::MAX - 1, ON),
    ];
    let served = |bench| Serving::on(bench).bags(&bags);
    programs().into_iter().map(served).collect()
}
