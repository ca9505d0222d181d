//! Endings by budget: programs of a few dozen steps, each with every budget from
//! 0 to one more than it needs, so that a line stands for each step of the run.

use super::build::{add, steps_of, words, Program};
use crate::generate::bench::Bench;
use crate::generate::ops::*;

pub fn cases() -> Vec<Bench> {
    let mut all: Vec<Bench> = programs().iter().flat_map(every_budget).collect();
    all.extend(at_the_end());
    all.extend(raised_by_the_last());
    all.extend(endless_budgets());
    all
}

/// Budgets 0 to one more than the steps up to done or a trap; for longer runs the
/// ends of that list.
fn every_budget(bench: &Bench) -> Vec<Bench> {
    let needed = steps_of(bench);
    let budgets = (0..=needed + 1).filter(|&budget| budget < 34 || budget + 3 > needed);
    budgets.map(|budget| bench.clone().budget(budget)).collect()
}

/// Programs that end done, or by each of the traps.
pub fn programs() -> Vec<Bench> {
    let mut all = done_programs();
    all.extend(blocked_programs());
    all.extend(raised_programs());
    all
}

fn done_programs() -> Vec<Bench> {
    vec![
        Program::new()
            .ops(&[add(0, 4), mac(1), mpy(0), msc(1)])
            .bench(),
        // A repeated operation in the last place of a loop.
        Program::new()
            .looped(2, |body| body.op(add(1, 5)).repeated(3, add(0, 4)))
            .op(sum(1))
            .bench(),
        // Loops in a loop, one after the other.
        Program::new()
            .looped(1, |body| {
                body.looped(2, |inner| inner.ops(&[add(0, 4), add(1, 6)]))
                    .looped(0, |inner| inner.ops(&[subtract(0), store(4, 13, 2)]))
                    .op(negate(1))
            })
            .bench(),
        // Kind 23 on the way, and a repeated kind 23.
        Program::new()
            .looped(7, |body| body.ops(&[add(0, 4), END_EARLY, add(1, 5)]))
            .looped(7, |body| {
                body.op(add(0, 6))
                    .repeated(1, END_EARLY)
                    .ops(&[add(1, 4), add(1, 7), sum(0)])
            })
            .bench(),
        // Words stored and written back in each pass.
        Program::new()
            .ops(&[literal(13, 0x1000), literal(0, 0x1010)])
            .looped(3, |body| {
                body.ops(&[[3, 0, 0x54, 0x48, 0x4A, 0x76, 2, 0], add(1, 4)])
                    .op(scaled(15, 0, 0, 0, 2))
            })
            .bench()
            .w(8, 0x1000)
            .w(10, 0x1010),
    ]
}

/// Traps 1 to 4 in the middle of repeats and loops.
fn blocked_programs() -> Vec<Bench> {
    vec![
        // Up and out of memory, in a repeat.
        Program::new()
            .looped(4, |body| body.op(add(0, 4)).repeated(2, store(4, 13, 2)))
            .bench(),
        // An odd address in the third pass: W1 steps by a literal's way round.
        Program::new()
            .looped(2, |body| body.ops(&[load(1, 1, 2), load(2, 1, 1)]))
            .bench()
            .words(words(5, 16, 0x1001, 0x1001), 8),
        // Down and out of the X part, in an X read.
        Program::new()
            .looped(9, |body| {
                body.ops(&[IDLE, [3, 1, 0x76, 0x28, 0, 6, 0, 0], add(0, 6)])
            })
            .bench(),
        // A shift that grows from pass to pass: 15, 16, 17.
        Program::new()
            .looped(5, |body| {
                body.ops(&[shift_by(0, 2), scaled(12, 1, 0, 2, 0), add(1, 3)])
                    .op(scaled(14, 1, 0, 2, 0))
            })
            .bench()
            .w(2, 15)
            .w(3, 1),
        // A shift that falls: -15, -16, -17, of B, in a repeat's wake.
        Program::new()
            .looped(5, |body| {
                body.op(shift_by(1, 7))
                    .ops(&[scaled(12, 0, 0, 7, 0), add(0, 3)])
                    .repeated(2, scaled(15, 0, 0, 7, 0))
            })
            .bench()
            .both(0, 3)
            .w(7, 0xFFF1)
            .w(3, 0xFFFF),
        // A fifth loop.
        Program::new()
            .looped(1, |a| {
                a.op(add(0, 4))
                    .looped(0, |b| {
                        b.op(add(1, 5))
                            .looped(1, |c| {
                                c.looped(2, |d| {
                                    d.op(add(0, 6))
                                        .looped(3, |e| e.ops(&[add(1, 7), IDLE]))
                                        .op(IDLE)
                                })
                                .op(IDLE)
                            })
                            .op(IDLE)
                    })
                    .op(IDLE)
            })
            .bench(),
    ]
}

/// Traps 5 to 7 in the middle of repeats and loops, and by the last operation.
fn raised_programs() -> Vec<Bench> {
    let near = (1 << 39) - 5_000_000_000;
    let adding = |target: u8| {
        let body = |body: Program| body.op(IDLE).repeated(2, add(target, 6));
        Program::new().looped(9, body).op(IDLE).bench()
    };
    vec![
        adding(0).both(near, 7).traps(0x0100).mode(0),
        adding(1).both(7, near).traps(0x0100).mode(0x0080),
        adding(0).both(7, 7).traps(0x0500),
        adding(1).both(-7, 7).traps(0x0600),
        adding(0).both(-7, 7).traps(0x0700).mode(0x0090),
        Program::new()
            .ops(&[add(1, 6), add(0, 6), IDLE, sum(1)])
            .bench()
            .traps(0x0200)
            .both(0, 1 << 30),
    ]
}

/// pc is the count of operations already: done whatever the budget.
pub fn at_the_end() -> Vec<Bench> {
    let mut all = Vec::new();
    for (i, budget) in [0, 1, 2, 65_536, u32::MAX].into_iter().enumerate() {
        let flags = [0b0000, 0b1111, 0b0110, 0b1001, 0b0100][i];
        all.push(Bench::one(mac(0)).at(2).budget(budget).flags(flags));
    }
    let looped = Program::new().looped(3, |body| body.ops(&[add(0, 4), add(1, 5)]));
    all.push(looped.clone().bench().at(3).budget(0));
    // One more step to do: spent, then done with the budget used up.
    let last = looped.bench().at(2);
    all.push(last.clone().within(0, 1).budget(0));
    all.push(last.clone().within(0, 1).budget(1));
    all.push(last.within(0, 2).budget(1));
    all
}

/// Traps 5, 6, 7 by the program's last operation with the last step of the
/// budget, with one step less and with more.
pub fn raised_by_the_last() -> Vec<Bench> {
    let high = (1 << 39) - 1;
    let starts = [
        (0x0100, 0, high, 1),
        (0x0100, 1, 1, high),
        (0x0400, 0, (1 << 31) - 1, 1),
        (0x0200, 1, 1, (1 << 31) - 1),
        (0x0700, 0, high, 1),
        (0x0300, 1, -(1 << 38), -(1 << 39)),
        (0x0400, 1, (1 << 31) - 1, 1),
        (0x0400, 0, -(1 << 31), -1),
        (0x0600, 0, 1 << 34, 5),
        (0x0200, 1, -1, -(1 << 31)),
        (0x0600, 1, 3, 1 << 34),
    ];
    let mut all = Vec::new();
    for (traps, target, a, b) in starts {
        let bench = Bench::of(&[IDLE, sum(target)]).both(a, b).traps(traps);
        all.extend([1, 2, 3].map(|budget| bench.clone().budget(budget)));
        let last = Program::new()
            .looped(2, |body| body.op(IDLE).repeated(1, sum(target)))
            .bench();
        let last = last.both(a, b).traps(traps).at(3).within(0, 1).repeating(1);
        all.extend([0, 1, 2].map(|budget| last.clone().budget(budget)));
    }
    all
}

/// The largest budget, and those around 2^31, with programs that end or trap.
fn endless_budgets() -> Vec<Bench> {
    let budgets = [u32::MAX, u32::MAX - 1, 1 << 31, (1 << 31) - 1, 65_536];
    let with = |(bench, budget): (Bench, u32)| bench.budget(budget);
    programs()
        .into_iter()
        .zip(budgets.into_iter().cycle())
        .map(with)
        .collect()
}
