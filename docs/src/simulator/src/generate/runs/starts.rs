//! Starts in the middle: every place of loops and repeats, passes and repeat left
//! from 1 to the most, all flags.

use super::build::{add, Program};
use crate::file::check_file;
use crate::generate::bench::Bench;
use crate::generate::ops::*;
use crate::state::loops_around;

pub fn cases() -> Vec<Bench> {
    let mut all = Vec::new();
    all.extend(every_place([1, 1, 1, 1], 1, 200));
    all.extend(every_place([2, 1, 3, 2], 3, 400));
    all.extend(every_place([3, 4, 1, 5], 2, 7));
    all.extend(every_place([32_768; 4], 65_536, 45));
    all.extend(every_place([1, 2, 2, 2], 40, 3_000));
    all.extend(repeats());
    all.extend(last_places());
    all.extend(flags());
    all
}

/// Four loops with repeats and sums of another weight in each of them.
fn nest() -> Bench {
    let program = Program::new().op(add(0, 4)).looped(1, |a| {
        a.op(add(1, 4))
            .looped(2, |b| {
                b.repeated(1, add(0, 5))
                    .looped(0, |c| {
                        c.op(add(1, 5))
                            .looped(1, |d| d.op(add(0, 6)).repeated(2, add(1, 6)))
                            .op(store(7, 13, 1))
                    })
                    .op(add(0, 7))
            })
            .repeated(3, add(1, 7))
    });
    let bench = program.op(sum(0)).bench();
    bench.w(4, 1).w(5, 0x20).w(6, 0xFC00).w(7, 0x4000)
}

/// Start at this place, with these passes of the loops around it and so much left
/// of a repeat.
fn start_at(bench: Bench, pc: u16, passes: [u32; 4], left: u32) -> Bench {
    let Ok((_, operations)) = check_file(&bench.case.file) else {
        return bench;
    };
    let mut bench = bench.at(pc);
    for (number, passes) in loops_around(pc, &operations).into_iter().zip(passes) {
        bench = bench.within(number, passes);
    }
    let repeats = pc > 0 && operations[usize::from(pc) - 1].is_repeat();
    bench.repeating(if repeats { left } else { 0 })
}

pub fn every_place(passes: [u32; 4], left: u32, budget: u32) -> Vec<Bench> {
    let places = 0..=17;
    let start = |pc| start_at(nest(), pc, passes, left).budget(budget);
    places.map(start).collect()
}

/// Repeat left of 1, some and 65,536, outside of loops and in the last place of
/// one; budgets that end in the repeat, at its end and after it.
fn repeats() -> Vec<Bench> {
    let mut all = Vec::new();
    for (left, extra) in [(1, 3), (2, 3), (7, 3), (255, 3), (256, 1), (65_536, 1)] {
        let plain = Program::new().repeated(5, add(0, 4)).op(mac(1)).bench();
        let plain = start_at(plain, 1, [1; 4], left);
        let last = Program::new()
            .looped(3, |body| body.op(add(1, 5)).repeated(1, mac(0)))
            .op(msc(1))
            .bench();
        let last = start_at(last, 3, [2; 4], left);
        for bench in [plain, last] {
            all.extend([left - 1, left, left + extra].map(|budget| bench.clone().budget(budget)));
            all.push(bench.budget(u32::MAX));
        }
    }
    all
}

/// The last place of a loop of two to four, with passes 1, 2 and 32,768.
fn last_places() -> Vec<Bench> {
    let mut all = Vec::new();
    for length in 2..=4 {
        let body = |body: Program| (0..length).fold(body, |body, _| body.op(add(0, 4)));
        let bench = Program::new().looped(0, body).op(add(1, 5)).bench();
        let last = length as u16;
        for (passes, budget) in [(1, 1), (1, 2), (2, 30), (32_768, 1), (32_768, 11)] {
            let start = start_at(bench.clone(), last, [passes; 4], 0);
            all.push(start.budget(budget));
        }
    }
    all
}

/// All flags in all ways before sums within the limits, kind 25, a mode change,
/// a store: O is redone with the accumulator written, S stays.
fn flags() -> Vec<Bench> {
    let programs = [
        vec![IDLE, add(0, 4)],
        vec![sum(1), IDLE, store(4, 13, 2)],
        vec![CLEAR_S, mac(0), set_mode(0x00C0), movsac(0, 1)],
        vec![shift_by(0, 2), negate(1)],
    ];
    let mut all = Vec::new();
    for (i, program) in programs.iter().enumerate() {
        for flags in 0..16 {
            let bench = Bench::of(program).budget(9).flags(flags);
            let traps = [0x0000, 0x0600, 0x0700][(i + usize::from(flags)) % 3];
            all.push(bench.traps(traps));
        }
    }
    all
}
