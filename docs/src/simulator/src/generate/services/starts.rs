//! Starts in the middle of loops and repeats: gone on with and cut again, or
//! started again at once. Starts where another program left off, from which a
//! first bag can start again and not go on.

use super::build::{AGAIN, ON};
use crate::bags::Serving;
use crate::generate::bench::Bench;
use crate::generate::ops::*;
use crate::generate::runs::build::{add, Program};
use crate::generate::runs::starts;

pub fn services() -> Vec<Serving> {
    let benches = starts::cases().into_iter().filter(is_inside);
    let mut all: Vec<Serving> = benches.enumerate().map(with_bags).collect();
    all.extend(misplaced().into_iter().enumerate().flat_map(both_ways));
    all.extend(never_mended());
    all.extend(without_bags());
    all.extend(few_restarts());
    all.extend(before_8());
    all
}

fn is_inside(bench: &Bench) -> bool {
    let flow = &bench.case.state.flow;
    flow.active > 0 || flow.repeat > 0
}

/// Budgets that end in loops and repeats. The sums read no memory, so the window
/// shows in the check alone.
fn with_bags((i, bench): (usize, Bench)) -> Serving {
    let word = i as u16;
    let serving = Serving::on(bench).window_at(i as u32 % 16, 1);
    match i % 4 {
        0 => serving
            .bag(0, ON, &[word])
            .bag(1, ON, &[word + 1])
            .bag(3, ON, &[word + 2])
            .bag(900, ON, &[word + 3]),
        1 => serving.bag(5, AGAIN, &[word]).bag(900, ON, &[word + 1]),
        2 => serving
            .bag(2, ON, &[word])
            .bag(7, AGAIN, &[word + 1])
            .bag(4, ON, &[word + 2]),
        _ => serving
            .bag(300, ON, &[word])
            .bag(300, AGAIN, &[word + 1])
            .bag(2, ON, &[word + 2]),
    }
}

/// Eight operations: DO at 1 with the last at 6, DO at 3 with the last at 5, REPEAT
/// at 4, sums elsewhere.
fn nest() -> Bench {
    let program = Program::new().op(add(0, 4)).looped(1, |outer| {
        outer
            .op(add(1, 5))
            .looped(2, |inner| inner.repeated(1, add(0, 6)))
            .op(add(1, 7))
    });
    program.op(sum(0)).bench()
}

/// At 5, inside both loops and the repeat, as it must be.
fn inside() -> Bench {
    nest().at(5).within(1, 2).within(3, 3).repeating(2)
}

/// Every place that does not fit, and one that does, with flags and mode words that are
/// kept.
fn misplaced() -> Vec<Bench> {
    let places = [far_off(), other_loops(), other_repeats(), used_slots()];
    let keeping = |(i, bench): (usize, Bench)| {
        let mode = [0x0020, 0x00C0, 0x10F3][i / 3 % 3];
        bench.flags(i as u8 % 16).mode(mode)
    };
    let benches = places.into_iter().flatten().enumerate();
    benches.map(keeping).collect()
}

/// pc above the count of operations, in loops and a repeat of a longer program too.
fn far_off() -> Vec<Bench> {
    let deep = [1, 2, 3, 4_000].into_iter();
    vec![
        nest().at(9),
        nest().at(u16::MAX),
        nest().at(300).within(17, 3).within(260, 9).repeating(40),
        deep.fold(nest().at(4_001), |bench, number| {
            bench.within(number, 32_768)
        }),
    ]
}

/// Loops missing, superfluous, others, in another order; passes and counts of loops
/// that no program has; and one place that fits, with 32,769 passes left.
fn other_loops() -> Vec<Bench> {
    vec![
        nest().at(2),
        nest().at(4).within(1, 2),
        nest().at(0).within(1, 2),
        nest().at(7).within(1, 1).within(3, 1),
        nest().at(4).within(3, 2).within(1, 2),
        nest().at(2).within(0, 2),
        nest().at(2).within(1, 0),
        nest().at(4).within(1, 2).within(3, 32_769),
        nest().at(0).active(1),
        nest().at(2).within(1, 2).active(255),
    ]
}

/// Repeat left where none is due, none where one is due, too many.
fn other_repeats() -> Vec<Bench> {
    vec![
        nest().repeating(1),
        nest().at(8).repeating(65_536),
        nest().at(2).within(1, 2).repeating(u32::MAX),
        inside().repeating(0),
        inside().repeating(65_537),
    ]
}

/// A slot that is not in use holds a number or passes.
fn used_slots() -> Vec<Bench> {
    vec![
        nest().slot(0, 0, 1),
        nest().slot(3, 1, 0),
        nest().at(8).slot(2, 0, 1),
        inside().slot(2, 0, 1),
        inside().slot(3, 7, 9),
    ]
}

/// The first bag starts again, or it goes on; the later ones do both.
fn both_ways((i, bench): (usize, Bench)) -> [Serving; 2] {
    let word = 0x0700 + i as u16;
    let serving = |first| {
        let serving = Serving::on(bench.clone()).window_at(i as u32 % 16, 1);
        match i % 3 {
            0 => {
                serving
                    .bag(0, first, &[word])
                    .bag(12, ON, &[word + 1])
                    .bag(90, AGAIN, &[word + 2])
            }
            1 => serving.bag(9, first, &[word]).bag(900, ON, &[word + 1]),
            _ => serving
                .bag(900, first, &[word])
                .bag(5, AGAIN, &[word + 1])
                .bag(3, ON, &[word + 2]),
        }
    };
    [serving([AGAIN, 2, 255][i % 3]), serving(ON)]
}

/// A or B of 41 bits, a bad mode word: a restart keeps them.
fn never_mended() -> Vec<Serving> {
    let edge = 1 << 39;
    let benches = [
        nest().both(edge, 5),
        nest().both(5, -edge - 1),
        nest().mode(0x0024),
        nest().mode(0x2020),
        inside().both(edge, edge).mode(0x8000),
        nest().at(9).both(-edge - 1, 0),
    ];
    let ways = |bench: Bench| {
        [AGAIN, ON].map(|first| Serving::on(bench.clone()).bags(&[(9, first), (9, AGAIN)]))
    };
    benches.into_iter().flat_map(ways).collect()
}

/// No bags, though restarts are lent: the state is judged as it came.
fn without_bags() -> Vec<Serving> {
    let benches = [
        nest().at(9),
        nest().at(2),
        nest().repeating(1),
        nest().slot(0, 0, 1),
        inside(),
    ];
    let none = |bench| Serving::on(bench).lists(3, 2).room(2, 1);
    benches.map(none).to_vec()
}

/// No restart for one bag and for three, one for three: starting again or not.
fn few_restarts() -> Vec<Serving> {
    let three = |bench, first| Serving::on(bench).bags(&[(9, first), (9, AGAIN), (9, ON)]);
    let mut all = Vec::new();
    for bench in [nest().at(9), nest().at(0).within(1, 2), inside()] {
        let one = Serving::on(bench.clone()).bags(&[(9, AGAIN)]);
        all.push(one.lists(0, 0));
        all.push(three(bench.clone(), AGAIN).lists(0, 0));
        all.push(three(bench.clone(), AGAIN).lists(1, 0));
        all.push(three(bench, ON).lists(1, 0));
    }
    all
}

/// A place that does not fit and another slice that is too short: 8 where the first
/// bag starts again, 7 where it goes on; 6 and 4 before either.
fn before_8() -> Vec<Serving> {
    let mut all = Vec::new();
    for first in [AGAIN, ON] {
        let on = |bench| Serving::on(bench).window_at(15, 1).bag(9, first, &[3]);
        let one = || on(nest().at(9));
        all.extend([one().window_at(16, 1), one().lists(1, 0)]);
        all.extend([one().room(0, 1), one().room(1, 0)]);
        all.push(on(nest().at(9).traps(1)));
        let kind_26 = [26, 0, 0, 0, 0, 0, 0, 0];
        all.push(on(nest().at(9).operations(&[IDLE, kind_26])));
    }
    all
}
