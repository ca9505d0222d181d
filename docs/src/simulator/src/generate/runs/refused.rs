//! Refusals 1 to 7 of runs, and what is just beside them.

use super::build::steps_of;
use crate::encode::encode_all;
use crate::file::blocks_of;
use crate::generate::bench::Bench;
use crate::generate::blocks::{wrong_headers, wrong_lengths, wrong_operations, wrong_sums};
use crate::generate::misses::misses;
use crate::generate::ops::*;
use crate::generate::places::{bad, good, By};
use crate::generate::steps;
use crate::operation::Operation;

pub fn cases() -> Vec<Bench> {
    let mut all = wrong_files();
    all.extend(wrong_fields());
    all.extend(placements());
    all.extend(steps::files::cases());
    all.extend(steps::settings::cases());
    all.extend(steps::states::cases());
    let budgets = [0, 1, 7, u32::MAX].into_iter().cycle();
    all.into_iter().zip(budgets).map(with_budget).collect()
}

/// The most steps of a run with the largest budget.
const LONG: u32 = 100_000;

/// A start in a loop and loops by register in each other may be long, so that their
/// budget is not the largest.
fn with_budget((bench, budget): (Bench, u32)) -> Bench {
    let is_inside = bench.case.state.flow.active > 0;
    let is_long = || steps_of(&bench.clone().budget(LONG)) == LONG;
    let most = if is_inside || is_long() { 300 } else { budget };
    bench.budget(budget.min(most))
}

/// Refusals 1 to 4 of a file; the settings and the state are wrong too in every
/// third of them.
fn wrong_files() -> Vec<Bench> {
    let files = [
        wrong_lengths(),
        wrong_sums(),
        wrong_headers(),
        wrong_operations(),
    ];
    let bench = |(i, file)| match i % 3 {
        0 => Bench::one(IDLE).file(file).traps(0x0800).at(9),
        _ => Bench::one(IDLE).file(file),
    };
    files.concat().into_iter().enumerate().map(bench).collect()
}

/// Refusal 4: two misses of each kind, after an operation that must not run.
fn wrong_fields() -> Vec<Bench> {
    let mut all = Vec::new();
    for misses in misses() {
        let ends = [misses.first(), misses.last()].into_iter().flatten();
        all.extend(ends.map(|&miss| Bench::of(&[store(4, 13, 2), miss, IDLE, IDLE])));
    }
    all
}

/// Refusal 5, and places that are good.
fn placements() -> Vec<Bench> {
    let programs = [
        bad(By::Literal),
        bad(By::Register),
        good(By::Literal),
        good(By::Register),
    ];
    let bench = |program: &Vec<Operation>| {
        let file = blocks_of(&encode_all(program));
        Bench::one(IDLE).file(file).w(1, 0x4003)
    };
    programs.concat().iter().map(bench).collect()
}
