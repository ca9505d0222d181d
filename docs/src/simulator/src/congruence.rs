//! Wish 12: with saturation off the engine's sums are those of the ledger that goes
//! on, modulo 2^40. The statement is held against one case, as the engine, document
//! 01's ledger and the ledger that goes on run it.

use crate::cases::Case;
use crate::ending::Ending;
use crate::engine::accept;
use crate::exact::{low_bits, within_limits};
use crate::file::check_file;
use crate::integer::Integer;
use crate::ledger::{ledger_run, LedgerEnding, LedgerOutcome};
use crate::onward::{onward_run, OnwardOutcome};
use crate::operation::{Operation, Target, WriteBack};
use crate::split::{engine_part, Part};
use crate::state::State;
use crate::whole::Whole;

/// The bits of an accumulator.
pub const WIDTH: u32 = 40;

/// The points of the statement. The first eight are asked of bound cases, the last
/// three of every case.
#[derive(Clone, Copy, Debug, PartialEq, Eq, PartialOrd, Ord)]
pub enum Point {
    /// A and B are the low 40 bits, read as signed, of the ledger's numbers.
    LowBits,
    /// A and B equal the ledger's numbers modulo 2^40.
    Congruent,
    Registers,
    Memory,
    /// pc, all slots of loops and their count, repeat left.
    Flow,
    Mode,
    Steps,
    Ending,
    /// Where document 01's ledger did not leave, the one that goes on ends as it
    /// does in everything, its list included.
    Within,
    /// Where it left after k steps, the one that goes on is the same with budget k.
    UpToLeft,
    /// And with budget k + 1 it keeps a result outside the limits.
    Kept,
}

/// The runs that the statement is about: of a case, the last with another budget.
#[derive(Clone, Copy)]
pub struct Runs {
    pub engine: fn(&Case) -> Part<State>,
    pub ledger: fn(&Case) -> LedgerOutcome,
    pub onward: fn(&Case, u32) -> OnwardOutcome,
}

impl Runs {
    /// The engine's and the ledgers' own.
    pub const OWN: Runs = Runs {
        engine: engine_of,
        ledger: ledger_of,
        onward: onward_of,
    };
}

pub fn engine_of(case: &Case) -> Part<State> {
    engine_part(case, &case.state, &case.memory, case.budget)
}

pub fn ledger_of(case: &Case) -> LedgerOutcome {
    let (settings, state) = (&case.settings, &case.state);
    ledger_run(&case.file, settings, state, &case.memory, case.budget)
}

pub fn onward_of(case: &Case, budget: u32) -> OnwardOutcome {
    let (settings, state) = (&case.settings, &case.state);
    onward_run(&case.file, settings, state, &case.memory, budget)
}

/// Kinds 11, 14, 15, 24, 25 and every write-back.
pub fn is_barred(operation: &Operation) -> bool {
    matches!(operation.kind(), 11 | 14 | 15 | 24 | 25) || operation.write_back() != WriteBack::None
}

/// Whether the wish is about a case: an accepted call of a program without barred
/// operations, reached or not, with trap word 0 and both saturations off.
pub fn is_bound(case: &Case) -> bool {
    let words = case.memory.len();
    let program = accept(&case.file, &case.settings, &case.state, words);
    let saturates = |target| case.state.mode.saturates(target);
    program.is_ok_and(|operations| !operations.iter().any(is_barred))
        && case.settings.trap_word == 0
        && !saturates(Target::A)
        && !saturates(Target::B)
}

/// What is wrong with a case: nothing, for every one.
pub fn faults(case: &Case) -> Vec<Point> {
    faults_with(case, Runs::OWN)
}

/// The same with the runs that the statement is about.
pub fn faults_with(case: &Case, runs: Runs) -> Vec<Point> {
    let onward = (runs.onward)(case, case.budget);
    let mut faults = Vec::new();
    if is_bound(case) {
        faults = differences(&(runs.engine)(case), &onward);
    }
    let ledger = (runs.ledger)(case);
    faults.extend(match ledger.ending {
        LedgerEnding::Left => faults_after(case, runs, ledger),
        LedgerEnding::AsRun(_) => not_holding(&[(Point::Within, onward == ledger.with_numbers())]),
    });
    faults
}

fn not_holding(points: &[(Point, bool)]) -> Vec<Point> {
    let wrong = points.iter().filter(|(_, holds)| !holds);
    wrong.map(|(point, _)| *point).collect()
}

/// Whether a kept value equals a number modulo 2^bits.
pub fn is_congruent(kept: i64, number: &Integer, bits: u32) -> bool {
    let difference = number.clone() - Integer::from(i128::from(kept));
    difference.modulo_power(bits) == 0
}

/// Where the engine's run and that of the ledger that goes on differ, O flags left
/// out, whether the wish is about them or not.
pub fn differences(engine: &Part<State>, ledger: &OnwardOutcome) -> Vec<Point> {
    let (core, exact) = (&engine.core, &ledger.state);
    let sums = || core.accumulators.into_iter().zip(&exact.accumulators);
    let low = sums().all(|(kept, number)| i128::from(kept) == low_bits(number, WIDTH));
    let congruent = sums().all(|(kept, number)| is_congruent(kept, number, WIDTH));
    not_holding(&[
        (Point::LowBits, low),
        (Point::Congruent, congruent),
        (Point::Registers, core.w == exact.w),
        (Point::Memory, engine.memory == ledger.memory),
        (Point::Flow, core.flow == exact.flow),
        (Point::Mode, core.mode == exact.mode),
        (Point::Steps, engine.steps == ledger.steps),
        (Point::Ending, engine.ending == ledger.ending),
    ])
}

/// Where document 01's ledger left: the same with the budget up to there, and one
/// step further a number outside the limits.
fn faults_after(case: &Case, runs: Runs, ledger: LedgerOutcome) -> Vec<Point> {
    let (steps, pc) = (ledger.steps, usize::from(ledger.state.flow.pc));
    let stopped = LedgerOutcome {
        ending: LedgerEnding::AsRun(Ending::Spent),
        ..ledger
    };
    let next = (runs.onward)(case, steps + 1);
    let program = check_file(&case.file).ok();
    let written = program.and_then(|(_, all)| all.get(pc)?.written());
    let is_outside = |target: Target| {
        let number = &next.state.accumulators[target.index()];
        !within_limits(number, next.state.mode, target)
    };
    let up_to = (runs.onward)(case, steps) == stopped.with_numbers();
    not_holding(&[
        (Point::UpToLeft, up_to),
        (Point::Kept, written.is_some_and(is_outside)),
    ])
}
