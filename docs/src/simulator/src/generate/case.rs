//! Accepted cases.

use super::layout::Layout;
use super::program::{program, Style};
use super::random::Random;
use super::short_loops::short_run;
use super::start;
use crate::cases::{Case, What};
use crate::encode::encode_all;
use crate::file::{file_length, write, MOST_OPERATIONS};
use crate::operation::{Factors, Operation, Prefetch, Target};
use crate::settings::Settings;
use crate::state::State;

/// The program file of accepted operations.
pub fn file_of(operations: &[Operation]) -> Vec<u8> {
    let mut file = vec![0; file_length(operations.len())];
    let written = write(&encode_all(operations), &mut file);
    debug_assert_eq!(written, Ok(file.len()));
    file
}

/// The file of document 01's example: literal 3 to W4, literal FFFE hex to W5,
/// MPY to A.
pub fn example() -> Vec<u8> {
    let none = Prefetch { x: None, y: None };
    file_of(&[
        Operation::Literal(4, 3),
        Operation::Literal(5, 0xFFFE),
        Operation::Mpy(Target::A, Factors { m: 4, n: 5 }, none),
    ])
}

fn operation_count(random: &mut Random) -> usize {
    match random.below(200) {
        0 => MOST_OPERATIONS,
        1 => MOST_OPERATIONS - random.below(63),
        2..=8 => 63,
        9..=15 => 64,
        16..=18 => 126 + random.below(2),
        19..=30 => random.range(64, 400) as usize,
        31..=35 => 1,
        _ => random.range(2, 62) as usize,
    }
}

fn budget(random: &mut Random) -> u32 {
    let most = match random.below(100) {
        0..=2 => 0,
        3..=12 => 10,
        13..=50 => 300,
        51..=91 => 3_000,
        _ => 60_000,
    };
    random.range(most / 10, most) as u32
}

/// One accepted run; with `clears` kind 25 may be in it.
pub fn candidate(random: &mut Random, clears: bool) -> Case {
    let layout = Layout::random(random);
    let style = Style::random(random, clears);
    styled(random, &layout, style)
}

/// One accepted run of a program of this style.
pub fn styled(random: &mut Random, layout: &Layout, style: Style) -> Case {
    let count = operation_count(random);
    let operations = program(random, layout, style, count);
    Case {
        what: What::Run,
        file: file_of(&operations),
        memory: layout.memory(random),
        budget: budget(random),
        settings: layout.settings,
        state: start::state(random, layout, &operations, style.indexed_y),
    }
}

/// An accepted run: mostly the longest of a few; now and then with exactly the
/// budget it needs, or one less.
pub fn accepted_run(random: &mut Random, clears: bool) -> Case {
    let first = candidate(random, clears);
    if random.percent(35) {
        return first;
    }
    let mut best = (steps_of(&first), first);
    for _ in 0..3 {
        let next = candidate(random, clears);
        let steps = steps_of(&next);
        if steps > best.0 {
            best = (steps, next);
        }
    }
    let (steps, mut case) = best;
    if random.percent(8) {
        case.budget = steps.saturating_sub(random.below(2) as u32);
    }
    case
}

/// The length that a run is chosen by.
fn steps_of(case: &Case) -> u32 {
    let (outcome, _) = short_run(case, case.budget);
    outcome.steps
}

/// A load of an accepted file or a write of accepted operations.
pub fn accepted_copy(random: &mut Random, what: What) -> Case {
    let layout = Layout::random(random);
    let style = Style::random(random, true);
    let count = operation_count(random);
    let operations = program(random, &layout, style, count);
    let (file, needed) = match what {
        What::Write => (encode_all(&operations), file_length(count)),
        _ => (file_of(&operations), 8 * count),
    };
    let lent = match random.below(4) {
        0 => needed,
        1 => needed - 1,
        2 => random.below(needed),
        _ => needed + random.below(600),
    };
    Case {
        what,
        file,
        memory: Vec::new(),
        budget: lent as u32,
        settings: Settings::plain(1),
        state: State::reset(),
    }
}
