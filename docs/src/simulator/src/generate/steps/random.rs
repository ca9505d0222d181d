//! Random single steps: any place of a random program, with now and then
//! something off.

use crate::cases::{Case, What};
use crate::file::{check_file, BLOCK};
use crate::generate::case::file_of;
use crate::generate::damage::damage_run;
use crate::generate::edges::{settings_case, state_case};
use crate::generate::layout::Layout;
use crate::generate::program::{program, Style};
use crate::generate::random::Random;
use crate::generate::special;
use crate::generate::start;
use crate::generate::tiny::{blocks_case, field_case, placement_case};
use crate::operation::Operation;
use crate::state::loops_around;
use crate::steps::BUDGET;

/// The longest file and the most words of the stored random cases.
const SMALL_FILE: usize = 2 * BLOCK;
const SMALL_MEMORY: usize = 120;

/// A place of the program where at most four loops are active, now and then the
/// end. Programs are full of literals, so most of those are passed over.
fn place(random: &mut Random, operations: &[Operation]) -> u16 {
    if random.percent(3) {
        return operations.len() as u16;
    }
    loop {
        let pc = random.below(operations.len());
        let is_literal = matches!(operations[pc], Operation::Literal(..));
        let fits = loops_around(pc as u16, operations).len() <= 4;
        if fits && (!is_literal || random.percent(8)) {
            return pc as u16;
        }
    }
}

/// A step at any place of a random program, which is accepted.
fn accepted(random: &mut Random) -> Case {
    let layout = Layout::random(random);
    let style = Style::random(random, true);
    let count = match random.below(30) {
        0 => random.range(64, 400) as usize,
        1 => random.range(1, 4) as usize,
        _ => random.range(5, 63) as usize,
    };
    let operations = program(random, &layout, style, count);
    let mut state = start::state(random, &layout, &operations, style.indexed_y);
    let pc = place(random, &operations);
    state.flow = start::flow_at(random, &operations, pc);
    Case {
        what: What::Run,
        file: file_of(&operations),
        memory: layout.memory(random),
        budget: BUDGET,
        settings: layout.settings,
        state,
    }
}

/// A step at any place of four to six loops in each other.
fn deep(random: &mut Random) -> Case {
    let mut case = special::deep_run(random);
    if let Ok((_, operations)) = check_file(&case.file) {
        let pc = place(random, &operations);
        case.state.flow = start::flow_at(random, &operations, pc);
    }
    case
}

/// A case of the mix: mostly accepted, else made for one thing, or with its
/// file, settings or state off.
fn any(random: &mut Random) -> Case {
    match random.below(100) {
        0..=54 => accepted(random),
        55..=59 => deep(random),
        60..=67 => special::access_run(random),
        68..=76 => special::overflowing_run(random),
        77..=81 => special::rounding_run(random),
        82 => special::top_run(random),
        83..=88 => {
            let mut case = accepted(random);
            damage_run(random, &mut case);
            case
        }
        89..=92 => settings_case(random),
        93..=96 => state_case(random),
        97 => run_of(random, blocks_case),
        98 => run_of(random, field_case),
        _ => run_of(random, placement_case),
    }
}

/// The next of these cases that is a run's.
fn run_of(random: &mut Random, case: fn(&mut Random) -> Case) -> Case {
    loop {
        let case = case(random);
        if case.what == What::Run {
            return case;
        }
    }
}

/// A random single step.
pub fn random_step(random: &mut Random) -> Case {
    let mut case = any(random);
    case.budget = BUDGET;
    case
}

/// The next random single step with a small file and memory.
pub fn small_step(random: &mut Random) -> Case {
    loop {
        let case = random_step(random);
        if case.file.len() <= SMALL_FILE && case.memory.len() <= SMALL_MEMORY {
            return case;
        }
    }
}
