//! Random runs that wish 12 is about: saturation off, sums that leave the limits
//! and go on, nothing in the program that looks at the upper bits.

use super::case::{file_of, styled};
use super::layout::Layout;
use super::program::Style;
use super::random::Random;
use super::special;
use super::start::{accumulator, flow_at};
use crate::cases::Case;
use crate::congruence::is_bound;
use crate::ending::Ending;
use crate::mode::Mode;
use crate::operation::*;

/// A budget that is enough for most programs, and that the longest numbers can be
/// had with.
const ENOUGH: u32 = 2_000;
/// SATA and SATB.
const SATURATIONS: u16 = 0x00C0;

/// A run of any program without what is barred.
fn any_run(random: &mut Random) -> Case {
    let layout = Layout::random(random);
    let style = Style::onward(random);
    styled(random, &layout, style)
}

/// One operation of a sum that is carried on.
fn sum(random: &mut Random) -> Operation {
    let target = random.pick(&[Target::A, Target::B]);
    let quiet = Prefetch { x: None, y: None };
    let factors = Factors { m: 4, n: 5 };
    let scaled = Scaled {
        target,
        shift: random.range(-8, 7) as i8,
        operand: Operand::Register(random.range(4, 7) as Register),
    };
    match random.below(10) {
        0 => Operation::Negate(target),
        1 | 2 => Operation::Subtract(target),
        3 => Operation::Mac(target, factors, quiet, WriteBack::None),
        4 => Operation::Msc(target, factors, quiet, WriteBack::None),
        5 => Operation::Add(scaled),
        _ => Operation::AddBoth(target),
    }
}

/// Sums over and over, in one loop or in two.
fn growth(random: &mut Random) -> Vec<Operation> {
    let is_nested = random.percent(40);
    let body = random.range(2, 6) as u16;
    let mut operations = Vec::new();
    if is_nested {
        operations.push(outer(random, body + 2));
    }
    operations.push(Operation::DoLiteral {
        count: random.range(5, 1_200) as u16,
        last: operations.len() as u16 + body,
    });
    operations.extend((0..body + u16::from(is_nested)).map(|_| sum(random)));
    operations
}

/// Numbers that grow, from any place of the loops.
fn growing_run(random: &mut Random) -> Case {
    let mut case = any_run(random);
    let operations = growth(random);
    let pc = match random.below(5) {
        0..=2 => 0,
        _ => random.below(operations.len() + 1) as u16,
    };
    case.file = file_of(&operations);
    case.state.flow = flow_at(random, &operations, pc);
    case
}

/// DO up to this last operation, by a literal or by W3.
fn outer(random: &mut Random, last: u16) -> Operation {
    match random.below(2) {
        0 => Operation::DoRegister { register: 3, last },
        _ => {
            let count = random.below(4) as u16;
            Operation::DoLiteral { count, last }
        }
    }
}

/// None, a few, as many as the run needs or about that, enough, and where it ends by
/// itself the most there can be.
fn budget(random: &mut Random, case: &Case) -> u32 {
    let (outcome, _) = case.run(ENOUGH);
    let steps = outcome.steps;
    match random.below(20) {
        0 => 0,
        1..=3 => random.range(1, 8) as u32,
        4..=6 => random.range(0, i64::from(steps)) as u32,
        7 => steps,
        8 => steps.saturating_sub(1),
        9 => steps + 1,
        10 if outcome.ending != Ending::Spent => u32::MAX,
        _ => ENOUGH,
    }
}

/// The start that the wish asks for, all else free.
fn settle(random: &mut Random, case: &mut Case) {
    case.settings.trap_word = 0;
    let mode = random.word() & Mode::GOOD_BITS & !SATURATIONS;
    case.state.mode = Mode(mode);
    if random.percent(70) {
        case.state.accumulators = [accumulator(random), accumulator(random)];
    }
    let mut flags = || std::array::from_fn(|_| random.percent(30));
    (case.state.overflow, case.state.saturated) = (flags(), flags());
    case.budget = budget(random, case);
}

/// An accepted run that the wish is about.
pub fn bound_run(random: &mut Random) -> Case {
    loop {
        let mut case = match random.below(20) {
            0..=9 => any_run(random),
            10 => special::deep_run(random),
            11 => special::access_run(random),
            _ => growing_run(random),
        };
        settle(random, &mut case);
        if is_bound(&case) {
            return case;
        }
    }
}
