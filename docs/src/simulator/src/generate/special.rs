//! Runs that are made for one thing: five loops in each other (trap 4), sums
//! that leave the limits or overflow (traps 5, 6, 7), rounding, bad addresses.

use super::case::{candidate, file_of};
use super::layout::address_of;
use super::random::Random;
use crate::cases::Case;
use crate::flow::Flow;
use crate::mode::Mode;
use crate::operation::*;
use crate::settings::{Circular, Settings};

/// A nest of four to six loops: `depth` DOs, then enough operations for their
/// lasts, inner ones lower.
fn nest(random: &mut Random) -> Vec<Operation> {
    let depth = random.range(4, 6) as usize;
    let before = random.below(3);
    let mut operations = vec![Operation::Literal(3, 1); before];
    let end = before + 2 * depth + 1;
    for level in 0..depth {
        let last = (end - level) as u16;
        operations.push(Operation::DoLiteral {
            count: random.below(3) as u16,
            last,
        });
    }
    while operations.len() <= end {
        let register = random.range(4, 7) as u8;
        operations.push(match random.below(6) {
            0 => Operation::EndEarly,
            1 => Operation::AddBoth(Target::A),
            _ => Operation::Literal(register, random.telling_word()),
        });
    }
    operations
}

pub fn deep_run(random: &mut Random) -> Case {
    let mut case = candidate(random, true);
    case.file = file_of(&nest(random));
    case.state.flow = Flow::reset();
    case.budget = random.range(1, 2_000) as u32;
    case
}

/// One operation on accumulators and registers alone.
fn sum(random: &mut Random) -> Operation {
    let target = random.pick(&[Target::A, Target::B]);
    match random.below(8) {
        0 => Operation::Negate(target),
        1 => Operation::Subtract(target),
        2 => Operation::Literal(2, random.range(-18, 4) as u16),
        3 | 4 => Operation::ShiftBy(target, 2),
        _ => Operation::AddBoth(target),
    }
}

/// Accumulators near their limits and additions, with any trap word.
pub fn overflowing_run(random: &mut Random) -> Case {
    let mut case = candidate(random, true);
    let count = random.range(3, 20);
    let mut operations: Vec<Operation> = (0..count).map(|_| sum(random)).collect();
    case.state.accumulators = [
        random.range(-(1 << 38), 1 << 38),
        random.range(-(1 << 33), 1 << 33),
    ];
    if random.percent(50) {
        (operations[0], case.state.accumulators) = at_a_limit(random);
    }
    case.file = file_of(&operations);
    case.state.flow = Flow::reset();
    let wide = random.pick(&[0, 0, 0x00D0, 0x00C0]);
    case.state.mode = Mode(random.word() & Mode::GOOD_BITS | wide);
    case.settings.trap_word = match random.below(2) {
        0 => 0x0100,
        _ => 0x0100 * random.below(8) as u16,
    };
    case
}

/// An operation on two numbers with its result at a limit or next to it.
fn at_a_limit(random: &mut Random) -> (Operation, [i64; 2]) {
    let sign = random.pick(&[1, -1]);
    let result = sign * random.pick(&[1 << 31, 1 << 39]) + random.range(-2, 2);
    let part = sign * random.range(3, 70_000);
    let target = random.pick(&[Target::A, Target::B]);
    match random.below(3) {
        0 => (Operation::AddBoth(target), [result - part, part]),
        1 => (Operation::Subtract(Target::A), [result - part, -part]),
        _ => (Operation::Subtract(Target::B), [-part, result - part]),
    }
}

/// Stores of accumulators that are ties, or next to them, in every form.
pub fn rounding_run(random: &mut Random) -> Case {
    let mut case = candidate(random, true);
    let mut operations = Vec::new();
    for _ in 0..random.range(3, 12) {
        let target = random.pick(&[Target::A, Target::B]);
        let scaled = Scaled {
            target,
            shift: random.pick(&[0, 0, 1, -1, 7, -8]),
            operand: Operand::Register(random.range(0, 11) as u8),
        };
        let quiet = Prefetch { x: None, y: None };
        operations.push(match random.below(6) {
            0 => Operation::Sac(scaled),
            1 | 2 => Operation::SacR(scaled),
            3 => Operation::Movsac(target, quiet, WriteBack::ToW13),
            4 => Operation::Negate(target),
            _ => Operation::SetMode(Mode(random.word() & Mode::GOOD_BITS)),
        });
    }
    case.file = file_of(&operations);
    case.state.flow = Flow::reset();
    case.state.accumulators = std::array::from_fn(|_| {
        let near = random.pick(&[-1, 0, 0, 0, 1]);
        let tie = 65_536 * random.range(-32_770, 32_769) + 32_768;
        tie * random.pick(&[1, 1, 2, 128]) + near
    });
    case.settings.trap_word &= 0x0100;
    case
}

/// An address that is good for words `first` up to `end`, or bad in one or two
/// ways.
fn address(random: &mut Random, first: usize, end: usize) -> u16 {
    let good = address_of(first + random.below(end - first));
    let low = address_of(first).wrapping_sub(2);
    let high = (address_of(end - 1)).wrapping_add(2);
    match random.below(6) {
        0 => good + 1,
        1 => random.pick(&[low, high, 0, 0x0FFE]),
        2 => random.pick(&[low, high, 0, 0x0FFE]) + 1,
        _ => good,
    }
}

/// One operation with an X read, a Y read and perhaps a write, each address
/// good or bad, so that the order of traps 1 and 2 shows.
pub fn access_run(random: &mut Random) -> Case {
    let mut case = candidate(random, true);
    let (words, x_words) = (case.memory.len(), usize::from(case.settings.x_words));
    let w = &mut case.state.w;
    w[8] = address(random, 0, x_words);
    w[10] = address(random, x_words, words);
    w[13] = address(random, 0, words);
    let at = |pointer| ReadAddress::Stepped { pointer, step: 2 };
    let target = random.pick(&[Target::A, Target::B]);
    let prefetch = Prefetch {
        x: Some(Read {
            from: at(8),
            destination: 4,
        }),
        y: Some(Read {
            from: at(10),
            destination: 5,
        }),
    };
    let both = Difference {
        x: at(8),
        y: at(10),
        destination: 6,
    };
    let back = random.pick(&[WriteBack::None, WriteBack::ToW13, WriteBack::ToMemory]);
    let operation = match random.below(4) {
        0 => Operation::Ed(target, 4, both),
        1 => Operation::Edac(target, 6, both),
        2 => Operation::Movsac(target, prefetch, back),
        _ => Operation::Mac(target, Factors { m: 4, n: 5 }, prefetch, back),
    };
    case.file = file_of(&[operation, Operation::Literal(7, 1)]);
    case.state.flow = Flow::reset();
    case.budget = 10;
    case
}

/// Pointers at the top of the largest memory, where an unreduced sum passes
/// 65,535: corrected there by X's buffer, or reduced to 16 bits.
pub fn top_run(random: &mut Random) -> Case {
    let mut case = candidate(random, true);
    let words = 30_720;
    case.memory.resize(words, 0x1234);
    let mut settings = Settings::plain(100);
    if random.percent(75) {
        settings.x = Circular {
            register: random.pick(&[0, 13]),
            start: address_of(words - random.range(3, 6) as usize),
            end: 0xFFFF,
        };
    }
    case.settings = settings;
    for register in [0, 13] {
        let back = random.range(1, 6) as usize;
        case.state.w[register] = address_of(words - back);
    }
    let quiet = Prefetch { x: None, y: None };
    let mut operations = Vec::new();
    for _ in 0..random.range(4, 12) {
        let change = random.pick(&[Change::Up, Change::Up, Change::Up, Change::Down]);
        operations.push(match random.below(4) {
            0 => Operation::Clr(Target::A, quiet, WriteBack::ToMemory),
            1 => Operation::Store {
                from: 5,
                pointer: 0,
                change,
            },
            _ => Operation::Load {
                to: 4,
                pointer: 0,
                change,
            },
        });
    }
    case.file = file_of(&operations);
    case.state.flow = Flow::reset();
    case.budget = 1_000;
    case
}
