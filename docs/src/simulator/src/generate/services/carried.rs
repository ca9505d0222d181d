//! Starts of sums that are carried from bag to bag: a filter over both parts of
//! memory that never clears its accumulator, so that it leaves the limits in the
//! first bag, in a later one, or never.

use crate::accumulator::limits;
use crate::cases::{Case, What};
use crate::generate::case::file_of;
use crate::generate::layout::address_of;
use crate::generate::random::Random;
use crate::generate::simple::random_mode;
use crate::generate::start::accumulator;
use crate::operation::*;
use crate::settings::Settings;
use crate::state::State;

/// X at W8 + 2 to W4, Y at W10 + 2 to W5.
fn both_reads() -> Prefetch {
    let read = |pointer, destination| Read {
        from: ReadAddress::Stepped { pointer, step: 2 },
        destination,
    };
    Prefetch {
        x: Some(read(8, 4)),
        y: Some(read(10, 5)),
    }
}

/// A store of an accumulator through W13.
fn store(random: &mut Random, target: Target) -> Operation {
    let scaled = Scaled {
        target,
        shift: random.range(-2, 4) as i8,
        operand: Operand::Memory {
            pointer: 13,
            change: random.pick(&[Change::Stay, Change::Up]),
        },
    };
    match random.below(4) {
        0 => Operation::Sac(scaled),
        _ => Operation::SacR(scaled),
    }
}

/// So many products added, by REPEAT or by a loop that stores in each pass.
fn sum(random: &mut Random, target: Target, taps: u16, place: u16) -> Vec<Operation> {
    let factors = Factors { m: 4, n: 5 };
    let mac = |back| Operation::Mac(target, factors, both_reads(), back);
    if random.percent(50) {
        return vec![Operation::RepeatLiteral(taps - 1), mac(WriteBack::None)];
    }
    let back = random.pick(&[WriteBack::None, WriteBack::ToMemory, WriteBack::ToW13]);
    let begin = Operation::DoLiteral {
        count: taps - 1,
        last: place + 2,
    };
    let scaled = Scaled {
        target,
        shift: random.range(0, 3) as i8,
        operand: Operand::Register(6),
    };
    vec![begin, mac(back), Operation::SacR(scaled)]
}

fn program(random: &mut Random, half: usize) -> Vec<Operation> {
    let target = random.pick(&[Target::A, Target::B]);
    let taps = random.range(2, half as i64 - 1) as u16;
    let room = half - usize::from(taps);
    let mut operations = vec![
        Operation::Literal(8, address_of(random.below(room))),
        Operation::Literal(10, address_of(half + random.below(room))),
        Operation::Literal(13, address_of(random.below(half))),
        Operation::Movsac(target, both_reads(), WriteBack::None),
    ];
    let place = operations.len() as u16;
    operations.extend(sum(random, target, taps, place));
    operations.push(store(random, target));
    if random.percent(40) {
        operations.push(Operation::AddBoth(target.other()));
        operations.push(store(random, target.other()));
    }
    operations
}

/// Words whose products rather add up than cancel.
fn words(random: &mut Random, count: usize) -> Vec<u16> {
    let most = random.pick(&[100, 1_000, 5_000, 20_000, 32_767]);
    let word = |_| random.range(-most / 4, most) as u16;
    (0..count).map(word).collect()
}

/// Accumulators from which a few more bags like this one leave the limits.
fn towards_a_limit(random: &mut Random, case: &Case) -> [i64; 2] {
    let (whole, _) = case.run(1_000);
    [Target::A, Target::B].map(|target| {
        let gain = whole.state.accumulators[target.index()];
        let (low, high) = limits(case.state.mode, target);
        let limit = if gain < 0 { low } else { high };
        let left = gain * random.range(0, 4) + gain / 2;
        (limit - left).clamp(low, high)
    })
}

fn accumulators(random: &mut Random, case: &Case) -> [i64; 2] {
    match random.below(4) {
        0 => [0; 2],
        1 => [accumulator(random), accumulator(random)],
        _ => towards_a_limit(random, case),
    }
}

/// A start at operation 0, with any mode word and trap word.
pub fn start(random: &mut Random) -> Case {
    let half = random.range(6, 20) as usize;
    let mut settings = Settings::plain(half as u16);
    if random.percent(40) {
        settings.trap_word = 0x0100 * random.below(8) as u16;
    }
    let mut state = State::reset();
    state.mode = random_mode(random);
    let mut case = Case {
        what: What::Run,
        file: file_of(&program(random, half)),
        memory: words(random, 2 * half),
        budget: 0,
        settings,
        state,
    };
    case.state.accumulators = accumulators(random, &case);
    case
}
