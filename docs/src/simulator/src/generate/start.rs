//! Random accepted states: at pc 0, in the middle of loops and of a repeat.

use super::layout::Layout;
use super::program::good_value;
use super::random::Random;
use super::simple::random_mode;
use crate::accumulator::{NARROW, WIDE};
use crate::flow::{Flow, Loop};
use crate::mode::Mode;
use crate::operation::Operation;
use crate::state::{loops_around, State};

/// An accepted state for the program.
pub fn state(
    random: &mut Random,
    layout: &Layout,
    operations: &[Operation],
    indexed_y: bool,
) -> State {
    let mut state = State::reset();
    for register in 0..14 {
        state.w[usize::from(register)] = good_value(random, layout, indexed_y, register);
    }
    if random.percent(5) {
        state.w = std::array::from_fn(|_| random.word());
    }
    state.accumulators = [accumulator(random), accumulator(random)];
    if random.percent(50) {
        state.accumulators = [0; 2];
    }
    state.mode = match random.below(4) {
        0 => Mode::RESET,
        _ => random_mode(random),
    };
    if random.percent(20) {
        state.overflow = [random.percent(50), random.percent(50)];
        state.saturated = [random.percent(50), random.percent(50)];
    }
    state.flow = flow(random, operations);
    state
}

/// A 40-bit number: small, at or near a limit, a tie of a store, or any.
pub fn accumulator(random: &mut Random) -> i64 {
    match random.below(10) {
        0 => 0,
        1 => random.range(-100_000, 100_000),
        2 => NARROW.1 - random.range(-3, 70_000),
        3 => NARROW.0 + random.range(-3, 70_000),
        4 => WIDE.1 - random.range(0, 70_000),
        5 => WIDE.0 + random.range(0, 70_000),
        6 => random.range(NARROW.0, NARROW.1),
        7 => random.pick(&[
            NARROW.0,
            NARROW.1,
            NARROW.1 + 1,
            NARROW.0 - 1,
            WIDE.0,
            WIDE.1,
        ]),
        8 => 65_536 * random.range(-32_769, 32_768) + 32_768,
        _ => random.range(WIDE.0, WIDE.1),
    }
}

/// Where the run starts: mostly 0, else a place inside, loops and repeat left
/// as row 7 asks.
fn flow(random: &mut Random, operations: &[Operation]) -> Flow {
    let count = operations.len();
    let mut pc = match random.below(40) {
        0..=23 => 0,
        24 => count,
        25..=27 => random.below(count + 1),
        28..=31 => after_a_repeat(random, operations),
        _ => inside_a_loop(random, operations),
    } as u16;
    if loops_around(pc, operations).len() > 4 {
        pc = 0;
    }
    flow_at(random, operations, pc)
}

/// At this place: the loops around it and repeat left as row 7 asks.
pub fn flow_at(random: &mut Random, operations: &[Operation], pc: u16) -> Flow {
    let mut flow = Flow::reset();
    flow.pc = pc;
    for (slot, do_number) in loops_around(pc, operations).into_iter().enumerate() {
        flow.loops[slot] = Loop {
            do_number,
            passes: passes(random),
        };
        flow.active += 1;
    }
    if pc > 0 && operations[usize::from(pc) - 1].is_repeat() {
        flow.repeat = match random.below(12) {
            0 => 65_536,
            1 => 1,
            2 => random.range(1, 65_536) as u32,
            _ => random.range(1, 12) as u32,
        };
    }
    flow
}

/// Passes left, rather few and up to the most of kind 21; `passes` goes on to 65,536.
fn passes(random: &mut Random) -> u32 {
    match random.below(12) {
        0 => 32_768,
        1 => 1,
        2 => random.range(1, 32_768) as u32,
        _ => random.range(1, 5) as u32,
    }
}

/// A place right after a REPEAT, or 0 where there is none.
fn after_a_repeat(random: &mut Random, operations: &[Operation]) -> usize {
    let places: Vec<usize> = (1..operations.len())
        .filter(|&place| operations[place - 1].is_repeat())
        .collect();
    one_of(random, &places)
}

/// A place inside a loop, or 0 where there is none.
fn inside_a_loop(random: &mut Random, operations: &[Operation]) -> usize {
    let spans = operations.iter().enumerate();
    let loops: Vec<(usize, usize)> = spans
        .filter_map(|(number, operation)| {
            let last = usize::from(operation.last_of_do()?);
            Some((number, last))
        })
        .collect();
    if loops.is_empty() {
        return 0;
    }
    let (first, last) = random.pick(&loops);
    first + 1 + random.below(last - first)
}

fn one_of(random: &mut Random, places: &[usize]) -> usize {
    if places.is_empty() {
        0
    } else {
        random.pick(places)
    }
}
