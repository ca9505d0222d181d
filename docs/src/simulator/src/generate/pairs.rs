//! Random pairs of files to be joined, with a start at the first operation: programs
//! over one memory, budgets at the edges of both runs.

use super::case::{file_of, styled};
use super::damage::{damage_copy, damage_run};
use super::layout::Layout;
use super::program::{program, Style};
use super::random::Random;
use super::short_loops::short_run;
use super::special;
use crate::cases::{Case, What};
use crate::ending::{Ending, Trap};
use crate::file::{check_file, BLOCK, MOST_BLOCKS};
use crate::flow::Flow;
use crate::join::join;
use crate::long::{Call, Long};
use crate::mode::Mode;
use crate::operation::{Operation, Target};
use crate::settings::{BitReversed, Circular, Settings};
use crate::state::State;
use crate::succession::{raised, Ended, Pair};

/// A budget that is enough for most programs.
const ENOUGH: u32 = 3_000;

/// Mostly a few operations; the edges of a block; now and then several blocks.
fn operation_count(random: &mut Random) -> usize {
    match random.below(30) {
        0 => random.pick(&[62, 63, 64]),
        1 => random.pick(&[125, 126, 127]),
        2 => random.range(65, 300) as usize,
        3 | 4 => 1,
        _ => random.range(2, 40) as usize,
    }
}

fn any_file(random: &mut Random, layout: &Layout) -> Vec<u8> {
    let style = Style::random(random, true);
    let count = operation_count(random);
    file_of(&program(random, layout, style, count))
}

/// A program of any style, or one that is made for one thing.
fn first(random: &mut Random) -> Case {
    match random.below(20) {
        0 => special::deep_run(random),
        1 | 2 => special::access_run(random),
        3..=5 => special::overflowing_run(random),
        6 => cut_after_a_trap(special::overflowing_run(random)),
        7 => special::rounding_run(random),
        _ => {
            let layout = Layout::random(random);
            let style = Style::random(random, true);
            let case = styled(random, &layout, style);
            let file = any_file(random, &layout);
            Case { file, ..case }
        }
    }
}

/// Without what follows the operation that raises trap 5, 6 or 7: pc is then the
/// count. The program has no loops.
fn cut_after_a_trap(case: Case) -> Case {
    let (outcome, _) = case.run(ENOUGH);
    let raised = [Trap::LimitsLeft, Trap::OverflowA, Trap::OverflowB];
    let Ending::Trap(trap) = outcome.ending else {
        return case;
    };
    if !raised.contains(&trap) {
        return case;
    }
    let operations = operations_of(&case.file);
    let file = file_of(&operations[..usize::from(outcome.state.flow.pc)]);
    Case { file, ..case }
}

fn operations_of(file: &[u8]) -> Vec<Operation> {
    check_file(file).map_or(Vec::new(), |(_, operations)| operations)
}

/// REPEAT with an operation, or kind 23, before a program.
fn led(random: &mut Random, file: &[u8]) -> Vec<u8> {
    let mut operations = match random.below(2) {
        0 => vec![Operation::EndEarly],
        _ => vec![
            Operation::RepeatLiteral(random.below(5) as u16),
            Operation::AddBoth(random.pick(&[Target::A, Target::B])),
        ],
    };
    let count = operations.len() as u16;
    let following = operations_of(file).into_iter();
    operations.extend(following.map(|operation| raised(operation, count)));
    file_of(&operations)
}

/// A file for the first's memory and settings.
fn second(random: &mut Random, first: &Case) -> Vec<u8> {
    let layout = Layout {
        words: first.memory.len(),
        settings: first.settings,
    };
    match random.below(10) {
        0 => special::deep_run(random).file,
        1 => special::overflowing_run(random).file,
        2 => {
            let file = any_file(random, &layout);
            led(random, &file)
        }
        _ => any_file(random, &layout),
    }
}

/// None; about what the first needs; about what both need; anything up to that;
/// enough; and where both end by themselves the most there can be.
fn budget(random: &mut Random, pair: &Pair) -> u32 {
    let [first, both] = needed_by(short_run, pair, ENOUGH);
    let ends = both < ENOUGH;
    match random.below(16) {
        0 => 0,
        1 => first.saturating_sub(1),
        2 => first,
        3 => first + 1,
        4 => both.saturating_sub(1),
        5 => both,
        6 => both + 1,
        7..=9 => random.range(0, i64::from(both)) as u32,
        10 if ends => u32::MAX,
        _ => ENOUGH,
    }
}

/// The steps of the first alone, and of both where the first is done, with so much
/// for each.
pub fn needed(pair: &Pair, most: u32) -> [u32; 2] {
    needed_by(Case::run, pair, most)
}

/// The same by another way to run.
fn needed_by(run: fn(&Case, u32) -> Ended, pair: &Pair, most: u32) -> [u32; 2] {
    let (outcome, memory) = run(&pair.first, most);
    let first = outcome.steps;
    if outcome.ending != Ending::Done {
        return [first; 2];
    }
    let (outcome, _) = run(&pair.second_from(&outcome.state, &memory), most);
    [first, first + outcome.steps]
}

/// A join of two files with so much room; every field that it does not use is 0, which
/// for a run would be refused.
pub fn join_case(first: Vec<u8>, second: Vec<u8>, room: usize) -> Long {
    let nothing = Circular {
        register: 0,
        ..Circular::NONE
    };
    let settings = Settings {
        x: nothing,
        y: nothing,
        reversed: BitReversed {
            register: 0,
            words: 0,
        },
        ..Settings::plain(0)
    };
    let mut state = State::reset();
    state.mode = Mode(0);
    Long {
        call: Call::Join,
        start: Case {
            what: What::Run,
            file: first,
            memory: Vec::new(),
            budget: 0,
            settings,
            state,
        },
        second,
        words: 0,
        room: room as u32,
    }
}

/// The file of two that can be joined; an empty one where they cannot.
pub fn joined_file(first: &[u8], second: &[u8]) -> Vec<u8> {
    let mut file = vec![0; BLOCK * MOST_BLOCKS];
    let bytes = join(first, second, &mut file).unwrap_or(0);
    file.truncate(bytes);
    file
}

/// Two accepted files and an accepted start at the first operation.
pub fn accepted_pair(random: &mut Random) -> Pair {
    let mut first = first(random);
    first.state.flow = Flow::reset();
    let second = second(random, &first);
    let mut pair = Pair { first, second };
    pair.first.budget = budget(random, &pair);
    pair
}

/// The same with something off: the settings, the state or a file, or both files.
pub fn damaged_pair(random: &mut Random) -> Pair {
    let mut pair = accepted_pair(random);
    let part = random.below(5);
    if part < 2 {
        damage_run(random, &mut pair.first);
        return pair;
    }
    if part != 2 {
        damage(random, &mut pair.second);
    }
    if part != 3 {
        damage(random, &mut pair.first.file);
    }
    pair
}

fn damage(random: &mut Random, file: &mut Vec<u8>) {
    let mut copy = Case {
        what: What::Load,
        ..crate::tally::tally_case(file)
    };
    damage_copy(random, &mut copy);
    *file = copy.file;
}
