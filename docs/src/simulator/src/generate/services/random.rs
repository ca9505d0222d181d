//! Random services: starts anywhere in a program or where another one left off,
//! changes of memory anywhere, bags that start again and go on, budgets that cut
//! loops and repeats.

use super::{carried, foreign};
use crate::bags::Serving;
use crate::cases::Case;
use crate::ending::Ending;
use crate::file::BLOCK;
use crate::generate::case::{accepted_run, candidate};
use crate::generate::damage::damage_run;
use crate::generate::layout::styled_words;
use crate::generate::random::Random;
use crate::generate::short_loops::short_run;
use crate::generate::special;
use crate::service::{Bag, Change, Service};
use crate::state::State;

/// The longest file and the most words of a random start.
const SMALL_FILE: usize = 3 * BLOCK;
const SMALL_MEMORY: usize = 300;
/// A budget that is enough for most programs.
const ENOUGH: u32 = 1_200;

/// An accepted start: any, a long one, or one made for one thing. With `clears`
/// kind 25 may be in the first two.
pub fn start(random: &mut Random, clears: bool) -> Case {
    loop {
        let case = match random.below(20) {
            0..=3 => candidate(random, clears),
            4..=9 => accepted_run(random, clears),
            10 => special::deep_run(random),
            11 | 12 => special::overflowing_run(random),
            13 | 14 => special::rounding_run(random),
            _ => carried::start(random),
        };
        if case.file.len() <= SMALL_FILE && case.memory.len() <= SMALL_MEMORY {
            return Case { budget: 0, ..case };
        }
    }
}

/// The same for so many bags: where there are some, now and then at a place that
/// does not fit the program.
fn start_of(random: &mut Random, clears: bool, bags: usize) -> Case {
    let mut case = start(random, clears);
    if bags > 0 && random.percent(12) {
        case.state.flow = foreign::flow(random, &case);
    }
    case
}

/// The steps of a program from its beginning, at most `ENOUGH`.
fn whole(start: &Case) -> u32 {
    let state = start.state.restart();
    let case = Case {
        state,
        ..start.clone()
    };
    short_run(&case, ENOUGH).0.steps
}

/// None, a few, somewhere in the program, just enough or ample.
fn budget(random: &mut Random, whole: u32) -> u32 {
    match random.below(100) {
        0..=5 => 0,
        6..=19 => random.range(1, 6) as u32,
        20..=59 => random.range(0, i64::from(whole)) as u32,
        60..=67 => whole + random.below(2) as u32,
        _ => ENOUGH,
    }
}

/// Whether the next bag starts again: rather after an end, rather not after
/// "spent".
fn starts_again(random: &mut Random, before: Option<Ending>) -> bool {
    let share = match before {
        None => 20,
        Some(Ending::Spent) => 25,
        Some(_) => 80,
    };
    random.percent(share)
}

/// A window of memory: empty, all of it, or a few words anywhere.
fn window(random: &mut Random, words: usize) -> (usize, usize) {
    let size = match random.below(20) {
        0 | 1 => 0,
        2 => words,
        _ => 1 + random.below(words.min(12)),
    };
    (random.below(words - size + 1), size)
}

fn change(random: &mut Random, words: usize) -> Change {
    let (first, size) = window(random, words);
    if random.percent(15) {
        let from = random.below(words - size + 1);
        let to = first;
        return Change::Copy { from, to, size };
    }
    let words = styled_words(random, size);
    Change::Put { first, words }
}

fn bag_count(random: &mut Random) -> usize {
    match random.below(40) {
        0 => 0,
        1 | 2 => 1,
        3 => random.range(9, 16) as usize,
        _ => random.range(2, 7) as usize,
    }
}

/// Bags with these changes, each made knowing how the one before it ended. The first
/// starts again where it has to. A later bag that sets an S flag is rather often the
/// last.
fn bags(random: &mut Random, start: &Case, changes: Vec<Change>) -> Vec<Bag> {
    let (mut state, mut memory) = (start.state, start.memory.clone());
    let (whole, mut before) = (whole(start), None);
    let mut misplaced = !foreign::fits(start);
    let mut bags = Vec::with_capacity(changes.len());
    for change in changes {
        let bag = Bag {
            change,
            restart: misplaced || starts_again(random, before),
            budget: budget(random, whole),
        };
        let begun = Case {
            state: bag.begin(&state, &mut memory),
            memory,
            ..start.clone()
        };
        let outcome;
        (outcome, memory) = short_run(&begun, bag.budget);
        bags.push(bag);
        let raises = outcome.state.saturated != begun.state.saturated;
        if raises && bags.len() >= 3 && random.percent(50) {
            break;
        }
        (state, before, misplaced) = (outcome.state, Some(outcome.ending), false);
    }
    bags
}

/// A random service whose first call is not refused.
pub fn random_service(random: &mut Random, clears: bool) -> Service {
    let count = bag_count(random);
    let start = start_of(random, clears, count);
    let words = start.memory.len();
    let changes = (0..count).map(|_| change(random, words)).collect();
    let bags = bags(random, &start, changes);
    Service { start, bags }
}

/// The same without S flags at first and without kind 25, as point 3 asks.
pub fn bound_service(random: &mut Random) -> Service {
    let mut service = random_service(random, false);
    service.start.state = State {
        saturated: [false; 2],
        ..service.start.state
    };
    service
}

/// A service as the stream holds it, every bag with the same window.
fn accepted(random: &mut Random) -> Serving {
    let count = bag_count(random);
    let start = start_of(random, true, count);
    let (first, size) = window(random, start.memory.len());
    let size = size.min(4_096 / count.max(1));
    let change = |_| Change::Put {
        first,
        words: styled_words(random, size),
    };
    let changes: Vec<Change> = (0..count).map(change).collect();
    let mut serving = Serving::of(start.clone()).window_at(first as u32, size as u32);
    for bag in bags(random, &start, changes) {
        let Change::Put { words, .. } = &bag.change else {
            continue;
        };
        let again = random.pick(&[1, 1, 2, 128, 255]);
        serving = serving.bag(bag.budget, if bag.restart { again } else { 0 }, words);
    }
    serving
}

/// Slices longer than needed, or one of them too short.
fn relent(random: &mut Random, serving: &mut Serving) {
    let length = |random: &mut Random, needed: usize, most: usize| match random.below(12) {
        0 => needed.saturating_sub(1),
        1..=4 => (needed + random.below(5)).min(most),
        _ => needed,
    };
    let restarts = length(random, serving.restarts.len(), 256);
    serving.restarts.resize(restarts, 1);
    let words = length(random, serving.words.len(), 4_096);
    serving.words.resize(words, 0x1234);
    serving.room = serving
        .room
        .map(|needed| length(random, needed as usize, 256) as u32);
}

/// A window that ends at the end of memory or past it.
fn move_window(random: &mut Random, serving: &mut Serving) {
    let words = serving.start.memory.len() as u32;
    let [_, size] = serving.window;
    let end = words.saturating_sub(size);
    serving.window[0] = random.pick(&[end, end + 1, words, words + 1, u32::MAX, u32::MAX - size]);
}

/// A random service of a stream: mostly served, else with something off.
pub fn random_serving(random: &mut Random) -> Serving {
    let mut serving = accepted(random);
    if random.percent(25) {
        relent(random, &mut serving);
    }
    if random.percent(6) {
        move_window(random, &mut serving);
    }
    if random.percent(4) {
        serving.start.state.flow = foreign::flow(random, &serving.start);
    }
    if random.percent(10) {
        damage_run(random, &mut serving.start);
    }
    serving
}
