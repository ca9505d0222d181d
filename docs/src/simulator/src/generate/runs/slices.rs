//! Runs over decoded operations: programs of 1 to 4,032 operations with slices that are
//! empty, too short, exact and longer.

use super::sizes::{straight, with_loops};
use crate::file::MOST_OPERATIONS;
use crate::form::Form;
use crate::generate::bench::Bench;
use crate::generate::decoded::decoded_case;
use crate::generate::ops::shift_by;
use crate::long::MOST_LENT;
use crate::sixteen::WORDS;

/// The operations of the longest program that are stepped over.
const TEN: u32 = 10;

pub fn cases() -> Vec<Form> {
    let mut all = at_the_edges();
    all.extend(beside_the_edges());
    all.extend(nothing_to_do());
    all.extend(longest());
    all.extend(ten_of_the_longest());
    all
}

/// The program with a slice of each of these lengths.
fn lent(bench: &Bench, lengths: &[usize]) -> Vec<Form> {
    let case = |&words: &usize| Form::Long(decoded_case(bench.case.clone(), words));
    lengths.iter().map(case).collect()
}

/// A block's count, one more, and a single operation; as many words as bytes, or as a full
/// block has, among the lengths.
fn at_the_edges() -> Vec<Form> {
    let mut all = Vec::new();
    for count in [1, 63, 64] {
        let exact = WORDS * count;
        let bench = Bench::of(&straight(count)).budget(1_000);
        all.extend(lent(&bench, &[0, 1, 8 * count, exact - WORDS, exact - 1]));
        all.extend(lent(&bench, &[exact, exact + 1, exact + 15, exact + 16]));
        all.extend(lent(&bench, &[WORDS * 126, 3_000, MOST_LENT as usize]));
    }
    all
}

fn beside_the_edges() -> Vec<Form> {
    let mut all = Vec::new();
    for count in [2, 3, 62, 65, 125, 126, 127, 190] {
        let exact = WORDS * count;
        let bench = Bench::of(&straight(count)).budget(count as u32 / 2);
        all.extend(lent(&bench, &[exact - 1, exact, exact + 251]));
    }
    all
}

/// No step to make, done, spent or trapped at once: the slice is needed and filled as ever.
fn nothing_to_do() -> Vec<Form> {
    let bench = Bench::of(&straight(64)).budget(9);
    let blocked = [&[shift_by(0, 4)], &straight(63)[..]].concat();
    let idle = [
        bench.clone().at(64),
        bench.budget(0),
        Bench::of(&blocked).budget(9),
    ];
    let exact = WORDS * 64;
    let slices = |bench: &Bench| lent(bench, &[0, exact - 1, exact, exact + 7]);
    idle.iter().flat_map(slices).collect()
}

/// 4,032 operations in loops to their end, from their start and from the last place.
fn longest() -> Vec<Form> {
    let last = MOST_OPERATIONS as u16 - 1;
    let loops = [(0, last, 1), (1, last - 1, 0), (2_000, 2_300, 7)];
    let looped = Bench::of(&with_loops(MOST_OPERATIONS, &loops));
    let exact = WORDS * MOST_OPERATIONS;
    let mut all = lent(&looped.clone().budget(100_000), &[exact]);
    all.extend(lent(&looped.at(last).within(0, 2).budget(5_000), &[exact]));
    all
}

/// Ten steps of 4,032 operations: from the first, from the middle, to the end; the slice
/// is the longest there is, exact, one word short, none.
fn ten_of_the_longest() -> Vec<Form> {
    let bench = Bench::of(&straight(MOST_OPERATIONS)).budget(TEN);
    let exact = WORDS * MOST_OPERATIONS;
    let mut all = lent(&bench, &[exact, exact - 1, 0, MOST_LENT as usize]);
    all.extend(lent(&bench.clone().at(2_016), &[exact + 1]));
    let end = MOST_OPERATIONS as u16 - TEN as u16;
    all.extend(lent(&bench.at(end), &[exact]));
    all
}
