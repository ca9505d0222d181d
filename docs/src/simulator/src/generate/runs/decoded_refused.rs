//! Runs over decoded operations that are refused with 1 to 7, with slices that are too
//! short, so that the lower number counts, exact and longer; 8 beside each.

use crate::file::{blocks_of, BLOCK, MOST_BLOCKS};
use crate::form::Form;
use crate::generate::bench::Bench;
use crate::generate::blocks::{
    with, with_sums, wrong_headers, wrong_lengths, wrong_operations, wrong_sums,
};
use crate::generate::decoded::{decoded_case, said_words};
use crate::generate::misses::misses;
use crate::generate::ops::*;
use crate::generate::steps;
use crate::long::MOST_LENT;

/// The most words of memory, and of operations, of the cases with one slice each.
const FEW_WORDS: usize = 64;
const FEW_DECODED: usize = 3_000;

pub fn cases() -> Vec<Form> {
    let mut all: Vec<Form> = one_of_each().iter().flat_map(every_slice).collect();
    all.push(too_many_blocks());
    all.extend(one_slice_each(steps::files::cases()));
    all.extend(one_slice_each(wrong_files()));
    all.extend(one_slice_each(wrong_fields()));
    all.extend(one_slice_each(steps::settings::cases()));
    all.extend(one_slice_each(steps::states::cases()));
    all
}

/// None, one, one short of exact, exact, longer.
fn every_slice(bench: &Bench) -> Vec<Form> {
    let exact = said_words(&bench.case.file);
    let lengths = [0, 1, exact.saturating_sub(1), exact, exact + 20];
    let lent = |words| Form::Long(decoded_case(bench.case.clone(), words));
    lengths.map(lent).to_vec()
}

/// One of these lengths by turns, for cases that are short.
fn one_slice_each(benches: Vec<Bench>) -> Vec<Form> {
    let is_short = |bench: &Bench| {
        bench.case.memory.len() <= FEW_WORDS && said_words(&bench.case.file) <= FEW_DECODED
    };
    let short = benches.into_iter().filter(is_short).enumerate();
    let lent = |(i, bench): (usize, Bench)| {
        let exact = said_words(&bench.case.file);
        let words = [exact, exact.saturating_sub(1), exact + 20, 0, exact][i % 5];
        Form::Long(decoded_case(bench.budget(7).case, words))
    };
    short.map(lent).collect()
}

/// Each number alone, and with all that are judged after it.
fn one_of_each() -> Vec<Bench> {
    let held = [store(4, 13, 2), mac(0), IDLE];
    let file = blocks_of(&held.concat());
    let good = || Bench::of(&held).budget(9);
    let bad_sum = |file: Vec<u8>| with(file, &[(4, 0xFF), (5, 0xFF)]);
    let after_5 = |bench: Bench| bench.traps(1).mode(0x0004).budget(9);
    let placed = [store(4, 13, 2), do_to(0, 9), IDLE];
    let unlisted = [store(4, 13, 2), [26, 0, 0, 0, 0, 0, 0, 0], IDLE];
    vec![
        good(),
        good().file(file[..511].to_vec()),
        after_5(good().file(Vec::new())),
        good().file(bad_sum(file.clone())),
        after_5(good().file(bad_sum(blocks_of(&placed.concat())))),
        good().file(with_sums(file, &[(6, 1)])),
        Bench::of(&unlisted).budget(9),
        after_5(Bench::of(&unlisted)),
        Bench::of(&placed).budget(9),
        after_5(Bench::of(&placed)),
        good().traps(1),
        good().traps(1).mode(0x0004),
        good().memory(2, 2),
        good().mode(0x0004),
        good().at(4),
        good().repeating(1),
        good().both(1 << 39, 0),
    ]
}

/// 65 blocks, of which 64 would fit the longest slice.
fn too_many_blocks() -> Form {
    let file = vec![0; BLOCK * (MOST_BLOCKS + 1)];
    let bench = Bench::one(IDLE).file(file).traps(1);
    Form::Long(decoded_case(bench.case, MOST_LENT as usize))
}

fn wrong_files() -> Vec<Bench> {
    let files = [
        wrong_lengths(),
        wrong_sums(),
        wrong_headers(),
        wrong_operations(),
    ];
    let bench = |file| Bench::one(IDLE).file(file);
    files.concat().into_iter().map(bench).collect()
}

/// Refusal 4: a miss of each kind, after an operation that must not run.
fn wrong_fields() -> Vec<Bench> {
    let all = misses();
    let first = all.iter().filter_map(|misses| misses.first());
    first
        .map(|&miss| Bench::of(&[store(4, 13, 2), miss, IDLE, IDLE]))
        .collect()
}
