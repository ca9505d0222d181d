//! The stored stream of runs, loads, writes, joins, combined boards and runs over decoded
//! operations for the program `cases`.

pub mod block_ends;
pub mod boards;
pub mod budgets;
pub mod build;
pub mod carried;
pub mod copies;
pub mod decoded_endings;
pub mod decoded_kinds;
pub mod decoded_modes;
pub mod decoded_refused;
pub mod early;
pub mod filters;
pub mod joined;
pub mod joins;
pub mod kinds;
pub mod long;
pub mod nests;
pub mod next_addresses;
pub mod passes;
pub mod refused;
pub mod rounds;
pub mod sizes;
pub mod slices;
pub mod starts;
pub mod sums;
pub mod unknown;

use super::bench::Bench;
use super::boards::random_combine;
use super::decoded::random_decoded;
use super::passes::random_passes;
use super::random::Random;
use super::random_case;
use super::random_form::random_form;
use crate::cases::{self, Case};
use crate::file::BLOCK;
use crate::form::{bytes_of, Form};
use decoded_kinds::by_turns;

const SEED: u64 = 20;
const RANDOM_CASES: usize = 2_000;
const RANDOM_FORMS: usize = 200;
const RANDOM_BOARDS: usize = 200;
const RANDOM_DECODED: usize = 200;
const RANDOM_PASSES: usize = 40;
/// The longest file and the most words of the stored random cases.
const SMALL_FILE: usize = 3 * BLOCK;
const SMALL_MEMORY: usize = 400;

/// A part of the stored stream, and how its cases are made.
type Part = (&'static str, fn() -> Vec<Bench>);

/// The first parts, made on the bench, in their order.
const PARTS: [Part; 11] = [
    ("budgets", budgets::cases),
    ("kinds", kinds::cases),
    ("starts", starts::cases),
    ("early", early::cases),
    ("nests", nests::cases),
    ("sums", sums::cases),
    ("filters", filters::cases),
    ("long", long::cases),
    ("sizes", sizes::cases),
    ("carried", carried::cases),
    ("refused", refused::cases),
];

/// The parts about the bit-reversed register, made on the bench too.
const REVERSED: [Part; 3] = [
    ("next_addresses", next_addresses::cases),
    ("rounds", rounds::cases),
    ("block_ends", block_ends::cases),
];

/// The parts of the stored stream with their names, in order.
pub fn parts() -> Vec<(&'static str, Vec<Form>)> {
    let short = |cases: Vec<Case>| cases.into_iter().map(Form::Short).collect();
    let made = |(name, cases): Part| {
        let cases = cases().into_iter().map(|bench| bench.case);
        (name, short(cases.collect()))
    };
    let mut parts: Vec<_> = PARTS.into_iter().map(made).collect();
    parts.push(("copies", short(copies::cases())));
    parts.push(("random", short(random_cases())));
    parts.push(("joins", joins::cases()));
    parts.push(("joined", joined::cases()));
    parts.push(("unknown", unknown::cases()));
    parts.push(("random_forms", random_forms()));
    parts.push(("boards", boards::cases()));
    parts.push(("random_boards", random_boards()));
    parts.extend(REVERSED.into_iter().map(made));
    parts.extend(decoded_parts());
    parts.push(("passes", passes::cases()));
    parts.push(("decoded_passes", by_turns(passes::decoded())));
    parts.push(("random_passes", short(random_passes_cases())));
    parts
}

/// The parts about runs over decoded operations.
fn decoded_parts() -> [(&'static str, Vec<Form>); 6] {
    [
        ("slices", slices::cases()),
        ("decoded_kinds", decoded_kinds::cases()),
        ("decoded_modes", decoded_modes::cases()),
        ("decoded_endings", decoded_endings::cases()),
        ("decoded_refused", decoded_refused::cases()),
        ("random_decoded", random_decoded_cases()),
    ]
}

/// The stored stream: all parts, then a case that breaks off in its memory.
pub fn stream() -> Vec<u8> {
    let forms = parts().into_iter().flat_map(|(_, forms)| forms);
    let mut stream: Vec<u8> = forms.flat_map(|form| bytes_of(&form)).collect();
    stream.extend(broken());
    stream
}

/// A whole case but for the last seven bytes of its memory.
fn broken() -> Vec<u8> {
    let mut bytes = cases::bytes_of(&Bench::one(super::ops::mac(0)).case);
    bytes.truncate(bytes.len() - 7);
    bytes
}

fn random_cases() -> Vec<Case> {
    let mut random = Random::new(SEED);
    (0..RANDOM_CASES).map(|_| small_case(&mut random)).collect()
}

/// Whether file and memory are small.
fn is_small(case: &Case) -> bool {
    case.file.len() <= SMALL_FILE && case.memory.len() <= SMALL_MEMORY
}

/// The next random case with a small file and memory.
fn small_case(random: &mut Random) -> Case {
    loop {
        let case = random_case(random);
        if is_small(&case) {
            return case;
        }
    }
}

fn random_forms() -> Vec<Form> {
    let mut random = Random::new(SEED);
    (0..RANDOM_FORMS).map(|_| small_form(&mut random)).collect()
}

/// The next random case of either form with small files and memory.
fn small_form(random: &mut Random) -> Form {
    loop {
        let form = random_form(random);
        let small = match &form {
            Form::Short(case) => is_small(case),
            Form::Long(long) => is_small(&long.start) && long.second.len() <= SMALL_FILE,
        };
        if small {
            return form;
        }
    }
}

/// Random cases of `combine` with few stretches.
fn random_boards() -> Vec<Form> {
    let mut random = Random::new(SEED);
    let cases = std::iter::repeat_with(|| random_combine(&mut random));
    let small = cases.filter(|case| case.start.budget <= 40);
    small.take(RANDOM_BOARDS).map(Form::Long).collect()
}

/// Random runs over decoded operations with small files and memory.
fn random_decoded_cases() -> Vec<Form> {
    let mut random = Random::new(SEED);
    let cases = std::iter::repeat_with(|| random_decoded(&mut random));
    let small = cases.filter(|case| is_small(&case.start));
    small.take(RANDOM_DECODED).map(Form::Long).collect()
}

/// Random runs about passes and counts with small files and memory.
fn random_passes_cases() -> Vec<Case> {
    let mut random = Random::new(SEED);
    let cases = std::iter::repeat_with(|| random_passes(&mut random, true));
    cases.filter(is_small).take(RANDOM_PASSES).collect()
}
