//! Case streams with the lines that must be printed for them, request streams,
//! streams of single steps, the stored stream of runs, and services.

pub mod bench;
pub mod blocks;
pub mod boards;
pub mod case;
pub mod coverage;
pub mod damage;
pub mod decoded;
pub mod dot_product;
pub mod edges;
pub mod forms;
pub mod layout;
pub mod long_sums;
pub mod misses;
pub mod onward;
pub mod ops;
pub mod pairs;
pub mod passes;
pub mod places;
pub mod program;
pub mod random;
pub mod random_form;
pub mod requests;
pub mod runs;
pub mod services;
pub mod short_loops;
pub mod simple;
pub mod special;
pub mod speed;
pub mod start;
pub mod steps;
pub mod tiny;

use std::io::{self, Write};

use crate::cases::{Case, What};
use crate::form::{bytes_of, line, Form};
use boards::{cut_combine, random_combine};
use decoded::random_decoded;
use random::Random;
use random_form::random_form;

/// One case of the mix.
pub fn random_case(random: &mut Random) -> Case {
    match random.below(100) {
        0..=33 => case::accepted_run(random, true),
        34 => special::top_run(random),
        35..=37 => special::access_run(random),
        38..=39 => special::deep_run(random),
        40..=44 => special::overflowing_run(random),
        45..=47 => special::rounding_run(random),
        48..=57 => {
            let mut case = case::candidate(random, true);
            case.budget = case.budget.min(3_000);
            damage::damage_run(random, &mut case);
            case
        }
        58..=65 => edges::settings_case(random),
        66..=69 => edges::state_case(random),
        70..=73 => copy_case(random, What::Load),
        74..=77 => copy_case(random, What::Write),
        78..=79 => tiny::blocks_case(random),
        80..=91 => tiny::field_case(random),
        _ => tiny::placement_case(random),
    }
}

/// A load or write, damaged or not.
fn copy_case(random: &mut Random, what: What) -> Case {
    let mut case = case::accepted_copy(random, what);
    if random.percent(65) {
        damage::damage_copy(random, &mut case);
    }
    case
}

/// One case of a mix.
pub type Mix = fn(&mut Random) -> Form;

/// The mix of short cases: runs, loads and writes.
pub fn short_mix(random: &mut Random) -> Form {
    Form::Short(match random.below(24) {
        0 => passes::random_passes(random, true),
        _ => random_case(random),
    })
}

/// The mix of joins, runs of joined files, short and long, runs over decoded operations,
/// and combined boards, of which some have a file of another length.
pub fn long_mix(random: &mut Random) -> Form {
    match random.below(24) {
        0..=4 => Form::Long(random_combine(random)),
        5 => Form::Long(cut_combine(random)),
        6..=9 => Form::Long(random_decoded(random)),
        _ => random_form(random),
    }
}

/// Write a stream of so many cases of a mix, and its lines.
pub fn generate_into(
    mix: Mix,
    (seed, count): (u64, usize),
    mut stream: impl Write,
    mut lines: impl Write,
) -> io::Result<()> {
    let mut random = Random::new(seed);
    for _ in 0..count {
        let form = mix(&mut random);
        stream.write_all(&bytes_of(&form))?;
        writeln!(lines, "{}", line(&form))?;
    }
    stream.flush()?;
    lines.flush()
}

/// The same in memory.
pub fn generate(mix: Mix, seed: u64, count: usize) -> io::Result<(Vec<u8>, Vec<u8>)> {
    let (mut stream, mut lines) = (Vec::new(), Vec::new());
    generate_into(mix, (seed, count), &mut stream, &mut lines)?;
    Ok((stream, lines))
}
