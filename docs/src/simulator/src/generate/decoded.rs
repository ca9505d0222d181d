//! Runs over decoded operations: a run with a lent slice, the twin of a run, random ones.

use std::io::{self, Read, Write};

use super::random::Random;
use super::{case, damage, special};
use crate::cases::{Case, What};
use crate::file::{check_file, BLOCK};
use crate::form::{next_form, Form};
use crate::long::{long_bytes, Call, Long};
use crate::sixteen::WORDS;

/// The run over decoded operations with a slice of so many words.
pub fn decoded_case(start: Case, words: usize) -> Long {
    let mut decoded = Long::of(Call::Decoded, start);
    decoded.words = words as u32;
    decoded
}

/// The words of a file's operations; 16 for a file that is refused.
pub fn exact_words(file: &[u8]) -> usize {
    WORDS * check_file(file).map_or(1, |(_, operations)| operations.len())
}

/// The words of the operations that a file's blocks say they hold, refused or not.
pub fn said_words(file: &[u8]) -> usize {
    let blocks = file.chunks_exact(BLOCK);
    WORDS * blocks.map(|block| usize::from(block[2])).sum::<usize>()
}

/// The same run over decoded operations, with a slice that fits exactly.
pub fn twin(run: Case) -> Long {
    let words = exact_words(&run.file);
    decoded_case(run, words)
}

/// The twin of each short run of a stream, all else left out, up to the stream's end or
/// to what breaks it off.
pub fn write_twins(mut stream: impl Read, mut twins: impl Write) -> io::Result<()> {
    while let Ok(form) = next_form(&mut stream)? {
        match form {
            Form::Short(run) if run.what == What::Run => {
                twins.write_all(&long_bytes(&twin(run)))?;
            }
            _ => {}
        }
    }
    twins.flush()
}

/// A run, now and then with something off, with a slice that fits exactly, is longer, one
/// word short, too short or empty.
pub fn random_decoded(random: &mut Random) -> Long {
    let mut run = match random.below(8) {
        0 => special::access_run(random),
        1 => special::overflowing_run(random),
        2 => special::deep_run(random),
        _ => case::accepted_run(random, true),
    };
    run.budget = run.budget.min(3_000);
    if random.percent(25) {
        damage::damage_run(random, &mut run);
    }
    let exact = exact_words(&run.file);
    let words = match random.below(10) {
        0..=4 => exact,
        5..=7 => exact + random.below(300),
        8 => exact - 1,
        _ => random.below(exact),
    };
    decoded_case(run, words)
}
