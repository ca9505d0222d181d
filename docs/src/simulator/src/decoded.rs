//! Wish 10: a run over operations that are decoded once, into a lent slice of words.

use crate::engine::{accept_file, run_operations, Outcome};
use crate::from_words::from_words;
use crate::operation::Operation;
use crate::settings::Settings;
use crate::sixteen::{sixteen_each, WORDS};
use crate::state::State;

/// Run a program file over its words in the slice. Refusals 1 to 7 of a run come first,
/// then 8 for a slice of fewer than 16 words an operation; a refused call changes nothing.
/// Words past the last operation stay.
pub fn decoded_run(
    file: &[u8],
    settings: &Settings,
    state: &State,
    memory: &mut [u16],
    budget: u32,
    slice: &mut [u16],
) -> Outcome {
    match decode_into(file, settings, state, memory.len(), slice) {
        Err(number) => Outcome::refused(number, state),
        Ok(words) => run_operations(&operations_of(words), settings, state, memory, budget),
    }
}

/// All operations into the slice: their words, or the number of the refusal.
fn decode_into<'a>(
    file: &[u8],
    settings: &Settings,
    state: &State,
    memory_words: usize,
    slice: &'a mut [u16],
) -> Result<&'a [u16], u8> {
    let (bytes, _) = accept_file(file, settings, state, memory_words)?;
    let words = sixteen_each(&bytes);
    let Some(part) = slice.get_mut(..words.len()) else {
        return Err(8);
    };
    part.copy_from_slice(&words);
    Ok(part)
}

/// The operations that the words are: what steps is not lent the file.
pub fn operations_of(words: &[u16]) -> Vec<Operation> {
    let operations = words.chunks_exact(WORDS);
    let own = |part: &[u16]| std::array::from_fn(|at| part[at]);
    operations.map(|part| from_words(&own(part))).collect()
}
