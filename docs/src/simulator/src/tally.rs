//! The program `tally`.

use std::io::{self, Read};

use crate::cases::{Case, What};
use crate::ending::Ending;
use crate::file::{BLOCK, MOST_BLOCKS};
use crate::settings::Settings;
use crate::state::State;
use crate::status::status_word;

/// The run of a file as a case: 1,024 words X and 1,024 Y of zeros, reset state,
/// no correction, trap word 0, budget 100,000.
pub fn tally_case(file: &[u8]) -> Case {
    Case {
        what: What::Run,
        file: file.to_vec(),
        memory: vec![0; 2_048],
        budget: 100_000,
        settings: Settings::plain(1_024),
        state: State::reset(),
    }
}

/// The line for a file.
pub fn tally_line(file: &[u8]) -> String {
    let case = tally_case(file);
    let (outcome, _) = case.run(case.budget);
    if let Ending::Refused(_) = outcome.ending {
        return format!("{}\n", outcome.ending);
    }
    let [a, b] = outcome.state.accumulators;
    format!(
        "{} {} {a} {b} {:04X}\n",
        outcome.ending,
        outcome.steps,
        status_word(&outcome.state)
    )
}

/// Read at most one byte more than the longest file: that much is refused1.
pub fn tally(input: impl Read) -> io::Result<String> {
    let mut file = Vec::new();
    let most = (BLOCK * MOST_BLOCKS) as u64 + 1;
    input.take(most).read_to_end(&mut file)?;
    Ok(tally_line(&file))
}
