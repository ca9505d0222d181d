//! The ledger that goes on: document 01's ledger, but where an exact result is
//! outside the limits it keeps the result instead of stopping. Its numbers grow
//! without end. Traps 6 and 7 follow its own O flags, which come from the exact
//! numbers; trap 5 cannot occur in it either.

use crate::integer::Integer;
use crate::ledger::{ledger_run_beyond, Beyond, LedgerOutcome, LedgerState};
use crate::settings::Settings;
use crate::state::State;

pub type OnwardState = LedgerState<Integer>;
pub type OnwardOutcome = LedgerOutcome<Integer>;

/// The exact result is kept, whatever it is.
const GOES_ON: Beyond<Integer> = Some;

/// Its run: from the engine's program, settings, state and budget and a copy of
/// its memory. A call that a run refuses is refused with the same number.
pub fn onward_run(
    file: &[u8],
    settings: &Settings,
    state: &State,
    memory: &[u16],
    budget: u32,
) -> OnwardOutcome {
    ledger_run_beyond(file, settings, state, memory, budget, GOES_ON)
}
