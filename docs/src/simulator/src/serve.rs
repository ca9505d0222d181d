//! "The call `serve`": a window of memory, lent lists of budgets, restarts and
//! words, and the lent endings and steps that it fills.

use crate::engine::{accept, run};
use crate::service::{Bag, Change};
use crate::settings::Settings;
use crate::state::State;

/// A window of memory: its first word and its size in words, both any number.
#[derive(Clone, Copy, Debug, PartialEq, Eq)]
pub struct Window {
    pub first: usize,
    pub size: usize,
}

impl Window {
    /// Whether it ends within a memory of so many words.
    fn is_within(&self, words: usize) -> bool {
        let end = self.first.checked_add(self.size);
        end.is_some_and(|end| end <= words)
    }

    /// The bag that puts these words into it.
    fn bag(&self, words: &[u16], restart: bool, budget: u32) -> Bag {
        let change = Change::Put {
            first: self.first,
            words: words.to_vec(),
        };
        Bag {
            change,
            restart,
            budget,
        }
    }
}

/// The lent slices. The number of budgets is the number of bags.
#[derive(Debug)]
pub struct Lent<'a> {
    pub budgets: &'a [u32],
    /// Whether the bag starts again.
    pub restarts: &'a [bool],
    pub words: &'a [u16],
    /// An ending code for each bag.
    pub endings: &'a mut [u8],
    pub steps: &'a mut [u32],
}

impl Lent<'_> {
    /// The state that the first bag's run begins with; as it was handed in with no
    /// bags, and where no restart is lent at all.
    fn first_state(&self, state: &State) -> State {
        match (self.budgets, self.restarts) {
            ([_, ..], [true, ..]) => state.restart(),
            _ => *state,
        }
    }

    /// Whether each slice is as long as the bags need it.
    fn is_ample(&self, window: &Window) -> bool {
        let bags = self.budgets.len();
        let needed = window.size.checked_mul(bags);
        self.restarts.len() >= bags
            && needed.is_some_and(|needed| self.words.len() >= needed)
            && self.endings.len() >= bags
            && self.steps.len() >= bags
    }

    /// The bags, where the slices are ample: the words of bag i are the `size`
    /// words from i x size on.
    pub fn bags(&self, window: &Window) -> Vec<Bag> {
        let bag = |(i, (&budget, &restart)): (usize, (&u32, &bool))| {
            let from = i * window.size;
            window.bag(&self.words[from..from + window.size], restart, budget)
        };
        let bags = self.budgets.iter().zip(self.restarts);
        bags.enumerate().map(bag).collect()
    }
}

/// Serve every bag: the state after the last. Refusals are 1 to 7 of the first
/// bag's run, then 8 where a lent slice is too short; a refused call changes
/// nothing.
pub fn serve(
    file: &[u8],
    settings: &Settings,
    state: &State,
    memory: &mut [u16],
    window: &Window,
    lent: &mut Lent,
) -> Result<State, u8> {
    accept(file, settings, &lent.first_state(state), memory.len())?;
    if !window.is_within(memory.len()) || !lent.is_ample(window) {
        return Err(8);
    }
    let mut state = *state;
    for (i, bag) in lent.bags(window).iter().enumerate() {
        let begun = bag.begin(&state, memory);
        let outcome = run(file, settings, &begun, memory, bag.budget);
        // No later call is refused, so every ending has a code.
        lent.endings[i] = outcome.ending.code().expect("an accepted call");
        lent.steps[i] = outcome.steps;
        state = outcome.state;
    }
    Ok(state)
}
