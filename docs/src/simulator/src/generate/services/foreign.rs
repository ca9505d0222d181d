//! Places that do not fit a program: where another program left off, or with one
//! part off. A first bag starts again from them, and cannot go on.

use super::random::start;
use crate::cases::Case;
use crate::engine::accept;
use crate::flow::Flow;
use crate::generate::damage::damage_state;
use crate::generate::random::Random;
use crate::generate::short_loops::short_run;

/// Whether a bag can go on from this start.
pub fn fits(start: &Case) -> bool {
    let words = start.memory.len();
    accept(&start.file, &start.settings, &start.state, words).is_ok()
}

/// A place that does not fit the start's program.
pub fn flow(random: &mut Random, start: &Case) -> Flow {
    let mut case = start.clone();
    loop {
        case.state.flow = if random.percent(60) {
            left_elsewhere(random)
        } else {
            with_a_part_off(random, start)
        };
        if !fits(&case) {
            return case.state.flow;
        }
    }
}

/// Where some steps of another program lead.
fn left_elsewhere(random: &mut Random) -> Flow {
    let other = start(random, true);
    let budget = random.below(60) as u32;
    short_run(&other, budget).0.state.flow
}

fn with_a_part_off(random: &mut Random, start: &Case) -> Flow {
    let mut case = start.clone();
    damage_state(random, &mut case);
    case.state.flow
}
