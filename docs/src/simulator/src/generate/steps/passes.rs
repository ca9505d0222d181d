//! Wish 1: DO by register with each count, passes left of loops of both kinds at the ends
//! of what is accepted, their fall, kind 23 with the most passes.

use crate::generate::bench::Bench;
use crate::generate::runs::passes::{each, ending_in, inside, state, KINDS, PASSES};

pub fn cases() -> Vec<Bench> {
    let mut all: Vec<Bench> = each().map(|(_, bench)| bench).collect();
    for kind in KINDS {
        all.extend(PASSES.into_iter().flat_map(|passes| state(kind, passes)));
        all.extend([1, 2, 32_769, 65_536].map(|passes| inside(kind, passes).at(2)));
        all.extend((0..4).map(|place| ending_in(kind, place, 65_536)));
    }
    all.into_iter().map(|bench| bench.budget(1)).collect()
}
