//! The stored stream of single steps, and random ones.

pub mod blocked;
pub mod buffers;
pub mod deep;
pub mod files;
pub mod flow;
pub mod kinds;
pub mod limits;
pub mod old;
pub mod passes;
pub mod raised;
pub mod random;
pub mod reversed;
pub mod settings;
pub mod states;
pub mod stores;

use super::random::Random;
use crate::cases::Case;
use crate::generate::bench::Bench;

const SEED: u64 = 1;
const RANDOM_STEPS: usize = 200;

/// A part of the stored stream, and how its cases are made.
type Part = (&'static str, fn() -> Vec<Bench>);

/// The parts of the stored stream in their order, up to the random ones.
const PARTS: [Part; 13] = [
    ("kinds", kinds::cases),
    ("old", old::cases),
    ("buffers", buffers::cases),
    ("reversed", reversed::cases),
    ("blocked", blocked::cases),
    ("raised", raised::cases),
    ("limits", limits::cases),
    ("stores", stores::cases),
    ("flow", flow::cases),
    ("deep", deep::cases),
    ("states", states::cases),
    ("settings", settings::cases),
    ("files", files::cases),
];

/// The parts of the stored stream with their names, in order.
pub fn parts() -> Vec<(&'static str, Vec<Case>)> {
    let made = |(name, cases): Part| {
        let cases = cases().into_iter().map(|bench| bench.case);
        (name, cases.collect())
    };
    let mut parts: Vec<_> = PARTS.into_iter().map(made).collect();
    let mut random = Random::new(SEED);
    let steps = (0..RANDOM_STEPS).map(|_| random::small_step(&mut random));
    parts.push(("random", steps.collect()));
    parts.push(made(("passes", passes::cases)));
    parts
}

/// The cases of the stored stream.
pub fn steps() -> Vec<Case> {
    parts().into_iter().flat_map(|(_, cases)| cases).collect()
}

/// So many random cases, the same for the same seed.
pub fn random_steps(seed: u64, count: u16) -> Vec<Case> {
    let mut random = Random::new(seed);
    (0..count)
        .map(|_| random::random_step(&mut random))
        .collect()
}
