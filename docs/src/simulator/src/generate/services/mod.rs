//! The stored stream of services for the program `bags`, and random ones.

pub mod build;
pub mod carried;
pub mod clears;
pub mod endings;
pub mod foreign;
pub mod modes;
pub mod passes;
pub mod random;
pub mod refused;
pub mod room;
pub mod sequence;
pub mod starts;
pub mod windows;

use super::random::Random;
use crate::bags::{bytes_of, stream_of, Serving};
use crate::file::BLOCK;

const SEED: u64 = 40;
const RANDOM_SERVICES: usize = 370;
/// The longest file and the most words of the stored random services.
const SMALL_FILE: usize = 2 * BLOCK;
const SMALL_MEMORY: usize = 200;

/// A part of the stored stream, and how its services are made.
type Part = (&'static str, fn() -> Vec<Serving>);

const PARTS: [Part; 10] = [
    ("sequence", sequence::services),
    ("windows", windows::services),
    ("room", room::services),
    ("refused", refused::services),
    ("starts", starts::services),
    ("endings", endings::services),
    ("modes", modes::services),
    ("clears", clears::services),
    ("random", random_services),
    ("passes", passes::services),
];

/// The parts of the stored stream with their names, in order.
pub fn parts() -> Vec<(&'static str, Vec<Serving>)> {
    let made = |(name, services): Part| (name, services());
    PARTS.into_iter().map(made).collect()
}

/// The stored stream: all parts, then a service that breaks off.
pub fn stream() -> Vec<u8> {
    let services = parts().into_iter().flat_map(|(_, services)| services);
    let mut stream = stream_of(&services.collect::<Vec<Serving>>());
    stream.extend(broken());
    stream
}

/// A whole service but for the last three bytes of its words.
fn broken() -> Vec<u8> {
    let mut bytes = bytes_of(&sequence::three_bags());
    bytes.truncate(bytes.len() - 3);
    bytes
}

/// The next random service with a small file and memory.
fn small_serving(random: &mut Random) -> Serving {
    loop {
        let serving = random::random_serving(random);
        let start = &serving.start;
        if start.file.len() <= SMALL_FILE && start.memory.len() <= SMALL_MEMORY {
            return serving;
        }
    }
}

fn random_services() -> Vec<Serving> {
    let mut random = Random::new(SEED);
    (0..RANDOM_SERVICES)
        .map(|_| small_serving(&mut random))
        .collect()
}

/// So many random services, the same for the same seed.
pub fn random_stream(seed: u64, count: u16) -> Vec<u8> {
    let mut random = Random::new(seed);
    let one = |_| bytes_of(&random::random_serving(&mut random));
    (0..count).flat_map(one).collect()
}
