//! Refusals 1 to 7, in their order, and what is just beside them: the files,
//! settings and states of the single steps, each with bags.

use super::build::{AGAIN, ON};
use crate::bags::Serving;
use crate::generate::bench::Bench;
use crate::generate::steps;

/// The most words of memory; larger ones stand in another stream.
const MOST: usize = 64;

pub fn services() -> Vec<Serving> {
    let benches = [
        steps::files::cases(),
        steps::settings::cases(),
        steps::states::cases(),
    ];
    let small = |bench: &Bench| bench.case.memory.len() <= MOST;
    let all = benches.into_iter().flatten().filter(small);
    all.zip(0..).map(with_bags).collect()
}

/// No bags, a first bag that starts again, so that a state is refused for A, B and
/// the mode word alone, or one that goes on; the slices are longer than needed. A
/// window is judged last, so it is empty where memory is.
fn with_bags((bench, number): (Bench, u32)) -> Serving {
    let words = bench.case.memory.len() as u32;
    let size = words.min(2);
    let serving = Serving::on(bench).window_at(words - size, size);
    let filled = |i: u16| vec![0x3000 + i; size as usize];
    let serving = match number % 4 {
        0 => serving,
        1 => serving.bag(3, AGAIN, &filled(1)),
        2 => serving.bag(1, ON, &filled(2)).bag(40, ON, &filled(3)),
        _ => serving
            .bag(2, AGAIN, &filled(4))
            .bag(1, ON, &filled(5))
            .bag(40, AGAIN, &filled(6)),
    };
    let [endings, steps] = serving.room;
    serving.room(endings + 2, steps + 1)
}
