//! The single steps of another stream, carried on: what a step leaves is what
//! the run goes on with.

use crate::generate::bench::Bench;
use crate::generate::steps;

pub fn cases() -> Vec<Bench> {
    let parts = [
        steps::old::cases(),
        steps::buffers::cases(),
        steps::reversed::cases(),
        steps::blocked::cases(),
        steps::raised::cases(),
        steps::limits::cases(),
        steps::stores::cases(),
        steps::flow::cases(),
        steps::deep::cases(),
    ];
    let benches = parts.into_iter().flatten();
    benches.zip(2..).map(carried).collect()
}

/// Budgets of 2 to 90.
fn carried((bench, number): (Bench, u32)) -> Bench {
    bench.budget(2 + number % 89)
}
