//! Bags one after the other: sums carried, SA set through later bags, the sample
//! filter, one bag, no bags, the most bags.

use super::build::{AGAIN, ON};
use crate::bags::Serving;
use crate::generate::bench::Bench;
use crate::generate::ops::*;
use crate::generate::runs::build::{add, Program};
use crate::tally::tally_case;

/// The sample filter's program file.
const FIR: &[u8] = include_bytes!(concat!(
    env!("CARGO_MANIFEST_DIR"),
    "/../../../samples/fir.bin"
));

pub fn services() -> Vec<Serving> {
    let mut all = vec![three_bags()];
    all.extend(leaving());
    all.extend(fir());
    all.extend(few());
    all.extend(most());
    all
}

/// The four words at 1000 hex are added to A, then stored rounded at 1010 hex.
fn adding() -> Bench {
    let program = Program::new()
        .ops(&[literal(0, 0x1000), literal(1, 0x1010)])
        .looped(3, |body| body.op(load(4, 0, 2)).op(add(0, 4)))
        .op(scaled(15, 0, 2, 1, 1));
    program.bench().both(0, 0)
}

/// Three bags; the second is spent in the loop, and the third goes on with other
/// words before it.
pub fn three_bags() -> Serving {
    Serving::on(adding())
        .window_at(0, 4)
        .bag(100, AGAIN, &[1, 2, 3, 4])
        .bag(6, AGAIN, &[10, 20, 30, 40])
        .bag(100, ON, &[500, 600, 700, 800])
}

/// 65,536 added in each bag that starts again, from one, two and five times as
/// much below 2^31 and 2^39: the limits are left in the first bag, in the second, in
/// the last but one or never, and the S flag stays set through the later bags.
fn leaving() -> Vec<Serving> {
    let bags = [
        (1, AGAIN),
        (9, AGAIN),
        (1, AGAIN),
        (2, ON),
        (1, AGAIN),
        (9, AGAIN),
        (9, ON),
    ];
    let mut all = Vec::new();
    for mode in [0x00E0, 0x0020, 0x00F0] {
        for (limit, target) in [(1 << 31, 0), (1 << 31, 1), (1 << 39, 0), (1 << 39, 1)] {
            for times in [1, 2, 5] {
                let ops = [add(target, 4), scaled(15, target, 0, 6, 0)];
                let bench = Bench::of(&ops).mode(mode).w(4, 1);
                let bench = bench.target(target, limit - 65_536 * times, -7);
                all.push(Serving::on(bench).bags(&bags));
            }
        }
    }
    all
}

/// samples/fir.bin, cut twice and started again; its delay line changed by the
/// controller on the way; to its end, and one step before it.
fn fir() -> Vec<Serving> {
    let serving = || Serving::of(tally_case(FIR));
    let cut = [(300, ON), (400, ON), (100_000, ON), (100_000, AGAIN)];
    let changed = serving()
        .window_at(128, 9)
        .bag(300, AGAIN, &[0; 9])
        .bag(400, ON, &[1, 2, 3, 4, 5, 6, 7, 8, 9])
        .bag(100_000, ON, &[0x7FFF; 9]);
    vec![
        serving().bags(&cut),
        changed,
        serving().bags(&[(u32::MAX, AGAIN), (816, AGAIN), (1, ON), (1, ON)]),
    ]
}

/// One bag of each ending, and no bags.
fn few() -> Vec<Serving> {
    let one = |budget, restart| {
        let serving = Serving::on(adding()).window_at(0, 4);
        serving.bag(budget, restart, &[7, 8, 9, 10])
    };
    let none = || Serving::on(adding());
    vec![
        one(100, ON),
        one(100, AGAIN),
        one(5, ON),
        one(0, ON),
        one(0, AGAIN),
        none(),
        none().window_at(3, 5),
        none().window_at(16, 0),
        none().lists(3, 7).room(2, 5),
    ]
}

/// 256 bags: without words, with all 4,096 words, with every other going on.
fn most() -> Vec<Serving> {
    let bags = |serving: Serving, budget: fn(u32) -> u32, restart: fn(u32) -> u8, words: usize| {
        (0..256).fold(serving, |serving, i| {
            serving.bag(budget(i), restart(i), &vec![i as u16 * 3; words])
        })
    };
    vec![
        bags(Serving::on(adding()), |_| 5, |_| ON, 0),
        bags(
            Serving::on(adding()).window_at(0, 16),
            |_| 100,
            |_| AGAIN,
            16,
        ),
        bags(
            Serving::on(adding()).window_at(2, 5),
            |i| i % 13,
            |i| u8::from(i % 3 == 0),
            5,
        ),
        bags(
            Serving::on(adding()).window_at(15, 1),
            |i| i,
            |i| (i % 2) as u8 * 200,
            1,
        )
        .lists(256, 4_096),
    ]
}
