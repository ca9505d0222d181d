//! Wish 1: loops of up to 65,536 passes carried over bags, and first states with passes
//! at the ends of what is accepted.

use super::build::{AGAIN, ON};
use crate::bags::Serving;
use crate::generate::bench::Bench;
use crate::generate::ops::*;
use crate::generate::runs::build::{add, Program};
use crate::generate::runs::passes::{counting, each, inside, products, KINDS};

/// Passes left at the ends of 1 to 32,768 and of 1 to 65,536, and beyond.
const PASSES: [u32; 8] = [0, 1, 32_768, 32_769, 65_536, 65_537, 131_073, u32::MAX];

pub fn services() -> Vec<Serving> {
    let mut all = counts();
    all.extend(first_states());
    all.extend(without_bags());
    all.extend(whole_belts());
    all.push(counts_of_the_window());
    all
}

/// Each count: cut after DO, gone on with twice; the most passes with all kinds of bags.
fn counts() -> Vec<Serving> {
    let carried =
        |(_, bench): (u16, Bench)| Serving::on(bench).bags(&[(1, AGAIN), (4, ON), (9, ON)]);
    let mut all: Vec<Serving> = each().map(carried).collect();
    let most = [
        (1, AGAIN),
        (5, ON),
        (0, ON),
        (1_000, ON),
        (2, AGAIN),
        (7, ON),
    ];
    all.push(Serving::on(counting(3, 0xFFFF)).bags(&most));
    all
}

/// A first bag that goes on, and one that starts again, which is served from any passes.
fn first_states() -> Vec<Serving> {
    let mut all = Vec::new();
    for kind in KINDS {
        for passes in PASSES {
            let bags = |first| Serving::on(inside(kind, passes)).bags(&[(3, first), (6, ON)]);
            all.extend([ON, AGAIN].map(bags));
        }
    }
    all
}

/// No bags: the state is judged as it came.
fn without_bags() -> Vec<Serving> {
    let none = |passes| KINDS.map(|kind| Serving::on(inside(kind, passes)));
    [65_536, 65_537].into_iter().flat_map(none).collect()
}

/// All 65,536 passes in three bags; a sum that leaves the limits of 40 bits in the last
/// pass, and one that does not.
fn whole_belts() -> Vec<Serving> {
    let cut = [(60_000, AGAIN), (60_000, ON), (60_000, ON)];
    let benches = [
        counting(3, 0xFFFF),
        products(0xFFFF, 0x0800, 0x0020),
        products(0xFFFE, 0x0800, 0x0020),
    ];
    benches.map(|bench| Serving::on(bench).bags(&cut)).to_vec()
}

/// The count is the window's word, which a bag that goes on does not read again.
fn counts_of_the_window() -> Serving {
    let program = Program::new().ops(&[literal(0, 0x1006), load(3, 0, 1)]);
    let program = program.looped_by(3, |body| body.ops(&[add(0, 4), add(1, 4)]));
    Serving::on(program.bench().both(0, 0).w(4, 1))
        .window_at(3, 1)
        .bag(7, AGAIN, &[0xFFFF])
        .bag(4, ON, &[0x0001])
        .bag(9, AGAIN, &[0x4000])
        .bag(8, AGAIN, &[0x0001])
        .bag(5, AGAIN, &[0x8000])
}
