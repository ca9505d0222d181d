//! Kind 25: S flags cleared within a bag, in a later bag, again and again, in a
//! loop, and flags set in the first state.

use super::build::{AGAIN, ON};
use crate::bags::Serving;
use crate::generate::bench::Bench;
use crate::generate::ops::*;
use crate::generate::runs::build::{add, Program};

pub fn services() -> Vec<Serving> {
    let patterns: [&[(u32, u8)]; 4] = [
        &[(1, ON), (1, ON), (1, ON), (9, ON)],
        &[(9, AGAIN), (2, AGAIN), (1, AGAIN), (9, ON)],
        &[(2, ON), (2, AGAIN), (0, AGAIN), (1, ON)],
        &[(5, ON), (4, ON), (3, ON), (900, ON), (900, AGAIN)],
    ];
    let mut all = Vec::new();
    for bench in benches() {
        for (bags, flags) in patterns.into_iter().zip([0b0000, 0b1100, 0b1111, 0b0100]) {
            all.push(Serving::on(bench.clone().flags(flags)).bags(bags));
        }
    }
    all
}

/// Sums that saturate, or leave 40 bits, next to kind 25.
fn benches() -> Vec<Bench> {
    let narrow = (1 << 31) - 1;
    let wide = (1 << 39) - 1;
    let looped = Program::new().looped(3, |body| body.ops(&[CLEAR_S, IDLE]).op(add(0, 3)));
    vec![
        Bench::of(&[add(0, 3), CLEAR_S, add(1, 3), IDLE])
            .both(narrow, narrow)
            .mode(0x00C0),
        Bench::of(&[CLEAR_S, add(0, 3), add(1, 3)])
            .both(wide, narrow)
            .mode(0x0020),
        Bench::of(&[add(1, 3), add(0, 3), CLEAR_S])
            .both(narrow, wide)
            .mode(0x0080)
            .traps(0x0300),
        Bench::of(&[CLEAR_S, CLEAR_S, IDLE]).both(-1, 1),
        looped.clone().bench().both(narrow, 0).mode(0x00A0),
        looped.op(CLEAR_S).bench().both(wide, 0).traps(0x0100),
    ]
}
