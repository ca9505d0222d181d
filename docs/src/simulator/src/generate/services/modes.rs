//! All 128 mode words: products, sums and stores of both accumulators, carried
//! over four bags with other words in each.

use super::build::{AGAIN, ON};
use crate::bags::Serving;
use crate::generate::ops::*;
use crate::generate::runs::build::{add, Program};
use crate::mode::Mode;

pub fn services() -> Vec<Serving> {
    let words = 0..=Mode::GOOD_BITS;
    let good = words.filter(|&word| Mode(word).is_good());
    good.map(carried).collect()
}

/// MACs over both parts with write-back, a square, sums and rounded stores.
fn carried(mode: u16) -> Serving {
    let program = Program::new()
        .ops(&[literal(8, 0x1000), literal(10, 0x1010), literal(13, 0x1008)])
        .op(multiply_and_read(2, 1))
        .looped(2, |body| {
            body.op([3, 0, 0x54, 0x48, 0x4A, 0x54, 2, 0])
                .repeated(1, [4, 1, 0x76, 0, 0, 0, 0, 0])
        })
        .ops(&[add(1, 7), sum(0), scaled(15, 0, 1, 6, 0)])
        .ops(&[scaled(14, 1, -1, 7, 0), movsac(0, 1)]);
    let bench = program.bench().mode(mode).w(6, 0x7001).w(7, 0x6FFF);
    Serving::on(bench)
        .window_at(6, 4)
        .bag(90, AGAIN, &[0x7FFF, 0x8000, 0xFFFF, 0x0001])
        .bag(9, AGAIN, &[0x4000, 0xC000, 0x5555, 0xAAAA])
        .bag(90, ON, &[0x8000, 0x8000, 0x8000, 0x8000])
        .bag(90, AGAIN, &[0x0102, 0xFEFD, 0x7F80, 0x8081])
}
