//! Whole filters over many samples: FIR, biquad, LMS, a bit-reversed reorder,
//! energies of blocks.

use super::build::{add, words, Program};
use crate::address::BASE;
use crate::generate::bench::Bench;
use crate::generate::forms::Bytes;
use crate::generate::layout::address_of;
use crate::generate::ops::*;

/// Both reads, W8 + 2 to W4 and W10 + 2 to W5, in b3, b4, b5.
const READS: [u8; 3] = [0x48, 0x4A, 0x54];

pub fn cases() -> Vec<Bench> {
    let mut all = Vec::new();
    for (i, mode) in (0..).zip([0x0020, 0x00E0, 0x00F2, 0x0000, 0x0022, 0x1021]) {
        let taps = [3, 4, 8, 16, 31, 64][i];
        all.extend([fir(0, taps, 40, mode), fir(1, taps, 25, mode)]);
        all.extend([biquad(30 + i, mode), biquad(61, mode).traps(0x0700)]);
        all.extend([lms(taps, 20, mode), lms(5, 50, mode)]);
        all.extend([energy(0, 16 + i, mode), energy(1, 50, mode)]);
    }
    all.extend(reorders());
    all
}

/// Both operands are read, none is multiplied yet.
fn clear_and_read(target: u8) -> Bytes {
    [1, target, 0, READS[0], READS[1], READS[2], 0, 0]
}

/// X: coefficients, samples, results; Y: the delay line. X's buffer is over the
/// coefficients, Y's over the line, which goes down by one for each sample.
fn fir(target: u8, taps: usize, samples: usize, mode: u16) -> Bench {
    let x_words = taps + 2 * samples;
    let line = address_of(x_words);
    let program = Program::new().looped(samples as u16 - 1, |sample| {
        sample
            .ops(&[load(6, 1, 2), store(6, 10, 1), clear_and_read(target)])
            .repeated(taps as u16 - 2, multiply_and_read(3, target))
            .ops(&[
                [3, target, 0x54, 0, 0x2A, 0x50, 0, 0],
                scaled(15, target, -1, 2, 2),
            ])
    });
    let memory = words(taps as u64, x_words + taps, -12_000, 15_000);
    program
        .bench()
        .words(memory, x_words as u16)
        .mode(mode)
        .x(8, BASE, address_of(taps) - 1)
        .y(10, line, address_of(x_words + taps) - 1)
        .w(1, address_of(taps))
        .w(2, address_of(taps + samples))
        .w(8, BASE)
        .w(10, line)
}

/// X: five coefficients, samples, results, written-back results; Y: x0, x1, x2,
/// y1, y2. MAC for the x's, MSC for the y's.
fn biquad(samples: usize, mode: u16) -> Bench {
    let x_words = 5 + 3 * samples;
    let [x0, x1, y1, y2] = [0, 1, 3, 4].map(|word| address_of(x_words + word));
    let program = Program::new().looped(samples as u16 - 1, |sample| {
        sample
            .ops(&[load(6, 1, 2), store(6, 3, 1), clear_and_read(0)])
            .repeated(2, multiply_and_read(3, 0))
            .ops(&[multiply_and_read(4, 0), msc(0)])
            // The result to memory and to W7; A written back as B is cleared.
            .ops(&[scaled(15, 0, -1, 2, 2), scaled(15, 0, -1, 7, 0)])
            .op([1, 1, 0, 0, 0, 0, 2, 0])
            .ops(&[
                literal(0, y1),
                load(4, 0, 1),
                literal(0, y2),
                store(4, 0, 1),
            ])
            .ops(&[literal(0, y1), store(7, 0, 1)])
            .ops(&[literal(0, x1), load(4, 0, 2), store(4, 0, 3)])
            .ops(&[literal(0, x0), load(4, 0, 2), store(4, 0, 1)])
    });
    let mut memory = words(samples as u64, x_words + 5, -20_000, 20_000);
    memory[..5].copy_from_slice(&[6_000, 9_000, 0xE000, 0xD000, 7_000]);
    program
        .bench()
        .words(memory, x_words as u16)
        .mode(mode)
        .x(8, BASE, address_of(5) - 1)
        .y(10, x0, address_of(x_words + 5) - 1)
        .w(1, address_of(5))
        .w(2, address_of(5 + samples))
        .w(3, x0)
        .w(8, BASE)
        .w(10, x0)
        .w(13, address_of(5 + 2 * samples))
}

/// X: weights, samples, wanted results; Y: the delay line. X's register is W13,
/// through which new weights are written back round and round.
fn lms(taps: usize, samples: usize, mode: u16) -> Bench {
    let x_words = taps + 2 * samples;
    let line = address_of(x_words);
    let program = Program::new().looped(samples as u16 - 1, |sample| {
        sample
            .ops(&[load(6, 1, 2), store(6, 10, 1), literal(8, BASE)])
            .op(clear_and_read(0))
            .repeated(taps as u16 - 2, multiply_and_read(3, 0))
            .ops(&[mac(0), scaled(15, 0, 0, 7, 0)])
            // The wanted result minus W7, scaled down, to W6.
            .ops(&[scaled(12, 1, 0, 7, 0), scaled(12, 0, 0, 2, 2)])
            .ops(&[subtract(0), scaled(15, 0, 3, 6, 0), literal(8, BASE)])
            .op([7, 0, 0, READS[0], READS[1], READS[2], 0, 0])
            .looped(taps as u16 - 1, |tap| {
                tap.ops(&[
                    scaled(12, 0, 0, 4, 0),
                    [3, 0, 0x65, READS[0], READS[1], READS[2], 0, 0],
                    movsac(1, 2),
                ])
            })
            .op(add(1, 7))
    });
    let memory = words(7 + taps as u64, x_words + taps, -9_000, 9_000);
    program
        .bench()
        .words(memory, x_words as u16)
        .mode(mode)
        .x(13, BASE, address_of(taps) - 1)
        .y(10, line, address_of(x_words + taps) - 1)
        .w(1, address_of(taps))
        .w(2, address_of(taps + samples))
        .w(10, line)
        .w(13, BASE)
}

/// X and Y blocks of so many words each, over and over in their buffers: ED,
/// EDACs, the sum stored after the Y block.
fn energy(target: u8, length: usize, mode: u16) -> Bench {
    let blocks = 6;
    let distance = |kind: u8| [kind, target, 0x44, READS[0], READS[1], 0x04, 0, 0];
    let program = Program::new().looped(blocks - 1, |block| {
        block
            .op(distance(5))
            .repeated(length as u16 - 1, distance(6))
            .op(scaled(14, target, 4, 2, 2))
            .op([7, target, 0, 0x48, 0, 0x06, 0, 0])
    });
    let memory = words(length as u64, 2 * length + blocks as usize, -900, 20_000);
    program
        .bench()
        .words(memory, length as u16)
        .mode(mode)
        .x(8, BASE, address_of(length) - 1)
        .y(10, address_of(length), address_of(2 * length) - 1)
        .w(2, address_of(2 * length))
        .w(8, BASE)
        .w(10, address_of(length))
}

/// N words copied to their bit-reversed places by kinds 18, 14 and 15.
fn reorders() -> Vec<Bench> {
    let mut all = Vec::new();
    for n in [2, 4, 8, 16, 32, 64, 128, 256] {
        all.extend([14, 15, 18].map(|kind| reorder(kind, n)));
    }
    all.extend([reorder(18, 512), reorder(15, 1_024)]);
    all
}

fn reorder(kind: u8, n: usize) -> Bench {
    let pair = match kind {
        18 => [load(4, 0, 2), store(4, 1, 2)],
        _ => [scaled(12, 0, 0, 0, 2), scaled(kind, 0, 0, 1, 2)],
    };
    let program = Program::new().looped(n as u16 - 1, |body| body.ops(&pair));
    let memory = words(n as u64, 2 * n, -32_768, 32_767);
    program
        .bench()
        .words(memory, n as u16)
        .reversed(1, n as u16)
        .w(0, BASE)
        .w(1, address_of(n))
}
