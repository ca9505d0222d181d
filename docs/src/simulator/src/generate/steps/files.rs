//! Refusals 1 to 5 of the program file, and two refusals at once: the first in
//! the order of a run counts.

use crate::file::{blocks_of, BLOCK};
use crate::generate::bench::Bench;
use crate::generate::blocks::{with, with_sums};
use crate::generate::forms::Bytes;
use crate::generate::ops::*;

pub fn cases() -> Vec<Bench> {
    let mut all = lengths();
    all.extend(sums());
    all.extend(headers());
    all.extend(operations());
    all.extend(placements());
    all.extend(two_at_once());
    all
}

/// So many operations, no two alike.
fn numbered(count: usize) -> Vec<u8> {
    let operation = |i| literal((i % 14) as u8, i as u16 + 1);
    let operations: Vec<Bytes> = (0..count).map(operation).collect();
    blocks_of(&operations.concat())
}

fn of(file: Vec<u8>) -> Bench {
    Bench::one(IDLE).file(file)
}

/// Refusal 1: no block, not whole ones.
fn lengths() -> Vec<Bench> {
    let one = numbered(2);
    vec![
        of(Vec::new()),
        of(one[..BLOCK - 1].to_vec()),
        of([&one[..], &[0]].concat()),
    ]
}

/// Refusal 2, in the first and in the second block.
fn sums() -> Vec<Bench> {
    vec![
        of(with(numbered(2), &[(10, 0x7E)])),
        of(with(numbered(64), &[(2 * BLOCK - 1, 1)])),
        of(with(numbered(2), &[(5, 0x55)])),
    ]
}

/// Refusal 3: block number, count, zero bytes.
fn headers() -> Vec<Bench> {
    vec![
        of(with_sums(numbered(2), &[(0, 1)])),
        of(with_sums(numbered(2), &[(2, 0)])),
        of(with_sums(numbered(2), &[(2, 1)])),
        of(with_sums(numbered(63), &[(2, 64)])),
        of(with_sums(numbered(2), &[(7, 1)])),
        of(with_sums(numbered(64), &[(BLOCK, 0)])),
    ]
}

/// Refusal 4, at pc and elsewhere.
fn operations() -> Vec<Bench> {
    vec![
        Bench::of(&[[26, 0, 0, 0, 0, 0, 0, 0], IDLE]),
        Bench::of(&[IDLE, [11, 0, 0, 14, 0, 0, 0, 0]]),
        Bench::of(&[IDLE, [3, 0, 0x54, 0x48, 0x4A, 0x44, 0, 0]]),
        of(with_sums(numbered(1), &[(2, 2)])),
    ]
}

/// Refusal 5.
fn placements() -> Vec<Bench> {
    vec![
        Bench::of(&[do_to(0, 1), IDLE, IDLE]),
        Bench::of(&[do_by(1, 3), IDLE, IDLE]),
        Bench::of(&[do_to(0, 4), do_to(0, 4), IDLE, IDLE, IDLE]),
        Bench::of(&[IDLE, repeat(1)]),
        Bench::of(&[repeat(1), do_to(0, 3), IDLE, IDLE]),
    ]
}

/// Each number with one that comes after it.
fn two_at_once() -> Vec<Bench> {
    let bad_sum = with(numbered(2), &[(4, 0xFF), (3, 1)]);
    let header_and_kind = with_sums(numbered(2), &[(3, 1), (8, 0)]);
    let header_then_sum = with(with_sums(numbered(64), &[(3, 1)]), &[(BLOCK + 4, 0)]);
    let kind_and_place = [do_to(0, 9), [0; 8], IDLE];
    vec![
        of(Vec::new()).memory(0, 0).at(9),
        of(bad_sum),
        of(with(numbered(2), &[(10, 0x7E)])).traps(1),
        of(header_and_kind),
        of(header_then_sum),
        Bench::of(&kind_and_place),
        Bench::of(&kind_and_place).mode(0x0004),
        Bench::of(&[IDLE, repeat(1)]).traps(1).at(9),
        Bench::one(IDLE).traps(1).mode(0x0004),
        Bench::one(IDLE).memory(1, 1).both(1 << 39, 0),
        Bench::one(IDLE).at(3).repeating(7).active(255).mode(0xFFFF),
    ]
}
