//! Whole rounds of the bit-reversed register: the n-th store puts n where it goes, so
//! that each word holds the number of its last visit, 0 without one, and the memory's
//! check shows the order. The pointer shows where the last store leads: after one round
//! back to the first address.
//!
//! The check tells every exchange of two visits: that of x and y at a distance of d words
//! changes it by an odd number times (x - y)(31^d - 1). Below 1,024 x - y has at most
//! nine factors 2 and 31^d - 1 at most 14, together fewer than 32. It cannot tell all
//! orders, as there are more of them than numbers of 32 bits. Each next address by itself
//! is shown by the part `next_addresses`.

use super::build::{add, Program};
use crate::generate::bench::Bench;
use crate::generate::forms::Bytes;
use crate::generate::ops::*;

const POINTER: u8 = 1;
/// The register that holds 1, and the one that kind 18 stores.
const ONE: u8 = 4;
const NUMBER: u8 = 5;

pub fn cases() -> Vec<Bench> {
    let mut all = Vec::new();
    for n in (1..=10).map(|width| 1 << width) {
        // The wrap comes with the last store, halfway (index 1 is visited after half a
        // round), with the first store.
        all.push(visits(14, n, 0, n));
        all.push(visits(15, n, 1, n));
        all.push(visits(18, n, n - 1, n));
    }
    // Two and a half rounds.
    all.push(visits(14, 16, 3, 40));
    all.push(visits(15, 32, 0, 80));
    all.push(visits(18, 64, 21, 160));
    all
}

/// So many numbered stores in N words of zeros, from this index on.
fn visits(kind: u8, n: u16, first: u16, count: u16) -> Bench {
    let looped = Program::new().looped(count - 1, |body| body.ops(&numbered(kind)));
    let bench = looped.bench().words(vec![0; usize::from(n)], 1);
    let counting = bench.both(0, 0).w(ONE, 1).w(NUMBER, 0);
    counting.reversed(POINTER, n).w(POINTER, 0x1000 + 2 * first)
}

/// A counts; its number is stored by kind 14 or 15, or by kind 18 from a register.
fn numbered(kind: u8) -> Vec<Bytes> {
    match kind {
        18 => vec![
            add(0, ONE),
            scaled(14, 0, 0, NUMBER, 0),
            store(NUMBER, POINTER, 2),
        ],
        _ => vec![add(0, ONE), scaled(kind, 0, 0, POINTER, 2)],
    }
}
