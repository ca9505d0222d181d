//! Every next address of the bit-reversed register: each N from 2 to 1,024 with each
//! index once, in the first block of memory. A line shows up to 16 of them outright, so
//! that nothing is left to the memory's check.

use super::build::Program;
use crate::generate::bench::Bench;
use crate::generate::forms::Bytes;
use crate::generate::ops::*;

/// 13 registers, B, A and the pointer.
const SHOWN: usize = 16;

pub fn cases() -> Vec<Bench> {
    let mut all = Vec::new();
    for n in (1..=10).map(|width| 1 << width) {
        let addresses: Vec<u16> = (0..n).map(|index| 0x1000 + 2 * index).collect();
        for group in addresses.chunks(SHOWN) {
            let pointer = (all.len() % 14) as u8;
            let last = usize::from(group[group.len() - 1]);
            let memory = vec![0; (last - 0x1000) / 2 + 1];
            let bench = shown(pointer, group).words(memory, 1);
            all.push(bench.reversed(pointer, n));
        }
    }
    all
}

/// A store of form 2 at each of at most 16 addresses, by kinds 14, 15 and 18 in turn.
/// The next addresses are left in the registers but the pointer, in order, then in B and
/// in A, 65,536 times each, and the last one in the pointer.
pub fn shown(pointer: u8, addresses: &[u16]) -> Bench {
    let mut program = Program::new();
    let mut keeps = kept(pointer).into_iter();
    for (place, &address) in addresses.iter().enumerate() {
        let kind = [14, 15, 18][usize::from(address / 2) % 3];
        program = program.ops(&[literal(pointer, address), access(kind, pointer, 2)]);
        if place + 1 < addresses.len() {
            program = program.ops(&keeps.next().expect("at most 16 addresses"));
        }
    }
    program.bench()
}

/// The ways to keep the pointer: through A in each other register, in B, in A.
fn kept(pointer: u8) -> Vec<Vec<Bytes>> {
    let taken = |target: u8| scaled(12, target, 0, pointer, 0);
    let others = (0..14).filter(|&register| register != pointer);
    let through_a = |register: u8| vec![taken(0), scaled(14, 0, 0, register, 0)];
    let mut all: Vec<_> = others.map(through_a).collect();
    all.extend([vec![taken(1)], vec![taken(0)]]);
    all
}
