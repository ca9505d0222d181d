//! Kind 23 in every place of loops, alone, repeated, in nests and outside.

use super::build::{add, Program};
use crate::generate::bench::Bench;
use crate::generate::forms::Bytes;
use crate::generate::ops::*;

pub fn cases() -> Vec<Bench> {
    let mut all = every_place();
    all.extend(repeated());
    all.extend(nested());
    all.extend(with_passes());
    all.extend(outside());
    all
}

/// A loop of so many operations, each adding another word to A, with one of them
/// replaced.
fn body(length: usize, place: usize, operation: Bytes) -> Vec<Bytes> {
    let sums = (0..length).map(|i| add(0, 4 + (i % 4) as u8));
    let mut body: Vec<Bytes> = sums.collect();
    body[place] = operation;
    body
}

fn looped(count: u16, body: &[Bytes]) -> Program {
    Program::new()
        .looped(count, |program| program.ops(body))
        .op(add(1, 4))
}

/// Loops of two to five with one, two and five passes.
fn every_place() -> Vec<Bench> {
    let mut all = Vec::new();
    for length in 2..=5 {
        for place in 0..length {
            let body = body(length, place, END_EARLY);
            all.extend([0, 1, 4].map(|count| looped(count, &body).bench()));
        }
    }
    all
}

/// A repeated kind 23 in every place but the first.
fn repeated() -> Vec<Bench> {
    let mut all = Vec::new();
    for length in 3..=5 {
        for place in 1..length {
            for (count, repeats) in [(6, 0), (6, 1), (1, 4), (9, 300)] {
                let mut body = body(length, place, END_EARLY);
                body[place - 1] = repeat(repeats);
                all.push(looped(count, &body).bench());
            }
        }
    }
    all
}

/// Kind 23 before, in and after an inner loop: the innermost active one ends.
fn nested() -> Vec<Bench> {
    let mut all = Vec::new();
    for place in 0..7 {
        for (outer, inner) in [(3, 3), (0, 5), (5, 0)] {
            let at = |number, operation| {
                if number == place {
                    END_EARLY
                } else {
                    operation
                }
            };
            let program = Program::new().looped(outer, |body| {
                body.op(at(0, add(0, 4)))
                    .looped(inner, |body| {
                        body.ops(&[at(1, add(1, 4)), at(2, add(1, 5)), at(3, add(1, 6))])
                    })
                    .ops(&[at(4, add(0, 5)), at(5, add(0, 6)), at(6, add(0, 7))])
            });
            all.push(program.bench());
        }
    }
    all
}

/// Starts at kind 23 with 1, 2, 3 and 32,768 passes left.
fn with_passes() -> Vec<Bench> {
    let mut all = Vec::new();
    for place in 0..4 {
        let program = looped(0, &body(4, place, END_EARLY));
        for passes in [1, 2, 3, 32_768] {
            let bench = program.clone().bench().at(1 + place as u16);
            all.push(bench.within(0, passes));
        }
    }
    all
}

/// Outside of a loop: before one, after one, repeated.
fn outside() -> Vec<Bench> {
    let two = |body: Program| body.ops(&[add(0, 4), add(0, 5)]);
    vec![
        Program::new().op(END_EARLY).looped(3, two).bench(),
        Program::new().looped(3, two).op(END_EARLY).bench(),
        Program::new().repeated(9, END_EARLY).looped(3, two).bench(),
        Program::new()
            .looped(1, two)
            .repeated(9, END_EARLY)
            .looped(2, two)
            .bench(),
    ]
}
