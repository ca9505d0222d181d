//! Loops in loops with counts of all sizes at every level, by literals and by
//! registers, and a fifth loop.

use super::build::{add, Program};
use crate::generate::bench::Bench;
use crate::generate::ops::*;

pub fn cases() -> Vec<Bench> {
    let mut all = counts();
    all.extend(by_registers());
    all.extend(in_a_row());
    all.extend(repeats_in_last_places());
    all.extend(stores());
    all.extend(fifth());
    all
}

/// Loops in each other, the sums of a level before and after the next one.
fn levels(program: Program, level: u8, counts: &[u16]) -> Program {
    let Some((&count, inner)) = counts.split_first() else {
        return program.op(add(1, 4 + level % 4));
    };
    program.looped(count, |body| {
        let body = levels(body.op(add(0, 4 + level)), level + 1, inner);
        body.op(add(1, 4 + level))
    })
}

/// Another weight for each register, so that the passes of each level show.
fn weighed(program: Program) -> Bench {
    let bench = program.bench().both(0, 0);
    bench.w(4, 1).w(5, 0x0010).w(6, 0x0100).w(7, 0xF000)
}

fn counts() -> Vec<Bench> {
    let all: [&[u16]; 24] = [
        &[0],
        &[1],
        &[5],
        &[0, 0],
        &[0, 3],
        &[3, 0],
        &[1, 1],
        &[4, 6],
        &[0, 0, 0],
        &[2, 0, 0],
        &[0, 2, 0],
        &[0, 0, 2],
        &[1, 2, 3],
        &[3, 2, 1],
        &[0, 0, 0, 0],
        &[1, 0, 0, 0],
        &[0, 1, 0, 0],
        &[0, 0, 1, 0],
        &[0, 0, 0, 1],
        &[1, 1, 1, 1],
        &[1, 2, 3, 4],
        &[4, 3, 2, 1],
        &[0, 5, 0, 5],
        &[2, 2, 2, 40],
    ];
    all.map(|counts| weighed(levels(Program::new(), 0, counts)))
        .to_vec()
}

/// Kind 22 by every register, with bits 14 and 15 clear and set; the register changes in
/// the loop.
fn by_registers() -> Vec<Bench> {
    let words = [0, 1, 3, 0x4000, 0x8002, 0xC001, 0xC005, 9];
    let mut all = Vec::new();
    for register in 0..14 {
        let word = words[usize::from(register) % words.len()];
        let program = Program::new().looped_by(register, |body| {
            body.ops(&[add(0, 4), literal(register, 7), add(1, 5)])
        });
        all.push(program.op(add(1, register)).bench().w(register, word));
    }
    // Both levels by one register, which the outer one changes.
    let both = Program::new().looped_by(3, |outer| {
        outer
            .op(literal(3, 0x4002))
            .looped_by(3, |inner| inner.ops(&[add(0, 4), add(1, 5)]))
            .op(literal(3, 0))
    });
    all.push(both.bench());
    all
}

/// Loops one after the other, alone and in a loop; slots are used again.
fn in_a_row() -> Vec<Bench> {
    let two = |weight: u8| move |body: Program| body.ops(&[add(0, weight), add(1, weight)]);
    let row = |program: Program| {
        program
            .looped(2, two(4))
            .looped(0, two(5))
            .looped(4, two(6))
    };
    let mut all = vec![weighed(row(Program::new()))];
    for count in [0, 1, 3] {
        all.push(weighed(
            Program::new().looped(count, |body| row(body).op(sum(0))),
        ));
        let deep = Program::new().looped(count, |a| {
            a.looped(1, |b| row(b).op(IDLE)).looped(2, two(7)).op(IDLE)
        });
        all.push(weighed(deep));
    }
    all
}

/// A repeated operation in the last place of each level.
fn repeats_in_last_places() -> Vec<Bench> {
    let mut all = Vec::new();
    for repeats in [0, 1, 6] {
        for count in [0, 1, 3] {
            let program = Program::new().looped(count, |a| {
                a.looped(count + 1, |b| b.op(add(1, 4)).repeated(repeats, add(0, 5)))
                    .repeated(repeats, add(0, 6))
            });
            all.push(weighed(program.repeated(repeats, add(1, 7))));
        }
    }
    // By a register, which the repeated operation itself changes.
    for register in 0..14 {
        let program = Program::new()
            .op(repeat_by(register))
            .op(scaled(14, 0, 0, register, 0))
            .repeated(2, add(0, register));
        all.push(program.bench().w(register, 3 + u16::from(register)));
    }
    all
}

/// Each pass writes a word: memory shows them all.
fn stores() -> Vec<Bench> {
    let mut all = Vec::new();
    for (outer, inner) in [(1, 6), (3, 3), (7, 0), (0, 14)] {
        let program = Program::new()
            .op(literal(13, 0x1000))
            .looped(outer, |body| {
                body.looped(inner, |inner| {
                    inner.ops(&[add(0, 4), [7, 1, 0, 0, 0, 0, 2, 0]])
                })
                .op(add(1, 5))
            });
        all.push(program.clone().bench());
        all.push(program.bench().mode(0x0000).both(1 << 31, -5));
        let program = Program::new().op(literal(0, 0x101E)).looped(outer, |body| {
            body.op(add(1, 6))
                .repeated(inner, scaled(15, 1, 0, 0, 3))
                .op(add(1, 7))
        });
        all.push(program.bench());
    }
    all
}

/// A fifth loop: reached in the first pass, in a later one, not reached, and
/// started right at it.
fn fifth() -> Vec<Bench> {
    let counts: [&[u16]; 4] = [
        &[0, 0, 0, 0, 0],
        &[3, 2, 1, 4, 0],
        &[1, 1, 1, 1, 1, 1],
        &[7, 7, 7, 7, 7, 7, 7, 7],
    ];
    let mut all = Vec::new();
    for counts in counts {
        let bench = weighed(levels(Program::new(), 0, counts));
        all.push(bench.clone());
        all.push(bench.clone().budget(8));
        all.push(bench.clone().budget(9).traps(0x0700));
        let inside = [(0, 9), (2, 1), (4, 2), (6, 32_768)];
        let inside = inside.into_iter().fold(bench, |bench, (number, passes)| {
            bench.within(number, passes)
        });
        all.push(inside.clone().at(7));
        all.push(inside.at(8).budget(u32::MAX));
    }
    // Loops that end make room again.
    let row = |body: Program| {
        (0..6).fold(body, |body, i| {
            body.looped(i, |inner| inner.ops(&[add(0, 4), add(1, 5)]))
        })
    };
    let three = Program::new().looped(1, |a| {
        a.looped(1, |b| b.looped(1, |c| row(c).op(IDLE)).op(IDLE))
            .op(IDLE)
    });
    all.push(weighed(three));
    all
}
