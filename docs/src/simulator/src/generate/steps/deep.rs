//! The third and the fourth of nested loops, and programs that go on past the
//! first block.

use crate::generate::bench::Bench;
use crate::generate::forms::Bytes;
use crate::generate::ops::*;

pub fn cases() -> Vec<Bench> {
    let mut all = innermost();
    all.extend(without_loops());
    all.extend(second_block());
    all
}

/// An operation whose every run shows.
const ADD: Bytes = [13, 0, 8, 4, 0, 0, 0, 0];

/// So many loops in each other: DO at 0, 1, .., the lasts one after the other from
/// `first` on, the innermost's first.
fn nest(loops: u16, first: u16) -> Vec<Bytes> {
    let mut program = vec![ADD; usize::from(first + loops)];
    for start in 0..loops {
        program[usize::from(start)] = do_to(9, first + loops - 1 - start);
    }
    program.push(IDLE);
    program
}

/// A state inside all of them, the innermost with so many passes left.
fn inside(program: &[Bytes], loops: u16, pc: u16, passes: u32) -> Bench {
    let outer = (0..loops - 1).fold(Bench::of(program).at(pc), |bench, start| {
        bench.within(start, 7 + u32::from(start))
    });
    outer.within(loops - 1, passes)
}

/// The innermost of one to four loops falls, ends, and is ended early in its
/// last, last-but-one and another place.
fn innermost() -> Vec<Bench> {
    let mut all = Vec::new();
    for loops in 1..=4 {
        let first = loops + 3;
        for passes in [1, 2, 5] {
            all.push(inside(&nest(loops, first), loops, first, passes));
        }
        for pc in [first, first - 1, first - 2] {
            let mut program = nest(loops, first);
            program[usize::from(pc)] = END_EARLY;
            all.push(inside(&program, loops, pc, 5));
        }
    }
    all
}

/// Refusal 7: no loop, or not all of them, where there are some around pc.
fn without_loops() -> Vec<Bench> {
    let one = || Bench::of(&[do_to(9, 3), ADD, ADD, ADD, IDLE]).at(1);
    let two = || Bench::of(&nest(2, 5)).at(3);
    vec![
        one(),
        one().within(0, 3),
        two(),
        two().within(0, 3),
        two().within(0, 3).within(1, 4),
    ]
}

/// A program of 70 operations, some of those from 62 on replaced.
fn long(places: &[(usize, Bytes)]) -> Bench {
    let mut program = vec![ADD; 70];
    for &(place, operation) in places {
        program[place] = operation;
    }
    Bench::of(&program)
}

/// DO, REPEAT, kind 23 and a loop's last place past operation 62; other operations
/// of the same places in the first block.
fn second_block() -> Vec<Bench> {
    let do_here = &[(0, repeat(5)), (63, do_to(4, 66))];
    let early = &[(63, do_to(4, 66)), (64, END_EARLY)];
    let repeat_here = &[(0, do_to(2, 4)), (63, repeat(3))];
    let across = &[(60, do_to(4, 65))];
    vec![
        long(do_here).at(63),
        long(do_here).at(66).within(63, 2),
        long(do_here).at(66).within(63, 1),
        long(do_here).at(65).within(63, 2),
        long(early).at(64).within(63, 5),
        long(repeat_here).at(63),
        long(repeat_here).at(64).repeating(1),
        long(repeat_here).at(64).repeating(4),
        long(repeat_here).at(64),
        long(across).at(60),
        long(across).at(65).within(60, 2),
        long(across).at(62).within(60, 2),
    ]
}
