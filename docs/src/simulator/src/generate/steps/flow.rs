//! Where a step leads: loops, repeats, kind 23, REPEAT and DO, the end.

use crate::generate::bench::Bench;
use crate::generate::forms::Bytes;
use crate::generate::ops::*;

pub fn cases() -> Vec<Bench> {
    let mut all = last_places();
    all.extend(nested());
    all.extend(repeated());
    all.extend(ending_early());
    all.extend(ending_early_repeated());
    all.extend(ending_early_in_nests());
    all.extend(repeats());
    all.extend(loops());
    all.extend(deeper());
    all.extend(at_the_end());
    all.extend(two_blocks());
    all
}

/// An operation whose every run shows.
const ADD: Bytes = [13, 0, 8, 4, 0, 0, 0, 0];

/// DO at 1 with the last at 4, each place of the body an ADD.
fn body() -> Bench {
    Bench::of(&[IDLE, do_to(0, 4), ADD, ADD, ADD, IDLE])
}

fn last_places() -> Vec<Bench> {
    let last = [1, 2, 5, 32_768].map(|passes| body().at(4).within(1, passes));
    let other = [(2, 1), (3, 1), (3, 2)].map(|(pc, passes)| body().at(pc).within(1, passes));
    let mut all = [&last[..], &other[..]].concat();
    // The loop ends with the program; the place after a loop; DO's own place.
    all.push(Bench::of(&[do_to(0, 2), IDLE, ADD]).at(2).within(0, 1));
    all.push(Bench::of(&[do_to(0, 2), IDLE, ADD]).at(2).within(0, 2));
    all.push(body().at(5));
    all
}

/// DO at 0 with the last at 7, DO at 2 with the last at 5.
fn nest(places: &[(usize, Bytes)]) -> Bench {
    let mut program = vec![ADD; 9];
    program[0] = do_to(0, 7);
    program[2] = do_to(0, 5);
    for &(place, operation) in places {
        program[place] = operation;
    }
    Bench::of(&program)
}

fn nested() -> Vec<Bench> {
    let inner = |outer, inner| nest(&[]).at(5).within(0, outer).within(2, inner);
    // The inner last just below the outer's; the inner DO right after the outer.
    let tight = || Bench::of(&[do_to(0, 6), do_to(0, 5), ADD, ADD, ADD, ADD, ADD]);
    vec![
        inner(1, 1),
        inner(1, 2),
        inner(5, 1),
        inner(32_768, 32_768),
        nest(&[]).at(6).within(0, 2),
        nest(&[]).at(7).within(0, 1),
        nest(&[]).at(7).within(0, 2),
        tight().at(5).within(0, 1).within(1, 1),
        tight().at(5).within(0, 4).within(1, 1),
        tight().at(6).within(0, 2),
        tight().at(6).within(0, 1),
    ]
}

/// Repeated last places and places outside of loops.
fn repeated() -> Vec<Bench> {
    let last = Bench::of(&[do_to(0, 4), ADD, ADD, repeat(0), ADD, IDLE]).at(4);
    let mut all = Vec::new();
    for left in [1, 2, 65_536] {
        for passes in [1, 2, 32_768] {
            all.push(last.clone().within(0, passes).repeating(left));
        }
        let within = nest(&[(4, repeat(7))]).at(5).within(0, 4);
        all.push(within.within(2, 1).repeating(left));
        all.push(Bench::of(&[IDLE, repeat(7), ADD]).at(2).repeating(left));
    }
    let middle = Bench::of(&[do_to(0, 4), repeat_by(3), ADD, ADD, ADD]).at(2);
    all.push(middle.clone().within(0, 1).repeating(1));
    all.push(middle.within(0, 1).repeating(3));
    all
}

/// Kind 23 in the last, last-but-one and another place.
fn ending_early() -> Vec<Bench> {
    let mut all = Vec::new();
    for pc in [4, 3, 2] {
        for passes in [1, 2, 3, 5] {
            let mut program = [IDLE, do_to(9, 4), ADD, ADD, ADD, IDLE];
            program[usize::from(pc)] = END_EARLY;
            all.push(Bench::of(&program).at(pc).within(1, passes));
        }
    }
    // The first of a body of two; outside, beside a loop, last of the program.
    let short = Bench::of(&[do_to(9, 2), END_EARLY, ADD]);
    all.push(short.at(1).within(0, 7));
    all.push(Bench::of(&[END_EARLY, IDLE]));
    all.push(Bench::of(&[do_to(9, 2), ADD, ADD, END_EARLY]).at(3));
    all
}

/// Kind 23 repeated, in each place and outside.
fn ending_early_repeated() -> Vec<Bench> {
    let last = || Bench::of(&[do_to(9, 4), ADD, ADD, repeat(1), END_EARLY, IDLE]).at(4);
    let but_one = || Bench::of(&[do_to(9, 4), ADD, repeat(1), END_EARLY, ADD]).at(3);
    let other = || Bench::of(&[do_to(9, 5), repeat(1), END_EARLY, ADD, ADD, ADD]).at(2);
    let outside = || Bench::of(&[repeat(1), END_EARLY]).at(1);
    vec![
        last().within(0, 1).repeating(1),
        last().within(0, 3).repeating(1),
        last().within(0, 1).repeating(2),
        last().within(0, 5).repeating(2),
        but_one().within(0, 5).repeating(1),
        but_one().within(0, 5).repeating(2),
        other().within(0, 5).repeating(1),
        other().within(0, 5).repeating(65_536),
        outside().repeating(1),
        outside().repeating(2),
    ]
}

/// Kind 23 in the inner loop, and in the outer loop's body before and after it.
fn ending_early_in_nests() -> Vec<Bench> {
    let early = |pc: u16| nest(&[(pc.into(), END_EARLY)]).at(pc).within(0, 9);
    // The outer loop goes on for three after the inner one.
    let program = [do_to(9, 7), do_to(9, 4), ADD, ADD, ADD, END_EARLY, ADD, ADD];
    vec![
        early(1),
        early(3).within(2, 5),
        early(4).within(2, 5),
        early(5).within(2, 5),
        early(5).within(2, 1),
        early(6),
        early(7),
        Bench::of(&program).at(5).within(0, 9),
        Bench::of(&program).at(5).within(0, 1),
    ]
}

fn repeats() -> Vec<Bench> {
    let by = |word| Bench::of(&[repeat_by(2), ADD]).w(2, word);
    let looped = |operation| {
        Bench::of(&[do_to(0, 3), ADD, operation, ADD])
            .at(2)
            .within(0, 3)
    };
    vec![
        Bench::of(&[repeat(0), ADD]),
        Bench::of(&[repeat(32_767), ADD]),
        by(0),
        by(65_535),
        by(0x8000),
        by(0x4000),
        looped(repeat(5)),
        looped(repeat_by(2)).w(2, 0xC001),
    ]
}

fn loops() -> Vec<Bench> {
    let by = |word| Bench::of(&[IDLE, do_by(2, 3), ADD, ADD]).at(1).w(2, word);
    let mut all = [0, 32_767]
        .map(|count| Bench::of(&[do_to(count, 2), ADD, ADD]))
        .to_vec();
    all.extend([0, 0x3FFF, 0x4000, 0x8000, 0xC001, 0xFFFF].map(by));
    all
}

/// DO inside DO: none to four loops active, by literal and by register.
fn deeper() -> Vec<Bench> {
    let mut all = Vec::new();
    for by_register in [false, true] {
        let mut program = [ADD; 12];
        for (place, operation) in program[..5].iter_mut().enumerate() {
            let last = 11 - place as u16;
            *operation = match by_register {
                true => do_by(place as u8, last),
                false => do_to(100 + place as u16, last),
            };
        }
        let mut bench = Bench::of(&program);
        for place in 0..5 {
            all.push(bench.clone().at(place));
            if place < 4 {
                bench = bench.within(place, 10 + u32::from(place));
            }
        }
    }
    all
}

/// The last operation, and pc past it: done, whatever else the state holds.
fn at_the_end() -> Vec<Bench> {
    let program = [ADD, ADD];
    let marked = Bench::of(&program).at(2).flags(0b1111).traps(0x0700);
    vec![
        Bench::of(&program).at(1),
        Bench::of(&program).at(2),
        Bench::of(&[do_to(0, 2), ADD, ADD]).at(3),
        Bench::of(&[repeat(3), ADD]).at(2),
        marked.both(1 << 35, -(1 << 35)).mode(0x10F3),
    ]
}

/// Programs of two blocks: around the first operation of the second one, a loop
/// over it, the end.
fn two_blocks() -> Vec<Bench> {
    let program: Vec<Bytes> = (0..64).map(|i| literal(5, 0x0100 + i)).collect();
    let at = |pc| Bench::of(&program).at(pc);
    let mut looped = vec![ADD; 126];
    looped[60] = do_to(9, 100);
    looped[125] = literal(1, 0x7777);
    let looped = Bench::of(&looped);
    vec![
        at(62),
        at(63),
        at(64),
        looped.clone().at(60),
        looped.clone().at(100).within(60, 2),
        looped.at(125),
    ]
}
