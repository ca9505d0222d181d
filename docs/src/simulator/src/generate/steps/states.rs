//! Refusal 7: each part of the state at its edge, and the value beside it that
//! is accepted.

use crate::generate::bench::Bench;
use crate::generate::ops::*;

pub fn cases() -> Vec<Bench> {
    let mut all = accumulators();
    all.extend(modes());
    all.extend(places());
    all.extend(loops());
    all.extend(passes());
    all.extend(unused_slots());
    all.extend(counts());
    all.extend(repeats());
    all.extend(five_deep());
    all.extend(flags());
    all
}

/// DO at 1 with the last at 7, DO at 3 with the last at 5, literals elsewhere.
fn nest() -> Bench {
    Bench::of(&[
        literal(0, 1),
        do_to(2, 7),
        literal(1, 2),
        do_to(3, 5),
        literal(2, 3),
        literal(3, 4),
        literal(4, 5),
        literal(5, 6),
        literal(6, 7),
    ])
}

/// At 4, inside both loops, as it must be.
fn inside() -> Bench {
    nest().at(4).within(1, 2).within(3, 4)
}

fn accumulators() -> Vec<Bench> {
    let edge = 1 << 39;
    let values = [edge - 1, edge, -edge, -edge - 1];
    let a = values.map(|value| Bench::one(IDLE).both(value, 5));
    let b = values.map(|value| Bench::one(IDLE).both(-5, value));
    let far = Bench::one(IDLE).both(i64::MIN, i64::MAX);
    a.into_iter().chain(b).chain([far]).collect()
}

/// Each bad bit alone, US 3; US 1, every good bit, none.
fn modes() -> Vec<Bench> {
    let bad = [2, 3, 8, 9, 10, 11, 13, 14, 15].map(|number| 1 << number);
    let words = bad.into_iter().chain([0x3000, 0x1000, 0x10F3, 0x0000]);
    words
        .map(|word| Bench::one(literal(1, 9)).mode(word))
        .collect()
}

/// pc up to the count of operations; each place of the nest with the loops it
/// must have, and the places beside a loop's first and last with one too few or
/// too many.
fn places() -> Vec<Bench> {
    let mut all = vec![
        nest().at(9),
        nest().at(10),
        nest().at(u16::MAX),
        // At DO the loop is not active yet, past the last not any more.
        nest().at(1),
        nest().at(1).within(1, 1),
        nest().at(2).within(1, 1),
        nest().at(2),
        nest().at(7).within(1, 1),
        nest().at(7),
        nest().at(8),
        nest().at(8).within(1, 1),
    ];
    all.extend([
        nest().at(3).within(1, 1),
        nest().at(3).within(1, 1).within(3, 1),
        nest().at(5).within(1, 1).within(3, 1),
        nest().at(5).within(1, 1),
        nest().at(6).within(1, 1),
        nest().at(6).within(1, 1).within(3, 1),
    ]);
    all
}

/// Missing, superfluous, wrong and swapped loops.
fn loops() -> Vec<Bench> {
    let at = || nest().at(4);
    vec![
        inside(),
        at(),
        at().within(1, 2),
        at().within(3, 4),
        at().within(3, 4).within(1, 2),
        at().within(1, 2).within(1, 2),
        at().within(1, 2).within(2, 4),
        at().within(0, 2).within(3, 4),
        at().within(1, 2).within(3, 4).within(4, 1),
        at().within(1, 2).within(3, 4).within(3, 4),
        at().within(0, 1).within(1, 2).within(3, 4),
    ]
}

/// Passes 0, 1, in the middle of what is accepted, and above it, outer and inner.
fn passes() -> Vec<Bench> {
    let mut all = Vec::new();
    for passes in [0, 1, 32_768, 32_769, 65_537] {
        all.push(nest().at(4).within(1, passes).within(3, 4));
        all.push(nest().at(4).within(1, 2).within(3, passes));
    }
    all
}

/// A slot that is not in use holds a number or passes.
fn unused_slots() -> Vec<Bench> {
    vec![
        nest().at(0).slot(0, 0, 1),
        nest().at(0).slot(0, 1, 0),
        nest().at(9).slot(3, 0, 1),
        inside().slot(2, 0, 1),
        inside().slot(2, 3, 0),
        inside().slot(3, 0, 1),
        inside().slot(3, 5, 4),
    ]
}

/// The count of loops apart from the slots.
fn counts() -> Vec<Bench> {
    let mut all = [0, 1, 3, 4, 5, 255]
        .map(|count| inside().active(count))
        .to_vec();
    all.extend([1, 5].map(|count| nest().at(0).active(count)));
    all
}

/// Repeat left after REPEAT by literal and by register, and elsewhere.
fn repeats() -> Vec<Bench> {
    let after = |operation, left| {
        let bench = Bench::of(&[IDLE, operation, literal(1, 2), IDLE]);
        bench.at(2).repeating(left)
    };
    let mut all = Vec::new();
    for left in [0, 1, 65_536, 65_537, 131_073] {
        all.push(after(repeat(0), left));
    }
    all.extend([0, 65_536, 65_537].map(|left| after(repeat_by(3), left)));
    let program = [IDLE, repeat(5), literal(1, 2), IDLE];
    for pc in [0, 1, 3, 4] {
        all.push(Bench::of(&program).at(pc).repeating(1));
    }
    all.push(inside().repeating(1));
    all.push(Bench::of(&program).at(3));
    all
}

/// Five loops in each other: DO at 0 to 4, lasts 11 down to 7; every place with
/// the loops around it, of which four fit.
fn five_deep() -> Vec<Bench> {
    let mut program = vec![literal(7, 0x4321); 13];
    for (place, operation) in program[..5].iter_mut().enumerate() {
        *operation = do_to(1, 11 - place as u16);
    }
    let mut all = Vec::new();
    for pc in 0..=13 {
        let around = (0..5).filter(|&place| place < pc && pc <= 11 - place);
        let mut bench = Bench::of(&program).at(pc);
        for place in around.take(4) {
            bench = bench.within(place, 2 + u32::from(place));
        }
        all.push(bench);
    }
    // Inside all five: the count 5, the four inner ones.
    let four = |first: u16| {
        let bench = Bench::of(&program).at(6);
        (first..first + 4).fold(bench, |bench, place| bench.within(place, 1))
    };
    all.extend([four(0).active(5), four(1)]);
    all
}

/// Flags that do not fit the accumulators, and an accumulator beyond 32 bits
/// with saturation on, are accepted.
fn flags() -> Vec<Bench> {
    vec![
        Bench::one(literal(1, 2)).flags(0b0011),
        Bench::one(literal(1, 2)).flags(0b1100).both(0, 0),
        Bench::one(literal(1, 2)).both(1 << 38, -(1 << 38)),
        Bench::one(literal(1, 2))
            .both(1 << 38, -(1 << 38))
            .mode(0x00C0),
    ]
}
