//! Wish 1: counts of 16 bits by kind 22, and 1 to 65,536 passes left of a loop of either
//! kind. A line shows the passes made in A and B, and those left in its slots.

use super::build::{add, words, Program};
use crate::form::Form;
use crate::generate::bench::Bench;
use crate::generate::forms::Bytes;
use crate::generate::ops::*;
use crate::long::{Call, Long};

/// Counts at both ends and on both sides of bits 14 and 15.
pub const WORDS: [u16; 10] = [
    0, 1, 0x3FFF, 0x4000, 0x4001, 0x7FFF, 0x8000, 0xBFFF, 0xC000, 0xFFFF,
];

/// Passes left at the ends of 1 to 32,768 and of 1 to 65,536, and numbers beyond, some of
/// which are good in their low 16 bits.
pub const PASSES: [u32; 14] = [
    0,
    1,
    2,
    32_768,
    32_769,
    49_153,
    65_535,
    65_536,
    65_537,
    98_304,
    131_072,
    131_073,
    0x8000_0001,
    u32::MAX,
];

/// The kinds of DO.
pub const KINDS: [u8; 2] = [21, 22];

/// The registers that `counting` can be asked for: its body has W4 and W5.
const FREE: [u8; 12] = [0, 1, 2, 3, 6, 7, 8, 9, 10, 11, 12, 13];

pub fn cases() -> Vec<Form> {
    let short = [
        to_the_end(),
        cut(),
        at_the_end(),
        in_pass_40_000(),
        states(),
        from_states(),
        four_loops(),
        with_repeats(),
        early(),
        nests(),
        sums(),
        beside(),
        repeats(),
        other_counts(),
    ];
    let short = short.into_iter().flatten();
    let mut all: Vec<Form> = short.map(|bench| Form::Short(bench.case)).collect();
    let long = long().into_iter().map(|bench| bench.case);
    all.extend(long.map(|start| Form::Long(Long::of(Call::Run, start))));
    all
}

/// 1 to A as a word and 2 to B in each pass.
fn body(program: Program) -> Program {
    program.ops(&[add(0, 4), mac(1)])
}

/// W4, W5 and both sums for that body.
fn set(bench: Bench) -> Bench {
    bench.both(0, 0).w(4, 1).w(5, 1)
}

/// A loop by register and nothing else.
pub fn counting(register: u8, word: u16) -> Bench {
    let program = Program::new().looped_by(register, body);
    set(program.bench()).w(register, word)
}

/// Each count by another register.
pub fn each() -> impl Iterator<Item = (u16, Bench)> {
    let counts = WORDS.into_iter().zip(FREE);
    counts.map(|(word, register)| (word, counting(register, word)))
}

/// The steps of `counting`.
pub fn whole(word: u16) -> u32 {
    1 + 2 * (u32::from(word) + 1)
}

fn to_the_end() -> Vec<Bench> {
    each().map(|(_, bench)| bench.budget(u32::MAX)).collect()
}

/// After DO, and after the first pass; the most passes in the first one and in the third
/// too.
fn cut() -> Vec<Bench> {
    let both = |(_, bench): (u16, Bench)| [1, 3].map(|budget| bench.clone().budget(budget));
    let mut all: Vec<Bench> = each().flat_map(both).collect();
    all.extend([2, 6].map(|budget| counting(3, 0xFFFF).budget(budget)));
    all
}

/// One step too few, and exactly as many as are needed.
fn at_the_end() -> Vec<Bench> {
    let cut = |word| [1, 0].map(|less| counting(2, word).budget(whole(word) - less));
    [0x4000, 0xFFFF].into_iter().flat_map(cut).collect()
}

/// Before pass 40,000, and within it.
fn in_pass_40_000() -> Vec<Bench> {
    let before = whole(39_998);
    let within = [0x9C3F, 0xC000, 0xFFFF].map(|word| counting(1, word).budget(before + 1));
    let mut all = vec![counting(1, 0xFFFF).budget(before)];
    all.extend(within);
    all
}

/// DO of a kind with count 5, the register's in W3.
fn do_of(kind: u8, last: u16) -> Bytes {
    match kind {
        21 => do_to(5, last),
        _ => do_by(3, last),
    }
}

/// DO at 0 with the last at 5, DO of the other kind at 2 with the last at 4; at 3.
fn nest(outer: u8) -> Bench {
    let inner = 43 - outer;
    let program = [
        do_of(outer, 5),
        add(0, 4),
        do_of(inner, 4),
        add(1, 4),
        add(1, 5),
        add(0, 5),
        sum(0),
    ];
    let bench = Bench::of(&program).budget(9).both(0, 0);
    bench.w(3, 5).w(4, 1).w(5, 0x0010).at(3)
}

/// These passes left of a loop of this kind around one of the other kind, and inside one.
pub fn state(kind: u8, passes: u32) -> [Bench; 2] {
    [
        nest(kind).within(0, passes).within(2, 2),
        nest(43 - kind).within(0, 2).within(2, passes),
    ]
}

fn states() -> Vec<Bench> {
    let of = |kind| PASSES.into_iter().flat_map(move |n| state(kind, n));
    KINDS.into_iter().flat_map(of).collect()
}

/// A loop of a kind alone, inside it.
pub fn inside(kind: u8, passes: u32) -> Bench {
    let bench = Bench::of(&[do_of(kind, 2), add(0, 4), mac(1)]);
    set(bench).w(3, 5).at(1).within(0, passes)
}

/// To the end, and the fall in the last place.
fn from_states() -> Vec<Bench> {
    let mut all = Vec::new();
    for kind in KINDS {
        let to_the_end = |passes| inside(kind, passes).budget(u32::MAX);
        all.extend([32_769, 65_536].map(to_the_end));
        all.extend([32_769, 65_536].map(|passes| inside(kind, passes).at(2)));
    }
    all
}

/// DO at 0 to 3 by both kinds in turn, lasts 9 down to 6; the most passes left of each.
fn four() -> Bench {
    let mut program = vec![add(0, 4); 10];
    for (place, operation) in program[..4].iter_mut().enumerate() {
        *operation = do_of(KINDS[place % 2], 9 - place as u16);
    }
    let bench = Bench::of(&program).both(0, 0).w(3, 5).w(4, 1).at(5);
    let within = |bench: Bench, number| bench.within(number, 65_536);
    (0..4).fold(bench.budget(40), within)
}

/// Four loops with the most passes; one too many and none in each slot; passes in slots
/// that are not in use; a fifth loop by register.
fn four_loops() -> Vec<Bench> {
    let mut all = vec![four(), four().at(6)];
    for slot in 0..4 {
        all.extend([65_537, 0].map(|passes| four().slot(slot, slot as u16, passes)));
    }
    all.push(inside(22, 65_536).slot(1, 0, 65_536));
    all.push(inside(21, 2).slot(3, 0, 32_769));
    let fifth = [0, 1, 2, 3, 4].map(|place| do_by(3, 10 - place));
    let program: Vec<Bytes> = fifth.into_iter().chain([IDLE; 6]).collect();
    all.push(Bench::of(&program).w(3, 0xFFFF).budget(9));
    all
}

/// A repeated last place with the most passes and the most runs left: passes fall once.
fn with_repeats() -> Vec<Bench> {
    let program = [do_by(3, 3), IDLE, repeat(1), add(0, 4)];
    let bench = Bench::of(&program).both(0, 0).w(4, 1).at(3);
    let bench = bench.within(0, 65_536).budget(65_536);
    [65_536, 65_537]
        .map(|left| bench.clone().repeating(left))
        .to_vec()
}

/// Four operations, of which one is kind 23.
fn ending(place: u16) -> [Bytes; 4] {
    let mut body = [add(0, 4), add(1, 4), add(0, 5), add(1, 5)];
    body[usize::from(place)] = END_EARLY;
    body
}

/// Kind 23 in a place of a loop of a kind with these passes left.
pub fn ending_in(kind: u8, place: u16, passes: u32) -> Bench {
    let program = [&[do_of(kind, 4)], &ending(place)[..]].concat();
    early_at(&program, 1 + place).within(0, passes)
}

/// Kind 23 in each place: from a state with 32,769 passes and with the most, once as the
/// only step, from DO by register, and repeated in the last place.
fn early() -> Vec<Bench> {
    let mut all = Vec::new();
    for place in 0..4 {
        for kind in KINDS {
            all.extend([32_769, 65_536].map(|passes| ending_in(kind, place, passes)));
            all.push(ending_in(kind, place, 65_536).budget(1));
        }
        let program = Program::new().looped_by(3, |body| body.ops(&ending(place)));
        all.push(early_at(&program.operations, 0).w(3, 0xFFFF));
    }
    for kind in KINDS {
        let program = [do_of(kind, 3), add(0, 4), repeat(1), END_EARLY];
        let last = early_at(&program, 3).within(0, 65_536);
        all.push(last.repeating(2));
    }
    all
}

fn early_at(program: &[Bytes], pc: u16) -> Bench {
    let bench = Bench::of(program).budget(12).both(0, 0);
    bench.w(3, 5).w(4, 1).w(5, 0x0010).at(pc)
}

/// A loop by W3 in a loop by W2.
fn by_two(outer: u16, inner: u16) -> Bench {
    let program = Program::new().looped_by(2, |all| all.looped_by(3, body).op(add(1, 4)));
    set(program.bench()).w(2, outer).w(3, inner)
}

/// Both counts by registers; then by one register, which the outer loop changes.
fn nests() -> Vec<Bench> {
    let one = Program::new().looped_by(3, |outer| {
        let inner = outer.op(literal(3, 0x8001)).looped_by(3, body);
        inner.op(literal(3, 0))
    });
    vec![
        by_two(2, 0x4000).budget(u32::MAX),
        by_two(0x4000, 1).budget(u32::MAX),
        by_two(0x8000, 0).budget(100_000),
        by_two(0xFFFF, 0xFFFF).budget(140_000),
        set(one.bench()).w(3, 0xC000).budget(1_000),
    ]
}

/// W4 x W5 to A and from B in each pass of a loop by W3.
pub fn products(word: u16, factor: u16, mode: u16) -> Bench {
    let program = Program::new().looped_by(3, |body| body.ops(&[mac(0), msc(1)]));
    let bench = program.bench().budget(u32::MAX).both(0, 0).mode(mode);
    bench.w(3, word).w(4, factor).w(5, factor)
}

/// Sums over a whole belt: small; 2^23 in each pass, which leave the limits of 40 bits in
/// the last of 65,536 passes, saturated and trapped too, and not in 65,535; unsigned; with
/// reads round both buffers and a write-back.
fn sums() -> Vec<Bench> {
    let wide = |word, mode| products(word, 0x0800, mode);
    let program = Program::new().looped_by(3, |body| {
        body.ops(&[[3, 0, 0x54, 0x38, 0x4A, 0x54, 2, 0], msc(1)])
    });
    let belt = program.bench().budget(u32::MAX).w(3, 0xFFFF);
    vec![
        products(0xFFFF, 5, 0x0020),
        wide(0xFFFF, 0x0020),
        wide(0xFFFE, 0x0020),
        wide(0xFFFF, 0x00F0),
        wide(0xFFFF, 0x0020).traps(0x0100),
        products(0xFFFF, 0xFFFF, 0x1001).w(5, 0x0080),
        belt.words(words(1, 32, -3_000, 3_000), 16)
            .x(13, 0x1010, 0x101F)
            .y(10, 0x1020, 0x103F)
            .w(8, 0x1004)
            .w(10, 0x1024)
            .w(13, 0x1012),
    ]
}

/// Kind 21's most passes beside kind 22 with as many; literals that kinds 19 and 21 do
/// not have.
fn beside() -> Vec<Bench> {
    let literal = Program::new().looped(32_767, body);
    let by = |begin| set(Bench::of(&[begin, add(0, 4), mac(1)])).budget(9);
    vec![
        set(literal.bench()).budget(u32::MAX),
        counting(3, 0x7FFF).budget(u32::MAX),
        by(do_to(0x8000, 2)),
        by(do_to(0xFFFF, 2)),
        by(repeat(0x8000)),
    ]
}

/// REPEAT by the same counts.
fn repeats() -> Vec<Bench> {
    let repeated = |(word, register): (u16, u8)| {
        let program = Program::new().ops(&[repeat_by(register), add(0, 4)]);
        set(program.bench()).w(register, word).budget(u32::MAX)
    };
    WORDS.into_iter().zip(FREE).map(repeated).collect()
}

/// A count that the loop itself changes, one read from memory, one stored by kind 14.
fn other_counts() -> Vec<Bench> {
    let changing = Program::new().looped_by(6, |all| all.ops(&[literal(6, 0), add(0, 4)]));
    let read = Program::new().op(load(3, 0, 1)).looped_by(3, body);
    let stored = scaled(14, 0, 0, 3, 0);
    let stored = Program::new().op(stored).looped_by(3, body);
    vec![
        set(changing.bench()).w(6, 0x4000).budget(7),
        set(read.bench()).budget(6),
        set(stored.bench()).both(-65_536, 0).budget(6),
    ]
}

/// In the long form: each count after the first pass, one to its end, states.
fn long() -> Vec<Bench> {
    let mut all: Vec<Bench> = each().map(|(_, bench)| bench.budget(3)).collect();
    all.push(counting(3, 0x4000).budget(u32::MAX));
    all.extend([32_769, 65_536, 65_537].map(|passes| inside(21, passes).budget(9)));
    all
}

/// Over decoded operations: each count after DO and after the first pass, some to their
/// end, states of both kinds, kind 23, nests.
pub fn decoded() -> Vec<Bench> {
    let mut all: Vec<Bench> = cut().into_iter().take(2 * WORDS.len()).collect();
    all.extend([0, 0x4000, 0x8000].map(|word| counting(9, word).budget(u32::MAX)));
    for kind in KINDS {
        let passes = [0, 32_768, 32_769, 65_536, 65_537, 131_073];
        all.extend(passes.into_iter().flat_map(|passes| state(kind, passes)));
    }
    all.extend(early().into_iter().step_by(3));
    all.push(by_two(0x4000, 1).budget(10_000));
    all.push(by_two(0xFFFF, 0xC000).budget(300));
    all
}
