//! Runs of joined files, with budgets at the edges of both parts: each ending of the
//! first, each way in which a second can begin, what the first leaves; then starts
//! within the second.

use super::build::{add, Program};
use crate::cases::Case;
use crate::file::{blocks_of, BLOCK};
use crate::form::Form;
use crate::generate::bench::Bench;
use crate::generate::blocks::{with, with_sums};
use crate::generate::forms::Bytes;
use crate::generate::ops::*;
use crate::generate::pairs::{joined_file, needed};
use crate::long::{Call, Long};
use crate::succession::Pair;
use crate::tally::tally_case;

/// A budget that is enough for all of these.
const ENOUGH: u32 = 10_000;

macro_rules! sample {
    ($name:literal) => {
        include_bytes!(concat!(
            env!("CARGO_MANIFEST_DIR"),
            "/../../../samples/",
            $name
        ))
    };
}

/// Two filters of the samples.
const FIR: &[u8] = sample!("fir.bin");
const LMS: &[u8] = sample!("lms.bin");

pub fn cases() -> Vec<Form> {
    let mut all: Vec<Form> = whole_pairs().iter().flat_map(every_budget).collect();
    all.extend(pairs().iter().flat_map(at_the_edges));
    all.extend(starts().into_iter().map(short));
    all.extend(refused().into_iter().flat_map(in_both_forms));
    all.push(largest());
    all
}

fn short(bench: Bench) -> Form {
    Form::Short(bench.case)
}

/// The same run in the long form.
fn long(start: Case) -> Form {
    Form::Long(Long::of(Call::Run, start))
}

fn in_both_forms(bench: Bench) -> [Form; 2] {
    [short(bench.clone()), long(bench.case)]
}

/// The first on a bench, and a second.
fn pair(bench: Bench, second: Program) -> Pair {
    Pair {
        first: bench.case,
        second: blocks_of(&second.operations.concat()),
    }
}

/// The joined file from the first's start, with this budget.
fn run(pair: &Pair, budget: u32) -> Case {
    Case {
        file: joined_file(&pair.first.file, &pair.second),
        budget,
        ..pair.first.clone()
    }
}

/// Budgets 0 to one more than both need; the last but one in the long form too.
fn every_budget(pair: &Pair) -> Vec<Form> {
    let [_, both] = needed(pair, ENOUGH);
    let budgets = 0..=both + 1;
    let mut all: Vec<Form> = budgets.map(|n| Form::Short(run(pair, n))).collect();
    all.push(long(run(pair, both)));
    all
}

/// Budgets 0, k - 1, k, k + 1, k + k2 - 1, k + k2; enough, in the long form.
fn at_the_edges(pair: &Pair) -> Vec<Form> {
    let [first, both] = needed(pair, ENOUGH);
    let mut budgets = vec![0, first.saturating_sub(1), first, first + 1];
    budgets.extend([both.saturating_sub(1), both]);
    budgets.sort();
    budgets.dedup();
    let mut all: Vec<Form> = budgets
        .into_iter()
        .map(|budget| Form::Short(run(pair, budget)))
        .collect();
    all.push(long(run(pair, ENOUGH)));
    all
}

fn ops(operations: &[Bytes]) -> Program {
    Program::new().ops(operations)
}

/// Loops in a loop, one after the other, with a repeat.
fn loops_in_a_loop() -> Program {
    Program::new().looped(1, |body| {
        body.looped(1, |inner| inner.ops(&[add(0, 4), add(1, 6)]))
            .looped_by(2, |inner| inner.op(subtract(0)).repeated(1, add(1, 5)))
            .op(negate(1))
    })
}

/// Pairs of few steps, that a line stands for each of.
pub fn whole_pairs() -> Vec<Pair> {
    let straight = [add(0, 4), mac(1), store(4, 13, 2)];
    let looped = || Program::new().looped(1, |body| body.op(add(1, 5)).repeated(2, add(0, 4)));
    vec![
        pair(ops(&straight).bench(), ops(&[msc(1), sum(0)])),
        pair(ops(&straight).bench().w(2, 1), loops_in_a_loop()),
        pair(looped().bench(), looped()),
        pair(loops_in_a_loop().bench().w(2, 1), looped()),
        pair(ops(&straight).bench(), nest_of_four()),
    ]
}

/// Four loops in each other, the first and third of one pass, the others of two.
fn nest_of_four() -> Program {
    let inner = |body: Program| body.ops(&[add(0, 4), add(1, 5)]);
    let third = |body: Program| body.looped(1, inner).op(add(1, 6));
    let second = |body: Program| body.looped(0, third).op(add(0, 7));
    Program::new().looped(0, |body| body.looped(1, second).op(negate(0)))
}

/// Pairs that stand with budgets at the edges.
pub fn pairs() -> Vec<Pair> {
    let mut all = blocked_firsts();
    all.extend(raised_firsts());
    all.extend(trapped_seconds());
    all.extend(beginnings());
    all.extend(left_behind());
    all.extend(across_blocks());
    all.push(filters());
    all
}

/// A second whose every step shows.
fn telling() -> Program {
    Program::new()
        .ops(&[add(0, 4), store(5, 13, 2)])
        .looped(2, |body| body.ops(&[add(1, 6), END_EARLY, mac(0)]))
        .op(sum(1))
}

/// Five DOs in each other.
fn nest_of_five() -> Program {
    fn nest(program: Program, depth: u16) -> Program {
        match depth {
            0 => program.op(add(0, 4)),
            _ => program.looped(depth, |body| nest(body.op(add(1, 5)), depth - 1).op(IDLE)),
        }
    }
    nest(Program::new(), 5)
}

/// Traps 1 to 4 of the first: at once, in a repeat, in a loop, by its last operation.
fn blocked_firsts() -> Vec<Pair> {
    let odd = ops(&[literal(0, 0x1003), load(4, 0, 1), IDLE]).bench();
    let last = ops(&[add(0, 4), literal(13, 0x1FFE), movsac(0, 2)]).bench();
    let up = Program::new().looped(4, |body| body.op(add(0, 4)).repeated(2, store(4, 13, 2)));
    let down = Program::new().looped(9, |body| {
        body.ops(&[IDLE, [3, 1, 0x76, 0x28, 0, 6, 0, 0], add(0, 6)])
    });
    let shift = ops(&[add(0, 4), literal(2, 17), shift_by(1, 2)]).bench();
    let far = ops(&[literal(2, 0xFFEF), shift_by(0, 2), add(0, 4)]).bench();
    let benches = [
        odd,
        last,
        up.bench(),
        down.bench(),
        shift,
        far,
        nest_of_five().bench(),
    ];
    benches.map(|bench| pair(bench, telling())).to_vec()
}

/// Traps 5 to 7 of the first: in the middle, by the last operation, by that in the
/// last place of a loop, as the last of a repeat.
fn raised_firsts() -> Vec<Pair> {
    let (high, narrow) = ((1 << 39) - 1, (1 << 31) - 1);
    let starts = [
        (0x0100, 0, high, 1),
        (0x0100, 1, 1, high),
        (0x0400, 0, narrow, 1),
        (0x0200, 1, 1, narrow),
        (0x0700, 0, -(1 << 39), -1),
    ];
    let mut all = Vec::new();
    for (traps, target, a, b) in starts {
        let looped = Program::new().looped(0, |body| body.ops(&[IDLE, sum(target)]));
        let programs = [
            ops(&[IDLE, sum(target), add(0, 4)]),
            ops(&[IDLE, sum(target)]),
            looped,
            Program::new().op(IDLE).repeated(0, sum(target)),
        ];
        all.extend(programs.map(|first| {
            let bench = first.bench().both(a, b).mode(0).traps(traps);
            pair(bench, telling())
        }));
    }
    all
}

/// Traps 1 to 7 of the second, in its loops and by its last operation.
fn trapped_seconds() -> Vec<Pair> {
    let first = || ops(&[add(0, 4), add(1, 5), IDLE]);
    let within = |operation| Program::new().looped(2, |body| body.ops(&[IDLE, operation]));
    let high = (1 << 39) - 1;
    vec![
        pair(first().bench().w(1, 0x1003), within(load(4, 1, 1))),
        pair(first().bench().w(1, 0x101E), within(load(4, 1, 2))),
        pair(first().bench().w(2, 17), within(shift_by(0, 2))),
        pair(first().bench(), nest_of_five()),
        pair(
            first().bench().both(high, 0).mode(0).traps(0x0100).w(4, 0),
            within(add(0, 6)),
        ),
        pair(first().bench().both(0, 0).traps(0x0400), within(add(0, 6))),
        pair(first().bench().both(0, 0).traps(0x0200), within(add(1, 6))),
        pair(
            first().bench().both(0, 0).traps(0x0700),
            ops(&[IDLE, add(1, 6), add(1, 6)]),
        ),
    ]
}

/// Seconds that begin with DO, REPEAT and kind 23, after a first whose last operation
/// ends a loop or a repeat.
fn beginnings() -> Vec<Pair> {
    let firsts = [
        ops(&[add(0, 4)]),
        Program::new().looped(1, |body| body.ops(&[IDLE, add(0, 4)])),
        Program::new().repeated(2, add(0, 4)),
        Program::new().looped_by(2, |body| body.op(IDLE).repeated(1, END_EARLY)),
    ];
    let seconds = [
        Program::new().looped(2, |body| body.ops(&[add(1, 5), add(0, 6)])),
        Program::new().looped_by(3, |body| body.ops(&[add(1, 5), END_EARLY, add(0, 6)])),
        Program::new().repeated(3, add(1, 5)).op(IDLE),
        ops(&[repeat_by(2), add(1, 5)]),
        ops(&[END_EARLY, add(1, 5)]).looped(3, |body| body.ops(&[add(0, 6), IDLE])),
        Program::new().repeated(1, END_EARLY),
    ];
    // Each second after two of the firsts.
    let firsts = firsts.into_iter().cycle();
    let twice = seconds
        .iter()
        .chain(seconds[1..].iter().chain(&seconds[..1]));
    let joined = |(first, second): (Program, &Program)| {
        let bench = first.bench().w(2, 2).w(3, 0x4001);
        pair(bench, second.clone())
    };
    firsts.zip(twice).map(joined).collect()
}

/// S and O flags, mode words, registers and words that the first leaves, and seconds
/// that keep, use or clear them.
fn left_behind() -> Vec<Pair> {
    let (high, narrow) = ((1 << 39) - 1, (1 << 31) - 1);
    let saturating = |a, b, mode| ops(&[sum(0), sum(1)]).bench().both(a, b).mode(mode);
    let quiet = ops(&[IDLE, IDLE]);
    vec![
        pair(saturating(narrow, 9, 0x00E0), quiet.clone()),
        pair(saturating(high, 9, 0x00F0), quiet.clone()),
        pair(saturating(high, high, 0x0000), ops(&[negate(0), sum(1)])),
        pair(saturating(narrow, narrow, 0x00C0), ops(&[CLEAR_S, IDLE])),
        pair(
            saturating(narrow, 9, 0x0080).flags(0b1111),
            ops(&[subtract(1), CLEAR_S]),
        ),
        pair(
            ops(&[set_mode(0x1013)]).bench(),
            ops(&[mpy(0), scaled(15, 0, 0, 5, 0)]),
        ),
        pair(
            ops(&[set_mode(0x0002)]).bench(),
            ops(&[mpy(0), set_mode(0x0021), mpy(1)]),
        ),
        pair(
            ops(&[literal(0, 0x1004), store(4, 0, 2), literal(5, 9)]).bench(),
            ops(&[load(6, 0, 3), load(7, 0, 1), mac(1), movsac(0, 2)]),
        ),
        pair(
            ops(&[store(4, 13, 2), store(5, 13, 2)])
                .bench()
                .x(13, 0x100A, 0x100F),
            ops(&[store(6, 13, 2), store(7, 13, 2)]),
        ),
        pair(
            ops(&[store(4, 0, 2), store(5, 0, 2)])
                .bench()
                .reversed(0, 8)
                .w(0, 0x1000),
            ops(&[store(6, 0, 2), store(7, 0, 2)]),
        ),
    ]
}

/// A first of 62, 63, 64 operations and a second with loops over the edge of a block.
fn across_blocks() -> Vec<Pair> {
    let mut all = Vec::new();
    for count in [61, 62, 63, 64] {
        let first = ops(&vec![add(0, 4); count]);
        all.push(pair(first.bench().w(2, 1), loops_in_a_loop()));
    }
    let long = Program::new().looped(1, |body| body.ops(&[add(1, 5); 70]));
    all.push(pair(ops(&[add(0, 4)]).bench(), long.clone()));
    all.push(pair(long.bench(), telling()));
    all
}

/// samples/fir.bin, then samples/lms.bin, as tally runs a file.
fn filters() -> Pair {
    Pair {
        first: tally_case(FIR),
        second: LMS.to_vec(),
    }
}

/// A first of three operations, then two loops: DO 3, last 7, and DO 4, last 6.
fn two_loops() -> Bench {
    let first = ops(&[add(0, 4), IDLE, add(1, 5)]);
    let second = Program::new().looped(2, |body| {
        body.looped(1, |inner| inner.ops(&[add(0, 6), add(1, 7)]))
            .op(sum(0))
    });
    let pair = pair(first.bench(), second);
    Bench {
        case: run(&pair, ENOUGH),
    }
}

/// Starts elsewhere than at the first operation: at the second's first, within its
/// loops, at the end.
fn starts() -> Vec<Bench> {
    vec![
        two_loops().at(2),
        two_loops().at(3),
        two_loops().at(4).within(3, 2),
        two_loops().at(5).within(3, 2).within(4, 1),
        two_loops().at(6).within(3, 1).within(4, 2),
        two_loops().at(7).within(3, 3),
        two_loops().at(8),
    ]
}

/// Refusals 6 and 7, DO numbers counted from the second's start among them; 5 by a last
/// that is not moved; 1 to 4 by something wrong in the second's block.
fn refused() -> Vec<Bench> {
    let straight = [add(0, 4); 63];
    let pair = pair(ops(&straight).bench(), telling());
    let file = joined_file(&pair.first.file, &pair.second);
    vec![
        two_loops().traps(0x0800),
        two_loops().memory(1, 1),
        two_loops().mode(0x2020),
        two_loops().both(1 << 39, 0),
        two_loops().slot(0, 3, 1),
        two_loops().at(9),
        two_loops().at(5).within(0, 2).within(1, 1),
        two_loops().at(3).repeating(1),
        Bench::of(&[IDLE, IDLE, do_to(1, 2), IDLE, IDLE]),
        Bench::one(IDLE).file(file[..2 * BLOCK - 1].to_vec()),
        Bench::one(IDLE).file(file[BLOCK..].to_vec()),
        Bench::one(IDLE).file(with(file.clone(), &[(BLOCK + 8, 26)])),
        Bench::one(IDLE).file(with_sums(file, &[(BLOCK + 8, 26)])),
    ]
}

/// 4,032 operations together, spent in the second's loop, which begins at 2,016.
fn largest() -> Form {
    let first = ops(&vec![add(0, 4); 2_016]);
    let second = Program::new().looped(1, |body| body.ops(&vec![add(1, 5); 2_015]));
    let pair = pair(first.bench().both(0, 0), second);
    long(run(&pair, 2_016 + 1 + 2_015 + 7))
}
