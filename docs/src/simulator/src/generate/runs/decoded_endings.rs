//! Runs over decoded operations that end in every way: at once, spent, by each trap, from
//! starts in loops and repeats; loops, REPEAT, kind 23 and write-back.

use super::build::{add, Program};
use super::decoded_kinds::by_turns;
use super::starts::every_place;
use super::{budgets, early, filters, nests};
use crate::form::Form;
use crate::generate::bench::Bench;
use crate::generate::forms::Bytes;
use crate::generate::ops::*;

pub fn cases() -> Vec<Form> {
    let mut all = budgets::at_the_end();
    all.extend(budgets::programs().iter().flat_map(cut));
    all.extend(blocked_at_once());
    all.extend(raised_at_once());
    all.extend(budgets::raised_by_the_last().into_iter().step_by(3));
    all.extend(nests::cases().into_iter().step_by(3));
    all.extend(early::cases().into_iter().step_by(3));
    all.extend(every_place([2, 1, 3, 2], 3, 400));
    all.extend(filters::cases().into_iter().step_by(7));
    all.extend(write_backs());
    by_turns(all)
}

/// With budgets of none, one, seven, and with its own.
fn cut(bench: &Bench) -> Vec<Bench> {
    let own = bench.case.budget;
    let cut = |budget| bench.clone().budget(budget);
    [0, 1, 7, own].map(cut).to_vec()
}

/// Operations after the first one, which are not reached.
fn unreached(first: Bytes) -> Bench {
    let after = [
        mac(0),
        store(4, 13, 2),
        clr(1, 2),
        set_mode(0x10F3),
        CLEAR_S,
    ];
    Program::new().op(first).ops(&after).bench()
}

/// Traps 1 to 3 at operation 0, by an X, a Y and a plain read and by a write; trap 4 at the
/// first operation executed, as no loop is around operation 0.
fn blocked_at_once() -> Vec<Bench> {
    let mut all = Vec::new();
    for word in [0x1001, 0x0FFE] {
        let x = multiply_and_read(3, 0);
        all.push(unreached(x).w(8, word));
        all.push(unreached(x).w(10, word));
        all.push(unreached(load(4, 0, 1)).w(0, word));
        all.push(unreached(scaled(12, 0, 0, 0, 2)).w(0, word));
        all.push(unreached(store(4, 0, 2)).w(0, word));
        all.push(unreached(movsac(0, 2)).w(13, word));
    }
    all.extend([17, 0xFFEF].map(|by| unreached(shift_by(1, 3)).w(3, by)));
    let five = (0..5).map(|place| do_to(2, 10 - place));
    let operations: Vec<Bytes> = five.chain([IDLE; 7]).collect();
    let inner = |bench: Bench| (0..4).fold(bench, |bench, number| bench.within(number, 2));
    all.push(inner(Bench::of(&operations).budget(9)).at(4));
    all.push(Bench::of(&operations).budget(9));
    all
}

/// Traps 5 to 7 at operation 0.
fn raised_at_once() -> Vec<Bench> {
    let high = (1 << 39) - 1;
    vec![
        unreached(add(0, 6)).both(high, 0).traps(0x0100),
        unreached(add(1, 6)).both(0, high).traps(0x0700),
        unreached(sum(0)).both(1 << 31, 1).traps(0x0400),
        unreached(sum(1)).both(1 << 31, 1).traps(0x0200),
        unreached(mac(1))
            .both(0, -(1 << 31))
            .traps(0x0600)
            .w(5, 0x0FFF)
            .w(4, 0xF000),
    ]
}

/// Kinds 1, 3, 4 and 7 with both write-backs, alone, repeated and in loops.
fn write_backs() -> Vec<Bench> {
    let mut all = Vec::new();
    for (b6, target) in [(1, 0), (1, 1), (2, 0), (2, 1)] {
        let reading = |kind, b2| [kind, target, b2, 0x48, 0x4A, 0x76, b6, 0];
        let body = [
            reading(1, 0),
            reading(3, 0x76),
            reading(4, 0x64),
            reading(7, 0),
        ];
        let bench = |program: Program| {
            let bench = program.bench().memory(40, 20).w(13, 0x1020);
            bench
                .w(8, 0x1000)
                .w(10, 0x1028)
                .both(-98_304, 2_147_450_880)
        };
        all.push(bench(Program::new().ops(&body)));
        let repeated = |program: Program, op: &Bytes| program.repeated(1, *op);
        all.push(bench(body.iter().fold(Program::new(), repeated)));
        all.push(bench(
            Program::new().looped(1, |all| all.ops(&body).op(add(1, 6))),
        ));
        all.push(bench(Program::new().ops(&body)).mode(0x0002));
    }
    all
}
