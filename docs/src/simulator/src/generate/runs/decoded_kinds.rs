//! Runs over decoded operations of every kind: every form in the slice and run, all bits
//! of literals, counts, lasts and mode words.

use super::build::{add, Program};
use super::kinds;
use super::sizes::straight;
use crate::file::MOST_OPERATIONS;
use crate::form::Form;
use crate::generate::bench::Bench;
use crate::generate::decoded::{decoded_case, exact_words};
use crate::generate::forms::{forms, mode_word};
use crate::generate::ops::*;

pub fn cases() -> Vec<Form> {
    let mut all = unreached();
    all.extend(a_third_of_the_kinds());
    all.extend([literals(), repeats(), loops(), modes(), moves()]);
    all.extend(by_registers());
    all.extend(lasts());
    by_turns(all)
}

/// Each run over decoded operations, with a slice that is exact, or longer.
pub fn by_turns(benches: Vec<Bench>) -> Vec<Form> {
    let more = [0, 0, 1, 0, 40, 0, 300].into_iter().cycle();
    let lend = |(bench, more): (Bench, usize)| {
        let words = exact_words(&bench.case.file) + more;
        Form::Long(decoded_case(bench.case, words))
    };
    benches.into_iter().zip(more).map(lend).collect()
}

/// Every kind in every form, none of them reached.
fn unreached() -> Vec<Bench> {
    let program = |kind| Bench::of(&forms(kind)).budget(0);
    (1..=25).map(program).collect()
}

/// Of the three settings of each program of kinds 1 to 18 one, by turns; as many of the
/// others.
fn a_third_of_the_kinds() -> Vec<Bench> {
    let all = kinds::cases().into_iter().enumerate();
    let third = all.filter(|(i, _)| i % 3 == i / 3 % 3);
    third.map(|(_, bench)| bench).collect()
}

/// Kind 16: each bit alone and each bit missing, stored one after the other.
fn literals() -> Bench {
    let words = (0..16).flat_map(|bit| [1 << bit, !(1 << bit)]);
    let all = words.chain([0, 0xFFFF]);
    let stored = all.flat_map(|word: u16| [literal(4, word), store(4, 0, 2)]);
    let program = Program::new().ops(&stored.collect::<Vec<_>>());
    program.bench().memory(40, 20).w(0, 0x1000)
}

/// Kind 19: each bit of the count alone, none, all.
fn repeats() -> Bench {
    let counts = (0..15).map(|bit| 1 << bit).chain([0, 0x7FFF]);
    let repeated = |program: Program, count: u16| {
        let store = scaled(14, 0, 0, 0, 2);
        program.repeated(count, add(0, 2)).op(store)
    };
    let program = counts.fold(Program::new(), repeated);
    let bench = program.bench().memory(40, 20).budget(200_000);
    bench.w(0, 0x1000).w(2, 1).both(0, 0).mode(0)
}

/// Kind 21: each bit of the count alone, none, all.
fn loops() -> Bench {
    let counts = (0..15).map(|bit| 1 << bit).chain([0, 0x7FFF]);
    let looped = |program: Program, count: u16| {
        let body = |body: Program| body.ops(&[add(0, 2), add(1, 3)]);
        program.looped(count, body).op(scaled(14, 0, 0, 0, 2))
    };
    let program = counts.fold(Program::new(), looped);
    let bench = program.bench().memory(40, 20).budget(300_000);
    bench.w(0, 0x1000).w(2, 1).w(3, 0xFFFF).both(0, 0).mode(0)
}

/// Kind 24: all 128 mode words, a product and a store after each.
fn modes() -> Bench {
    let ops = |number| [set_mode(mode_word(number)), mac(0), scaled(15, 0, 0, 0, 2)];
    let program = Program::new().ops(&(0..128).flat_map(ops).collect::<Vec<_>>());
    let bench = program.bench().memory(140, 70).w(0, 0x1000);
    bench.w(4, 0x9000).w(5, 0xB000)
}

/// Kinds 17 and 18 in each form through every pointer, which is stored after each, and so
/// is the loaded word.
fn moves() -> Bench {
    let mut program = Program::new();
    for pointer in 0..14 {
        let (shown, loaded) = ((pointer + 1) % 14, (pointer + 2) % 14);
        let place = 0x1020 + 18 * u16::from(pointer);
        program = program.ops(&[literal(pointer, 0x1010), literal(shown, place)]);
        for form in 1..=3 {
            let show = |register| store(register, shown, 2);
            let load = load(loaded, pointer, form);
            program = program.ops(&[load, show(pointer), show(loaded)]);
            program = program.ops(&[store(loaded, pointer, form), show(pointer)]);
        }
    }
    program.bench().memory(144, 72)
}

/// Kinds 20 and 22 by every register.
fn by_registers() -> Vec<Bench> {
    let program = |register: u8| {
        let body = |body: Program| body.op(add(1, 4)).op(repeat_by(register)).op(add(0, 5));
        let program = Program::new().looped_by(register, body);
        program.bench().w(register, 0x4003)
    };
    (0..14).map(program).collect()
}

/// DO's last: each bit alone and all that a program has room for, by kinds 21 and 22, all
/// of them run; then in each other, of which the fifth is trap 4.
fn lasts() -> Vec<Bench> {
    let mut run = straight(MOST_OPERATIONS);
    for bit in 2..12 {
        let last: u16 = 1 << bit;
        run[usize::from(last) - 2] = match bit {
            6 => do_by(2, last),
            _ => do_to(2, last),
        };
    }
    run[4_029] = do_by(2, 4_031);
    let mut nested = straight(MOST_OPERATIONS);
    let lasts = [4_031, 2_047, 1_023, 511, 255, 127, 63, 31, 15];
    for (place, last) in lasts.into_iter().enumerate() {
        nested[place] = do_to(1, last);
    }
    [run, nested]
        .map(|program| Bench::of(&program).budget(5_000))
        .to_vec()
}
