//! Every kind in every form, a dozen forms a program: what one operation leaves
//! is what the next one finds. Modes and settings take turns.

use std::ops::RangeInclusive;

use super::build::{add, words, Program};
use crate::cases::Case;
use crate::decode::decode;
use crate::generate::bench::Bench;
use crate::generate::forms::{forms, mode_word, Bytes};
use crate::generate::ops::*;
use crate::memory::Memory;
use crate::settings::Settings;
use crate::state::State;
use crate::step::{Machine, Step};

const WORDS: usize = 64;
const X_WORDS: u16 = 32;
/// Addresses in the middle of the X part, of the Y part, and where both meet.
const X_MIDDLE: u16 = 0x1020;
const Y_MIDDLE: u16 = 0x1060;
const MIDDLE: u16 = 0x103E;
/// The number of forms in a program.
const FORMS: usize = 12;
/// Kinds whose forms stand alone; REPEAT, DO and kind 23 have parts of their own.
const ALONE: RangeInclusive<u8> = 1..=18;

pub fn cases() -> Vec<Bench> {
    let mut all = Vec::new();
    for (turn, kind) in (0..).zip(ALONE) {
        for (number, forms) in (0..).zip(forms(kind).chunks(FORMS)) {
            for setting in 0..3 {
                let bench = set(setting, start(41 * turn + 23 * number + 50 * setting));
                all.push(chained(bench, forms));
            }
        }
    }
    all.extend(modes());
    all.extend(repeats());
    all
}

/// A start with one of the 128 mode words.
fn start(number: u16) -> Bench {
    let bench = Bench::one(IDLE)
        .words(words(number.into(), WORDS, -32_768, 32_767), X_WORDS)
        .mode(mode_word(number % 128))
        .budget(1_000);
    let bench = bench.w(8, X_MIDDLE).w(9, X_MIDDLE + 8).w(12, 0xFFFA);
    bench.w(10, Y_MIDDLE).w(11, Y_MIDDLE - 6).w(13, MIDDLE)
}

/// Settings: none; both buffers and a bit-reversed register; other ones and every
/// trap bit.
fn set(number: u16, bench: Bench) -> Bench {
    match number {
        0 => bench,
        1 => bench
            .x(8, 0x1018, 0x102B)
            .y(10, 0x1054, 0x106B)
            .reversed(0, 16),
        _ => bench
            .x(13, 0x1038, 0x1047)
            .y(11, 0x1050, 0x1067)
            .reversed(1, 8)
            .traps(0x0700),
    }
}

/// A program of these forms, with literals before those that would trap.
fn chained(bench: Bench, forms: &[Bytes]) -> Bench {
    let mut chain = Chain::of(&bench.case);
    forms.iter().for_each(|form| chain.push(form));
    bench.operations(&chain.operations)
}

/// A program in the making and where it leads.
struct Chain {
    settings: Settings,
    state: State,
    memory: Vec<u16>,
    operations: Vec<Bytes>,
}

impl Chain {
    fn of(case: &Case) -> Chain {
        Chain {
            settings: case.settings,
            state: case.state,
            memory: case.memory.clone(),
            operations: Vec::new(),
        }
    }

    /// Execute the operation; whether it is none of traps 1 to 4.
    fn executed(&mut self, bytes: &Bytes) -> bool {
        let Some(operation) = decode(bytes) else {
            return false;
        };
        let mut machine = Machine {
            state: self.state,
            operations: &[operation],
            settings: &self.settings,
            memory: Memory::new(&mut self.memory, X_WORDS),
        };
        machine.state.flow.pc = 0;
        let is_whole = !matches!(machine.step(), Step::Blocked(_));
        self.state = machine.state;
        is_whole
    }

    fn push(&mut self, form: &Bytes) {
        if !self.executed(form) {
            for aim in aims(form) {
                self.executed(&aim);
                self.operations.push(aim);
            }
            self.executed(form);
        }
        self.operations.push(*form);
    }
}

/// Literals that make the accesses and the shift of an operation good.
fn aims(bytes: &Bytes) -> Vec<Bytes> {
    match bytes[0] {
        1..=7 => prefetch_aims(bytes),
        11 => vec![literal(bytes[3], 0xFFFD)],
        12..=15 | 17 | 18 => vec![literal(bytes[3], MIDDLE)],
        _ => Vec::new(),
    }
}

/// W9 + W12 is in the X part, W11 + W13 in the Y part, also where W13 is the
/// write-back's address.
fn prefetch_aims(&[_, _, _, b3, b4, _, b6, _]: &Bytes) -> Vec<Bytes> {
    let mut aims = Vec::new();
    match b3 & 15 {
        0 => {}
        12 => aims.extend([literal(9, X_MIDDLE - 4), literal(12, 4)]),
        pointer => aims.push(literal(pointer, X_MIDDLE)),
    }
    let w13 = if b6 == 2 { MIDDLE } else { 6 };
    if b6 == 2 || b4 == 0x0D {
        aims.push(literal(13, w13));
    }
    match b4 & 15 {
        0 => {}
        13 => aims.push(literal(11, Y_MIDDLE.wrapping_sub(w13))),
        pointer => aims.push(literal(pointer, Y_MIDDLE)),
    }
    aims
}

/// Kind 24 with all 128 mode words: products, sums, shifts and stores after each.
pub fn modes() -> Vec<Bench> {
    let mut all = Vec::new();
    for first in (0..128).step_by(8) {
        let mut program = Program::new();
        for number in first..first + 8 {
            program = program.ops(&[
                set_mode(mode_word(number * 37 % 128)),
                mac(0),
                msc(1),
                [7, 0, 0, 0, 0, 0, 2, 0],
                scaled(15, 0, -3, 0, 2),
                CLEAR_S,
                sum((number % 2) as u8),
            ]);
        }
        let bench = program.bench().memory(WORDS, X_WORDS);
        all.push(bench.clone().both(2_147_000_000, -98_304));
        let wide = bench.both(-549_755_000_000, 549_754_000_000);
        all.push(wide.w(4, 0x8000).w(5, 0x8000).w(0, 0x1040));
    }
    all
}

/// Kinds 19 and 20 with every count and register before each kind that may be
/// repeated.
fn repeats() -> Vec<Bench> {
    let mut all = Vec::new();
    for (i, kind) in (0..).zip(ALONE.chain([23, 24, 25])) {
        let forms = forms(kind);
        let form = forms[7 * usize::from(i) % forms.len()];
        let body = Program::new().ops(&aims(&form));
        let by_literal = body.clone().repeated(i % 5, form).op(add(0, 4));
        all.push(by_literal.bench().memory(WORDS, X_WORDS));
        let register = (i % 14) as u8;
        let by_register = body.ops(&[literal(register, MIDDLE), repeat_by(register), form]);
        let bench = by_register.op(add(1, 4)).bench();
        all.push(bench.memory(WORDS, X_WORDS).budget(20_000));
    }
    all
}
