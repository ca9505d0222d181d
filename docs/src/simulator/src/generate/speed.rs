//! Cases to time, ten million operations and a little over each: MACs by REPEAT or by
//! loops, bit-reversed stores by REPEAT.

use super::bench::Bench;
use super::decoded::twin;
use super::forms::Bytes;
use super::ops::{multiply_and_read, store, IDLE};
use super::runs::build::{words, Program};
use crate::cases::Case;
use crate::form::Form;

pub const NAMES: [&str; 6] = [
    "repeat",
    "loop",
    "reversed",
    "repeat-decoded",
    "loop-decoded",
    "reversed-decoded",
];

/// The case of a name; nothing for another name.
pub fn case_of(name: &str) -> Option<Form> {
    if let Some(plain) = name.strip_suffix("-decoded") {
        return run_of(plain).map(|run| Form::Long(twin(run)));
    }
    run_of(name).map(Form::Short)
}

fn run_of(name: &str) -> Option<Case> {
    match name {
        "repeat" => Some(by_repeat()),
        "loop" => Some(by_loops()),
        "reversed" => Some(by_reversal()),
        _ => None,
    }
}

/// Words of X's and of Y's buffer.
const LENGTH: usize = 64;
const MAC: Bytes = multiply_and_read(3, 0);

/// 306 times REPEAT 32,767 and a MAC: 10,027,008 MACs.
pub fn by_repeat() -> Case {
    timed(Program::new().looped(305, |body| body.repeated(32_767, MAC)))
}

/// 153 times 32,768 times two MACs, and one: 10,027,161 MACs.
pub fn by_loops() -> Case {
    timed(Program::new().looped(152, |outer| {
        outer.looped(32_767, |inner| inner.ops(&[MAC, MAC])).op(MAC)
    }))
}

/// 306 times REPEAT 32,766 and a store at the bit-reversed W1 with N 1,024 in 1,024
/// words: 10,026,702 stores. Each one stores the address it goes to. As 1,024 does not
/// divide their number, the pointer ends within a round.
pub fn by_reversal() -> Case {
    let program = Program::new().looped(305, |body| body.repeated(32_766, store(1, 1, 2)));
    let bench = cleared(program, vec![0; 1_024], 512);
    bench.reversed(1, 1_024).w(1, 0x1000).case
}

/// Both buffers in the whole of their parts.
fn timed(program: Program) -> Case {
    let bench = cleared(program, buffers(), LENGTH as u16);
    let corrected = bench.x(8, 0x1000, 0x107F).y(10, 0x1080, 0x10FF);
    corrected.w(8, 0x1000).w(10, 0x1080).case
}

/// The program and an idle operation with these words, the first of them X's, all else
/// as after reset.
fn cleared(program: Program, words: Vec<u16>, x_words: u16) -> Bench {
    let bench = Bench::of(&program.op(IDLE).operations)
        .words(words, x_words)
        .both(0, 0)
        .budget(u32::MAX);
    (0..14).fold(bench, |bench, register| bench.w(register, 0))
}

/// X's second half is its first one negated and Y's the same again, but for one
/// word: a whole round adds little, while the sum within it goes far either way.
fn buffers() -> Vec<u16> {
    let (x, y) = (half(1), half(2));
    let negated = x.iter().map(|word| word.wrapping_neg());
    let mut all: Vec<u16> = x.iter().copied().chain(negated).collect();
    all[LENGTH - 1] = all[LENGTH - 1].wrapping_add(1);
    all.extend(y.iter().chain(&y));
    all
}

fn half(seed: u64) -> Vec<u16> {
    words(seed, LENGTH / 2, -30_000, 30_000)
}
