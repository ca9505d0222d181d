//! Calls that are not here, with a file, a second file and words of memory to read
//! over; a run after each shows that they were. Among them are 21, a run over decoded
//! operations, and 22, two stretches to be combined, with as much to read over.

use super::build::{add, Program};
use crate::cases::Case;
use crate::combine::Board;
use crate::combine_form::stretches_of;
use crate::form::Form;
use crate::generate::bench::Bench;
use crate::generate::random_form::unknown_case;
use crate::succession::Pair;

/// The calls that CASES.md lists, 21 and 22 of them here, and the last number there is.
const CALLS: [u8; 6] = [18, 19, 20, 21, 22, 255];

pub fn cases() -> Vec<Form> {
    CALLS.into_iter().flat_map(read_over).collect()
}

fn program(what: u8) -> Bench {
    let count = u16::from(what % 16);
    let looped = Program::new().looped(count, |body| body.ops(&[add(0, 4), add(1, 5)]));
    looped.bench()
}

/// The case, and a run of its file.
fn read_over(what: u8) -> [Form; 2] {
    let run = program(what);
    let mut start = run.case.clone();
    if what == 22 {
        combined(&mut start);
    }
    let pair = Pair {
        first: start,
        second: (0..=what).collect(),
    };
    [unknown_case(what, pair), Form::Short(run.case)]
}

/// Two stretches, of which the second's SA is set.
fn combined(start: &mut Case) {
    let board = |a: i64, sa: bool| Board { a, sa };
    start.file = stretches_of(&[board(65_536, false), board(-5, true)]);
    start.budget = 2;
}
