//! Refusal 5: DO and REPEAT where they may stand, and just beside.

use super::tiny::IDLE;
use crate::file::MOST_OPERATIONS;
use crate::mode::Mode;
use crate::operation::Operation;

/// DO and REPEAT by a literal or by a register.
#[derive(Clone, Copy, Debug, PartialEq, Eq)]
pub enum By {
    Literal,
    Register,
}

impl By {
    fn do_to(self, last: u16) -> Operation {
        match self {
            By::Literal => Operation::DoLiteral { count: 1, last },
            By::Register => Operation::DoRegister { register: 1, last },
        }
    }

    fn repeat(self) -> Operation {
        match self {
            By::Literal => Operation::RepeatLiteral(1),
            By::Register => Operation::RepeatRegister(1),
        }
    }
}

/// So many operations, idle but for those named with their places.
fn with(count: usize, named: &[(usize, Operation)]) -> Vec<Operation> {
    let mut operations = vec![IDLE; count];
    for &(place, operation) in named {
        operations[place] = operation;
    }
    operations
}

/// Programs that refusal 5 is not given for.
pub fn good(by: By) -> Vec<Vec<Operation>> {
    let to = |last| by.do_to(last);
    let repeat = by.repeat();
    vec![
        // The shortest loop, to the last operation.
        with(3, &[(0, to(2))]),
        // One after the other.
        with(6, &[(0, to(2)), (3, to(5))]),
        // An inner last just below the outer's.
        with(8, &[(1, to(6)), (2, to(5))]),
        // Two inner loops, one after the other.
        with(8, &[(0, to(7)), (1, to(3)), (4, to(6))]),
        // Five and nine deep.
        nest(12, 5, by),
        nest(20, 9, by),
        // REPEAT before the last operation of the program, of a loop, of two.
        with(2, &[(0, repeat)]),
        with(5, &[(0, to(3)), (2, repeat)]),
        with(8, &[(0, to(6)), (1, to(4)), (3, repeat), (5, repeat)]),
        // REPEAT right after a loop, and two of them.
        with(6, &[(0, to(2)), (3, repeat)]),
        with(4, &[(0, repeat), (2, repeat)]),
        // REPEAT before kinds 16, 23, 24, 25.
        with(
            8,
            &[
                (0, repeat),
                (2, repeat),
                (3, Operation::EndEarly),
                (4, repeat),
                (5, Operation::SetMode(Mode::RESET)),
                (6, repeat),
                (7, Operation::ClearSaturation),
            ],
        ),
    ]
}

/// Programs that refusal 5 is given for.
pub fn bad(by: By) -> Vec<Vec<Operation>> {
    let mut all = bad_loops(by);
    all.extend(bad_repeats(by));
    all
}

fn bad_loops(by: By) -> Vec<Vec<Operation>> {
    let to = |last| by.do_to(last);
    // A DO at 3 of 8: its last before it, at it, next to it, past the program.
    let single = [0, 2, 3, 4, 8, 0x0105, 0xFFFF].map(|last| with(8, &[(3, to(last))]));
    let mut all = single.to_vec();
    all.extend([
        // Overlapping, at the outer's last-but-one place too.
        with(8, &[(0, to(4)), (2, to(6))]),
        with(8, &[(0, to(4)), (3, to(5))]),
        // A shared last, with the next outer loop and the one around that.
        with(8, &[(0, to(5)), (2, to(5))]),
        with(12, &[(0, to(9)), (1, to(4)), (6, to(9))]),
        with(12, &[(0, to(9)), (1, to(8)), (2, to(9))]),
        // A DO in the outer's last place.
        with(8, &[(0, to(3)), (3, to(5))]),
    ]);
    all
}

fn bad_repeats(by: By) -> Vec<Vec<Operation>> {
    let to = |last| by.do_to(last);
    let repeat = by.repeat();
    let mut all = vec![
        // Last in the program.
        with(1, &[(0, repeat)]),
        with(3, &[(2, repeat)]),
        // Last of a loop, of an inner one, of an outer one.
        with(5, &[(0, to(3)), (3, repeat)]),
        with(8, &[(0, to(6)), (1, to(4)), (4, repeat)]),
        with(8, &[(0, to(6)), (1, to(4)), (6, repeat)]),
    ];
    // Before kinds 19 to 22.
    for next in [By::Literal, By::Register] {
        all.push(with(4, &[(0, repeat), (1, next.repeat())]));
        all.push(with(4, &[(0, repeat), (1, next.do_to(3))]));
    }
    all
}

/// So many operations with `depth` loops, each in the one before it, from the
/// first operation to the last.
fn nest(count: usize, depth: usize, by: By) -> Vec<Operation> {
    let mut operations = vec![IDLE; count];
    for (place, operation) in operations[..depth].iter_mut().enumerate() {
        *operation = by.do_to((count - 1 - place) as u16);
    }
    operations
}

/// 4,032 operations, as many of them DOs as can be nested.
pub fn deepest() -> Vec<Operation> {
    nest(MOST_OPERATIONS, MOST_OPERATIONS / 2 - 1, By::Literal)
}

/// The same with the two innermost loops' lasts equal.
pub fn deepest_shared() -> Vec<Operation> {
    let mut operations = deepest();
    let inner = MOST_OPERATIONS / 2 - 2;
    operations[inner] = operations[inner - 1];
    operations
}
