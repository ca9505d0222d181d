//! Wish 11: the sums of several boards added to one.

use crate::accumulator::{keep, WIDE};
use crate::mode::Mode;
use crate::operation::Target;

/// Boards that one sum may be cut for.
pub const FEWEST_BOARDS: u32 = 2;
pub const MOST_BOARDS: u32 = 8;

/// What a board leaves of its stretch.
#[derive(Clone, Copy, Debug, PartialEq, Eq)]
pub struct Board {
    pub a: i64,
    pub sa: bool,
}

impl Board {
    /// An entry that is not in use.
    pub const NONE: Board = Board { a: 0, sa: false };
}

/// Room for the most boards, of which a count is in use.
pub type Boards = [Board; MOST_BOARDS as usize];

/// One A with its flags.
#[derive(Clone, Copy, Debug, PartialEq, Eq)]
pub struct Combined {
    pub a: i64,
    pub oa: bool,
    pub sa: bool,
}

/// The first `count` boards' A added in order, from 0, by the rules of accumulator A.
/// Refused: 13 for a count that is not 2..8, 14 for an A beyond 40 bits, 7 for a bad
/// mode word. Entries past the count are not looked at.
pub fn combine(boards: &Boards, count: u32, mode: Mode) -> Result<Combined, u8> {
    if !(FEWEST_BOARDS..=MOST_BOARDS).contains(&count) {
        return Err(13);
    }
    let boards = &boards[..count as usize];
    if !boards.iter().all(|board| in_40_bits(board.a)) {
        return Err(14);
    }
    if !mode.is_good() {
        return Err(7);
    }
    Ok(boards
        .iter()
        .fold(start(boards), |sum, board| added(sum, board.a, mode)))
}

fn in_40_bits(a: i64) -> bool {
    (WIDE.0..=WIDE.1).contains(&a)
}

/// Nothing added yet: SA is set if any board's is.
fn start(boards: &[Board]) -> Combined {
    Combined {
        a: 0,
        oa: false,
        sa: boards.iter().any(|board| board.sa),
    }
}

/// One accumulator write: A kept, OA redone, SA set and staying.
fn added(sum: Combined, a: i64, mode: Mode) -> Combined {
    let kept = keep(sum.a + a, mode, Target::A);
    Combined {
        a: kept.value,
        oa: kept.overflow,
        sa: sum.sa || kept.left,
    }
}
