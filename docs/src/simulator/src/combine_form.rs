//! The call `combine` in the long form of CASES.md: 9 bytes a stretch, A and SA.

use crate::cases::{number_at, Case};
use crate::combine::{combine, Board, Boards, Combined, MOST_BOARDS};

/// The bytes of a stretch: A in 8, then SA.
pub const STRETCH: usize = 9;

/// Whether a file is of the length of so many stretches, 9 n as a whole number.
fn holds_stretches(file: &[u8], count: u32) -> bool {
    file.len() as u64 == STRETCH as u64 * u64::from(count)
}

/// The first stretches, as many as there is room for: A in two's complement, SA set by
/// any byte but 0.
pub fn boards_of(stretches: &[u8]) -> Boards {
    let mut boards = [Board::NONE; MOST_BOARDS as usize];
    for (board, stretch) in boards.iter_mut().zip(stretches.chunks_exact(STRETCH)) {
        board.a = number_at(stretch, 0);
        board.sa = stretch[STRETCH - 1] != 0;
    }
    boards
}

/// The stretches of boards, as the stream holds them.
pub fn stretches_of(boards: &[Board]) -> Vec<u8> {
    let bytes = |board: &Board| [&board.a.to_le_bytes()[..], &[u8::from(board.sa)]].concat();
    boards.iter().flat_map(bytes).collect()
}

/// The line of a case: its file holds the stretches and its budget is their number. A
/// file of another length is `short`; it has been read, and the stream goes on after it.
pub fn combine_line(case: &Case) -> String {
    let count = case.budget;
    if !holds_stretches(&case.file, count) {
        return "short".to_string();
    }
    answer_line(combine(&boards_of(&case.file), count, case.state.mode))
}

/// `combined A OA SA`, or the refusal.
pub fn answer_line(answer: Result<Combined, u8>) -> String {
    match answer {
        Ok(Combined { a, oa, sa }) => {
            format!("combined {a} {} {}", u8::from(oa), u8::from(sa))
        }
        Err(number) => format!("refused{number}"),
    }
}
