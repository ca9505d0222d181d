//! The stored samples: what each program's case adds to tally's run.

use crate::cases::Case;
use crate::combine::Board;
use crate::generate::boards::combine_case;
use crate::long::Long;
use crate::settings::{BitReversed, Circular, Settings};
use crate::tally::tally_case;

pub const NAMES: [&str; 9] = [
    "correlation",
    "correlation_1",
    "correlation_2",
    "correlation_3",
    "fir",
    "fir_circular",
    "fir_lms",
    "lms",
    "reorder",
];

/// The sample that combines what the lines of others show.
pub const SUM: &str = "correlation_sum";

/// The case of a sample with its program file; nothing for another name.
pub fn case_of(name: &str, file: &[u8]) -> Option<Case> {
    let plain = tally_case(file);
    let settings = match name {
        "fir" | "fir_circular" => fir_settings(plain.settings),
        "fir_lms" | "correlation" => plain.settings,
        "correlation_1" | "correlation_2" | "correlation_3" => plain.settings,
        "lms" => lms_settings(plain.settings),
        "reorder" => reorder_settings(plain.settings),
        _ => return None,
    };
    Some(Case { settings, ..plain })
}

/// The case that combines the boards of these lines, each a run's, under their one mode
/// word; nothing for other lines or for two mode words.
pub fn sum_case(lines: &str) -> Option<Long> {
    let shown: Option<Vec<(Board, u16)>> = lines.lines().map(board_of).collect();
    let (boards, modes): (Vec<Board>, Vec<u16>) = shown?.into_iter().unzip();
    let mode = *modes.first()?;
    let is_one = modes.iter().all(|&other| other == mode);
    is_one.then(|| combine_case(&boards, mode))
}

/// A and SA of a run's line, and its mode word: the third field, bit 13 of the fifth, the
/// eighth.
fn board_of(line: &str) -> Option<(Board, u16)> {
    let fields: Vec<&str> = line.split(' ').collect();
    let [_, _, a, _, status, _, _, mode, ..] = fields[..] else {
        return None;
    };
    let status = u16::from_str_radix(status, 16).ok()?;
    let board = Board {
        a: a.parse().ok()?,
        sa: (status >> 13) & 1 == 1,
    };
    Some((board, u16::from_str_radix(mode, 16).ok()?))
}

/// W8 goes round the delay line, W10 round the taps.
fn fir_settings(plain: Settings) -> Settings {
    Settings {
        x: circular(8, 0x1100, 0x1111),
        y: circular(10, 0x1800, 0x1811),
        ..plain
    }
}

/// W13 goes round the error and the taps it writes back to, W10 round the taps;
/// every overflow would trap.
fn lms_settings(plain: Settings) -> Settings {
    Settings {
        trap_word: 0x0700,
        x: circular(13, 0x1800, 0x1809),
        y: circular(10, 0x1802, 0x1809),
        ..plain
    }
}

/// W2 is bit-reversed over 16 words.
fn reorder_settings(plain: Settings) -> Settings {
    Settings {
        reversed: BitReversed {
            register: 2,
            words: 16,
        },
        ..plain
    }
}

fn circular(register: u8, start: u16, end: u16) -> Circular {
    Circular {
        register,
        start,
        end,
    }
}
