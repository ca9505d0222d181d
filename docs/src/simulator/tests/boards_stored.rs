//! The parts of crates/cases about combined boards: what they hold, every line worked
//! out anew, and that the wish is fulfilled by the dot products whose boards are run.

mod common;
use common::*;
use std::collections::BTreeSet;
use std::sync::OnceLock;

use simulator::cases::Case;
use simulator::combine::Board;
use simulator::combine_form::boards_of;
use simulator::form::{forms_of, Form};
use simulator::long::{Call, Long};
use simulator::mode::Mode;
use simulator::stretches::{broken, faults, Sum};

const P31: i64 = 1 << 31;
const P39: i64 = 1 << 39;

/// The forms of the stored stream with the lines for them.
fn stream() -> Vec<(Form, String)> {
    let stored = String::from_utf8(stored_case_files("stdout")).unwrap();
    let lines = stored.lines().map(str::to_string);
    let forms = forms_of(&stored_case_files("stdin"));
    forms.into_iter().zip(lines).collect()
}

/// Whether a case's file is 9 bytes for each of its number.
fn is_whole(case: &Long) -> bool {
    case.start.file.len() as u64 == 9 * u64::from(case.start.budget)
}

/// A stored case of the call with a whole file.
struct Stored {
    boards: Vec<Board>,
    mode: u16,
    line: String,
}

impl Stored {
    /// The first eight of its boards; further ones are not needed.
    fn of(case: &Long, line: String) -> Stored {
        let count = case.start.budget as usize;
        let mut boards = boards_of(&case.start.file).to_vec();
        boards.resize(count, Board { a: 0, sa: false });
        Stored {
            boards,
            mode: case.start.state.mode.0,
            line,
        }
    }

    fn sums(&self) -> Vec<i64> {
        self.boards.iter().map(|board| board.a).collect()
    }

    fn is_beyond(&self) -> bool {
        self.boards
            .iter()
            .any(|board| !(-P39..P39).contains(&board.a))
    }
}

/// All stored cases of the call with a whole file, in their order.
fn stored() -> &'static [Stored] {
    static STORED: OnceLock<Vec<Stored>> = OnceLock::new();
    STORED.get_or_init(|| {
        let cases = stream().into_iter().filter_map(|(form, line)| match form {
            Form::Long(long) if long.call == Call::Combine && is_whole(&long) => {
                Some(Stored::of(&long, line))
            }
            _ => None,
        });
        cases.collect()
    })
}

/// The line by the wish, with whole numbers of 128 bits and the words of document 01.
fn due(case: &Stored) -> String {
    if case.boards.len() < 2 || case.boards.len() > 8 {
        return "refused13".to_string();
    }
    if case.is_beyond() {
        return "refused14".to_string();
    }
    let us = case.mode >> 12 & 3;
    if us > 1 || case.mode & 0xCF0C != 0 {
        return "refused7".to_string();
    }
    let (sata, accsat) = (case.mode >> 7 & 1 == 1, case.mode >> 4 & 1 == 1);
    let bits = if sata && !accsat { 31 } else { 39 };
    let (low, high) = (-(1_i128 << bits), (1_i128 << bits) - 1);
    let (mut a, mut oa, mut sa) = (0_i128, 0, 0);
    for board in &case.boards {
        sa |= u8::from(board.sa);
    }
    for board in &case.boards {
        let r = a + i128::from(board.a);
        if r < low || r > high {
            sa = 1;
        }
        a = match sata {
            true => r.max(low).min(high),
            // The low 40 bits, read as signed.
            false => {
                let bits = r.rem_euclid(1 << 40);
                bits - (bits >> 39 << 40)
            }
        };
        oa = u8::from(a < -(1 << 31) || a > (1 << 31) - 1);
    }
    format!("combined {a} {oa} {sa}")
}

#[test]
fn every_line_is_the_one_that_is_due() {
    let stored = stored();
    println!("{} cases", stored.len());
    assert!(stored.len() >= 650);
    for case in stored {
        assert_eq!(case.line, due(case), "{:?} {:04X}", case.sums(), case.mode);
    }
}

/// F and n of the cases with another file, the line of each and the next.
#[test]
fn the_stream_goes_on_after_a_file_of_another_length() {
    let mut found = Vec::new();
    for two in stream().windows(2) {
        let [(Form::Long(case), line), (_, next)] = two else {
            continue;
        };
        if case.call == Call::Combine && !is_whole(case) {
            assert_eq!(line, "short");
            let sizes = (case.start.file.len(), case.start.budget);
            found.push((sizes, next.clone()));
        }
    }
    // The first is a program file, among the random forms.
    assert_eq!(found.remove(0).0, (512, 3_000));
    let next = |line: &str| line.to_string();
    let due = [
        ((26, 3), next("combined -9 0 0")),
        ((28, 3), next("combined -8 0 0")),
        ((0, 1), next("combined -7 0 0")),
        ((0, u32::MAX), next("combined -6 0 0")),
    ];
    assert_eq!(found, due);
}

fn has(sums: &[i64], mode: u16, line: &str) {
    let found = stored()
        .iter()
        .any(|case| case.sums() == sums && case.mode == mode && case.line == line);
    assert!(found, "{sums:?} {mode:04X} {line}");
}

/// The cases of our reading's page, each with its line by hand.
#[test]
fn the_boundaries_stand_there() {
    // The two sums of the wrong versions.
    has(&[P31 - 1, 1, -1], 0x00A0, "combined 2147483646 0 1");
    has(&[P31, -1], 0x00A0, "combined 2147483646 0 1");
    has(&[P31 - 1, 1, -1], 0x0020, "combined 2147483647 0 0");
    has(&[P31, -1], 0x00B0, "combined 2147483647 0 0");
    // 40 bits.
    has(&[P39 - 1, 0], 0x0020, "combined 549755813887 1 0");
    has(&[P39, 0], 0x0020, "refused14");
    has(&[-P39, 0], 0x0020, "combined -549755813888 1 0");
    has(&[-P39 - 1, 0], 0x0020, "refused14");
    has(&[P39 - 1, 1], 0x0020, "combined -549755813888 1 1");
    has(&[P39 - 1, 1], 0x0030, "combined -549755813888 1 1");
    has(&[P39 - 1, 1], 0x00B0, "combined 549755813887 1 1");
    has(&[P39 - 1, 1], 0x00A0, "combined 2147483647 0 1");
    // 13 with 14, 13 with 7, 14 with 7.
    has(&[P39], 0x0020, "refused13");
    has(&[5], 0x3020, "refused13");
    has(&[P39], 0x3020, "refused13");
    has(&[5, P39], 0x3020, "refused14");
    has(&[5, 5], 0x3020, "refused7");
    // SATB on with SATA off, and the reverse.
    has(&[P31 - 1, 1, -1], 0x0060, "combined 2147483647 0 0");
    has(&[P31 - 1, 1, -1], 0x0080, "combined 2147483646 0 1");
    has(&[P39 - 1, 1], 0x0070, "combined -549755813888 1 1");
    // OA by the last sum alone.
    has(&[P31, -1], 0x0020, "combined 2147483647 0 0");
    has(&[P31 - 1, 1], 0x0020, "combined 2147483648 1 0");
    has(&[P31 - 1, 1, -1, 1], 0x0020, "combined 2147483648 1 0");
    has(&[1, 1 << 32, -1 << 32], 0x0020, "combined 1 0 0");
    // A later board is beyond 40 bits.
    has(&[0, 0, P39], 0x0020, "refused14");
    has(&[0, 0, 0, 0, 0, 0, 0, i64::MIN], 0x0020, "refused14");
}

#[test]
fn every_number_of_boards_stands_there() {
    let counts: BTreeSet<usize> = stored().iter().map(|case| case.boards.len()).collect();
    assert!(counts.is_superset(&(0..=10).collect()));
    assert!(counts.contains(&7_281));
    for count in 2..=8 {
        let mut cases = stored().iter().filter(|case| case.boards.len() == count);
        assert!(cases.any(|case| case.line.ends_with(" 0 0")), "{count}");
    }
}

/// SA set on the board of each place of each number, all others clear and A right.
#[test]
fn a_board_of_each_place_has_sa() {
    let stored = stored();
    for count in 2..=8 {
        for place in 0..count {
            let fits = |case: &Stored| {
                let flags: Vec<bool> = case.boards.iter().map(|board| board.sa).collect();
                let alone = (0..count).all(|i| flags.get(i) == Some(&(i == place)));
                let line = format!("combined {} 0 1", case.sums().iter().sum::<i64>());
                flags.len() == count && alone && case.line == line
            };
            assert!(stored.iter().any(fits), "{place} of {count}");
        }
    }
}

#[test]
fn every_good_mode_word_and_every_bad_bit_stands_there() {
    let stored = stored();
    let modes: BTreeSet<u16> = stored.iter().map(|case| case.mode).collect();
    assert!((0..=0x10F3)
        .filter(|&word| Mode(word).is_good())
        .all(|word| modes.contains(&word)));
    for bit in [2, 3, 8, 9, 10, 11, 14, 15] {
        assert!(modes.contains(&(1 << bit | 0x0020)), "{bit}");
    }
    for us in [0x2000, 0x3000] {
        assert!(modes.contains(&us));
    }
}

// ---- dot products

/// A case of the call with the runs right before it, as many as its boards.
fn dot_products() -> Vec<(Vec<Case>, Long, String)> {
    let (mut found, mut runs) = (Vec::new(), Vec::new());
    for (form, line) in stream() {
        match form {
            Form::Short(run) => runs.push(run),
            Form::Long(case) => {
                let mut before = std::mem::take(&mut runs);
                let count = case.start.budget as usize;
                let is_combined = case.call == Call::Combine && is_whole(&case);
                if is_combined && count >= 2 && count <= before.len() {
                    let own = before.split_off(before.len() - count);
                    found.push((own, case, line));
                }
            }
        }
    }
    found
}

/// The wish on each: the case has the runs' A and SA, no premise is broken.
#[test]
fn the_wish_on_the_stored_dot_products() {
    let (mut clear, mut set, mut longest, mut empty) = (0, 0, 0, 0);
    let mut modes = BTreeSet::new();
    for (runs, case, line) in dot_products() {
        let mode = case.start.state.mode;
        let sum = Sum::of_runs(mode, runs);
        assert_eq!((faults(&sum), broken(&sum)), (vec![], vec![]));
        let (boards, count) = sum.boards();
        assert_eq!(case.start.budget, count);
        assert_eq!(boards_of(&case.start.file), boards);
        match line.ends_with(" 0") {
            true => clear += 1,
            false => set += 1,
        }
        modes.insert(mode.0 & 0x0091);
        longest = longest.max(sum.pairs.len());
        empty += usize::from(sum.lengths.contains(&0));
    }
    println!("{clear} clear, {set} set, longest {longest}, {empty} with an empty stretch");
    assert!(clear >= 12 && set >= 5);
    assert_eq!(longest, 10_000);
    assert!(modes.len() >= 5);
}

/// Eight pairs on each of three boards: (100 k + i) (100 k + 9 + i) doubled, the first of
/// them W4 x W5 as they came.
#[test]
fn the_ramps_by_hand() {
    let (runs, _, line) = dot_products().swap_remove(0);
    let (w4, w5) = (0x1234, 0xFACE_u16 as i16);
    let mut total = 0;
    for (k, run) in (1..).zip(&runs) {
        let read = (0..7).map(|i| (100 * k + i) * (100 * k + 9 + i));
        let a = 2 * (w4 * i64::from(w5) + read.sum::<i64>());
        assert_eq!(run.run(run.budget).0.state.accumulators, [a, -1]);
        total += a;
    }
    assert_eq!(line, format!("combined {total} 0 0"));
}
