//! The stream of single steps: its form, what its parts hold, and the files
//! stored in crates/steps.

mod common;
use common::*;
use std::collections::{BTreeMap, BTreeSet};

use simulator::cases::{bytes_of, Case, What};
use simulator::file::check_file;
use simulator::generate::steps::{parts, random_steps, steps};
use simulator::steps::{cases_of, line, lines, single_step, stream_of, Answer, MOST};
use simulator::{Settings, State};

#[test]
fn stored_steps() {
    let stream = stored_step_files("stdin");
    assert!(stream == stream_of(&steps()));
    let cases = cases_of(&stream).expect("a stream of single steps");
    let lines = lines(&cases);
    assert_eq!(lines.lines().count(), cases.len());
    assert!(stored_step_files("stdout") == lines.into_bytes());
}

// ---- what the stream holds

#[test]
fn the_parts_have_these_lengths() {
    let lengths = lengths(parts());
    let said = [
        ("kinds", 339),
        ("old", 62),
        ("buffers", 106),
        ("reversed", 59),
        ("blocked", 109),
        ("raised", 87),
        ("limits", 98),
        ("stores", 98),
        ("flow", 109),
        ("deep", 41),
        ("states", 109),
        ("settings", 89),
        ("files", 32),
        ("random", 200),
        ("passes", 82),
    ];
    assert_eq!(lengths, said);
    let stream = stream_of(&steps());
    println!("{} bytes", stream.len());
    assert!(stream.len() < 1_300_000);
}

#[test]
fn the_stream_is_the_same_each_time() {
    let cases = steps();
    assert_eq!(cases, steps());
    assert_eq!(cases_of(&stream_of(&cases)), Some(cases));
}

/// Files of two blocks at most; four memories of more than 200 words.
#[test]
fn the_cases_are_small() {
    let cases = steps();
    assert!(cases.iter().all(|case| case.file.len() <= 1_024));
    let words = cases.iter().map(|case| case.memory.len());
    let large: Vec<usize> = words.filter(|&words| words > 200).collect();
    assert_eq!(large, [30_720, 30_720, 1_024, 30_721]);
}

fn first_field(case: &Case) -> String {
    line(case).split(' ').next().unwrap_or_default().to_string()
}

fn first_fields(cases: &[Case]) -> BTreeMap<String, usize> {
    let mut tally = BTreeMap::new();
    for case in cases {
        *tally.entry(first_field(case)).or_default() += 1;
    }
    tally
}

/// `step`, `done`, trap1 to trap7, refused1 to refused7.
fn every_first_field() -> Vec<String> {
    let mut fields = vec!["done".to_string()];
    fields.extend((1..=7).map(|number| format!("refused{number}")));
    fields.push("step".to_string());
    fields.extend((1..=7).map(|number| format!("trap{number}")));
    fields
}

#[test]
fn every_first_field_comes_up() {
    let tally = first_fields(&steps());
    println!("{tally:?}");
    assert_eq!(
        tally.keys().cloned().collect::<Vec<_>>(),
        every_first_field()
    );
    assert!(tally.values().all(|&seen| seen >= 5), "{tally:?}");
}

/// The operation at pc of an accepted case.
fn operation(case: &Case) -> Op {
    let (bytes, _) = check_file(&case.file).expect("a good file");
    let at = 8 * usize::from(case.state.flow.pc);
    bytes[at..at + 8].try_into().expect("pc in the program")
}

/// The operations of a part's cases with these first fields.
fn operations(part: &str, fields: &[&str]) -> Vec<Op> {
    let parts = parts();
    let (_, cases) = parts
        .iter()
        .find(|(name, _)| *name == part)
        .expect("a part");
    let fits = |case: &&Case| fields.contains(&first_field(case).as_str());
    cases.iter().filter(fits).map(operation).collect()
}

#[test]
fn every_kind_is_executed_in_a_step() {
    let all = operations("kinds", &["step"]);
    let kinds: BTreeSet<u8> = all.iter().map(|op| op[0]).collect();
    assert_eq!(kinds, (1..=25).collect());
    // By far not only there.
    let stepped = steps()
        .into_iter()
        .filter(|case| first_field(case) == "step");
    let mut tally = [0; 26];
    stepped.for_each(|case| tally[usize::from(operation(&case)[0])] += 1);
    println!("{tally:?}");
    assert!(tally[1..].iter().all(|&seen| seen >= 6), "{tally:?}");
}

/// The values of some bytes of a kind's operations in the first part.
fn values(kind: u8, of: impl Fn(&Op) -> (u8, u8)) -> BTreeSet<(u8, u8)> {
    let all = operations("kinds", &["step"]);
    all.iter().filter(|op| op[0] == kind).map(of).collect()
}

fn pairs(first: &[u8], second: &[u8]) -> BTreeSet<(u8, u8)> {
    let with = |&one: &u8| second.iter().map(move |&two| (one, two));
    first.iter().flat_map(with).collect()
}

#[test]
fn kinds_1_to_7_have_every_read_and_write_back() {
    for kind in 1..=7 {
        let none = if kind == 5 || kind == 6 { 0 } else { 1 };
        let x = values(kind, |op| (op[3], 0)).len();
        let y = values(kind, |op| (op[4], 0)).len();
        assert_eq!((x, y), (15 + none, 15 + none), "kind {kind}");
        let write_backs: &[u8] = match kind {
            1 | 3 | 4 | 7 => &[0, 1, 2],
            _ => &[0],
        };
        let targets = values(kind, |op| (op[1], op[6]));
        assert_eq!(targets, pairs(&[0, 1], write_backs), "kind {kind}");
        let destinations = values(kind, |op| (op[5] & 15, 0));
        assert!(destinations.is_superset(&pairs(&[4, 5, 6, 7], &[0])));
    }
}

#[test]
fn kinds_11_to_22_have_every_register_shift_and_form() {
    let registers: Vec<u8> = (0..14).collect();
    let shifts: Vec<u8> = (0..16).collect();
    assert_eq!(values(11, |op| (op[3], 0)), pairs(&registers, &[0]));
    let mut together = BTreeSet::new();
    for kind in 12..=15 {
        assert_eq!(values(kind, |op| (op[2], 0)), pairs(&shifts, &[0]));
        assert_eq!(values(kind, |op| (op[3], 0)), pairs(&registers, &[0]));
        assert_eq!(
            values(kind, |op| (op[1], op[4])),
            pairs(&[0, 1], &[0, 1, 2, 3])
        );
        together.extend(values(kind, |op| (op[2], op[4])));
    }
    assert_eq!(together, pairs(&shifts, &[0, 1, 2, 3]));
    for kind in [17, 18] {
        assert_eq!(values(kind, |op| (op[1], 0)), pairs(&registers, &[0]));
        assert_eq!(values(kind, |op| (op[3], 0)), pairs(&registers, &[0]));
        assert_eq!(values(kind, |op| (op[4], 0)), pairs(&[1, 2, 3], &[0]));
    }
    for kind in [16, 20, 22] {
        assert_eq!(values(kind, |op| (op[1], 0)), pairs(&registers, &[0]));
    }
}

/// Every mode bit is on in some and off in other steps of every kind that looks
/// at it.
#[test]
fn mode_bits_take_turns_in_every_kind() {
    let parts = parts();
    let (_, cases) = &parts[0];
    for kind in 1..=15 {
        let own = cases.iter().filter(|case| operation(case)[0] == kind);
        let modes: Vec<u16> = own.map(|case| case.state.mode.0).collect();
        for bit in [0, 1, 4, 5, 6, 7, 12] {
            let on = modes.iter().filter(|&mode| mode >> bit & 1 == 1).count();
            assert!(on > 0 && on < modes.len(), "kind {kind}, bit {bit}");
        }
    }
}

#[test]
fn parts_hold_the_kinds_and_traps_they_are_about() {
    let of = |part, fields: &[&str]| -> BTreeSet<u8> {
        let all = operations(part, fields);
        all.iter().map(|op| op[0]).collect()
    };
    let accesses: BTreeSet<u8> = (1..=7).chain(12..=15).chain([17, 18]).collect();
    assert_eq!(of("blocked", &["trap1"]), accesses);
    assert_eq!(of("blocked", &["trap2"]), accesses);
    assert_eq!(of("blocked", &["trap3"]), [11].into());
    assert_eq!(of("blocked", &["trap4"]), [21, 22].into());
    let leaving = [3, 4, 6, 8, 9, 10, 11, 13].into();
    assert_eq!(of("raised", &["trap5"]), leaving);
    let overflowing: BTreeSet<u8> = (2..=6).chain(8..=13).collect();
    assert_eq!(of("raised", &["trap6"]), overflowing);
    assert_eq!(of("raised", &["trap7"]), overflowing);
    let writing: BTreeSet<u8> = (1..=6).chain(8..=13).collect();
    assert_eq!(of("limits", &["step"]), writing);
    let storing = [1, 7, 14, 15].into();
    assert_eq!(of("stores", &["step"]), storing);
}

/// Refusals and traps 1 to 4 leave state and memory as they came.
#[test]
fn without_a_step_nothing_changes() {
    for case in steps() {
        let (answer, state, memory) = single_step(&case);
        if answer.steps() == 0 {
            assert_eq!((state, memory), (case.state, case.memory.clone()));
        } else {
            assert!(matches!(answer, Answer::Executed(_)));
        }
    }
}

/// A single step is a run with a budget of 1, but for the first field.
#[test]
fn a_step_is_a_run_with_a_budget_of_1() {
    let mut cases = steps();
    cases.extend(random_steps(7, 600));
    for case in cases {
        let as_run = simulator::cases::line(&case);
        let (first, rest) = as_run.split_once(' ').expect("many fields");
        let counted = rest.starts_with("1 ");
        let expected = match first {
            "spent" => "step",
            "done" if counted => "step",
            other => other,
        };
        assert_eq!(line(&case), format!("{expected} {rest}"));
    }
}

#[test]
fn random_streams_are_told_by_their_seed_and_hold_every_first_field() {
    let cases = random_steps(3, 2_000);
    assert_eq!(cases, random_steps(3, 2_000));
    assert_ne!(cases, random_steps(4, 2_000));
    let tally = first_fields(&cases);
    println!("{tally:?}");
    assert_eq!(
        tally.keys().cloned().collect::<Vec<_>>(),
        every_first_field()
    );
    let within = |case: &Case| case.file.len() <= MOST && case.memory.len() <= 32_768;
    assert!(cases.iter().all(within));
    assert_eq!(cases_of(&stream_of(&cases)), Some(cases));
}

// ---- the form of a stream

fn example() -> Case {
    Case {
        what: What::Run,
        file: file_of(&[lit(4, 3), IDLE]),
        memory: vec![1, 2, 3],
        budget: 1,
        settings: Settings::plain(1),
        state: State::reset(),
    }
}

#[test]
fn a_stream_is_laid_out_as_it_is_said() {
    let two = [example(), example()];
    let stream = stream_of(&two);
    assert_eq!(stream[..2], [2, 0]);
    assert_eq!(stream.len(), 2 + 2 * (112 + 512 + 6));
    assert_eq!(stream[2..632], bytes_of(&two[0]));
    assert_eq!(stream[632..], bytes_of(&two[1]));
    // The budget at 8, `what` at 111.
    assert_eq!(stream[2 + 8..2 + 12], [1, 0, 0, 0]);
    assert_eq!(stream[2 + 111], 0);
    assert_eq!(stream_of(&[]), [0, 0]);
    let many = stream_of(&vec![example(); 258]);
    assert_eq!(many[..2], [2, 1]);
    assert_eq!(cases_of(&many).map(|cases| cases.len()), Some(258));
}

#[test]
fn what_is_no_stream_has_no_cases() {
    let good = stream_of(&[example(), example()]);
    assert!(cases_of(&good).is_some());
    for length in (0..good.len()).step_by(7).chain([good.len() - 1]) {
        assert_eq!(cases_of(&good[..length]), None, "{length}");
    }
    assert_eq!(cases_of(&[&good[..], &[0]].concat()), None);
    assert_eq!(cases_of(&[0, 0]), Some(Vec::new()));
    assert_eq!(cases_of(&[0, 0, 0]), None);
    // A load, a number that is not listed, a budget of 0, of 2 and of 257.
    for (at, byte) in [(111, 1), (111, 3), (8, 0), (8, 2), (9, 1)] {
        let mut other = good.clone();
        other[2 + at] = byte;
        assert_eq!(cases_of(&other), None, "byte {at}: {byte}");
    }
}

#[test]
fn files_end_at_66_blocks_and_memories_at_32_768_words() {
    assert_eq!(MOST, 33_792);
    let sized = |bytes, words| {
        let mut case = example();
        case.file = vec![0; bytes];
        case.memory = vec![0; words];
        cases_of(&stream_of(&[case]))
    };
    assert!(sized(33_792, 32_768).is_some());
    assert_eq!(sized(33_793, 0), None);
    assert_eq!(sized(0, 32_769), None);
}

#[test]
fn a_line_ends_with_a_line_feed() {
    let one = line(&example());
    assert_eq!(lines(&[example(), example()]), format!("{one}\n{one}\n"));
}
