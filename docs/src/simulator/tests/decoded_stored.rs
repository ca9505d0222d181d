//! Runs over decoded operations in crates/cases: every stored run is the same decoded, and
//! what the parts about decoded runs hold.

mod common;
use common::*;
use std::collections::{BTreeMap, BTreeSet};

use simulator::cases::{self, Case, What};
use simulator::encode::encode;
use simulator::file::check_file;
use simulator::form::{bytes_of, forms_of, print_lines, Form};
use simulator::generate::decoded::{twin, write_twins};
use simulator::generate::runs::parts;
use simulator::long::{long_line, Call, Long};
use simulator::walk::walk;
use simulator::Ending;

// ---- a line by hand

/// The words of a file that is accepted, worked out byte by byte.
fn words_by_hand(file: &[u8]) -> Vec<u16> {
    let mut words = Vec::new();
    for block in file.chunks(512) {
        let held = block[8..8 + 8 * usize::from(block[2])].chunks(8);
        for b in held.map(|b| b.iter().map(|&byte| u16::from(byte)).collect::<Vec<_>>()) {
            words.extend([b[0], b[1]]);
            b[2..6]
                .iter()
                .for_each(|byte| words.extend([byte % 16, byte / 16]));
            words.extend([b[6], b[2] + 256 * b[3], b[4] + 256 * b[5], 0, 0, 0]);
        }
    }
    words
}

fn check_of(words: impl IntoIterator<Item = u16>) -> u64 {
    let words = words.into_iter().map(u64::from);
    words.fold(0, |h, x| (31 * h + x) % (1 << 32))
}

/// The line due: that of the short run, or refusal 8 with all as it came; the registers'
/// check; the steps in no task; the slice.
fn due(case: &Long) -> String {
    let (outcome, _) = case.start.run(case.start.budget);
    let is_refused = matches!(outcome.ending, Ending::Refused(_));
    let words = if is_refused {
        Vec::new()
    } else {
        words_by_hand(&case.start.file)
    };
    let lent = (0..case.words).map(|i| (i % 251) as u16);
    let (run, steps, w) = if words.len() > case.words as usize {
        let start = &case.start;
        let fields = cases::state_fields(&start.state, &start.memory);
        (format!("refused8 0 {fields}"), 0, start.state.w)
    } else {
        (cases::line(&case.start), outcome.steps, outcome.state.w)
    };
    let slice = if words.len() > case.words as usize {
        check_of(lent)
    } else {
        let past = words.len();
        check_of(words.into_iter().chain(lent.skip(past)))
    };
    let registers = check_of(w.into_iter().chain([0; 56]));
    format!("{run} 0 {registers} 0 0 0 0 0 0 0 0 {steps} {slice}")
}

// ---- twins

fn stored_forms() -> Vec<Form> {
    forms_of(&stored_case_files("stdin"))
}

/// The short runs of the stored stream.
fn runs() -> Vec<Case> {
    let run = |form| match form {
        Form::Short(case) if case.what == What::Run => Some(case),
        _ => None,
    };
    stored_forms().into_iter().filter_map(run).collect()
}

/// Ending, steps, state and memory's check are the first 28 fields.
#[test]
fn every_stored_run_is_the_same_decoded() {
    let runs = runs();
    assert_eq!(runs.len(), 5_122);
    for run in runs {
        let short = cases::line(&run);
        let decoded = twin(run);
        let line = long_line(&decoded);
        let fields: Vec<&str> = line.split(' ').collect();
        assert_eq!(fields.len(), 40);
        assert_eq!(fields[..28].join(" "), short);
        assert_eq!(line, due(&decoded));
    }
}

fn twins_of(stream: &[u8]) -> Vec<u8> {
    let mut twins = Vec::new();
    write_twins(stream, &mut twins).unwrap();
    twins
}

/// A twin for each run and nothing else; its slice fits exactly, and has 16 words where
/// the file is refused.
#[test]
fn the_twins_of_the_stored_stream() {
    let twins = forms_of(&twins_of(&stored_case_files("stdin")));
    let runs = runs();
    assert_eq!(twins.len(), runs.len());
    let mut of_refused_files = 0;
    for (twin, run) in twins.into_iter().zip(runs) {
        let Form::Long(twin) = twin else {
            panic!("a short case");
        };
        let words = match check_file(&run.file) {
            Ok((bytes, _)) => 2 * bytes.len(),
            Err(_) => 16,
        };
        of_refused_files += usize::from(check_file(&run.file).is_err());
        assert_eq!((twin.call, twin.words as usize), (Call::Decoded, words));
        assert_eq!(twin.start, run);
        assert!(twin.second.is_empty() && twin.room == 0);
    }
    assert!(of_refused_files >= 300, "{of_refused_files}");
}

/// A stream that breaks off has the twins of what comes before; one of twins has none.
#[test]
fn twins_of_other_streams() {
    let run = Bench::new().budget(5).case(&[lit(4, 3), IDLE]);
    let load = Case {
        what: What::Load,
        budget: 9,
        ..run.clone()
    };
    let long = Form::Long(Long::of(Call::Run, run.clone()));
    let own = bytes_of(&Form::Long(twin(run.clone())));
    let short = bytes_of(&Form::Short(run));
    let others = [bytes_of(&Form::Short(load)), bytes_of(&long), own.clone()].concat();
    assert_eq!(twins_of(&[]), []);
    assert_eq!(twins_of(&others), []);
    assert_eq!(
        twins_of(&[&short[..], &others, &short].concat()),
        own.repeat(2)
    );
    assert_eq!(twins_of(&[&short[..], &short[..99]].concat()), own);
    let mut too_large = short.clone();
    too_large[2] = 2;
    assert_eq!(twins_of(&[&short[..], &too_large, &short].concat()), own);
}

// ---- the parts

/// The cases of the parts about decoded runs with their stored lines, by part.
fn stored_parts() -> BTreeMap<&'static str, Vec<(Long, String)>> {
    let stored = String::from_utf8(stored_case_files("stdout")).unwrap();
    let mut lines = stored.lines().map(str::to_string);
    let mut all = BTreeMap::new();
    for (name, forms) in parts() {
        let lines: Vec<String> = lines.by_ref().take(forms.len()).collect();
        let long = |(form, line)| match form {
            Form::Long(long) if long.call == Call::Decoded => Some((long, line)),
            _ => None,
        };
        let cases = forms.into_iter().zip(lines).filter_map(long);
        all.insert(name, cases.collect());
    }
    all
}

/// Those of one part.
fn part(name: &str) -> Vec<(Long, String)> {
    stored_parts().remove(name).expect("a part of that name")
}

/// All of them.
fn decoded_cases() -> Vec<(Long, String)> {
    stored_parts().into_values().flatten().collect()
}

fn answer(line: &str) -> &str {
    line.split(' ').next().unwrap()
}

fn steps(line: &str) -> u32 {
    line.split(' ').nth(1).unwrap().parse().unwrap()
}

/// The operations of a file that loads.
fn held(file: &[u8]) -> Vec<Op> {
    let Ok((bytes, _)) = check_file(file) else {
        return Vec::new();
    };
    bytes.chunks(8).map(|b| b.try_into().unwrap()).collect()
}

/// Refusals 1 to 7 of the run, then 8 for a short slice, else the run; the slice.
#[test]
fn every_decoded_run_is_answered_in_order() {
    let cases = decoded_cases();
    assert_eq!(cases.len(), 1_254);
    for (case, line) in cases {
        assert_eq!(line, due(&case));
        assert!(case.second.is_empty() || line.starts_with("done "));
    }
}

/// Each count with each slice, and whether it is refused.
#[test]
fn slices_about_each_count() {
    let cases = part("slices");
    for count in [1, 63, 64, 4_032] {
        let own = cases
            .iter()
            .filter(|(case, _)| held(&case.start.file).len() == count);
        let lent: BTreeMap<usize, &str> = own
            .map(|(case, line)| (case.words as usize, answer(line)))
            .collect();
        let exact = 16 * count;
        for (words, answer) in &lent {
            assert_eq!(*answer == "refused8", *words < exact, "{count} {words}");
        }
        let wanted = [0, exact - 1, exact, exact + 1, 65_536];
        assert!(
            wanted.iter().all(|words| lent.contains_key(words)),
            "{count}"
        );
    }
}

#[test]
fn ten_steps_of_the_longest_program() {
    let cases = part("slices");
    let long = cases
        .iter()
        .filter(|(case, line)| held(&case.start.file).len() == 4_032 && steps(line) == 10);
    let answers: Vec<&str> = long.map(|(_, line)| answer(line)).collect();
    assert_eq!(answers, ["spent", "spent", "spent", "done"]);
}

/// Every kind stands in a slice in every form, and is executed.
#[test]
fn every_kind_is_decoded_and_executed() {
    let (mut standing, mut executed) = (BTreeSet::new(), [0; 26]);
    for (case, line) in decoded_cases() {
        if line.starts_with("refused") {
            continue;
        }
        standing.extend(held(&case.start.file));
        walk(&case.start, |operation, _, _| {
            executed[usize::from(encode(operation)[0])] += 1;
        });
    }
    for kind in 1..=25 {
        let forms = simulator::generate::forms::forms(kind);
        assert!(forms.iter().all(|form| standing.contains(form)), "{kind}");
        assert!(executed[usize::from(kind)] >= 50, "{kind}");
    }
}

/// Kinds 16, 19, 21 and 24 with every bit of b2 to b5 that is listed, set and clear.
#[test]
fn all_bits_of_numbers_are_executed() {
    let mut bits: BTreeMap<u8, [u8; 8]> = BTreeMap::new();
    let mut clear: BTreeMap<u8, [u8; 8]> = BTreeMap::new();
    for (case, line) in part("decoded_kinds") {
        assert!(!line.starts_with("refused"));
        walk(&case.start, |operation, _, _| {
            let bytes = encode(operation);
            for at in 0..8 {
                bits.entry(bytes[0]).or_default()[at] |= bytes[at];
                clear.entry(bytes[0]).or_default()[at] |= !bytes[at];
            }
        });
    }
    assert_eq!(bits[&16][2..6], [0xFF, 0xFF, 0, 0]);
    assert_eq!(bits[&19][2..6], [0xFF, 0x7F, 0, 0]);
    assert_eq!(bits[&21][2..6], [0xFF, 0x7F, 0xFF, 0x0F]);
    assert_eq!(bits[&22][4..6], [0xFF, 0x0F]);
    assert_eq!(bits[&24][2..6], [0xF3, 0x10, 0, 0]);
    for kind in [16, 19, 21, 24] {
        assert_eq!(clear[&kind][2..6], [0xFF; 4]);
    }
}

/// Each trap, and with the first operation executed: 1 to 4 without a step, 5 to 7 with one.
#[test]
fn each_trap_comes_up_also_at_once() {
    let cases = part("decoded_endings");
    for number in 1..=7 {
        let own = cases
            .iter()
            .filter(|(_, line)| answer(line) == format!("trap{number}"));
        let first = u32::from(number >= 5);
        let at_once = own.clone().filter(|(_, line)| steps(line) == first).count();
        println!("trap {number}: {}, {at_once} at once", own.clone().count());
        assert!(own.count() >= 3 && at_once >= 1, "trap {number}");
    }
    let budget_0 = cases.iter().filter(|(case, _)| case.start.budget == 0);
    assert!(
        budget_0
            .clone()
            .filter(|(_, line)| answer(line) == "spent")
            .count()
            >= 15
    );
    assert!(budget_0.filter(|(_, line)| answer(line) == "done").count() >= 2);
}

/// Loops of each depth, repeats, kind 23 in a loop, and both write-backs are executed.
#[test]
fn flow_and_write_backs_are_executed() {
    let (mut depths, mut repeats, mut early, mut backs) = ([0; 5], 0, 0, [0; 3]);
    for (case, _) in part("decoded_endings") {
        walk(&case.start, |operation, before, _| {
            let bytes = encode(operation);
            depths[usize::from(before.flow.active)] += 1;
            repeats += usize::from(before.flow.repeat > 1);
            early += usize::from(bytes[0] == 23 && before.flow.active > 0);
            backs[usize::from(bytes[6])] += 1;
        });
    }
    println!("{depths:?} {repeats} {early} {backs:?}");
    assert!(depths.iter().all(|&steps| steps >= 300));
    assert!(repeats >= 300 && early >= 30);
    assert!(backs.iter().all(|&steps| steps >= 15));
}

/// Kind 24 changes the mode word in loops of each depth and in repeats, and products,
/// limits and stores come after it.
#[test]
fn the_mode_word_changes_in_the_middle() {
    let (mut depths, mut repeated, mut modes) = ([0; 5], 0, BTreeSet::new());
    let mut after: BTreeMap<u8, usize> = BTreeMap::new();
    for (case, _) in part("decoded_modes") {
        let begun = case.start.state.mode;
        walk(&case.start, |operation, before, state| {
            let kind = operation.kind();
            if kind == 24 && before.mode != state.mode {
                depths[usize::from(before.flow.active)] += 1;
                repeated += usize::from(before.flow.repeat > 0);
                modes.insert(state.mode.0);
            }
            let is_limited = state.saturated != before.saturated;
            if before.mode != begun {
                *after.entry(kind).or_default() += 1;
                *after.entry(0).or_default() += usize::from(is_limited);
            }
        });
    }
    println!("{depths:?} {repeated} {} {after:?}", modes.len());
    assert!(depths[0] >= 100 && depths[1] >= 50 && depths[2] >= 20 && depths[4] >= 20);
    assert!(repeated >= 18 && modes.len() == 128);
    for (kind, least) in [(0, 20), (3, 300), (4, 100), (14, 100), (15, 200), (7, 50)] {
        assert!(after[&kind] >= least, "{kind}");
    }
}

/// Each of 1 to 7 with a slice that is too short for the operations said, and with one
/// that is exact or longer.
#[test]
fn each_refusal_with_slices_of_both_kinds() {
    let mut seen: BTreeMap<(&str, bool), usize> = BTreeMap::new();
    let cases = part("decoded_refused");
    for (case, line) in &cases {
        let blocks = case.start.file.chunks_exact(512);
        let said: u32 = blocks.map(|block| 16 * u32::from(block[2])).sum();
        let is_short = case.words < said.max(1);
        *seen.entry((answer(line), is_short)).or_default() += 1;
    }
    println!("{seen:?}");
    for number in 1..=7 {
        let name = format!("refused{number}");
        for is_short in [false, true] {
            assert!(seen[&(name.as_str(), is_short)] >= 5, "{name} {is_short}");
        }
    }
    assert!(seen[&("refused8", true)] >= 10);
    assert!(!seen.contains_key(&("refused8", false)));
}

/// The stored lines of all twins come from `print_lines` too.
#[test]
fn a_stream_of_twins_is_printed() {
    let twins = twins_of(&stored_case_files("stdin"));
    let mut printed = Vec::new();
    print_lines(twins.as_slice(), &mut printed).unwrap();
    let lines = String::from_utf8(printed).unwrap();
    assert_eq!(lines.lines().count(), 5_122);
    assert!(lines.lines().all(|line| line.split(' ').count() == 40));
}
