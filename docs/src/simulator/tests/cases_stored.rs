//! The stream of runs, loads, writes, joins, combined boards and decoded runs stored in
//! crates/cases: what its parts hold, and the lines for it.

mod common;
use common::*;
use std::collections::{BTreeMap, BTreeSet};

use simulator::cases::{check, Case, What};
use simulator::encode::encode;
use simulator::file::{check_file, BLOCK, MOST_BLOCKS};
use simulator::form::{forms_of, print_lines, Form};
use simulator::generate::coverage::coverage;
use simulator::generate::forms::forms;
use simulator::generate::runs::{parts, stream};
use simulator::long::Call;
use simulator::state::loops_around;
use simulator::walk::walk;
use simulator::{Ending, Outcome};

// ---- the files

#[test]
fn the_stored_stream_is_what_the_bin_writes() {
    let stored = stored_case_files("stdin");
    assert!(stored == stream());
    println!("{} bytes", stored.len());
    assert!(stored.len() <= 8_490_000);
}

#[test]
fn the_stored_lines_are_what_is_printed() {
    let mut printed = Vec::new();
    print_lines(stored_case_files("stdin").as_slice(), &mut printed).unwrap();
    assert!(stored_case_files("stdout") == printed);
}

/// The last case breaks off; before it five of `combine` have a file of another length.
#[test]
fn the_last_line_is_short_and_five_others_are() {
    let stored = String::from_utf8(stored_case_files("stdout")).unwrap();
    let lines: Vec<&str> = stored.lines().collect();
    let (last, others) = lines.split_last().expect("lines");
    assert_eq!(*last, "short");
    let whole = whole_cases();
    assert_eq!(others.len(), whole.len());
    assert!(others.len() >= 2_400 && !others.contains(&"toolarge"));
    let cases = whole.iter().zip(others);
    let short: Vec<&Form> = cases
        .filter(|(_, line)| **line == "short")
        .map(|(form, _)| form)
        .collect();
    assert_eq!(short.len(), 5);
    let is_combine = |form: &Form| matches!(form, Form::Long(long) if long.call == Call::Combine);
    assert!(short.into_iter().all(is_combine));
}

#[test]
fn the_parts_have_these_lengths() {
    let lengths = lengths(parts());
    let said = [
        ("budgets", 300),
        ("kinds", 293),
        ("starts", 217),
        ("early", 119),
        ("nests", 102),
        ("sums", 174),
        ("filters", 74),
        ("long", 55),
        ("sizes", 127),
        ("carried", 769),
        ("refused", 399),
        ("copies", 528),
        ("random", 2_000),
        ("joins", 241),
        ("joined", 550),
        ("unknown", 12),
        ("random_forms", 200),
        ("boards", 563),
        ("random_boards", 200),
        ("next_addresses", 130),
        ("rounds", 33),
        ("block_ends", 49),
        ("slices", 80),
        ("decoded_kinds", 144),
        ("decoded_modes", 144),
        ("decoded_endings", 239),
        ("decoded_refused", 387),
        ("random_decoded", 200),
        ("passes", 193),
        ("decoded_passes", 59),
        ("random_passes", 40),
    ];
    assert_eq!(lengths, said);
}

/// The check of the first bytes of a stored file.
fn check_up_to(name: &str, bytes: usize) -> u32 {
    let stored = stored_case_files(name);
    check(stored[..bytes].iter().map(|&byte| u32::from(byte)))
}

/// The parts up to `random` are all short, and new parts come after them.
#[test]
fn the_short_parts_stand_first_as_they_are() {
    assert_eq!(check_up_to("stdin", 4_558_587), 1_761_334_054);
    assert_eq!(check_up_to("stdout", 601_877), 2_352_981_138);
    let parts = parts().into_iter().take(13);
    let all = parts.flat_map(|(_, forms)| forms);
    assert!(all.into_iter().all(|form| matches!(form, Form::Short(_))));
}

/// So do the parts about joined files and unknown calls, up to `random_forms`.
#[test]
fn the_joined_parts_stand_next_as_they_are() {
    assert_eq!(check_up_to("stdin", 6_011_228), 3_980_785_474);
    assert_eq!(check_up_to("stdout", 705_260), 255_618_825);
}

/// So do the parts about combined boards, up to `random_boards`.
#[test]
fn the_parts_about_boards_stand_next_as_they_are() {
    assert_eq!(check_up_to("stdin", 6_448_358), 1_002_542_311);
    assert_eq!(check_up_to("stdout", 729_577), 3_182_559_793);
}

/// So do the parts about the bit-reversed register, up to `block_ends`.
#[test]
fn the_reversed_parts_stand_next_as_they_are() {
    assert_eq!(check_up_to("stdin", 6_746_610), 3_006_894_894);
    assert_eq!(check_up_to("stdout", 759_211), 2_106_446_138);
}

/// The parts after these, up to `random_decoded`, are decoded runs alone.
#[test]
fn the_decoded_parts_stand_next_as_they_are() {
    assert_eq!(check_up_to("stdin", 8_259_676), 4_236_547_505);
    assert_eq!(check_up_to("stdout", 979_437), 2_547_725_631);
    let parts = parts().into_iter().skip(22).take(6);
    let is_decoded = |form: &Form| matches!(form, Form::Long(long) if long.call == Call::Decoded);
    let all: Vec<Form> = parts.flat_map(|(_, forms)| forms).collect();
    assert_eq!(all.len(), 1_194);
    assert!(all.iter().all(is_decoded));
}

// ---- what the stream holds

/// The whole cases of the stored stream.
fn whole_cases() -> Vec<Form> {
    forms_of(&stored_case_files("stdin"))
}

/// The short ones of these.
fn short(forms: Vec<Form>) -> Vec<Case> {
    let case = |form| match form {
        Form::Short(case) => Some(case),
        Form::Long(_) => None,
    };
    forms.into_iter().filter_map(case).collect()
}

/// The short cases of the stored stream.
fn cases() -> Vec<Case> {
    short(whole_cases())
}

fn part(wanted: &str) -> Vec<Case> {
    let mut parts = parts().into_iter();
    let found = parts.find(|(name, _)| *name == wanted);
    short(found.expect("a part of that name").1)
}

/// The runs among these cases that are not refused, with their outcomes.
fn accepted(cases: Vec<Case>) -> Vec<(Case, Outcome)> {
    let runs = cases.into_iter().filter(|case| case.what == What::Run);
    let outcome = |case: Case| {
        let (outcome, _) = case.run(case.budget);
        (case, outcome)
    };
    runs.map(outcome)
        .filter(|(_, outcome)| !matches!(outcome.ending, Ending::Refused(_)))
        .collect()
}

/// Every ending of a run, every answer to another call, and how often each must come
/// up.
fn answers() -> BTreeMap<String, usize> {
    let mut answers = BTreeMap::new();
    answers.insert("run done".to_string(), 1_000);
    answers.insert("run spent".to_string(), 400);
    answers.extend((1..=7).map(|number| (format!("run trap{number}"), 20)));
    answers.extend((1..=7).map(|number| (format!("run refused{number}"), 20)));
    answers.extend([1, 2, 3, 4, 5, 8].map(|number| (format!("load refused{number}"), 10)));
    answers.extend([1, 4, 5, 8].map(|number| (format!("write refused{number}"), 5)));
    answers.insert("load loaded".to_string(), 50);
    answers.insert("write written".to_string(), 50);
    answers.extend(["done", "spent"].map(|ending| (format!("long {ending}"), 20)));
    answers.extend((1..=7).map(|number| (format!("long trap{number}"), 1)));
    answers.extend((1..=7).map(|number| (format!("long refused{number}"), 1)));
    answers.insert("join joined".to_string(), 100);
    answers.extend([1, 2, 3, 4, 5, 8].map(|number| (format!("join refused{number}"), 10)));
    answers.insert("join refused9".to_string(), 3);
    answers.insert("combine combined".to_string(), 400);
    answers.insert("combine short".to_string(), 5);
    answers.extend([7, 13, 14].map(|number| (format!("combine refused{number}"), 20)));
    answers.insert("call unknown".to_string(), 6);
    answers.insert("decoded done".to_string(), 400);
    answers.insert("decoded spent".to_string(), 150);
    answers.extend((1..=7).map(|number| (format!("decoded trap{number}"), 5)));
    answers.extend((1..=8).map(|number| (format!("decoded refused{number}"), 15)));
    answers
}

#[test]
fn every_answer_and_every_kind_comes_up_often() {
    let coverage = coverage(&stored_case_files("stdin"));
    println!("{coverage:#?}");
    let answers = answers();
    assert!(coverage.endings.keys().eq(answers.keys()));
    for (name, least) in &answers {
        assert!(coverage.endings[name] >= *least, "{name}");
    }
    assert!(coverage.kinds[1..].iter().all(|&executed| executed >= 500));
    assert!(coverage.mid_loop_starts >= 300);
    assert!(coverage.mid_repeat_starts >= 100);
    assert!(coverage.corrections.iter().all(|&steps| steps >= 10_000));
    assert!(coverage.indexed_reads.iter().all(|&reads| reads >= 1_000));
    assert!(coverage.reversed_steps >= 3_000);
    assert!(coverage.depths.iter().all(|&steps| steps >= 10_000));
    assert!((5_000_000..20_000_000).contains(&coverage.steps));
}

/// The operations that the runs of a part execute.
fn executed(part: Vec<Case>) -> BTreeSet<Op> {
    let mut executed = BTreeSet::new();
    for case in part {
        walk(&case, |operation, _, _| {
            executed.insert(encode(operation));
        });
    }
    executed
}

#[test]
fn kinds_1_to_18_and_24_are_executed_in_every_form() {
    let executed = executed(part("kinds"));
    for kind in (1..=18).chain([24]) {
        let missing = forms(kind)
            .into_iter()
            .filter(|form| !executed.contains(form));
        assert_eq!(missing.count(), 0, "kind {kind}");
    }
}

#[test]
fn repeat_and_do_are_executed_by_every_register() {
    let executed = executed(part("nests"));
    for register in 0..14 {
        for kind in [20, 22] {
            let found = executed.iter().any(|op| op[..2] == [kind, register]);
            assert!(found, "kind {kind}, register {register}");
        }
    }
}

#[test]
fn every_mode_word_and_trap_word_is_set_at_a_start() {
    let runs = accepted(cases());
    let modes: BTreeSet<u16> = runs.iter().map(|(case, _)| case.state.mode.0).collect();
    assert!(modes.len() >= 100, "{}", modes.len());
    let traps: BTreeSet<u16> = runs
        .iter()
        .map(|(case, _)| case.settings.trap_word)
        .collect();
    assert_eq!(traps, (0..8).map(|bits| 0x0100 * bits).collect());
}

#[test]
fn starts_in_loops_and_repeats_of_all_sizes() {
    let runs = accepted(cases());
    let often = |what: &str, least: usize, fits: &dyn Fn(&Case) -> bool| {
        let count = runs.iter().filter(|(case, _)| fits(case)).count();
        assert!(count >= least, "{what}: {count}");
    };
    for active in 1..=4 {
        often("loops", 25, &|case| case.state.flow.active == active);
    }
    for (passes, least) in [(1, 40), (2, 40), (32_768, 40), (65_536, 30)] {
        let has = |case: &Case| {
            case.state
                .flow
                .loops
                .iter()
                .any(|slot| slot.passes == passes)
        };
        often("passes", least, &has);
    }
    for left in [1, 3, 65_536] {
        often("repeat left", 10, &|case| case.state.flow.repeat == left);
    }
    often("last places", 60, &|case| starts_in_a_last_place(case));
    for flags in 0..16 {
        often("flags", 5, &|case| flag_bits(case) == flags);
    }
}

fn starts_in_a_last_place(case: &Case) -> bool {
    let (_, operations) = check_file(&case.file).expect("an accepted file");
    let pc = case.state.flow.pc;
    let around = loops_around(pc, &operations);
    let innermost = around.last().map(|&number| operations[usize::from(number)]);
    innermost.is_some_and(|operation| operation.last_of_do() == Some(pc))
}

fn flag_bits(case: &Case) -> u8 {
    let ([oa, ob], [sa, sb]) = (case.state.overflow, case.state.saturated);
    u8::from(oa) | u8::from(ob) << 1 | u8::from(sa) << 2 | u8::from(sb) << 3
}

#[test]
fn endings_at_the_edge_of_the_budget() {
    let runs = accepted(cases());
    let count = |fits: &dyn Fn(&Case, &Outcome) -> bool| {
        runs.iter()
            .filter(|(case, outcome)| fits(case, outcome))
            .count()
    };
    // Done with nothing to do, done as the budget is used up.
    assert!(count(&|case, run| run.ending == Ending::Done && case.budget == 0) >= 3);
    let used_up = |case: &Case, run: &Outcome| {
        run.ending == Ending::Done && run.steps > 0 && run.steps == case.budget
    };
    assert!(count(&used_up) >= 10);
    // Spent at once, after one step, in a repeat, in four loops.
    let spent = |run: &Outcome| run.ending == Ending::Spent;
    for budget in [0, 1] {
        assert!(count(&|case, run| spent(run) && case.budget == budget) >= 15);
    }
    assert!(count(&|_, run| spent(run) && run.state.flow.repeat > 0) >= 50);
    assert!(count(&|_, run| spent(run) && run.state.flow.active == 4) >= 20);
    // Traps 5 to 7 with the last step of the budget, with the last operation.
    for number in 5..=7 {
        let trapped = |run: &Outcome| run.ending == trap(number);
        assert!(count(&|case, run| trapped(run) && run.steps == case.budget) >= 5);
        assert!(count(&|case, run| trapped(run) && is_at_the_end(case, run)) >= 5);
    }
    // The largest budget.
    let largest = |case: &Case| case.budget == u32::MAX;
    assert!(count(&|case, run| largest(case) && run.ending == Ending::Done) >= 30);
    assert!(count(&|case, run| largest(case) && run.ending != Ending::Done) >= 5);
}

fn is_at_the_end(case: &Case, outcome: &Outcome) -> bool {
    let (_, operations) = check_file(&case.file).expect("an accepted file");
    usize::from(outcome.state.flow.pc) == operations.len()
}

#[test]
fn dozens_of_runs_are_long_and_some_a_million_steps() {
    let steps = accepted(cases()).into_iter().map(|(_, run)| run.steps);
    let steps: Vec<u32> = steps.collect();
    let between = |low, high| steps.iter().filter(|&&n| (low..high).contains(&n)).count();
    assert!(between(10_000, 200_000) >= 50);
    assert!(between(1_000_000, u32::MAX) >= 3);
}

#[test]
fn programs_and_memories_are_of_all_sizes() {
    let cases = cases();
    let runs: Vec<&Case> = cases.iter().filter(|case| case.what == What::Run).collect();
    let blocks: BTreeSet<usize> = runs.iter().map(|case| case.file.len() / BLOCK).collect();
    assert!(blocks.is_superset(&BTreeSet::from([1, 2, 3, 4, 5, 16, MOST_BLOCKS])));
    let words: BTreeSet<usize> = runs.iter().map(|case| case.memory.len()).collect();
    assert!(words.is_superset(&BTreeSet::from([2, 3, 4, 16, 1_000, 2_048, 30_720])));
}

#[test]
fn the_filters_run_to_their_end() {
    let runs = accepted(part("filters"));
    let done = runs.iter().filter(|(_, run)| run.ending == Ending::Done);
    assert!(done.count() >= 70);
    let steps: u32 = runs.iter().map(|(_, run)| run.steps).sum();
    assert!(steps >= 50_000);
}
