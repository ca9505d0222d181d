//! The parts of crates/cases about joined files: what they hold, and that the wish is
//! fulfilled by each pair whose joined file is run.

mod common;
use common::*;
use std::collections::{BTreeMap, BTreeSet};

use simulator::cases::{Case, What};
use simulator::file::{check_file, file_length};
use simulator::form::{line, Form};
use simulator::generate::pairs::{joined_file, needed};
use simulator::generate::runs::{joined, parts};
use simulator::long::{long_bytes, Call, Long};
use simulator::operation::Operation;
use simulator::state::loops_around;
use simulator::succession::{faults, in_succession, Pair};
use simulator::{load, Ending};

fn part(wanted: &str) -> Vec<Form> {
    let mut parts = parts().into_iter();
    let found = parts.find(|(name, _)| *name == wanted);
    found.expect("a part of that name").1
}

/// The lines of the stored stream for a part.
fn stored_lines(wanted: &str) -> Vec<String> {
    let before = parts();
    let before = before.iter().take_while(|(name, _)| *name != wanted);
    let skipped: usize = before.map(|(_, forms)| forms.len()).sum();
    let stored = String::from_utf8(stored_case_files("stdout")).unwrap();
    let lines = stored.lines().skip(skipped).take(part(wanted).len());
    lines.map(str::to_string).collect()
}

fn longs(forms: Vec<Form>) -> Vec<Long> {
    let long = |form| match form {
        Form::Long(long) => Some(long),
        Form::Short(_) => None,
    };
    forms.into_iter().filter_map(long).collect()
}

// ---- joins

/// A few have words of memory to read over, joined and refused.
#[test]
fn some_joins_have_words() {
    let cases = longs(part("joins")).into_iter().zip(stored_lines("joins"));
    let with_words = cases.filter(|(case, _)| !case.start.memory.is_empty());
    let answers: Vec<String> = with_words
        .map(|(_, line)| line.split(' ').next().unwrap().to_string())
        .collect();
    assert_eq!(answers, ["joined", "refused8", "refused8", "joined"]);
}

/// The number that a file is given alone, 0 for none, and its count of operations.
fn judged(file: &[u8]) -> (u8, usize) {
    match load(file, &mut [0; 8 * 4_032]) {
        Ok(bytes) => (0, bytes / 8),
        Err(number) => (number, 0),
    }
}

/// What a join is: both files' numbers, their counts, the room, the answer.
struct Joined {
    numbers: [u8; 2],
    counts: [usize; 2],
    room: usize,
    answer: String,
}

impl Joined {
    fn together(&self) -> usize {
        self.counts.iter().sum()
    }
}

fn joins() -> Vec<Joined> {
    let cases = longs(part("joins"));
    let lines = stored_lines("joins");
    assert_eq!(cases.len(), lines.len());
    let told = |(case, line): (Long, String)| {
        assert_eq!(case.call, Call::Join);
        let [first, second] = [&case.start.file, &case.second].map(|file| judged(file));
        Joined {
            numbers: [first.0, second.0],
            counts: [first.1, second.1],
            room: case.room as usize,
            answer: line.split(' ').next().unwrap().to_string(),
        }
    };
    cases.into_iter().zip(lines).map(told).collect()
}

/// The answer by the order of the wish: the first's number, the second's, 9, 8.
#[test]
fn every_join_is_answered_in_order() {
    for join in joins() {
        let needed = file_length(join.together());
        let due = match join.numbers {
            [0, 0] if join.together() > 4_032 => "refused9".to_string(),
            [0, 0] if join.room < needed => "refused8".to_string(),
            [0, 0] => "joined".to_string(),
            [0, second] => format!("refused{second}"),
            [first, _] => format!("refused{first}"),
        };
        assert_eq!(join.answer, due);
    }
}

/// The operations of a file that loads.
fn held(file: &[u8]) -> Vec<Op> {
    let mut out = vec![0; 8 * 4_032];
    let bytes = load(file, &mut out).expect("a file that loads");
    let operations = out[..bytes].chunks_exact(8);
    operations.map(|b| b.try_into().expect("eight")).collect()
}

/// The joined file by hand: b4-5 of kinds 21 and 22 raised, blocks made anew.
fn joined_by_hand(first: &[u8], second: &[u8]) -> Vec<u8> {
    let mut operations = held(first);
    let count = operations.len();
    operations.extend(held(second).into_iter().map(|mut b| {
        if b[0] == 21 || b[0] == 22 {
            let last = usize::from(b[4]) + 256 * usize::from(b[5]) + count;
            (b[4], b[5]) = ((last % 256) as u8, (last / 256) as u8);
        }
        b
    }));
    file_of(&operations)
}

/// The whole lines: the file at the start of the output and the lent pattern past it,
/// or the pattern alone.
#[test]
fn every_join_prints_the_check_of_its_output() {
    for (case, line) in longs(part("joins")).iter().zip(stored_lines("joins")) {
        let room = case.room as usize;
        let mut out: Vec<u64> = (0..room as u64).map(|i| i % 251).collect();
        let mut answer = format!("{} 0", line.split(' ').next().unwrap());
        if line.starts_with("joined ") {
            let file = joined_by_hand(&case.start.file, &case.second);
            answer = format!("joined {}", file.len());
            out.splice(..file.len(), file.into_iter().map(u64::from));
        }
        let check = out.into_iter().fold(0, |h, x| (31 * h + x) % (1 << 32));
        assert_eq!(line, format!("{answer} {check}"));
    }
}

#[test]
fn the_joins_are_at_every_boundary() {
    let joins = joins();
    let has = |fits: &dyn Fn(&Joined) -> bool| joins.iter().any(fits);
    let both_good = |join: &Joined| join.numbers == [0, 0];
    for count in [62, 63, 64] {
        assert!(has(
            &|join| join.counts[0] == count && join.answer == "joined"
        ));
        assert!(has(
            &|join| join.counts[1] == count && join.answer == "joined"
        ));
        assert!(has(
            &|join| join.together() == count && join.answer == "joined"
        ));
    }
    let of = |join: &Joined, count| both_good(join) && join.together() == count;
    assert!(has(&|join| of(join, 4_032) && join.room == 32_768));
    assert!(has(&|join| of(join, 4_032) && join.room == 32_767));
    assert!(has(&|join| of(join, 4_032) && join.room > 32_768));
    assert!(has(&|join| of(join, 4_033) && join.room > 33_280 - 512));
    // 9 with too little room for the most there can be.
    assert!(has(&|join| of(join, 4_033) && join.room < 32_768));
    assert!(has(&|join| of(join, 4_033) && join.room == 0));
    for (more, answer) in [
        (-1, "refused8"),
        (0, "joined"),
        (1, "joined"),
        (300, "joined"),
    ] {
        let fits = |join: &Joined| {
            let needed = file_length(join.together()) as i64;
            both_good(join) && join.room as i64 == needed + more && join.answer == answer
        };
        assert!(
            joins.iter().filter(|join| fits(join)).count() >= 6,
            "{more}"
        );
    }
}

#[test]
fn the_joins_have_every_two_numbers() {
    let pairs: BTreeSet<[u8; 2]> = joins().iter().map(|join| join.numbers).collect();
    for first in 0..=5 {
        for second in 0..=5 {
            assert!(pairs.contains(&[first, second]), "{first} {second}");
        }
    }
}

/// A bad second after 4,032 operations, each of a header that counts one more.
#[test]
fn bad_seconds_stand_where_there_are_too_many() {
    let joins = joins();
    let numbers: BTreeSet<u8> = joins
        .iter()
        .filter(|join| join.counts[0] == 4_032 && join.numbers[1] > 0)
        .map(|join| join.numbers[1])
        .collect();
    assert_eq!(numbers, BTreeSet::from([2, 4, 5]));
    assert!(joins
        .iter()
        .any(|join| join.numbers == [4, 0] && join.counts[1] == 4_032));
}

// ---- runs of joined files

fn pairs() -> Vec<Pair> {
    [joined::whole_pairs(), joined::pairs()].concat()
}

/// The wish holds for each, with every budget where the runs are short.
#[test]
fn the_wish_on_the_stored_pairs() {
    for (number, pair) in pairs().into_iter().enumerate() {
        let [first, both] = needed(&pair, 10_000);
        let most = if both < 300 { both + 2 } else { 0 };
        let edges = [first.saturating_sub(1), first, first + 1, both, both + 1];
        for budget in (0..=most).chain(edges) {
            let mut pair = pair.clone();
            pair.first.budget = budget;
            assert_eq!(faults(&pair), [], "pair {number}, budget {budget}");
        }
    }
}

fn operations(file: &[u8]) -> Vec<Operation> {
    check_file(file).expect("an accepted file").1
}

/// How the firsts and seconds of the pairs end, and how the seconds begin.
#[test]
fn the_pairs_end_in_every_way() {
    let mut seen: BTreeMap<String, usize> = BTreeMap::new();
    let mut note = |what: String| *seen.entry(what).or_default() += 1;
    for mut pair in pairs() {
        pair.first.budget = 10_000;
        let (first, _) = pair.run_first();
        note(format!("first {}", first.ending));
        if first.state.flow.pc == pair.count() {
            note(format!("first {} at the end", first.ending));
        }
        if first.ending == Ending::Done {
            note(format!("second {}", in_succession(&pair).0.ending));
            note(format!(
                "second begins {}",
                operations(&pair.second)[0].kind()
            ));
            for (name, flag) in ["SA", "SB"].into_iter().zip(first.state.saturated) {
                note(format!("first leaves {name} {flag}"));
            }
        }
    }
    println!("{seen:#?}");
    let at_least = |what: &str, least: usize| {
        let count = seen.get(what).copied().unwrap_or(0);
        assert!(count >= least, "{what}: {count}");
    };
    for number in 1..=7 {
        at_least(&format!("first trap{number}"), 1);
        at_least(&format!("second trap{number}"), 1);
    }
    for number in 5..=7 {
        at_least(&format!("first trap{number} at the end"), 3);
    }
    for kind in [19, 20, 21, 22, 23] {
        at_least(&format!("second begins {kind}"), 2);
    }
    at_least("second done", 20);
    at_least("first leaves SA true", 3);
    at_least("first leaves SB true", 3);
}

/// The part's runs: each pair's joined file with each of the budgets.
#[test]
fn the_budgets_at_the_edges_stand_there() {
    let stored: Vec<Case> = part("joined").into_iter().map(run_of).collect();
    for pair in pairs() {
        let [first, both] = needed(&pair, 10_000);
        let file = joined_file(&pair.first.file, &pair.second);
        let budgets = [
            first.saturating_sub(1),
            first,
            first + 1,
            both.saturating_sub(1),
            both,
        ];
        for budget in [0].into_iter().chain(budgets) {
            let case = Case {
                file: file.clone(),
                budget,
                ..pair.first.clone()
            };
            assert!(stored.contains(&case), "budget {budget}");
        }
    }
}

/// The run of a case of either form.
fn run_of(form: Form) -> Case {
    match form {
        Form::Short(case) => {
            assert_eq!(case.what, What::Run);
            case
        }
        Form::Long(long) => {
            assert_eq!((long.call, long.second.len()), (Call::Run, 0));
            long.start
        }
    }
}

/// Spent with loops active past the first's count, in both forms; one to four loops.
#[test]
fn loops_are_active_at_a_spent() {
    let mut counts = [0; 5];
    for form in part("joined") {
        let case = run_of(form);
        let (outcome, _) = case.run(case.budget);
        let flow = &outcome.state.flow;
        if outcome.ending == Ending::Spent {
            let around = loops_around(flow.pc, &operations(&case.file));
            assert_eq!(around.len(), usize::from(flow.active));
            counts[around.len()] += 1;
        }
    }
    println!("{counts:?}");
    assert!(counts[0] >= 50 && counts[1] >= 50 && counts[2] >= 20);
    assert!(counts[3] >= 4 && counts[4] >= 10);
}

/// The five loops of the second, with counts of 5 to 1: four active at trap 4.
#[test]
fn the_fifth_loop_traps_in_the_second() {
    let trapped = stored_lines("joined")
        .into_iter()
        .filter(|line| line.starts_with("trap4 "));
    let with_places = trapped.filter(|line| line.contains(" 4 3:6 5:5 7:4 9:3 "));
    assert!(with_places.count() >= 1);
}

#[test]
fn long_runs_are_refused_too() {
    let lines = stored_lines("joined");
    let cases = part("joined");
    let mut numbers = BTreeSet::new();
    for (form, line) in cases.iter().zip(&lines) {
        let is_long = matches!(form, Form::Long(_));
        assert_eq!(line.split(' ').count(), if is_long { 39 } else { 28 });
        if is_long && line.starts_with("refused") {
            assert!(line.ends_with(" 0 0 0 0 0 0 0 0 0"), "{line}");
            numbers.insert(line.as_bytes()[7] - b'0');
        }
    }
    assert_eq!(numbers, (1..=7).collect());
}

/// Where a run stands in both forms the long line begins with the short one.
#[test]
fn both_forms_of_a_run_agree() {
    let lines: BTreeSet<String> = stored_lines("joined").into_iter().collect();
    let mut found = 0;
    for line in lines.iter().filter(|line| line.split(' ').count() == 39) {
        let fields: Vec<&str> = line.split(' ').collect();
        found += usize::from(lines.contains(&fields[..28].join(" ")));
    }
    println!("{found} in both forms");
    assert!(found >= 15);
}

// ---- calls that are not here

/// The run over decoded operations with nothing to read over.
fn twin_of(run: &Case, words: usize) -> Long {
    simulator::generate::decoded::decoded_case(run.clone(), words)
}

#[test]
fn unknown_calls_have_something_to_read_over() {
    let forms = part("unknown");
    let lines = stored_lines("unknown");
    let mut calls = Vec::new();
    for (two, lines) in forms.chunks(2).zip(lines.chunks(2)) {
        let [Form::Long(long), Form::Short(run)] = two else {
            panic!("an unknown call and a run");
        };
        calls.push(long_bytes(long)[111]);
        let (first, second) = (&long.start.file, &long.second);
        assert!(!first.is_empty() && !second.is_empty() && !long.start.memory.is_empty());
        // 22 is here: 65,536 and -5, of which the second's SA is set. So is 21: the run
        // and its three operations in a slice of 64 words.
        let due = match long.call {
            Call::Combine => "combined 65531 0 1".to_string(),
            Call::Decoded => line(&Form::Long(twin_of(run, 64))),
            _ => "unknown".to_string(),
        };
        assert_eq!(lines[0], due);
        if long.call == Call::Decoded {
            assert!(lines[0].starts_with(&lines[1]) && lines[0].len() > lines[1].len());
        }
        assert_eq!(lines[1], line(&Form::Short(run.clone())));
        assert!(lines[1].starts_with("done "));
    }
    assert_eq!(calls, [18, 19, 20, 21, 22, 255]);
}

/// The random cases are joins, runs of both forms and unknown calls; in one a program
/// file stands for stretches.
#[test]
fn the_random_forms_are_of_every_kind() {
    let mut seen: BTreeMap<&str, usize> = BTreeMap::new();
    for (form, line) in part("random_forms")
        .into_iter()
        .zip(stored_lines("random_forms"))
    {
        let name = match form {
            Form::Short(_) => "short",
            Form::Long(long) => match long.call {
                Call::Run => "run",
                Call::Join => "join",
                Call::Decoded => "decoded",
                Call::Combine => "combine",
                Call::Unknown(_) => "unknown",
            },
        };
        assert_eq!(line == "short", name == "combine");
        *seen.entry(name).or_default() += 1;
    }
    println!("{seen:?}");
    assert!(seen["short"] >= 30 && seen["run"] >= 30 && seen["join"] >= 50);
    assert!(seen["unknown"] >= 1 && seen["combine"] == 1);
}
