//! The generated stream: deterministic, covering, and printed by `cases` as
//! the generator says.

use simulator::form::print_lines;
use simulator::generate::coverage::coverage;
use simulator::generate::{generate, long_mix, short_mix};

const SEED: u64 = 1;
const CASES: usize = 2_000;
const LONG_CASES: usize = 2_500;

#[test]
fn generate_is_deterministic() {
    let first = generate(short_mix, 7, 150).unwrap();
    assert_eq!(first, generate(short_mix, 7, 150).unwrap());
    assert_ne!(first, generate(short_mix, 8, 150).unwrap());
}

#[test]
fn cases_prints_the_generated_lines() {
    let (stream, lines) = generate(short_mix, 3, 400).unwrap();
    let mut printed = Vec::new();
    print_lines(stream.as_slice(), &mut printed).unwrap();
    assert_eq!(printed, lines);
    assert_eq!(lines.iter().filter(|&&byte| byte == b'\n').count(), 400);
}

#[test]
fn every_ending_refusal_and_kind_is_covered() {
    let (stream, _) = generate(short_mix, SEED, CASES).unwrap();
    let coverage = coverage(&stream);
    println!("{coverage:#?}, {} bytes", stream.len());
    assert_eq!(coverage.cases, CASES);
    let mut names: Vec<String> = vec!["run done".into(), "run spent".into()];
    names.extend((1..=7).map(|n| format!("run trap{n}")));
    names.extend((1..=7).map(|n| format!("run refused{n}")));
    names.extend([1, 2, 3, 4, 5, 8].map(|n| format!("load refused{n}")));
    names.extend([1, 4, 5, 8].map(|n| format!("write refused{n}")));
    names.extend(["load loaded".into(), "write written".into()]);
    for name in &names {
        let seen = coverage.endings.get(name).copied().unwrap_or(0);
        assert!(seen >= 5, "{name}: {seen}");
    }
    for name in coverage.endings.keys() {
        assert!(names.contains(name), "{name}");
    }
    for kind in 1..=25 {
        let seen = coverage.kinds[kind];
        assert!(seen >= 100, "kind {kind}: {seen}");
    }
    assert!(coverage.mid_loop_starts >= 50);
    assert!(coverage.mid_repeat_starts >= 30);
    assert!(coverage.most_steps >= 20_000);
    assert!(coverage.steps >= 300_000);
    assert!(coverage.long_runs >= 200);
    assert!(coverage.corrections.iter().all(|&seen| seen >= 100));
    assert!(coverage.indexed_reads.iter().all(|&seen| seen >= 500));
    assert!(coverage.reversed_steps >= 500);
    assert!(coverage.depths.iter().all(|&seen| seen >= 200));
}

/// The mix of joins, runs of joined files, decoded runs and combined boards, printed as it
/// says.
#[test]
fn every_answer_of_the_long_mix_is_covered() {
    let (stream, lines) = generate(long_mix, SEED, LONG_CASES).unwrap();
    assert_eq!(printed(&stream), lines);
    let coverage = coverage(&stream);
    println!("{:#?}, {} bytes", coverage.endings, stream.len());
    assert_eq!(coverage.cases, LONG_CASES);
    let mut names: Vec<String> = vec!["join joined".into(), "call unknown".into()];
    names.extend([1, 2, 3, 4, 5, 8, 9].map(|n| format!("join refused{n}")));
    names.extend(["combine combined".into(), "combine short".into()]);
    names.extend([7, 13, 14].map(|n| format!("combine refused{n}")));
    names.extend((1..=8).map(|n| format!("decoded refused{n}")));
    for form in ["run", "long", "decoded"] {
        names.extend(["done", "spent"].map(|ending| format!("{form} {ending}")));
        names.extend((1..=7).map(|n| format!("{form} trap{n}")));
        names.extend([6, 7].map(|n| format!("{form} refused{n}")));
    }
    for name in &names {
        let seen = coverage.endings.get(name).copied().unwrap_or(0);
        assert!(seen >= 3, "{name}: {seen}");
    }
}

fn printed(stream: &[u8]) -> Vec<u8> {
    let mut printed = Vec::new();
    print_lines(stream, &mut printed).unwrap();
    printed
}

/// A case whose file is of another length than its number of stretches asks for stands
/// first, last and between, and a line follows for each case after it.
#[test]
fn a_stream_of_the_long_mix_goes_on_after_short() {
    let mut short = [0; 5];
    for seed in 0..300 {
        let (stream, lines) = generate(long_mix, seed, 5).unwrap();
        assert_eq!(printed(&stream), lines, "seed {seed}");
        let lines = String::from_utf8(lines).unwrap();
        assert_eq!(lines.lines().count(), 5);
        for (place, line) in lines.lines().enumerate() {
            short[place] += usize::from(line == "short");
        }
    }
    println!("{short:?} of 300");
    assert!(short.iter().all(|count| (3..=40).contains(count)));
}
