//! The runs stored in crates/cases that are not refused: the tuned interpreter prints
//! the stored line of each.

use std::collections::BTreeMap;

use simulator::form::next_form;

/// A stored file of crates/cases.
fn stored(name: &str) -> Vec<u8> {
    let root = concat!(env!("CARGO_MANIFEST_DIR"), "/../../../");
    let path = format!("{root}crates/cases/{name}");
    std::fs::read(&path).unwrap_or_else(|error| panic!("{path}: {error}"))
}

/// The bytes of each whole case of a stream.
fn cases(mut stream: &[u8]) -> Vec<&[u8]> {
    let mut cases = Vec::new();
    loop {
        let before = stream;
        let Ok(Ok(_)) = next_form(&mut stream) else {
            return cases;
        };
        cases.push(&before[..before.len() - stream.len()]);
    }
}

/// What a case asks for.
fn what(case: &[u8]) -> u8 {
    case[111]
}

/// Whether a line is that of a run that was made.
fn is_made(line: &str) -> bool {
    ["done", "spent", "trap"]
        .iter()
        .any(|ending| line.starts_with(ending))
}

#[test]
fn every_stored_run_prints_its_line() {
    let (stream, lines) = (stored("stdin"), stored("stdout"));
    let lines = String::from_utf8(lines).unwrap();
    let mut compared: BTreeMap<u8, usize> = BTreeMap::new();
    for (case, line) in cases(&stream).into_iter().zip(lines.lines()) {
        if [0, 16, 21].contains(&what(case)) && is_made(line) {
            assert_eq!(tuned::lines(case), format!("{line}\n"));
            *compared.entry(what(case)).or_default() += 1;
        }
    }
    println!("{compared:?}");
    assert!(compared[&0] >= 4_000 && compared[&16] >= 100 && compared[&21] >= 700);
}

#[test]
fn other_calls_are_unknown_and_a_broken_case_is_short() {
    let stream = stored("stdin");
    let others = cases(&stream)
        .into_iter()
        .filter(|case| ![0, 16, 21].contains(&what(case)));
    let others: Vec<&[u8]> = others.collect();
    assert!(others.len() >= 1_000);
    for case in others {
        assert_eq!(tuned::lines(case), "unknown\n");
        assert_eq!(tuned::lines(&case[..case.len() - 1]), "short\n");
    }
}
