//! The run over decoded operations: its lent slice worked out by hand.

use simulator::cases::{bytes_of, check, Case, What};
use simulator::{write, Settings, State};

/// MAC with both reads and a write-back to W13, a literal to W5.
const OPERATIONS: [[u8; 8]; 2] = [
    [0x03, 0x01, 0x54, 0x38, 0x5A, 0x76, 0x01, 0x00],
    [0x10, 0x05, 0x34, 0x12, 0x00, 0x00, 0x00, 0x00],
];

const WORDS: [[u32; 16]; 2] = [
    [3, 1, 4, 5, 8, 3, 10, 5, 6, 7, 1, 0x3854, 0x765A, 0, 0, 0],
    [16, 5, 4, 3, 2, 1, 0, 0, 0, 0, 0, 0x1234, 0, 0, 0, 0],
];

/// The program from reset on four words, as a short case.
fn short_case(budget: u32) -> Vec<u8> {
    let mut file = vec![0; 512];
    assert_eq!(write(OPERATIONS.as_flattened(), &mut file), Ok(512));
    bytes_of(&Case {
        what: What::Run,
        file,
        memory: vec![1, 2, 3, 4],
        budget,
        settings: Settings::plain(2),
        state: State::reset(),
    })
}

/// A short case as a long one with L lent words.
fn long_case(short: &[u8], what: u8, lent: u32) -> Vec<u8> {
    let (header, rest) = short.split_at(112);
    let mut case = header.to_vec();
    case[111] = what;
    case.resize(264, 0);
    case.extend(lent.to_le_bytes());
    case.resize(320, 0);
    case.extend(rest);
    case
}

/// All is decoded whatever the budget, and the words past the last operation stay.
#[test]
fn the_slice_holds_every_operation() {
    for (budget, lent) in [(0, 32), (0, 35), (1, 35), (9, 300)] {
        let short = short_case(budget);
        let run = tuned::lines(&long_case(&short, 16, 0));
        let decoded = tuned::lines(&long_case(&short, 21, lent));
        let rest = (32..lent).map(|i| i % 251);
        let slice = WORDS.into_iter().flatten().chain(rest);
        assert_eq!(decoded, format!("{} {}\n", run.trim_end(), check(slice)));
    }
}

/// W0..W13 are 0 here: the X read is at address 0, outside its region.
#[test]
fn the_long_line_goes_on_from_the_short_one() {
    let short = short_case(9);
    let line = tuned::lines(&short);
    assert!(line.starts_with("trap2 0 0 0 0000 0 0 0020 0 "), "{line}");
    let long = tuned::lines(&long_case(&short, 16, 0));
    assert_eq!(long, format!("{} 0 0 0 0 0 0 0 0 0 0 0\n", line.trim_end()));
}
