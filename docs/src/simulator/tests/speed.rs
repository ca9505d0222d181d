//! The cases to time, stored in docs/speed.

mod common;
use common::*;

use simulator::cases::{bytes_of, line, next_case, Case};
use simulator::encode::encode;
use simulator::form::{self, forms_of, Form};
use simulator::generate::speed::{by_loops, by_repeat, by_reversal, case_of, NAMES};
use simulator::long::{long_line, Call};
use simulator::walk::walk;
use simulator::Ending;

/// The only case of a stored file.
fn stored(name: &str) -> Case {
    let bytes = stored_speed(name);
    let mut rest = bytes.as_slice();
    let case = next_case(&mut rest).unwrap().expect("a whole case");
    assert!(rest.is_empty());
    case
}

/// The steps, the MACs among them, the least and the largest A.
fn measured(case: &Case) -> (u32, u32, i64, i64) {
    let (mut macs, mut least, mut most) = (0, 0, 0);
    let outcome = walk(case, |operation, before, _| {
        macs += u32::from(operation.kind() == 3);
        least = before.accumulators[0].min(least);
        most = before.accumulators[0].max(most);
    });
    assert_eq!(outcome.ending, Ending::Done);
    assert_eq!(outcome.state.saturated, [false; 2]);
    (outcome.steps, macs, least, most)
}

fn is_ten_million_macs(case: &Case) {
    let (steps, macs, least, most) = measured(case);
    assert!((10_000_000..10_100_000).contains(&macs), "{macs}");
    assert!(steps > macs && steps < 10_100_000, "{steps}");
    // The sums go both ways, far within 40 bits.
    assert!(least < -(1 << 32) && most > 1 << 32, "{least} {most}");
    assert!(least > -(1 << 38) && most < 1 << 38, "{least} {most}");
}

#[test]
fn the_stored_cases_are_what_the_bin_writes() {
    assert_eq!(stored_speed("repeat"), bytes_of(&by_repeat()));
    assert_eq!(stored_speed("loop"), bytes_of(&by_loops()));
    assert_eq!(stored_speed("reversed"), bytes_of(&by_reversal()));
    for name in NAMES {
        assert_eq!(stored_speed(name), form::bytes_of(&case_of(name).unwrap()));
    }
    let others = ["", "loops", "-decoded", "loop-decoded-decoded"];
    assert!(others.iter().all(|name| case_of(name).is_none()));
}

/// Over decoded operations, 4 or 6 of them, each run is the same.
#[test]
fn the_decoded_runs_are_the_same() {
    for (name, count) in [("repeat", 4), ("loop", 6), ("reversed", 4)] {
        let stored_twin = forms_of(&stored_speed(&format!("{name}-decoded")));
        let [Form::Long(twin)] = &stored_twin[..] else {
            panic!("not one long case");
        };
        assert_eq!((twin.call, twin.words), (Call::Decoded, 16 * count));
        assert_eq!(twin.start, stored(name));
        let run = line(&twin.start);
        assert!(long_line(twin).starts_with(&format!("{run} 0 ")));
    }
}

#[test]
fn the_repeated_macs_are_ten_million_and_done() {
    is_ten_million_macs(&stored("repeat"));
}

#[test]
fn the_looped_macs_are_ten_million_and_done() {
    is_ten_million_macs(&stored("loop"));
}

/// 306 x 32,767 stores are 9,791 rounds of 1,024 and 718 more. 718 is 1011001110 in ten
/// binary digits; turned round 0111001101, 461: the pointer is 1000 hex + 922. Each word
/// holds its address.
#[test]
fn the_reversed_stores_are_ten_million_and_done() {
    let case = stored("reversed");
    let mut stores = 0;
    let walked = walk(&case, |operation, _, _| {
        stores += u32::from(encode(operation) == store(1, 1, 2));
    });
    assert_eq!(stores, 10_026_702);
    assert_eq!(stores, 9_791 * 1_024 + 718);
    // DO, 306 times REPEAT, the idle operation.
    let (outcome, memory) = case.run(case.budget);
    assert_eq!(outcome.steps, stores + 308);
    assert_eq!(outcome, walked);
    assert_eq!(outcome.ending, Ending::Done);
    assert_eq!(outcome.state.w[1], 0x139A);
    let addresses = (0..1_024).map(|index| 0x1000 + 2 * index);
    assert!(memory.into_iter().eq(addresses));
}
