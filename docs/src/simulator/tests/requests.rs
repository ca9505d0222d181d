//! The request stream: its form, what the generator puts in it, and the files
//! stored in crates/files.

mod common;
use common::*;
use std::collections::{BTreeMap, BTreeSet};

use simulator::encode::encode_all;
use simulator::generate::blocks::*;
use simulator::generate::forms::forms;
use simulator::generate::misses::misses;
use simulator::generate::places::{bad, good, By};
use simulator::generate::requests::{random_requests, requests};
use simulator::requests::{answers, requests_of, stream_of, Call, Request, MOST};

#[test]
fn the_stored_stream_is_what_the_generator_makes() {
    assert!(stored_requests("stdin") == stream_of(&requests()));
}

#[test]
fn the_stored_answers_are_the_simulators() {
    let requests = requests_of(&stored_requests("stdin")).expect("a request stream");
    let answers = answers(&requests);
    assert_eq!(answers.lines().count(), requests.len());
    assert!(stored_requests("stdout") == answers.into_bytes());
}

/// How often each refusal's number, or 0, comes for each call.
fn tally(requests: &[Request]) -> BTreeMap<(u8, u8), usize> {
    let mut tally = BTreeMap::new();
    for request in requests {
        *tally
            .entry((request.call as u8, number(request)))
            .or_default() += 1;
    }
    tally
}

fn number(request: &Request) -> u8 {
    let answer = request.answer();
    let number = answer.split(' ').next().expect("three numbers");
    number.parse().expect("a small number")
}

/// Every answer the paper has for a load and for a write, and no other.
fn every_answer_comes_up(requests: &[Request]) {
    let tally = tally(requests);
    println!("{tally:?}");
    let loads = [0, 1, 2, 3, 4, 5, 8].map(|number| (0, number));
    let writes = [0, 1, 4, 5, 8].map(|number| (1, number));
    let all: Vec<(u8, u8)> = loads.into_iter().chain(writes).collect();
    assert_eq!(tally.keys().copied().collect::<Vec<_>>(), all);
    assert!(tally.values().all(|&seen| seen >= 5), "{tally:?}");
}

#[test]
fn every_answer_comes_up_in_the_stored_stream() {
    let stream = stored_requests("stdin");
    println!("{} bytes", stream.len());
    assert!(stream.len() < 350_000);
    every_answer_comes_up(&requests_of(&stream).expect("a request stream"));
}

#[test]
fn random_streams_are_told_by_their_seed_and_hold_every_answer() {
    let requests = random_requests(3, 1_500);
    assert_eq!(requests, random_requests(3, 1_500));
    assert_ne!(requests, random_requests(4, 1_500));
    assert_eq!(requests_of(&stream_of(&requests)), Some(requests.clone()));
    every_answer_comes_up(&requests);
}

// ---- the form of a stream

#[test]
fn a_stream_is_laid_out_as_it_is_said() {
    let load = Request {
        call: Call::Load,
        room: 0x0203,
        input: vec![7, 8, 9],
    };
    let write = Request {
        call: Call::Write,
        room: 0,
        input: vec![6; 256],
    };
    let mut stream = vec![2, 0, 0, 3, 2, 3, 0, 7, 8, 9, 1, 0, 0, 0, 1];
    stream.extend([6; 256]);
    let requests = vec![load, write];
    assert_eq!(stream_of(&requests), stream);
    assert_eq!(requests_of(&stream), Some(requests));
}

#[test]
fn what_is_no_stream_has_no_requests() {
    let good = [1, 0, 0, 4, 0, 2, 0, 7, 8];
    assert!(requests_of(&good).is_some());
    for length in 0..good.len() {
        assert_eq!(requests_of(&good[..length]), None, "{length}");
    }
    let longer = [1, 0, 0, 4, 0, 2, 0, 7, 8, 0];
    let other_call = [1, 0, 2, 4, 0, 2, 0, 7, 8];
    assert_eq!(requests_of(&longer), None);
    assert_eq!(requests_of(&other_call), None);
    assert_eq!(requests_of(&[0, 0]), Some(Vec::new()));
    assert_eq!(requests_of(&[0, 0, 0]), None);
}

#[test]
fn room_and_input_end_at_66_blocks() {
    assert_eq!(MOST, 33_792);
    let stream = |room, length| {
        let input = vec![0; length];
        let call = Call::Write;
        stream_of(&[Request { call, room, input }])
    };
    assert!(requests_of(&stream(33_792, 33_792)).is_some());
    assert_eq!(requests_of(&stream(33_793, 0)), None);
    assert_eq!(requests_of(&stream(0, 33_793)), None);
}

// ---- what the generator puts in it, judged by the paper

/// The answer of operations, which is the same as a write's and as a load's.
fn answer_of(operations: &[u8]) -> u8 {
    let ops: Vec<Op> = operations
        .chunks(8)
        .map(|b| b.try_into().unwrap())
        .collect();
    let of = |call, input| {
        let room = 2_048;
        number(&Request { call, room, input })
    };
    let written = of(Call::Write, operations.to_vec());
    assert_eq!(of(Call::Load, file_of(&ops)), written);
    written
}

#[test]
fn forms_are_good_and_misses_are_not() {
    for kind in 1..=25 {
        assert_eq!(answer_of(&forms(kind).concat()), 0, "kind {kind}");
    }
    for miss in misses().concat() {
        let program = [miss, IDLE, IDLE, IDLE];
        assert_eq!(answer_of(&program.concat()), 4, "{miss:?}");
    }
}

/// How many values of b1 to b7 a kind has, REPEAT's and DO's counts apart.
fn listed_values(kind: u8) -> [usize; 7] {
    // No read, 14 stepped ones, the sum; destinations of none, X, Y, both.
    let (reads, destinations) = (1 + 14 + 1, 1 + 4 + 4 + 12);
    match kind {
        1 | 7 => [2, 1, reads, reads, destinations, 3, 1],
        2 => [2, 16, reads, reads, destinations, 1, 1],
        3 | 4 => [2, 16, reads, reads, destinations, 3, 1],
        5 | 6 => [2, 4, reads - 1, reads - 1, 4, 1, 1],
        8..=10 => [2, 1, 1, 1, 1, 1, 1],
        11 => [2, 1, 14, 1, 1, 1, 1],
        12..=15 => [2, 16, 14, 4, 1, 1, 1],
        // Literals: bytes 00, 01, FF; 00, 01, 7F, 80, FF.
        16 => [14, 3, 5, 1, 1, 1, 1],
        17 | 18 => [14, 1, 14, 3, 1, 1, 1],
        // Counts: bytes 00, 01, FF; 00, 01, 7F.
        19 => [1, 3, 3, 1, 1, 1, 1],
        20 => [14, 1, 1, 1, 1, 1, 1],
        21 => [1, 3, 3, 5, 1, 1, 1],
        22 => [14, 1, 1, 14, 1, 1, 1],
        24 => [1, 64, 2, 1, 1, 1, 1],
        _ => [1; 7],
    }
}

#[test]
fn forms_hold_every_value_of_every_field() {
    for kind in 1..=25 {
        let forms = forms(kind);
        let values = |at: usize| -> BTreeSet<u8> {
            let own = forms.iter().filter(|op| op[0] == kind);
            own.map(|op| op[at]).collect()
        };
        let counts: Vec<usize> = (1..8).map(|at| values(at).len()).collect();
        assert_eq!(counts, listed_values(kind), "kind {kind}");
    }
}

/// The bytes that a kind does not use (READINGS 3).
fn unused_bytes(kind: u8) -> &'static [usize] {
    match kind {
        1 | 7 => &[2, 7],
        2 | 5 | 6 => &[6, 7],
        3 | 4 => &[7],
        8..=10 => &[2, 3, 4, 5, 6, 7],
        11 => &[2, 4, 5, 6, 7],
        12..=15 => &[5, 6, 7],
        16 => &[4, 5, 6, 7],
        17 | 18 => &[2, 5, 6, 7],
        19 | 24 => &[1, 4, 5, 6, 7],
        20 => &[2, 3, 4, 5, 6, 7],
        21 => &[1, 6, 7],
        22 => &[2, 3, 6, 7],
        _ => &[1, 2, 3, 4, 5, 6, 7],
    }
}

#[test]
fn misses_set_every_unused_byte() {
    let misses = misses();
    assert_eq!(misses.len(), 26);
    for (kind, misses) in (1..=25).zip(misses) {
        for &at in unused_bytes(kind) {
            let sets_it = |op: &Op| op[0] == kind && op[at] == 1;
            assert!(misses.iter().any(sets_it), "kind {kind}, b{at}");
        }
    }
}

#[test]
fn programs_are_placed_well_or_not() {
    for by in [By::Literal, By::Register] {
        for program in good(by) {
            assert_eq!(answer_of(&encode_all(&program)), 0, "{program:?}");
        }
        for program in bad(by) {
            assert_eq!(answer_of(&encode_all(&program)), 5, "{program:?}");
        }
    }
}

#[test]
fn files_are_wrong_in_what_they_are_said_to_be() {
    let classes = [
        (1, wrong_lengths()),
        (2, wrong_sums()),
        (3, wrong_headers()),
        (4, wrong_operations()),
    ];
    for (expected, files) in classes {
        for input in files {
            let (call, room) = (Call::Load, 33_792);
            assert_eq!(number(&Request { call, room, input }), expected);
        }
    }
    for input in wrong_operation_lengths() {
        let (call, room) = (Call::Write, 33_792);
        assert_eq!(number(&Request { call, room, input }), 1);
    }
}
