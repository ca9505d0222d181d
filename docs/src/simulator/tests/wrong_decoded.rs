//! Wrong decoded runs: that stored cases tell each from the right one, and in which parts.

mod common;
use common::*;
use std::collections::BTreeSet;

use simulator::cases::{lent, Case};
use simulator::engine::{accept_file, run_operations};
use simulator::form::Form;
use simulator::from_words::from_words;
use simulator::generate::runs::parts;
use simulator::long::{decoded_line, long_line, Call, Long};
use simulator::mode::Mode;
use simulator::operation::{Change, Operation, Target};
use simulator::sixteen::sixteen;
use simulator::walk::walk;
use simulator::{Ending, Outcome};

/// What a decoded run leaves: its outcome, memory, slice.
type Left = (Outcome, Vec<u16>, Vec<u16>);
type Words = [u16; 16];

// ---- ways to be wrong

/// The operations as bytes and decoded, or the number of 1 to 7.
fn accepted(case: &Long) -> Result<(Vec<Op>, Vec<Operation>), u8> {
    let Case {
        file,
        settings,
        state,
        memory,
        ..
    } = &case.start;
    let (bytes, operations) = accept_file(file, settings, state, memory.len())?;
    let eight = bytes.chunks(8).map(|b| b.try_into().unwrap());
    Ok((eight.collect(), operations))
}

fn slice_of(case: &Long) -> Vec<u16> {
    lent(case.words).map(u16::from).collect()
}

fn refused(case: &Long, number: u8, slice: Vec<u16>) -> Left {
    let outcome = Outcome::refused(number, &case.start.state);
    (outcome, case.start.memory.clone(), slice)
}

/// As much of the words as fits, from the slice's first word on.
fn filled(case: &Long, words: &[u16]) -> Vec<u16> {
    let mut slice = slice_of(case);
    slice
        .iter_mut()
        .zip(words)
        .for_each(|(to, from)| *to = *from);
    slice
}

fn words_of(bytes: &[Op]) -> Vec<u16> {
    bytes.iter().flat_map(sixteen).collect()
}

/// The right run with other words in the slice: stepping from the file, words as a copy.
fn copied(case: &Long, words: impl Fn(&[Op], &[u16]) -> Vec<u16>) -> Left {
    let (outcome, memory, slice) = case.run_decoded();
    match (outcome.ending, accepted(case)) {
        (Ending::Refused(_), _) | (_, Err(_)) => (outcome, memory, slice),
        (_, Ok((bytes, _))) => {
            let words = words(&bytes, &slice_of(case));
            (outcome, memory, filled(case, &words))
        }
    }
}

/// Other 16 words for each operation.
fn each(case: &Long, other: impl Fn(&Op, Words) -> Words) -> Left {
    copied(case, |bytes, _| {
        bytes.iter().flat_map(|b| other(b, sixteen(b))).collect()
    })
}

/// Another length that is asked for.
fn needing(case: &Long, needed: impl Fn(usize) -> usize) -> Left {
    match accepted(case) {
        Err(number) => refused(case, number, slice_of(case)),
        Ok((bytes, _)) if needed(bytes.len()) > case.words as usize => {
            refused(case, 8, slice_of(case))
        }
        Ok((bytes, _)) => {
            let (outcome, memory) = case.start.run(case.start.budget);
            (outcome, memory, filled(case, &words_of(&bytes)))
        }
    }
}

/// The words of a file that none of 1 to 5 is given for.
fn loaded(case: &Long) -> Option<Vec<u16>> {
    let (bytes, _) = simulator::file::check_file(&case.start.file).ok()?;
    let eight: Vec<Op> = bytes.chunks(8).map(|b| b.try_into().unwrap()).collect();
    Some(words_of(&eight))
}

/// 8 before these numbers, where the operations are known.
fn eight_before(case: &Long, numbers: &[u8]) -> Left {
    let left = case.run_decoded();
    let is_short = loaded(case).is_some_and(|words| words.len() > case.words as usize);
    match left.0.ending {
        Ending::Refused(number) if is_short && numbers.contains(&number) => {
            refused(case, 8, slice_of(case))
        }
        _ => left,
    }
}

/// The slice filled before this number is found.
fn filled_before(case: &Long, number: u8) -> Left {
    let (outcome, memory, slice) = case.run_decoded();
    match loaded(case) {
        Some(words) if outcome.ending == Ending::Refused(number) => {
            (outcome, memory, filled(case, &words))
        }
        _ => (outcome, memory, slice),
    }
}

/// Another operation for the 16 words.
fn read_as(case: &Long, other: impl Fn(&Words) -> Operation) -> Left {
    let (outcome, memory, slice) = case.run_decoded();
    if matches!(outcome.ending, Ending::Refused(_)) {
        return (outcome, memory, slice);
    }
    let Case {
        settings,
        state,
        budget,
        ..
    } = &case.start;
    let (bytes, _) = accepted(case).unwrap();
    let operations: Vec<Operation> = bytes.iter().map(|b| other(&sixteen(b))).collect();
    let mut memory = case.start.memory.clone();
    let outcome = run_operations(&operations, settings, state, &mut memory, *budget);
    (outcome, memory, slice)
}

// ---- wrong slices

/// Only what is reached is decoded.
fn lazy(case: &Long) -> Left {
    let mut reached: BTreeSet<usize> = BTreeSet::new();
    let outcome = walk(&case.start, |_, before, _| {
        reached.insert(usize::from(before.flow.pc));
    });
    reached.insert(usize::from(outcome.state.flow.pc));
    copied(case, |bytes, slice| {
        let mut words = slice.to_vec();
        for (number, b) in bytes
            .iter()
            .enumerate()
            .filter(|(number, _)| reached.contains(number))
        {
            words[16 * number..16 * number + 16].copy_from_slice(&sixteen(b));
        }
        words
    })
}

/// Nothing is decoded where no step is made.
fn not_without_steps(case: &Long) -> Left {
    let left = case.run_decoded();
    match left.0.steps {
        0 => (left.0, left.1, slice_of(case)),
        _ => left,
    }
}

fn last_three_left(case: &Long) -> Left {
    copied(case, |bytes, slice| {
        let mut words = words_of(bytes);
        for at in (0..words.len()).filter(|at| at % 16 > 12) {
            words[at] = slice[at];
        }
        words
    })
}

fn nibbles_swapped(case: &Long) -> Left {
    each(case, |_, w| {
        [
            w[0], w[1], w[3], w[2], w[5], w[4], w[7], w[6], w[9], w[8], w[10], w[11], w[12], 0, 0,
            0,
        ]
    })
}

fn nibbles_of_nibble_kinds_alone(case: &Long) -> Left {
    each(case, |b, mut w| {
        if b[0] > 7 {
            w[2..10].fill(0);
        }
        w
    })
}

fn numbers_of_number_kinds_alone(case: &Long) -> Left {
    each(case, |b, mut w| {
        if !matches!(b[0], 16 | 19 | 21 | 22 | 24) {
            w[11..13].fill(0);
        }
        w
    })
}

fn numbers_high_byte_first(case: &Long) -> Left {
    each(case, |_, mut w| {
        w[11..13]
            .iter_mut()
            .for_each(|word| *word = word.swap_bytes());
        w
    })
}

fn bytes_for_nibbles(case: &Long) -> Left {
    each(case, |b, mut w| {
        for at in 2..6 {
            w[2 * at - 2] = u16::from(b[at]);
        }
        w
    })
}

fn b6_missing(case: &Long) -> Left {
    each(case, |_, mut w| {
        w[10] = 0;
        w
    })
}

fn words_past_cleared(case: &Long) -> Left {
    copied(case, |bytes, slice| {
        let mut words = words_of(bytes);
        words.resize(slice.len().max(words.len()), 0);
        words
    })
}

fn a_full_block_cleared(case: &Long) -> Left {
    copied(case, |bytes, _| {
        let mut words = words_of(bytes);
        words.resize(16 * 63 * bytes.len().div_ceil(63), 0);
        words
    })
}

fn blocks_begun_anew(case: &Long) -> Left {
    copied(case, |bytes, slice| {
        let mut words = slice.to_vec();
        for (number, b) in bytes.iter().enumerate() {
            let at = 16 * (number + number / 63);
            let to = words.iter_mut().skip(at);
            to.zip(sixteen(b)).for_each(|(to, word)| *to = word);
        }
        words
    })
}

// ---- wrong refusals

fn one_word_short(case: &Long) -> Left {
    needing(case, |count| 16 * count - 1)
}

fn whole_blocks_needed(case: &Long) -> Left {
    needing(case, |count| 16 * 63 * count.div_ceil(63))
}

fn one_word_more(case: &Long) -> Left {
    needing(case, |count| 16 * count + 1)
}

fn bytes_for_words(case: &Long) -> Left {
    needing(case, |count| 8 * count)
}

fn never_8(case: &Long) -> Left {
    needing(case, |_| 0)
}

fn eight_before_7(case: &Long) -> Left {
    eight_before(case, &[7])
}

fn eight_before_6(case: &Long) -> Left {
    eight_before(case, &[6])
}

/// The length is asked for by what the blocks say, before anything is judged.
fn eight_first(case: &Long) -> Left {
    let said = case
        .start
        .file
        .chunks(512)
        .map(|block| block.get(2).map_or(0, |&n| usize::from(n)));
    match 16 * said.sum::<usize>() > case.words as usize {
        true => refused(case, 8, slice_of(case)),
        false => case.run_decoded(),
    }
}

/// 8 is not looked for where nothing is stepped.
fn eight_for_steps_alone(case: &Long) -> Left {
    let (outcome, memory) = case.start.run(case.start.budget);
    match case.run_decoded() {
        (right, _, slice) if right.ending == Ending::Refused(8) && outcome.steps == 0 => {
            (outcome, memory, slice)
        }
        left => left,
    }
}

/// The run is made, and then 8 is given.
fn eight_after_the_run(case: &Long) -> Left {
    let (outcome, memory, slice) = case.run_decoded();
    if outcome.ending != Ending::Refused(8) {
        return (outcome, memory, slice);
    }
    let (_, memory) = case.start.run(case.start.budget);
    (outcome, memory, slice)
}

fn eight_after_filling(case: &Long) -> Left {
    filled_before(case, 8)
}

fn filled_before_6(case: &Long) -> Left {
    filled_before(case, 6)
}

fn filled_before_7(case: &Long) -> Left {
    filled_before(case, 7)
}

/// Operations are written as they are read, up to the one that is refused with 4.
fn filled_up_to_4(case: &Long) -> Left {
    let (outcome, memory, slice) = case.run_decoded();
    if outcome.ending != Ending::Refused(4) {
        return (outcome, memory, slice);
    }
    let held = case
        .start
        .file
        .chunks(512)
        .flat_map(|block| block[8..].chunks(8));
    let eight = held.map(|b| b.try_into().unwrap());
    let good: Vec<Op> = eight
        .take_while(|b| simulator::decode::decode(b).is_some())
        .collect();
    (outcome, memory, filled(case, &words_of(&good)))
}

/// Operations are written before 5 is looked for.
fn filled_before_5(case: &Long) -> Left {
    let (outcome, memory, slice) = case.run_decoded();
    if outcome.ending != Ending::Refused(5) {
        return (outcome, memory, slice);
    }
    let held = case
        .start
        .file
        .chunks(512)
        .flat_map(|block| block[8..8 + 8 * usize::from(block[2])].chunks(8));
    let eight: Vec<Op> = held.map(|b| b.try_into().unwrap()).collect();
    (outcome, memory, filled(case, &words_of(&eight)))
}

// ---- wrong readings

fn literals_of_one_byte(case: &Long) -> Left {
    read_as(case, |w| match from_words(w) {
        Operation::Literal(register, _) => Operation::Literal(register, w[2] + 16 * w[3]),
        right => right,
    })
}

fn lasts_of_one_byte(case: &Long) -> Left {
    read_as(case, |w| match from_words(w) {
        Operation::DoLiteral { count, .. } => Operation::DoLiteral {
            count,
            last: w[6] + 16 * w[7],
        },
        right => right,
    })
}

fn counts_of_three_nibbles(case: &Long) -> Left {
    read_as(case, |w| match from_words(w) {
        Operation::RepeatLiteral(_) => Operation::RepeatLiteral(w[2] + 16 * w[3] + 256 * w[4]),
        right => right,
    })
}

fn mode_without_its_high_byte(case: &Long) -> Left {
    read_as(case, |w| match from_words(w) {
        Operation::SetMode(_) => Operation::SetMode(Mode(w[2] + 16 * w[3])),
        right => right,
    })
}

fn destinations_swapped(case: &Long) -> Left {
    read_as(case, |w| {
        let mut other = *w;
        if matches!(w[0], 1..=4 | 7) && w[8] != 0 && w[9] != 0 {
            other.swap(8, 9);
        }
        from_words(&other)
    })
}

fn no_write_back(case: &Long) -> Left {
    read_as(case, |w| {
        let mut other = *w;
        other[10] = 0;
        from_words(&other)
    })
}

fn down_for_stay(case: &Long) -> Left {
    read_as(case, |w| match from_words(w) {
        Operation::Load {
            to,
            pointer,
            change: Change::Stay,
        } => Operation::Load {
            to,
            pointer,
            change: Change::Down,
        },
        right => right,
    })
}

fn always_a(case: &Long) -> Left {
    read_as(case, |w| match from_words(w) {
        Operation::Negate(_) => Operation::Negate(Target::A),
        right => right,
    })
}

/// The mode word of the start throughout, as where products are decoded for it.
fn the_first_mode_kept(case: &Long) -> Left {
    let mode = case.start.state.mode;
    read_as(case, |w| match from_words(w) {
        Operation::SetMode(_) => Operation::SetMode(mode),
        right => right,
    })
}

// ---- what tells them

type Wrong = (&'static str, fn(&Long) -> Left, &'static str);

/// Each with a part that tells it.
const WRONG: [Wrong; 36] = [
    ("lazy", lazy, "slices"),
    ("not without steps", not_without_steps, "slices"),
    ("words 13 to 15 left", last_three_left, "slices"),
    ("nibbles swapped", nibbles_swapped, "decoded_kinds"),
    (
        "nibbles of kinds 1 to 7 alone",
        nibbles_of_nibble_kinds_alone,
        "decoded_kinds",
    ),
    (
        "numbers of number kinds alone",
        numbers_of_number_kinds_alone,
        "decoded_kinds",
    ),
    (
        "numbers high byte first",
        numbers_high_byte_first,
        "decoded_kinds",
    ),
    ("bytes for nibbles", bytes_for_nibbles, "decoded_kinds"),
    ("b6 missing", b6_missing, "decoded_kinds"),
    ("words past cleared", words_past_cleared, "slices"),
    ("a full block cleared", a_full_block_cleared, "slices"),
    ("blocks begun anew", blocks_begun_anew, "slices"),
    ("one word short is taken", one_word_short, "slices"),
    ("whole blocks needed", whole_blocks_needed, "slices"),
    ("one word more needed", one_word_more, "slices"),
    ("bytes for words", bytes_for_words, "slices"),
    ("never 8", never_8, "slices"),
    ("8 before 7", eight_before_7, "decoded_refused"),
    ("8 before 6", eight_before_6, "decoded_refused"),
    ("8 first", eight_first, "decoded_refused"),
    ("8 for steps alone", eight_for_steps_alone, "slices"),
    ("8 after the run", eight_after_the_run, "decoded_refused"),
    ("8 after filling", eight_after_filling, "slices"),
    ("filled before 6", filled_before_6, "decoded_refused"),
    ("filled before 7", filled_before_7, "decoded_refused"),
    ("filled up to 4", filled_up_to_4, "decoded_refused"),
    ("filled before 5", filled_before_5, "decoded_refused"),
    (
        "literals of one byte",
        literals_of_one_byte,
        "decoded_kinds",
    ),
    ("lasts of one byte", lasts_of_one_byte, "decoded_kinds"),
    (
        "counts of three nibbles",
        counts_of_three_nibbles,
        "decoded_kinds",
    ),
    (
        "mode without its high byte",
        mode_without_its_high_byte,
        "decoded_modes",
    ),
    (
        "destinations swapped",
        destinations_swapped,
        "decoded_kinds",
    ),
    ("no write-back", no_write_back, "decoded_endings"),
    ("down for stay", down_for_stay, "decoded_kinds"),
    ("always A", always_a, "decoded_kinds"),
    ("the first mode kept", the_first_mode_kept, "decoded_modes"),
];

/// The stored decoded runs with their part and the right line.
fn stored() -> Vec<(&'static str, Long, String)> {
    let mut all = Vec::new();
    for (name, forms) in parts() {
        for form in forms {
            match form {
                Form::Long(long) if long.call == Call::Decoded => {
                    let line = long_line(&long);
                    all.push((name, long, line));
                }
                _ => {}
            }
        }
    }
    all
}

#[test]
fn stored_cases_tell_each_wrong_run() {
    let stored = stored();
    for (name, wrong, part) in WRONG {
        let tells = |(_, case, line): &&(&str, Long, String)| {
            let (outcome, memory, slice) = wrong(case);
            decoded_line(&outcome, &memory, &slice) != *line
        };
        let telling: Vec<&str> = stored
            .iter()
            .filter(tells)
            .map(|(part, ..)| *part)
            .collect();
        println!("{name}: {} of {}", telling.len(), stored.len());
        assert!(telling.contains(&part), "{name}");
    }
}

/// The ways above give the right line where nothing is wrong.
#[test]
fn the_right_ones_are_told_from_none() {
    let right: [fn(&Long) -> Left; 4] = [
        |case| each(case, |_, words| words),
        |case| needing(case, |count| 16 * count),
        |case| read_as(case, from_words),
        |case| eight_before(case, &[]),
    ];
    for (_, case, line) in stored() {
        for run in right {
            let (outcome, memory, slice) = run(&case);
            assert_eq!(decoded_line(&outcome, &memory, &slice), line);
        }
    }
}
