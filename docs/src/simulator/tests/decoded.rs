//! Wish 10: the 16 words of an operation, the operation that 16 words are, and the call.

mod common;
use common::*;

use simulator::decode::decode;
use simulator::decoded::operations_of;
use simulator::from_words::from_words;
use simulator::generate::random::Random;
use simulator::sixteen::{sixteen, sixteen_each};
use simulator::{decoded_run, Ending, Outcome};

// ---- the words

/// Words 0 to 15 of some operations, worked out from the paper.
const BY_HAND: [(Op, [u16; 16]); 7] = [
    (
        [3, 1, 0x54, 0x48, 0x6A, 0x76, 2, 0],
        [3, 1, 4, 5, 8, 4, 10, 6, 6, 7, 2, 0x4854, 0x766A, 0, 0, 0],
    ),
    (
        [16, 13, 0xCD, 0xAB, 0, 0, 0, 0],
        [16, 13, 13, 12, 11, 10, 0, 0, 0, 0, 0, 0xABCD, 0, 0, 0, 0],
    ),
    (
        [21, 0, 0xFE, 0x7F, 0xBF, 0x0F, 0, 0],
        [
            21, 0, 14, 15, 15, 7, 15, 11, 15, 0, 0, 0x7FFE, 0x0FBF, 0, 0, 0,
        ],
    ),
    (
        [24, 0, 0xF3, 0x10, 0, 0, 0, 0],
        [24, 0, 3, 15, 0, 1, 0, 0, 0, 0, 0, 0x10F3, 0, 0, 0, 0],
    ),
    (
        [15, 1, 5, 9, 3, 0, 0, 0],
        [15, 1, 5, 0, 9, 0, 3, 0, 0, 0, 0, 0x0905, 3, 0, 0, 0],
    ),
    (
        [7, 0, 0, 0x0C, 0x0D, 0x54, 1, 0],
        [7, 0, 0, 0, 12, 0, 13, 0, 4, 5, 1, 0x0C00, 0x540D, 0, 0, 0],
    ),
    (END_EARLY, [23, 0, 0, 0, 0, 0, 0, 0, 0, 0, 0, 0, 0, 0, 0, 0]),
];

#[test]
fn the_words_by_hand() {
    for (bytes, words) in BY_HAND {
        assert_eq!(sixteen(&bytes), words);
        assert_eq!(decode(&bytes), Some(from_words(&words)));
    }
    let bytes: Vec<u8> = BY_HAND.iter().flat_map(|(bytes, _)| *bytes).collect();
    let words: Vec<u16> = BY_HAND.iter().flat_map(|(_, words)| *words).collect();
    assert_eq!(sixteen_each(&bytes), words);
}

/// For any bytes at all; b7 has no word.
#[test]
fn the_words_of_any_bytes() {
    let mut random = Random::new(10);
    for _ in 0..20_000 {
        let b = random.number().to_le_bytes();
        let words = sixteen(&b);
        assert_eq!(
            [words[0], words[1], words[10]],
            [b[0], b[1], b[6]].map(u16::from)
        );
        for (pair, byte) in words[2..10].chunks(2).zip(&b[2..6]) {
            assert_eq!(u16::from(*byte), pair[0] + 16 * pair[1]);
            assert!(pair[0] < 16);
        }
        assert_eq!(words[11], u16::from(b[2]) + 256 * u16::from(b[3]));
        assert_eq!(words[12], u16::from(b[4]) + 256 * u16::from(b[5]));
        assert_eq!(words[13..], [0, 0, 0]);
        assert_eq!(
            words,
            sixteen(&[b[0], b[1], b[2], b[3], b[4], b[5], b[6], !b[7]])
        );
    }
}

// ---- the operation that the words are

/// b3 or b4: no read, two pointers with seven steps, the sum.
fn reads(pointers: [u8; 2], indexed: u8) -> Vec<u8> {
    let mut all = vec![0, indexed];
    for pointer in pointers {
        all.extend((0..7).map(|c| pointer + 16 * c));
    }
    all
}

/// b3, b4, b5 of kinds 1 to 4 and 7: 1 + 60 + 60 + 15 x 15 x 12 of them.
fn prefetches() -> Vec<[u8; 3]> {
    let mut all = Vec::new();
    for b3 in reads([8, 9], 0x0C) {
        for b4 in reads([10, 11], 0x0D) {
            for (x, y) in (0..8).flat_map(|x| (0..8).map(move |y| (x, y))) {
                let fits = |read: u8, register: u8| {
                    (read == 0 && register == 0) || (read != 0 && register >= 4)
                };
                if fits(b3, x) && fits(b4, y) && (x == 0 || x != y) {
                    all.push([b3, b4, x + 16 * y]);
                }
            }
        }
    }
    assert_eq!(all.len(), 2_821);
    all
}

/// Every operation that is listed of kinds 1 to 4 and 7.
fn multiplies(visit: &mut impl FnMut(Op)) {
    for [b3, b4, b5] in prefetches() {
        for t in 0..2 {
            for b6 in 0..3 {
                visit([1, t, 0, b3, b4, b5, b6, 0]);
                visit([7, t, 0, b3, b4, b5, b6, 0]);
            }
            for b2 in (4..8).flat_map(|m| (4..8).map(move |n| m + 16 * n)) {
                visit([2, t, b2, b3, b4, b5, 0, 0]);
                for b6 in 0..3 {
                    visit([3, t, b2, b3, b4, b5, b6, 0]);
                    visit([4, t, b2, b3, b4, b5, b6, 0]);
                }
            }
        }
    }
}

/// Those of kinds 5 and 6.
fn squares(visit: &mut impl FnMut(Op)) {
    let (x, y) = (reads([8, 9], 0x0C), reads([10, 11], 0x0D));
    for (b3, b4) in x[1..]
        .iter()
        .flat_map(|b3| y[1..].iter().map(move |b4| (b3, b4)))
    {
        for (m, b5) in (4..8).flat_map(|m| (4..8).map(move |b5| (m, b5))) {
            for (kind, t) in [(5, 0), (5, 1), (6, 0), (6, 1)] {
                visit([kind, t, 17 * m, *b3, *b4, b5, 0, 0]);
            }
        }
    }
}

/// Those of kinds 8 to 15, 17, 18, 20, 23 to 25.
fn others(visit: &mut impl FnMut(Op)) {
    for t in 0..2 {
        (8..11).for_each(|kind| visit([kind, t, 0, 0, 0, 0, 0, 0]));
        (0..14).for_each(|register| visit(shift_by(t, register)));
        for (shift, register) in (-8..8).flat_map(|s| (0..14).map(move |r| (s, r))) {
            for form in 0..4 {
                visit(lac(t, shift, register, form));
                visit(add(t, shift, register, form));
                visit(sac(t, shift, register, form));
                visit(sac_r(t, shift, register, form));
            }
        }
    }
    for (register, pointer) in (0..14).flat_map(|r| (0..14).map(move |p| (r, p))) {
        (1..4).for_each(|form| visit(load(register, pointer, form)));
        (1..4).for_each(|form| visit(store(register, pointer, form)));
    }
    (0..14).for_each(|register| visit(repeat_w(register)));
    let bits = [0, 1, 4, 5, 6, 7, 12];
    for number in 0..128u16 {
        let set = |word, (i, bit): (usize, &u16)| word | (number >> i & 1) << bit;
        visit(mode(bits.iter().enumerate().fold(0, set)));
    }
    visit(END_EARLY);
    visit(CLEAR_S);
}

/// Those of kinds 16, 19, 21, 22; of kind 21 every count with a few lasts, every last with
/// a few counts.
fn numbers(visit: &mut impl FnMut(Op)) {
    const SOME: [u16; 5] = [0, 1, 0x00FF, 0x0FBF, 0x7FFF];
    for word in 0..=u16::MAX {
        (0..14).for_each(|register| visit(lit(register, word)));
        (0..14).for_each(|register| visit(do_w(register, word)));
        SOME.into_iter()
            .for_each(|count| visit(do_lit(count, word)));
        if word < 0x8000 {
            visit(repeat(word));
            SOME.into_iter().for_each(|last| visit(do_lit(word, last)));
        }
    }
}

#[test]
fn the_words_give_back_every_listed_operation() {
    let mut seen = [0usize; 26];
    let mut visit = |bytes: Op| {
        let operation = decode(&bytes).unwrap_or_else(|| panic!("{bytes:?} is not listed"));
        assert_eq!(from_words(&sixteen(&bytes)), operation);
        seen[usize::from(bytes[0])] += 1;
    };
    multiplies(&mut visit);
    squares(&mut visit);
    others(&mut visit);
    numbers(&mut visit);
    assert_eq!(
        seen[1..8],
        [16_926, 90_272, 270_816, 270_816, 7_200, 7_200, 16_926]
    );
    assert_eq!(seen[8..16], [2, 2, 2, 28, 1_792, 1_792, 1_792, 1_792]);
    assert_eq!(seen[16..21], [917_504, 588, 588, 32_768, 14]);
    assert_eq!(seen[21..], [491_520, 917_504, 1, 128, 1]);
}

/// Whatever decode accepts among bytes at random is read back too.
#[test]
fn the_words_give_back_what_is_accepted() {
    let mut random = Random::new(11);
    let mut good = 0;
    for _ in 0..1_000_000 {
        let mut bytes = random.number().to_le_bytes();
        bytes[0] %= 27;
        for byte in &mut bytes[1..] {
            *byte = match random.below(4) {
                0 | 1 => 0,
                2 => *byte & 15,
                _ => *byte,
            };
        }
        if let Some(operation) = decode(&bytes) {
            assert_eq!(from_words(&sixteen(&bytes)), operation);
            good += 1;
        }
    }
    assert!(good > 5_000, "{good}");
}

// ---- the call

/// The decoded run of these operations from a bench with this slice.
fn decoded(bench: &mut Bench, ops: &[Op], slice: &mut [u16]) -> Outcome {
    decoded_run(
        &file_of(ops),
        &bench.settings,
        &bench.state,
        &mut bench.memory,
        bench.budget,
        slice,
    )
}

const EXAMPLE: [Op; 3] = [
    [16, 4, 3, 0, 0, 0, 0, 0],
    [16, 5, 0xFE, 0xFF, 0, 0, 0, 0],
    [2, 0, 0x54, 0, 0, 0, 0, 0],
];

/// Document 01's example, with two words of the slice past its operations.
#[test]
fn the_example_decoded() {
    let mut slice = [7; 50];
    let outcome = decoded(&mut Bench::new(), &EXAMPLE, &mut slice);
    assert_eq!((outcome.ending, outcome.steps), (Ending::Done, 3));
    assert_eq!(outcome.state.accumulators, [-12, 0]);
    let words = [
        [16, 4, 3, 0, 0, 0, 0, 0, 0, 0, 0, 3, 0, 0, 0, 0],
        [16, 5, 14, 15, 15, 15, 0, 0, 0, 0, 0, 0xFFFE, 0, 0, 0, 0],
        [2, 0, 4, 5, 0, 0, 0, 0, 0, 0, 0, 0x54, 0, 0, 0, 0],
    ];
    assert_eq!(slice[..48], words.concat());
    assert_eq!(slice[48..], [7, 7]);
    let operations = EXAMPLE.map(|bytes| decode(&bytes).unwrap());
    assert_eq!(operations_of(&slice[..48]), operations);
}

/// Whatever the ending is, the slice holds the whole program.
#[test]
fn all_operations_are_decoded_before_the_first_step() {
    let trap = [load(4, 0, 1), lit(1, 2), mode(0x10F3)];
    let bench = || Bench::new().w(0, 0x1001);
    for mut bench in [bench(), bench().budget(0), bench().pc(3)] {
        let mut slice = [9; 48];
        let outcome = decoded(&mut bench, &trap, &mut slice);
        assert_eq!(outcome.steps, 0);
        assert_eq!(slice.to_vec(), sixteen_each(&trap.concat()));
    }
}

/// The number is given, and slice, memory and state are as they came.
fn refused(mut bench: Bench, ops: &[Op], words: usize, number: u8) {
    let pattern: Vec<u16> = (0..words as u16).map(|i| 1_000 + i).collect();
    let (mut slice, memory, state) = (pattern.clone(), bench.memory.clone(), bench.state);
    let outcome = decoded(&mut bench, ops, &mut slice);
    assert_eq!(outcome, Outcome::refused(number, &state), "{words} words");
    assert_eq!((slice, bench.memory), (pattern, memory));
}

/// The lower number counts whatever the slice is; 8 comes last.
#[test]
fn refusals_in_order() {
    let ops = [store(4, 0, 2), lit(4, 5), IDLE];
    let bench = || Bench::new().w(0, 0x1000).w(4, 77);
    for words in [0, 1, 16, 24, 32, 47] {
        refused(bench(), &ops, words, 8);
        refused(bench().budget(0), &ops, words, 8);
        refused(bench().pc(3), &ops, words, 8);
    }
    for words in [0, 47, 48, 60] {
        refused(bench(), &[], words, 1);
        refused(
            bench(),
            &[ops[0], [26, 0, 0, 0, 0, 0, 0, 0], IDLE],
            words,
            4,
        );
        refused(bench(), &[ops[0], ops[1], repeat(3)], words, 5);
        refused(bench().traps(1), &ops, words, 6);
        refused(bench().traps(1).mode(4), &ops, words, 6);
        refused(bench().mode(4), &ops, words, 7);
        refused(bench().pc(4), &ops, words, 7);
    }
    let mut accepted = bench();
    let outcome = decoded(&mut accepted, &ops, &mut [0; 48]);
    assert_eq!((outcome.ending, outcome.steps), (Ending::Done, 3));
    assert_eq!(accepted.memory[0], 77);
}

/// Refusals 2 and 3 of a file.
#[test]
fn damaged_files_are_refused_first() {
    let bench = Bench::new();
    for (at, byte, number) in [(8, 15, 2), (6, 1, 3)] {
        let mut file = file_of(&[IDLE, IDLE]);
        file[at] = byte;
        if number == 3 {
            set_sum(&mut file);
        }
        for words in [0, 31, 32, 64] {
            let (mut slice, mut memory) = (vec![5; words], bench.memory.clone());
            let outcome = decoded_run(
                &file,
                &bench.settings,
                &bench.state,
                &mut memory,
                9,
                &mut slice,
            );
            assert_eq!(outcome, Outcome::refused(number, &bench.state));
            assert!(slice.iter().all(|&word| word == 5));
        }
    }
}
