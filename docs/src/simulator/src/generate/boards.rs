//! Random cases of the call `combine`: sums at the limits and one off them, every
//! number of boards, mode words good and bad.

use super::pairs::join_case;
use super::random::Random;
use crate::accumulator::{NARROW, WIDE};
use crate::cases::MOST_BYTES;
use crate::combine::{Board, MOST_BOARDS};
use crate::combine_form::{stretches_of, STRETCH};
use crate::long::{Call, Long};
use crate::mode::Mode;

/// The most stretches whose bytes a file can hold: 9 times this is 65,529.
const MOST_STRETCHES: usize = 7_281;

/// A case of these boards; every field that it does not use is 0.
pub fn combine_case(boards: &[Board], mode: u16) -> Long {
    counted_case(stretches_of(boards), boards.len() as u32, mode)
}

/// A case of any bytes as so many stretches.
pub fn counted_case(stretches: Vec<u8>, count: u32, mode: u16) -> Long {
    let mut case = join_case(stretches, Vec::new(), 0);
    case.call = Call::Combine;
    case.start.budget = count;
    case.start.state.mode = Mode(mode);
    case
}

/// A sum: at a limit or one off it, small, of 32 bits, of 40 bits, or beyond them.
pub fn sum(random: &mut Random) -> i64 {
    match random.below(12) {
        0 => 0,
        1 | 2 => random.pick(&[NARROW.0, NARROW.1]) + random.range(-1, 1),
        3 | 4 => random.pick(&[WIDE.0, WIDE.1]),
        5 => random.pick(&[WIDE.0 + 1, WIDE.1 - 1, WIDE.0 / 2, WIDE.1 / 2 + 1]),
        6 => random.range(-3, 3),
        7 | 8 => random.range(NARROW.0, NARROW.1),
        9 => random.range(-1 << 33, 1 << 33),
        _ => random.range(WIDE.0, WIDE.1),
    }
}

/// Just beyond 40 bits, far beyond, at both ends of 64 bits.
fn beyond(random: &mut Random) -> i64 {
    let any = random.range(WIDE.1 + 1, i64::MAX - 1);
    random.pick(&[
        WIDE.1 + 1,
        WIDE.0 - 1,
        1 << 40,
        -1 << 40,
        i64::MAX,
        i64::MIN,
        any,
        -any,
    ])
}

/// Mostly a good word, each of SATA x ACCSAT as often; else a bad bit, US 2 or US 3.
fn mode_word(random: &mut Random) -> u16 {
    let good = random.word() & Mode::GOOD_BITS;
    match random.below(12) {
        0 => good | 1 << random.pick(&[2, 3, 8, 9, 10, 11, 14, 15]),
        1 => good | 0x3000,
        2 => good & !0x1000 | 0x2000,
        3 => random.word(),
        _ => good,
    }
}

/// Mostly two to eight; none, one, nine, and now and then very many.
fn count(random: &mut Random) -> usize {
    match random.below(40) {
        0 => 0,
        1 | 2 => 1,
        3 | 4 => 9,
        5 if random.percent(20) => random.range(10, MOST_STRETCHES as i64) as usize,
        5 => random.range(10, 40) as usize,
        6..=9 => MOST_BOARDS as usize,
        _ => random.range(2, 8) as usize,
    }
}

/// The byte of SA: mostly 0 or 1, else any other that is not 0.
fn flag(random: &mut Random, share: usize) -> u8 {
    match random.percent(share) {
        false => 0,
        true => random.pick(&[1, 1, 2, 0x80, 0xFF]),
    }
}

/// Stretches, now and then with one that is beyond 40 bits.
fn stretches(random: &mut Random, count: usize) -> Vec<u8> {
    let share = random.pick(&[0, 0, 5, 40]);
    let mut sums: Vec<i64> = (0..count).map(|_| sum(random)).collect();
    if count > 0 && random.percent(15) {
        sums[random.below(count)] = beyond(random);
    }
    let bytes = |a: i64| {
        let sa = flag(random, share);
        [&a.to_le_bytes()[..], &[sa]].concat()
    };
    sums.into_iter().flat_map(bytes).collect()
}

/// A whole case, with a second file and words that are read and not used.
pub fn random_combine(random: &mut Random) -> Long {
    let count = count(random);
    let bytes = stretches(random, count);
    let mut case = counted_case(bytes, count as u32, mode_word(random));
    if random.percent(20) {
        case.second = (0..random.below(40)).map(|_| random.word() as u8).collect();
        case.start.memory = (0..random.below(9)).map(|_| random.word()).collect();
    }
    case
}

/// A case with a file of another length than its number of stretches asks for, which
/// prints `short`: a byte or a stretch too many, a byte too few, a number that is 9 times
/// too large or the largest, one whose product is the file's length modulo 2^32.
pub fn cut_combine(random: &mut Random) -> Long {
    let mut case = random_combine(random);
    let length = case.start.file.len();
    let has_room = length + STRETCH <= MOST_BYTES as usize;
    match random.below(6) {
        0 => case.start.file.push(0),
        1 if has_room => case.start.file.extend([0; STRETCH]),
        2 if length > 0 => case.start.file.truncate(length - 1),
        3 => case.start.budget = u32::MAX,
        4 if has_room => wrap(&mut case, random),
        _ => case.start.budget = length as u32 + 1,
    }
    case
}

/// A file of some bytes past whole stretches, and the n of 32 bits with 9 n of this
/// length modulo 2^32: 9 has the inverse 954,437,177.
fn wrap(case: &mut Long, random: &mut Random) {
    let more = random.range(1, STRETCH as i64 - 1) as usize;
    case.start.file.extend(vec![0; more]);
    let length = case.start.file.len() as u32;
    case.start.budget = length.wrapping_mul(954_437_177);
}
