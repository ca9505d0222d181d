//! Wrong next addresses of the bit-reversed register: for which N each differs at some
//! of the 2,046 places, all of which stored lines show, and that every stored round of
//! these N has another line.

mod common;
mod reversal;
use reversal::*;

use simulator::address::bit_reversed_next;
use simulator::cases::{check, Case};

type Next = fn(u16, u16) -> u16;

/// The low bits of a number in reverse order, so many of them.
fn reversed(number: u32, bits: u32) -> u32 {
    (0..bits).fold(0, |all, bit| all << 1 | number >> bit & 1)
}

fn width(n: u16) -> u32 {
    n.trailing_zeros()
}

/// The next address with both reversals over so many bits.
fn by_bits(address: u16, n: u16, bits: u32) -> u16 {
    by(address, n, |j, n| {
        reversed((reversed(j, bits) + 1) % n, bits)
    })
}

/// The next address with another next index.
fn by(address: u16, n: u16, next: impl Fn(u32, u32) -> u32) -> u16 {
    let j = u32::from(address % (2 * n) / 2);
    let k = next(j, u32::from(n));
    address
        .wrapping_add((2 * k) as u16)
        .wrapping_sub((2 * j) as u16)
}

fn ten_bits(address: u16, n: u16) -> u16 {
    by_bits(address, n, 10)
}

fn sixteen_bits(address: u16, n: u16) -> u16 {
    by_bits(address, n, 16)
}

fn ten_bits_there(address: u16, n: u16) -> u16 {
    by(address, n, |j, count| {
        reversed((reversed(j, 10) + 1) % count, width(n))
    })
}

fn ten_bits_back(address: u16, n: u16) -> u16 {
    by(address, n, |j, count| {
        reversed((reversed(j, width(n)) + 1) % count, 10)
    })
}

fn one_bit_more(address: u16, n: u16) -> u16 {
    by_bits(address, n, width(n) + 1)
}

fn one_bit_less(address: u16, n: u16) -> u16 {
    by_bits(address, n, width(n) - 1)
}

fn at_the_last(n: u16, address: u16) -> bool {
    address % (2 * n) == 2 * (n - 1)
}

fn stays_at_the_last(address: u16, n: u16) -> u16 {
    match at_the_last(n, address) {
        true => address,
        false => bit_reversed_next(address, n),
    }
}

fn on_to_the_next_block(address: u16, n: u16) -> u16 {
    match at_the_last(n, address) {
        true => address + 2,
        false => bit_reversed_next(address, n),
    }
}

fn back_to_the_second(address: u16, n: u16) -> u16 {
    match at_the_last(n, address) {
        true => bit_reversed_next(bit_reversed_next(address, n), n),
        false => bit_reversed_next(address, n),
    }
}

fn plain(address: u16, _: u16) -> u16 {
    address + 2
}

fn plain_round_the_block(address: u16, n: u16) -> u16 {
    by(address, n, |j, n| (j + 1) % n)
}

fn one_less(address: u16, n: u16) -> u16 {
    by(address, n, |j, n| {
        reversed((reversed(j, width(n as u16)) + n - 1) % n, width(n as u16))
    })
}

fn the_counter_reversed(address: u16, n: u16) -> u16 {
    by(address, n, |j, n| reversed((j + 1) % n, width(n as u16)))
}

fn half_the_block(address: u16, n: u16) -> u16 {
    let j = address % n / 2;
    let k = turned((turned(j, n) + 1) % n, n);
    address - 2 * j + 2 * k
}

/// Each with the N for which it differs, from the first to the last.
const WRONG: [(&str, Next, u16, u16); 14] = [
    ("ten bits", ten_bits, 2, 512),
    ("sixteen bits", sixteen_bits, 2, 1_024),
    ("ten bits there", ten_bits_there, 2, 512),
    ("ten bits back", ten_bits_back, 2, 512),
    ("one bit more", one_bit_more, 2, 1_024),
    ("one bit less", one_bit_less, 2, 1_024),
    ("stays at the last", stays_at_the_last, 2, 1_024),
    ("on to the next block", on_to_the_next_block, 2, 1_024),
    ("back to the second", back_to_the_second, 2, 1_024),
    ("plain", plain, 2, 1_024),
    // With two words there is one order, either way round.
    ("plain round the block", plain_round_the_block, 4, 1_024),
    ("one less", one_less, 4, 1_024),
    ("the counter reversed", the_counter_reversed, 4, 1_024),
    ("half the block", half_the_block, 2, 1_024),
];

/// The number of indices of N at which the next address differs.
fn differing(next: Next, n: u16) -> usize {
    let own = places().into_iter().filter(|(size, _)| *size == n);
    own.filter(|&(n, address)| next(address, n) != next_by_digits(address, n))
        .count()
}

#[test]
fn the_next_address_is_right_at_all_places() {
    assert!(SIZES.iter().all(|&n| differing(bit_reversed_next, n) == 0));
    assert_eq!(places().len(), 2_046);
}

#[test]
fn each_wrong_one_differs_for_these_n() {
    for (name, next, first, last) in WRONG {
        let counts = SIZES.map(|n| differing(next, n));
        println!("{name}: {counts:?}");
        for (n, count) in SIZES.into_iter().zip(counts) {
            assert_eq!(count > 0, first <= n && n <= last, "{name} {n}");
        }
    }
}

#[test]
fn a_wrong_wrap_differs_at_one_place_of_each_n() {
    for next in [stays_at_the_last, on_to_the_next_block, back_to_the_second] {
        assert_eq!(SIZES.map(|n| differing(next, n)), [1; 10]);
    }
}

/// A sum that is not reduced modulo N is no error where only log2 N bits are reversed:
/// those of N are 0.
#[test]
fn the_sum_need_not_be_reduced() {
    fn unreduced(address: u16, n: u16) -> u16 {
        by(address, n, |j, _| {
            reversed(reversed(j, width(n)) + 1, width(n))
        })
    }
    assert_eq!(SIZES.map(|n| differing(unreduced, n)), [0; 10]);
}

// ---- the lines of the stored rounds

/// Ending, pointer and memory's check of a round with another next address. A has the
/// number of stores, 65,536 times, at the end of the right one.
fn round(case: &Case, stores: u16, next: impl Fn(u16) -> u16) -> (&'static str, u16, u32) {
    let (mut words, mut pointer) = (case.memory.clone(), case.state.w[1]);
    for number in 1..=stores {
        let index = usize::from(pointer.wrapping_sub(0x1000)) / 2;
        if pointer < 0x1000 || index >= words.len() {
            return ("trap2", pointer, check(words.into_iter().map(u32::from)));
        }
        words[index] = number;
        pointer = next(pointer);
    }
    ("done", pointer, check(words.into_iter().map(u32::from)))
}

/// Whether the stored line of a round shows that this next address is another.
fn shows(case: &Case, line: &Line, next: impl Fn(u16) -> u16) -> bool {
    let stores = (line.accumulators[0] / 65_536) as u16;
    (line.ending.as_str(), line.w[1], line.check) != round(case, stores, next)
}

#[test]
fn every_stored_round_shows_each_wrong_one() {
    for (case, line) in stored_part("rounds") {
        let n = case.settings.reversed.words;
        assert!(!shows(&case, &line, |address| next_by_digits(address, n)));
        for (name, next, first, last) in WRONG {
            let is_shown = shows(&case, &line, |address| next(address, n));
            assert_eq!(is_shown, first <= n && n <= last, "{name} {}", line.text);
        }
    }
}

/// A block that begins where the pointer does is shown by the rounds that do not begin
/// at index 0.
#[test]
fn a_block_from_the_start_on_is_shown() {
    for (case, line) in stored_part("rounds") {
        let (n, start) = (case.settings.reversed.words, case.state.w[1]);
        let next = |address: u16| {
            let index = address.wrapping_sub(start) / 2 % n;
            start + 2 * turned((turned(index, n) + 1) % n, n)
        };
        assert_eq!(shows(&case, &line, next), start != 0x1000);
    }
}
