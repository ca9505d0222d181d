//! The parts of crates/cases about the bit-reversed register: every next address by a
//! second way of working out, some worked out by hand.

mod common;
mod reversal;
use common::*;
use reversal::*;
use std::collections::BTreeSet;

use simulator::cases::{check, Case};
use simulator::encode::encode;
use simulator::walk::walk;

/// The operations of a program of one block.
fn operations(case: &Case) -> Vec<Op> {
    let count = usize::from(case.file[2]);
    let bytes = case.file[8..8 + 8 * count].chunks_exact(8);
    bytes.map(|op| op.try_into().unwrap()).collect()
}

/// N and the bit-reversed register.
fn reversed(case: &Case) -> (u16, u8) {
    (
        case.settings.reversed.words,
        case.settings.reversed.register,
    )
}

/// The addresses of the executed stores of form 2 at the register, with their kinds.
fn stores(case: &Case) -> Vec<(u8, u16)> {
    let (_, pointer) = reversed(case);
    let mut all = Vec::new();
    walk(case, |operation, before, _| {
        let op = encode(operation);
        if [14, 15, 18].contains(&op[0]) && (op[3], op[4]) == (pointer, 2) {
            all.push((op[0], before.w[usize::from(pointer)]));
        }
    });
    all
}

// ---- next_addresses

/// What a line shows of so many next addresses: the registers but the pointer in order,
/// B, A, and the last in the pointer.
fn shown(line: &Line, pointer: u8, count: usize) -> Vec<u16> {
    let mut others = line.w.clone();
    let last = others.remove(usize::from(pointer));
    for accumulator in [1, 0] {
        let value = line.accumulators[accumulator];
        if count == 16 {
            assert_eq!(value % 65_536, 0);
        }
        others.push((value / 65_536) as u16);
    }
    others.truncate(count - 1);
    others.push(last);
    others
}

/// The literals to the pointer, each of which a store follows.
fn literals(case: &Case) -> Vec<u16> {
    let (_, pointer) = reversed(case);
    let literals = operations(case).into_iter();
    let own = literals.filter(|op| op[..2] == [16, pointer]);
    own.map(|op| u16::from_le_bytes([op[2], op[3]])).collect()
}

#[test]
fn every_next_address_is_shown_once_and_is_that_of_the_digits() {
    let mut seen = Vec::new();
    for (case, line) in stored_part("next_addresses") {
        let (n, pointer) = reversed(&case);
        let addresses = literals(&case);
        let shown = shown(&line, pointer, addresses.len());
        assert_eq!(line.ending, "done");
        for (&address, next) in addresses.iter().zip(shown) {
            assert_eq!(next, next_by_digits(address, n), "{n} {address:X}");
            seen.push((n, address));
        }
    }
    assert_eq!(seen.len(), 2_046);
    assert_eq!(seen, places());
}

#[test]
fn they_are_by_all_three_kinds_and_by_every_register() {
    let (mut kinds, mut pointers) = ([0; 19], BTreeSet::new());
    for (case, _) in stored_part("next_addresses") {
        let (_, pointer) = reversed(&case);
        let (own, addresses): (Vec<u8>, Vec<u16>) = stores(&case).into_iter().unzip();
        assert_eq!(addresses, literals(&case));
        own.iter().for_each(|&kind| kinds[usize::from(kind)] += 1);
        pointers.insert(pointer);
    }
    assert_eq!(kinds.iter().sum::<u32>(), 2_046);
    assert!([14, 15, 18].iter().all(|&kind: &usize| kinds[kind] >= 600));
    assert_eq!(pointers, (0..14).collect());
}

/// N 16 in one line: 0 to 8, 8 to 4, 4 to 12 and so on, 15 to 0. W3 is the pointer, its
/// next address, from the last index, 1000 hex. Index 13 goes to 3, 14 to 1: 1006 hex is
/// 4,102, times 65,536 268,828,672; 1002 hex is 4,098, 268,566,528.
#[test]
fn sixteen_indices_by_hand() {
    let mut part = stored_part("next_addresses").into_iter();
    let (_, line) = part.find(|(case, _)| reversed(case) == (16, 3)).unwrap();
    let start = "done 60 268566528 268828672 0000 60 0 0020";
    let w = "1010 1012 1014 1000 1016 1018 101A 101C 101E 1008 100A 100C 100E 1004";
    let fields = format!("{start} {NO_LOOPS} {w} ");
    assert!(line.text.starts_with(&fields), "{}", line.text);
}

// ---- rounds

/// The indices in the order of their visits, from index 0, by hand.
const ORDER_2: [u16; 2] = [0, 1];
const ORDER_4: [u16; 4] = [0, 2, 1, 3];
const ORDER_8: [u16; 8] = [0, 4, 2, 6, 1, 5, 3, 7];
const ORDER_16: [u16; 16] = [0, 8, 4, 12, 2, 10, 6, 14, 1, 9, 5, 13, 3, 11, 7, 15];

/// The order for every N by digits.
fn order(n: u16) -> Vec<u16> {
    (0..n).map(|place| turned(place, n)).collect()
}

#[test]
fn the_orders_by_hand_are_those_of_the_digits() {
    assert_eq!(order(2), ORDER_2);
    assert_eq!(order(4), ORDER_4);
    assert_eq!(order(8), ORDER_8);
    assert_eq!(order(16), ORDER_16);
}

/// Each round's stores go through the order from where it begins, round and round; each
/// word has the number of its last visit; the pointer goes on from the last one.
#[test]
fn each_round_goes_through_the_order() {
    for (case, line) in stored_part("rounds") {
        let (n, pointer) = reversed(&case);
        let start = (case.state.w[usize::from(pointer)] - 0x1000) / 2;
        let round = order(n);
        let first = round.iter().position(|&index| index == start).unwrap();
        let mut visits = round.into_iter().cycle().skip(first);
        let made = stores(&case);
        let mut words = vec![0; usize::from(n)];
        for (number, (_, address)) in (1..).zip(&made) {
            let index = visits.next().unwrap();
            assert_eq!(*address, 0x1000 + 2 * index);
            words[usize::from(index)] = number;
        }
        let next = 0x1000 + 2 * visits.next().unwrap();
        assert_eq!((line.ending.as_str(), line.w[1]), ("done", next));
        assert_eq!(line.check, check(words.into_iter()));
        // One round leads back to the start, two and a half do not.
        let halves = 2 * made.len() / usize::from(n);
        assert_eq!(halves, if next == case.state.w[1] { 2 } else { 5 });
    }
}

/// The numbers that a round from this index leaves in N words.
fn left(kind: u8, n: u16, start: u16) -> (Vec<u16>, String) {
    let fits = |(case, _): &(Case, Line)| {
        let is_whole = stores(case).len() == usize::from(n);
        let begins = stores(case)[0] == (kind, 0x1000 + 2 * start);
        reversed(case) == (n, 1) && begins && is_whole
    };
    let mut part = stored_part("rounds").into_iter();
    let (case, line) = part.find(fits).expect("such a round");
    (case.run(case.budget).1, line.text)
}

#[test]
fn small_rounds_by_hand() {
    assert_eq!(left(14, 2, 0).0, [1, 2]);
    assert_eq!(left(15, 2, 1).0, [2, 1]);
    assert_eq!(left(18, 2, 1).0, [2, 1]);
    assert_eq!(left(14, 4, 0).0, [1, 3, 2, 4]);
    // 1, 3, 0, 2.
    assert_eq!(left(15, 4, 1).0, [3, 1, 4, 2]);
    // 3, 0, 2, 1.
    assert_eq!(left(18, 4, 3).0, [2, 4, 3, 1]);
    assert_eq!(left(14, 8, 0).0, [1, 5, 3, 7, 2, 6, 4, 8]);
    // 1, 5, 3, 7, 0, 4, 2, 6.
    assert_eq!(left(15, 8, 1).0, [5, 1, 7, 3, 6, 2, 8, 4]);
    // 7, 0, 4, 2, 6, 1, 5, 3.
    assert_eq!(left(18, 8, 7).0, [2, 6, 4, 8, 3, 7, 5, 1]);
    let places = [1, 9, 5, 13, 3, 11, 7, 15, 2, 10, 6, 14, 4, 12, 8, 16];
    assert_eq!(left(14, 16, 0).0, places);
}

/// DO and eight times ADD and SAC. A is 8 x 65,536. The check goes 1, 36, 1,119, 34,696,
/// 1,075,578, 33,342,924, 1,033,630,648, then 32,042,550,096 less 7 x 2^32.
#[test]
fn a_line_of_eight_words_by_hand() {
    let w = "1002 1000 0003 0005 0001 0000 7BC1 8D0F 1008 1004 1018 1014 0006 100C";
    let line = format!("done 17 524288 0 0000 3 0 0020 {NO_LOOPS} {w} 1977779024");
    assert_eq!(left(14, 8, 0).1, line);
}

/// What the check is said to tell: every exchange of two numbers below 1,025.
#[test]
fn an_exchange_of_two_visits_changes_the_check() {
    let factors = |number: u32| number.trailing_zeros();
    let mut power = 1_u32;
    for distance in 1..1_024_u32 {
        power = power.wrapping_mul(31);
        let said = match distance % 2 {
            1 => 1,
            _ => 5 + factors(distance),
        };
        assert_eq!(factors(power.wrapping_sub(1)), said);
        assert!(said <= 14 && factors(distance) <= 9);
    }
}

// ---- block_ends

/// Ending and pointer of each line, by hand. After index 9 of 16 come 5, 13, 3, 11, 7;
/// after 4 of 8 come 2, 6, 1; after 5 of 8 come 3, 7, 0.
const ENDS: [(&str, &[u16]); 20] = [
    ("spent", &[0x1002, 0x1000]),
    ("done", &[0x1002]),
    ("spent", &[0x1208, 0x1204]),
    ("done", &[0x1200]),
    // N 2 to 1,024 from 1002 hex: index 1 goes to N / 2 + 1, for N 2 to 0.
    ("done", &[0x1000, 0x1006, 0x100A, 0x1012, 0x1022]),
    ("done", &[0x1042, 0x1082, 0x1102, 0x1202, 0x1402]),
    ("spent", &[0x100A, 0x101A, 0x1006, 0x1016]),
    ("done", &[0x100E]),
    ("spent", &[0x1004, 0x100C]),
    ("done", &[0x1002]),
    ("spent", &[0x1016, 0x101E]),
    ("done", &[0x1010]),
    ("spent", &[0x1018]),
    ("trap2", &[0x1018]),
    ("spent", &[0x1400]),
    ("trap2", &[0x1400]),
    ("trap1", &[0x1011]),
    ("trap2", &[0x0FFE]),
    // Index 2 of 8 goes to 6; - 2, + 2, another register; 6 goes to 1.
    ("spent", &[0x100C, 0x100A, 0x100C, 0x100C]),
    ("done", &[0x1002]),
];

#[test]
fn the_ends_by_hand() {
    let (once, thrice) = ENDS.split_at(18);
    let said = once.iter().chain(thrice).chain(thrice).chain(thrice);
    let said = said.flat_map(|(ending, pointers)| pointers.iter().map(move |p| (*ending, *p)));
    let part = stored_part("block_ends");
    let seen = part
        .iter()
        .map(|(_, line)| (line.ending.as_str(), line.w[1]));
    let said: Vec<_> = said.collect();
    assert_eq!(seen.take(part.len() - 1).collect::<Vec<_>>(), said);
}

/// The last line: the top of the largest memory with N 1,024.
#[test]
fn the_top_by_hand() {
    let (case, line) = stored_part("block_ends").pop().unwrap();
    assert_eq!(case.memory.len(), 30_720);
    let said = [
        (0xFFFE, 0xF800),
        (0xF800, 0xFC00),
        (0xFC00, 0xFA00),
        (0xFA00, 0xFE00),
        // 0111111111: turned round 1022, then 1023.
        (0xFBFE, 0xFFFE),
        // 1111111110: 511, then 512.
        (0xFFFC, 0xF802),
        (0xF802, 0xFC02),
        // 1011111111: 1021, then 1022.
        (0xFDFE, 0xFBFE),
        // 1110000000: 7, then 8.
        (0xFF00, 0xF880),
        // 0001111000: 120, then 121, 0001111001.
        (0xF8F0, 0xFCF0),
        (0xF7FE, 0xF000),
        (0xF000, 0xF400),
        (0xF400, 0xF200),
        (0xF002, 0xF402),
        // 1101010010: 299, then 300, 0100101100; turned round 210.
        (0xF6A4, 0xF1A4),
        // 0111111110: 510, then 511.
        (0xFBFC, 0xFFFC),
    ];
    let (addresses, nexts): (Vec<u16>, Vec<u16>) = said.into_iter().unzip();
    assert_eq!(literals(&case), addresses);
    assert_eq!(shown(&line, 1, 16), nexts);
    let digits = |&address: &u16| next_by_digits(address, 1_024);
    assert!(addresses.iter().map(digits).eq(nexts));
}
