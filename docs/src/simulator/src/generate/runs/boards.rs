//! Boards combined: every number of them, files of another length, sums at the limits,
//! refusals alone and together, mode words, flags, and dot products whose boards are run
//! before.

use super::build::{add, Program};
use crate::accumulator::{NARROW, WIDE};
use crate::cases::Case;
use crate::combine::Board;
use crate::ending::Ending;
use crate::form::Form;
use crate::generate::bench::Bench;
use crate::generate::boards::{combine_case, counted_case};
use crate::generate::dot_product::dot_product;
use crate::generate::long_sums::{cutting, pairs_of, Size};
use crate::generate::ops::{mac, multiply_and_read};
use crate::generate::random::Random;
use crate::mode::Mode;
use crate::stretches::{watch, Sum, Words};

/// SATA off and on, with ACCSAT 0 and 1; SATDW as after reset.
const MODES: [u16; 4] = [0x0020, 0x0030, 0x00A0, 0x00B0];
/// A bad mode word: US 3.
const BAD_MODE: u16 = 0x3020;

pub fn cases() -> Vec<Form> {
    let mut all = counts();
    all.extend(other_lengths());
    all.extend(at_40_bits());
    all.extend(two_refusals());
    all.extend(bad_modes());
    all.extend(good_modes());
    all.extend(at_the_limits());
    all.extend(one_saturation());
    all.extend(flags_of_boards());
    all.extend(overflows());
    all.extend(read_over());
    all.extend(dot_products());
    all
}

fn clear(sums: &[i64]) -> Vec<Board> {
    sums.iter().map(|&a| Board { a, sa: false }).collect()
}

/// Boards with clear SA under a mode word.
fn sums(sums: &[i64], mode: u16) -> Form {
    Form::Long(combine_case(&clear(sums), mode))
}

/// None to ten boards, forty, 258 (2 in eight bits), and the most that a file can hold.
fn counts() -> Vec<Form> {
    let of = |count: i64| sums(&(1..=count).map(|i| 1_000 * i).collect::<Vec<_>>(), 0x0020);
    let mut all: Vec<Form> = (0..=10).chain([40, 258]).map(of).collect();
    all.push(Form::Long(counted_case(vec![0; 65_529], 7_281, 0x0020)));
    all
}

/// Files of another length than 9 n, the last two of no bytes, with a second file and
/// words to read over; boards that are combined after each.
fn other_lengths() -> Vec<Form> {
    let numbers = [(26, 3), (28, 3), (0, 1), (0, u32::MAX)];
    let mut all = Vec::new();
    for (i, (length, count)) in (1..).zip(numbers) {
        let mut case = counted_case(vec![i; length], count, 0x0020);
        case.second = vec![0xA5; usize::from(i)];
        case.start.memory = vec![0x5A5A; usize::from(i)];
        all.extend([Form::Long(case), sums(&[i64::from(i), -10], 0x0020)]);
    }
    all
}

/// An A at the ends of 40 bits and beyond, in every place of two, three and eight.
fn at_40_bits() -> Vec<Form> {
    let numbers = [
        WIDE.1,
        WIDE.1 + 1,
        WIDE.0,
        WIDE.0 - 1,
        1 << 40,
        -1 << 40,
        i64::MAX,
        i64::MIN,
    ];
    let mut all = Vec::new();
    for number in numbers {
        for (count, place) in [(2, 0), (2, 1), (3, 0), (3, 1), (3, 2), (8, 0), (8, 7)] {
            let mut boards = vec![0; count];
            boards[place] = number;
            all.push(sums(&boards, 0x0020));
        }
    }
    // Eight at either end.
    all.extend([WIDE.0, WIDE.1].map(|number| sums(&[number; 8], 0x00B0)));
    all
}

/// 13 with 14, 13 with 7, all three, 14 with 7, and each alone.
fn two_refusals() -> Vec<Form> {
    let beyond = WIDE.1 + 1;
    let mut all = Vec::new();
    for mode in [0x0020, BAD_MODE] {
        for count in [0, 1, 2, 8, 9] {
            all.push(sums(&vec![5; count], mode));
            if count > 0 {
                let mut boards = vec![5; count];
                boards[count - 1] = beyond;
                all.push(sums(&boards, mode));
                all.push(sums(&vec![-beyond - 1; count], mode));
            }
        }
    }
    all
}

/// Each bad bit alone and with others, US 2 and 3.
fn bad_modes() -> Vec<Form> {
    let bits = [2, 3, 8, 9, 10, 11, 13, 14, 15].map(|bit| 1 << bit);
    let words = bits.map(|bit: u16| bit | 0x0020);
    let others = [0x2000, 0x3000, 0x30F3, 0xFFFF, 0x20F3];
    let of = |word: u16| sums(&[7, 8, 9], word);
    words.into_iter().chain(others).map(of).collect()
}

/// Every good mode word, with a sum that leaves 32 bits and comes back.
fn good_modes() -> Vec<Form> {
    let good = (0..=Mode::GOOD_BITS).filter(|&word| Mode(word).is_good());
    good.map(|word| sums(&[NARROW.1, 1, -1], word)).collect()
}

/// Sums about both limits: reached, left by one, left and come back, left by the first
/// sum of all, left twice, wrapped round.
fn at_the_limits() -> Vec<Form> {
    let (low, high) = NARROW;
    let (lowest, highest) = WIDE;
    let lists: [&[i64]; 26] = [
        // The two sums that tell a total limited once and a start from A of the first.
        &[high, 1, -1],
        &[high + 1, -1],
        &[low - 1, 1],
        &[low, -1, 1],
        &[high, 0],
        &[high, 1],
        &[low, 0],
        &[low, -1],
        &[high - 1, 1],
        &[low + 1, -1],
        &[0, high + 1],
        &[0, low - 1],
        &[highest, 0],
        &[highest, 1],
        &[lowest, 0],
        &[lowest, -1],
        &[highest, 1, -1],
        &[lowest, -1, 1],
        &[highest, highest],
        &[lowest, lowest],
        &[highest, highest, lowest, lowest],
        &[highest; 8],
        &[lowest; 8],
        &[high, high, high, low, low, low],
        &[highest, lowest, 1],
        &[1 << 38, 1 << 38, -1 << 38],
    ];
    let under = |mode| lists.map(|list| sums(list, mode));
    MODES.into_iter().flat_map(under).collect()
}

/// One accumulator's saturation on: SATB's is not A's.
fn one_saturation() -> Vec<Form> {
    let lists: [&[i64]; 4] = [
        &[NARROW.1, 1, -1],
        &[NARROW.0, -1],
        &[WIDE.1, 1],
        &[WIDE.0, -1, 1],
    ];
    let words = [0x0060, 0x0070, 0x00E0, 0x00F0, 0x0080, 0x0040];
    let under = |mode| lists.map(|list| sums(list, mode));
    words.into_iter().flat_map(under).collect()
}

/// SA set on one board of each number, by every byte but 0; on all; with a sum that is
/// right and with one that leaves.
fn flags_of_boards() -> Vec<Form> {
    let mut all = Vec::new();
    for count in 2..=8 {
        for place in 0..count {
            let mut boards = clear(&vec![100; count]);
            boards[place].sa = true;
            all.push(Form::Long(combine_case(&boards, MODES[place % 4])));
        }
    }
    for byte in [1, 2, 0x10, 0x80, 0xFF] {
        let mut case = combine_case(&clear(&[1, 2, 3]), 0x0020);
        case.start.file[17] = byte;
        all.push(Form::Long(case));
    }
    let set = |list: &[i64]| list.iter().map(|&a| Board { a, sa: true }).collect();
    let lists: [Vec<Board>; 4] = [
        set(&[5, -5]),
        set(&[NARROW.1, 1, -1]),
        set(&[1; 8]),
        set(&[WIDE.1 + 1, 0]),
    ];
    all.extend(lists.map(|boards| Form::Long(combine_case(&boards, 0x00A0))));
    all
}

/// OA set and cleared again by the last; set by the last; set in the middle alone; kept
/// at 40 bits.
fn overflows() -> Vec<Form> {
    let lists: [&[i64]; 8] = [
        &[NARROW.1 + 1, -1],
        &[NARROW.1, 1],
        &[NARROW.1, 1, -1, 1],
        &[1, 1 << 32, -1 << 32],
        &[-1, NARROW.0],
        &[-1, NARROW.0, 1],
        &[1 << 38, 1 << 38, 0],
        &[0, 0, 0, WIDE.0],
    ];
    let under = |mode| lists.map(|list| sums(list, mode));
    MODES.into_iter().flat_map(under).collect()
}

/// A second file and words of memory that are read over, with a run after each.
fn read_over() -> Vec<Form> {
    let run = Bench::of(&[mac(0), add(1, 4)]).budget(9).case;
    let lists: [&[i64]; 4] = [&[1, 2], &[1], &[WIDE.1 + 1, 2], &[3, 4, 5]];
    let mut all = Vec::new();
    for (i, list) in lists.into_iter().enumerate() {
        let mut case = combine_case(&clear(list), 0x0021);
        case.second = (0..=20 * i as u8).collect();
        case.start.memory = (0..=7 * i as u16).collect();
        all.extend([Form::Long(case), Form::Short(run.clone())]);
    }
    all
}

/// The boards' runs, then what they leave combined.
fn run_and_combined(mode: Mode, runs: Vec<Case>) -> Vec<Form> {
    let sum = Sum::of_runs(mode, runs);
    let (boards, count) = sum.boards();
    let case = combine_case(&boards[..count as usize], mode.0);
    let runs = sum.runs.into_iter().map(Form::Short);
    runs.chain([Form::Long(case)]).collect()
}

/// Ramps by REPEAT, one program for all boards; lists cut at random with programs of
/// their own; sums that leave the limits on a board and between boards; empty stretches.
fn dot_products() -> Vec<Form> {
    let mut random = Random::new(22);
    let mut all = run_and_combined(Mode(0x0020), ramps());
    for mode in [0x0020, 0x0021, 0x00A0, 0x00A1, 0x00B0, 0x0091] {
        for size in [Size::Small, Size::Any, Size::Telling] {
            let pairs = pairs_of(&mut random, size, 40);
            all.extend(cut(&mut random, Mode(mode), &pairs, 3));
        }
        let pairs = vec![(0x8000, 0x8000); 300];
        all.extend(cut(&mut random, Mode(mode), &pairs, 2));
    }
    let pairs = pairs_of(&mut random, Size::Any, 10_000);
    all.extend(cut(&mut random, Mode(0x0020), &pairs, 8));
    all
}

/// Three boards with the same program over other words.
fn ramps() -> Vec<Case> {
    let ramp = |first: u16| {
        let program = Program::new().repeated(7, multiply_and_read(3, 0));
        let words = (0..18).map(|i| 100 * first + i).collect();
        let bench = program.bench().words(words, 9);
        bench.both(0, -1).w(8, 0x1000).w(10, 0x1012).case
    };
    [1, 2, 3].map(ramp).to_vec()
}

/// A list cut into so many stretches, each run done.
fn cut(random: &mut Random, mode: Mode, pairs: &[Words], stretches: usize) -> Vec<Form> {
    let mut rest = pairs;
    let mut runs = Vec::new();
    for length in cutting(random, pairs.len(), stretches) {
        let (stretch, after) = rest.split_at(length);
        runs.push(done(random, mode, stretch));
        rest = after;
    }
    run_and_combined(mode, runs)
}

/// A run that multiplies these pairs and is done.
fn done(random: &mut Random, mode: Mode, pairs: &[Words]) -> Case {
    loop {
        let run = dot_product(random, mode, pairs);
        let watched = watch(&run);
        if watched.outcome.ending == Ending::Done && watched.broken.is_empty() {
            return run;
        }
    }
}
