//! Joins: block boundaries, room, refusals 1 to 5 of either file, 9 and 8, two of
//! them at once.

use crate::decode::LENGTH;
use crate::encode::encode_all;
use crate::file::{blocks_of, file_length, BLOCK};
use crate::form::Form;
use crate::generate::blocks::{
    numbered, with_sums, wrong_headers, wrong_lengths, wrong_operations, wrong_sums,
};
use crate::generate::ops::*;
use crate::generate::pairs::join_case;
use crate::generate::places::{bad, good, By};
use crate::operation::Operation;

/// Room for every joined file.
const AMPLE: usize = 33_000;
/// Of files that are wrong in one thing, those up to this length.
const SMALL: usize = 1_100;

pub fn cases() -> Vec<Form> {
    let mut all = boundaries();
    all.extend(rooms());
    all.extend(one_bad());
    all.extend(both_bad());
    all.extend(wrong_seconds());
    all.extend(placements());
    all.extend(largest());
    all.extend(too_many());
    all.extend(bad_and_too_many());
    all.extend(with_memory());
    all
}

fn join(first: Vec<u8>, second: Vec<u8>, room: usize) -> Form {
    Form::Long(join_case(first, second, room))
}

/// So many operations, no two alike, with loops round them and in a row: DO by a
/// literal to the last, by a register to the last but one, by a literal in the middle.
fn looped(count: usize) -> Vec<u8> {
    let mut operations = numbered(count);
    let mut put = |place: usize, operation: [u8; LENGTH]| {
        operations[LENGTH * place..LENGTH * (place + 1)].copy_from_slice(&operation);
    };
    if count >= 3 {
        put(0, do_to(2, count as u16 - 1));
    }
    if count >= 5 {
        put(1, do_by(3, count as u16 - 2));
    }
    if count >= 12 {
        put(count / 2, do_to(0, count as u16 / 2 + 2));
    }
    operations
}

fn file(count: usize) -> Vec<u8> {
    blocks_of(&looped(count))
}

fn sized(first: usize, second: usize, room: usize) -> Form {
    join(file(first), file(second), room)
}

/// First files of about a block and about two, seconds of all small sizes.
fn boundaries() -> Vec<Form> {
    let mut all = Vec::new();
    for first in [1, 61, 62, 63, 64, 126] {
        for second in [1, 3, 62, 63, 64] {
            let needed = file_length(first + second);
            all.push(sized(first, second, needed + (first + second) % 3));
        }
    }
    all
}

fn rooms() -> Vec<Form> {
    let mut all = Vec::new();
    for (first, second) in [
        (1, 1),
        (3, 5),
        (62, 1),
        (62, 2),
        (63, 1),
        (64, 63),
        (100, 89),
    ] {
        let needed = file_length(first + second);
        let rooms = [0, 1, 511, needed - 1, needed, needed + 1, needed + 300];
        all.extend(rooms.map(|room| sized(first, second, room)));
    }
    all
}

/// Files given 1 to 5, in this order.
fn bad_files() -> [Vec<u8>; 5] {
    [
        file(3)[1..].to_vec(),
        wrong_sums().swap_remove(3),
        wrong_headers().swap_remove(2),
        wrong_operations().swap_remove(0),
        blocks_of(&encode_all(&bad(By::Literal)[3])),
    ]
}

fn one_bad() -> Vec<Form> {
    let mut all = Vec::new();
    for bad in bad_files() {
        for room in [0, 512, 1_100] {
            all.push(join(bad.clone(), file(9), room));
            all.push(join(file(9), bad.clone(), room));
        }
    }
    all
}

/// Each number of the first with each of the second.
fn both_bad() -> Vec<Form> {
    let mut all = Vec::new();
    for (i, first) in bad_files().into_iter().enumerate() {
        for (j, second) in bad_files().into_iter().enumerate() {
            let room = [0, 511, 512, 1_025][(i + 2 * j) % 4];
            all.push(join(first.clone(), second, room));
        }
    }
    all
}

/// Refusals 1 to 4 as single things off, in the second and, of every third, in the
/// first.
fn wrong_seconds() -> Vec<Form> {
    let files = [
        wrong_lengths(),
        wrong_sums(),
        wrong_headers(),
        wrong_operations(),
    ];
    let small = files
        .concat()
        .into_iter()
        .filter(|file| file.len() <= SMALL);
    let joined = |(i, bad): (usize, Vec<u8>)| match i % 3 {
        0 => join(bad, file(5), 1_600),
        _ => join(file(5), bad, 1_600),
    };
    small.enumerate().map(joined).collect()
}

/// DO and REPEAT in good and bad places of the second, after a first of 2, 60 and 63
/// operations.
fn placements() -> Vec<Form> {
    let programs = [bad(By::Literal), good(By::Literal), good(By::Register)].concat();
    let joined = |(i, program): (usize, &Vec<Operation>)| {
        let first = file([2, 60, 63][i % 3]);
        join(first, blocks_of(&encode_all(program)), 1_100)
    };
    programs.iter().enumerate().map(joined).collect()
}

/// 4,032 operations together: 64 full blocks.
fn largest() -> Vec<Form> {
    vec![
        sized(2_016, 2_016, 32_768),
        sized(2_016, 2_016, 32_767),
        sized(1, 4_031, 32_768),
        sized(4_031, 1, AMPLE),
    ]
}

/// 4,033 with room and with too little.
fn too_many() -> Vec<Form> {
    vec![
        sized(2_016, 2_017, AMPLE),
        sized(4_032, 1, 32_767),
        sized(1, 4_032, 0),
    ]
}

/// The second's number comes before 9, and the first's before both.
fn bad_and_too_many() -> Vec<Form> {
    let [_, sum, _, kind, place] = bad_files();
    let joined = |bad| join(file(4_032), bad, AMPLE);
    let mut all = [sum, kind, place].map(joined).to_vec();
    // The first operation of block 1 is of no kind.
    let late = with_sums(file(64), &[(BLOCK + 8, 26)]);
    all.push(join(late, file(4_032), 0));
    all
}

/// Words of memory that are read over, after a join and after refused ones.
fn with_memory() -> Vec<Form> {
    let rooms = [512, 511, 0, 600];
    let with_words = |(i, room): (usize, usize)| {
        let mut join = join_case(file(3 + i), file(5), room);
        join.start.memory = (0..=7 * i as u16).collect();
        Form::Long(join)
    };
    rooms.into_iter().enumerate().map(with_words).collect()
}
