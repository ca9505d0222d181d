//! The stored request stream, and random ones.

use super::blocks::{
    numbered, wrong_headers, wrong_lengths, wrong_operation_lengths, wrong_operations, wrong_sums,
};
use super::case::accepted_copy;
use super::copy_case;
use super::forms::{forms, Bytes};
use super::misses::misses;
use super::places::{bad, deepest, deepest_shared, good, By};
use super::random::Random;
use super::tiny::{blocks_case, field_case, placement_case, IDLE};
use crate::cases::What;
use crate::decode::LENGTH;
use crate::encode::encode_all;
use crate::file::{blocks_of, file_length, BLOCK, FULL, MOST_OPERATIONS};
use crate::requests::{Call, Request, MOST};

const SEED: u64 = 1;
const RANDOM_REQUESTS: usize = 100;
/// The longest input among the stored stream's random requests.
const SMALL: usize = 2 * BLOCK;

/// The requests of the stored stream.
pub fn requests() -> Vec<Request> {
    let mut requests = sizes();
    requests.extend(largest());
    requests.extend((1..=25).flat_map(|kind| both(&forms(kind).concat())));
    requests.extend(wrong_files());
    requests.extend(wrong_fields());
    requests.extend(placements());
    requests.extend(without_room());
    let mut random = Random::new(SEED);
    requests.extend((0..RANDOM_REQUESTS).map(|_| small_request(&mut random)));
    requests
}

fn load(file: Vec<u8>, room: usize) -> Request {
    request(Call::Load, file, room)
}

fn write(operations: Vec<u8>, room: usize) -> Request {
    request(Call::Write, operations, room)
}

fn request(call: Call, input: Vec<u8>, room: usize) -> Request {
    let room = room as u16;
    Request { call, room, input }
}

/// A load with room for all that the blocks could hold.
fn roomy_load(file: Vec<u8>) -> Request {
    let room = file.len();
    load(file, room)
}

/// A write with exactly the room for its blocks.
fn exact_write(operations: Vec<u8>) -> Request {
    let room = file_length(operations.len().div_ceil(LENGTH));
    write(operations, room)
}

/// The write of operations and the load of their file.
fn both(operations: &[u8]) -> [Request; 2] {
    [
        exact_write(operations.to_vec()),
        roomy_load(blocks_of(operations)),
    ]
}

/// One operation, one full block, one operation more, two full blocks: room
/// exactly enough, more, one byte short, none.
fn sizes() -> Vec<Request> {
    let mut requests = Vec::new();
    for count in [1, 63, 64, 126] {
        let operations = numbered(count);
        let file = blocks_of(&operations);
        let rooms = |needed: usize| [needed, needed - 1, needed + 37, 0];
        // A full block needs no more than the first two.
        let taken = if count % FULL == 0 { 2 } else { 4 };
        let loads = rooms(operations.len()).map(|room| load(file.clone(), room));
        let writes = rooms(file.len()).map(|room| write(operations.clone(), room));
        requests.extend([&loads[..taken], &writes[..taken]].concat());
    }
    requests
}

/// 4,032 operations: loaded, and loops in loops written.
fn largest() -> [Request; 3] {
    let operations = numbered(MOST_OPERATIONS);
    [
        load(blocks_of(&operations), operations.len()),
        write(encode_all(&deepest()), MOST),
        exact_write(encode_all(&deepest_shared())),
    ]
}

/// Refusals 1 to 4 of a file, and 1 of a writer.
fn wrong_files() -> Vec<Request> {
    let mut files = wrong_lengths();
    files.extend(wrong_sums());
    files.extend(wrong_headers());
    files.extend(wrong_operations());
    let mut requests: Vec<Request> = files.into_iter().map(roomy_load).collect();
    requests.extend(wrong_operation_lengths().into_iter().map(exact_write));
    requests
}

/// Refusal 4: each kind's last miss in a load, the others in writes. Three idle
/// operations follow, so that nothing else is wrong.
fn wrong_fields() -> Vec<Request> {
    let program = |miss: &Bytes| [&miss[..], &encode_all(&[IDLE; 3])].concat();
    let mut requests = Vec::new();
    for misses in misses() {
        if let Some((last, others)) = misses.split_last() {
            requests.extend(others.iter().map(|miss| exact_write(program(miss))));
            requests.push(roomy_load(blocks_of(&program(last))));
        }
    }
    requests
}

/// Places of DO and REPEAT in writes; those refused by registers in loads.
fn placements() -> Vec<Request> {
    let written = [good(By::Literal), good(By::Register), bad(By::Literal)].concat();
    let writes = written
        .iter()
        .map(|program| exact_write(encode_all(program)));
    let loaded = bad(By::Register);
    let loads = loaded
        .iter()
        .map(|program| roomy_load(blocks_of(&encode_all(program))));
    writes.chain(loads).collect()
}

/// Every other refusal comes before 8.
fn without_room() -> Vec<Request> {
    let misplaced = encode_all(&bad(By::Literal)[0]);
    let files = [
        Vec::new(),
        wrong_sums().swap_remove(0),
        wrong_headers().swap_remove(0),
        wrong_operations().swap_remove(0),
        blocks_of(&misplaced),
    ];
    let mut requests = files.map(|file| load(file, 0)).to_vec();
    let inputs = [Vec::new(), vec![0; LENGTH], misplaced];
    requests.extend(inputs.map(|operations| write(operations, 0)));
    requests
}

/// A load or write of a random program, as it is, damaged, or with one thing
/// off.
fn random_request(random: &mut Random) -> Request {
    let case = match random.below(12) {
        0 | 1 => accepted_copy(random, What::Load),
        2 | 3 => accepted_copy(random, What::Write),
        4 | 5 => copy_case(random, What::Load),
        6 | 7 => copy_case(random, What::Write),
        8 => blocks_case(random),
        9 | 10 => field_case(random),
        _ => placement_case(random),
    };
    // A run's file is loaded, its budget the room.
    let call = match case.what {
        What::Write => Call::Write,
        What::Load | What::Run => Call::Load,
    };
    request(call, case.file, case.budget as usize)
}

/// The next random request with a small input.
fn small_request(random: &mut Random) -> Request {
    loop {
        let request = random_request(random);
        if request.input.len() <= SMALL {
            return request;
        }
    }
}

/// So many random requests, the same for the same seed.
pub fn random_requests(seed: u64, count: u16) -> Vec<Request> {
    let mut random = Random::new(seed);
    (0..count).map(|_| random_request(&mut random)).collect()
}
