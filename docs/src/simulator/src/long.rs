//! The long form of CASES.md: a header of 320 bytes, then F bytes, G bytes and M words.
//! Marks, register sets and tasks are not looked at.

use std::io::Read;

use crate::cases::{
    check, header_of, lent, lent_line, long_at, memory_bytes, run_line, settings_of, state_of,
    take_whole, word_check, words_of, Case, Next, NoCase, What, HEADER, MOST_BYTES, MOST_WORDS,
};
use crate::combine_form::combine_line;
use crate::decoded::decoded_run;
use crate::engine::Outcome;
use crate::join::join;

/// A case with this `what` and above is long.
pub const FIRST_LONG: u8 = 16;
pub const LONG_HEADER: usize = 320;
const JOIN: u8 = 17;
const DECODED: u8 = 21;
const COMBINE: u8 = 22;
/// The most words of a lent slice.
pub const MOST_LENT: u32 = 65_536;

/// Registers of all five sets, W0..W13 each.
const ALL_REGISTERS: usize = 70;
const TASKS: usize = 8;

#[derive(Clone, Copy, Debug, PartialEq, Eq)]
pub enum Call {
    Run,
    Join,
    /// A run over decoded operations.
    Decoded,
    Combine,
    /// A call that is not here, by its `what`.
    Unknown(u8),
}

impl Call {
    pub fn of(what: u8) -> Call {
        match what {
            FIRST_LONG => Call::Run,
            JOIN => Call::Join,
            DECODED => Call::Decoded,
            COMBINE => Call::Combine,
            other => Call::Unknown(other),
        }
    }

    fn what(self) -> u8 {
        match self {
            Call::Run => FIRST_LONG,
            Call::Join => JOIN,
            Call::Decoded => DECODED,
            Call::Combine => COMBINE,
            Call::Unknown(what) => what,
        }
    }
}

/// One case of the long form.
#[derive(Clone, Debug, PartialEq, Eq)]
pub struct Long {
    pub call: Call,
    /// What a short case has too: the file, memory, budget, settings and state.
    pub start: Case,
    /// The second file, G bytes.
    pub second: Vec<u8>,
    /// L, the words of a lent slice.
    pub words: u32,
    /// R, the bytes of lent output.
    pub room: u32,
}

impl Long {
    /// A call from a start alone: no second file, nothing lent.
    pub fn of(call: Call, start: Case) -> Long {
        Long {
            call,
            start,
            second: Vec::new(),
            words: 0,
            room: 0,
        }
    }

    /// The run over decoded operations, the memory and the slice of L words that it leaves.
    pub fn run_decoded(&self) -> (Outcome, Vec<u16>, Vec<u16>) {
        let start = &self.start;
        let mut memory = start.memory.clone();
        let mut slice: Vec<u16> = lent(self.words).map(u16::from).collect();
        let outcome = decoded_run(
            &start.file,
            &start.settings,
            &start.state,
            &mut memory,
            start.budget,
            &mut slice,
        );
        (outcome, memory, slice)
    }
}

/// Whether the call is lent more than there may be: R bytes of output, L words.
fn is_lent_too_much(call: Call, room: u32, words: u32) -> bool {
    match call {
        Call::Join => room > MOST_BYTES,
        Call::Decoded => words > MOST_LENT,
        _ => false,
    }
}

/// The long case whose header begins with these 112 bytes. Sizes are judged as soon as
/// the header is whole: F, G and M always, R and L where the call is lent them.
pub fn long_after(start: &[u8], input: &mut impl Read) -> Next<Long> {
    let rest = match take_whole(input, LONG_HEADER - HEADER)? {
        Ok(rest) => rest,
        Err(why) => return Ok(Err(why)),
    };
    let header = [start, &rest].concat();
    let call = Call::of(header[HEADER - 1]);
    let sizes = [0, 260, 4].map(|at| long_at(&header, at));
    let [lent_words, room] = [264, 268].map(|at| long_at(&header, at));
    let lent_too_much = is_lent_too_much(call, room, lent_words);
    if sizes[0] > MOST_BYTES || sizes[1] > MOST_BYTES || sizes[2] > MOST_WORDS || lent_too_much {
        return Ok(Err(NoCase::TooLarge));
    }
    let [first, second, words] = sizes.map(|size| size as usize);
    let body = take_whole(input, first + second + 2 * words)?;
    Ok(body.map(|body| Long {
        call,
        start: Case {
            what: What::Run,
            file: body[..first].to_vec(),
            memory: words_of(&body[first + second..]),
            budget: long_at(&header, 8),
            settings: settings_of(&header),
            state: state_of(&header),
        },
        second: body[first..first + second].to_vec(),
        words: lent_words,
        room,
    }))
}

/// The line for a long case, without its line feed.
pub fn long_line(case: &Long) -> String {
    match case.call {
        Call::Run => {
            let (outcome, memory) = case.start.run(case.start.budget);
            long_run_line(&outcome, &memory)
        }
        Call::Decoded => {
            let (outcome, memory, slice) = case.run_decoded();
            decoded_line(&outcome, &memory, &slice)
        }
        Call::Join => lent_line("joined", case.room, |out| {
            join(&case.start.file, &case.second, out)
        }),
        Call::Combine => combine_line(&case.start),
        Call::Unknown(_) => "unknown".to_string(),
    }
}

/// The run line: a short run's, then what the long form adds.
fn long_run_line(outcome: &Outcome, memory: &[u16]) -> String {
    format!("{} {}", run_line(outcome, memory), set_fields(outcome))
}

/// The run line, then the slice's check.
pub fn decoded_line(outcome: &Outcome, memory: &[u16], slice: &[u16]) -> String {
    format!("{} {}", long_run_line(outcome, memory), word_check(slice))
}

/// The number of the set in use, the check of all registers, the nine task counts:
/// set 0 with the other sets zero, and every step in no task. A refused run has none.
fn set_fields(outcome: &Outcome) -> String {
    let mut registers = [0; ALL_REGISTERS];
    let own = outcome.state.w.map(u32::from);
    registers[..own.len()].copy_from_slice(&own);
    let tasks = "0 ".repeat(TASKS);
    let check = check(registers.into_iter());
    format!("0 {check} {tasks}{}", outcome.steps)
}

/// The bytes of a long case, as the stream holds them.
pub fn long_bytes(case: &Long) -> Vec<u8> {
    let mut bytes = header_of(&case.start, case.call.what());
    bytes.resize(260, 0);
    for size in [case.second.len() as u32, case.words, case.room] {
        bytes.extend(size.to_le_bytes());
    }
    bytes.resize(LONG_HEADER, 0);
    bytes.extend_from_slice(&case.start.file);
    bytes.extend_from_slice(&case.second);
    bytes.extend(memory_bytes(&case.start));
    bytes
}
