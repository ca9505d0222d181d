//! The short form of CASES.md: a case is parsed, carried out, printed.

use std::fmt::{Display, Write as _};
use std::io::{self, Read, Write};

use crate::engine::{run, Outcome};
use crate::file::{load, write};
use crate::flow::{Flow, Loop};
use crate::mode::Mode;
use crate::settings::{BitReversed, Circular, Settings};
use crate::state::State;
use crate::status::status_word;
use crate::words::word_at;

pub const HEADER: usize = 112;
pub const MOST_BYTES: u32 = 65_536;
pub const MOST_WORDS: u32 = 32_768;

#[derive(Clone, Copy, Debug, PartialEq, Eq)]
pub enum What {
    Run,
    Load,
    Write,
}

/// One case of the short form.
#[derive(Clone, Debug, PartialEq, Eq)]
pub struct Case {
    pub what: What,
    /// The program file, or the operations of `Write`.
    pub file: Vec<u8>,
    pub memory: Vec<u16>,
    /// The budget, or R, the bytes of lent output.
    pub budget: u32,
    pub settings: Settings,
    pub state: State,
}

impl Case {
    /// The run under a budget, and the memory that it leaves.
    pub fn run(&self, budget: u32) -> (Outcome, Vec<u16>) {
        let mut memory = self.memory.clone();
        let outcome = run(&self.file, &self.settings, &self.state, &mut memory, budget);
        (outcome, memory)
    }
}

/// Why no case came.
#[derive(Clone, Copy, Debug, PartialEq, Eq)]
pub enum NoCase {
    End,
    Short,
    TooLarge,
}

/// The next of a stream, or why none came.
pub type Next<T> = io::Result<Result<T, NoCase>>;

/// Four bytes, low byte first.
pub fn long_at(bytes: &[u8], at: usize) -> u32 {
    u32::from(word_at(bytes, at)) | u32::from(word_at(bytes, at + 2)) << 16
}

/// Eight bytes, low byte first, two's complement.
pub fn number_at(bytes: &[u8], at: usize) -> i64 {
    let bits = u64::from(long_at(bytes, at)) | u64::from(long_at(bytes, at + 4)) << 32;
    bits as i64
}

fn circular_at(header: &[u8], at: usize) -> Circular {
    Circular {
        register: header[at],
        start: word_at(header, at + 2),
        end: word_at(header, at + 4),
    }
}

pub fn settings_of(header: &[u8]) -> Settings {
    Settings {
        x_words: word_at(header, 12),
        trap_word: word_at(header, 14),
        x: circular_at(header, 16),
        y: circular_at(header, 22),
        reversed: BitReversed {
            register: header[28],
            words: word_at(header, 30),
        },
    }
}

pub fn state_of(header: &[u8]) -> State {
    let flag = |number: u32| (header[110] >> number) & 1 == 1;
    State {
        w: std::array::from_fn(|i| word_at(header, 32 + 2 * i)),
        accumulators: [number_at(header, 60), number_at(header, 68)],
        overflow: [flag(0), flag(1)],
        saturated: [flag(2), flag(3)],
        mode: Mode(word_at(header, 108)),
        flow: Flow {
            pc: word_at(header, 76),
            active: header[78],
            loops: std::array::from_fn(|i| Loop {
                do_number: word_at(header, 80 + 2 * i),
                passes: long_at(header, 88 + 4 * i),
            }),
            repeat: long_at(header, 104),
        },
    }
}

/// Up to `length` bytes, fewer at the end of the input.
fn take(input: &mut impl Read, length: usize) -> io::Result<Vec<u8>> {
    let mut bytes = Vec::new();
    input.take(length as u64).read_to_end(&mut bytes)?;
    Ok(bytes)
}

/// So many bytes, or `Short`.
pub fn take_whole(input: &mut impl Read, length: usize) -> Next<Vec<u8>> {
    let bytes = take(input, length)?;
    let is_whole = bytes.len() == length;
    Ok(if is_whole {
        Ok(bytes)
    } else {
        Err(NoCase::Short)
    })
}

/// The words of bytes, two each.
pub fn words_of(bytes: &[u8]) -> Vec<u16> {
    bytes.chunks_exact(2).map(|two| word_at(two, 0)).collect()
}

fn what_of(header: &[u8]) -> What {
    match header[HEADER - 1] {
        1 => What::Load,
        2 => What::Write,
        _ => What::Run,
    }
}

/// The next header of 112 bytes, or why none came.
pub fn next_header(input: &mut impl Read) -> Next<Vec<u8>> {
    let header = take(input, HEADER)?;
    Ok(match header.len() {
        0 => Err(NoCase::End),
        HEADER => Ok(header),
        _ => Err(NoCase::Short),
    })
}

/// The next of a stream of short cases.
pub fn next_case(input: &mut impl Read) -> Next<Case> {
    match next_header(input)? {
        Ok(header) => case_after(&header, input),
        Err(why) => Ok(Err(why)),
    }
}

/// The short case with this header.
pub fn case_after(header: &[u8], input: &mut impl Read) -> Next<Case> {
    case_as(what_of(header), header, input)
}

/// The next case as a run: its budget and its `what` are not looked at.
pub fn next_run(input: &mut impl Read) -> Next<Case> {
    match next_header(input)? {
        Ok(header) => case_as(What::Run, &header, input),
        Err(why) => Ok(Err(why)),
    }
}

/// Sizes are judged as soon as the header is there.
fn case_as(what: What, header: &[u8], input: &mut impl Read) -> Next<Case> {
    let budget = long_at(header, 8);
    let (bytes, words) = (long_at(header, 0), long_at(header, 4));
    let lent_too_much = what != What::Run && budget > MOST_BYTES;
    if bytes > MOST_BYTES || words > MOST_WORDS || lent_too_much {
        return Ok(Err(NoCase::TooLarge));
    }
    let length = bytes as usize;
    let body = take_whole(input, length + 2 * words as usize)?;
    Ok(body.map(|body| Case {
        what,
        file: body[..length].to_vec(),
        memory: words_of(&body[length..]),
        budget,
        settings: settings_of(header),
        state: state_of(header),
    }))
}

/// The check of a list of numbers.
pub fn check(numbers: impl Iterator<Item = u32>) -> u32 {
    numbers.fold(0, |h: u32, x| h.wrapping_mul(31).wrapping_add(x))
}

/// The check of words.
pub fn word_check(words: &[u16]) -> u32 {
    check(words.iter().map(|&word| u32::from(word)))
}

/// The line for a case, without its line feed.
pub fn line(case: &Case) -> String {
    match case.what {
        What::Run => {
            let (outcome, memory) = case.run(case.budget);
            run_line(&outcome, &memory)
        }
        What::Load => lent_line("loaded", case.budget, |out| load(&case.file, out)),
        What::Write => lent_line("written", case.budget, |out| write(&case.file, out)),
    }
}

pub fn run_line(outcome: &Outcome, memory: &[u16]) -> String {
    state_line(&outcome.ending, outcome.steps, &outcome.state, memory)
}

/// The line of a run or a step: its first field, the steps, the state and the
/// memory's check.
pub fn state_line(first: &impl Display, steps: u32, state: &State, memory: &[u16]) -> String {
    format!("{first} {steps} {}", state_fields(state, memory))
}

/// The fields of a state, A first, and the memory's check.
pub fn state_fields(state: &State, memory: &[u16]) -> String {
    let State {
        w,
        accumulators: [a, b],
        mode,
        flow,
        ..
    } = state;
    let mut line = format!(
        "{a} {b} {:04X} {} {} {:04X} {}",
        status_word(state),
        flow.pc,
        flow.repeat,
        mode.0,
        flow.active
    );
    for slot in &flow.loops {
        let _ = write!(line, " {}:{}", slot.do_number, slot.passes);
    }
    for word in w {
        let _ = write!(line, " {word:04X}");
    }
    let _ = write!(line, " {}", word_check(memory));
    line
}

/// What item i of a lent slice holds before a call: i mod 251.
pub fn lent(length: u32) -> impl Iterator<Item = u8> {
    (0..length).map(|i| (i % 251) as u8)
}

/// A call with R lent bytes.
pub fn lent_line(
    word: &str,
    room: u32,
    call: impl FnOnce(&mut [u8]) -> Result<usize, u8>,
) -> String {
    let mut out: Vec<u8> = lent(room).collect();
    let answer = match call(&mut out) {
        Ok(bytes) => format!("{word} {bytes}"),
        Err(number) => format!("refused{number} 0"),
    };
    format!("{answer} {}", check(out.iter().map(|&x| u32::from(x))))
}

/// Print a line for each of a stream, up to its end or to what breaks it off.
pub fn print_each<T, R: Read>(
    mut input: R,
    mut output: impl Write,
    next: fn(&mut R) -> Next<T>,
    line: fn(&T) -> String,
) -> io::Result<()> {
    loop {
        match next(&mut input)? {
            Ok(one) => writeln!(output, "{}", line(&one))?,
            Err(NoCase::End) => break,
            Err(NoCase::Short) => {
                writeln!(output, "short")?;
                break;
            }
            Err(NoCase::TooLarge) => {
                writeln!(output, "toolarge")?;
                break;
            }
        }
    }
    output.flush()
}

/// The bytes of a case, as the stream holds them.
pub fn bytes_of(case: &Case) -> Vec<u8> {
    let mut bytes = header_of(case, case.what as u8);
    bytes.extend_from_slice(&case.file);
    bytes.extend(memory_bytes(case));
    bytes
}

/// The words of a case's memory as bytes.
pub fn memory_bytes(case: &Case) -> impl Iterator<Item = u8> + '_ {
    case.memory.iter().flat_map(|word| word.to_le_bytes())
}

/// The 112 bytes of header that both forms have.
pub fn header_of(case: &Case, what: u8) -> Vec<u8> {
    let settings = &case.settings;
    let mut header = Vec::with_capacity(HEADER);
    let mut put = |part: &[u8]| header.extend_from_slice(part);
    put(&(case.file.len() as u32).to_le_bytes());
    put(&(case.memory.len() as u32).to_le_bytes());
    put(&case.budget.to_le_bytes());
    put(&settings.x_words.to_le_bytes());
    put(&settings.trap_word.to_le_bytes());
    for buffer in [&settings.x, &settings.y] {
        put(&[buffer.register, 0]);
        put(&buffer.start.to_le_bytes());
        put(&buffer.end.to_le_bytes());
    }
    put(&[settings.reversed.register, 0]);
    put(&settings.reversed.words.to_le_bytes());
    put_state(&mut header, &case.state);
    header.push(what);
    header
}

fn put_state(header: &mut Vec<u8>, state: &State) {
    let flow = &state.flow;
    let mut put = |part: &[u8]| header.extend_from_slice(part);
    state.w.iter().for_each(|word| put(&word.to_le_bytes()));
    let numbers = state.accumulators.iter();
    numbers.for_each(|n| put(&n.to_le_bytes()));
    put(&flow.pc.to_le_bytes());
    put(&[flow.active, 0]);
    let loops = || flow.loops.iter();
    loops().for_each(|l| put(&l.do_number.to_le_bytes()));
    loops().for_each(|l| put(&l.passes.to_le_bytes()));
    put(&flow.repeat.to_le_bytes());
    put(&state.mode.0.to_le_bytes());
    let ([oa, ob], [sa, sb]) = (state.overflow, state.saturated);
    put(&[u8::from(oa) | u8::from(ob) << 1 | u8::from(sa) << 2 | u8::from(sb) << 3]);
}
