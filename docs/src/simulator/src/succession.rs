//! Wish 6: a joined file's run is the first's, and where that is done the second's
//! from what is left. The statement is held against one pair of files and one start,
//! as the files are joined and run.

use crate::cases::Case;
use crate::decode::{decode_all, LENGTH};
use crate::ending::Ending;
use crate::engine::Outcome;
use crate::file::{check_file, file_length, load, BLOCK, MOST_BLOCKS, MOST_OPERATIONS};
use crate::flow::Flow;
use crate::join::join;
use crate::operation::Operation;
use crate::state::State;

/// The points of the statement. The first three are asked of every pair of files, the
/// others of accepted ones that begin at the first operation.
#[derive(Clone, Copy, Debug, PartialEq, Eq, PartialOrd, Ord)]
pub enum Point {
    /// The bytes of the blocks, or the refusal that is due.
    Answer,
    /// Past the file, and after a refusal everywhere, the output is as it came.
    Rest,
    /// The file loads: the first's operations, then the second's, lasts moved.
    Loads,
    Ending,
    Steps,
    /// A and B.
    Sums,
    /// O and S flags.
    Flags,
    Registers,
    Mode,
    Pc,
    /// All slots and their count.
    Loops,
    Repeat,
    Memory,
}

/// Two files and a start.
#[derive(Clone, Debug, PartialEq, Eq)]
pub struct Pair {
    /// The first file's run.
    pub first: Case,
    /// The second file.
    pub second: Vec<u8>,
}

/// What a run gives back, and the memory that it leaves.
pub type Ended = (Outcome, Vec<u16>);

pub type Join = fn(&[u8], &[u8], &mut [u8]) -> Result<usize, u8>;

/// What the statement is about: the call, and how the two runs make up one.
#[derive(Clone, Copy)]
pub struct Reading {
    pub join: Join,
    pub due: fn(&Pair) -> Ended,
}

impl Reading {
    /// The call as it is, and the wish.
    pub const OWN: Reading = Reading {
        join,
        due: in_succession,
    };
}

impl Pair {
    /// Whether the first operation is where it begins, with no loop and no repeat.
    pub fn begins(&self) -> bool {
        let Flow {
            pc, active, repeat, ..
        } = self.first.state.flow;
        pc == 0 && active == 0 && repeat == 0
    }

    /// The first alone.
    pub fn run_first(&self) -> Ended {
        self.first.run(self.first.budget)
    }

    /// The second from the state and memory left, at its own first operation, with
    /// this budget.
    pub fn run_second(&self, state: &State, memory: &[u16], budget: u32) -> Ended {
        self.second_from(state, memory).run(budget)
    }

    /// The second's start from this state and memory.
    pub fn second_from(&self, state: &State, memory: &[u16]) -> Case {
        Case {
            file: self.second.clone(),
            state: state.restart(),
            memory: memory.to_vec(),
            ..self.first.clone()
        }
    }

    /// The run of this joined file from the first's start.
    pub fn run_joined(&self, file: Vec<u8>) -> Ended {
        let joined = Case {
            file,
            ..self.first.clone()
        };
        joined.run(joined.budget)
    }

    /// The number of the first's operations; 0 for a file that is refused.
    pub fn count(&self) -> u16 {
        count_of(&self.first.file).unwrap_or(0) as u16
    }
}

/// The wish: the first's run, and if that is done the second's with what is left of
/// the budget, both step counts added, pc and DO numbers counted from the joined
/// file's start.
pub fn in_succession(pair: &Pair) -> Ended {
    let (first, memory) = pair.run_first();
    if first.ending != Ending::Done {
        return (first, memory);
    }
    let left = pair.first.budget - first.steps;
    let (second, memory) = pair.run_second(&first.state, &memory, left);
    let mut state = second.state;
    state.flow = counted_from(pair.count(), &state.flow);
    let outcome = Outcome {
        ending: second.ending,
        state,
        steps: first.steps + second.steps,
    };
    (outcome, memory)
}

/// pc and the DO numbers of active loops raised by the first's count.
pub fn counted_from(count: u16, flow: &Flow) -> Flow {
    let mut flow = *flow;
    flow.pc += count;
    for slot in flow.loops.iter_mut().take(usize::from(flow.active)) {
        slot.do_number += count;
    }
    flow
}

/// The number of a file's operations, or its refusal, by the loader.
fn count_of(file: &[u8]) -> Result<usize, u8> {
    let mut out = vec![0; LENGTH * MOST_OPERATIONS];
    load(file, &mut out).map(|bytes| bytes / LENGTH)
}

/// The answer that is due with so much room.
pub fn answer_due(first: &[u8], second: &[u8], room: usize) -> Result<usize, u8> {
    let together = count_of(first)? + count_of(second)?;
    let needed = file_length(together);
    match (together > MOST_OPERATIONS, needed > room) {
        (true, _) => Err(9),
        (false, true) => Err(8),
        (false, false) => Ok(needed),
    }
}

/// An operation with its last, where it is a DO, raised by `count`.
pub fn raised(operation: Operation, count: u16) -> Operation {
    match operation {
        Operation::DoLiteral {
            count: passes,
            last,
        } => Operation::DoLiteral {
            count: passes,
            last: last + count,
        },
        Operation::DoRegister { register, last } => Operation::DoRegister {
            register,
            last: last + count,
        },
        other => other,
    }
}

/// Whether a file loads as the operations of two others, the second's lasts moved.
fn loads_as(file: &[u8], first: &[u8], second: &[u8]) -> bool {
    let operations = |file| check_file(file).map(|(_, operations)| operations);
    let (Ok(first), Ok(second)) = (operations(first), operations(second)) else {
        return false;
    };
    let count = first.len() as u16;
    let following = second.into_iter().map(|operation| raised(operation, count));
    let due: Vec<Operation> = first.into_iter().chain(following).collect();
    let mut out = vec![0; LENGTH * due.len()];
    load(file, &mut out) == Ok(out.len()) && decode_all(&out) == Some(due)
}

/// What is wrong with a pair: nothing, for every one.
pub fn faults(pair: &Pair) -> Vec<Point> {
    faults_with(pair, Reading::OWN)
}

/// The same with what the statement is about.
pub fn faults_with(pair: &Pair, reading: Reading) -> Vec<Point> {
    let most = BLOCK * MOST_BLOCKS;
    let (mut faults, file) = faults_of_call(pair, reading.join, most + 1);
    if let Some(file) = file {
        for room in [0, file.len() - 1, file.len()] {
            faults.extend(faults_of_call(pair, reading.join, room).0);
        }
        if pair.begins() {
            faults.extend(differences(&pair.run_joined(file), &(reading.due)(pair)));
        }
    }
    faults.sort();
    faults.dedup();
    faults
}

/// What is wrong with the call lent so much room, and the file that it wrote.
fn faults_of_call(pair: &Pair, join: Join, room: usize) -> (Vec<Point>, Option<Vec<u8>>) {
    let (first, second) = (&pair.first.file, &pair.second);
    let lent: Vec<u8> = (0..room).map(|i| (i % 251) as u8).collect();
    let mut out = lent.clone();
    let answer = join(first, second, &mut out);
    let (written, rest) = out.split_at(answer.unwrap_or(0));
    let loads = answer.is_err() || loads_as(written, first, second);
    let faults = not_holding(&[
        (Point::Answer, answer == answer_due(first, second, room)),
        (Point::Rest, *rest == lent[written.len()..]),
        (Point::Loads, loads),
    ]);
    (faults, answer.ok().map(|_| written.to_vec()))
}

/// Where a joined run and what is due differ.
pub fn differences(joined: &Ended, due: &Ended) -> Vec<Point> {
    let ((run, memory), (wanted, left)) = (joined, due);
    let (state, other) = (&run.state, &wanted.state);
    let (flow, its) = (&state.flow, &other.flow);
    let flags = |state: &State| (state.overflow, state.saturated);
    let loops = |flow: &Flow| (flow.loops, flow.active);
    not_holding(&[
        (Point::Ending, run.ending == wanted.ending),
        (Point::Steps, run.steps == wanted.steps),
        (Point::Sums, state.accumulators == other.accumulators),
        (Point::Flags, flags(state) == flags(other)),
        (Point::Registers, state.w == other.w),
        (Point::Mode, state.mode == other.mode),
        (Point::Pc, flow.pc == its.pc),
        (Point::Loops, loops(flow) == loops(its)),
        (Point::Repeat, flow.repeat == its.repeat),
        (Point::Memory, memory == left),
    ])
}

fn not_holding(points: &[(Point, bool)]) -> Vec<Point> {
    let wrong = points.iter().filter(|(_, holds)| !holds);
    wrong.map(|(point, _)| *point).collect()
}
