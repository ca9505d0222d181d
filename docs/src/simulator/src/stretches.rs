//! Wish 11: where the combined SA is clear, the combined A is the exact sum of all
//! products. The statement is held against one list of pairs, one cutting of it and one
//! set of runs, a board for each stretch.

use crate::cases::Case;
use crate::combine::{combine, Board, Boards, Combined, FEWEST_BOARDS, MOST_BOARDS};
use crate::ending::Ending;
use crate::engine::Outcome;
use crate::mode::Mode;
use crate::operation::{Operation, Target};
use crate::state::State;
use crate::walk::walk;
use crate::words::Reading;

/// Two words that are multiplied.
pub type Words = (u16, u16);

/// One long sum: a list of pairs, where it is cut, the runs and the one mode word.
#[derive(Clone, Debug, PartialEq, Eq)]
pub struct Sum {
    pub mode: Mode,
    pub pairs: Vec<Words>,
    /// The lengths of the stretches, which follow one another; 0 is one of them.
    pub lengths: Vec<usize>,
    /// A run for each stretch.
    pub runs: Vec<Case>,
}

/// What the statement asks of a sum. They are about SA alone; B, SB and the O flags are
/// free, and so are programs, settings, memory, registers, budgets and starts.
#[derive(Clone, Copy, Debug, PartialEq, Eq, PartialOrd, Ord)]
pub enum Premise {
    /// Two to eight stretches that are the whole list, and as many runs.
    Cut,
    /// A good mode word with US 0.
    Signed,
    /// No run is refused.
    Accepted,
    /// A is 0 at every start.
    FromZero,
    /// SA is clear at every start.
    BeginsClear,
    /// Every state of every run has the one mode word.
    OneMode,
    /// No step turns SA from set to clear.
    KeepsSa,
    /// Each executed step that writes A is kind 3.
    ByKind3,
    /// The pairs of those steps are the stretch's, in order.
    ItsPairs,
    /// Every run ends done. The statement is held without it.
    Done,
}

/// The points of the statement.
#[derive(Clone, Copy, Debug, PartialEq, Eq, PartialOrd, Ord)]
pub enum Point {
    /// The call's answer, refusals too, is the one that the wish describes. Asked of
    /// every sum.
    Answer,
    /// If the combined SA is clear, the combined A is the exact sum. Asked of sums that
    /// keep every premise but `Done`.
    Exact,
}

pub type Combine = fn(&Boards, u32, Mode) -> Result<Combined, u8>;

/// What was seen of a run, step by step.
#[derive(Clone, Debug, PartialEq, Eq)]
pub struct Watched {
    pub outcome: Outcome,
    /// The pairs that kind 3 multiplied for A, from the registers before each step.
    pub pairs: Vec<Words>,
    /// The premises that a step broke.
    pub broken: Vec<Premise>,
}

/// Watch a run: every executed step, traps without effect not among them.
pub fn watch(case: &Case) -> Watched {
    let (mut pairs, mut broken) = (Vec::new(), Vec::new());
    let outcome = walk(case, |operation, before, after| {
        pairs.extend(multiplied(operation, before));
        broken.extend(broken_by(operation, before, after));
    });
    if let Ending::Refused(_) = outcome.ending {
        broken.push(Premise::Accepted);
    }
    Watched {
        outcome,
        pairs,
        broken,
    }
}

/// The pair of kind 3 with target A: m and n before the step.
fn multiplied(operation: &Operation, before: &State) -> Option<Words> {
    let word = |register: u8| before.w[usize::from(register)];
    match operation {
        Operation::Mac(Target::A, factors, ..) => Some((word(factors.m), word(factors.n))),
        _ => None,
    }
}

/// The premises that one executed step breaks.
fn broken_by(operation: &Operation, before: &State, after: &State) -> Vec<Premise> {
    let (sa_before, sa_after) = (before.saturated[0], after.saturated[0]);
    let writes_a = operation.written() == Some(Target::A);
    not_holding(&[
        (Premise::OneMode, after.mode == before.mode),
        (Premise::KeepsSa, sa_after || !sa_before),
        (Premise::ByKind3, !writes_a || operation.kind() == 3),
    ])
}

/// The product of two words read as signed, doubled in fractional mode.
pub fn exact_product((m, n): Words, mode: Mode) -> i128 {
    let product = i128::from(m as i16) * i128::from(n as i16);
    if mode.doubles() {
        2 * product
    } else {
        product
    }
}

/// The exact sum of all products over the whole length.
pub fn exact_sum(pairs: &[Words], mode: Mode) -> i128 {
    pairs.iter().map(|&pair| exact_product(pair, mode)).sum()
}

impl Sum {
    /// The stretches of the list; nothing where the lengths are not the list's.
    pub fn stretches(&self) -> Option<Vec<&[Words]>> {
        let mut rest = self.pairs.as_slice();
        let mut stretches = Vec::new();
        for &length in &self.lengths {
            let (stretch, after) = rest.split_at_checked(length)?;
            stretches.push(stretch);
            rest = after;
        }
        rest.is_empty().then_some(stretches)
    }

    /// The list and the cutting that these runs have, whatever was multiplied.
    pub fn of_runs(mode: Mode, runs: Vec<Case>) -> Sum {
        let parts: Vec<Vec<Words>> = runs.iter().map(|run| watch(run).pairs).collect();
        Sum {
            mode,
            lengths: parts.iter().map(Vec::len).collect(),
            pairs: parts.concat(),
            runs,
        }
    }

    /// What the boards leave, each by a whole run, in the first entries.
    pub fn boards(&self) -> (Boards, u32) {
        let mut boards = [Board::NONE; MOST_BOARDS as usize];
        for (board, run) in boards.iter_mut().zip(&self.runs) {
            let (outcome, _) = run.run(run.budget);
            board.a = outcome.state.accumulators[0];
            board.sa = outcome.state.saturated[0];
        }
        (boards, self.runs.len() as u32)
    }
}

/// The premises that a sum breaks, each once.
pub fn broken(sum: &Sum) -> Vec<Premise> {
    let stretches = sum.stretches();
    let boards = FEWEST_BOARDS as usize..=MOST_BOARDS as usize;
    let is_cut = stretches.is_some()
        && sum.runs.len() == sum.lengths.len()
        && boards.contains(&sum.runs.len());
    let is_signed = sum.mode.is_good() && sum.mode.reading() == Reading::Signed;
    let mut broken = not_holding(&[(Premise::Cut, is_cut), (Premise::Signed, is_signed)]);
    let stretches = stretches.unwrap_or_default();
    for (run, stretch) in sum.runs.iter().zip(stretches) {
        broken.extend(broken_by_run(run, stretch, sum.mode));
    }
    broken.sort();
    broken.dedup();
    broken
}

/// The premises that one run breaks.
fn broken_by_run(run: &Case, stretch: &[Words], mode: Mode) -> Vec<Premise> {
    let state = &run.state;
    let watched = watch(run);
    let mut broken = not_holding(&[
        (Premise::FromZero, state.accumulators[0] == 0),
        (Premise::BeginsClear, !state.saturated[0]),
        (Premise::OneMode, state.mode == mode),
        (Premise::ItsPairs, watched.pairs == stretch),
        (Premise::Done, watched.outcome.ending == Ending::Done),
    ]);
    broken.extend(watched.broken);
    broken
}

/// The wish's answer, with whole numbers: 13, 14, 7, else the boards added in order
/// from 0, each result limited before the next is added.
pub fn answer_due(boards: &Boards, count: u32, mode: Mode) -> Result<Combined, u8> {
    let power = |n: u32| 1_i128 << n;
    let used: Vec<Board> = match count {
        2..=8 => boards.iter().copied().take(count as usize).collect(),
        _ => return Err(13),
    };
    let beyond = |board: &Board| !(-power(39)..power(39)).contains(&i128::from(board.a));
    if used.iter().any(beyond) {
        return Err(14);
    }
    // US 0 or 1 in bits 13 and 12, SATA 7, SATB 6, SATDW 5, ACCSAT 4, RND 1, IF 0.
    if mode.0 >> 13 != 0 || mode.0 & 0x0F0C != 0 {
        return Err(7);
    }
    let (saturates, wide) = (mode.0 & 0x0080 != 0, mode.0 & 0x0010 != 0);
    let end = power(if saturates && !wide { 31 } else { 39 });
    let mut a = 0;
    let mut sa = used.iter().filter(|board| board.sa).count() > 0;
    for board in &used {
        let exact = a + i128::from(board.a);
        let is_within = -end <= exact && exact < end;
        a = match (is_within, saturates) {
            (true, _) => exact,
            (false, true) if exact < 0 => -end,
            (false, true) => end - 1,
            (false, false) => (exact + power(39)).rem_euclid(power(40)) - power(39),
        };
        sa |= !is_within;
    }
    Ok(Combined {
        a: a as i64,
        oa: a < -power(31) || a >= power(31),
        sa,
    })
}

/// Whether an answer says what the wish promises of the exact sum: SA is set, or A is
/// the sum.
pub fn is_exact(answer: Result<Combined, u8>, exact: i128) -> bool {
    answer.is_ok_and(|sum| sum.sa || i128::from(sum.a) == exact)
}

/// What a sum comes to: what its boards leave, its mode word, and the exact sum where it
/// keeps every premise but `Done`.
#[derive(Clone, Copy, Debug, PartialEq, Eq)]
pub struct Ended {
    pub boards: Boards,
    pub count: u32,
    pub mode: Mode,
    pub exact: Option<i128>,
}

impl Ended {
    pub fn of(sum: &Sum) -> Ended {
        let (boards, count) = sum.boards();
        let is_asked = broken(sum).iter().all(|premise| *premise == Premise::Done);
        Ended {
            boards,
            count,
            mode: sum.mode,
            exact: is_asked.then(|| exact_sum(&sum.pairs, sum.mode)),
        }
    }

    /// What is wrong with a call's answer.
    pub fn faults(&self, combine: Combine) -> Vec<Point> {
        let answer = combine(&self.boards, self.count, self.mode);
        let due = answer_due(&self.boards, self.count, self.mode);
        let exact = self.exact.is_none_or(|exact| is_exact(answer, exact));
        not_holding(&[(Point::Answer, answer == due), (Point::Exact, exact)])
    }
}

/// What is wrong with a sum: nothing, for every one.
pub fn faults(sum: &Sum) -> Vec<Point> {
    Ended::of(sum).faults(combine)
}

fn not_holding<T: Copy>(points: &[(T, bool)]) -> Vec<T> {
    let wrong = points.iter().filter(|(_, holds)| !holds);
    wrong.map(|(point, _)| *point).collect()
}
