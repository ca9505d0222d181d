//! Random long sums for wish 11: a list of pairs cut anywhere with a program of its own
//! for each stretch, and boards with any programs that write A by kind 3 alone.

use super::case::{file_of, styled};
use super::dot_product::dot_product;
use super::layout::Layout;
use super::program::Style;
use super::random::Random;
use crate::cases::Case;
use crate::combine::{FEWEST_BOARDS, MOST_BOARDS};
use crate::file::check_file;
use crate::mode::Mode;
use crate::operation::{Operation, Scaled, Target, WriteBack};
use crate::stretches::{broken, Premise, Sum, Words};

/// The steps of a board with any program.
const ENOUGH: u32 = 1_500;
/// US.
const READINGS: u16 = 0x3000;

/// A good mode word with US 0.
pub fn signed_mode(random: &mut Random) -> Mode {
    Mode(random.word() & Mode::GOOD_BITS & !READINGS)
}

/// How large the words of a list are.
#[derive(Clone, Copy, Debug, PartialEq, Eq)]
pub enum Size {
    Any,
    Small,
    Middle,
    /// Extremes and small ones more often than by chance.
    Telling,
    /// -32,768 nearly always: 256 doubled products of it are 2^39.
    Largest,
}

/// So many pairs of words of a size.
pub fn pairs_of(random: &mut Random, size: Size, count: usize) -> Vec<Words> {
    let mut word = || match size {
        Size::Any => random.word(),
        Size::Small => random.range(-100, 100) as u16,
        Size::Middle => random.range(-9_000, 9_000) as u16,
        Size::Telling => random.telling_word(),
        Size::Largest => random.pick(&[0x8000, 0x8000, 0x8000, 0x8000, 0x8001, 0xC000]),
    };
    (0..count).map(|_| (word(), word())).collect()
}

fn boards(random: &mut Random) -> usize {
    random.range(i64::from(FEWEST_BOARDS), i64::from(MOST_BOARDS)) as usize
}

/// The lengths of so many stretches, cut anywhere, some of them empty.
pub fn cutting(random: &mut Random, length: usize, stretches: usize) -> Vec<usize> {
    let mut cuts: Vec<usize> = (1..stretches).map(|_| random.below(length + 1)).collect();
    if stretches > 2 && random.percent(20) {
        cuts[0] = cuts[1];
    }
    cuts.sort_unstable();
    let ends = cuts.iter().copied().chain([length]);
    let starts = [0].into_iter().chain(cuts.iter().copied());
    ends.zip(starts).map(|(end, start)| end - start).collect()
}

/// A list cut anywhere into two to eight, with runs that multiply it. Where a run ends
/// before its last pair the list is what was multiplied.
pub fn cut_sum(random: &mut Random, mode: Mode, pairs: &[Words]) -> Sum {
    let stretches = boards(random);
    let lengths = cutting(random, pairs.len(), stretches);
    let mut sum = Sum {
        mode,
        pairs: pairs.to_vec(),
        lengths,
        runs: Vec::new(),
    };
    let parts = sum.stretches().unwrap_or_default();
    let runs = parts
        .into_iter()
        .map(|part| dot_product(random, mode, part));
    sum.runs = runs.collect();
    if broken(&sum).contains(&Premise::Done) {
        sum = Sum::of_runs(mode, sum.runs);
    }
    sum
}

/// A random list and mode word, cut.
pub fn listed_sum(random: &mut Random) -> Sum {
    let mode = signed_mode(random);
    let size = random.pick(&[Size::Any, Size::Small, Size::Middle, Size::Telling]);
    let (size, count) = match random.below(12) {
        0 => (size, random.below(4)),
        1 => (size, random.range(100, 600) as usize),
        2 => (Size::Largest, random.range(200, 1_000) as usize),
        _ => (size, random.range(4, 80) as usize),
    };
    let pairs = pairs_of(random, size, count);
    cut_sum(random, mode, &pairs)
}

/// Boards with any programs, from any place, ended in any way.
pub fn free_sum(random: &mut Random) -> Sum {
    let mode = signed_mode(random);
    let runs = (0..boards(random)).map(|_| free_run(random, mode));
    let runs = runs.collect();
    Sum::of_runs(mode, runs)
}

/// Any program, with every other write of A gone over to B or made kind 3.
fn free_run(random: &mut Random, mode: Mode) -> Case {
    let layout = Layout::random(random);
    let clears = random.percent(10);
    let style = Style::random(random, clears);
    let mut case = styled(random, &layout, style);
    let operations = check_file(&case.file).map_or(Vec::new(), |(_, operations)| operations);
    let fitting = |operation| fitted(random, operation, mode);
    let operations: Vec<Operation> = operations.into_iter().map(fitting).collect();
    case.file = file_of(&operations);
    case.state.mode = mode;
    case.state.accumulators[0] = 0;
    case.state.saturated[0] = false;
    case.budget = case.budget.min(ENOUGH);
    case
}

/// The operation as it may stand: A by kind 3 alone, and no other mode word.
fn fitted(random: &mut Random, operation: Operation, mode: Mode) -> Operation {
    use Operation::*;
    let onto_b = |scaled: Scaled| Scaled {
        target: Target::B,
        ..scaled
    };
    match operation {
        SetMode(_) => SetMode(mode),
        Mac(_, factors, reads, back) | Msc(Target::A, factors, reads, back) => {
            Mac(Target::A, factors, reads, back)
        }
        Mpy(Target::A, factors, reads) if random.percent(50) => {
            Mac(Target::A, factors, reads, WriteBack::None)
        }
        Mpy(_, factors, reads) => Mpy(Target::B, factors, reads),
        Clr(_, reads, back) => Clr(Target::B, reads, back),
        Ed(_, m, both) => Ed(Target::B, m, both),
        Edac(_, m, both) => Edac(Target::B, m, both),
        AddBoth(_) => AddBoth(Target::B),
        Subtract(_) => Subtract(Target::B),
        Negate(_) => Negate(Target::B),
        ShiftBy(_, register) => ShiftBy(Target::B, register),
        Lac(scaled) => Lac(onto_b(scaled)),
        Add(scaled) => Add(onto_b(scaled)),
        other => other,
    }
}
