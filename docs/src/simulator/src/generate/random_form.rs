//! Random cases about joined files, in both forms.

use super::blocks::numbered;
use super::case::accepted_run;
use super::damage::damage_run;
use super::pairs::{accepted_pair, damaged_pair, join_case, joined_file};
use super::random::Random;
use crate::cases::Case;
use crate::file::{blocks_of, check_file, file_length, MOST_OPERATIONS};
use crate::form::Form;
use crate::long::{Call, Long};
use crate::succession::Pair;

/// One case: a join, a run of a joined file, another long run, another call.
pub fn random_form(random: &mut Random) -> Form {
    match random.below(40) {
        0..=9 => {
            let pair = accepted_pair(random);
            join_form(random, &pair)
        }
        10..=16 => {
            let pair = damaged_pair(random);
            join_form(random, &pair)
        }
        17 => {
            let pair = large_pair(random);
            join_form(random, &pair)
        }
        18..=35 => {
            let run = joined_run(random);
            either_form(random, run)
        }
        36..=38 => {
            let mut run = accepted_run(random, true);
            run.budget = run.budget.min(3_000);
            long_form(Call::Run, run)
        }
        _ => {
            let pair = accepted_pair(random);
            unknown_form(random, pair)
        }
    }
}

fn long_form(call: Call, start: Case) -> Form {
    Form::Long(Long::of(call, start))
}

fn either_form(random: &mut Random, run: Case) -> Form {
    if random.percent(50) {
        Form::Short(run)
    } else {
        long_form(Call::Run, run)
    }
}

/// The run of a joined file, now and then with something off or begun elsewhere.
fn joined_run(random: &mut Random) -> Case {
    let Pair { mut first, second } = accepted_pair(random);
    first.file = joined_file(&first.file, &second);
    match random.below(10) {
        0 => damage_run(random, &mut first),
        1 => first.state.flow.pc = random.below(first.file.len() / 16 + 1) as u16,
        _ => {}
    }
    first.budget = first.budget.min(3_000);
    first
}

/// Join with room that is exact, one byte short, too little, ample or none.
fn join_form(random: &mut Random, pair: &Pair) -> Form {
    let count = |file| check_file(file).map_or(1, |(_, operations)| operations.len());
    let needed = file_length(count(&pair.first.file) + count(&pair.second));
    let room = match random.below(8) {
        0..=2 => needed,
        3 | 4 => needed + random.below(600),
        5 => needed - 1,
        6 => random.below(needed),
        _ => 0,
    };
    let mut join = join_case(pair.first.file.clone(), pair.second.clone(), room);
    // Words that are read and not used.
    join.start.memory = (0..random.below(4)).map(|_| random.word()).collect();
    Form::Long(join)
}

/// About 4,032 operations together, a few more or less.
fn large_pair(random: &mut Random) -> Pair {
    let mut pair = accepted_pair(random);
    let first = random.range(1, MOST_OPERATIONS as i64 - 1);
    let second = MOST_OPERATIONS as i64 - first + random.range(-1, 2);
    let file = |count: i64| blocks_of(&numbered(count.clamp(1, 4_032) as usize));
    (pair.first.file, pair.second) = (file(first), file(second));
    pair
}

/// A call that is not here; or 21, a run over decoded operations with a slice of 64 words;
/// or 22, to which a program file is of another length than its budget asks for.
fn unknown_form(random: &mut Random, pair: Pair) -> Form {
    let any = random.range(18, 255) as u8;
    unknown_case(random.pick(&[18, 19, 20, 21, 22, any]), pair)
}

/// A call with two files and words of memory, and lent slices where CASES.md gives it
/// any.
pub fn unknown_case(what: u8, pair: Pair) -> Form {
    Form::Long(Long {
        call: Call::of(what),
        start: pair.first,
        second: pair.second,
        words: if matches!(what, 19..=21) { 64 } else { 0 },
        room: if what == 20 { 512 } else { 0 },
    })
}
