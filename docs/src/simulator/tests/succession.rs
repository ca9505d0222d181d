//! Wish 6 on random pairs of files, and what kinds of pairs those are.

mod common;
use common::*;

use simulator::cases::Case;
use simulator::file::check_file;
use simulator::generate::case::file_of as file_of_operations;
use simulator::generate::pairs::{accepted_pair, damaged_pair, needed};
use simulator::generate::random::Random;
use simulator::operation::{Operation, WriteBack};
use simulator::succession::{faults, in_succession, raised, Pair};
use simulator::{join, Ending};

/// The kinds of pairs that came up.
#[derive(Debug, Default)]
struct Seen {
    pairs: usize,
    steps: u64,
    /// The first's endings; traps 5 to 7 by its last operation, which leave pc at its
    /// count.
    done: usize,
    spent: usize,
    traps: [usize; 8],
    traps_at_the_end: [usize; 8],
    /// The second's, where the first is done.
    second_done: usize,
    second_spent: usize,
    second_traps: [usize; 8],
    /// Nothing left of the budget, and the second not begun.
    nothing_left: usize,
    /// The second spent with so many loops active, or in a repeat; trapped in a loop.
    loops_at_spent: [usize; 5],
    repeat_at_spent: usize,
    loops_at_trap: usize,
    /// The first leaves an S flag, an O flag, another mode word, a changed memory.
    leaves_s: usize,
    leaves_o: usize,
    leaves_mode: usize,
    leaves_memory: usize,
    /// Firsts and seconds with these kinds: 19 or 20, 21, 22, 23, 24, 25, write-back.
    kinds: [[usize; 7]; 2],
    /// Seconds that begin with DO, REPEAT, kind 23.
    begins_with: [usize; 3],
    /// The first's count is no whole number of blocks, a whole number.
    short_block: usize,
    full_block: usize,
    budget_0: usize,
    largest_budget: usize,
}

fn operations(file: &[u8]) -> Vec<Operation> {
    check_file(file).expect("an accepted file").1
}

/// Whether operations hold kinds 19 or 20, 21, 22, 23, 24, 25, a write-back.
fn holds(operations: &[Operation]) -> [bool; 7] {
    let has = |fits: fn(&Operation) -> bool| operations.iter().any(fits);
    [
        has(Operation::is_repeat),
        has(|operation| operation.kind() == 21),
        has(|operation| operation.kind() == 22),
        has(|operation| operation.kind() == 23),
        has(|operation| operation.kind() == 24),
        has(|operation| operation.kind() == 25),
        has(|operation| operation.write_back() != WriteBack::None),
    ]
}

impl Seen {
    fn add(&mut self, pair: &Pair) {
        self.pairs += 1;
        self.budget_0 += usize::from(pair.first.budget == 0);
        self.largest_budget += usize::from(pair.first.budget == u32::MAX);
        self.add_files(pair);
        self.add_first(pair);
    }

    fn add_files(&mut self, pair: &Pair) {
        let files = [&pair.first.file, &pair.second].map(|file| operations(file));
        for (seen, operations) in self.kinds.iter_mut().zip(&files) {
            for (count, found) in seen.iter_mut().zip(holds(operations)) {
                *count += usize::from(found);
            }
        }
        let begins = &files[1][0];
        self.begins_with[0] += usize::from(begins.last_of_do().is_some());
        self.begins_with[1] += usize::from(begins.is_repeat());
        self.begins_with[2] += usize::from(*begins == Operation::EndEarly);
        let is_full = files[0].len().is_multiple_of(63);
        self.full_block += usize::from(is_full);
        self.short_block += usize::from(!is_full);
    }

    fn add_first(&mut self, pair: &Pair) {
        let (first, memory) = pair.run_first();
        match first.ending {
            Ending::Done => self.done += 1,
            Ending::Spent => self.spent += 1,
            Ending::Trap(trap) => {
                let number = usize::from(trap.number());
                self.traps[number] += 1;
                let at_the_end = first.state.flow.pc == pair.count();
                self.traps_at_the_end[number] += usize::from(at_the_end);
            }
            Ending::Refused(_) => panic!("a first was refused"),
        }
        if first.ending == Ending::Done {
            let start = &pair.first;
            self.nothing_left += usize::from(first.steps == start.budget);
            self.leaves_s += usize::from(first.state.saturated != [false; 2]);
            self.leaves_o += usize::from(first.state.overflow != [false; 2]);
            self.leaves_mode += usize::from(first.state.mode != start.state.mode);
            self.leaves_memory += usize::from(memory != start.memory);
            self.add_second(pair);
        }
    }

    fn add_second(&mut self, pair: &Pair) {
        let (both, _) = in_succession(pair);
        let flow = &both.state.flow;
        self.steps += u64::from(both.steps);
        match both.ending {
            Ending::Done => self.second_done += 1,
            Ending::Spent => {
                self.second_spent += 1;
                self.loops_at_spent[usize::from(flow.active)] += 1;
                self.repeat_at_spent += usize::from(flow.repeat > 0);
            }
            Ending::Trap(trap) => {
                self.second_traps[usize::from(trap.number())] += 1;
                self.loops_at_trap += usize::from(flow.active > 0);
            }
            Ending::Refused(_) => panic!("a second was refused"),
        }
    }
}

fn at_least(seen: &Seen) {
    assert!(seen.pairs >= 12_000 && seen.steps >= 800_000);
    assert!(seen.done >= 4_000 && seen.spent >= 1_500);
    assert!(seen.traps[1..].iter().all(|&pairs| pairs >= 100));
    assert!(seen.traps_at_the_end[5..].iter().all(|&pairs| pairs >= 40));
    assert!(seen.second_done >= 1_000 && seen.second_spent >= 1_000);
    assert!(seen.second_traps[1..].iter().all(|&pairs| pairs >= 20));
    assert!(seen.nothing_left >= 300);
    assert!(seen.loops_at_spent.iter().all(|&pairs| pairs >= 30));
    assert!(seen.repeat_at_spent >= 100 && seen.loops_at_trap >= 100);
    assert!(seen.leaves_s >= 500 && seen.leaves_o >= 500);
    assert!(seen.leaves_mode >= 300 && seen.leaves_memory >= 1_000);
    assert!(seen.kinds.iter().flatten().all(|&files| files >= 1_000));
    assert!(seen.begins_with.iter().all(|&files| files >= 300));
    assert!(seen.short_block >= 10_000 && seen.full_block >= 100);
    assert!(seen.budget_0 >= 500 && seen.largest_budget >= 200);
}

#[test]
fn the_wish_on_random_pairs() {
    let mut random = Random::new(60);
    let mut seen = Seen::default();
    for number in 0..12_000 {
        let pair = accepted_pair(&mut random);
        assert_eq!(faults(&pair), [], "pair {number}");
        seen.add(&pair);
    }
    println!("{seen:#?}");
    at_least(&seen);
}

/// No point left out: the joined run is what is due, whole.
#[test]
fn everything_is_compared() {
    let mut random = Random::new(61);
    for _ in 0..500 {
        let pair = accepted_pair(&mut random);
        let mut file = vec![0; 40_000];
        let bytes = join(&pair.first.file, &pair.second, &mut file).expect("they fit");
        file.truncate(bytes);
        assert_eq!(pair.run_joined(file), in_succession(&pair));
    }
}

// ---- budgets

/// The pair with another budget.
fn with_budget(pair: &Pair, budget: u32) -> Pair {
    let mut pair = pair.clone();
    pair.first.budget = budget;
    pair
}

/// A pair whose first is done, of few steps in all.
fn short_pair(random: &mut Random) -> (Pair, [u32; 2]) {
    loop {
        let pair = accepted_pair(random);
        let [first, both] = needed(&pair, 400);
        if both <= 250 && both >= first + 5 {
            return (pair, [first, both]);
        }
    }
}

/// k and k2 being what the two need: each budget from 0 to k + k2 + 2.
#[test]
fn every_budget_of_random_pairs() {
    let mut random = Random::new(62);
    let (mut budgets, mut in_loops) = (0, 0);
    for _ in 0..100 {
        let (pair, [first, both]) = short_pair(&mut random);
        for budget in 0..=both + 2 {
            let pair = with_budget(&pair, budget);
            assert_eq!(faults(&pair), [], "budget {budget}");
            let (run, _) = in_succession(&pair);
            if budget >= first && budget < both {
                assert_eq!((run.ending, run.steps), (Ending::Spent, budget));
                in_loops += usize::from(run.state.flow.active > 0);
            }
            budgets += 1;
        }
    }
    println!("{budgets} budgets, {in_loops} spent in a loop of the second");
    assert!(budgets >= 4_000 && in_loops >= 700);
}

/// Exactly k: the first alone is done, the joined run is spent at the first's count.
#[test]
fn done_for_the_first_is_spent_for_both() {
    let mut random = Random::new(63);
    for _ in 0..300 {
        let (pair, [first, _]) = short_pair(&mut random);
        let pair = with_budget(&pair, first);
        assert_eq!(pair.run_first().0.ending, Ending::Done);
        let (run, _) = in_succession(&pair);
        assert_eq!((run.ending, run.steps), (Ending::Spent, first));
        assert_eq!(
            (run.state.flow.pc, run.state.flow.active),
            (pair.count(), 0)
        );
        assert_eq!(faults(&pair), []);
    }
}

// ---- refusals

/// Settings, states and files with something off: the joined run is refused as the
/// first's is, with 6 and 7; the call is refused with the number that is due.
#[test]
fn the_wish_on_damaged_pairs() {
    let mut random = Random::new(64);
    let (mut answers, mut runs) = ([0; 10], [0; 8]);
    for number in 0..6_000 {
        let pair = damaged_pair(&mut random);
        assert_eq!(faults(&pair), [], "pair {number}");
        let answer = join(&pair.first.file, &pair.second, &mut [0; 40_000]);
        answers[usize::from(answer.err().unwrap_or(0))] += 1;
        if let (Ok(_), true, Ending::Refused(number)) =
            (answer, pair.begins(), pair.run_first().0.ending)
        {
            runs[usize::from(number)] += 1;
        }
    }
    println!("joins {answers:?}, runs {runs:?}");
    assert!(answers[1..=5].iter().all(|&pairs| pairs >= 100));
    assert!(answers[0] >= 1_000 && runs[6] >= 200 && runs[7] >= 100);
}

/// An unused slot in use, with no loop active: 7 for the first and for both.
#[test]
fn unused_slots_are_refused_alike() {
    let mut random = Random::new(65);
    for slot in 0..4 {
        let mut pair = accepted_pair(&mut random);
        pair.first.state.flow.loops[slot].passes = 1;
        assert_eq!(pair.run_first().0.ending, Ending::Refused(7));
        assert_eq!(faults(&pair), []);
    }
}

// ---- files

/// A pair of programs of so many operations each, with loops.
fn sized_pair(random: &mut Random, counts: [usize; 2]) -> [Vec<Operation>; 2] {
    counts.map(|count| {
        let mut made = Vec::new();
        while made.len() < count {
            let more = operations(&accepted_pair(random).first.file);
            let base = made.len() as u16;
            if made.len() + more.len() <= count {
                made.extend(more.into_iter().map(|operation| raised(operation, base)));
            }
        }
        made
    })
}

/// Counts at the edges of a block, and 4,032 together.
const COUNTS: &str = "62+1 62+2 63+1 64+1 1+62 1+63 62+62 63+63 64+64 62+65 63+126 64+62 \
    126+63 127+61 200+300 1+4031 62+3970 63+3969 64+3968 2016+2016 4031+1";

fn counts() -> impl Iterator<Item = [usize; 2]> {
    COUNTS.split(' ').filter_map(|both| {
        let (first, second) = both.split_once('+')?;
        Some([first.parse().ok()?, second.parse().ok()?])
    })
}

/// p, then q with its lasts moved, by the operations themselves.
#[test]
fn the_joined_file_is_that_of_both_lists() {
    let mut random = Random::new(66);
    assert_eq!(counts().count(), 21);
    let mut loops = 0;
    for [n1, n2] in counts() {
        let [p, q] = sized_pair(&mut random, [n1, n2]);
        let following = q.iter().map(|&operation| raised(operation, n1 as u16));
        let both: Vec<Operation> = p.iter().copied().chain(following).collect();
        loops += q
            .iter()
            .filter(|operation| operation.last_of_do().is_some())
            .count();
        let mut out = vec![0; 512 * (n1 + n2).div_ceil(63)];
        let answer = join(&file_of_operations(&p), &file_of_operations(&q), &mut out);
        assert_eq!(answer, Ok(out.len()));
        assert_eq!(operations(&out), both, "{n1} and {n2}");
        assert_eq!(out, file_of_operations(&both));
    }
    assert!(loops >= 300);
}

/// Runs at the block boundaries and of the largest joined files.
#[test]
fn runs_of_pairs_of_these_sizes() {
    let mut random = Random::new(67);
    for [n1, n2] in [
        [62, 1],
        [62, 64],
        [63, 1],
        [63, 63],
        [64, 62],
        [2_016, 2_016],
        [4_031, 1],
    ] {
        let [p, q] = sized_pair(&mut random, [n1, n2]);
        let start: Case = accepted_pair(&mut random).first;
        for budget in [0, 1, 50, 500, 5_000] {
            let pair = Pair {
                first: Case {
                    file: file_of_operations(&p),
                    budget,
                    ..start.clone()
                },
                second: file_of_operations(&q),
            };
            assert_eq!(faults(&pair), [], "{n1} and {n2}");
        }
    }
    // 4,032 idle operations: done with as many steps, from either side.
    for n1 in [1, 63, 2_016, 4_031] {
        let first = Bench::new().budget(4_032).case(&vec![IDLE; n1]);
        let second = file_of(&vec![IDLE; 4_032 - n1]);
        let pair = Pair { first, second };
        assert_eq!(faults(&pair), []);
        let (run, _) = in_succession(&pair);
        assert_eq!(
            (run.ending, run.steps, run.state.flow.pc),
            (Ending::Done, 4_032, 4_032)
        );
    }
}
