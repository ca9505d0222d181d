//! Wish 11 on random long sums: the call's answer is the one that is due, and where the
//! combined SA is clear the combined A is the exact sum of all products.

use std::collections::BTreeMap;

use simulator::combine;
use simulator::combine::Combined;
use simulator::generate::dot_product::dot_product;
use simulator::generate::long_sums::*;
use simulator::generate::random::Random;
use simulator::mode::Mode;
use simulator::stretches::*;
use simulator::walk::walk;
use simulator::Ending;

/// How often each thing was seen.
#[derive(Default)]
struct Seen {
    counts: BTreeMap<String, usize>,
}

impl Seen {
    fn note(&mut self, what: impl Into<String>) {
        *self.counts.entry(what.into()).or_default() += 1;
    }

    fn count(&self, what: &str) -> usize {
        self.counts.get(what).copied().unwrap_or(0)
    }

    fn at_least(&self, what: &str, least: usize) {
        let count = self.count(what);
        assert!(count >= least, "{what}: {count}");
    }
}

fn combined(sum: &Sum) -> Combined {
    let (boards, count) = sum.boards();
    combine(&boards, count, sum.mode).expect("accepted boards")
}

fn is_asked(sum: &Sum) -> bool {
    broken(sum).iter().all(|premise| *premise == Premise::Done)
}

/// The answer where the statement is about the sum, and it is not empty.
fn clear(sum: &Sum) -> Option<i64> {
    let Combined { a, sa, .. } = combined(sum);
    (is_asked(sum) && !sa).then_some(a)
}

/// Note what a sum is, and that nothing is wrong with it.
fn look_at(seen: &mut Seen, sum: &Sum) {
    assert_eq!(faults(sum), [], "{:?} {:04X}", sum.lengths, sum.mode.0);
    seen.note("sums");
    let broken = broken(sum);
    for premise in &broken {
        seen.note(format!("broken {premise:?}"));
    }
    if !is_asked(sum) {
        return;
    }
    seen.note("asked");
    let is_done = broken.is_empty();
    seen.note(if is_done { "all done" } else { "not all done" });
    let answer = combined(sum);
    let wide = sum.mode.0 & 0x0090;
    let doubled = sum.mode.doubles();
    if answer.sa {
        seen.note("SA set");
        seen.note(format!("SA set, {wide:04X}"));
    } else {
        seen.note("SA clear");
        seen.note(format!("SA clear, {wide:04X}"));
        seen.note(format!("SA clear, doubled {doubled}"));
        seen.note(format!("SA clear, {} boards", sum.runs.len()));
        let pairs = sum.pairs.iter().filter(|pair| pair.0 != 0 && pair.1 != 0);
        let products = pairs.count();
        for least in [1, 2, 10, 100] {
            if products >= least {
                seen.note(format!("SA clear, {least} products"));
            }
        }
        if answer.oa {
            seen.note("SA clear, OA set");
        }
        seen.note(match is_done {
            true => "SA clear, all done",
            false => "SA clear, not all done",
        });
    }
    if sum.lengths.contains(&0) {
        seen.note("an empty stretch");
    }
    let boards = sum.boards().0;
    if answer.sa && boards.iter().all(|board| !board.sa) {
        seen.note("SA set by a combined sum alone");
    }
    for run in &sum.runs {
        look_at_run(seen, run, answer.sa);
    }
}

/// Note what a run of a sum that is asked about does.
fn look_at_run(seen: &mut Seen, run: &simulator::cases::Case, sa: bool) {
    let (mut kinds, mut loops, mut repeats) = ([0; 26], 0, 0);
    let mut cleared_sb = false;
    let outcome = walk(run, |operation, before, after| {
        kinds[usize::from(operation.kind())] += 1;
        loops += usize::from(before.flow.active > 0);
        repeats += usize::from(before.flow.repeat > 0);
        cleared_sb |= before.saturated[1] && !after.saturated[1];
    });
    seen.note("runs");
    seen.note(format!("ends {}", outcome.ending));
    let clear = if sa { "SA set" } else { "SA clear" };
    let mut noted = |what: &str, holds: bool| {
        if holds {
            seen.note(format!("{what}, {clear}"));
        }
    };
    noted("SB set at the start", run.state.saturated[1]);
    noted(
        "SB set on the way",
        !run.state.saturated[1] && outcome.state.saturated[1],
    );
    noted("SB cleared by kind 25", cleared_sb);
    noted("kind 24", kinds[24] > 0);
    noted("kinds 14, 15", kinds[14] + kinds[15] > 0);
    noted("in loops", loops > 0);
    noted("in repeats", repeats > 0);
    noted(
        "begun in a loop or a repeat",
        run.state.flow.active > 0 || run.state.flow.repeat > 0,
    );
    noted("no steps", outcome.steps == 0);
}

fn seen_of(count: usize, seed: u64, make: fn(&mut Random) -> Sum) -> Seen {
    let mut random = Random::new(seed);
    let mut seen = Seen::default();
    for _ in 0..count {
        look_at(&mut seen, &make(&mut random));
    }
    println!("{:#?}", seen.counts);
    seen
}

/// What both kinds of sums must have, so that the statement is not empty.
fn has_all_kinds(seen: &Seen) {
    seen.at_least("SA clear", 3_000);
    seen.at_least("SA clear, 10 products", 1_500);
    seen.at_least("SA clear, 100 products", 200);
    seen.at_least("SA clear, OA set", 300);
    seen.at_least("SA set", 200);
    seen.at_least("SA set by a combined sum alone", 20);
    for wide in ["0000", "0010", "0080", "0090"] {
        seen.at_least(&format!("SA clear, {wide}"), 500);
    }
    for doubled in [true, false] {
        seen.at_least(&format!("SA clear, doubled {doubled}"), 1_000);
    }
    for boards in 2..=8 {
        seen.at_least(&format!("SA clear, {boards} boards"), 300);
    }
    seen.at_least("an empty stretch", 1_000);
    for what in ["in loops", "in repeats", "kind 24", "kinds 14, 15"] {
        seen.at_least(&format!("{what}, SA clear"), 1_000);
        seen.at_least(&format!("{what}, SA set"), 100);
    }
    seen.at_least("SB set at the start, SA clear", 1_000);
    seen.at_least("SB set on the way, SA clear", 900);
    seen.at_least("SB cleared by kind 25, SA clear", 20);
}

/// Lists cut anywhere, a program of its own for each stretch: where all are done the
/// pairs are the list's.
#[test]
fn lists_that_are_cut() {
    let seen = seen_of(4_000, 110, listed_sum);
    for premise in [
        "Cut", "Signed", "Accepted", "FromZero", "OneMode", "ByKind3", "ItsPairs",
    ] {
        assert_eq!(seen.count(&format!("broken {premise}")), 0);
    }
    has_all_kinds(&seen);
    seen.at_least("asked", 3_900);
    seen.at_least("all done", 2_000);
    seen.at_least("SA clear, all done", 2_000);
    seen.at_least("SA clear, not all done", 1_000);
    for wide in ["0000", "0010", "0080", "0090"] {
        seen.at_least(&format!("SA set, {wide}"), 30);
    }
    for ending in ["spent", "trap5", "trap6", "trap7"] {
        seen.at_least(&format!("ends {ending}"), 20);
    }
}

/// Any programs, begun anywhere and ended in any way.
#[test]
fn boards_with_any_programs() {
    let seen = seen_of(4_000, 111, free_sum);
    for premise in [
        "Cut", "Signed", "Accepted", "FromZero", "OneMode", "ByKind3",
    ] {
        assert_eq!(seen.count(&format!("broken {premise}")), 0);
    }
    has_all_kinds(&seen);
    seen.at_least("asked", 3_900);
    seen.at_least("begun in a loop or a repeat, SA clear", 2_000);
    for number in [1, 2, 3, 5, 6, 7] {
        seen.at_least(&format!("ends trap{number}"), 50);
    }
    seen.at_least("ends spent", 2_000);
    seen.at_least("ends done", 5_000);
}

/// Sums, each beside another one of the same products: in how many SA is clear in both, where
/// A is the same, and in how many in one of them.
fn compared(seed: u64, other_of: impl Fn(&mut Random, &Sum) -> Option<Sum>) -> (u32, u32) {
    let mut random = Random::new(seed);
    let (mut both, mut differ) = (0, 0);
    for _ in 0..1_500 {
        let first = listed_sum(&mut random);
        let Some(second) = other_of(&mut random, &first) else {
            continue;
        };
        match (clear(&first), clear(&second)) {
            (Some(one), Some(other)) => {
                assert_eq!(one, other);
                both += 1;
            }
            (Some(_), None) | (None, Some(_)) => differ += 1,
            _ => {}
        }
    }
    println!("{both} with both clear, {differ} with one of them");
    (both, differ)
}

/// Two cuttings of one list: the same A where both are clear, which is the exact sum.
#[test]
fn two_cuttings_of_one_list() {
    let (both, differ) = compared(112, |random, first| {
        let second = cut_sum(random, first.mode, &first.pairs);
        assert_eq!(faults(&second), []);
        (first.pairs == second.pairs).then_some(second)
    });
    assert!(both >= 700 && differ >= 5);
}

/// The same boards in another order have the same A where both are clear: the sum does
/// not depend on it, SA and so the answer do.
#[test]
fn boards_in_another_order() {
    let (both, differ) = compared(113, |_, first| {
        let mut runs = first.runs.clone();
        runs.reverse();
        let second = Sum::of_runs(first.mode, runs);
        assert_eq!(faults(&second), []);
        Some(second)
    });
    assert!(both >= 1_000 && differ >= 5);
}

// ---- ten thousand pairs

const MANY: usize = 10_000;
/// Integer and fractional with saturation off, with 40 bits and with 32 bits.
const MODES: [u16; 6] = [0x0021, 0x0020, 0x00B1, 0x00B0, 0x00A1, 0x00A0];

/// Such a list cut five times in each mode: how often SA is clear, by the mode word.
fn many(seed: u64, pairs: impl Fn(&mut Random) -> Vec<Words>) -> BTreeMap<u16, usize> {
    let mut random = Random::new(seed);
    let mut clears = BTreeMap::new();
    for word in MODES {
        let pairs = pairs(&mut random);
        for _ in 0..5 {
            let sum = whole_cut(&mut random, Mode(word), &pairs);
            assert_eq!((faults(&sum), broken(&sum)), (vec![], vec![]));
            assert_eq!((sum.pairs.len(), &sum.pairs), (MANY, &pairs));
            *clears.entry(word).or_default() += usize::from(clear(&sum).is_some());
        }
    }
    println!("{clears:X?}");
    clears
}

/// A cutting of which all runs are done with every pair, and kind 25 clears no SA.
fn whole_cut(random: &mut Random, mode: Mode, pairs: &[Words]) -> Sum {
    loop {
        let sum = cut_sum(random, mode, pairs);
        if broken(&sum).is_empty() && sum.pairs == pairs {
            return sum;
        }
    }
}

/// Random words: within 40 bits mostly, within 32 bits hardly.
#[test]
fn many_random_pairs() {
    let clears = many(114, |random| pairs_of(random, Size::Any, MANY));
    for word in [0x0021, 0x0020, 0x00B1, 0x00B0] {
        assert_eq!(clears[&word], 5, "{word:04X}");
    }
    assert_eq!((clears[&0x00A1], clears[&0x00A0]), (0, 0));
}

/// Words of which every sum is within 32 bits: 2 x 10,000 x 100 x 100.
#[test]
fn many_small_pairs() {
    let clears = many(115, |random| pairs_of(random, Size::Small, MANY));
    assert!(MODES.iter().all(|word| clears[word] == 5));
}

/// All -32,768 squared: 2^30 each, or 2^31, of which 256 leave 2^39 - 1.
#[test]
fn many_of_the_largest_product() {
    let clears = many(116, |_| vec![(0x8000, 0x8000); MANY]);
    assert!(MODES.iter().all(|word| clears[word] == 0));
    assert_eq!(exact_sum(&[(0x8000, 0x8000); 256], Mode(0x0020)), 1 << 39);
    let mut random = Random::new(117);
    for (count, is_clear) in [(255, true), (256, false), (257, false)] {
        let pairs = vec![(0x8000, 0x8000); count];
        for _ in 0..10 {
            let sum = whole_cut(&mut random, Mode(0x0020), &pairs);
            assert_eq!(clear(&sum).is_some(), is_clear);
        }
    }
}

/// A sum that leaves the limits and comes back: whether SA is set depends on the cuts, as
/// a stretch may go over the largest part of the sum. A is exact all the same, since
/// saturation is off.
#[test]
fn a_sum_that_comes_back() {
    let mut random = Random::new(118);
    let mut pairs = vec![(0x8000, 0x8000); 300];
    pairs.extend(vec![(0x8000, 0x7FFF); 300]);
    let mode = Mode(0x0020);
    let exact = exact_sum(&pairs, mode);
    assert_eq!(exact, 2 * 300 * 32_768);
    let mut seen = [0; 2];
    for _ in 0..40 {
        let sum = whole_cut(&mut random, mode, &pairs);
        assert_eq!(faults(&sum), []);
        let answer = combined(&sum);
        assert_eq!(i128::from(answer.a), exact);
        seen[usize::from(answer.sa)] += 1;
    }
    println!("clear and set: {seen:?}");
    assert!(seen[0] >= 10 && seen[1] >= 10);
}

// ---- the watching

/// What is watched is the run: state, steps and ending are those of the whole run.
#[test]
fn watching_changes_nothing() {
    let mut random = Random::new(119);
    for _ in 0..300 {
        let sum = free_sum(&mut random);
        for run in &sum.runs {
            assert_eq!(watch(run).outcome, run.run(run.budget).0);
        }
    }
}

/// The programs multiply the pairs that they are made for, in their order.
#[test]
fn dot_products_are_those_of_the_pairs() {
    let mut random = Random::new(120);
    let mut done = 0;
    for count in 0..400 {
        let pairs = pairs_of(&mut random, Size::Any, count % 90);
        let run = dot_product(&mut random, Mode(0x0021), &pairs);
        let watched = watch(&run);
        assert!(pairs.starts_with(&watched.pairs));
        if watched.outcome.ending == Ending::Done {
            assert_eq!(watched.pairs, pairs);
            let a = watched.outcome.state.accumulators[0];
            assert_eq!(i128::from(a), exact_sum(&pairs, Mode(0x0021)));
            done += 1;
        }
    }
    println!("{done} done");
    assert!(done >= 300);
}
