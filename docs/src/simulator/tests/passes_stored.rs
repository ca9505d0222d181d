//! The parts of crates/cases, crates/steps and crates/bags about wish 1: lines worked out
//! from the papers, by formula where a loop is alone, by hand elsewhere.

mod common;
use common::*;
use std::collections::BTreeSet;

use simulator::cases::Case;
use simulator::form::Form;
use simulator::generate::{runs, services, steps};

/// W1's counts and passes.
const WORDS: [u16; 10] = [
    0, 1, 0x3FFF, 0x4000, 0x4001, 0x7FFF, 0x8000, 0xBFFF, 0xC000, 0xFFFF,
];
const GOOD: [u32; 7] = [1, 2, 32_768, 32_769, 49_153, 65_535, 65_536];
const BAD: [u32; 7] = [
    0,
    65_537,
    98_304,
    131_072,
    131_073,
    2_147_483_649,
    4_294_967_295,
];

// ---- what is stored

/// The runs of a part in all forms, each with the first 28 fields of its stored line: a
/// short run's.
fn part(wanted: &str) -> Vec<(Case, String)> {
    let stored = String::from_utf8(stored_case_files("stdout")).unwrap();
    let mut lines = stored.lines();
    for (name, forms) in runs::parts() {
        if name == wanted {
            let start = |form| match form {
                Form::Short(case) => case,
                Form::Long(long) => long.start,
            };
            let short = |line: &str| line.split(' ').take(28).collect::<Vec<_>>().join(" ");
            return forms.into_iter().map(start).zip(lines.map(short)).collect();
        }
        lines.nth(forms.len() - 1);
    }
    panic!("no part of that name")
}

fn operations(case: &Case) -> Vec<Op> {
    let count = usize::from(case.file[2]);
    let bytes = case.file[8..8 + 8 * count].chunks_exact(8);
    bytes.map(|op| op.try_into().unwrap()).collect()
}

fn word_at(op: &Op, at: usize) -> u32 {
    u32::from(op[at]) + 256 * u32::from(op[at + 1])
}

// ---- lines

/// The slots of a state as a line has them.
fn slots(case: &Case) -> String {
    let flow = &case.state.flow;
    let slots = flow
        .loops
        .iter()
        .map(|slot| format!("{}:{}", slot.do_number, slot.passes));
    format!("{} {}", flow.active, slots.collect::<Vec<_>>().join(" "))
}

/// A line with registers and memory as they came.
fn unmoved(case: &Case, start: &str, loops: &str) -> String {
    let words = case.state.w.map(|word| format!("{word:04X}"));
    let memory = case.memory.iter().map(|&word| u64::from(word));
    let check = memory.fold(0, |h, x| (31 * h + x) % (1 << 32));
    format!("{start} {loops} {} {check}", words.join(" "))
}

/// The line of a refusal of a start in the reset mode with clear flags: bit 9 of SR is
/// set where a loop is active, bit 4 where repeat left is not 0.
fn refused(case: &Case, number: u8) -> String {
    let (flow, [a, b]) = (&case.state.flow, case.state.accumulators);
    let sr = 0x0200 * u16::from(flow.active > 0) + 0x0010 * u16::from(flow.repeat > 0);
    let (pc, left) = (flow.pc, flow.repeat);
    let start = format!("refused{number} 0 {a} {b} {sr:04X} {pc} {left} 0020");
    unmoved(case, &start, &slots(case))
}

fn one_loop(passes: u32) -> String {
    format!("1 0:{passes} 0:0 0:0 0:0")
}

// ---- a loop of two alone

const BODY: [Op; 2] = [[13, 0, 8, 4, 0, 0, 0, 0], [3, 1, 0x54, 0, 0, 0, 0, 0]];

/// DO at 0, W4 to A and W4 x W5 to B, both registers holding 1.
fn is_counting(case: &Case) -> bool {
    let operations = operations(case);
    operations.len() == 3
        && [21, 22].contains(&operations[0][0])
        && operations[1..] == BODY
        && case.state.w[4..6] == [1, 1]
}

/// Its line. With p passes left at operation 1 or 2, n steps have made so many of the
/// operations of the body from its first place on; each two of them are a pass.
fn counted(case: &Case) -> String {
    let begin = operations(case)[0];
    let (flow, literal) = (&case.state.flow, word_at(&begin, 2));
    if begin[0] == 21 && literal > 32_767 {
        return refused(case, 4);
    }
    let used = usize::from(flow.active);
    let is_good = flow.loops[..used]
        .iter()
        .all(|slot| (1..=65_536).contains(&slot.passes));
    if !is_good || flow.loops[used..].iter().any(|slot| slot.passes != 0) {
        return refused(case, 7);
    }
    let count = match begin[0] {
        21 => literal,
        _ => u32::from(case.state.w[usize::from(begin[1])]),
    };
    let (begun, left, place) = match used {
        0 => (1, count + 1, 0),
        _ => (0, flow.loops[0].passes, u32::from(flow.pc) - 1),
    };
    let steps = case.budget.min(begun + 2 * left - place);
    let end = place + steps - begun;
    let (a, b) = (end.div_ceil(2) - place.div_ceil(2), end / 2 - place / 2);
    let (a, b) = (65_536 * i64::from(a), 2 * i64::from(b));
    let overflow = 0x8800 * u16::from(a >= 1 << 31);
    if end == 2 * left {
        let start = format!("done {steps} {a} {b} {overflow:04X} 3 0 0020");
        return unmoved(case, &start, NO_LOOPS);
    }
    let (sr, pc) = (overflow + 0x0200, 1 + end % 2);
    let start = format!("spent {steps} {a} {b} {sr:04X} {pc} 0 0020");
    unmoved(case, &start, &one_loop(left - end / 2))
}

#[test]
fn every_loop_alone_has_its_line() {
    let mut all = part("passes");
    all.extend(part("decoded_passes"));
    all.retain(|(case, _)| is_counting(case));
    for (case, line) in &all {
        assert_eq!(counted(case), *line);
    }
    println!("{} loops", all.len());
    assert!(all.len() >= 75);
}

/// Each count to its end, after DO and after the first pass; at the edges of the budget;
/// in pass 40,000.
#[test]
fn the_counts_that_are_stored() {
    let seen: BTreeSet<(u16, u32)> = part("passes")
        .into_iter()
        .filter(|(case, _)| is_counting(case) && case.state.flow.pc == 0)
        .map(|(case, _)| {
            let register = usize::from(operations(&case)[0][1]);
            (case.state.w[register], case.budget)
        })
        .collect();
    for word in WORDS {
        for budget in [1, 3, u32::MAX] {
            assert!(seen.contains(&(word, budget)), "{word:04X} {budget}");
        }
    }
    for edge in [(0x4000, 32_770), (0x4000, 32_771), (0xFFFF, 131_072)] {
        assert!(seen.contains(&edge), "{edge:?}");
    }
    // 1 + 2 x 39,999 steps are before pass 40,000, one more is in it.
    for inside in [(0xFFFF, 79_999), (0xFFFF, 80_000), (0x9C3F, 80_000)] {
        assert!(seen.contains(&inside), "{inside:?}");
    }
}

/// "A register holding 4000 hex now gives 16,385 passes": 1 + 2 x 16,385 steps.
#[test]
fn a_register_of_4000_hex_gives_16_385_passes() {
    let starts = "done 32771 1073807360 32770 0000 3 0 0020 0 0:0 0:0 0:0 0:0 ";
    for (name, least) in [("passes", 3), ("decoded_passes", 1)] {
        let lines = part(name);
        let found = lines.iter().filter(|(_, line)| line.starts_with(starts));
        assert!(found.count() >= least, "{name}");
    }
}

/// Kind 21 with literal 32,767 and kind 22 by 7FFF hex: 32,768 passes both.
#[test]
fn kinds_21_and_22_side_by_side() {
    let starts = "done 65537 2147483648 65536 8800 3 0 0020 0 0:0 0:0 0:0 0:0 ";
    let lines = part("passes");
    let found = lines.iter().filter(|(_, line)| line.starts_with(starts));
    let kinds: BTreeSet<u8> = found.map(|(case, _)| operations(case)[0][0]).collect();
    assert_eq!(kinds, BTreeSet::from([21, 22]));
}

// ---- passes left in a state

/// DO at 0 with the last at 5, DO at 2 with the last at 4, at 3.
fn is_nest(case: &Case) -> bool {
    let operations = operations(case);
    let lasts = operations.iter().filter(|op| [21, 22].contains(&op[0]));
    let lasts: Vec<u32> = lasts.map(|op| word_at(op, 4)).collect();
    operations.len() == 7 && lasts == [5, 4]
}

/// Nine steps by hand. W4 is 1 and W5 16; counts are 5, six passes. A gets 16 at 5 and 1 at
/// 1, B 1 at 3 and 16 at 4.
fn nine_steps(case: &Case) -> String {
    let flow = &case.state.flow;
    let [outer, inner] = [0, 1].map(|slot| flow.loops[slot].passes);
    if [outer, inner].iter().any(|p| !(1..=65_536).contains(p)) {
        return refused(case, 7);
    }
    let spent = |a: u32, b: u32, pc: u32, loops: [u32; 2]| {
        let (a, b) = (65_536 * a, 65_536 * b);
        let start = format!("spent 9 {a} {b} 0200 {pc} 0 0020");
        let loops = format!("2 0:{} 2:{} 0:0 0:0", loops[0], loops[1]);
        unmoved(case, &start, &loops)
    };
    match (outer, inner) {
        // 3 4 3 4 5, then 6: A + B.
        (1, 2) => unmoved(case, "done 6 3276800 2228224 0000 7 0 0020", NO_LOOPS),
        // 3 4 3 4 5 1 2 3 4: the outer loop falls once, the inner one begins anew.
        (_, 2) => spent(17, 51, 3, [outer - 1, 5]),
        // 3 4 5 1 2 3 4 3 4.
        (2, 1) => spent(17, 51, 3, [1, 4]),
        // Four inner passes and 3.
        _ => spent(0, 69, 4, [outer, inner - 4]),
    }
}

/// Each number in the outer and in the inner slot of loops of both kinds.
#[test]
fn passes_left_of_both_kinds_in_both_slots() {
    let (mut seen, mut all) = (BTreeSet::new(), part("passes"));
    all.extend(part("decoded_passes"));
    for (case, line) in all.into_iter().filter(|(case, _)| is_nest(case)) {
        assert_eq!(nine_steps(&case), line);
        for (slot, number) in [(0, 0), (1, 2)] {
            let kind = operations(&case)[number][0];
            seen.insert((kind, slot, case.state.flow.loops[slot].passes));
        }
    }
    for kind in [21, 22] {
        for slot in [0, 1] {
            let all = GOOD.into_iter().chain(BAD);
            assert!(all.into_iter().all(|p| seen.contains(&(kind, slot, p))));
        }
    }
}

/// Four slots with 65,536 are accepted; 65,537 and 0 in any of them are not.
#[test]
fn four_loops_with_the_most_passes() {
    let cases = part("passes").into_iter();
    let four: Vec<_> = cases
        .filter(|(case, _)| case.state.flow.active == 4)
        .collect();
    let answers = four
        .iter()
        .map(|(_, line)| line.split(' ').take(2).collect());
    let answers: Vec<Vec<&str>> = answers.collect();
    assert_eq!(answers[..2], [["spent", "40"], ["spent", "40"]]);
    assert_eq!(answers[2..], [["refused7", "0"]; 8]);
    // From the second of the three operations of the innermost loop, and from its last.
    let left = [
        "4 0:65536 1:65536 2:65536 3:65523",
        "4 0:65536 1:65536 2:65536 3:65522",
    ];
    assert!(four[0].1.contains(left[0]) && four[1].1.contains(left[1]));
    for (case, line) in &four[2..] {
        assert_eq!(refused(case, 7), *line);
    }
}

// ---- lines by hand

/// The lines that are not loops alone and not states of two or four loops.
fn others() -> Vec<(Case, String)> {
    let is_other =
        |case: &Case| !is_counting(case) && !is_nest(case) && case.state.flow.active != 4;
    let mut all = part("passes");
    all.retain(|(case, _)| is_other(case));
    all
}

/// Up to the slots.
fn begin_with(lines: &[(Case, String)], starts: &[&str]) {
    assert_eq!(lines.len(), starts.len());
    for ((_, line), start) in lines.iter().zip(starts) {
        assert!(line.starts_with(&format!("{start} ")), "{line}\n{start}");
    }
}

/// A fifth DO by FFFF hex is trap 4 and does nothing; 65,536 runs of a last place let
/// passes fall once, 65,537 are 7.
#[test]
fn a_fifth_loop_and_a_repeated_last_place() {
    let fifth = "trap4 4 305419896 -1164413356 0200 4 0 0020 4 0:65536 1:65536 2:65536 3:65536";
    let repeated = "spent 65536 4294967296 0 8A00 1 0 0020 1 0:65535 0:0 0:0 0:0";
    let beyond = "refused7 0 0 0 0210 3 65537 0020 1 0:65536 0:0 0:0 0:0";
    begin_with(&others()[..3], &[fifth, repeated, beyond]);
}

/// Kind 23 in the four places of a loop of four, W4 being 1 and W5 16. From place 0 and 1
/// this pass is the last; from the last-but-one the next is; from the last 2 falls to 1.
#[test]
fn kind_23_with_the_most_passes() {
    let all = others();
    // By place: to the end; the step alone; from DO.
    let whole = [
        "done 4 1048576 1114112 0000 5 0 0020 0 0:0 0:0 0:0 0:0",
        "done 3 1048576 1048576 0000 5 0 0020 0 0:0 0:0 0:0 0:0",
        "done 6 65536 2162688 0000 5 0 0020 0 0:0 0:0 0:0 0:0",
        "done 5 1114112 65536 0000 5 0 0020 0 0:0 0:0 0:0 0:0",
    ];
    let step = [
        "spent 1 0 0 0200 2 0 0020 1 0:1 0:0 0:0 0:0",
        "spent 1 0 0 0200 3 0 0020 1 0:1 0:0 0:0 0:0",
        "spent 1 0 0 0200 4 0 0020 1 0:2 0:0 0:0 0:0",
        "spent 1 0 0 0200 1 0 0020 1 0:1 0:0 0:0 0:0",
    ];
    let from_do = [
        "done 5 1048576 1114112 0000 5 0 0020 0 0:0 0:0 0:0 0:0",
        "done 5 1114112 1048576 0000 5 0 0020 0 0:0 0:0 0:0 0:0",
        "done 9 131072 2228224 0000 5 0 0020 0 0:0 0:0 0:0 0:0",
        "done 9 2228224 131072 0000 5 0 0020 0 0:0 0:0 0:0 0:0",
    ];
    for place in 0..4 {
        let (whole, step) = (whole[place], step[place]);
        let due = [whole, whole, step, whole, whole, step, from_do[place]];
        begin_with(&all[3 + 7 * place..10 + 7 * place], &due);
    }
    // Repeated in the last place: min with 2 twice, a fall to 1; then ADD, REPEAT, two runs.
    let repeated = "done 6 65536 0 0000 4 0 0020 0 0:0 0:0 0:0 0:0";
    begin_with(&all[31..33], &[repeated; 2]);
}

#[test]
fn loops_by_register_in_each_other() {
    let due = [
        // 1 + 3 x (1 + 2 x 16,385 + 1); A 49,155 words, B twice as much and 3 words.
        "done 98317 3221422080 294918 8800 5 0 0020 0 0:0 0:0 0:0 0:0",
        // 1 + 16,385 x 6; A 32,770 words, B 2 x 32,770 and 16,385 words.
        "done 98311 2147614720 1073872900 8800 5 0 0020 0 0:0 0:0 0:0 0:0",
        // 1 + 24,999 x 4 + 3: 32,769 - 24,999 passes left.
        "spent 100000 1638400000 1638384464 0200 4 0 0020 1 0:7770 0:0 0:0 0:0",
        // 1 + 131,074 + 1 + 2 x 4,462: 69,998 passes of the inner loop.
        "spent 140000 4587388928 205532 8A00 2 0 0020 2 0:65535 1:61074 0:0 0:0",
        // 3 + 997, 498 passes and a half of 32,770.
        "spent 1000 32702464 996 0200 4 0 0020 2 0:49153 2:32272 0:0 0:0",
    ];
    begin_with(&others()[33..38], &due);
}

/// 2 x 25 and 2^23 in each pass: 65,536 of these are 2^39, whose low 40 bits are -2^39;
/// -2^39 is within the limits, and 65,535 x 2^23 is. 65,535 x 128 is 2^23 - 128.
#[test]
fn sums_over_a_whole_belt() {
    let due = [
        "done 131073 3276800 -3276800 0000 3 0 0020 0 0:0 0:0 0:0 0:0",
        "done 131073 -549755813888 -549755813888 EC00 3 0 0020 0 0:0 0:0 0:0 0:0",
        "done 131071 549747425280 -549747425280 C800 3 0 0020 0 0:0 0:0 0:0 0:0",
        "done 131073 549755813887 -549755813888 EC00 3 0 00F0 0 0:0 0:0 0:0 0:0",
        "trap5 131072 -549755813888 -549747425280 EE00 2 0 0020 1 0:1 0:0 0:0 0:0",
        "done 131073 549747425280 -549747425280 C800 3 0 1001 0 0:0 0:0 0:0 0:0",
    ];
    begin_with(&others()[38..44], &due);
}

/// X at W8, which stands still, and Y round 1020..103F hex by W10 to W4 and W5; the old B,
/// rounded, round 1010..101F hex by W13.
#[test]
fn a_sum_with_reads_round_a_buffer() {
    let (case, line) = &others()[44];
    let mut end = case.clone();
    let [mut a, mut b] = case.state.accumulators;
    let (mut y, mut back) = (18, 9);
    for _ in 0..65_536 {
        let [m, n] = [4, 5].map(|r| i64::from(end.state.w[r] as i16));
        a += 2 * m * n;
        end.memory[back] = rounded(b);
        back = if back == 15 { 8 } else { back + 1 };
        (end.state.w[4], end.state.w[5]) = (case.memory[2], case.memory[y]);
        y = if y == 31 { 16 } else { y + 1 };
        b -= 2 * i64::from(end.state.w[4] as i16) * i64::from(end.state.w[5] as i16);
    }
    end.state.w[10] = 0x1000 + 2 * y as u16;
    end.state.w[13] = 0x1000 + 2 * back as u16;
    let start = format!("done 131073 {a} {b} C800 3 0 0020");
    assert_eq!(unmoved(&end, &start, NO_LOOPS), *line);
}

/// The rounded store of B with RND 0 and SATDW.
fn rounded(value: i64) -> u16 {
    let (quotient, rest) = (value.div_euclid(65_536), value.rem_euclid(65_536));
    let up = rest > 32_768 || (rest == 32_768 && quotient % 2 != 0);
    (quotient + i64::from(up)).clamp(-32_768, 32_767) as u16
}

/// REPEAT by the same counts: W + 1 runs and REPEAT itself; a literal of 8000 hex is 4.
#[test]
fn kind_20_counts_as_before() {
    let all = others();
    assert_eq!(refused(&all[45].0, 4), all[45].1);
    for ((case, line), word) in all[46..56].iter().zip(WORDS) {
        let a = 65_536 * (i64::from(word) + 1);
        let sr = 0x8800 * u16::from(a >= 1 << 31);
        let steps = u32::from(word) + 2;
        let start = format!("done {steps} {a} 0 {sr:04X} 2 0 0020");
        assert_eq!(unmoved(case, &start, NO_LOOPS), *line);
    }
}

/// A count is taken once; FEDC hex read from memory gives 65,245 passes, -1 stored 65,536.
#[test]
fn other_ways_to_a_count() {
    let due = [
        "spent 7 196608 0 0200 1 0 0020 1 0:16382 0:0 0:0 0:0",
        "spent 6 131072 4 0200 2 0 0020 1 1:65243 0:0 0:0 0:0",
        "spent 6 65536 4 0200 2 0 0020 1 1:65534 0:0 0:0 0:0",
    ];
    begin_with(&others()[56..], &due);
}

/// Passes up to 65,536 in the random part, and beyond.
#[test]
fn random_runs_with_many_passes() {
    let all = part("random_passes");
    let has = |fits: &dyn Fn(u32) -> bool, accepted: bool| {
        let start = |(case, line): &&(Case, String)| {
            let mut slots = case.state.flow.loops.iter();
            slots.any(|slot| fits(slot.passes)) && line.starts_with("refused7") != accepted
        };
        all.iter().filter(start).count()
    };
    assert!(has(&|passes| (32_769..=65_536).contains(&passes), true) >= 8);
    assert!(has(&|passes| passes > 65_536, false) >= 2);
    assert_eq!(has(&|passes| passes > 65_536, true), 0);
}

// ---- single steps and services

/// The single steps: DO by each count, then passes left of both kinds, then kind 23.
#[test]
fn single_steps() {
    let stored = String::from_utf8(stored_step_files("stdout")).unwrap();
    let parts = steps::parts();
    let (name, cases) = parts.last().expect("a last part");
    assert_eq!((*name, cases.len()), ("passes", 82));
    let lines: Vec<&str> = stored.lines().collect();
    let lines = &lines[lines.len() - cases.len()..];
    for ((case, line), word) in cases.iter().zip(lines).zip(WORDS) {
        let start = "step 1 0 0 0200 1 0 0020";
        let passes = u32::from(word) + 1;
        assert_eq!(unmoved(case, start, &one_loop(passes)), *line);
    }
    let mut accepted = BTreeSet::new();
    for (case, line) in cases.iter().zip(lines) {
        let mut used = case.state.flow.loops[..usize::from(case.state.flow.active)].iter();
        let is_good = used.all(|slot| (1..=65_536).contains(&slot.passes));
        assert_eq!(line.starts_with("step 1 "), is_good, "{line}");
        assert_eq!(*line == refused(case, 7), !is_good);
        accepted.extend(case.state.flow.loops.map(|slot| slot.passes));
    }
    assert!(GOOD.iter().chain(&BAD).all(|p| accepted.contains(p)));
}

/// Services: 16 steps of each loop of two over three bags; a bag that goes on with 65,537
/// passes is refused, one that starts again is served.
#[test]
fn services_with_many_passes() {
    let stored = String::from_utf8(stored_bags("stdout")).unwrap();
    let parts = services::parts();
    let (name, all) = parts.last().expect("a last part");
    assert_eq!((*name, all.len()), ("passes", 51));
    let lines: Vec<&str> = stored.lines().collect();
    let lines = &lines[lines.len() - 1 - all.len()..];
    // 1 + 4 + 9 steps: 6 passes and a half.
    for (line, word) in lines.iter().zip(WORDS).skip(2) {
        let left = u32::from(word) + 1 - 6;
        let start = format!("served 458752 12 0200 2 0 0020 {} ", one_loop(left));
        assert!(line.starts_with(&start), "{line}");
        assert!(line.ends_with(" 0010 1 0010 4 0010 9"));
    }
    for (serving, line) in all.iter().zip(lines).skip(11).take(32) {
        let passes = serving.start.state.flow.loops[0].passes;
        let goes_on = serving.restarts[0] == 0;
        let is_refused = goes_on && !(1..=65_536).contains(&passes);
        assert_eq!(line.starts_with("refused7 0 0 0200 1 0 0020 "), is_refused);
        assert_eq!(line.starts_with("served "), !is_refused);
        if goes_on && !is_refused && passes > 1 {
            // 3 + 6 steps: 4 passes and a half.
            let start = format!("served 327680 8 0200 2 0 0020 {} ", one_loop(passes - 4));
            assert!(line.starts_with(&start), "{line}");
        }
    }
    let belts = [
        "served 4294967296 131072 8800 3 0 0020 0 0:0 0:0 0:0 0:0 ",
        "served -549755813888 -549755813888 EC00 3 0 0020 0 0:0 0:0 0:0 0:0 ",
        "served 549747425280 -549747425280 C800 3 0 0020 0 0:0 0:0 0:0 0:0 ",
        "served 655360 655360 0200 3 0 0020 1 2:32768 0:0 0:0 0:0 ",
    ];
    for (line, start) in lines[47..51].iter().zip(belts) {
        assert!(line.starts_with(start), "{line}");
    }
}
