//! Wrong versions of wish 6, and the case that notices each: wrong joins, wrong
//! statements.

mod common;
use common::*;

use std::collections::BTreeSet;

use simulator::file::{blocks_of, check_file, MOST_OPERATIONS};
use simulator::flow::Flow;
use simulator::generate::damage::repair;
use simulator::generate::pairs::{accepted_pair, damaged_pair};
use simulator::generate::random::Random;
use simulator::join::moved;
use simulator::succession::*;
use simulator::{Ending, Outcome, State};

/// A pair on a bench.
fn pair(bench: Bench, first: &[Op], second: &[Op]) -> Pair {
    Pair {
        first: bench.case(first),
        second: file_of(second),
    }
}

/// A case that is right, and what it says of a wrong reading.
fn is_noticed(name: &str, pair: &Pair, wrong: Reading, by: &[Point]) {
    assert_eq!(faults(pair), [], "{name}");
    assert_eq!(faults_with(pair, wrong), by, "{name}");
}

/// How many of a few hundred random pairs notice a wrong reading, and by what.
fn noticed(name: &str, wrong: Reading) -> usize {
    let mut random = Random::new(68);
    let (mut pairs, mut points) = (0, BTreeSet::new());
    for number in 0..600 {
        let pair = match number % 3 {
            0 => damaged_pair(&mut random),
            _ => accepted_pair(&mut random),
        };
        let faults = faults_with(&pair, wrong);
        pairs += usize::from(!faults.is_empty());
        points.extend(faults);
    }
    println!("{name}: {pairs} of 600, {points:?}");
    pairs
}

#[test]
fn the_right_ones_are_not_noticed() {
    assert_eq!(noticed("right", Reading::OWN), 0);
}

// ---- wrong joins

fn with_join(join: Join) -> Reading {
    Reading {
        join,
        ..Reading::OWN
    }
}

type Answer = Result<usize, u8>;

/// The operations of both files as bytes, in the right order of refusals.
fn both(first: &[u8], second: &[u8]) -> Result<[Vec<u8>; 2], u8> {
    let (first, _) = check_file(first)?;
    let (second, _) = check_file(second)?;
    Ok([first, second])
}

fn count(operations: &[u8]) -> u16 {
    (operations.len() / 8) as u16
}

fn are_too_many(operations: &[Vec<u8>; 2]) -> bool {
    operations.iter().map(|part| part.len() / 8).sum::<usize>() > MOST_OPERATIONS
}

/// The file at the start of the output, or 8.
fn put(file: &[u8], out: &mut [u8]) -> Answer {
    let part = out.get_mut(..file.len()).ok_or(8)?;
    part.copy_from_slice(file);
    Ok(file.len())
}

/// A join that makes something else of the operations.
fn made(first: &[u8], second: &[u8], out: &mut [u8], make: fn(&[u8], &[u8]) -> Vec<u8>) -> Answer {
    let operations = both(first, second)?;
    if are_too_many(&operations) {
        return Err(9);
    }
    put(&blocks_of(&make(&operations[0], &operations[1])), out)
}

/// Two operations, then a loop of three passes: last 2 is 4 in the joined file.
fn looped() -> Pair {
    pair(Bench::new(), &[IDLE, IDLE], &[do_lit(2, 2), IDLE, IDLE])
}

/// The same by a register, which holds 2.
fn looped_by() -> Pair {
    let second = [do_w(3, 2), IDLE, IDLE];
    pair(Bench::new().w(3, 2), &[IDLE, IDLE], &second)
}

const REFUSED_RUN: [Point; 4] = [Point::Loads, Point::Ending, Point::Steps, Point::Pc];

#[test]
fn lasts_not_moved() {
    let wrong = with_join(|first, second, out| made(first, second, out, |p, q| [p, q].concat()));
    is_noticed("not moved", &looped(), wrong, &REFUSED_RUN);
    is_noticed("not moved", &looped_by(), wrong, &REFUSED_RUN);
    // A last that is good all the same, as the loop is long: four operations, not six.
    let long = [do_lit(1, 6), IDLE, IDLE, IDLE, IDLE, IDLE, IDLE];
    let pair = pair(Bench::new(), &[IDLE, IDLE], &long);
    is_noticed("not moved", &pair, wrong, &[Point::Loads, Point::Steps]);
    assert!(noticed("not moved", wrong) >= 200);
}

#[test]
fn one_kind_of_lasts_moved() {
    fn moved_but(p: &[u8], q: &[u8], kind: u8) -> Vec<u8> {
        let all = moved(q, count(p));
        let chosen = q.chunks(8).zip(all.chunks(8));
        let chosen = chosen.flat_map(|(old, new)| if old[0] == kind { old } else { new });
        p.iter().chain(chosen).copied().collect()
    }
    let literal =
        with_join(|first, second, out| made(first, second, out, |p, q| moved_but(p, q, 22)));
    is_noticed("kind 21 alone", &looped_by(), literal, &REFUSED_RUN);
    is_noticed("kind 21 alone", &looped(), literal, &[]);
    let register =
        with_join(|first, second, out| made(first, second, out, |p, q| moved_but(p, q, 21)));
    is_noticed("kind 22 alone", &looped(), register, &REFUSED_RUN);
    is_noticed("kind 22 alone", &looped_by(), register, &[]);
}

#[test]
fn lasts_moved_by_something_else() {
    let less = with_join(|first, second, out| {
        let make = |p: &[u8], q: &[u8]| [p, &moved(q, count(p) - 1)].concat();
        made(first, second, out, make)
    });
    is_noticed("one less", &looped(), less, &REFUSED_RUN);
    let bytes = with_join(|first, second, out| {
        let make = |p: &[u8], q: &[u8]| [p, &moved(q, p.len() as u16)].concat();
        made(first, second, out, make)
    });
    is_noticed("by bytes", &looped(), bytes, &REFUSED_RUN);
    let firsts = with_join(|first, second, out| {
        let make = |p: &[u8], q: &[u8]| moved(&[p, q].concat(), count(p));
        made(first, second, out, make)
    });
    let pair = pair(Bench::new(), &[do_lit(1, 2), IDLE, IDLE], &[IDLE; 4]);
    is_noticed(
        "the first's too",
        &pair,
        firsts,
        &[Point::Loads, Point::Steps],
    );
    for (name, wrong) in [("one less", less), ("by bytes", bytes), ("first's", firsts)] {
        assert!(noticed(name, wrong) >= 100, "{name}");
    }
}

#[test]
fn other_bytes_changed() {
    // Bytes 4 and 5 of every kind.
    let every = with_join(|first, second, out| {
        made(first, second, out, |p, q| {
            let mut q = q.to_vec();
            q.chunks_mut(8).for_each(|b| b[4] += count(p) as u8);
            [p, &q].concat()
        })
    });
    let pair = pair(Bench::new(), &[IDLE], &[load(4, 0, 1)]);
    assert!(faults_with(&pair, every).contains(&Point::Loads));
    let swapped = with_join(|first, second, out| join_of(second, first, out));
    assert!(faults_with(&looped(), swapped).contains(&Point::Loads));
}

/// The call as it is.
fn join_of(first: &[u8], second: &[u8], out: &mut [u8]) -> Answer {
    simulator::join(first, second, out)
}

/// The first's last block stays short, and stands in the middle.
#[test]
fn blocks_one_after_the_other() {
    let plain = with_join(|first, second, out| {
        both(first, second)?;
        put(&[first, second].concat(), out)
    });
    let renumbered = with_join(|first, second, out| {
        let [p, q] = both(first, second)?;
        let mut file = [first, &blocks_of(&moved(&q, count(&p)))].concat();
        for (number, block) in file.chunks_mut(512).enumerate() {
            block[0] = number as u8;
        }
        repair(&mut file);
        put(&file, out)
    });
    let by = [&[Point::Answer][..], &REFUSED_RUN].concat();
    is_noticed("plain", &looped(), plain, &by);
    is_noticed("renumbered", &looped(), renumbered, &by);
    // Full blocks alone hide the second of these.
    let full = pair(Bench::new(), &[IDLE; 63], &[do_lit(2, 2), IDLE, IDLE]);
    is_noticed("renumbered", &full, renumbered, &[]);
    is_noticed("plain", &full, plain, &REFUSED_RUN);
    for n1 in [62, 64] {
        let short = pair(Bench::new(), &vec![IDLE; n1], &[IDLE; 63]);
        assert!(
            faults_with(&short, renumbered).contains(&Point::Loads),
            "{n1}"
        );
    }
}

/// So many idle operations each.
fn idle(n1: usize, n2: usize) -> Pair {
    pair(Bench::new().budget(9), &vec![IDLE; n1], &vec![IDLE; n2])
}

#[test]
fn nine_at_4032_and_none_at_4033() {
    let at = with_join(|first, second, out| {
        let [p, q] = both(first, second)?;
        if p.len() + q.len() >= 8 * MOST_OPERATIONS {
            return Err(9);
        }
        join_of(first, second, out)
    });
    is_noticed("at 4,032", &idle(2_016, 2_016), at, &[Point::Answer]);
    is_noticed("at 4,032", &idle(2_015, 2_016), at, &[]);
    is_noticed("at 4,032", &idle(2_017, 2_016), at, &[]);
    let blocks = with_join(|first, second, out| {
        both(first, second)?;
        if first.len() + second.len() > 64 * 512 {
            return Err(9);
        }
        join_of(first, second, out)
    });
    // 33 and 32 blocks, yet 64 together.
    is_noticed("by blocks", &idle(2_017, 2_015), blocks, &[Point::Answer]);
    let none = with_join(|first, second, out| {
        let [p, q] = both(first, second)?;
        put(&blocks_of(&[p.clone(), moved(&q, count(&p))].concat()), out)
    });
    let by = faults_with(&idle(2_017, 2_016), none);
    assert!(by.contains(&Point::Answer), "{by:?}");
}

#[test]
fn eight_before_nine() {
    let wrong = with_join(|first, second, out| {
        let [p, q] = both(first, second)?;
        if out.len() < 512 * (p.len() + q.len()).div_ceil(8 * 63) {
            return Err(8);
        }
        join_of(first, second, out)
    });
    // 65 blocks do not fit into 32,769 bytes.
    is_noticed("8 first", &idle(2_017, 2_016), wrong, &[Point::Answer]);
    is_noticed("8 first", &idle(2_016, 2_016), wrong, &[]);
}

/// Files given 1 to 5, in this order.
fn bad_files() -> [Vec<u8>; 5] {
    let good = file_of(&[IDLE]);
    let mut header = good.clone();
    header[3] = 1;
    set_sum(&mut header);
    let mut sum = good.clone();
    sum[8] ^= 1;
    [
        Vec::new(),
        sum,
        header,
        file_of(&[[0; 8]]),
        file_of(&[repeat(0)]),
    ]
}

/// A pair of files by the numbers that they are given alone.
fn bad_pair(first: u8, second: u8) -> Pair {
    let files = bad_files();
    let mut pair = idle(1, 1);
    let bad = |number: u8| files[usize::from(number) - 1].clone();
    pair.first.file = bad(first);
    pair.second = bad(second);
    pair
}

#[test]
fn the_second_checked_before_the_first() {
    let wrong = with_join(|first, second, out| {
        check_file(second)?;
        join_of(first, second, out)
    });
    is_noticed("second first", &bad_pair(4, 2), wrong, &[Point::Answer]);
    is_noticed("second first", &bad_pair(2, 4), wrong, &[Point::Answer]);
    is_noticed("second first", &bad_pair(3, 3), wrong, &[]);
    assert!(noticed("second first", wrong) >= 5);
}

/// The lower of both numbers, as if they were checked side by side.
#[test]
fn both_checked_side_by_side() {
    let wrong =
        with_join(
            |first, second, out| match (check_file(first).err(), check_file(second).err()) {
                (Some(one), Some(other)) => Err(one.min(other)),
                _ => join_of(first, second, out),
            },
        );
    is_noticed("side by side", &bad_pair(4, 2), wrong, &[Point::Answer]);
    is_noticed("side by side", &bad_pair(5, 1), wrong, &[Point::Answer]);
    is_noticed("side by side", &bad_pair(2, 4), wrong, &[]);
}

/// 9 from the counts in the headers, before the second's numbers or the first's.
#[test]
fn nine_before_the_files_are_checked() {
    fn counted(file: &[u8]) -> usize {
        file.chunks(512).map(|block| usize::from(block[2])).sum()
    }
    let wrong = with_join(|first, second, out| {
        check_file(first)?;
        if counted(first) + counted(second) > MOST_OPERATIONS {
            return Err(9);
        }
        join_of(first, second, out)
    });
    for number in 2..=5 {
        let mut pair = idle(4_032, 1);
        pair.second = bad_files()[number - 1].clone();
        is_noticed("9 early", &pair, wrong, &[Point::Answer]);
    }
    let before_both = with_join(|first, second, out| {
        if counted(first) + counted(second) > MOST_OPERATIONS {
            return Err(9);
        }
        join_of(first, second, out)
    });
    let mut pair = idle(1, 4_032);
    pair.first.file = bad_files()[4].clone();
    is_noticed("9 at once", &pair, before_both, &[Point::Answer]);
}

#[test]
fn the_output_touched() {
    let cleared = with_join(|first, second, out| {
        let answer = join_of(first, second, out);
        out[answer.unwrap_or(0)..].fill(0);
        answer
    });
    is_noticed("cleared", &looped(), cleared, &[Point::Rest]);
    let on_refusal = with_join(|first, second, out| {
        let answer = join_of(first, second, out);
        if answer == Err(8) {
            out.fill(0);
        }
        answer
    });
    is_noticed("part of it", &looped(), on_refusal, &[Point::Rest]);
    let one_more = with_join(|first, second, out| match join_of(first, second, out) {
        Ok(bytes) if bytes == out.len() => Err(8),
        other => other,
    });
    let by = faults_with(&looped(), one_more);
    assert_eq!(by, [Point::Answer, Point::Rest]);
    for (name, wrong) in [
        ("cleared", cleared),
        ("part", on_refusal),
        ("more", one_more),
    ] {
        assert!(noticed(name, wrong) >= 300);
    }
}

// ---- wrong statements

fn with_due(due: fn(&Pair) -> Ended) -> Reading {
    Reading {
        due,
        ..Reading::OWN
    }
}

/// The second's part of a statement: from which state and memory, with which budget.
type Then = fn(&Pair, &Outcome, &[u16]) -> Ended;

/// The wish with another second part after a first that ended like this.
fn after(pair: &Pair, goes_on: fn(&Pair, &Outcome) -> bool, then: Then) -> Ended {
    let (first, memory) = pair.run_first();
    if !goes_on(pair, &first) {
        return (first, memory);
    }
    let (second, memory) = then(pair, &first, &memory);
    let mut outcome = second;
    outcome.steps = outcome.steps.wrapping_add(first.steps);
    outcome.state.flow = counted_from(pair.count(), &outcome.state.flow);
    (outcome, memory)
}

fn is_done(_: &Pair, first: &Outcome) -> bool {
    first.ending == Ending::Done
}

fn second_of(pair: &Pair, first: &Outcome, memory: &[u16]) -> Ended {
    let left = pair.first.budget - first.steps;
    pair.run_second(&first.state, memory, left)
}

/// Two operations, then three; so much budget.
fn plain(budget: u32) -> Pair {
    let second = [lit(4, 7), lit(5, 8), lit(6, 9)];
    pair(Bench::new().budget(budget), &[IDLE, IDLE], &second)
}

#[test]
fn the_whole_budget_for_the_second() {
    let wrong = with_due(|pair| {
        after(pair, is_done, |pair, first, memory| {
            pair.run_second(&first.state, memory, pair.first.budget)
        })
    });
    let by = [Point::Ending, Point::Steps, Point::Registers, Point::Pc];
    is_noticed("whole budget", &plain(4), wrong, &by);
    is_noticed(
        "whole budget",
        &plain(2),
        wrong,
        &[Point::Steps, Point::Registers, Point::Pc],
    );
    is_noticed("whole budget", &plain(5), wrong, &[]);
    assert!(noticed("whole budget", wrong) >= 40);
}

/// Done where the budget is used up by the first, as the first alone is.
#[test]
fn done_with_exactly_the_firsts_steps() {
    let wrong = with_due(|pair| {
        let runs_out = |pair: &Pair, first: &Outcome| {
            first.ending == Ending::Done && first.steps < pair.first.budget
        };
        after(pair, runs_out, second_of)
    });
    is_noticed("done at k", &plain(2), wrong, &[Point::Ending]);
    is_noticed("done at k", &plain(1), wrong, &[]);
    is_noticed("done at k", &plain(3), wrong, &[]);
}

fn with_start(pair: &Pair, first: &Outcome, memory: &[u16], change: fn(&mut State)) -> Ended {
    let mut state = first.state;
    change(&mut state);
    pair.run_second(&state, memory, pair.first.budget - first.steps)
}

/// SA and OA set by the first, another mode word, W4, A and B.
fn leaving(second: &[Op]) -> Pair {
    let bench = Bench::new().mode(0x0090).a((1 << 39) - 1).b(1);
    pair(bench, &[add_both(0), mode(0x0001), lit(4, 3)], second)
}

#[test]
fn the_second_from_another_state() {
    let reset = with_due(|pair| {
        after(pair, is_done, |pair, first, memory| {
            with_start(pair, first, memory, |state| *state = State::reset())
        })
    });
    let by = [Point::Sums, Point::Flags, Point::Registers, Point::Mode];
    is_noticed("from reset", &leaving(&[IDLE]), reset, &by);
    let cleared = with_due(|pair| {
        after(pair, is_done, |pair, first, memory| {
            with_start(pair, first, memory, |state| state.saturated = [false; 2])
        })
    });
    is_noticed("S cleared", &leaving(&[IDLE]), cleared, &[Point::Flags]);
    is_noticed("S cleared", &leaving(&[CLEAR_S]), cleared, &[]);
    let no_o = with_due(|pair| {
        after(pair, is_done, |pair, first, memory| {
            with_start(pair, first, memory, |state| state.overflow = [false; 2])
        })
    });
    is_noticed("O cleared", &leaving(&[IDLE]), no_o, &[Point::Flags]);
    let as_given = with_due(|pair| {
        after(pair, is_done, |pair, first, memory| {
            let left = pair.first.budget - first.steps;
            pair.run_second(&pair.first.state, memory, left)
        })
    });
    let by = faults_with(&leaving(&[IDLE]), as_given);
    assert_eq!(by, [Point::Flags, Point::Registers, Point::Mode]);
    for (name, wrong) in [
        ("reset", reset),
        ("S", cleared),
        ("O", no_o),
        ("given", as_given),
    ] {
        assert!(noticed(name, wrong) >= 15, "{name}");
    }
}

#[test]
fn the_second_from_the_first_memory() {
    let wrong = with_due(|pair| {
        after(pair, is_done, |pair, first, _| {
            second_of(pair, first, &pair.first.memory)
        })
    });
    let bench = Bench::new().w(0, 0x1000).w(1, 5);
    let pair = pair(bench, &[store(1, 0, 1)], &[IDLE]);
    is_noticed("memory as lent", &pair, wrong, &[Point::Memory]);
    assert!(noticed("memory as lent", wrong) >= 30);
}

#[test]
fn steps_not_added() {
    let seconds = with_due(|pair| {
        let (mut outcome, memory) = in_succession(pair);
        let (first, _) = pair.run_first();
        if first.ending == Ending::Done {
            outcome.steps -= first.steps;
        }
        (outcome, memory)
    });
    is_noticed("second's steps", &plain(9), seconds, &[Point::Steps]);
    let firsts = with_due(|pair| {
        let (mut outcome, memory) = in_succession(pair);
        outcome.steps = pair.run_first().0.steps;
        (outcome, memory)
    });
    is_noticed("first's steps", &plain(9), firsts, &[Point::Steps]);
    is_noticed("first's steps", &plain(2), firsts, &[]);
}

/// A first ended by trap 3 with budget left; a second that shows.
#[test]
fn on_after_a_trap() {
    let wrong = with_due(|pair| {
        let ends =
            |_: &Pair, first: &Outcome| matches!(first.ending, Ending::Done | Ending::Trap(_));
        after(pair, ends, second_of)
    });
    let trapped = pair(Bench::new().w(0, 17), &[shift_by(0, 0)], &[lit(9, 9)]);
    let by = [Point::Ending, Point::Steps, Point::Registers, Point::Pc];
    is_noticed("on after a trap", &trapped, wrong, &by);
    // Traps 5 to 7 by the last operation alone, with pc at the first's count.
    let at_the_end = with_due(|pair| {
        let ends = |pair: &Pair, first: &Outcome| {
            let is_past = first.state.flow.pc == pair.count();
            is_past && !matches!(first.ending, Ending::Refused(_))
        };
        after(pair, ends, second_of)
    });
    is_noticed("on after the end", &trapped, at_the_end, &[]);
    let top = (1 << 39) - 1;
    for (traps, a, b, target) in [
        (0x0100, top, 1, 0),
        (0x0400, 1 << 32, 1, 0),
        (0x0200, 1, 1 << 32, 1),
    ] {
        let bench = Bench::new().mode(0).a(a).b(b).traps(traps);
        let pair = pair(bench, &[add_both(target)], &[lit(9, 9)]);
        is_noticed("on after the end", &pair, at_the_end, &by);
        is_noticed("on after a trap", &pair, wrong, &by);
    }
    assert!(noticed("on after a trap", wrong) >= 50);
}

#[test]
fn on_after_spent() {
    let wrong = with_due(|pair| {
        let ends = |_: &Pair, first: &Outcome| matches!(first.ending, Ending::Done | Ending::Spent);
        after(pair, ends, second_of)
    });
    is_noticed("on after spent", &plain(1), wrong, &[Point::Pc]);
    assert!(noticed("on after spent", wrong) >= 50);
}

/// pc and DO numbers of a second that is spent in two of its loops.
fn spent_in_loops() -> Pair {
    let second = [do_lit(3, 4), do_lit(1, 3), IDLE, IDLE, IDLE];
    pair(Bench::new().budget(5), &[IDLE, IDLE], &second)
}

/// The wish with another way of counting.
fn with_flow(pair: &Pair, counted: fn(u16, &Flow) -> Flow) -> Ended {
    let (first, memory) = pair.run_first();
    if first.ending != Ending::Done {
        return (first, memory);
    }
    let (mut second, memory) = second_of(pair, &first, &memory);
    second.state.flow = counted(pair.count(), &second.state.flow);
    second.steps += first.steps;
    (second, memory)
}

#[test]
fn unused_slots_moved() {
    let unused = with_due(|pair| {
        with_flow(pair, |count, flow| {
            let mut flow = *flow;
            flow.pc += count;
            for slot in &mut flow.loops {
                slot.do_number += count;
            }
            flow
        })
    });
    is_noticed("unused slots", &spent_in_loops(), unused, &[Point::Loops]);
    is_noticed("unused slots", &plain(9), unused, &[Point::Loops]);
    assert!(noticed("unused slots", unused) >= 100);
}

#[test]
fn pc_not_moved() {
    let wrong = with_due(|pair| {
        with_flow(pair, |count, flow| Flow {
            pc: flow.pc,
            ..counted_from(count, flow)
        })
    });
    is_noticed("pc not moved", &spent_in_loops(), wrong, &[Point::Pc]);
    assert!(noticed("pc not moved", wrong) >= 100);
}

#[test]
fn loops_not_moved() {
    let none = with_due(|pair| {
        with_flow(pair, |count, flow| Flow {
            loops: flow.loops,
            ..counted_from(count, flow)
        })
    });
    is_noticed("loops not moved", &spent_in_loops(), none, &[Point::Loops]);
    is_noticed("loops not moved", &plain(9), none, &[]);
    assert!(noticed("loops not moved", none) >= 20);
    let innermost = with_due(|pair| {
        with_flow(pair, |count, flow| {
            let mut all = counted_from(count, flow);
            if flow.active > 1 {
                all.loops[0] = flow.loops[0];
            }
            all
        })
    });
    is_noticed("innermost", &spent_in_loops(), innermost, &[Point::Loops]);
}
