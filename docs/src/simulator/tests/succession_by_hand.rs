//! Wish 6: runs of joined files worked out from the papers.

mod common;
use common::*;

use simulator::flow::{Loop, NO_LOOP};
use simulator::succession::{faults, in_succession, Pair};
use simulator::{join, Ending, Outcome};

/// The run of both files joined, and the memory it leaves; the statement holds.
fn run_joined(bench: &Bench, first: &[Op], second: &[Op]) -> (Outcome, Vec<u16>) {
    let pair = Pair {
        first: bench.case(first),
        second: file_of(second),
    };
    assert_eq!(faults(&pair), []);
    let mut file = vec![0; 32_768];
    let bytes = join(&pair.first.file, &pair.second, &mut file).expect("they fit");
    file.truncate(bytes);
    let run = pair.run_joined(file);
    assert_eq!(run, in_succession(&pair));
    run
}

/// Ending, steps and pc.
fn end_of(outcome: &Outcome) -> (Ending, u32, u16) {
    (outcome.ending, outcome.steps, outcome.state.flow.pc)
}

fn loops(slots: &[(u16, u32)]) -> [Loop; 4] {
    let slot = |i: usize| match slots.get(i) {
        Some(&(do_number, passes)) => Loop { do_number, passes },
        None => NO_LOOP,
    };
    std::array::from_fn(slot)
}

/// Document 01's example in two files: 3 x -2, doubled.
#[test]
fn the_papers_example_in_two_files() {
    let second = [mpy(0, 0x54, 0, 0, 0)];
    let (run, _) = run_joined(&Bench::new(), &[lit(4, 3), lit(5, 0xFFFE)], &second);
    assert_eq!(end_of(&run), (Ending::Done, 3, 3));
    assert_eq!(run.state.accumulators, [-12, 0]);
}

/// The first takes two steps, the second 1 + 3 x 2.
#[test]
fn every_budget_of_a_loop_in_the_second() {
    let first = [lit(4, 1), IDLE];
    // A gains 65,536 in each pass.
    let second = [do_lit(2, 2), add(0, 0, 4, 0), IDLE];
    // Budget, pc, passes left, A in units of 65,536.
    let due = [
        (0, 0, 0, 0),
        (1, 1, 0, 0),
        (2, 2, 0, 0),
        (3, 3, 3, 0),
        (4, 4, 3, 1),
        (5, 3, 2, 1),
        (6, 4, 2, 2),
        (7, 3, 1, 2),
        (8, 4, 1, 3),
    ];
    for (budget, pc, passes, units) in due {
        let (run, _) = run_joined(&Bench::new().budget(budget), &first, &second);
        assert_eq!(end_of(&run), (Ending::Spent, budget, pc));
        let active = if passes > 0 { &[(2, passes)][..] } else { &[] };
        assert_eq!(run.state.flow.loops, loops(active), "{budget}");
        assert_eq!(usize::from(run.state.flow.active), active.len());
        assert_eq!(run.state.accumulators[0], 65_536 * units);
    }
    for budget in [9, 10, u32::MAX] {
        let (run, _) = run_joined(&Bench::new().budget(budget), &first, &second);
        assert_eq!(end_of(&run), (Ending::Done, 9, 5));
        assert_eq!(run.state.flow.loops, [NO_LOOP; 4]);
    }
}

/// The first spent in its own loop: nothing of it is moved.
#[test]
fn the_first_spent_in_a_loop() {
    let first = [IDLE, do_lit(4, 3), IDLE, IDLE];
    let (run, _) = run_joined(&Bench::new().budget(5), &first, &[IDLE]);
    assert_eq!(end_of(&run), (Ending::Spent, 5, 3));
    assert_eq!(run.state.flow.loops, loops(&[(1, 4)]));
}

/// Traps 1 to 4 of the first, by its last operation or before it, end the run there.
#[test]
fn a_blocked_first_ends_it() {
    let odd = [lit(0, 0x1001), load(4, 0, 1)];
    let outside = [lit(0, 0x0FFE), load(4, 0, 1), IDLE];
    let shift = [lit(0, 17), shift_by(0, 0)];
    let cases: [(&[Op], u8, u32, u16); 3] =
        [(&odd, 1, 1, 1), (&outside, 2, 1, 1), (&shift, 3, 1, 1)];
    for (first, number, steps, pc) in cases {
        let (run, _) = run_joined(&Bench::new(), first, &[lit(9, 9)]);
        assert_eq!(end_of(&run), (trap(number), steps, pc));
        assert_eq!(run.state.w[9], 0);
    }
    let (run, _) = run_joined(&Bench::new(), &nest_of_five(), &[lit(9, 9)]);
    assert_eq!(end_of(&run), (trap(4), 4, 4));
}

/// Five DOs in each other: lasts 10, 9, 8, 7, 6.
fn nest_of_five() -> Vec<Op> {
    let mut nest: Vec<Op> = (0..5).map(|i| do_lit(i, 10 - i)).collect();
    nest.extend([IDLE; 6]);
    nest
}

/// Trap 4 in the second: the four active loops are counted from the joined start.
#[test]
fn five_loops_in_the_second() {
    let (run, _) = run_joined(&Bench::new(), &[IDLE, IDLE, IDLE], &nest_of_five());
    assert_eq!(end_of(&run), (trap(4), 7, 7));
    let due = loops(&[(3, 1), (4, 2), (5, 3), (6, 4)]);
    assert_eq!((run.state.flow.loops, run.state.flow.active), (due, 4));
}

/// Traps 5 to 7 by the first's last operation: the step is counted, pc is the first's
/// count, and the second is not begun.
#[test]
fn raised_by_the_firsts_last_operation() {
    let top = (1 << 39) - 1;
    let narrow = (1 << 31) - 1;
    let cases = [
        (5, 0x0100, [top, 1], 0),
        (6, 0x0400, [narrow, 1], 0),
        (7, 0x0200, [1, narrow], 1),
    ];
    for (number, traps, [a, b], target) in cases {
        let bench = Bench::new().mode(0).a(a).b(b).traps(traps);
        let (run, _) = run_joined(&bench, &[IDLE, add_both(target)], &[lit(9, 9)]);
        assert_eq!(end_of(&run), (trap(number), 2, 2));
        assert_eq!(run.state.w[9], 0);
        // With just the two steps, and with one less.
        let bench = bench.budget(2);
        let (run, _) = run_joined(&bench, &[IDLE, add_both(target)], &[IDLE]);
        assert_eq!(end_of(&run), (trap(number), 2, 2));
        let bench = bench.budget(1);
        let (run, _) = run_joined(&bench, &[IDLE, add_both(target)], &[IDLE]);
        assert_eq!(end_of(&run), (Ending::Spent, 1, 1));
    }
}

/// The same in the last place of a loop in its last pass: no loop is active after it.
#[test]
fn raised_in_the_last_place_of_a_loop() {
    let first = [do_lit(0, 2), IDLE, add_both(0)];
    let bench = Bench::new().mode(0).a((1 << 31) - 1).b(1).traps(0x0400);
    let (run, _) = run_joined(&bench, &first, &[IDLE]);
    assert_eq!(end_of(&run), (trap(6), 3, 3));
    assert_eq!(run.state.flow.active, 0);
}

/// What the first leaves is there for the second: S flags, mode, registers, memory.
#[test]
fn nothing_is_reset_between() {
    // 2^31 - 1 + 1 saturates at 32 bits and sets SA; then the mode word is 0021 hex.
    let first = [add_both(0), mode(0x0021), lit(0, 0x1002), store(0, 0, 2)];
    // IF 1: 3 x -2 is not doubled. The stored word is loaded, W0 has been stepped.
    let second = [
        lit(4, 3),
        lit(5, 0xFFFE),
        mpy(1, 0x54, 0, 0, 0),
        load(6, 0, 3),
    ];
    let bench = Bench::new().mode(0x00A0).a((1 << 31) - 1).b(1);
    let (run, memory) = run_joined(&bench, &first, &second);
    assert_eq!(end_of(&run), (Ending::Done, 8, 8));
    assert_eq!(run.state.accumulators, [(1 << 31) - 1, -6]);
    assert_eq!(run.state.saturated, [true, false]);
    assert_eq!(run.state.mode.0, 0x0021);
    assert_eq!((run.state.w[0], memory[1]), (0x1002, 0x1002));
    assert_eq!(run.state.w[6], 0);
}

/// Kind 25 in the second clears what the first has set.
#[test]
fn the_second_clears_the_firsts_flags() {
    let bench = Bench::new().mode(0x00A0).a((1 << 31) - 1).b(1);
    let (run, _) = run_joined(&bench.budget(1), &[add_both(0)], &[CLEAR_S]);
    assert_eq!(run.state.saturated, [true, false]);
    let bench = Bench::new().mode(0x00A0).a((1 << 31) - 1).b(1);
    let (run, _) = run_joined(&bench, &[add_both(0)], &[CLEAR_S]);
    assert_eq!(end_of(&run), (Ending::Done, 2, 2));
    assert_eq!(run.state.saturated, [false, false]);
}

/// Kind 23 outside a loop does nothing, also right after the first's loop.
#[test]
fn the_second_begins_with_kind_23() {
    let first = [do_lit(1, 2), IDLE, IDLE];
    let second = [END_EARLY, do_lit(3, 3), IDLE, IDLE];
    let (run, _) = run_joined(&Bench::new(), &first, &second);
    // 1 + 2 x 2, then 1 + 1 + 4 x 2.
    assert_eq!(end_of(&run), (Ending::Done, 15, 7));
}

/// The first's loop ends in its last operation, the second begins with DO, and its
/// own kind 23 finds its own loop.
#[test]
fn the_second_begins_with_a_loop() {
    let first = [do_lit(1, 2), IDLE, IDLE];
    let second = [do_lit(9, 4), IDLE, END_EARLY, IDLE, IDLE];
    let (run, _) = run_joined(&Bench::new(), &first, &second);
    // 5, then DO and one pass of four.
    assert_eq!(end_of(&run), (Ending::Done, 10, 8));
    let (run, _) = run_joined(&Bench::new().budget(8), &first, &second);
    assert_eq!(end_of(&run), (Ending::Spent, 8, 6));
    assert_eq!(run.state.flow.loops, loops(&[(3, 1)]));
}

/// A REPEAT of the second's, cut in its midst.
#[test]
fn the_second_begins_with_repeat() {
    let second = [repeat(4), add(0, 0, 4, 0)];
    let bench = Bench::new().w(4, 1);
    let (run, _) = run_joined(&bench.budget(4), &[IDLE], &second);
    assert_eq!(end_of(&run), (Ending::Spent, 4, 2));
    assert_eq!(run.state.flow.repeat, 3);
    assert_eq!(run.state.accumulators[0], 2 * 65_536);
}

/// A loop of the second across the edge of a block, last 62 + 4 = 66.
#[test]
fn a_loop_across_two_blocks() {
    let first = vec![IDLE; 62];
    let second = [do_w(3, 4), add(0, 0, 4, 0), IDLE, IDLE, IDLE, add_both(1)];
    let bench = Bench::new().w(3, 9).w(4, 1);
    let (run, _) = run_joined(&bench, &first, &second);
    // 62, then 1 + 10 x 4, then 1.
    assert_eq!(end_of(&run), (Ending::Done, 104, 68));
    assert_eq!(run.state.accumulators, [10 * 65_536; 2]);
}

/// The two differ in what X's buffer does to them: the settings are the same for both.
#[test]
fn one_buffer_for_both() {
    let mut bench = Bench::new().w(0, 0x1002);
    bench.settings.x = simulator::Circular {
        register: 0,
        start: 0x1000,
        end: 0x1005,
    };
    let up = [store(4, 0, 2); 2];
    let (run, _) = run_joined(&bench, &up, &up);
    // 1002, 1004, round to 1000, 1002, 1004.
    assert_eq!(run.state.w[0], 0x1004);
}

/// Refusals 6 and 7 of the first are those of the joined file; all stays as it came.
#[test]
fn refused_starts() {
    let bench = Bench::new().traps(0x0800);
    let (run, _) = run_joined(&bench, &[lit(9, 9)], &[IDLE]);
    assert_eq!(end_of(&run), (Ending::Refused(6), 0, 0));
    let bench = Bench::new().mode(0x0004).a(1 << 39);
    let (run, _) = run_joined(&bench, &[lit(9, 9)], &[IDLE]);
    assert_eq!(end_of(&run), (Ending::Refused(7), 0, 0));
    assert_eq!((run.state.w[9], run.state.mode.0), (0, 4));
}

/// Begun elsewhere the wish says nothing, and only the call is asked about.
#[test]
fn begun_elsewhere() {
    let pair = Pair {
        first: Bench::new().pc(1).case(&[IDLE, IDLE]),
        second: file_of(&[IDLE]),
    };
    assert!(!pair.begins());
    assert_eq!(faults(&pair), []);
    let within = Bench::new().pc(1).within(0, 1);
    let pair = Pair {
        first: within.case(&[do_lit(0, 2), IDLE, IDLE]),
        second: file_of(&[IDLE]),
    };
    assert!(!pair.begins());
}
