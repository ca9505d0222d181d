//! Whole services worked out by hand from SERVICE.md and document 01: the line of
//! each. Memory has four words a, b, c, d with the check 29,791 a + 961 b + 31 c +
//! d; the check of endings or steps p, q, r goes p, 31 p + q, 31 (31 p + q) + r. An
//! added word counts 65,536 times. Ending codes 10, 21 .. 27 hex are 16, 33 .. 39.

mod common;
use common::*;
use simulator::bags::{line, Serving};
use simulator::generate::services::build::{AGAIN, ON};

fn on(bench: Bench, ops: &[Op]) -> Serving {
    Serving::of(bench.case(ops))
}

// ---- bags one after the other

#[test]
fn one_bag_is_one_run() {
    // 3 x -2, doubled. Endings 0; steps 3.
    let ops = [lit(4, 3), lit(5, 0xFFFE), mpy(0, 0x54, 0, 0, 0)];
    let serving = on(memory([0; 4]), &ops).bags(&[(100, ON)]);
    let expected = "served -12 0 0000 3 0 0020 0 0:0 0:0 0:0 0:0 \
        0000 0000 0000 0000 0003 FFFE 0000 0000 0000 0000 0000 0000 0000 0000 0 \
        0 3 0000 3";
    assert_eq!(line(&serving), expected);
}

#[test]
fn no_bags_leave_everything() {
    // 29,791 + 2 x 961 + 3 x 31 + 4. Endings 0, 1, 2; steps 0, 1.
    let serving = on(memory([1, 2, 3, 4]).a(5), &[IDLE]).room(3, 2);
    let expected = "served 5 0 0000 0 0 0020 0 0:0 0:0 0:0 0:0 \
        0000 0000 0000 0000 0000 0000 0000 0000 0000 0000 0000 0000 0000 0000 31810 \
        33 1";
    assert_eq!(line(&serving), expected);
}

/// The word at 1000 hex to W4, added to A so many times.
fn adding(times: usize) -> Vec<Op> {
    let mut ops = vec![load(4, 0, 1)];
    ops.resize(1 + times, add(0, 0, 4, 0));
    ops
}

#[test]
fn three_bags_with_a_spent_one_between() {
    // 5 + 5; 7, spent before its second; then 7 again, since W4 is not loaded
    // anew: 24 x 65,536. The last word put in is 9: 9 x 29,791. Endings 0, 16, 0:
    // 16 x 31. Steps 3, 2, 1: 3, 95, 2,946.
    let serving = on(memory([0; 4]).w(0, 0x1000), &adding(2))
        .window_at(0, 1)
        .bag(10, AGAIN, &[5])
        .bag(2, AGAIN, &[7])
        .bag(10, ON, &[9]);
    let expected = "served 1572864 0 0000 3 0 0020 0 0:0 0:0 0:0 0:0 \
        1000 0000 0000 0000 0007 0000 0000 0000 0000 0000 0000 0000 0000 0000 268119 \
        496 2946 0000 3 0010 2 0000 1";
    assert_eq!(line(&serving), expected);
}

#[test]
fn sa_stays_set_through_the_later_bags() {
    // SATA, ACCSAT 0. 32,767 x 65,536 = 2,147,418,112; once more is kept at
    // 2^31 - 1 with SA; -1 gives 2,147,418,111 within the limits; then a restart
    // without a budget. SR 2000 + 0400. Endings 0, 0, 0, 16. Steps 2, 2, 2, 0: 2,
    // 64, 1,986, 61,566.
    let serving = on(memory([0; 4]).w(0, 0x1000).mode(0x00A0), &adding(1))
        .window_at(0, 1)
        .bag(9, AGAIN, &[0x7FFF])
        .bag(9, AGAIN, &[0x7FFF])
        .bag(9, AGAIN, &[0xFFFF])
        .bag(0, AGAIN, &[0]);
    let expected = "served 2147418111 0 2400 0 0 00A0 0 0:0 0:0 0:0 0:0 \
        1000 0000 0000 0000 FFFF 0000 0000 0000 0000 0000 0000 0000 0000 0000 0 \
        16 61566 0000 2 0000 2 0000 2 0010 0";
    assert_eq!(line(&serving), expected);
}

#[test]
fn write_back_in_each_bag() {
    // A is 1.5, 2.5, 3.5 as it is written back: ties, to the even 2, 2, 4 at words
    // 0, 1, 2; the controller's last word is 9. 59,582 + 1,922 + 124 + 9. Steps 2,
    // 64, 1,986.
    let ops = [add(0, 0, 4, 0), movsac(1, 0, 0, 0, 2)];
    let serving = on(memory([0; 4]).a(32_768).w(4, 1).w(13, 0x1000), &ops)
        .window_at(3, 1)
        .bag(9, AGAIN, &[7])
        .bag(9, AGAIN, &[8])
        .bag(9, AGAIN, &[9]);
    let expected = "served 229376 0 0000 2 0 0020 0 0:0 0:0 0:0 0:0 \
        0000 0000 0000 0000 0001 0000 0000 0000 0000 0000 0000 0000 0000 1006 61637 \
        0 1986 0000 2 0000 2 0000 2";
    assert_eq!(line(&serving), expected);
}

// ---- starts in the middle

#[test]
fn a_start_in_a_loop_goes_on_and_is_started_again() {
    // A and B once, then A: one pass left at place 2. The restart drops the loop,
    // and DO gives three passes. Endings 16, 512, 15,888. Steps 3, 94, 2,914.
    let ops = [do_lit(2, 2), add(0, 0, 4, 0), add(1, 0, 4, 0)];
    let bench = memory([0; 4]).w(4, 1).pc(1).within(0, 2);
    let serving = on(bench, &ops).bags(&[(3, ON), (1, AGAIN), (0, ON)]);
    let expected = "served 131072 65536 0200 1 0 0020 1 0:3 0:0 0:0 0:0 \
        0000 0000 0000 0000 0001 0000 0000 0000 0000 0000 0000 0000 0000 0000 0 \
        15888 2914 0010 3 0010 1 0010 0";
    assert_eq!(line(&serving), expected);
}

#[test]
fn a_start_in_a_repeat_goes_on_and_is_started_again() {
    // Three runs are left: two, then the last. Started again REPEAT makes five due,
    // two are done: 3 + 2 times. Endings 16, 512, 15,888. Steps 2, 63, 1,956.
    let ops = [repeat(4), add(0, 0, 4, 0), add(1, 0, 4, 0)];
    let bench = memory([0; 4]).w(4, 1).pc(1).repeating(3);
    let serving = on(bench, &ops).bags(&[(2, ON), (1, ON), (3, AGAIN)]);
    let expected = "served 327680 0 0010 1 3 0020 0 0:0 0:0 0:0 0:0 \
        0000 0000 0000 0000 0001 0000 0000 0000 0000 0000 0000 0000 0000 0000 0 \
        15888 1956 0010 2 0010 1 0010 3";
    assert_eq!(line(&serving), expected);
}

#[test]
fn any_byte_but_0_starts_again() {
    // Two operations from place 1: both of them, or the second alone.
    let from_one = |restart| on(memory([0; 4]).pc(1), &[IDLE, IDLE]).bags(&[(9, restart)]);
    let start = "served 0 0 0000 2 0 0020 0 0:0 0:0 0:0 0:0 \
        0000 0000 0000 0000 0000 0000 0000 0000 0000 0000 0000 0000 0000 0000 0";
    for byte in [1, 2, 128, 255] {
        assert_eq!(line(&from_one(byte)), format!("{start} 0 2 0000 2"));
    }
    assert_eq!(line(&from_one(0)), format!("{start} 0 1 0000 1"));
}

// ---- traps

#[test]
fn trap_1_stays_until_the_program_starts_again() {
    // W1 is 1003 hex, also in the second bag, whose word is not loaded; then 1004:
    // word 2, 4 x 65,536. Memory 4,100, 3, 4, 5: 122,143,100 + 2,883 + 124 + 5.
    // Endings 33, 1,056, 32,736. Steps 1, 31, 964.
    let ops = [load(1, 0, 1), load(4, 1, 1), add(0, 0, 4, 0)];
    let serving = on(memory([0, 3, 4, 5]).w(0, 0x1000), &ops)
        .window_at(0, 1)
        .bag(9, ON, &[0x1003])
        .bag(9, ON, &[0x1004])
        .bag(9, AGAIN, &[0x1004]);
    let expected = "served 262144 0 0000 3 0 0020 0 0:0 0:0 0:0 0:0 \
        1000 1004 0000 0000 0004 0000 0000 0000 0000 0000 0000 0000 0000 0000 122146112 \
        32736 964 0021 1 0021 0 0000 3";
    assert_eq!(line(&serving), expected);
}

#[test]
fn trap_4_leaves_four_loops_and_a_restart_none() {
    // Four DOs, the fifth is blocked; then two DOs. Endings 36, 36 x 31 + 16. Steps
    // 4 x 31 + 2.
    let mut ops: Vec<Op> = (0..5).map(|level| do_lit(0, 12 - level)).collect();
    ops.extend([IDLE; 8]);
    let serving = on(memory([0; 4]), &ops).bags(&[(9, ON), (2, AGAIN)]);
    let expected = "served 0 0 0200 2 0 0020 2 0:1 1:1 0:0 0:0 \
        0000 0000 0000 0000 0000 0000 0000 0000 0000 0000 0000 0000 0000 0000 0 \
        1132 126 0024 4 0010 2";
    assert_eq!(line(&serving), expected);
}

#[test]
fn trap_5_then_done_then_started_again() {
    // 2^39 - 1 + 1 is kept as -2^39 with SA and OA: trap 5, at the end; nothing is
    // left to do; then -2^39 + 1. SR 8000 + 2000 + 0800 + 0400. Endings 37, 1,147,
    // 35,557. Steps 1, 31, 962.
    let bench = memory([1, 2, 3, 4]).a((1 << 39) - 1).b(1).mode(0);
    let serving = on(bench.traps(0x0100), &[add_both(0)]).bags(&[(9, ON), (9, ON), (9, AGAIN)]);
    let expected = "served -549755813887 1 AC00 1 0 0000 0 0:0 0:0 0:0 0:0 \
        0000 0000 0000 0000 0000 0000 0000 0000 0000 0000 0000 0000 0000 0000 31810 \
        35557 962 0025 1 0000 0 0000 1";
    assert_eq!(line(&serving), expected);
}

#[test]
fn trap_7_at_each_step_that_writes_b() {
    // 2^31 - 1 and three times 65,536, the third after a restart. SR 4000 + 0800.
    // Endings 39, 1,248, 38,688, 1,199,367. Steps 1, 32, 992, 30,753.
    let bench = memory([0; 4]).b(2_147_483_647).w(4, 1).traps(0x0200);
    let ops = [add(1, 0, 4, 0), add(1, 0, 4, 0)];
    let serving = on(bench, &ops).bags(&[(5, ON), (5, ON), (5, ON), (5, AGAIN)]);
    let expected = "served 0 2147680255 4800 1 0 0020 0 0:0 0:0 0:0 0:0 \
        0000 0000 0000 0000 0001 0000 0000 0000 0000 0000 0000 0000 0000 0000 0 \
        1199367 30753 0027 1 0027 1 0000 0 0027 1";
    assert_eq!(line(&serving), expected);
}

#[test]
fn kind_25_clears_sa_and_the_next_bag_sets_it_again() {
    // SATA, ACCSAT 0: 2^31 - 1 + 1 is kept with SA; cleared; again; a restart keeps
    // it. Endings 16, 496, 15,392, 477,168. Steps 1, 32, 993, 30,783.
    let bench = memory([0; 4]).a(2_147_483_647).b(1).mode(0x0080);
    let bags = [(1, ON), (1, ON), (1, AGAIN), (0, AGAIN)];
    let serving = on(bench, &[add_both(0), CLEAR_S]).bags(&bags);
    let expected = "served 2147483647 1 2400 0 0 0080 0 0:0 0:0 0:0 0:0 \
        0000 0000 0000 0000 0000 0000 0000 0000 0000 0000 0000 0000 0000 0000 0 \
        477168 30783 0010 1 0000 1 0010 1 0010 0";
    assert_eq!(line(&serving), expected);
}

// ---- lent slices and refusals

#[test]
fn what_lies_past_the_bags_stays() {
    // Endings 16, 1, 2, 3: 16, 497, 15,409, 477,682. Steps 0, 1, 2: 33.
    let serving = on(memory([0; 4]), &[IDLE]).bags(&[(0, AGAIN)]);
    let expected = "served 0 0 0000 0 0 0020 0 0:0 0:0 0:0 0:0 \
        0000 0000 0000 0000 0000 0000 0000 0000 0000 0000 0000 0000 0000 0000 0 \
        477682 33 0010 0";
    assert_eq!(line(&serving.lists(5, 6).room(4, 3)), expected);
}

/// The fields of A 5, this pc and memory 1, 2, 3, 4 with nothing else.
fn as_it_came(first: &str, pc: u16, checks: &str) -> String {
    format!(
        "{first} 5 0 0000 {pc} 0 0020 0 0:0 0:0 0:0 0:0 \
        0000 0000 0000 0000 0000 0000 0000 0000 0000 0000 0000 0000 0000 0000 31810 \
        {checks}"
    )
}

fn kept() -> Bench {
    memory([1, 2, 3, 4]).a(5)
}

#[test]
fn a_window_past_the_end_is_refused_and_shows_what_came() {
    // Words 3 and 4 of four. Endings 0, 1, 2; steps 0, 1.
    let serving = on(kept(), &[IDLE]).bag(9, AGAIN, &[6, 7]).room(3, 2);
    let refused = as_it_came("refused8", 0, "33 1");
    assert_eq!(line(&serving.clone().window_at(3, 2)), refused);
    // Words 2 and 3 are there: 29,791 + 1,922 + 6 x 31 + 7; endings 0, 1, 2; steps
    // 1, 1: 32.
    let expected = "served 5 0 0000 1 0 0020 0 0:0 0:0 0:0 0:0 \
        0000 0000 0000 0000 0000 0000 0000 0000 0000 0000 0000 0000 0000 0000 31906 \
        33 32 0000 1";
    assert_eq!(line(&serving.window_at(2, 2)), expected);
}

#[test]
fn a_window_is_judged_in_whole_numbers_without_bags_too() {
    let none = || on(kept(), &[IDLE]);
    for (first, size) in [(u32::MAX, 1), (1, u32::MAX), (u32::MAX, 0), (5, 0), (0, 5)] {
        let refused = as_it_came("refused8", 0, "0 0");
        assert_eq!(line(&none().window_at(first, size)), refused);
    }
    for (first, size) in [(4, 0), (0, 4), (3, 1)] {
        let served = as_it_came("served", 0, "0 0");
        assert_eq!(line(&none().window_at(first, size)), served);
    }
}

#[test]
fn each_slice_too_short_is_refused() {
    // Two bags of one word; endings and steps 0, 1: 1, or 0 alone.
    let two = || {
        let serving = on(kept(), &[IDLE]).window_at(1, 1);
        serving.bag(9, AGAIN, &[6]).bag(9, AGAIN, &[7])
    };
    let refused = |serving, checks| {
        assert_eq!(line(&serving), as_it_came("refused8", 0, checks));
    };
    refused(two().lists(1, 2), "1 1");
    refused(two().lists(2, 1), "1 1");
    refused(two().room(1, 2), "0 1");
    refused(two().room(2, 1), "1 0");
    refused(two().window_at(4, 1), "1 1");
    // 29,791 + 7 x 961 + 93 + 4; endings 0, 0; steps 1, 1.
    let expected = "served 5 0 0000 1 0 0020 0 0:0 0:0 0:0 0:0 \
        0000 0000 0000 0000 0000 0000 0000 0000 0000 0000 0000 0000 0000 0000 36615 \
        0 32 0000 1 0000 1";
    assert_eq!(line(&two()), expected);
}

#[test]
fn refusals_1_to_7_come_before_8() {
    // pc 3 of one operation, which a restart mends; no room for steps.
    let three = |way| on(kept().pc(3), &[IDLE]).bags(&[(9, way)]).room(3, 0);
    assert_eq!(line(&three(ON)), as_it_came("refused7", 3, "33 0"));
    assert_eq!(line(&three(AGAIN)), as_it_came("refused8", 3, "33 0"));
    // The same with a bad trap word: 6. REPEAT last too: 5. Kind 26 too: 4.
    let six = |ops: &[Op]| {
        let serving = on(kept().pc(3).traps(1), ops).bags(&[(9, AGAIN)]);
        line(&serving.room(3, 0))
    };
    assert_eq!(six(&[IDLE]), as_it_came("refused6", 3, "33 0"));
    assert_eq!(six(&[IDLE, repeat(1)]), as_it_came("refused5", 3, "33 0"));
    let kind_26 = [26, 0, 0, 0, 0, 0, 0, 0];
    let four = six(&[kind_26, repeat(1)]);
    assert_eq!(four, as_it_came("refused4", 3, "33 0"));
    // A zero byte that is 1: 3, with the old sum 2; one byte less: 1.
    let mut serving = on(kept().pc(3).traps(1), &[kind_26]).room(3, 0);
    serving.start.file[3] = 1;
    assert_eq!(line(&serving), as_it_came("refused2", 3, "33 0"));
    set_sum(&mut serving.start.file);
    assert_eq!(line(&serving), as_it_came("refused3", 3, "33 0"));
    serving.start.file.pop();
    assert_eq!(line(&serving), as_it_came("refused1", 3, "33 0"));
}

// ---- a first state of another program

/// W4 is added to A, then to B.
const SUMS: [Op; 2] = [[13, 0, 8, 4, 0, 0, 0, 0], [13, 1, 8, 4, 0, 0, 0, 0]];

/// Left at 9 of a longer program, in loops at 5 and 7 and in a repeat, with SA set.
fn left_by_another() -> Bench {
    let mut bench = kept().w(4, 1).pc(9).within(5, 3).within(7, 2).repeating(4);
    bench.state.saturated[0] = true;
    bench
}

#[test]
fn a_state_of_another_program_starts_again() {
    // pc 0, no loop, no repeat, all else kept: 5 + 65,536, spent; then B. SR 2000 +
    // 0400. Endings 16, 496. Steps 1, 32.
    let serving = on(left_by_another(), &SUMS).bags(&[(1, AGAIN), (9, ON)]);
    let expected = "served 65541 65536 2400 2 0 0020 0 0:0 0:0 0:0 0:0 \
        0000 0000 0000 0000 0001 0000 0000 0000 0000 0000 0000 0000 0000 0000 31810 \
        496 32 0010 1 0000 1";
    assert_eq!(line(&serving), expected);
    // Without a budget the restart alone shows.
    let serving = on(left_by_another(), &SUMS).bags(&[(0, 2)]);
    let expected = "served 5 0 2400 0 0 0020 0 0:0 0:0 0:0 0:0 \
        0000 0000 0000 0000 0001 0000 0000 0000 0000 0000 0000 0000 0000 0000 31810 \
        16 0 0010 0";
    assert_eq!(line(&serving), expected);
}

#[test]
fn a_state_of_another_program_cannot_go_on() {
    // As it came: SR 2000 + 0400 + 0200 + 0010. Endings and steps 0, 1. The second
    // bag's restart does not count.
    let as_it_came = |checks| {
        format!(
            "refused7 5 0 2610 9 4 0020 2 5:3 7:2 0:0 0:0 \
            0000 0000 0000 0000 0001 0000 0000 0000 0000 0000 0000 0000 0000 0000 31810 \
            {checks}"
        )
    };
    let start = || on(left_by_another(), &SUMS);
    let going_on = start().bags(&[(1, ON), (9, AGAIN)]);
    assert_eq!(line(&going_on), as_it_came("1 1"));
    // No bags, though three restarts are lent: 0, 1 and 0, 1, 2.
    assert_eq!(line(&start().lists(3, 0).room(2, 3)), as_it_came("1 33"));
    // One bag and no restart: 7, not 8.
    let one = start().bags(&[(9, AGAIN)]);
    assert_eq!(line(&one.lists(0, 0)), as_it_came("0 0"));
    // One restart for two bags: the first goes on, so 7; it starts again, so 8.
    let two = |first| start().bags(&[(9, first), (9, AGAIN)]).lists(1, 0);
    assert_eq!(line(&two(ON)), as_it_came("1 1"));
    let eight = as_it_came("1 1").replace("refused7", "refused8");
    assert_eq!(line(&two(AGAIN)), eight);
}

#[test]
fn each_part_of_the_place_is_mended_by_a_restart() {
    let mut slot = kept();
    slot.state.flow.loops[3].do_number = 4;
    slot.state.flow.loops[3].passes = 1;
    // pc above 1; a loop at place 0; a repeat there; a slot that is not in use.
    let places = [
        (kept().pc(2), "0000 2 0 0020 0 0:0 0:0 0:0 0:0"),
        (kept().within(0, 2), "0200 0 0 0020 1 0:2 0:0 0:0 0:0"),
        (kept().repeating(1), "0010 0 1 0020 0 0:0 0:0 0:0 0:0"),
        (slot, "0000 0 0 0020 0 0:0 0:0 0:0 4:1"),
    ];
    for (bench, came) in places {
        let case = bench.case(&[IDLE]);
        let one = |way| Serving::of(case.clone()).bags(&[(9, way)]);
        // Endings 0; steps 1.
        assert_eq!(line(&one(AGAIN)), as_it_came("served", 1, "0 1 0000 1"));
        let refused = as_it_came("refused7", 0, "0 0");
        let refused = refused.replace("0000 0 0 0020 0 0:0 0:0 0:0 0:0", came);
        assert_eq!(line(&one(ON)), refused);
        // One bag without a restart: as it came.
        assert_eq!(line(&one(AGAIN).lists(0, 0)), refused);
    }
    // A place that fits: 8.
    let one = on(kept(), &[IDLE]).bags(&[(9, AGAIN)]).lists(0, 0);
    assert_eq!(line(&one), as_it_came("refused8", 0, "0 0"));
}

#[test]
fn a_restart_mends_neither_accumulators_nor_mode_word() {
    // A is 2^39: 41 bits. Mode word bit 2 is bad. The place is 0 or past the end.
    for way in [AGAIN, ON] {
        for pc in [0, 2] {
            let wide = on(kept().a(1 << 39).pc(pc), &[IDLE]).bags(&[(9, way)]);
            let refused = as_it_came("refused7", pc, "0 0");
            let came = refused.replace("refused7 5", "refused7 549755813888");
            assert_eq!(line(&wide), came);
            let mode = on(kept().mode(0x0024).pc(pc), &[IDLE]).bags(&[(9, way)]);
            assert_eq!(line(&mode), refused.replace("0020", "0024"));
        }
    }
}
