//! Whole cases worked out by hand from document 01: the line of each. Memory has
//! four words a, b, c, d where nothing else is said, so its check is
//! 29,791 a + 961 b + 31 c + d. An added word counts 65,536 times.

mod common;
use common::*;
use simulator::cases::{line, Case, What};
use simulator::{BitReversed, Circular};

/// The line of the run, as `whole_line` has it.
fn gives(bench: Bench, ops: &[Op], start: &str, loops: &str, w: &[(usize, u16)], check: u32) {
    let expected = whole_line(start, loops, w, check);
    assert_eq!(line(&bench.case(ops)), expected);
}

// ---- done and spent

/// Literal 3 to W4, literal FFFE hex to W5, MPY to A.
fn example() -> [Op; 3] {
    [lit(4, 3), lit(5, 0xFFFE), mpy(0, 0x54, 0, 0, 0)]
}

#[test]
fn the_example_is_done_where_its_budget_is_used_up() {
    let w = [(4, 3), (5, 0xFFFE)];
    let line = "done 3 -12 0 0000 3 0 0020";
    gives(memory([0; 4]).budget(3), &example(), line, NO_LOOPS, &w, 0);
    let line = "spent 2 0 0 0000 2 0 0020";
    gives(memory([0; 4]).budget(2), &example(), line, NO_LOOPS, &w, 0);
    let line = "spent 0 0 0 0000 0 0 0020";
    gives(memory([0; 4]).budget(0), &example(), line, NO_LOOPS, &[], 0);
}

#[test]
fn a_start_at_the_end_is_done_without_budget() {
    let bench = memory([1, 2, 3, 4]).pc(3).budget(0).a(7).b(-7).w(4, 9);
    let line = "done 0 7 -7 0000 3 0 0020";
    gives(bench, &example(), line, NO_LOOPS, &[(4, 9)], 31_810);
}

/// Two passes of: three passes of W4 to A and to B; W5 to A.
fn nest() -> [Op; 5] {
    [
        do_lit(1, 4),
        do_lit(2, 3),
        add(0, 0, 4, 0),
        add(1, 0, 4, 0),
        add(0, 0, 5, 0),
    ]
}

#[test]
fn nested_loops_to_their_end() {
    // 1 + 2 x (1 + 3 x 2 + 1) steps. A: 6 x 1 + 2 x -1 = 4; B: 6.
    let w = [(4, 1), (5, 0xFFFF)];
    let bench = memory([0; 4]).w(4, 1).w(5, 0xFFFF);
    let line = "done 17 262144 393216 0000 5 0 0020";
    gives(bench, &nest(), line, NO_LOOPS, &w, 0);
}

#[test]
fn nested_loops_spent_as_the_inner_begins_again() {
    // 1 + 8 steps end the first outer pass, the tenth is the inner DO: outer 1
    // left, inner 3. A: 3 - 1 = 2; B: 3.
    let w = [(4, 1), (5, 0xFFFF)];
    let bench = memory([0; 4]).w(4, 1).w(5, 0xFFFF).budget(10);
    let line = "spent 10 131072 196608 0200 2 0 0020";
    gives(bench, &nest(), line, "2 0:1 1:3 0:0 0:0", &w, 0);
}

// ---- loops and repeats

#[test]
fn a_register_gives_do_and_repeat_16_bits() {
    // C001 hex: 49,154 passes of two ADDs, 98,308 x 65,536, so OA: 8000 + 0800.
    let ops = [do_w(3, 2), add(0, 0, 4, 0), add(0, 0, 4, 0)];
    let bench = memory([0; 4]).w(3, 0xC001).w(4, 1);
    let w = [(3, 0xC001), (4, 1)];
    let line = "done 98309 6442713088 0 8800 3 0 0020";
    gives(bench, &ops, line, NO_LOOPS, &w, 0);
    // 65,536 runs: 2^32, so OA: 8000 + 0800.
    let ops = [lit(3, 0xFFFF), repeat_w(3), add(0, 0, 4, 0)];
    let w = [(3, 0xFFFF), (4, 1)];
    let line = "done 65538 4294967296 0 8800 3 0 0020";
    gives(memory([0; 4]).w(4, 1), &ops, line, NO_LOOPS, &w, 0);
    // With SATA and ACCSAT 0 kept at 2^31 - 1, SA: 2000 + 0400.
    let bench = memory([0; 4]).w(4, 1).mode(0x00A0);
    let line = "done 65538 2147483647 0 2400 3 0 00A0";
    gives(bench, &ops, line, NO_LOOPS, &w, 0);
}

#[test]
fn a_start_in_a_repeat_in_the_last_place_of_a_loop() {
    // Three runs left, then passes fall to 1; once more W4 to B, REPEAT, two
    // runs: 3 + 1 + 1 + 2 steps.
    let ops = [do_lit(0, 3), add(1, 0, 4, 0), repeat(1), add(0, 0, 4, 0)];
    let bench = || memory([0; 4]).w(4, 1).pc(3).within(0, 2).repeating(3);
    let line = "done 7 327680 65536 0000 4 0 0020";
    gives(bench(), &ops, line, NO_LOOPS, &[(4, 1)], 0);
    // Spent before the last run: 0200 + 0010.
    let line = "spent 6 262144 65536 0210 3 1 0020";
    let loops = "1 0:1 0:0 0:0 0:0";
    gives(bench().budget(6), &ops, line, loops, &[(4, 1)], 0);
}

#[test]
fn kind_23_in_the_last_but_one_place() {
    // Ten passes become 2 and fall to 1; then 1 stays 1: two passes of three.
    let ops = [do_lit(9, 3), add(0, 0, 4, 0), END_EARLY, add(1, 0, 4, 0)];
    let line = "done 7 131072 131072 0000 4 0 0020";
    gives(memory([0; 4]).w(4, 1), &ops, line, NO_LOOPS, &[(4, 1)], 0);
    // In the place before, ten become 1: one pass of four.
    let ops = [
        do_lit(9, 4),
        add(0, 0, 4, 0),
        END_EARLY,
        add(1, 0, 4, 0),
        add(1, 0, 4, 0),
    ];
    let line = "done 5 65536 131072 0000 5 0 0020";
    gives(memory([0; 4]).w(4, 1), &ops, line, NO_LOOPS, &[(4, 1)], 0);
}

// ---- traps

#[test]
fn a_repeated_store_runs_out_of_memory() {
    // REPEAT and four stores, 1008 hex is outside: 10 - 4 runs are left.
    // Check: 7 x (29,791 + 961 + 31 + 1).
    let bench = memory([0; 4]).w(0, 0x1000).w(4, 7);
    let line = "trap2 5 0 0 0010 1 6 0020";
    let w = [(0, 0x1008), (4, 7)];
    gives(
        bench,
        &[repeat(9), store(4, 0, 2)],
        line,
        NO_LOOPS,
        &w,
        215_488,
    );
}

#[test]
fn a_fifth_loop_traps_after_four_steps() {
    let mut ops: Vec<Op> = (0..4).map(|level| do_lit(level, 12 - level)).collect();
    ops.push(do_lit(0, 8));
    ops.extend([IDLE; 8]);
    let line = "trap4 4 0 0 0200 4 0 0020";
    let loops = "4 0:1 1:2 2:3 3:4";
    gives(memory([0; 4]).budget(u32::MAX), &ops, line, loops, &[], 0);
}

#[test]
fn trap_5_in_a_repeat() {
    // 2^39 - 2^31 and 2 x 32,768 squared give 2^39, whose low 40 bits are -2^39:
    // the first of four runs. 8000 + 2000 + 0800 + 0400 + 0010.
    let bench = memory([0; 4]).a(547_608_330_240).w(4, 0x8000).traps(0x0100);
    let ops = [repeat(3), mac(0, 0x44, 0, 0, 0, 0)];
    let line = "trap5 2 -549755813888 0 AC10 1 3 0020";
    gives(bench, &ops, line, NO_LOOPS, &[(4, 0x8000)], 0);
}

#[test]
fn trap_7_with_the_last_operation_and_the_last_step_of_the_budget() {
    // 2^31 - 1 + 1 in B: 4000 + 0800. OA was set before: 8000, and no trap 6.
    let mut bench = memory([0; 4]).a(1).b(2_147_483_647).traps(0x0600);
    bench.state.overflow = [true, false];
    let ops = [IDLE, add_both(1)];
    let line = "trap7 2 1 2147483648 C800 2 0 0020";
    gives(bench.budget(2), &ops, line, NO_LOOPS, &[], 0);
}

#[test]
fn a_saturated_sum_stays_at_its_limit() {
    // Each run adds 2^31: SATA, ACCSAT 0. 2000 + 0400, no O.
    let bench = memory([0; 4]).w(4, 0x8000).mode(0x00A0);
    let ops = [repeat(2), mac(0, 0x44, 0, 0, 0, 0)];
    let line = "done 4 2147483647 0 2400 2 0 00A0";
    gives(bench, &ops, line, NO_LOOPS, &[(4, 0x8000)], 0);
}

// ---- filters

#[test]
fn three_taps_round_both_buffers() {
    // X: 1, 2, 3 at 1000..1005 hex; Y: 10, 20, 30 at 1006..100B; IF 1.
    // CLR reads 1 and 10. Two MACs: 10, then 10 + 40, both pointers back at the
    // start. The last: 50 + 90 = 140. 140 x 256 = 35,840, above half: 1 to 1002.
    // Memory 1, 1, 3, 10, 20, 30: 28,629,151 + 923,521 + 3 x 29,791 + 10 x 961 +
    // 20 x 31 + 30.
    let mut bench = holding(&[1, 2, 3, 10, 20, 30], 3).mode(0x0021);
    bench.settings.x = Circular {
        register: 8,
        start: 0x1000,
        end: 0x1005,
    };
    bench.settings.y = Circular {
        register: 10,
        start: 0x1006,
        end: 0x100B,
    };
    let bench = bench.w(1, 0x1002).w(8, 0x1000).w(10, 0x1006);
    let ops = [
        clr(0, 0x48, 0x4A, 0x54, 0),
        repeat(1),
        mac(0, 0x54, 0x48, 0x4A, 0x54, 0),
        mac(0, 0x54, 0, 0, 0, 0),
        sac_r(0, -8, 1, 1),
    ];
    let line = "done 6 140 0 0000 5 0 0021";
    let w = [(1, 0x1002), (4, 3), (5, 30), (8, 0x1000), (10, 0x1006)];
    gives(bench, &ops, line, NO_LOOPS, &w, 29_652_305);
}

#[test]
fn write_back_of_a_in_each_pass() {
    // A is 1.5, a tie over the odd 1: 2 to 1000 hex; then 2.5, a tie over the
    // even 2: 2 to 1002. B: 2 x (2 x 3 x 5). A: 3.5 x 65,536.
    // Check: 2 x 29,791 + 2 x 961.
    let ops = [do_lit(1, 2), mac(1, 0x54, 0, 0, 0, 2), add(0, 0, 6, 0)];
    let bench = memory([0; 4]).a(98_304).w(4, 3).w(5, 5).w(6, 1);
    let w = [(4, 3), (5, 5), (6, 1), (13, 0x1004)];
    let line = "done 5 229376 60 0000 3 0 0020";
    gives(bench.w(13, 0x1000), &ops, line, NO_LOOPS, &w, 61_504);
}

#[test]
fn four_words_to_their_bit_reversed_places() {
    // Indices 0, 2, 1, 3 from 1008 hex, then 0 again. Memory afterwards 10, 11,
    // 12, 13, 10, 12, 11, 13; the check goes 10, 321, 9,963, 308,866, 9,574,856,
    // 296,820,548, 611,502,407, 1,776,705,446.
    let mut bench = holding(&[10, 11, 12, 13, 0, 0, 0, 0], 4);
    bench.settings.reversed = BitReversed {
        register: 1,
        words: 4,
    };
    let bench = bench.w(0, 0x1000).w(1, 0x1008);
    let ops = [do_lit(3, 2), load(4, 0, 2), store(4, 1, 2)];
    let line = "done 9 0 0 0000 3 0 0020";
    let w = [(0, 0x1008), (1, 0x1008), (4, 13)];
    gives(bench, &ops, line, NO_LOOPS, &w, 1_776_705_446);
}

// ---- refusals, loads and writes

#[test]
fn a_refusal_prints_what_came() {
    let bench = || memory([1, 2, 3, 4]).a(5).w(4, 9).budget(u32::MAX);
    // REPEAT last.
    let line = "refused5 0 5 0 0000 0 0 0020";
    let ops = [IDLE, repeat(1)];
    gives(bench(), &ops, line, NO_LOOPS, &[(4, 9)], 31_810);
    // Inside a loop that the state does not have.
    let line = "refused7 0 5 0 0000 1 0 0020";
    let ops = [do_lit(3, 2), IDLE, IDLE];
    gives(bench().pc(1), &ops, line, NO_LOOPS, &[(4, 9)], 31_810);
}

/// The line of a load or write with so much room.
fn copied(what: What, input: Vec<u8>, room: u32) -> String {
    let case = memory([0; 4]).case(&[]);
    line(&Case {
        what,
        file: input,
        memory: Vec::new(),
        budget: room,
        ..case
    })
}

#[test]
fn loads_with_ample_and_with_short_room() {
    // 16, 1, 3, 2 and four zeros, then 8 and 9 as they were: the check goes 16,
    // 497, 15,410, 477,712, 14,809,072, 459,081,232, 1,346,616,304,
    // 3,090,399,760, 1,313,112,056, 2,051,768,081.
    let file = file_of(&[lit(1, 0x0203)]);
    assert_eq!(copied(What::Load, file.clone(), 10), "loaded 8 2051768081");
    assert_eq!(copied(What::Load, file.clone(), 8), "loaded 8 3090399760");
    // 0 to 6: 0, 1, 33, 1,026, 31,810, 986,115, 30,569,571.
    assert_eq!(copied(What::Load, file.clone(), 7), "refused8 0 30569571");
    assert_eq!(copied(What::Load, file[1..].to_vec(), 4), "refused1 0 1026");
}

#[test]
fn writes_that_are_refused() {
    let operation = lit(1, 0x0203).to_vec();
    assert_eq!(copied(What::Write, operation, 3), "refused8 0 33");
    assert_eq!(copied(What::Write, Vec::new(), 2), "refused1 0 1");
    assert_eq!(copied(What::Write, vec![0; 8], 0), "refused4 0 0");
    let alone = repeat(0).to_vec();
    assert_eq!(copied(What::Write, alone, 5), "refused5 0 31810");
}
