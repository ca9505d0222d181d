//! Single steps worked out by hand from document 01: the whole line of each.
//! Memory has four words a, b, c, d at 1000, 1002, 1004, 1006 hex, so its check
//! is 29,791 a + 961 b + 31 c + d modulo 2^32.

mod common;
use common::*;
use simulator::{BitReversed, Circular};

/// The line of the step, as `whole_line` has it.
fn gives(bench: Bench, ops: &[Op], start: &str, loops: &str, w: &[(usize, u16)], check: u32) {
    assert_eq!(bench.step_line(ops), whole_line(start, loops, w, check));
}

// ---- kinds 1 to 7

#[test]
fn mac_with_two_prefetches_and_write_back_to_memory() {
    // A: 100 + 2 x 3 x 4 = 124. B is 1.5 x 65,536, a tie over the odd 1: 2 goes
    // to 1002, and W13 to 1004. X at 1000 is 5, W8 + 2; Y at 1006 is 11, W10 - 2.
    // Check: 29,791 x 5 + 961 x 2 + 31 x 9 + 11 = 148,955 + 1,922 + 279 + 11.
    let bench = memory([5, 7, 9, 11])
        .w(4, 3)
        .w(5, 4)
        .a(100)
        .b(98_304)
        .w(8, 0x1000)
        .w(10, 0x1006)
        .w(13, 0x1002);
    let op = mac(0, 0x54, 0x48, 0x2A, 0x76, 2);
    let line = "step 1 124 98304 0000 1 0 0020 0 0:0 0:0 0:0 0:0 \
         0000 0000 0000 0000 0003 0004 0005 000B 1002 0000 1004 0000 0000 1004 151167";
    assert_eq!(bench.step_line(&[op, IDLE]), line);
}

#[test]
fn msc_unsigned_with_both_sums_and_write_back_to_w13() {
    // US 1, IF 1: 65,535 x 2 = 131,070, B: 500 - 131,070. The factors are loaded
    // over: X at 1000 + 2, Y at 0FFE + 8 = 1006, with the old W13. A is -2.5 x
    // 65,536: quotient -3 and a tie, odd, so -2 to W13.
    // Check: 29,791 + 961 x 32,768 + 31 x 3 + 65,535 = 31,585,467.
    let bench = memory([1, 0x8000, 3, 0xFFFF])
        .mode(0x1021)
        .w(4, 0xFFFF)
        .w(5, 2)
        .a(-163_840)
        .b(500)
        .w(9, 0x1000)
        .w(12, 2)
        .w(11, 0x0FFE)
        .w(13, 8);
    let w = [
        (4, 0x8000),
        (5, 0xFFFF),
        (9, 0x1000),
        (11, 0x0FFE),
        (12, 2),
        (13, 0xFFFE),
    ];
    let op = msc(1, 0x54, 0x0C, 0x0D, 0x54, 1);
    let start = "step 1 -163840 -130570 0000 1 0 1021";
    gives(bench, &[op, IDLE], start, NO_LOOPS, &w, 31_585_467);
}

#[test]
fn clr_clears_o_and_leaves_s() {
    // A was 2^32; OA goes, SA and SB stay: 2000 + 1000 + 0400.
    let mut bench = memory([0; 4]).a(1 << 32);
    bench.state.overflow = [true, false];
    bench.state.saturated = [true, true];
    let op = clr(0, 0, 0, 0, 0);
    gives(
        bench,
        &[op, IDLE],
        "step 1 0 0 3400 1 0 0020",
        NO_LOOPS,
        &[],
        0,
    );
}

#[test]
fn mpy_signed_and_doubled() {
    // 2 x 3 x -2 = -12, row A of the table.
    let bench = memory([0; 4]).w(4, 3).w(5, 0xFFFE);
    let w = [(4, 3), (5, 0xFFFE)];
    let op = mpy(0, 0x54, 0, 0, 0);
    gives(bench, &[op], "step 1 -12 0 0000 1 0 0020", NO_LOOPS, &w, 0);
}

#[test]
fn ed_squares_the_old_register_that_the_difference_lands_in() {
    // W4 is -3: 2 x 9 = 18 to B. X 1 minus Y 2 is FFFF, to W4. c 3 is no step,
    // c 6 is + 6. Check: 29,791 + 31 x 2.
    let bench = memory([1, 0, 2, 0]).w(4, 0xFFFD).w(8, 0x1000).w(10, 0x1004);
    let w = [(4, 0xFFFF), (8, 0x1000), (10, 0x100A)];
    let op = ed(1, 0x44, 0x38, 0x6A, 0x04);
    let start = "step 1 0 18 0000 1 0 0020";
    gives(bench, &[op, IDLE], start, NO_LOOPS, &w, 29_853);
}

#[test]
fn edac_unsigned_overflows() {
    // 65,535 squared is 4,294,836,225, doubled 8,589,672,450, less 1. That is
    // beyond 32 bits: OA, 8000 + 0800. X at 1002 is 5, W9 - 6; Y at 1006 is 6,
    // W11 - 2; 5 - 6 is FFFF, to W6.
    // Check: 29,791 x 32,768 + 961 x 5 + 31 + 6 = 976,196,330.
    let bench = memory([0x8000, 5, 1, 6])
        .mode(0x1020)
        .a(-1)
        .w(5, 0xFFFF)
        .w(9, 0x1002)
        .w(11, 0x1006);
    let w = [(5, 0xFFFF), (6, 0xFFFF), (9, 0x0FFC), (11, 0x1004)];
    let op = edac(0, 0x55, 0x09, 0x2B, 0x06);
    let start = "step 1 8589672449 0 8800 1 0 1020";
    gives(bench, &[op, IDLE], start, NO_LOOPS, &w, 976_196_330);
}

#[test]
fn movsac_reads_a_word_before_it_is_written_over() {
    // Y at 1004 is 9. A is 7.75 x 65,536 and goes to 1004 as 8, W13 + 2. b1 = 1,
    // so A is the other accumulator. Check: 31 x 8.
    let bench = memory([0, 0, 9, 0]).a(507_904).w(10, 0x1004).w(13, 0x1004);
    let w = [(7, 9), (10, 0x1006), (13, 0x1006)];
    let op = movsac(1, 0, 0x4A, 0x70, 2);
    let start = "step 1 507904 0 0000 1 0 0020";
    gives(bench, &[op, IDLE], start, NO_LOOPS, &w, 248);
}

// ---- kinds 8 to 18

#[test]
fn sums_differences_and_shifts() {
    let both = || memory([0; 4]).a(10).b(-3);
    let w = [(2, 0xFFFC)];
    // B minus A is -13.
    let start = "step 1 10 -13 0000 1 0 0020";
    gives(both(), &[subtract(1), IDLE], start, NO_LOOPS, &[], 0);
    // Minus -3.
    let start = "step 1 10 3 0000 1 0 0020";
    gives(both(), &[negate(1), IDLE], start, NO_LOOPS, &[], 0);
    // W2 is -4: 10 x 16.
    let start = "step 1 160 -3 0000 1 0 0020";
    let op = shift_by(0, 2);
    gives(both().w(2, 0xFFFC), &[op, IDLE], start, NO_LOOPS, &w, 0);
    // Floor of -3 / 2 is -2.
    let start = "step 1 10 -2 0000 1 0 0020";
    let op = shift_by(1, 2);
    gives(both().w(2, 1), &[op, IDLE], start, NO_LOOPS, &[(2, 1)], 0);
}

#[test]
fn lac_shifted_right_from_memory() {
    // F123 is -3,805; x 65,536 = -249,364,480; / 16 = -15,585,280. W1 + 2.
    // Check: 961 x 61,731 + 1.
    let bench = memory([0, 0xF123, 0, 1]).w(1, 0x1002);
    let start = "step 1 -15585280 0 0000 1 0 0020";
    let op = lac(0, 4, 1, 2);
    gives(
        bench,
        &[op, IDLE],
        start,
        NO_LOOPS,
        &[(1, 0x1004)],
        59_323_492,
    );
}

#[test]
fn lac_shifted_left_from_a_register() {
    // 32,767 x 65,536 x 256 = 2^39 - 2^24, within 40 bits: OB, 4000 + 0800.
    let bench = memory([0; 4]).w(6, 0x7FFF);
    let start = "step 1 0 549739036672 4800 1 0 0020";
    let op = lac(1, -8, 6, 0);
    gives(bench, &[op, IDLE], start, NO_LOOPS, &[(6, 0x7FFF)], 0);
}

#[test]
fn add_shifted_right_from_memory() {
    // -1 x 65,536 / 128 = -512; 1,000 - 512 = 488. W0 - 2.
    let bench = memory([0, 0, 0, 0xFFFF]).a(1_000).w(0, 0x1006);
    let start = "step 1 488 0 0000 1 0 0020";
    let op = add(0, 7, 0, 3);
    gives(bench, &[op, IDLE], start, NO_LOOPS, &[(0, 0x1004)], 65_535);
}

#[test]
fn add_shifted_left_saturates() {
    // 2^31 - 11 + 65,536 x 8, SATA and ACCSAT 0: 2^31 - 1, SA: 2000 + 0400.
    let bench = memory([0; 4]).mode(0x00A0).a(2_147_483_637).w(2, 1);
    let start = "step 1 2147483647 0 2400 1 0 00A0";
    let op = add(0, -3, 2, 0);
    gives(bench, &[op, IDLE], start, NO_LOOPS, &[(2, 1)], 0);
}

#[test]
fn sac_shifted_right_takes_two_floors() {
    // -1,000,003 / 8 = -125,000.4: -125,001; / 65,536 = -1.9: -2.
    let bench = memory([0; 4]).b(-1_000_003);
    let start = "step 1 0 -1000003 0000 1 0 0020";
    let op = sac(1, 3, 4, 0);
    gives(bench, &[op, IDLE], start, NO_LOOPS, &[(4, 0xFFFE)], 0);
}

#[test]
fn sac_shifted_left_to_memory() {
    // 01234567 hex x 16 is 12345670: 1234 to 1000, W1 + 2.
    // Check: 29,791 x 4,660 = 138,826,060.
    let bench = memory([0; 4]).a(0x0123_4567).w(1, 0x1000);
    let start = "step 1 19088743 0 0000 1 0 0020";
    let op = sac(0, -4, 1, 2);
    gives(
        bench,
        &[op, IDLE],
        start,
        NO_LOOPS,
        &[(1, 0x1002)],
        138_826_060,
    );
}

#[test]
fn sac_r_shifted_right_to_a_tie() {
    // Floor of 196,609 / 2 is 98,304, 1.5 x 65,536: odd, so 2. RND 1 makes 3 of
    // 2.5 x 65,536 = 163,840.
    let bench = memory([0; 4]).a(196_609);
    let start = "step 1 196609 0 0000 1 0 0020";
    let op = sac_r(0, 1, 5, 0);
    gives(bench, &[op, IDLE], start, NO_LOOPS, &[(5, 2)], 0);
    let bench = memory([0; 4]).a(327_680).mode(0x0022);
    let start = "step 1 327680 0 0000 1 0 0022";
    gives(bench, &[op, IDLE], start, NO_LOOPS, &[(5, 3)], 0);
}

#[test]
fn sac_r_shifted_left_past_a_word() {
    // 2^23 x 256 = 2^31, 32,768 as a word: limited to 32,767, or 8000.
    let (w, op) = ([(5, 0x7FFF)], sac_r(0, -8, 5, 0));
    let start = "step 1 8388608 0 0000 1 0 0020";
    let bench = memory([0; 4]).a(8_388_608);
    gives(bench, &[op, IDLE], start, NO_LOOPS, &w, 0);
    let start = "step 1 8388608 0 0000 1 0 0000";
    let bench = memory([0; 4]).a(8_388_608).mode(0);
    gives(bench, &[op, IDLE], start, NO_LOOPS, &[(5, 0x8000)], 0);
}

#[test]
fn loads_and_stores_through_the_same_register() {
    // The loaded word beats W3 + 2. Check: 961 x 77.
    let bench = memory([0, 77, 0, 0]).w(3, 0x1002);
    let start = "step 1 0 0 0000 1 0 0020";
    gives(
        bench,
        &[load(3, 3, 2), IDLE],
        start,
        NO_LOOPS,
        &[(3, 77)],
        73_997,
    );
    // The unstepped 1006 is stored at 1006, then W3 - 2. 1006 hex is 4,102.
    let bench = memory([0; 4]).w(3, 0x1006);
    let w = [(3, 0x1004)];
    gives(bench, &[store(3, 3, 3), IDLE], start, NO_LOOPS, &w, 4_102);
}

#[test]
fn mode_and_saturation_flags() {
    let flagged = || {
        let mut bench = memory([0; 4]).a(1 << 32);
        bench.state.overflow = [false, true];
        bench.state.saturated = [true, true];
        bench
    };
    // Kind 24 redoes no flag, although A is beyond 32 bits: OB, SA, SB are 4000 +
    // 2000 + 1000, with 0800 + 0400.
    let start = "step 1 4294967296 0 7C00 1 0 10F3";
    gives(flagged(), &[mode(0x10F3), IDLE], start, NO_LOOPS, &[], 0);
    // Kind 25 clears SA and SB: 4000 + 0800.
    let start = "step 1 4294967296 0 4800 1 0 0020";
    gives(flagged(), &[CLEAR_S, IDLE], start, NO_LOOPS, &[], 0);
}

// ---- addresses

#[test]
fn a_circular_x_pointer() {
    // 1000..1005; 1004 + 4 = 1008 is above 1005: less 6 is 1002. X at 1004 is 3.
    // Check: 29,791 + 961 x 2 + 31 x 3 + 4 = 31,810.
    let buffer = Circular {
        register: 8,
        start: 0x1000,
        end: 0x1005,
    };
    let mut bench = parted([1, 2, 3, 4], 3).w(8, 0x1004);
    bench.settings.x = buffer;
    let start = "step 1 0 0 0000 1 0 0020";
    let op = movsac(0, 0x58, 0, 0x04, 0);
    let w = [(4, 3), (8, 0x1002)];
    gives(bench, &[op, IDLE], start, NO_LOOPS, &w, 31_810);
    // W13 as X's register: 1004 + 2 = 1006, less 6 is 1000. B is 2 x 65,536: 2
    // goes to 1004. Check: 31,810 - 31.
    let mut bench = parted([1, 2, 3, 4], 3).b(131_072).w(13, 0x1004);
    bench.settings.x = Circular {
        register: 13,
        ..buffer
    };
    let start = "step 1 0 131072 0000 1 0 0020";
    let op = clr(0, 0, 0, 0, 2);
    gives(bench, &[op, IDLE], start, NO_LOOPS, &[(13, 0x1000)], 31_779);
}

#[test]
fn a_circular_y_pointer_down() {
    // 1002..1007; 1002 - 4 = 0FFE is below 1002: plus 6 is 1004.
    let mut bench = parted([1, 2, 3, 4], 1).w(11, 0x1002);
    bench.settings.y = Circular {
        register: 11,
        start: 0x1002,
        end: 0x1007,
    };
    let start = "step 1 0 0 0000 1 0 0020";
    let op = movsac(0, 0, 0x1B, 0x50, 0);
    let w = [(5, 2), (11, 0x1004)];
    gives(bench, &[op, IDLE], start, NO_LOOPS, &w, 31_810);
}

#[test]
fn a_bit_reversed_store() {
    // N 4: 1004 mod 8 is 4, j = 2 = 10 binary, reversed 01, plus 1 is 10,
    // reversed 01: k = 1, 1004 - 4 + 2 = 1002. 9 is stored at 1004.
    let mut bench = memory([0; 4]).w(0, 0x1004).w(4, 9);
    bench.settings.reversed = BitReversed {
        register: 0,
        words: 4,
    };
    let start = "step 1 0 0 0000 1 0 0020";
    let w = [(0, 0x1002), (4, 9)];
    gives(bench, &[store(4, 0, 2), IDLE], start, NO_LOOPS, &w, 279);
}

// ---- flow

/// DO at 0 to 6, DO at 2 to 5, whose last operation is repeated.
fn nest() -> [Op; 7] {
    let (outer, inner) = (do_lit(1, 6), do_lit(4, 5));
    [outer, IDLE, inner, IDLE, repeat(9), add_both(0), IDLE]
}

#[test]
fn a_loop_in_a_loop_at_a_repeated_last_place() {
    let start = |passes, left| {
        let bench = memory([1, 2, 3, 4]).a(10).b(7).pc(5);
        bench.within(0, 3).within(2, passes).repeating(left)
    };
    // The last repeat of the last pass: the inner loop ends, its slot is zero.
    let line = "step 1 17 7 0200 6 0 0020";
    gives(start(1, 1), &nest(), line, "1 0:3 0:0 0:0 0:0", &[], 31_810);
    // One more repeat is due: SR 0200 + 0010.
    let line = "step 1 17 7 0210 5 1 0020";
    gives(start(1, 2), &nest(), line, "2 0:3 2:1 0:0 0:0", &[], 31_810);
    // Another pass: back to DO + 1.
    let line = "step 1 17 7 0200 3 0 0020";
    gives(start(2, 1), &nest(), line, "2 0:3 2:1 0:0 0:0", &[], 31_810);
}

#[test]
fn do_inside_do() {
    // Count 4, five passes.
    let bench = memory([0; 4]).pc(2).within(0, 3);
    let line = "step 1 0 0 0200 3 0 0020";
    gives(bench, &nest(), line, "2 0:3 2:5 0:0 0:0", &[], 0);
}

#[test]
fn kinds_22_and_20_have_16_bits() {
    // C002: 49,154, one pass more.
    let bench = memory([0; 4]).w(3, 0xC002);
    let ops = [do_w(3, 2), IDLE, IDLE];
    let line = "step 1 0 0 0200 1 0 0020";
    gives(
        bench,
        &ops,
        line,
        "1 0:49155 0:0 0:0 0:0",
        &[(3, 0xC002)],
        0,
    );
    // FFFF: 65,536 runs.
    let bench = memory([0; 4]).w(3, 0xFFFF);
    let line = "step 1 0 0 0010 1 65536 0020";
    gives(
        bench,
        &[repeat_w(3), IDLE],
        line,
        NO_LOOPS,
        &[(3, 0xFFFF)],
        0,
    );
    // A literal 0: one run.
    let line = "step 1 0 0 0010 1 1 0020";
    gives(memory([0; 4]), &[repeat(0), IDLE], line, NO_LOOPS, &[], 0);
}

#[test]
fn kind_23_in_each_place() {
    // DO at 1 with the last at 4.
    let early = |pc: u16, passes| {
        let mut ops = [IDLE, do_lit(9, 4), IDLE, IDLE, IDLE, IDLE];
        ops[usize::from(pc)] = END_EARLY;
        (memory([0; 4]).pc(pc).within(1, passes), ops)
    };
    // Last: 5 becomes 2 and falls to 1; 1 stays 1 and falls to 0.
    let (bench, ops) = early(4, 5);
    let line = "step 1 0 0 0200 2 0 0020";
    gives(bench, &ops, line, "1 1:1 0:0 0:0 0:0", &[], 0);
    let (bench, ops) = early(4, 1);
    gives(bench, &ops, "step 1 0 0 0000 5 0 0020", NO_LOOPS, &[], 0);
    // Last but one: 5 becomes 2.
    let (bench, ops) = early(3, 5);
    let line = "step 1 0 0 0200 4 0 0020";
    gives(bench, &ops, line, "1 1:2 0:0 0:0 0:0", &[], 0);
    // Before that: 5 becomes 1.
    let (bench, ops) = early(2, 5);
    let line = "step 1 0 0 0200 3 0 0020";
    gives(bench, &ops, line, "1 1:1 0:0 0:0 0:0", &[], 0);
}

#[test]
fn kind_23_repeated_in_the_last_place() {
    // Two runs are due: 5 becomes 2, and only repeat left falls.
    let ops = [do_lit(9, 3), IDLE, repeat(1), END_EARLY];
    let bench = memory([0; 4]).pc(3).within(0, 5).repeating(2);
    let line = "step 1 0 0 0210 3 1 0020";
    gives(bench, &ops, line, "1 0:2 0:0 0:0 0:0", &[], 0);
}

#[test]
fn done_only_where_pc_was_at_the_end_before() {
    let ops = [IDLE, lit(1, 0xABCD)];
    let w = [(1, 0xABCD)];
    gives(
        memory([0; 4]).pc(1),
        &ops,
        "step 1 0 0 0000 2 0 0020",
        NO_LOOPS,
        &w,
        0,
    );
    gives(
        memory([0; 4]).pc(2),
        &ops,
        "done 0 0 0 0000 2 0 0020",
        NO_LOOPS,
        &[],
        0,
    );
}

// ---- traps

#[test]
fn trap_1_of_the_write_back_leaves_everything() {
    // X at 1000 and Y at 1004 are good; W13 is odd.
    let bench = memory([1, 2, 3, 4])
        .w(4, 3)
        .w(8, 0x1000)
        .w(10, 0x1004)
        .w(13, 0x1001)
        .a(100)
        .b(98_304);
    let w = [(4, 3), (8, 0x1000), (10, 0x1004), (13, 0x1001)];
    let op = mac(0, 0x44, 0x48, 0x4A, 0x65, 2);
    let line = "trap1 0 100 98304 0000 0 0 0020";
    gives(bench, &[op, IDLE], line, NO_LOOPS, &w, 31_810);
}

#[test]
fn trap_2_of_reads_in_the_other_part() {
    // X at 1004, in the Y part; Y at 1002 comes after X, which is good.
    let w = [(8, 0x1004), (10, 0x1004)];
    let bench = memory([1, 2, 3, 4]).w(8, 0x1004).w(10, 0x1004);
    let op = movsac(0, 0x48, 0x4A, 0x65, 0);
    let line = "trap2 0 0 0 0000 0 0 0020";
    gives(bench, &[op, IDLE], line, NO_LOOPS, &w, 31_810);
    let w = [(8, 0x1000), (10, 0x1002)];
    let bench = memory([1, 2, 3, 4]).w(8, 0x1000).w(10, 0x1002);
    gives(bench, &[op, IDLE], line, NO_LOOPS, &w, 31_810);
}

#[test]
fn trap_3_of_shifts_by_17() {
    for by in [17, 0xFFEF] {
        let bench = memory([0; 4]).a(5).w(2, by).pc(1);
        let line = "trap3 0 5 0 0000 1 0 0020";
        gives(
            bench,
            &[IDLE, shift_by(0, 2)],
            line,
            NO_LOOPS,
            &[(2, by)],
            0,
        );
    }
}

#[test]
fn trap_4_of_a_fifth_loop() {
    // DO 0 to 4 with the lasts 12 to 8.
    let mut ops: Vec<Op> = (0..5).map(|level| do_lit(0, 12 - level)).collect();
    ops.extend([IDLE; 8]);
    let bench = memory([0; 4])
        .pc(4)
        .within(0, 1)
        .within(1, 2)
        .within(2, 3)
        .within(3, 32_768);
    let line = "trap4 0 0 0 0200 4 0 0020";
    gives(bench, &ops, line, "4 0:1 1:2 2:3 3:32768", &[], 0);
}

#[test]
fn trap_5_of_limits_left() {
    // 2^39 - 1 + 1 = 2^39: the low 40 bits are -2^39. OA, SA: 8000 + 2000 + 0800
    // + 0400.
    let bench = memory([0; 4]).a(549_755_813_887).b(1).traps(0x0100);
    let line = "trap5 1 -549755813888 1 AC00 1 0 0020";
    gives(bench, &[add_both(0), IDLE], line, NO_LOOPS, &[], 0);
    // Minus -2^39 is 2^39 too; 5 comes before 7. OB, SB: 4000 + 1000 + 0C00.
    let bench = memory([0; 4]).b(-549_755_813_888).traps(0x0700);
    let line = "trap5 1 0 -549755813888 5C00 1 0 0020";
    gives(bench, &[negate(1), IDLE], line, NO_LOOPS, &[], 0);
}

#[test]
fn trap_6_of_an_overflowing_a() {
    // 2^31 - 1 + 1, the program's last operation: pc goes to 1. 8000 + 0800.
    let bench = memory([0; 4]).a(2_147_483_647).b(1).traps(0x0400);
    let line = "trap6 1 2147483648 1 8800 1 0 0020";
    gives(bench, &[add_both(0)], line, NO_LOOPS, &[], 0);
}

#[test]
fn trap_7_of_an_overflowing_b_in_a_loop() {
    // 2 x 32,768 squared = 2^31 in B, in a last place: 4000 + 0800 + 0200, and
    // back to DO + 1 with one pass less.
    let bench = memory([0; 4]).w(4, 0x8000).traps(0x0200).pc(2).within(0, 3);
    let ops = [do_lit(0, 2), IDLE, mpy(1, 0x44, 0, 0, 0)];
    let line = "trap7 1 0 2147483648 4A00 1 0 0020";
    gives(bench, &ops, line, "1 0:2 0:0 0:0 0:0", &[(4, 0x8000)], 0);
}

// ---- refusals

#[test]
fn refusals_print_the_state_as_it_came() {
    // A of 2^39 is 7; a trap word of 1 is 6 before it; no file is 1 before both.
    let bench = || memory([1, 2, 3, 4]).a(549_755_813_888);
    let line = "refused7 0 549755813888 0 0000 0 0 0020";
    gives(bench(), &[lit(1, 1)], line, NO_LOOPS, &[], 31_810);
    let line = "refused6 0 549755813888 0 0000 0 0 0020";
    gives(bench().traps(1), &[lit(1, 1)], line, NO_LOOPS, &[], 31_810);
    let line = "refused1 0 549755813888 0 0000 0 0 0020";
    gives(bench().traps(1), &[], line, NO_LOOPS, &[], 31_810);
}
