//! Every kind with expectations worked out by hand from the paper.

mod common;
use common::*;
use simulator::Ending;

/// W8 at X 1004 holding 11, W10 at Y 1044 holding 22.
fn with_pointers() -> Bench {
    Bench::new()
        .w(8, 0x1004)
        .w(10, 0x1044)
        .word(0x1004, 11)
        .word(0x1044, 22)
}

#[test]
fn kind_1_clr_prefetches_and_writes_back_the_other() {
    let mut bench = with_pointers()
        .a(5 << 16)
        .b(3 << 16)
        .w(13, 0x1010)
        .mode(0x20);
    bench.state.overflow = [true, true];
    let outcome = bench.run(&[clr(0, 0x48, 0x2A, 0x54, 2)]);
    let state = outcome.state;
    assert_eq!(state.accumulators, [0, 3 << 16]);
    assert_eq!(state.overflow, [false, true]);
    assert_eq!((state.w[4], state.w[5]), (11, 22));
    assert_eq!((state.w[8], state.w[10]), (0x1006, 0x1042));
    assert_eq!((bench.at(0x1010), state.w[13]), (3, 0x1012));
}

#[test]
fn kind_2_mpy_uses_old_factors() {
    let mut bench = with_pointers().w(4, 7).w(5, 6).a(1_000);
    let outcome = bench.run(&[mpy(0, 0x54, 0x48, 0, 0x04)]);
    assert_eq!(outcome.state.accumulators, [84, 0]);
    assert_eq!((outcome.state.w[4], outcome.state.w[8]), (11, 0x1006));
}

#[test]
fn kind_3_mac_adds_the_product() {
    let mut bench = Bench::new().a(100).b(-100).w(4, 0xFFFD).w(6, 5).mode(1);
    let outcome = bench.run(&[mac(0, 0x64, 0, 0, 0, 0), mac(1, 0x46, 0, 0, 0, 0)]);
    assert_eq!(outcome.state.accumulators, [85, -115]);
}

#[test]
fn kind_4_msc_takes_the_product_away() {
    let mut bench = Bench::new().a(100).b(-100).w(4, 0xFFFD).w(6, 5).mode(0);
    let outcome = bench.run(&[msc(0, 0x64, 0, 0, 0, 0), msc(1, 0x46, 0, 0, 0, 0)]);
    assert_eq!(outcome.state.accumulators, [130, -70]);
}

#[test]
fn products_follow_us_for_both_factors() {
    let bench = || Bench::new().w(4, 0xFFFF).w(5, 2);
    let signed = bench().mode(1).run(&[mpy(0, 0x54, 0, 0, 0)]);
    assert_eq!(signed.state.accumulators[0], -2);
    let unsigned = bench().mode(0x1001).run(&[mpy(0, 0x54, 0, 0, 0)]);
    assert_eq!(unsigned.state.accumulators[0], 131_070);
    let doubled = bench().mode(0x1000).run(&[mpy(0, 0x45, 0, 0, 0)]);
    assert_eq!(doubled.state.accumulators[0], 262_140);
}

#[test]
fn kind_5_ed_squares_the_old_m_and_loads_the_difference() {
    let mut bench = with_pointers().w(4, 9).a(1_000).mode(1);
    let outcome = bench.run(&[ed(0, 0x44, 0x68, 0x0A, 0x04)]);
    assert_eq!(outcome.state.accumulators[0], 81);
    assert_eq!(outcome.state.w[4], 0xFFF5);
    assert_eq!((outcome.state.w[8], outcome.state.w[10]), (0x100A, 0x103E));
}

#[test]
fn kind_6_edac_adds_the_square() {
    let mut bench = with_pointers().w(6, 9).b(1_000);
    let outcome = bench.run(&[edac(1, 0x66, 0x58, 0x1A, 0x07)]);
    assert_eq!(outcome.state.accumulators, [0, 1_162]);
    assert_eq!((outcome.state.w[6], outcome.state.w[7]), (9, 0xFFF5));
    assert_eq!((outcome.state.w[8], outcome.state.w[10]), (0x1008, 0x1040));
}

#[test]
fn squares_follow_us() {
    let run = |mode| {
        with_pointers()
            .w(4, 0xFFFF)
            .mode(mode)
            .run(&[ed(0, 0x44, 0x38, 0x3A, 0x05)])
    };
    assert_eq!(run(1).state.accumulators[0], 1);
    assert_eq!(run(0).state.accumulators[0], 2);
    assert_eq!(run(0x1001).state.accumulators[0], 4_294_836_225);
}

#[test]
fn kind_7_movsac_leaves_the_accumulators_and_flags() {
    let mut bench = with_pointers().a(1 << 35).b(7 << 16).w(13, 0x1010);
    let outcome = bench.run(&[movsac(0, 0x38, 0x4A, 0x67, 1)]);
    let state = outcome.state;
    assert_eq!(state.accumulators, [1 << 35, 7 << 16]);
    assert_eq!(state.overflow, [false, false]);
    assert_eq!((state.w[7], state.w[6], state.w[13]), (11, 22, 7));
    assert_eq!((state.w[8], state.w[10]), (0x1004, 0x1046));
}

#[test]
fn indexed_reads_change_no_pointer() {
    let mut bench = Bench::new()
        .w(9, 0x1008)
        .w(12, 0xFFFE)
        .w(11, 0x0FF0)
        .w(13, 0x0060)
        .word(0x1006, 5)
        .word(0x1050, 6);
    let outcome = bench.run(&[movsac(0, 0x0C, 0x0D, 0x54, 0)]);
    let w = outcome.state.w;
    assert_eq!((w[4], w[5]), (5, 6));
    assert_eq!(
        (w[9], w[12], w[11], w[13]),
        (0x1008, 0xFFFE, 0x0FF0, 0x0060)
    );
}

#[test]
fn kinds_8_to_10_on_both_accumulators() {
    let run = |op| Bench::new().a(5).b(7).run(&[op]).state.accumulators;
    assert_eq!(run(add_both(0)), [12, 7]);
    assert_eq!(run(add_both(1)), [5, 12]);
    assert_eq!(run(subtract(0)), [-2, 7]);
    assert_eq!(run(subtract(1)), [5, 2]);
    assert_eq!(run(negate(0)), [-5, 7]);
    assert_eq!(run(negate(1)), [5, -7]);
}

#[test]
fn kind_11_shifts_with_floor_or_grows() {
    let run = |by: i16| {
        let mut bench = Bench::new().b(-5).w(3, by as u16);
        bench.run(&[shift_by(1, 3)]).state.accumulators[1]
    };
    assert_eq!(run(0), -5);
    assert_eq!(run(1), -3);
    assert_eq!(run(-2), -20);
    assert_eq!(run(16), -1);
    assert_eq!(run(-16), -327_680);
}

#[test]
fn kind_11_can_leave_the_limits() {
    let outcome = Bench::new()
        .a(1 << 38)
        .w(3, 0xFFFF)
        .mode(0)
        .run(&[shift_by(0, 3)]);
    assert_eq!(outcome.state.accumulators[0], -(1 << 39));
    assert_eq!(outcome.state.saturated, [true, false]);
    assert_eq!(outcome.state.overflow, [true, false]);
}

#[test]
fn kind_12_lac_scales_and_shifts() {
    let run = |shift| {
        let mut bench = Bench::new().a(99).w(6, 0x8000).mode(0x1000);
        bench.run(&[lac(0, shift, 6, 0)]).state
    };
    assert_eq!(run(0).accumulators[0], -(1 << 31));
    assert_eq!(run(0).overflow, [false; 2]);
    assert_eq!(run(7).accumulators[0], -(1 << 24));
    assert_eq!(run(-8).accumulators[0], -(1 << 39));
    assert_eq!(run(-8).overflow, [true, false]);
    assert_eq!(run(-8).saturated, [false; 2]);
}

#[test]
fn kind_12_reads_memory_in_all_forms() {
    for (form, pointer) in [(1, 0x1050), (2, 0x1052), (3, 0x104E)] {
        let mut bench = Bench::new().w(0, 0x1050).word(0x1050, 2);
        let outcome = bench.run(&[lac(1, 0, 0, form)]);
        assert_eq!(outcome.state.accumulators, [0, 131_072]);
        assert_eq!(outcome.state.w[0], pointer);
    }
}

#[test]
fn kind_13_add_adds_the_shifted_word() {
    let mut bench = Bench::new().a(10).b(20).w(5, 0xFFFF);
    let outcome = bench.run(&[add(0, 0, 5, 0), add(1, 3, 5, 0)]);
    assert_eq!(outcome.state.accumulators, [10 - 65_536, 20 - 8_192]);
}

#[test]
fn kind_14_sac_truncates() {
    let run = |value, shift| {
        let mut bench = Bench::new().a(value).w(5, 0x5555);
        let outcome = bench.run(&[sac(0, shift, 5, 0)]);
        assert_eq!(outcome.state.accumulators[0], value);
        outcome.state.w[5]
    };
    assert_eq!(run(0x1FFFF, 0), 1);
    assert_eq!(run(-1, 0), 0xFFFF);
    assert_eq!(run(0x1FFFF, -8), 0x01FF);
    assert_eq!(run(0x1FFFF, 7), 0);
    assert_eq!(run(1 << 31, 0), 0x7FFF);
    assert_eq!(run(-(1 << 35), 0), 0x8000);
}

#[test]
fn kind_14_stores_to_memory_in_all_forms() {
    for (form, pointer) in [(1, 0x1020), (2, 0x1022), (3, 0x101E)] {
        let mut bench = Bench::new().w(1, 0x1020).b(9 << 16);
        let outcome = bench.run(&[sac(1, 0, 1, form)]);
        assert_eq!((outcome.state.w[1], bench.at(0x1020)), (pointer, 9));
    }
}

#[test]
fn kind_15_sac_r_rounds() {
    let run = |value, shift, mode| {
        let mut bench = Bench::new().a(value).mode(mode);
        bench.run(&[sac_r(0, shift, 5, 0)]).state.w[5]
    };
    assert_eq!(run(0x18001, 0, 0x20), 2);
    assert_eq!(run(0x17FFF, 0, 0x22), 1);
    assert_eq!(run(0x28000, 0, 0x20), 2);
    assert_eq!(run(0x28000, 0, 0x22), 3);
    // The shift's floor comes first: 0x30001 / 2 is 0x18000, a tie at 1.
    assert_eq!(run(0x30001, 1, 0x20), 2);
    assert_eq!(run(0x50001, 1, 0x20), 2);
    assert_eq!(run(-0x18000, 0, 0x20), 0xFFFE);
    assert_eq!(run(-0x18000, 0, 0x22), 0xFFFF);
}

#[test]
fn kind_16_literal() {
    let outcome = Bench::new().run(&[lit(13, 0xABCD), lit(0, 1)]);
    assert_eq!((outcome.state.w[13], outcome.state.w[0]), (0xABCD, 1));
}

#[test]
fn kind_17_loads_in_all_forms_anywhere() {
    for (form, pointer) in [(1, 0x107E), (2, 0x1080), (3, 0x107C)] {
        let mut bench = Bench::new().w(3, 0x107E).word(0x107E, 0x1234);
        let outcome = bench.run(&[load(12, 3, form)]);
        assert_eq!((outcome.state.w[12], outcome.state.w[3]), (0x1234, pointer));
        assert_eq!(outcome.ending, Ending::Done);
    }
}

#[test]
fn kind_18_stores_in_all_forms_anywhere() {
    for (form, pointer) in [(1, 0x1000), (2, 0x1002), (3, 0x0FFE)] {
        let mut bench = Bench::new().w(3, 0x1000).w(4, 0x4321);
        let outcome = bench.run(&[store(4, 3, form)]);
        assert_eq!((bench.at(0x1000), outcome.state.w[3]), (0x4321, pointer));
    }
}

#[test]
fn kind_19_repeats_count_and_one() {
    let outcome = Bench::new().a(1).b(1).run(&[repeat(3), add_both(0)]);
    assert_eq!((outcome.ending, outcome.steps), (Ending::Done, 5));
    assert_eq!(outcome.state.accumulators[0], 5);
    let most = Bench::new().run(&[repeat(32_767), IDLE]);
    assert_eq!(most.steps, 1 + 32_768);
}

#[test]
fn kind_20_repeats_by_all_16_bits() {
    let outcome = Bench::new()
        .w(9, 0xFFFF)
        .b(1)
        .run(&[repeat_w(9), add_both(0)]);
    assert_eq!((outcome.ending, outcome.steps), (Ending::Done, 1 + 65_536));
    assert_eq!(outcome.state.accumulators[0], 65_536);
}

#[test]
fn kind_21_do_passes_count_and_one() {
    let ops = [do_lit(2, 2), add_both(0), IDLE, negate(1)];
    let outcome = Bench::new().b(1).run(&ops);
    assert_eq!((outcome.ending, outcome.steps), (Ending::Done, 1 + 6 + 1));
    assert_eq!(outcome.state.accumulators, [3, -1]);
    let most = Bench::new().run(&[do_lit(32_767, 2), IDLE, IDLE]);
    assert_eq!(most.steps, 1 + 65_536);
}

#[test]
fn kind_21_nested() {
    let ops = [
        do_lit(1, 5),
        add_both(1),
        do_lit(2, 4),
        add_both(0),
        IDLE,
        IDLE,
    ];
    // The outer pass: step 1, DO, three inner passes of two, step 5.
    let outcome = Bench::new().run(&ops);
    assert_eq!(outcome.steps, 1 + 2 * (1 + 1 + 6 + 1));
}

#[test]
fn kind_22_uses_all_16_bits() {
    let ops = [do_w(6, 2), IDLE, add_both(0)];
    for (word, passes) in [(2, 3), (0x4000, 16_385), (0xC002, 49_155), (0xFFFF, 65_536)] {
        let outcome = Bench::new().w(6, word).b(1).run(&ops);
        assert_eq!(
            (outcome.ending, outcome.steps),
            (Ending::Done, 1 + 2 * passes)
        );
        assert_eq!(outcome.state.accumulators[0], i64::from(passes));
    }
}

#[test]
fn kind_23_early_in_the_loop_ends_this_pass() {
    let ops = [do_lit(9, 4), END_EARLY, IDLE, IDLE, add_both(0)];
    let outcome = Bench::new().b(1).run(&ops);
    assert_eq!((outcome.steps, outcome.state.accumulators[0]), (5, 1));
}

#[test]
fn kind_23_in_last_but_one_place_leaves_one_more_pass() {
    let ops = [do_lit(9, 3), IDLE, END_EARLY, add_both(0)];
    let outcome = Bench::new().b(1).run(&ops);
    assert_eq!((outcome.steps, outcome.state.accumulators[0]), (7, 2));
}

#[test]
fn kind_24_sets_the_mode_and_nothing_else() {
    let mut bench = Bench::new().a(1 << 35);
    bench.state.saturated = [true, false];
    let outcome = bench.run(&[mode(0x10F3)]);
    assert_eq!(outcome.state.mode.0, 0x10F3);
    assert_eq!(outcome.state.accumulators[0], 1 << 35);
    assert_eq!(outcome.state.overflow, [false; 2]);
    assert_eq!(outcome.state.saturated, [true, false]);
}

#[test]
fn kind_25_clears_sa_and_sb_alone() {
    let mut bench = Bench::new();
    bench.state.saturated = [true; 2];
    bench.state.overflow = [true; 2];
    let outcome = bench.run(&[CLEAR_S]);
    assert_eq!(outcome.state.saturated, [false; 2]);
    assert_eq!(outcome.state.overflow, [true; 2]);
}

#[test]
fn limits_at_their_boundaries() {
    let (narrow, wide) = (1_i64 << 31, 1_i64 << 39);
    // Mode word, edge of the limits, kept above it, kept below it.
    let lines = [
        (0x00C0, narrow, narrow - 1, -narrow),
        (0x00D0, wide, wide - 1, -wide),
        (0x0000, wide, -wide, wide - 1),
        (0x0010, wide, -wide, wide - 1),
    ];
    for (mode, edge, above, below) in lines {
        for target in 0..2_u8 {
            let index = usize::from(target);
            let sum = |a, b| {
                let outcome = Bench::new().a(a).b(b).mode(mode).run(&[add_both(target)]);
                let state = outcome.state;
                assert!(!state.saturated[1 - index]);
                (state.accumulators[index], state.saturated[index])
            };
            assert_eq!(sum(edge - 2, 1), (edge - 1, false));
            assert_eq!(sum(edge - 1, 1), (above, true));
            assert_eq!(sum(1 - edge, -1), (-edge, false));
            assert_eq!(sum(-edge, -1), (below, true));
        }
    }
}

#[test]
fn o_flag_at_its_boundaries() {
    let edge = 1_i64 << 31;
    for (a, b, overflow) in [
        (edge - 2, 1, false),
        (edge - 1, 1, true),
        (1 - edge, -1, false),
        (-edge, -1, true),
    ] {
        let outcome = Bench::new().a(a).b(b).mode(0).run(&[add_both(0)]);
        assert_eq!(outcome.state.overflow, [overflow, false]);
        let outcome = Bench::new().a(a).b(b).mode(0).run(&[add_both(1)]);
        assert_eq!(outcome.state.overflow, [false, overflow]);
    }
}

#[test]
fn saturation_keeps_the_nearer_limit_for_far_results() {
    let run = |value, mode| {
        let mut bench = Bench::new().a(value).w(2, 0xFFF0).mode(mode);
        bench.run(&[shift_by(0, 2)]).state
    };
    assert_eq!(run(1 << 38, 0x0080).accumulators[0], (1 << 31) - 1);
    assert_eq!(run(-(1 << 38), 0x0080).accumulators[0], -(1 << 31));
    assert_eq!(run(1 << 38, 0x0090).accumulators[0], (1 << 39) - 1);
    assert_eq!(run(-(1 << 38), 0x0090).accumulators[0], -(1 << 39));
    // Off: the low 40 bits of 2^54 + 2^16 are 2^16.
    assert_eq!(run((1 << 38) + 1, 0).accumulators[0], 65_536);
    assert_eq!(run((1 << 38) + 1, 0).saturated, [true, false]);
    assert_eq!(run((1 << 38) + 1, 0).overflow, [false, false]);
}
