//! READINGS 11 to 22: what a step does. Each test fails under the other
//! reading of its rule.

mod common;
use common::*;
use simulator::status::status_word;
use simulator::{BitReversed, Circular, Ending};

fn circular(register: u8, start: u16, end: u16) -> Circular {
    Circular {
        register,
        start,
        end,
    }
}

#[test]
fn r11_a_bad_write_back_address_stops_everything() {
    let mut bench = Bench::new()
        .w(8, 0x1000)
        .w(10, 0x1040)
        .w(4, 3)
        .a(5)
        .b(1 << 16)
        .w(13, 0x1081)
        .word(0x1000, 8);
    let before = bench.memory.clone();
    for (address, number) in [(0x1081, 1), (0x1080, 2), (0x0FFE, 2), (0xFFFF, 1)] {
        bench.state.w[13] = address;
        let outcome = bench.run(&[mac(0, 0x44, 0x48, 0x4A, 0x54, 2)]);
        assert_eq!((outcome.ending, outcome.steps), (trap(number), 0));
        assert_eq!(outcome.state, bench.state);
        assert_eq!(bench.memory, before);
    }
}

#[test]
fn r11_a_stepped_pointer_is_judged_when_it_is_used() {
    let mut bench = Bench::new().w(0, 0x107E);
    let outcome = bench.run(&[load(4, 0, 2), IDLE]);
    assert_eq!((outcome.ending, outcome.state.w[0]), (Ending::Done, 0));
    let outcome = bench.run(&[load(4, 0, 2), load(4, 0, 2)]);
    assert_eq!((outcome.ending, outcome.steps), (trap(2), 1));
    assert_eq!(outcome.state.w[0], 0x1080);
}

#[test]
fn r11_repeat_left_and_passes_stay_at_a_trap() {
    let ops = [do_lit(4, 2), repeat(5), load(4, 0, 2)];
    let mut bench = Bench::sized(4, 2).w(0, 0x1002);
    let outcome = bench.run(&ops);
    assert_eq!((outcome.ending, outcome.steps), (trap(2), 5));
    assert_eq!(outcome.state.flow.repeat, 3);
    assert_eq!(outcome.state.flow.pc, 2);
    assert_eq!(outcome.state.flow.loops[0].passes, 5);
}

#[test]
fn r12_done_comes_before_spent() {
    let ops = [IDLE, IDLE];
    let at_end = Bench::new().pc(2).budget(0).run(&ops);
    assert_eq!((at_end.ending, at_end.steps), (Ending::Done, 0));
    let just = Bench::new().budget(2).run(&ops);
    assert_eq!((just.ending, just.steps), (Ending::Done, 2));
    let short = Bench::new().budget(1).run(&ops);
    assert_eq!((short.ending, short.steps), (Ending::Spent, 1));
}

#[test]
fn r12_spent_comes_before_execution_and_its_traps() {
    let mut bench = Bench::new().w(2, 17).budget(0);
    assert_eq!(bench.run(&[shift_by(0, 2)]).ending, Ending::Spent);
}

#[test]
fn r12_traps_5_to_7_end_on_the_last_operation_and_last_step() {
    let mut bench = Bench::new().a(1 << 31).traps(0x0400).mode(0);
    let last_operation = bench.run(&[add_both(0)]);
    assert_eq!((last_operation.ending, last_operation.steps), (trap(6), 1));
    assert_eq!(last_operation.state.flow.pc, 1);
    let mut bench = bench.budget(1);
    let last_step = bench.run(&[add_both(0), IDLE]);
    assert_eq!((last_step.ending, last_step.steps), (trap(6), 1));
}

#[test]
fn r12_a_trapped_step_is_complete() {
    let mut bench = Bench::new()
        .mode(0)
        .a(1 << 31)
        .b(6 << 16)
        .w(8, 0x1000)
        .w(13, 0x1020)
        .word(0x1000, 9)
        .traps(0x0400)
        .pc(3)
        .within(0, 2)
        .repeating(1);
    let ops = [
        do_lit(0, 3),
        IDLE,
        repeat(0),
        mac(0, 0x44, 0x48, 0, 0x05, 2),
    ];
    let outcome = bench.run(&ops);
    let state = outcome.state;
    assert_eq!((outcome.ending, outcome.steps), (trap(6), 1));
    assert_eq!((state.w[5], state.w[8], state.w[13]), (9, 0x1002, 0x1022));
    assert_eq!(bench.at(0x1020), 6);
    assert_eq!((state.flow.repeat, state.flow.pc), (0, 1));
    assert_eq!(state.flow.loops[0].passes, 1);
    assert_eq!(state.overflow, [true, false]);
}

#[test]
fn r13_a_flag_set_before_never_traps_by_itself() {
    let mut bench = Bench::new().a(1 << 35).traps(0x0700).mode(0);
    bench.state.overflow = [true, false];
    bench.state.saturated = [true, true];
    let ops = [
        lac(1, 0, 0, 0),
        movsac(0, 0, 0, 0, 1),
        IDLE,
        sac(0, 0, 4, 0),
    ];
    let outcome = bench.run(&ops);
    assert_eq!((outcome.ending, outcome.steps), (Ending::Done, 4));
    // Writing A without overflow does not trap either.
    assert_eq!(bench.run(&[clr(0, 0, 0, 0, 0)]).ending, Ending::Done);
    assert_eq!(bench.run(&[add(0, 0, 4, 0)]).ending, trap(6));
}

#[test]
fn r13_trap_5_comes_before_6_and_7() {
    let top = (1 << 39) - 1;
    let run = |target: u8, traps| {
        let mut bench = Bench::new().a(top).b(top).mode(0).traps(traps).w(4, 1);
        bench.run(&[add(target, 0, 4, 0)])
    };
    assert_eq!(run(0, 0x0700).ending, trap(5));
    assert_eq!(run(0, 0x0600).ending, trap(6));
    assert_eq!(run(1, 0x0700).ending, trap(5));
    assert_eq!(run(1, 0x0600).ending, trap(7));
    assert_eq!(run(1, 0x0400).ending, Ending::Done);
    assert_eq!(run(0, 0x0200).ending, Ending::Done);
    assert_eq!(run(0, 0x0100).state.accumulators[0], -(1 << 39) + 65_535);
}

#[test]
fn trap_5_needs_saturation_off_for_that_accumulator() {
    let top = (1 << 39) - 1;
    let run = |mode| {
        let mut bench = Bench::new().a(top).b(1).mode(mode).traps(0x0100);
        bench.run(&[add_both(0)])
    };
    assert_eq!(run(0x0090).ending, Ending::Done);
    assert_eq!(run(0x0080).ending, Ending::Done);
    assert_eq!(run(0x0040).ending, trap(5));
    assert_eq!(run(0x0010).ending, trap(5));
    assert_eq!(run(0x0010).steps, 1);
}

#[test]
fn r14_only_writes_redo_the_o_flags() {
    let ops = [
        movsac(0, 0, 0, 0, 0),
        sac(0, 0, 4, 0),
        sac_r(0, 0, 4, 0),
        mode(0),
        CLEAR_S,
    ];
    let mut bench = Bench::new().a(1 << 35).b(1 << 35).traps(0x0700);
    for op in ops {
        assert_eq!(bench.run(&[op]).state.overflow, [false; 2]);
        assert_eq!(bench.run(&[op]).ending, Ending::Done);
    }
    bench.state.accumulators = [0; 2];
    bench.state.overflow = [true; 2];
    for op in ops {
        assert_eq!(bench.run(&[op]).state.overflow, [true; 2]);
    }
}

#[test]
fn r14_a_sum_has_the_limits_of_its_target() {
    let sum = (1_i64 << 31) + 10;
    let run = |mode, target| {
        let mut bench = Bench::new().a(1 << 30).b((1 << 30) + 10).mode(mode);
        bench.run(&[add_both(target)]).state.accumulators[usize::from(target)]
    };
    assert_eq!(run(0x0040, 0), sum);
    assert_eq!(run(0x0040, 1), (1 << 31) - 1);
    assert_eq!(run(0x0080, 0), (1 << 31) - 1);
    assert_eq!(run(0x0080, 1), sum);
}

#[test]
fn r14_s_stays_after_a_result_in_range() {
    let mut bench = Bench::new();
    bench.state.saturated = [true, true];
    let outcome = bench.run(&[clr(0, 0, 0, 0, 0), clr(1, 0, 0, 0, 0)]);
    assert_eq!(outcome.state.saturated, [true, true]);
}

#[test]
fn r14_accsat_without_saturation_has_the_wide_limits() {
    let outcome = Bench::new()
        .a(1 << 31)
        .b(1)
        .mode(0x0010)
        .run(&[add_both(0)]);
    assert_eq!(outcome.state.accumulators[0], (1 << 31) + 1);
    assert_eq!(outcome.state.saturated, [false; 2]);
    let wide = Bench::new()
        .a(1 << 31)
        .b(1)
        .mode(0x0090)
        .run(&[add_both(0)]);
    assert_eq!(wide.state.accumulators[0], (1 << 31) + 1);
    assert_eq!(wide.state.saturated, [false; 2]);
    assert_eq!(wide.state.overflow, [true, false]);
}

#[test]
fn r15_indexed_y_and_write_back_use_the_old_w13() {
    // W13 is the write-back pointer and W11 + W13 the Y address at once.
    let mut bench = Bench::new()
        .w(11, 0x0040)
        .w(13, 0x1010)
        .b(7 << 16)
        .word(0x1050, 33);
    let outcome = bench.run(&[clr(0, 0, 0x0D, 0x60, 2)]);
    assert_eq!((outcome.state.w[6], outcome.state.w[13]), (33, 0x1012));
    assert_eq!(bench.at(0x1010), 7);
    // And with write-back to W13 the address is still the old one.
    let mut bench = Bench::new()
        .w(11, 0x0040)
        .w(13, 0x1010)
        .b(7 << 16)
        .word(0x1050, 33);
    let outcome = bench.run(&[clr(0, 0, 0x0D, 0x60, 1)]);
    assert_eq!((outcome.state.w[6], outcome.state.w[13]), (33, 7));
}

#[test]
fn r15_words_are_read_before_the_write_back() {
    let mut bench = Bench::new()
        .w(8, 0x1010)
        .w(13, 0x1010)
        .b(7 << 16)
        .word(0x1010, 44);
    let outcome = bench.run(&[clr(0, 0x38, 0, 0x04, 2)]);
    assert_eq!((outcome.state.w[4], bench.at(0x1010)), (44, 7));
    let mut bench = Bench::new()
        .w(10, 0x1050)
        .w(13, 0x1050)
        .b(7 << 16)
        .word(0x1050, 44);
    let outcome = bench.run(&[clr(0, 0, 0x3A, 0x40, 2)]);
    assert_eq!((outcome.state.w[4], bench.at(0x1050)), (44, 7));
}

#[test]
fn r15_kind_18_with_b1_equal_b3_stores_the_unstepped_pointer() {
    for form in 1..=3 {
        let mut bench = Bench::new().w(5, 0x1010);
        let outcome = bench.run(&[store(5, 5, form)]);
        assert_eq!(bench.at(0x1010), 0x1010);
        assert_eq!(
            outcome.state.w[5],
            [0x1010, 0x1012, 0x100E][form as usize - 1]
        );
    }
}

#[test]
fn r15_kind_17_with_b1_equal_b3_keeps_the_loaded_word() {
    for form in 1..=3 {
        let mut bench = Bench::new().w(5, 0x1010).word(0x1010, 0x1234);
        assert_eq!(bench.run(&[load(5, 5, form)]).state.w[5], 0x1234);
    }
}

#[test]
fn r15_a_difference_may_land_in_m_after_the_square() {
    let mut bench = Bench::new()
        .w(8, 0x1000)
        .w(10, 0x1040)
        .w(5, 3)
        .word(0x1000, 100)
        .mode(1);
    let outcome = bench.run(&[edac(0, 0x55, 0x38, 0x3A, 0x05)]);
    assert_eq!(outcome.state.accumulators[0], 9);
    assert_eq!(outcome.state.w[5], 100);
}

#[test]
fn r16_write_back_stores_the_accumulator_b1_does_not_name() {
    for target in 0..2_u8 {
        let ops = [
            clr(target, 0, 0, 0, 1),
            mac(target, 0x44, 0, 0, 0, 1),
            msc(target, 0x44, 0, 0, 0, 1),
            movsac(target, 0, 0, 0, 1),
        ];
        for op in ops {
            let outcome = Bench::new().a(11 << 16).b(22 << 16).run(&[op]);
            assert_eq!(outcome.state.w[13], if target == 0 { 22 } else { 11 });
        }
    }
}

#[test]
fn r16_write_back_is_rounded_and_limited_by_the_mode() {
    let run = |value, mode| {
        let mut bench = Bench::new().b(value).mode(mode);
        bench.run(&[movsac(0, 0, 0, 0, 1)]).state.w[13]
    };
    assert_eq!(run(0x1_8000, 0x20), 2);
    assert_eq!(run(0x0_8000, 0x20), 0);
    assert_eq!(run(0x0_8000, 0x22), 1);
    assert_eq!(run(0x7FFF_8000, 0x20), 0x7FFF);
    assert_eq!(run(0x7FFF_8000, 0x00), 0x8000);
    assert_eq!(run(-(1 << 39), 0x20), 0x8000);
    assert_eq!(run(-(1 << 39), 0x00), 0x0000);
}

#[test]
fn r16_write_back_to_w13_checks_no_address() {
    let outcome = Bench::new()
        .w(13, 0x0003)
        .b(5 << 16)
        .run(&[clr(0, 0, 0, 0, 1)]);
    assert_eq!((outcome.ending, outcome.state.w[13]), (Ending::Done, 5));
}

#[test]
fn r17_store_shift_is_not_reduced_to_40_bits() {
    let outcome = Bench::new().a(1 << 38).mode(0x20).run(&[sac(0, -8, 4, 0)]);
    assert_eq!(outcome.state.w[4], 0x7FFF);
    let outcome = Bench::new()
        .a(-(1 << 38))
        .mode(0x20)
        .run(&[sac_r(0, -8, 4, 0)]);
    assert_eq!(outcome.state.w[4], 0x8000);
}

#[test]
fn r17_positive_shifts_go_right() {
    let run = |op| Bench::new().a(0x40_0000).w(5, 0x40).run(&[op]).state;
    assert_eq!(run(lac(1, 4, 5, 0)).accumulators[1], 0x4_0000);
    assert_eq!(run(lac(1, -4, 5, 0)).accumulators[1], 0x400_0000);
    assert_eq!(run(sac(0, 2, 4, 0)).w[4], 0x10);
    assert_eq!(run(sac(0, -2, 4, 0)).w[4], 0x100);
    // b2 = 8 is shift 0.
    assert_eq!(run([14, 0, 8, 4, 0, 0, 0, 0]).w[4], 0x40);
}

#[test]
fn r17_lac_and_add_read_signed_whatever_us_is() {
    let mut bench = Bench::new().w(5, 0xFFFF).mode(0x1000);
    let outcome = bench.run(&[lac(0, 0, 5, 0), add(1, 0, 5, 0)]);
    assert_eq!(outcome.state.accumulators, [-65_536, -65_536]);
}

#[test]
fn r18_x_register_is_corrected_in_every_step_but_a_y_read() {
    let corrected = |mut bench: Bench, register: usize, op| {
        bench.settings.x = circular(register as u8, 0x1020, 0x1027);
        bench.state.w[register] = 0x1026;
        bench.run(&[op]).state.w[register]
    };
    for op in [
        load(4, 8, 2),
        store(4, 8, 2),
        lac(0, 0, 8, 2),
        add(0, 0, 8, 2),
        sac(0, 0, 8, 2),
        sac_r(0, 0, 8, 2),
        movsac(0, 0x48, 0, 0x04, 0),
    ] {
        assert_eq!(corrected(Bench::new(), 8, op), 0x1020, "{op:?}");
    }
    assert_eq!(corrected(Bench::new(), 13, clr(0, 0, 0, 0, 2)), 0x1020);
    assert_eq!(
        corrected(Bench::new(), 9, movsac(0, 0x69, 0, 0x04, 0)),
        0x1024
    );
    let down = |op| {
        let mut bench = Bench::new().w(3, 0x1020);
        bench.settings.x = circular(3, 0x1020, 0x1027);
        bench.run(&[op]).state.w[3]
    };
    for op in [
        load(4, 3, 3),
        store(4, 3, 3),
        lac(0, 0, 3, 3),
        sac(0, 0, 3, 3),
    ] {
        assert_eq!(down(op), 0x1026);
    }
}

#[test]
fn r18_x_register_10_is_not_corrected_in_y_reads() {
    let bench = || {
        let mut bench = Bench::new().w(10, 0x104E);
        bench.settings.x = circular(10, 0x1048, 0x104F);
        bench
    };
    let y_read = bench().run(&[movsac(0, 0, 0x4A, 0x40, 0)]);
    assert_eq!(y_read.state.w[10], 0x1050);
    let plain = bench().run(&[load(4, 10, 2)]);
    assert_eq!(plain.state.w[10], 0x1048);
    // With both set, each step follows its own setting.
    let mut both = bench();
    both.settings.y = circular(10, 0x104A, 0x104F);
    assert_eq!(both.run(&[movsac(0, 0, 0x4A, 0x40, 0)]).state.w[10], 0x104A);
    assert_eq!(both.run(&[load(4, 10, 2)]).state.w[10], 0x1048);
}

#[test]
fn r18_y_register_is_corrected_only_in_y_reads() {
    let mut bench = Bench::new().w(11, 0x1046);
    bench.settings.y = circular(11, 0x1040, 0x1047);
    assert_eq!(
        bench.run(&[movsac(0, 0, 0x4B, 0x40, 0)]).state.w[11],
        0x1040
    );
    assert_eq!(bench.run(&[load(4, 11, 2)]).state.w[11], 0x1048);
    assert_eq!(bench.run(&[store(4, 11, 2)]).state.w[11], 0x1048);
    bench.state.w[8] = 0x1000;
    assert_eq!(
        bench.run(&[ed(0, 0x44, 0x38, 0x6B, 0x04)]).state.w[11],
        0x1044
    );
}

#[test]
fn r18_correction_comes_before_the_16_bit_reduction() {
    let mut bench = Bench::sized(30_720, 100).w(3, 0xFFFE);
    bench.settings.x = circular(3, 0xFFF8, 0xFFFF);
    assert_eq!(bench.run(&[load(4, 3, 2)]).state.w[3], 0xFFF8);
    let mut plain = Bench::sized(30_720, 100).w(3, 0xFFFE);
    assert_eq!(plain.run(&[load(4, 3, 2)]).state.w[3], 0);
}

#[test]
fn r18_an_old_address_outside_is_never_corrected() {
    let run = |old, b3| {
        let mut bench = Bench::new().w(8, old);
        bench.settings.x = circular(8, 0x1020, 0x1027);
        bench.run(&[movsac(0, b3, 0, 0x04, 0)]).state.w[8]
    };
    assert_eq!(run(0x1028, 0x48), 0x102A);
    assert_eq!(run(0x1028, 0x08), 0x1022);
    assert_eq!(run(0x101E, 0x28), 0x101C);
    assert_eq!(run(0x101E, 0x68), 0x1024);
    assert_eq!(run(0x1020, 0x28), 0x1026);
    assert_eq!(run(0x1020, 0x08), 0x1022);
    assert_eq!(run(0x1026, 0x38), 0x1026);
    // S itself and the last word are inside.
    assert_eq!(run(0x1022, 0x28), 0x1020);
    assert_eq!(run(0x1026, 0x08), 0x1020);
    assert_eq!(run(0x1024, 0x48), 0x1026);
    assert_eq!(run(0x1020, 0x68), 0x1026);
}

#[test]
fn r18_a_correction_is_made_once() {
    // A buffer of 6 bytes and a step of 6: below S by one length exactly.
    let mut bench = Bench::new().w(8, 0x1020);
    bench.settings.x = circular(8, 0x1020, 0x1025);
    assert_eq!(bench.run(&[movsac(0, 0x08, 0, 0x04, 0)]).state.w[8], 0x1020);
    bench.state.w[8] = 0x1024;
    assert_eq!(bench.run(&[movsac(0, 0x68, 0, 0x04, 0)]).state.w[8], 0x1024);
}

#[test]
fn r18_indexed_addresses_are_never_corrected() {
    let mut bench = Bench::new().w(9, 0x1024).w(12, 4).word(0x1028, 5);
    bench.settings.x = circular(9, 0x1020, 0x1027);
    let outcome = bench.run(&[movsac(0, 0x0C, 0, 0x04, 0)]);
    assert_eq!((outcome.state.w[4], outcome.state.w[9]), (5, 0x1024));
}

fn reversed(register: u8, words: u16) -> Bench {
    let mut bench = Bench::new();
    bench.settings.reversed = BitReversed { register, words };
    bench.w(usize::from(register), 0x1000)
}

#[test]
fn r19_bit_reversed_in_stores_of_form_2_alone() {
    for op in [store(5, 1, 2), sac(0, 0, 1, 2), sac_r(0, 0, 1, 2)] {
        assert_eq!(reversed(1, 8).run(&[op]).state.w[1], 0x1008);
        assert_eq!(reversed(2, 8).w(1, 0x1000).run(&[op]).state.w[1], 0x1002);
    }
    for op in [store(5, 1, 3), sac(0, 0, 1, 3), sac_r(0, 0, 1, 3)] {
        assert_eq!(reversed(1, 8).run(&[op]).state.w[1], 0x0FFE);
    }
    for op in [store(5, 1, 1), sac(0, 0, 1, 1)] {
        assert_eq!(reversed(1, 8).run(&[op]).state.w[1], 0x1000);
    }
    for op in [load(5, 1, 2), lac(0, 0, 1, 2), add(0, 0, 1, 2)] {
        assert_eq!(reversed(1, 8).run(&[op]).state.w[1], 0x1002);
    }
    assert_eq!(
        reversed(13, 8).run(&[clr(0, 0, 0, 0, 2)]).state.w[13],
        0x1002
    );
    let y_read = reversed(10, 8)
        .w(10, 0x1040)
        .run(&[movsac(0, 0, 0x4A, 0x40, 0)]);
    assert_eq!(y_read.state.w[10], 0x1042);
}

#[test]
fn r19_the_address_need_not_be_aligned() {
    let step = |from| reversed(1, 8).w(1, from).run(&[store(5, 1, 2)]).state.w[1];
    assert_eq!(step(0x1006), 0x100E);
    assert_eq!(step(0x100E), 0x1000);
    assert_eq!(step(0x1010), 0x1018);
    assert_eq!(step(0x101E), 0x1010);
    let two = |from| reversed(1, 2).w(1, from).run(&[store(5, 1, 2)]).state.w[1];
    assert_eq!((two(0x1004), two(0x1006)), (0x1006, 0x1004));
}

#[test]
fn r19_all_indices_of_n_are_visited_in_reversed_order() {
    for bits in 1..=10_u32 {
        let n = 1_u16 << bits;
        let mut address = 0x1800;
        for count in 0..n {
            let index = (address - 0x1800) / 2;
            assert_eq!(index, count.reverse_bits() >> (16 - bits));
            address = simulator::address::bit_reversed_next(address, n);
        }
        assert_eq!(address, 0x1800);
    }
}

#[test]
fn r20_places_are_those_of_the_innermost_active_loop() {
    // Kind 23 stands at the outer's last - 1, which is no place of the inner.
    let ops = [
        do_lit(9, 6),
        do_lit(9, 4),
        END_EARLY,
        IDLE,
        IDLE,
        END_EARLY,
        IDLE,
    ];
    let inner = Bench::new().budget(3).run(&ops).state.flow;
    assert_eq!((inner.loops[0].passes, inner.loops[1].passes), (10, 1));
    let outer = Bench::new().budget(6).run(&ops).state.flow;
    assert_eq!((outer.active, outer.loops[0].passes), (1, 2));
}

#[test]
fn r20_in_the_last_place_the_fall_follows_in_the_same_step() {
    let ops = [do_lit(9, 2), IDLE, END_EARLY];
    let outcome = Bench::new().budget(3).run(&ops);
    assert_eq!(outcome.state.flow.loops[0].passes, 1);
    assert_eq!(outcome.state.flow.pc, 1);
    assert_eq!(Bench::new().run(&ops).steps, 5);
}

#[test]
fn r20_repeated_it_takes_the_minimum_each_time() {
    let ops = [do_lit(9, 3), IDLE, repeat(4), END_EARLY];
    let outcome = Bench::new().run(&ops);
    // Two passes of IDLE, REPEAT and five runs.
    assert_eq!((outcome.ending, outcome.steps), (Ending::Done, 1 + 2 * 7));
    let early = [do_lit(9, 5), repeat(1), END_EARLY, IDLE, IDLE, IDLE];
    assert_eq!(Bench::new().run(&early).steps, 1 + 6);
}

#[test]
fn r20_outside_a_loop_nothing_happens() {
    let outcome = Bench::new().run(&[END_EARLY, IDLE]);
    assert_eq!((outcome.ending, outcome.steps), (Ending::Done, 2));
}

#[test]
fn r21_a_repeated_last_operation_lets_passes_fall_once() {
    let ops = [do_lit(2, 2), repeat(3), add_both(0)];
    let outcome = Bench::new().b(1).run(&ops);
    assert_eq!((outcome.ending, outcome.steps), (Ending::Done, 1 + 3 * 5));
    assert_eq!(outcome.state.accumulators[0], 12);
    let within = Bench::new().budget(5).run(&ops).state.flow;
    assert_eq!((within.repeat, within.loops[0].passes), (1, 3));
    let after = Bench::new().budget(6).run(&ops).state.flow;
    assert_eq!((after.repeat, after.loops[0].passes, after.pc), (0, 2, 1));
}

#[test]
fn r21_sr_bit_4_is_set_in_the_last_run_and_with_count_0() {
    let ops = [repeat(0), IDLE];
    let due = Bench::new().budget(1).run(&ops).state;
    assert_eq!((due.flow.repeat, status_word(&due)), (1, 0x0010));
    let over = Bench::new().run(&ops).state;
    assert_eq!((over.flow.repeat, status_word(&over)), (0, 0));
    let ops = [repeat(2), IDLE];
    let last_run = Bench::new().budget(3).run(&ops).state;
    assert_eq!((last_run.flow.repeat, status_word(&last_run)), (1, 0x0010));
}

/// All 16 bits, by which wish 1 replaces item 22's sentence on kind 22.
#[test]
fn r22_kind_22_uses_all_16_bits_as_kind_20_does() {
    let looped = [do_w(0, 2), IDLE, IDLE];
    // W0 becomes 0 in the loop; the count was taken before.
    assert_eq!(Bench::new().w(0, 0xC000).run(&looped).steps, 1 + 2 * 0xC001);
    assert_eq!(Bench::new().w(0, 0x4001).run(&looped).steps, 1 + 2 * 0x4002);
    let repeated = [repeat_w(0), IDLE];
    assert_eq!(Bench::new().w(0, 0xC000).run(&repeated).steps, 1 + 0xC001);
}

#[test]
fn sr_bits_stand_where_the_paper_puts_them() {
    let mut state = Bench::new().state;
    let mut word = |overflow, saturated, active, repeat| {
        state.overflow = overflow;
        state.saturated = saturated;
        state.flow.active = active;
        state.flow.repeat = repeat;
        status_word(&state)
    };
    let none = [false, false];
    assert_eq!(word([true, false], none, 0, 0), 0x8800);
    assert_eq!(word([false, true], none, 0, 0), 0x4800);
    assert_eq!(word(none, [true, false], 0, 0), 0x2400);
    assert_eq!(word(none, [false, true], 0, 0), 0x1400);
    assert_eq!(word(none, none, 1, 0), 0x0200);
    assert_eq!(word(none, none, 0, 65_536), 0x0010);
    assert_eq!(word([true; 2], [true; 2], 4, 1), 0xFE10);
}

#[test]
fn going_back_is_to_do_plus_1_and_pc_moves_on_after_the_loop() {
    let ops = [IDLE, do_lit(1, 3), IDLE, IDLE, IDLE];
    let pcs: Vec<u16> = (0..=7)
        .map(|budget| Bench::new().budget(budget).run(&ops).state.flow.pc)
        .collect();
    assert_eq!(pcs, [0, 1, 2, 3, 2, 3, 4, 5]);
}
