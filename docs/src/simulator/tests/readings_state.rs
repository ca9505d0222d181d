//! READINGS 7 to 10: which states and settings are accepted.

mod common;
use common::*;
use simulator::{BitReversed, Circular, Ending};

fn loop_program() -> [Op; 5] {
    [IDLE, do_lit(0, 3), IDLE, IDLE, IDLE]
}

#[test]
fn r7_a_loop_is_around_pc_after_do_up_to_its_last() {
    let ops = loop_program();
    Bench::new().pc(1).accepted(&ops);
    Bench::new().pc(1).within(1, 1).refused(&ops, 7);
    Bench::new().pc(2).within(1, 1).accepted(&ops);
    Bench::new().pc(2).refused(&ops, 7);
    Bench::new().pc(3).within(1, 1).accepted(&ops);
    Bench::new().pc(3).refused(&ops, 7);
    Bench::new().pc(4).accepted(&ops);
    Bench::new().pc(4).within(1, 1).refused(&ops, 7);
}

#[test]
fn r7_no_state_is_accepted_inside_five_loops() {
    let mut ops: Vec<Op> = (0..5).map(|level| do_lit(1, 12 - level)).collect();
    ops.extend([IDLE; 8]);
    let four = |pc| {
        let mut bench = Bench::new().pc(pc);
        for number in 0..4 {
            bench = bench.within(number, 1);
        }
        bench
    };
    four(4).accepted(&ops);
    four(5).refused(&ops, 7);
    four(8).refused(&ops, 7);
    four(9).accepted(&ops);
}

/// 1..65,536, by which wish 1 replaces item 7's 1..32,768.
#[test]
fn r7_passes_do_not_depend_on_the_kind_or_its_count() {
    let ops = loop_program();
    for passes in [1, 32_768, 32_769, 65_536] {
        let mut bench = Bench::new().pc(2).within(1, passes);
        assert_eq!(bench.run(&ops).steps, 2 * passes + 1);
    }
    let by_register = [do_w(0, 2), IDLE, IDLE];
    for passes in [1, 32_768, 32_769, 65_536] {
        let mut bench = Bench::new().pc(1).within(0, passes);
        assert_eq!(bench.run(&by_register).steps, 2 * passes);
    }
    for passes in [0, 65_537, 98_304, 131_072, u32::MAX] {
        Bench::new().pc(2).within(1, passes).refused(&ops, 7);
        Bench::new()
            .pc(1)
            .within(0, passes)
            .refused(&by_register, 7);
    }
}

#[test]
fn r7_repeat_left_does_not_depend_on_the_count() {
    let ops = [repeat(0), IDLE, IDLE];
    assert_eq!(
        Bench::new().pc(1).repeating(65_536).run(&ops).steps,
        65_536 + 1
    );
    Bench::new().pc(1).repeating(65_537).refused(&ops, 7);
    Bench::new().pc(1).refused(&ops, 7);
    Bench::new().pc(0).repeating(1).refused(&ops, 7);
    Bench::new().pc(2).repeating(1).refused(&ops, 7);
    Bench::new().pc(2).accepted(&ops);
}

#[test]
fn r8_flags_need_not_fit_the_accumulators() {
    let mut bench = Bench::new().a((1 << 31) + 5).mode(0x00E0);
    bench.state.overflow = [false, true];
    bench.state.saturated = [true, true];
    let outcome = bench.run(&[IDLE]);
    assert_eq!(outcome.ending, Ending::Done);
    assert_eq!(outcome.state.accumulators[0], (1 << 31) + 5);
    assert_eq!(outcome.state.overflow, [false, true]);
}

#[test]
fn r9_a_slot_that_is_not_in_use_is_zero() {
    let ops = loop_program();
    for (number, passes) in [(0, 1), (1, 0), (1, 1)] {
        for slot in 1..4 {
            let mut bench = Bench::new().pc(2).within(1, 1);
            bench.state.flow.loops[slot].do_number = number;
            bench.state.flow.loops[slot].passes = passes;
            bench.refused(&ops, 7);
        }
    }
    let mut five = Bench::new().pc(2).within(1, 1);
    five.state.flow.active = 5;
    five.refused(&ops, 7);
    five.state.flow.active = 255;
    five.refused(&ops, 7);
}

#[test]
fn r9_a_loop_that_ended_leaves_a_zero_slot() {
    let ops = [do_lit(0, 4), do_lit(0, 3), IDLE, IDLE, IDLE];
    let inner = Bench::new().budget(4).run(&ops).state.flow;
    assert_eq!((inner.active, inner.loops[0].passes), (1, 1));
    assert_eq!((inner.loops[1].do_number, inner.loops[1].passes), (0, 0));
    let end = Bench::new().run(&ops).state.flow;
    assert_eq!(end.active, 0);
    assert_eq!((end.loops[0].do_number, end.loops[0].passes), (0, 0));
}

fn buffer(register: u8, start: u16, end: u16) -> Circular {
    Circular {
        register,
        start,
        end,
    }
}

fn with_x(register: u8, start: u16, end: u16) -> Bench {
    let mut bench = Bench::new();
    bench.settings.x = buffer(register, start, end);
    bench
}

fn with_y(register: u8, start: u16, end: u16) -> Bench {
    let mut bench = Bench::new();
    bench.settings.y = buffer(register, start, end);
    bench
}

#[test]
fn r10_x_buffer_lies_anywhere_and_y_buffer_in_the_y_part() {
    let ops = [IDLE];
    with_x(8, 0x103C, 0x1043).accepted(&ops);
    with_x(8, 0x1000, 0x107F).accepted(&ops);
    with_x(8, 0x0FFE, 0x1005).refused(&ops, 6);
    with_x(8, 0x107A, 0x1081).refused(&ops, 6);
    with_y(10, 0x1040, 0x1045).accepted(&ops);
    with_y(11, 0x107A, 0x107F).accepted(&ops);
    with_y(10, 0x103E, 0x1045).refused(&ops, 6);
    with_y(10, 0x107C, 0x1081).refused(&ops, 6);
}

#[test]
fn r10_length_is_a_difference_of_whole_numbers() {
    let ops = [IDLE];
    with_x(8, 0x1000, 0x1005).accepted(&ops);
    with_x(8, 0x1000, 0x1003).refused(&ops, 6);
    with_x(8, 0x1010, 0x100F).refused(&ops, 6);
    let mut top = Bench::sized(30_720, 32);
    top.settings.x = buffer(8, 0xFFFA, 0xFFFF);
    top.accepted(&ops);
    top.settings.x = buffer(8, 0xFFFC, 0x1003);
    top.refused(&ops, 6);
}

#[test]
fn r10_s_is_even_and_e_is_odd() {
    with_x(8, 0x1001, 0x1007).refused(&[IDLE], 6);
    with_x(8, 0x1000, 0x1006).refused(&[IDLE], 6);
    with_y(10, 0x1041, 0x1047).refused(&[IDLE], 6);
    with_y(10, 0x1040, 0x1046).refused(&[IDLE], 6);
}

#[test]
fn r10_which_registers_may_be_equal() {
    let ops = [IDLE];
    let mut bench = with_x(10, 0x1000, 0x1005);
    bench.settings.y = buffer(10, 0x1040, 0x1045);
    bench.accepted(&ops);
    bench.settings.reversed = BitReversed {
        register: 10,
        words: 8,
    };
    bench.refused(&ops, 6);
    bench.settings.x = Circular::NONE;
    bench.accepted(&ops);
}

#[test]
fn r10_register_15_is_none_and_14_is_refused() {
    let ops = [IDLE];
    with_x(15, 0, 0).accepted(&ops);
    with_x(15, 0, 1).refused(&ops, 6);
    with_x(15, 2, 0).refused(&ops, 6);
    with_x(15, 0x1000, 0x1005).refused(&ops, 6);
    with_x(14, 0, 0).refused(&ops, 6);
    with_x(14, 0x1000, 0x1005).refused(&ops, 6);
    with_x(16, 0, 0).refused(&ops, 6);
    with_x(13, 0x1000, 0x1005).accepted(&ops);
    with_x(0, 0, 0).refused(&ops, 6);
    with_y(15, 0, 1).refused(&ops, 6);
    for register in [0, 8, 9, 12, 13, 14, 255] {
        with_y(register, 0x1040, 0x1045).refused(&ops, 6);
    }
}

#[test]
fn row_6_bit_reversed_register_and_n() {
    let with = |register, words| {
        let mut bench = Bench::new();
        bench.settings.reversed = BitReversed { register, words };
        bench
    };
    for n in [2, 4, 8, 16, 32, 64, 128, 256, 512, 1_024] {
        with(13, n).accepted(&[IDLE]);
        with(0, n).accepted(&[IDLE]);
        with(14, n).refused(&[IDLE], 6);
        with(15, n).refused(&[IDLE], 6);
    }
    for n in [0, 1, 3, 6, 1_023, 1_025, 2_048, 0x8000] {
        with(0, n).refused(&[IDLE], 6);
    }
    with(15, 0).accepted(&[IDLE]);
    with(14, 0).refused(&[IDLE], 6);
}

#[test]
fn row_6_memory_x_part_and_trap_word() {
    for (words, x, good) in [
        (0, 0, false),
        (1, 1, false),
        (2, 1, true),
        (2, 0, false),
        (2, 2, false),
        (64, 63, true),
        (64, 64, false),
        (30_720, 30_719, true),
        (30_721, 1, false),
    ] {
        let mut bench = Bench::sized(words, x);
        if good {
            bench.accepted(&[IDLE]);
        } else {
            bench.refused(&[IDLE], 6);
        }
    }
    for bit in 0..16 {
        let mut bench = Bench::new().traps(1 << bit);
        if (8..=10).contains(&bit) {
            bench.accepted(&[IDLE]);
        } else {
            bench.refused(&[IDLE], 6);
        }
    }
    Bench::new().traps(0x0700).accepted(&[IDLE]);
}

#[test]
fn row_7_accumulators_mode_and_pc() {
    let ops = [IDLE, IDLE];
    let edge = 1_i64 << 39;
    for (value, good) in [
        (edge - 1, true),
        (edge, false),
        (-edge, true),
        (-edge - 1, false),
        (i64::MAX, false),
        (i64::MIN, false),
    ] {
        for mut bench in [Bench::new().a(value), Bench::new().b(value)] {
            if good {
                bench.accepted(&ops);
            } else {
                bench.refused(&ops, 7);
            }
        }
    }
    for bit in 0..16 {
        let mut bench = Bench::new().mode(1 << bit);
        if [0, 1, 4, 5, 6, 7, 12].contains(&bit) {
            bench.accepted(&ops);
        } else {
            bench.refused(&ops, 7);
        }
    }
    Bench::new().mode(0x3000).refused(&ops, 7);
    Bench::new().mode(0x10F3).accepted(&ops);
    Bench::new().pc(2).accepted(&ops);
    Bench::new().pc(3).refused(&ops, 7);
    Bench::new().pc(0xFFFF).refused(&ops, 7);
}

#[test]
fn row_7_loops_are_in_order_outermost_first() {
    let ops = [do_lit(0, 4), do_lit(0, 3), IDLE, IDLE, IDLE];
    Bench::new().pc(2).within(0, 1).within(1, 1).accepted(&ops);
    Bench::new()
        .pc(2)
        .within(1, 1)
        .within(0, 1)
        .refused(&ops, 7);
    Bench::new().pc(2).within(0, 1).refused(&ops, 7);
    Bench::new().pc(2).within(1, 1).refused(&ops, 7);
    Bench::new()
        .pc(2)
        .within(0, 1)
        .within(2, 1)
        .refused(&ops, 7);
    Bench::new().pc(4).within(0, 1).accepted(&ops);
}
