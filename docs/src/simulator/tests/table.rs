//! "Table to be proved together", A to L, each through the public functions
//! and through whole programs.

mod common;
use common::*;
use simulator::accumulator::{keep, product_by_mode, rounded, shift, store_word};
use simulator::address::{bit_reversed_next, circular_step};
use simulator::mode::Mode;
use simulator::operation::Target;
use simulator::tally::tally_line;
use simulator::{Circular, Ending};

const TALLY_EXAMPLE: fn() -> [Op; 3] = || [lit(4, 3), lit(5, 0xFFFE), mpy(0, 0x54, 0, 0, 0)];

#[test]
fn a_three_times_minus_two() {
    assert_eq!(product_by_mode(3, 0xFFFE, Mode::RESET), -12);
    let outcome = Bench::new().run(&TALLY_EXAMPLE());
    assert_eq!(outcome.ending, Ending::Done);
    assert_eq!(outcome.state.accumulators, [-12, 0]);
    assert_eq!(outcome.steps, 3);
}

#[test]
fn a_tally_example_line() {
    assert_eq!(
        tally_line(&file_of(&TALLY_EXAMPLE())),
        "done 3 -12 0 0000\n"
    );
}

#[test]
fn b_square_of_the_smallest() {
    assert_eq!(product_by_mode(0x8000, 0x8000, Mode(0)), 1 << 31);
    let ops = [mpy(0, 0x44, 0, 0, 0)];
    let on = Bench::new().w(4, 0x8000).mode(0x0080).run(&ops);
    assert_eq!(on.state.accumulators[0], (1 << 31) - 1);
    assert_eq!(on.state.saturated, [true, false]);
    assert_eq!(on.state.overflow, [false, false]);
    let off = Bench::new().w(4, 0x8000).mode(0).run(&ops);
    assert_eq!(off.state.accumulators[0], 1 << 31);
    assert_eq!(off.state.saturated, [false, false]);
    assert_eq!(off.state.overflow, [true, false]);
}

#[test]
fn c_unsigned_integer() {
    assert_eq!(product_by_mode(0xFFFF, 0xFFFF, Mode(0x1001)), 4_294_836_225);
    let mut bench = Bench::new().w(4, 0xFFFF).mode(0x1001);
    let outcome = bench.run(&[mpy(0, 0x44, 0, 0, 0)]);
    assert_eq!(outcome.state.accumulators[0], 4_294_836_225);
}

#[test]
fn d_rounding_of_ties() {
    let lines = [
        (0, 98_304, 2),
        (0, 32_768, 0),
        (0, -32_768, 0),
        (2, 32_768, 1),
    ];
    for (mode, value, word) in lines {
        assert_eq!(store_word(rounded(value, Mode(mode)), Mode(mode)), word);
        let mut bench = Bench::new().a(value).mode(mode | 0x20).w(3, 0x5555);
        let outcome = bench.run(&[sac_r(0, 0, 3, 0)]);
        assert_eq!(outcome.state.w[3], word, "{value}");
    }
}

#[test]
fn e_limiting_of_a_rounded_store() {
    for (mode, word) in [(0x20, 0x7FFF), (0, 0x8000)] {
        let mut bench = Bench::new().a(2_147_450_880).mode(mode);
        let outcome = bench.run(&[sac_r(0, 0, 3, 0)]);
        assert_eq!(outcome.state.w[3], word);
        assert_eq!(outcome.state.saturated, [false; 2]);
    }
}

#[test]
fn f_forty_bits_and_one_more() {
    let top = (1 << 39) - 1;
    let on = keep(top + 1, Mode(0x0090), Target::A);
    assert_eq!((on.value, on.left), (top, true));
    let off = keep(top + 1, Mode(0), Target::A);
    assert_eq!((off.value, off.left), (-(1 << 39), true));
    for (mode, kept) in [(0x0090, top), (0, -(1 << 39)), (0x0010, -(1 << 39))] {
        let outcome = Bench::new().a(top).b(1).mode(mode).run(&[add_both(0)]);
        assert_eq!(outcome.state.accumulators[0], kept);
        assert_eq!(outcome.state.saturated, [true, false]);
        assert_eq!(outcome.state.overflow, [true, false]);
    }
}

#[test]
fn g_circular_step() {
    let buffer = Circular {
        register: 8,
        start: 0x1100,
        end: 0x1107,
    };
    assert_eq!(circular_step(0x1106, 4, &buffer), 0x1102);
    let mut bench = Bench::sized(300, 200).w(8, 0x1106).word(0x1106, 77);
    bench.settings.x = buffer;
    let outcome = bench.run(&[movsac(0, 0x58, 0, 0x04, 0)]);
    assert_eq!(outcome.state.w[8], 0x1102);
    assert_eq!(outcome.state.w[4], 77);
}

#[test]
fn h_bit_reversed_addresses() {
    assert_eq!(bit_reversed_next(0x1200, 8), 0x1208);
    assert_eq!(bit_reversed_next(0x1208, 8), 0x1204);
    let mut bench = Bench::sized(512, 32).w(0, 0x1200).w(5, 9);
    bench.settings.reversed = simulator::BitReversed {
        register: 0,
        words: 8,
    };
    let outcome = bench.run(&[store(5, 0, 2), store(5, 0, 2)]);
    assert_eq!(outcome.state.w[0], 0x1204);
    assert_eq!(
        (bench.at(0x1200), bench.at(0x1208), bench.at(0x1204)),
        (9, 9, 0)
    );
}

#[test]
fn i_end_early_in_the_last_place() {
    let ops = [do_lit(9, 2), IDLE, END_EARLY];
    let decoded = simulator::decode::decode_all(&ops.concat()).unwrap();
    for (before, after) in [(5, 2), (1, 1)] {
        let mut flow = Bench::new().pc(2).within(0, before).state.flow;
        flow.end_early(&decoded);
        assert_eq!(flow.loops[0].passes, after);
    }
    let five = Bench::new().pc(2).within(0, 5).budget(1).run(&ops);
    assert_eq!(five.state.flow.loops[0].passes, 1);
    assert_eq!((five.state.flow.pc, five.state.flow.active), (1, 1));
    let one = Bench::new().pc(2).within(0, 1).run(&ops);
    assert_eq!((one.ending, one.steps), (Ending::Done, 1));
    assert_eq!((one.state.flow.pc, one.state.flow.active), (3, 0));
}

#[test]
fn j_do_zero_is_one_pass() {
    let outcome = Bench::new().run(&[do_lit(0, 2), IDLE, IDLE]);
    assert_eq!((outcome.ending, outcome.steps), (Ending::Done, 3));
}

#[test]
fn k_difference_is_reduced_to_16_bits() {
    let mut bench = Bench::new()
        .w(8, 0x1000)
        .w(10, 0x1040)
        .word(0x1000, 1)
        .word(0x1040, 2);
    let outcome = bench.run(&[ed(0, 0x44, 0x38, 0x3A, 0x07)]);
    assert_eq!(outcome.state.w[7], 0xFFFF);
}

#[test]
fn l_shift_by_16_and_17() {
    assert_eq!(shift(-1, 16), -1);
    let outcome = Bench::new().a(-1).w(2, 16).run(&[shift_by(0, 2)]);
    assert_eq!((outcome.ending, outcome.steps), (Ending::Done, 1));
    assert_eq!(outcome.state.accumulators[0], -1);
    let outcome = Bench::new().a(-1).w(2, 17).run(&[shift_by(0, 2)]);
    assert_eq!((outcome.ending, outcome.steps), (trap(3), 0));
    assert_eq!(outcome.state.accumulators[0], -1);
}

#[test]
fn tally_prints_traps_and_refusals_and_spent() {
    let loops = [
        do_lit(0, 10),
        do_lit(0, 9),
        do_lit(0, 8),
        do_lit(0, 7),
        do_lit(0, 6),
    ];
    let nest: Vec<Op> = loops.iter().copied().chain([IDLE; 6]).collect();
    assert_eq!(tally_line(&file_of(&nest)), "trap4 4 0 0 0200\n");
    assert_eq!(tally_line(&file_of(&[load(1, 0, 1)])), "trap2 0 0 0 0000\n");
    let odd = [lit(0, 0x1001), load(1, 0, 1)];
    assert_eq!(tally_line(&file_of(&odd)), "trap1 1 0 0 0000\n");
    let far = [lit(2, 17), repeat(4), shift_by(0, 2)];
    assert_eq!(tally_line(&file_of(&far)), "trap3 2 0 0 0010\n");
    let long = [do_lit(32_767, 4), do_lit(32_767, 3), IDLE, IDLE, IDLE];
    assert_eq!(tally_line(&file_of(&long)), "spent 100000 0 0 0200\n");
    assert_eq!(tally_line(&file_of(&[[26; 8]])), "refused4\n");
    assert_eq!(tally_line(&file_of(&[repeat(1)])), "refused5\n");
    assert_eq!(tally_line(&[]), "refused1\n");
    let mut file = file_of(&[IDLE]);
    file[500] = 1;
    assert_eq!(tally_line(&file), "refused2\n");
    file[500] = 0;
    (file[0], file[4]) = (1, file[4] + 1);
    assert_eq!(tally_line(&file), "refused3\n");
    let both = [
        mode(0x00C0),
        lit(4, 0x8000),
        mpy(0, 0x44, 0, 0, 0),
        mode(0),
        mpy(1, 0x44, 0, 0, 0),
    ];
    let line = "done 5 2147483647 2147483648 6C00\n";
    assert_eq!(tally_line(&file_of(&both)), line);
}
