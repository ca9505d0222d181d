//! Traps 1 to 7 and their order.

mod common;
use common::*;
use simulator::Ending;

/// Run, and ask for a trap without effect.
fn blocked(mut bench: Bench, op: Op, number: u8) {
    let before = bench.memory.clone();
    let outcome = bench.run(&[op, IDLE]);
    assert_eq!((outcome.ending, outcome.steps), (trap(number), 0));
    assert_eq!(outcome.state, bench.state);
    assert_eq!(bench.memory, before);
}

/// X pointer W8, Y pointer W10, write-back pointer W13.
fn pointers(x: u16, y: u16, back: u16) -> Bench {
    Bench::new()
        .w(8, x)
        .w(10, y)
        .w(13, back)
        .a(77)
        .b(1 << 16)
        .w(4, 5)
}

const ALL: Op = [3, 0, 0x44, 0x48, 0x4A, 0x65, 2, 0];

#[test]
fn regions_at_their_boundaries() {
    let good = |x, y, back| {
        let outcome = pointers(x, y, back).run(&[ALL]);
        assert_eq!((outcome.ending, outcome.steps), (Ending::Done, 1));
    };
    good(0x1000, 0x1040, 0x1000);
    good(0x103E, 0x107E, 0x107E);
    blocked(pointers(0x0FFE, 0x1040, 0x1000), ALL, 2);
    blocked(pointers(0x1040, 0x1040, 0x1000), ALL, 2);
    blocked(pointers(0x1000, 0x103E, 0x1000), ALL, 2);
    blocked(pointers(0x1000, 0x1080, 0x1000), ALL, 2);
    blocked(pointers(0x1000, 0x1040, 0x0FFE), ALL, 2);
    blocked(pointers(0x1000, 0x1040, 0x1080), ALL, 2);
    blocked(pointers(0x1000, 0x1040, 0x0000), ALL, 2);
}

#[test]
fn odd_comes_before_outside_in_one_access() {
    blocked(pointers(0x0001, 0x1040, 0x1000), ALL, 1);
    blocked(pointers(0x1041, 0x1040, 0x1000), ALL, 1);
    blocked(pointers(0x1000, 0x1001, 0x1000), ALL, 1);
    blocked(pointers(0x1000, 0x1040, 0xFFFF), ALL, 1);
}

#[test]
fn x_comes_before_y_before_the_write() {
    // X outside (2) before Y odd (1).
    blocked(pointers(0x1040, 0x1041, 0x1001), ALL, 2);
    // X odd (1) before Y outside (2).
    blocked(pointers(0x1001, 0x1000, 0x0000), ALL, 1);
    // Y outside (2) before the write odd (1).
    blocked(pointers(0x1000, 0x1000, 0x1001), ALL, 2);
    // Y odd (1) before the write outside (2).
    blocked(pointers(0x1000, 0x1041, 0x0000), ALL, 1);
}

#[test]
fn kinds_5_and_6_check_x_before_y() {
    for op in [
        ed(0, 0x44, 0x48, 0x4A, 0x05),
        edac(0, 0x44, 0x48, 0x4A, 0x05),
    ] {
        blocked(pointers(0x1040, 0x1041, 0), op, 2);
        blocked(pointers(0x1001, 0x1000, 0), op, 1);
        blocked(pointers(0x1000, 0x1000, 0), op, 2);
        blocked(pointers(0x1000, 0x1041, 0), op, 1);
    }
}

#[test]
fn indexed_addresses_are_checked_as_sums() {
    let x = |w9, w12| Bench::new().w(9, w9).w(12, w12);
    let op = movsac(0, 0x0C, 0, 0x04, 0);
    blocked(x(0x1000, 1), op, 1);
    blocked(x(0x1000, 0x40), op, 2);
    blocked(x(0xF000, 0x1000), op, 2);
    assert_eq!(x(0xF001, 0x1FFD).run(&[op]).ending, trap(2));
    assert_eq!(x(0xF001, 0x1FFF).run(&[op]).ending, Ending::Done);
    let y = |w11, w13| Bench::new().w(11, w11).w(13, w13);
    let op = movsac(0, 0, 0x0D, 0x40, 0);
    blocked(y(0x1040, 3), op, 1);
    blocked(y(0x1040, 0xFFFE), op, 2);
    assert_eq!(y(0x1001, 0x003F).run(&[op]).ending, Ending::Done);
}

#[test]
fn plain_accesses_odd_then_outside() {
    let ops = [
        load(4, 0, 2),
        store(4, 0, 2),
        lac(0, 0, 0, 1),
        add(0, 0, 0, 3),
        sac(0, 0, 0, 2),
        sac_r(0, 0, 0, 3),
    ];
    for op in ops {
        blocked(Bench::new().w(0, 0x1001), op, 1);
        blocked(Bench::new().w(0, 0x0001), op, 1);
        blocked(Bench::new().w(0, 0x0FFE), op, 2);
        blocked(Bench::new().w(0, 0x1080), op, 2);
        assert_eq!(Bench::new().w(0, 0x1000).run(&[op]).ending, Ending::Done);
        assert_eq!(Bench::new().w(0, 0x107E).run(&[op]).ending, Ending::Done);
    }
}

#[test]
fn direct_forms_check_no_address() {
    for op in [
        lac(0, 0, 0, 0),
        add(0, 0, 0, 0),
        sac(0, 0, 0, 0),
        sac_r(0, 0, 0, 0),
    ] {
        assert_eq!(Bench::new().w(0, 1).run(&[op]).ending, Ending::Done);
    }
}

#[test]
fn the_topmost_address_is_in_the_largest_memory() {
    let mut bench = Bench::sized(30_720, 100).w(0, 0xFFFE);
    assert_eq!(bench.run(&[load(4, 0, 1)]).ending, Ending::Done);
    let mut bench = Bench::sized(30_719, 100).w(0, 0xFFFE);
    assert_eq!(bench.run(&[load(4, 0, 1)]).ending, trap(2));
}

#[test]
fn trap_3_beyond_16_either_way() {
    for (by, far) in [
        (16, false),
        (17, true),
        (-16, false),
        (-17, true),
        (i16::MIN, true),
    ] {
        let bench = Bench::new().a(5).w(2, by as u16);
        if far {
            blocked(bench, shift_by(0, 2), 3);
        } else {
            let mut bench = bench;
            assert_eq!(bench.run(&[shift_by(0, 2)]).ending, Ending::Done);
        }
    }
}

#[test]
fn trap_4_for_a_fifth_loop() {
    let mut ops: Vec<Op> = (0..5).map(|level| do_lit(0, 12 - level)).collect();
    ops.extend([IDLE; 8]);
    let outcome = Bench::new().run(&ops);
    assert_eq!((outcome.ending, outcome.steps), (trap(4), 4));
    let flow = outcome.state.flow;
    assert_eq!((flow.pc, flow.active), (4, 4));
    assert_eq!(flow.loops.map(|slot| slot.do_number), [0, 1, 2, 3]);
    ops[4] = do_w(0, 8);
    assert_eq!(Bench::new().run(&ops).ending, trap(4));
    ops[4] = IDLE;
    assert_eq!(Bench::new().run(&ops).ending, Ending::Done);
}

#[test]
fn traps_5_to_7_are_counted_and_complete() {
    let top = (1 << 39) - 1;
    let mut bench = Bench::new().a(top).b(1).mode(0).traps(0x0100);
    let five = bench.run(&[add_both(0), IDLE]);
    assert_eq!((five.ending, five.steps), (trap(5), 1));
    assert_eq!(five.state.accumulators[0], -(1 << 39));
    assert_eq!(five.state.saturated, [true, false]);
    assert_eq!(five.state.flow.pc, 1);
    let mut bench = Bench::new().a(1).b((1 << 31) - 1).mode(0).traps(0x0200);
    let seven = bench.run(&[add_both(0), add_both(1), IDLE]);
    assert_eq!((seven.ending, seven.steps), (trap(7), 2));
    assert_eq!(seven.state.overflow, [true, true]);
    assert_eq!(seven.state.flow.pc, 2);
}

#[test]
fn trap_6_comes_with_saturation_on_and_wide() {
    let mut bench = Bench::new().a(1 << 31).mode(0x0090).traps(0x0400);
    assert_eq!(bench.run(&[add(0, 0, 0, 0)]).ending, trap(6));
    let mut bench = Bench::new().a(1 << 31).mode(0x0080).traps(0x0700);
    let outcome = bench.run(&[add(0, 0, 0, 0)]);
    assert_eq!(outcome.ending, Ending::Done);
    assert_eq!(outcome.state.saturated, [true, false]);
    assert_eq!(outcome.state.overflow, [false, false]);
}
