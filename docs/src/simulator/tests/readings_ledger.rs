//! READINGS 23 to 25: the ledger and tally.

mod common;
use common::*;
use simulator::address::WordIndex;
use simulator::ledger::{LedgerEnding, ListedStore};
use simulator::operand::Place;
use simulator::tally::tally;
use simulator::Ending;

const TOP: i64 = (1 << 39) - 1;

#[test]
fn r23_the_ledger_stops_before_the_step_that_leaves() {
    let bench = Bench::new()
        .a(TOP)
        .b(2 << 16)
        .w(4, 1)
        .w(8, 0x1000)
        .w(13, 0x1010)
        .mode(1);
    let outcome = bench.ledger(&[IDLE, mac(0, 0x44, 0x48, 0, 0x05, 2)]);
    assert_eq!(outcome.ending, LedgerEnding::Left);
    assert_eq!(outcome.steps, 1);
    assert!(outcome.stores.is_empty());
    assert_eq!(outcome.state.accumulators, [i128::from(TOP), 2 << 16]);
    assert_eq!((outcome.state.w[8], outcome.state.w[13]), (0x1000, 0x1010));
    assert_eq!(outcome.state.flow.pc, 1);
    assert_eq!(outcome.memory, bench.memory);
}

#[test]
fn r23_traps_without_effect_come_before_left() {
    let bench = Bench::new().a(TOP).w(4, 1).w(13, 0x1001).mode(1);
    let outcome = bench.ledger(&[mac(0, 0x44, 0, 0, 0, 2)]);
    assert_eq!(outcome.ending, LedgerEnding::AsRun(trap(1)));
    assert_eq!(outcome.steps, 0);
}

#[test]
fn r23_limits_are_those_of_the_mode_before_the_step() {
    let left = |mode| {
        let bench = Bench::new().a(1 << 31).b(1).mode(mode);
        bench.ledger(&[add_both(0)]).ending == LedgerEnding::Left
    };
    assert!(left(0x0080));
    assert!(!left(0x0090));
    assert!(!left(0x0040));
    assert!(!left(0));
    let bench = Bench::new().a(1 << 31).b(1).mode(0);
    let switched = bench.ledger(&[mode(0x0080), add_both(0)]);
    assert_eq!((switched.ending, switched.steps), (LedgerEnding::Left, 1));
}

#[test]
fn r23_an_accumulator_outside_narrow_limits_stays_until_written() {
    let bench = Bench::new().a(1 << 35).mode(0x0080);
    let kept = bench.ledger(&[IDLE, sac(0, 0, 4, 0), clr(0, 0, 0, 0, 0)]);
    assert_eq!(kept.ending, LedgerEnding::AsRun(Ending::Done));
    let written = bench.ledger(&[add(0, 0, 0, 0)]);
    assert_eq!(written.ending, LedgerEnding::Left);
}

#[test]
fn r23_traps_6_and_7_follow_its_own_o_flags_and_stores_are_listed() {
    let bench = Bench::new()
        .a(1 << 31)
        .b(3 << 16)
        .w(13, 0x1010)
        .mode(0)
        .traps(0x0700);
    let outcome = bench.ledger(&[mac(0, 0x44, 0, 0, 0, 2), IDLE]);
    assert_eq!(outcome.ending, LedgerEnding::AsRun(trap(6)));
    assert_eq!(outcome.steps, 1);
    assert_eq!(outcome.state.overflow, [true, false]);
    let listed = ListedStore {
        step: 1,
        place: Place::Memory(WordIndex(8)),
        value: 3 << 16,
        word: 3,
        limiting_needed: false,
        rounded: true,
    };
    assert_eq!(outcome.stores, [listed]);
    assert_eq!(outcome.memory[8], 3);
    let seven = Bench::new().b(1 << 33).mode(0).traps(0x0200);
    let outcome = seven.ledger(&[add(1, 0, 0, 0)]);
    assert_eq!(outcome.ending, LedgerEnding::AsRun(trap(7)));
}

#[test]
fn r23_trap_5_cannot_occur_in_it() {
    let mut bench = Bench::new().a(TOP).b(1).mode(0).traps(0x0100);
    assert_eq!(bench.ledger(&[add_both(0)]).ending, LedgerEnding::Left);
    assert_eq!(bench.run(&[add_both(0)]).ending, trap(5));
}

#[test]
fn r23_kind_25_changes_nothing_there() {
    let bench = Bench::new().a(5);
    let outcome = bench.ledger(&[CLEAR_S, IDLE]);
    assert_eq!(outcome.ending, LedgerEnding::AsRun(Ending::Done));
    assert_eq!(outcome.steps, 2);
    assert_eq!(outcome.state.accumulators, [5, 0]);
}

#[test]
fn r24_limiting_needed_does_not_depend_on_satdw() {
    for (mode, word) in [(0x20, 32_767), (0, -32_768)] {
        let bench = Bench::new().a(0x7FFF_8000).mode(mode);
        let outcome = bench.ledger(&[sac_r(0, 0, 4, 0), sac(0, 0, 5, 0)]);
        let [rounded, truncated] = outcome.stores[..] else {
            panic!("two stores")
        };
        assert_eq!((rounded.limiting_needed, rounded.word), (true, word));
        assert_eq!((rounded.rounded, rounded.step), (true, 1));
        assert_eq!(rounded.place, Place::Register(4));
        assert_eq!((truncated.limiting_needed, truncated.word), (false, 32_767));
        assert_eq!((truncated.rounded, truncated.step), (false, 2));
    }
}

#[test]
fn the_listed_value_is_the_shifted_accumulator_with_its_floor() {
    let bench = Bench::new().a(-5).b(0x1_2345).mode(0x20);
    let ops = [sac_r(0, 1, 4, 0), sac(1, -8, 5, 0), movsac(0, 0, 0, 0, 1)];
    let stores = bench.ledger(&ops).stores;
    let values: Vec<i128> = stores.iter().map(|store| store.value).collect();
    assert_eq!(values, [-3, 0x123_4500, 0x1_2345]);
    assert_eq!(stores[2].place, Place::Register(13));
    assert_eq!(stores[0].word, 0);
}

#[test]
fn the_ledger_leaves_the_lent_memory() {
    let bench = Bench::new().w(0, 0x1000).w(1, 9);
    let outcome = bench.ledger(&[store(1, 0, 2)]);
    assert_eq!((outcome.memory[0], bench.memory[0]), (9, 0));
}

#[test]
fn the_ledger_refuses_as_a_run_does() {
    let bench = Bench::new().a(TOP + 1);
    let outcome = bench.ledger(&[IDLE]);
    assert_eq!(outcome.ending, LedgerEnding::AsRun(Ending::Refused(7)));
    assert_eq!(outcome.steps, 0);
}

#[test]
fn r25_tally_refuses_more_than_32_768_bytes() {
    let ops = vec![IDLE; 4_032];
    let mut file = file_of(&ops);
    assert_eq!(file.len(), 32_768);
    assert_eq!(tally(file.as_slice()).unwrap(), "done 4032 0 0 0000\n");
    file.push(0);
    assert_eq!(tally(file.as_slice()).unwrap(), "refused1\n");
    let endless = std::io::repeat(0);
    assert_eq!(tally(endless).unwrap(), "refused1\n");
}
