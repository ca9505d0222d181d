//! Runs of wish 12 worked out by hand from document 01: what the ledger that goes
//! on has exactly, and what the engine keeps of it.

mod common;
use common::*;

use simulator::address::WordIndex;
use simulator::congruence::{engine_of, faults, is_bound, ledger_of, onward_of};
use simulator::integer::Integer;
use simulator::ledger::{LedgerEnding, ListedStore};
use simulator::onward::OnwardOutcome;
use simulator::operand::Place;
use simulator::split::Part;
use simulator::whole::Whole;
use simulator::{Ending, State};

const TOP: i64 = 549_755_813_887;
const BOTTOM: i64 = -549_755_813_888;
const DONE: LedgerEnding = LedgerEnding::AsRun(Ending::Done);
const SPENT: LedgerEnding = LedgerEnding::AsRun(Ending::Spent);

/// A run that the wish is about, of the engine and of the ledger that goes on.
struct Both {
    engine: Part<State>,
    exact: OnwardOutcome,
}

/// Saturation off, all else as after reset.
fn off() -> Bench {
    Bench::new().mode(0)
}

fn both(bench: &Bench, ops: &[Op]) -> Both {
    let case = bench.case(ops);
    assert!(is_bound(&case));
    assert_eq!(faults(&case), []);
    Both {
        engine: engine_of(&case),
        exact: onward_of(&case, case.budget),
    }
}

impl Both {
    /// The exact A and B, and what the engine keeps of them.
    fn are(self, exact: [Integer; 2], kept: [i64; 2]) -> Both {
        assert_eq!(self.exact.state.accumulators, exact);
        assert_eq!(self.engine.core.accumulators, kept);
        self
    }

    /// OA and OB of the ledger, and the engine's.
    fn flags(self, exact: [bool; 2], kept: [bool; 2]) -> Both {
        assert_eq!(self.exact.state.overflow, exact);
        assert_eq!(self.engine.core.overflow, kept);
        self
    }

    fn ends(self, ending: LedgerEnding, steps: u32, pc: u16) {
        for (ended, counted) in [
            (self.exact.ending, self.exact.steps),
            (self.engine.ending, self.engine.steps),
        ] {
            assert_eq!((ended, counted), (ending, steps));
        }
        assert_eq!(self.exact.state.flow.pc, pc);
        assert_eq!(self.engine.core.flow.pc, pc);
    }
}

fn exact(values: [i128; 2]) -> [Integer; 2] {
    values.map(Integer::from)
}

// ---- one step across a limit

#[test]
fn the_top_and_1() {
    let ran = both(&off().a(TOP).b(1), &[add_both(0)]);
    ran.are(exact([549_755_813_888, 1]), [BOTTOM, 1])
        .flags([true, false], [true, false])
        .ends(DONE, 1, 1);
}

#[test]
fn the_bottom_less_1() {
    let ran = both(&off().a(BOTTOM).b(1), &[subtract(0)]);
    ran.are(exact([-549_755_813_889, 1]), [TOP, 1])
        .ends(DONE, 1, 1);
    let ran = both(&off().a(1).b(BOTTOM), &[subtract(1)]);
    ran.are(exact([1, -549_755_813_889]), [1, TOP])
        .ends(DONE, 1, 1);
}

#[test]
fn the_bottom_negated_once_and_twice() {
    let ran = both(&off().a(BOTTOM), &[negate(0)]);
    ran.are(exact([549_755_813_888, 0]), [BOTTOM, 0])
        .ends(DONE, 1, 1);
    let ran = both(&off().a(BOTTOM), &[negate(0), negate(0)]);
    ran.are(exact([-549_755_813_888, 0]), [BOTTOM, 0])
        .ends(DONE, 2, 2);
}

#[test]
fn the_top_doubled_and_the_way_back() {
    let bench = off().a(TOP).b(TOP);
    let ran = both(&bench, &[add_both(0)]);
    ran.are(exact([1_099_511_627_774, 549_755_813_887]), [-2, TOP])
        .flags([true, false], [false, false]);
    let ran = both(&bench, &[add_both(0), subtract(0)]);
    ran.are(exact([549_755_813_887, 549_755_813_887]), [TOP, TOP])
        .flags([true, false], [true, false])
        .ends(DONE, 2, 2);
}

#[test]
fn the_sum_twice() {
    let ran = both(&off().a(TOP).b(TOP), &[add_both(0), add_both(0)]);
    let thrice = 1_649_267_441_661;
    ran.are(exact([thrice, 549_755_813_887]), [549_755_813_885, TOP]);
}

#[test]
fn msc_across_the_limit_and_mac_back() {
    let (less, more) = (msc(0, 0x54, 0, 0, 0, 0), mac(0, 0x54, 0, 0, 0, 0));
    let bench = |mode| Bench::new().mode(mode).a(BOTTOM + 5).w(4, 3).w(5, 4);
    // 12 less, and 24 less where the product is doubled.
    let ran = both(&bench(1), &[less]);
    ran.are(exact([-549_755_813_895, 0]), [549_755_813_881, 0]);
    let ran = both(&bench(0), &[less]);
    ran.are(exact([-549_755_813_907, 0]), [549_755_813_869, 0]);
    let ran = both(&bench(0), &[less, more]);
    ran.are(exact([-549_755_813_883, 0]), [-549_755_813_883, 0]);
}

#[test]
fn lac_and_add_at_their_largest() {
    // 32,767 x 65,536 x 256 twice, and -32,768 x 65,536 x 256 twice.
    let ops = [lac(0, -8, 4, 0), add(0, -8, 4, 0)];
    let ran = both(&off().w(4, 0x7FFF), &ops);
    ran.are(exact([1_099_478_073_344, 0]), [-33_554_432, 0])
        .flags([true, false], [false, false]);
    let ran = both(&off().w(4, 0x8000), &ops);
    ran.are(exact([-1_099_511_627_776, 0]), [0, 0])
        .flags([true, false], [false, false]);
}

/// At a limit document 01's ledger has not left it, one further it has.
#[test]
fn the_limits_themselves() {
    let rows = [
        (TOP - 1, 1, DONE),
        (TOP, 1, LedgerEnding::Left),
        (BOTTOM + 1, -1, DONE),
        (BOTTOM, -1, LedgerEnding::Left),
    ];
    for (a, b, ending) in rows {
        let case = off().a(a).b(b).case(&[add_both(0)]);
        assert_eq!(ledger_of(&case).ending, ending);
        let sum = i128::from(a) + i128::from(b);
        assert_eq!(onward_of(&case, 1).state.accumulators[0], sum.into());
        assert_eq!(faults(&case), []);
    }
}

// ---- flags and modes

/// O is for what is outside -2^31..2^31 - 1.
#[test]
fn the_edges_of_the_o_flag() {
    let rows = [
        (2_147_483_646, 1, false),
        (2_147_483_647, 1, true),
        (-2_147_483_647, -1, false),
        (-2_147_483_648, -1, true),
    ];
    for (a, b, flag) in rows {
        let ran = both(&off().a(a).b(b), &[add_both(0)]);
        ran.flags([flag, false], [flag, false]);
    }
}

/// 2^38 four times: exact 2^40, of which the engine keeps 0.
#[test]
fn an_o_flag_that_differs() {
    let ran = both(&off().b(274_877_906_944), &[repeat(3), add_both(0)]);
    ran.are(
        exact([1_099_511_627_776, 274_877_906_944]),
        [0, 274_877_906_944],
    )
    .flags([true, false], [false, false])
    .ends(DONE, 5, 2);
}

#[test]
fn s_flags_set_at_the_start() {
    for saturated in [[true, false], [false, true], [true, true]] {
        let mut bench = off().a(TOP).b(1);
        bench.state.saturated = saturated;
        let ran = both(&bench, &[add_both(0)]);
        assert_eq!(ran.engine.core.saturated, [true, saturated[1]]);
        ran.are(exact([549_755_813_888, 1]), [BOTTOM, 1]);
    }
}

/// Without saturation ACCSAT has no say, and nor have SATDW and RND.
#[test]
fn every_mode_word_without_saturation() {
    for mode in (0..=0x10FF_u16).filter(|mode| mode & !0x1033 == 0) {
        let ran = both(&Bench::new().mode(mode).a(TOP).b(1), &[add_both(0)]);
        assert_eq!(ran.exact.state.mode.0, mode);
        ran.are(exact([549_755_813_888, 1]), [BOTTOM, 1]);
    }
}

// ---- loops

/// 65,535 squared and doubled, 200 times; 1 doubled, 200 times, where FFFF hex is -1.
#[test]
fn a_loop_of_edac_unsigned_and_signed() {
    let ops = [do_lit(199, 2), edac(0, 0x44, 0x38, 0x3A, 0x06), IDLE];
    let bench = |mode| {
        let bench = Bench::new().mode(mode).w(4, 0xFFFF);
        bench.w(8, 0x1000).w(10, 0x1040)
    };
    let ran = both(&bench(0x1000), &ops);
    ran.are(exact([1_717_934_490_000, 0]), [-481_088_765_552, 0])
        .ends(DONE, 401, 3);
    let ran = both(&bench(0), &ops);
    ran.are(exact([400, 0]), [400, 0]).ends(DONE, 401, 3);
}

/// ED does not add: 8,589,672,450 each time.
#[test]
fn ed_unsigned() {
    let bench = Bench::new().mode(0x1000).w(4, 0xFFFF);
    let bench = bench.w(8, 0x1000).w(10, 0x1040).a(TOP);
    let ran = both(&bench, &[repeat(9), ed(0, 0x44, 0x38, 0x3A, 0x06)]);
    ran.are(exact([8_589_672_450, 0]), [8_589_672_450, 0]);
}

/// Sixteen times 2^38 in four loops of two passes: 2^42.
#[test]
fn four_nested_loops() {
    let starts = [do_lit(1, 9), do_lit(1, 8), do_lit(1, 7), do_lit(1, 6)];
    let mut ops = starts.to_vec();
    ops.push(add_both(0));
    ops.extend([IDLE; 5]);
    let bench = off().b(274_877_906_944);
    let ran = both(&bench, &ops);
    let sums = exact([4_398_046_511_104, 274_877_906_944]);
    ran.are(sums, [0, 274_877_906_944]).ends(DONE, 77, 10);
    // The ninth sum stands after 39 + 3 DOs, the 38 steps of an outer pass first.
    let ran = both(&bench.budget(43), &ops);
    assert_eq!(ran.exact.state.flow.active, 4);
    assert_eq!(ran.exact.state.flow, ran.engine.core.flow);
    let sums = exact([2_473_901_162_496, 274_877_906_944]);
    ran.are(sums, [274_877_906_944, 274_877_906_944])
        .ends(SPENT, 43, 5);
}

#[test]
fn a_fifth_loop() {
    let lasts = [11, 10, 9, 8, 7];
    let mut ops = vec![add_both(0)];
    ops.extend(lasts.map(|last| do_lit(3, last)));
    ops.extend([IDLE; 6]);
    let ran = both(&off().a(TOP).b(1), &ops);
    assert_eq!(ran.exact.state.flow.active, 4);
    ran.are(exact([549_755_813_888, 1]), [BOTTOM, 1])
        .ends(LedgerEnding::AsRun(trap(4)), 5, 5);
}

#[test]
fn bad_addresses_after_an_overflow() {
    let ops = [add_both(0), load(4, 0, 1), IDLE];
    for (address, number) in [(0x1001, 1), (0x0FFE, 2)] {
        let ran = both(&off().a(TOP).b(1).w(0, address), &ops);
        ran.are(exact([549_755_813_888, 1]), [BOTTOM, 1]).ends(
            LedgerEnding::AsRun(trap(number)),
            1,
            1,
        );
    }
}

// ---- numbers that grow

/// A + B to A and to B by turns, 99 times, from A = B = 1.
fn fibonacci() -> [Op; 3] {
    [do_lit(98, 2), add_both(0), add_both(1)]
}

#[test]
fn fibonacci_beyond_64_bits() {
    let ran = both(&off().a(1).b(1).budget(99), &fibonacci());
    let [a, b] = ["218922995834555169026", "354224848179261915075"].map(decimal);
    assert!(a > power(64) && b > power(64));
    ran.are([a, b], [-211_342_886_654, -378_937_229_373])
        .ends(SPENT, 99, 1);
}

#[test]
fn fibonacci_beyond_128_bits() {
    let ran = both(&off().a(1).b(1), &fibonacci());
    let a = decimal("173402521172797813159685037284371942044301");
    let b = decimal("280571172992510140037611932413038677189525");
    assert!(a > power(128) && b > power(128));
    ran.are([a, b], [206_464_316_045, -533_128_027_243])
        .ends(DONE, 199, 3);
}

/// The same times -2^39, of which the engine keeps 0 for the even ones: every third
/// of them, the 198th among them.
#[test]
fn fibonacci_from_the_bottom() {
    let bench = off().a(BOTTOM).b(BOTTOM);
    let a = decimal("173402521172797813159685037284371942044301");
    let b = decimal("107168651819712326877926895128666735145224");
    let below = |number: Integer| -number.times_power(39);
    let ran = both(&bench.budget(198), &fibonacci());
    ran.are([below(a), below(b)], [BOTTOM, 0])
        .flags([true, true], [true, false]);
}

/// 2^16 times as much in each step: 2^1024, and back again. The engine has nothing
/// left to go back with, which is why kind 11 is barred.
#[test]
fn shifts_to_2_to_the_1024_and_back() {
    let there = [lit(2, 0xFFF0), repeat(63), shift_by(0, 2)];
    let back = [lit(2, 16), repeat(63), shift_by(0, 2)];
    let case = off().a(-3).case(&[there, back].concat());
    assert!(!is_bound(&case));
    let far = onward_of(&case, 66).state.accumulators;
    assert_eq!(far[0], Integer::from(-3).times_power(1_024));
    let back = onward_of(&case, 132).state.accumulators;
    assert_eq!(back[0], Integer::from(-3));
    assert_eq!(engine_of(&case).core.accumulators, [0, 0]);
}

// ---- budgets

#[test]
fn no_budget() {
    let ran = both(&off().a(TOP).b(1).budget(0), &[add_both(0)]);
    ran.are(exact([549_755_813_887, 1]), [TOP, 1])
        .ends(SPENT, 0, 0);
}

/// After each number of steps: the exact A and B, the engine's A and B.
#[test]
fn every_budget_of_one_run() {
    let ops = [
        add_both(0),
        add_both(1),
        negate(0),
        subtract(1),
        add_both(0),
        IDLE,
    ];
    let rows: [([i128; 2], [i64; 2]); 7] = [
        ([549_755_813_887, 1], [TOP, 1]),
        ([549_755_813_888, 1], [BOTTOM, 1]),
        ([549_755_813_888, 549_755_813_889], [BOTTOM, BOTTOM + 1]),
        ([-549_755_813_888, 549_755_813_889], [BOTTOM, BOTTOM + 1]),
        ([-549_755_813_888, 1_099_511_627_777], [BOTTOM, 1]),
        ([549_755_813_889, 1_099_511_627_777], [BOTTOM + 1, 1]),
        ([549_755_813_889, 1_099_511_627_777], [BOTTOM + 1, 1]),
    ];
    for (budget, (numbers, kept)) in rows.into_iter().enumerate() {
        let ran = both(&off().a(TOP).b(1).budget(budget as u32), &ops);
        let ending = if budget < 6 { SPENT } else { DONE };
        ran.are(exact(numbers), kept)
            .ends(ending, budget as u32, budget as u16);
    }
    let ran = both(&off().a(TOP).b(1).budget(u32::MAX), &ops);
    ran.are(exact(rows[6].0), rows[6].1).ends(DONE, 6, 6);
}

// ---- the ledger that goes on, where the wish is not about the run

fn onward(bench: &Bench, ops: &[Op]) -> OnwardOutcome {
    let case = bench.case(ops);
    assert!(!is_bound(&case));
    onward_of(&case, case.budget)
}

#[test]
fn it_goes_on_with_saturation_on_too() {
    let bench = Bench::new().mode(0x0080).a(0x7FFF_FFFF).b(1);
    let ops = [add_both(0), add_both(0)];
    let left = bench.ledger(&ops);
    assert_eq!((left.ending, left.steps), (LedgerEnding::Left, 0));
    let ran = onward(&bench, &ops);
    assert_eq!(ran.state.accumulators, exact([0x8000_0001, 1]));
    assert_eq!(ran.state.overflow, [true, false]);
    assert_eq!((ran.ending, ran.steps), (DONE, 2));
}

#[test]
fn shifts_are_of_the_exact_number() {
    let ops = [subtract(0), shift_by(0, 2)];
    let bench = off().a(BOTTOM).b(1).w(2, 1);
    // The floor of (-2^39 - 1) / 2, and 65,536 times as much.
    let ran = onward(&bench, &ops);
    assert_eq!(ran.state.accumulators, exact([-274_877_906_945, 1]));
    let ran = onward(&bench.w(2, 0xFFF0), &ops);
    let far = -36_028_797_019_029_504;
    assert_eq!(ran.state.accumulators, exact([far, 1]));
    let ran = onward(&off().w(2, 17), &ops);
    assert_eq!(ran.ending, LedgerEnding::AsRun(trap(3)));
}

/// 2^40 - 65,536, then `more` times 65,536 and a half of it, stored rounded to W5.
fn stored(mode: u16, more: u16) -> OnwardOutcome {
    let half = 549_755_781_120;
    let bench = Bench::new().mode(mode).a(half).b(half);
    let ops = [
        add_both(0),
        add(0, 0, 6, 0),
        add(0, 1, 4, 0),
        sac_r(0, 0, 5, 0),
    ];
    onward(&bench.w(4, 1).w(6, more), &ops)
}

/// Ties of exact numbers: above the even 2^24, and above the odd 2^24 + 1.
#[test]
fn stores_are_of_the_exact_number() {
    let rows = [
        (0x0000, 1, 0),
        (0x0002, 1, 1),
        (0x0000, 2, 2),
        (0x0002, 2, 2),
        (0x0020, 1, 32_767),
        (0x0022, 2, 32_767),
    ];
    for (mode, more, word) in rows {
        let ran = stored(mode, more);
        let value = [1_099_511_660_544, 1_099_511_726_080][usize::from(more) - 1];
        let listed = ListedStore {
            step: 4,
            place: Place::Register(5),
            value: Integer::from(value),
            word,
            limiting_needed: true,
            rounded: true,
        };
        assert_eq!(ran.stores, [listed]);
        assert_eq!(i128::from(ran.state.w[5]), word);
    }
}

/// -2^40 shifted both ways and truncated: -2^17 and -2^32.
#[test]
fn shifted_stores_are_of_the_exact_number() {
    let ops = [add_both(0), sac(0, 7, 5, 0), sac(0, -8, 6, 0)];
    let bench = Bench::new().mode(0x0020).a(BOTTOM).b(BOTTOM);
    let ran = onward(&bench, &ops);
    let values = ran.stores.iter().map(|store| store.value.clone());
    let shifted = exact([-8_589_934_592, -281_474_976_710_656]);
    assert_eq!(values.collect::<Vec<_>>(), shifted);
    assert!(ran.stores.iter().all(|store| store.limiting_needed));
    assert_eq!((ran.state.w[5], ran.state.w[6]), (0x8000, 0x8000));
    let ran = onward(&bench.mode(0), &ops);
    assert_eq!((ran.state.w[5], ran.state.w[6]), (0, 0));
}

#[test]
fn write_backs_are_of_the_exact_number() {
    let bench = Bench::new().mode(0x0020).a(1).b(TOP).w(13, 0x1010);
    let ran = onward(&bench, &[add_both(1), clr(0, 0, 0, 0, 2)]);
    let [store] = &ran.stores[..] else {
        panic!("one store")
    };
    assert_eq!((store.step, store.word), (2, 32_767));
    assert_eq!(store.value, power(39));
    assert_eq!(store.place, Place::Memory(WordIndex(8)));
    assert_eq!((ran.memory[8], ran.state.w[13]), (0x7FFF, 0x1012));
}

/// 2^40 - 2 sets its O flag, while the engine keeps -2. Trap 5 does not occur in it.
#[test]
fn traps_follow_its_own_o_flags() {
    let bench = |traps| off().a(TOP).b(TOP).traps(traps);
    for (target, traps, number) in [(0, 0x0400, 6), (1, 0x0200, 7)] {
        let ops = [add_both(target), IDLE];
        let ran = onward(&bench(traps), &ops);
        let ending = LedgerEnding::AsRun(trap(number));
        assert_eq!((ran.ending, ran.steps), (ending, 1));
        assert_eq!(bench(traps).run(&ops).ending, Ending::Done);
    }
    let ops = [add_both(0), IDLE];
    let ran = onward(&bench(0x0100), &ops);
    assert_eq!((ran.ending, ran.steps), (DONE, 2));
    assert_eq!(bench(0x0100).run(&ops).ending, trap(5));
}

#[test]
fn it_refuses_as_a_run_does() {
    let ran = onward(&off().a(TOP + 1), &[IDLE]);
    assert_eq!(ran.ending, LedgerEnding::AsRun(Ending::Refused(7)));
    assert_eq!((ran.steps, ran.stores.len()), (0, 0));
    assert_eq!(ran.state.accumulators, exact([549_755_813_888, 0]));
}
