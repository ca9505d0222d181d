//! Wrong versions of wish 12, and what notices each: wrong ledgers, wrong engines,
//! wrong statements, and runs that the wish is not about let in.

mod common;
mod residue;
use common::*;
use residue::are_exact;

use std::collections::BTreeSet;

use simulator::cases::Case;
use simulator::congruence::*;
use simulator::exact::{low_bits, overflows};
use simulator::generate::case::accepted_run;
use simulator::generate::onward::bound_run;
use simulator::generate::random::Random;
use simulator::integer::Integer;
use simulator::ledger::{ledger_run_beyond, Beyond, LedgerEnding};
use simulator::mode::Mode;
use simulator::onward::OnwardOutcome;
use simulator::split::Part;
use simulator::whole::Whole;
use simulator::{Ending, State};

const TOP: i64 = 549_755_813_887;
const BOTTOM: i64 = -549_755_813_888;

/// By turns a run that the wish is about and any accepted run.
fn next_case(random: &mut Random, number: usize) -> Case {
    if number.is_multiple_of(2) {
        return bound_run(random);
    }
    let case = accepted_run(random, true);
    let budget = case.budget.min(1_000);
    Case { budget, ..case }
}

/// The points by which wrong runs are noticed, over hundreds of random cases.
fn noticed(name: &str, runs: Runs) -> BTreeSet<Point> {
    let mut random = Random::new(123);
    let (mut points, mut cases) = (BTreeSet::new(), 0);
    for number in 0..600 {
        let faults = faults_with(&next_case(&mut random, number), runs);
        cases += usize::from(!faults.is_empty());
        points.extend(faults);
    }
    println!("{name}: {cases} cases, {points:?}");
    points
}

fn is_noticed(name: &str, runs: Runs, by: &[Point]) {
    let points = noticed(name, runs);
    for point in by {
        assert!(points.contains(point), "{name}: not by {point:?}");
    }
}

#[test]
fn right_runs_are_not_noticed() {
    assert_eq!(noticed("right", Runs::OWN), BTreeSet::new());
}

// ---- wrong ledgers

/// A ledger that does something else with a result outside the limits.
fn beyond(case: &Case, budget: u32, beyond: Beyond<Integer>) -> OnwardOutcome {
    let (settings, state) = (&case.settings, &case.state);
    ledger_run_beyond(&case.file, settings, state, &case.memory, budget, beyond)
}

fn with_ledger(onward: fn(&Case, u32) -> OnwardOutcome) -> Runs {
    Runs {
        onward,
        ..Runs::OWN
    }
}

#[test]
fn a_ledger_that_stops() {
    let runs = with_ledger(|case, budget| beyond(case, budget, |_| None));
    let points = [
        Point::LowBits,
        Point::Congruent,
        Point::Registers,
        Point::Memory,
        Point::Flow,
        Point::Steps,
        Point::Ending,
        Point::Kept,
    ];
    is_noticed("stops", runs, &points);
}

#[test]
fn a_ledger_that_limits() {
    fn limited(exact: Integer) -> Option<Integer> {
        let [low, high] = [BOTTOM, TOP].map(|limit| Integer::from(i128::from(limit)));
        Some(exact.clamp(low, high))
    }
    let runs = with_ledger(|case, budget| beyond(case, budget, limited));
    let points = [Point::LowBits, Point::Congruent, Point::Kept];
    is_noticed("limits", runs, &points);
}

/// So many low bits of a result outside the limits, read as signed.
fn reduced(exact: &Integer, bits: u32) -> Integer {
    let half = power(bits - 1);
    let raised = exact.clone() + half.clone();
    let floor = raised.floor_power(bits).times_power(bits);
    raised - floor - half
}

fn reduced_to(case: &Case, budget: u32, bits: u32) -> OnwardOutcome {
    match bits {
        40 => beyond(case, budget, |exact| Some(reduced(&exact, 40))),
        64 => beyond(case, budget, |exact| Some(reduced(&exact, 64))),
        _ => beyond(case, budget, |exact| Some(reduced(&exact, 128))),
    }
}

/// 198 sums to A and B by turns, from 1 and 1: the 199th and 200th number.
fn fibonacci() -> Case {
    let ops = [do_lit(98, 2), add_both(0), add_both(1)];
    Bench::new().mode(0).a(1).b(1).case(&ops)
}

/// What it keeps is congruent to what it should keep: the eight points on the engine
/// are empty for it. That it keeps no number outside the limits is noticed.
#[test]
fn a_ledger_that_reduces_to_40_bits() {
    let runs = with_ledger(|case, budget| reduced_to(case, budget, 40));
    assert_eq!(noticed("40 bits", runs), BTreeSet::from([Point::Kept]));
}

/// How many of a hundred runs that the wish is about have numbers that are not exact
/// modulo a prime.
fn inexact(onward: fn(&Case, u32) -> OnwardOutcome) -> usize {
    let mut random = Random::new(126);
    let cases = (0..100).map(|_| bound_run(&mut random));
    let wrong = |case: &Case| !are_exact(case, case.budget, &onward(case, case.budget));
    cases.filter(wrong).count()
}

/// No point notices a ledger of 64 or of 128 bits. A count modulo a prime does.
#[test]
fn ledgers_of_64_and_128_bits() {
    let of_64: fn(&Case, u32) -> OnwardOutcome = |case, budget| reduced_to(case, budget, 64);
    let of_128: fn(&Case, u32) -> OnwardOutcome = |case, budget| reduced_to(case, budget, 128);
    for (name, onward) in [("64 bits", of_64), ("128 bits", of_128)] {
        assert_eq!(noticed(name, with_ledger(onward)), BTreeSet::new());
        let runs = inexact(onward);
        println!("{name}: {runs} runs not exact modulo a prime");
        assert!(runs >= 3);
    }
    assert_eq!(inexact(onward_of), 0);
}

/// And the numbers worked out by hand do.
#[test]
fn reduced_ledgers_and_the_200th_number() {
    let exact = decimal("280571172992510140037611932413038677189525");
    let case = fibonacci();
    assert_eq!(onward_of(&case, 199).state.accumulators[1], exact);
    for bits in [40, 64, 128] {
        let wrong = reduced_to(&case, 199, bits);
        assert_ne!(wrong.state.accumulators[1], exact, "{bits} bits");
        assert_eq!(differences(&engine_of(&case), &wrong), []);
    }
}

/// O flags from the low 40 bits: only beyond the limits, where none is compared.
#[test]
fn o_flags_of_the_low_bits() {
    fn of_low_bits(case: &Case, budget: u32) -> OnwardOutcome {
        let mut outcome = onward_of(case, budget);
        let flags = outcome.state.overflow.iter_mut();
        let numbers = outcome.state.accumulators.iter();
        for (flag, number) in flags.zip(numbers) {
            *flag = *flag && overflows(&low_bits(number, WIDTH));
        }
        outcome
    }
    let case = Bench::new().mode(0).a(TOP).b(TOP).case(&[add_both(0)]);
    assert_eq!(faults_with(&case, with_ledger(of_low_bits)), []);
    assert_eq!(onward_of(&case, 1).state.overflow, [true, false]);
    assert_eq!(of_low_bits(&case, 1).state.overflow, [false, false]);
}

#[test]
fn ledgers_that_leave_something_out() {
    let points = [Point::Within, Point::UpToLeft];
    let runs = with_ledger(|case, budget| OnwardOutcome {
        stores: Vec::new(),
        ..onward_of(case, budget)
    });
    is_noticed("lists nothing", runs, &points);
    let runs = with_ledger(|case, budget| {
        let mut outcome = onward_of(case, budget);
        outcome.state.overflow = [false; 2];
        outcome
    });
    is_noticed("O flags clear", runs, &points);
}

#[test]
fn ledgers_that_end_otherwise() {
    let runs = with_ledger(|case, budget| {
        let mut outcome = onward_of(case, budget);
        if ledger_of(case).ending == LedgerEnding::Left {
            outcome.ending = LedgerEnding::Left;
        }
        outcome
    });
    is_noticed("marks left", runs, &[Point::Ending, Point::UpToLeft]);
    let runs = with_ledger(|case, budget| onward_of(case, budget.saturating_add(1)));
    is_noticed("a step too far", runs, &[Point::Steps, Point::UpToLeft]);
}

// ---- wrong engines

fn with_engine(engine: fn(&Case) -> Part<State>) -> Runs {
    Runs {
        engine,
        ..Runs::OWN
    }
}

/// Saturation at 40 bits for both accumulators, under the mode word as it was.
#[test]
fn an_engine_that_limits_with_saturation_off() {
    let runs = with_engine(|case| {
        let mut limiting = case.clone();
        limiting.state.mode = Mode(case.state.mode.0 | 0x00D0);
        let mut part = engine_of(&limiting);
        part.core.mode = case.state.mode;
        part
    });
    let points = BTreeSet::from([Point::LowBits, Point::Congruent]);
    assert_eq!(noticed("limits with saturation off", runs), points);
}

type Change = fn(&mut Part<State>);

/// A changed answer of the engine to a case, and the points that it is noticed by.
fn is_told(case: &Case, change: Change, points: &[Point]) {
    let mut part = engine_of(case);
    change(&mut part);
    let exact = onward_of(case, case.budget);
    assert_eq!(differences(&part, &exact), points);
}

/// The engine's own answers with one thing changed.
#[test]
fn engines_that_answer_something_else() {
    let sums = &[Point::LowBits, Point::Congruent];
    let changes: [(&[Point], Change); 14] = [
        (sums, |part| part.core.accumulators[0] ^= 1),
        (sums, |part| part.core.accumulators[1] ^= 1 << 39),
        (&[Point::LowBits], |part| {
            part.core.accumulators[0] += 1 << 40
        }),
        (&[Point::Registers], |part| part.core.w[0] ^= 1),
        (&[Point::Registers], |part| part.core.w[13] ^= 0x8000),
        (&[Point::Memory], |part| part.memory[1] ^= 1),
        (&[Point::Flow], |part| part.core.flow.pc ^= 1),
        (&[Point::Flow], |part| part.core.flow.active ^= 1),
        (&[Point::Flow], |part| part.core.flow.repeat ^= 1),
        (&[Point::Flow], |part| {
            part.core.flow.loops[0].do_number ^= 1
        }),
        (&[Point::Flow], |part| part.core.flow.loops[3].passes ^= 1),
        (&[Point::Mode], |part| part.core.mode.0 ^= 1),
        (&[Point::Steps], |part| part.steps ^= 1),
        (&[Point::Ending], |part| part.ending = LedgerEnding::Left),
    ];
    let mut random = Random::new(125);
    for (points, change) in changes.into_iter().cycle().take(700) {
        is_told(&bound_run(&mut random), change, points);
    }
}

/// S and O flags are the engine's own affair.
#[test]
fn flags_of_the_engine_are_not_compared() {
    let case = Bench::new().mode(0).a(TOP).b(1).case(&[add_both(0)]);
    is_told(&case, |part| part.core.saturated = [false; 2], &[]);
    is_told(&case, |part| part.core.overflow = [false; 2], &[]);
}

// ---- wrong statements

/// Exact 2^40 - 2 and the engine's -2 are 2^40 apart.
#[test]
fn equal_modulo_2_to_the_41() {
    assert!(is_congruent(-2, &Integer::from(1_099_511_627_774), 40));
    assert!(!is_congruent(-2, &Integer::from(1_099_511_627_774), 41));
    let case = Bench::new().mode(0).a(TOP).b(TOP).case(&[add_both(0)]);
    let (kept, exact) = (engine_of(&case), onward_of(&case, 1));
    let (kept, exact) = (kept.core.accumulators[0], &exact.state.accumulators[0]);
    assert!(is_congruent(kept, exact, 40) && !is_congruent(kept, exact, 41));
}

#[test]
fn o_flags_that_are_equal() {
    let case = Bench::new().mode(0).a(TOP).b(TOP).case(&[add_both(0)]);
    assert!(is_bound(&case));
    assert_eq!(engine_of(&case).core.overflow, [false, false]);
    assert_eq!(onward_of(&case, 1).state.overflow, [true, false]);
}

// ---- runs that the wish is not about

/// Where engine and ledger differ in a run that the wish is not about.
fn let_in(bench: &Bench, ops: &[Op]) -> Vec<Point> {
    let case = bench.case(ops);
    assert!(!is_bound(&case));
    assert_eq!(faults(&case), []);
    differences(&engine_of(&case), &onward_of(&case, case.budget))
}

/// 2^39 in A, of which the engine keeps -2^39, and 1 in B; SATDW on.
fn limiting() -> Bench {
    Bench::new().mode(0x0020).a(TOP).b(1)
}

#[test]
fn kind_11_let_in() {
    let ops = [add_both(0), shift_by(0, 2)];
    // 2^38 and -2^38; to the left there is no difference.
    let right = let_in(&limiting().w(2, 1), &ops);
    assert_eq!(right, [Point::LowBits, Point::Congruent]);
    assert_eq!(let_in(&limiting().w(2, 0xFFFF), &ops), []);
}

/// The largest word and the smallest one, to a register and to memory.
#[test]
fn kinds_14_and_15_let_in() {
    let bench = || limiting().w(0, 0x1000);
    for store in [sac, sac_r] {
        let to_register = let_in(&bench(), &[add_both(0), store(0, 0, 5, 0)]);
        assert_eq!(to_register, [Point::Registers]);
        let to_memory = let_in(&bench(), &[add_both(0), store(0, 0, 0, 1)]);
        assert_eq!(to_memory, [Point::Memory]);
    }
}

#[test]
fn write_back_let_in() {
    let bench = limiting().a(1).b(TOP).w(13, 0x1000);
    let backs = |b6| {
        [
            clr(0, 0, 0, 0, b6),
            mac(0, 0x44, 0, 0, 0, b6),
            msc(0, 0x44, 0, 0, 0, b6),
            movsac(0, 0, 0, 0, b6),
        ]
    };
    for (b6, point) in [(1, Point::Registers), (2, Point::Memory)] {
        let points = backs(b6).map(|back| let_in(&bench, &[add_both(1), back]));
        assert_eq!(points, [[point]; 4]);
    }
}

/// Bits 16 to 38 make a word where SATDW is off: then these do no harm.
#[test]
fn stores_without_satdw_let_in() {
    let bench = limiting().mode(0).w(13, 0x1000);
    for shift in -8..=7 {
        let ops = [add_both(0), sac(0, shift, 5, 0), sac_r(0, shift, 6, 0)];
        assert_eq!(let_in(&bench, &ops), []);
    }
    let ops = [add_both(0), clr(1, 0, 0, 0, 2), movsac(1, 0, 0, 0, 1)];
    assert_eq!(let_in(&bench, &ops), []);
}

#[test]
fn kind_24_let_in() {
    for word in [0x0080, 0x0090] {
        let points = let_in(&limiting(), &[mode(word), add_both(0)]);
        assert_eq!(points, [Point::LowBits, Point::Congruent]);
    }
    // Without saturation it does no harm.
    assert_eq!(let_in(&limiting(), &[mode(0x1033), add_both(0)]), []);
}

/// Barred all the same.
#[test]
fn kind_25_let_in() {
    let ops = [add_both(0), CLEAR_S, add_both(0), CLEAR_S];
    assert_eq!(let_in(&limiting(), &ops), []);
    let mut random = Random::new(124);
    let (mut runs, mut left) = (0, 0);
    while runs < 500 {
        let mut case = bound_run(&mut random);
        case.file = with_clears(&case.file);
        case.budget = case.budget.min(2_000);
        if is_bound(&case) {
            continue;
        }
        runs += 1;
        let engine = engine_of(&case);
        assert!(!matches!(
            engine.ending,
            LedgerEnding::AsRun(Ending::Refused(_))
        ));
        assert_eq!(differences(&engine, &onward_of(&case, case.budget)), []);
        left += usize::from(ledger_of(&case).ending == LedgerEnding::Left);
    }
    println!("{left} of {runs} left");
    assert!(left >= 20);
}

/// Kind 25 in place of every literal.
fn with_clears(file: &[u8]) -> Vec<u8> {
    let mut file = file.to_vec();
    for block in file.chunks_exact_mut(512) {
        let count = usize::from(block[2]);
        let operations = block[8..].chunks_exact_mut(8).take(count);
        let literals = operations.filter(|operation| operation[0] == 16);
        literals.for_each(|operation| operation.copy_from_slice(&CLEAR_S));
    }
    set_sum(&mut file);
    file
}

#[test]
fn one_saturation_on() {
    for (target, mode) in [(0, 0x0080), (0, 0x0090), (1, 0x0040), (1, 0x0050)] {
        let bench = Bench::new().mode(mode).a(TOP).b(TOP);
        let points = let_in(&bench, &[add_both(target)]);
        assert_eq!(points, [Point::LowBits, Point::Congruent]);
    }
}

/// Trap 5 stops the engine alone; traps 6 and 7 stop the ledger alone, which has
/// 2^40 - 2 where the engine keeps -2.
#[test]
fn trap_words_let_in() {
    let bench = |traps| limiting().b(TOP).traps(traps);
    let ends = [Point::Flow, Point::Steps, Point::Ending];
    for (traps, target) in [(0x0100, 0), (0x0100, 1), (0x0400, 0), (0x0200, 1)] {
        let points = let_in(&bench(traps), &[add_both(target), IDLE]);
        assert_eq!(points, ends, "{traps:04X}");
    }
}

/// A barred operation that is not reached bars the program too.
#[test]
fn barred_operations_that_are_not_reached() {
    let barred = [
        shift_by(0, 2),
        sac(0, 0, 5, 0),
        sac_r(0, 0, 5, 0),
        mode(0x0020),
        CLEAR_S,
        clr(0, 0, 0, 0, 1),
        movsac(0, 0, 0, 0, 2),
    ];
    for operation in barred {
        let ops = [add_both(0), operation];
        assert_eq!(let_in(&limiting().budget(1), &ops), []);
        assert_eq!(let_in(&limiting().pc(2), &ops), []);
    }
    assert!(is_bound(&limiting().case(&[add_both(0), IDLE])));
}

#[test]
fn refused_calls_are_not_bound() {
    assert!(!is_bound(&limiting().a(TOP + 1).case(&[IDLE])));
    assert!(!is_bound(&limiting().traps(1).case(&[IDLE])));
    assert!(!is_bound(&limiting().pc(2).case(&[IDLE])));
    assert!(!is_bound(&limiting().case(&[[0; 8]])));
}
