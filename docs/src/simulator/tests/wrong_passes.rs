//! Engines that are wrong about wish 1: that stored cases tell each from the right one.

use simulator::cases::{run_line, Case};
use simulator::engine::{accept, run_by};
use simulator::file::check_file;
use simulator::flow::{Flow, Loop};
use simulator::form::Form;
use simulator::generate::runs::parts;
use simulator::generate::steps;
use simulator::operation::Operation;
use simulator::step::{Machine, Step};
use simulator::Outcome;

/// A loop in a state: its DO's kind and count, and whether it is the outermost or the
/// innermost one.
struct Start {
    kind: u8,
    count: u16,
    outermost: bool,
    innermost: bool,
    passes: u32,
}

/// The five places where passes come up, as they may be wrong.
#[derive(Clone, Copy)]
struct Engine {
    /// The passes of a loop that DO of this kind begins with this count.
    begun: fn(u8, u16) -> u32,
    accepts: fn(&Start) -> bool,
    /// The passes that an accepted state is taken to have.
    taken: fn(u32) -> u32,
    /// The passes left after a step, by the operation and those before and after it.
    kept: fn(&Operation, u32, u32) -> u32,
    /// The passes left as they are returned.
    returned: fn(u32) -> u32,
}

const RIGHT: Engine = Engine {
    begun: |_, count| u32::from(count) + 1,
    accepts: |start| (1..=65_536).contains(&start.passes),
    taken: |passes| passes,
    kept: |_, _, after| after,
    returned: |passes| passes,
};

// ---- runs

fn count_of(operation: &Operation, w: &[u16; 14]) -> u16 {
    match *operation {
        Operation::DoLiteral { count, .. } => count,
        Operation::DoRegister { register, .. } => w[usize::from(register)],
        _ => 0,
    }
}

/// The loops of a state whose file is good.
fn starts(case: &Case, operations: &[Operation]) -> Vec<Start> {
    let flow = &case.state.flow;
    let used = usize::from(flow.active).min(4);
    let start = |(slot, active): (usize, &Loop)| {
        let operation = operations.get(usize::from(active.do_number));
        Start {
            kind: operation.map_or(0, Operation::kind),
            count: operation.map_or(0, |operation| count_of(operation, &case.state.w)),
            outermost: slot == 0,
            innermost: slot + 1 == used,
            passes: active.passes,
        }
    };
    flow.loops[..used].iter().enumerate().map(start).collect()
}

/// Refusals 1 to 7, passes judged by the engine; the operations otherwise.
fn judged(engine: &Engine, case: &Case) -> Result<Vec<Operation>, u8> {
    let mut state = case.state;
    let used = usize::from(state.flow.active).min(4);
    state.flow.loops[..used]
        .iter_mut()
        .for_each(|slot| slot.passes = 1);
    let operations = accept(&case.file, &case.settings, &state, case.memory.len())?;
    let good = starts(case, &operations).iter().all(engine.accepts);
    good.then_some(operations).ok_or(7)
}

fn innermost_passes(flow: &mut Flow) -> Option<&mut u32> {
    let slot = usize::from(flow.active).checked_sub(1)?;
    Some(&mut flow.loops[slot].passes)
}

/// One step, its passes as the engine has them.
fn step(engine: &Engine, machine: &mut Machine) -> Step {
    let operation = machine.operations[usize::from(machine.state.flow.pc)];
    let (active, w) = (machine.state.flow.active, machine.state.w);
    let before = innermost_passes(&mut machine.state.flow).map_or(0, |passes| *passes);
    let step = machine.step();
    let is_new = machine.state.flow.active > active;
    if let Some(passes) = innermost_passes(&mut machine.state.flow) {
        *passes = match is_new {
            true => (engine.begun)(operation.kind(), count_of(&operation, &w)),
            false => (engine.kept)(&operation, before, *passes),
        };
    }
    step
}

/// The run of operations that the engine accepts.
fn run(engine: &Engine, case: &Case, operations: &[Operation], memory: &mut [u16]) -> Outcome {
    let mut state = case.state;
    for slot in &mut state.flow.loops[..usize::from(case.state.flow.active)] {
        slot.passes = (engine.taken)(slot.passes);
    }
    let step = |machine: &mut Machine| step(engine, machine);
    let (settings, budget) = (&case.settings, case.budget);
    let mut outcome = run_by(step, operations, settings, &state, memory, budget);
    for slot in &mut outcome.state.flow.loops {
        slot.passes = (engine.returned)(slot.passes);
    }
    outcome
}

fn line(engine: &Engine, case: &Case) -> String {
    let mut memory = case.memory.clone();
    let outcome = match judged(engine, case) {
        Err(number) => Outcome::refused(number, &case.state),
        Ok(operations) => run(engine, case, &operations, &mut memory),
    };
    run_line(&outcome, &memory)
}

// ---- ways to be wrong

fn by_kind_22(kind: u8, count: u16, passes: u32) -> u32 {
    match kind {
        22 => passes,
        _ => u32::from(count) + 1,
    }
}

fn low(count: u16, mask: u16) -> u32 {
    u32::from(count & mask) + 1
}

/// 65,536 passes, as 16 bits have it, let run as one.
fn in_16_bits(passes: u32) -> u32 {
    (passes % 65_536).max(1)
}

const fn begun(begun: fn(u8, u16) -> u32) -> Engine {
    Engine { begun, ..RIGHT }
}

const fn accepts(accepts: fn(&Start) -> bool) -> Engine {
    Engine { accepts, ..RIGHT }
}

/// 1..65,536 for some loops, 1..32,768 for the others.
fn most(start: &Start, has_more: bool) -> bool {
    let most = if has_more { 65_536 } else { 32_768 };
    (1..=most).contains(&start.passes)
}

fn kept_by_kind_23(operation: &Operation, before: u32, after: u32) -> u32 {
    match operation {
        Operation::EndEarly if before == 65_536 => before,
        _ => after,
    }
}

/// Wrong passes of a loop that DO begins.
const COUNTS: [(&str, Engine); 9] = [
    (
        "mask 3FFF hex",
        begun(|k, c| by_kind_22(k, c, low(c, 0x3FFF))),
    ),
    (
        "mask 7FFF hex",
        begun(|k, c| by_kind_22(k, c, low(c, 0x7FFF))),
    ),
    (
        "mask BFFF hex",
        begun(|k, c| by_kind_22(k, c, low(c, 0xBFFF))),
    ),
    (
        "a signed count",
        begun(|k, c| by_kind_22(k, c, (c as i16).max(0) as u32 + 1)),
    ),
    (
        "begun in 16 bits",
        begun(|_, c| in_16_bits(u32::from(c) + 1)),
    ),
    (
        "at most 65,535 passes",
        begun(|_, c| (u32::from(c) + 1).min(65_535)),
    ),
    (
        "at most 32,768 passes",
        begun(|_, c| (u32::from(c) + 1).min(32_768)),
    ),
    (
        "at most 16,385 passes",
        begun(|_, c| (u32::from(c) + 1).min(16_385)),
    ),
    (
        "one pass too few",
        begun(|k, c| by_kind_22(k, c, u32::from(c).max(1))),
    ),
];

/// Wrong passes in a state, and after kind 23.
const STATES: [(&str, Engine); 12] = [
    ("up to 32,768", accepts(|s| most(s, false))),
    (
        "up to 65,535",
        accepts(|s| (1..=65_535).contains(&s.passes)),
    ),
    (
        "65,536 for kind 22 alone",
        accepts(|s| most(s, s.kind == 22)),
    ),
    (
        "65,536 for kind 21 alone",
        accepts(|s| most(s, s.kind == 21)),
    ),
    ("65,536 outermost alone", accepts(|s| most(s, s.outermost))),
    ("65,536 innermost alone", accepts(|s| most(s, s.innermost))),
    (
        "65,537 accepted",
        accepts(|s| (1..=65_537).contains(&s.passes)),
    ),
    (
        "no more than DO gives",
        accepts(|s| (1..=u32::from(s.count) + 1).contains(&s.passes)),
    ),
    (
        "judged in 16 bits",
        Engine {
            taken: in_16_bits,
            ..accepts(|s| s.passes % 65_536 > 0)
        },
    ),
    (
        "taken in 16 bits",
        Engine {
            taken: in_16_bits,
            ..RIGHT
        },
    ),
    (
        "kind 23 in 16 bits",
        Engine {
            kept: kept_by_kind_23,
            ..RIGHT
        },
    ),
    (
        "returned in 16 bits",
        Engine {
            returned: |passes| passes % 65_536,
            ..RIGHT
        },
    ),
];

// ---- what tells them

/// The parts about wish 1: two of crates/cases, and that of crates/steps.
const PARTS: [&str; 3] = ["passes", "decoded_passes", "single steps"];

/// The runs of the parts of crates/cases with these names.
fn runs(names: &[&str]) -> Vec<(&'static str, Case)> {
    let mut all = Vec::new();
    for (name, forms) in parts() {
        if names.contains(&name) {
            all.extend(forms.into_iter().map(|form| match form {
                Form::Short(case) => (name, case),
                Form::Long(long) => (name, long.start),
            }));
        }
    }
    all
}

/// The runs of the three parts with the right lines; single steps are runs of one step.
fn stored() -> Vec<(&'static str, Case, String)> {
    let mut all = runs(&PARTS);
    let (_, steps) = steps::parts().pop().expect("a last part");
    all.extend(steps.into_iter().map(|case| (PARTS[2], case)));
    let with_line = |(name, case): (&'static str, Case)| {
        let right = simulator::cases::line(&case);
        (name, case, right)
    };
    all.into_iter().map(with_line).collect()
}

/// In how many of each part an engine has another line.
fn telling(engine: &Engine, stored: &[(&str, Case, String)]) -> [usize; 3] {
    PARTS.map(|part| {
        let of = stored.iter().filter(|(name, ..)| *name == part);
        of.filter(|(_, case, right)| line(engine, case) != *right)
            .count()
    })
}

#[test]
fn stored_cases_tell_each_wrong_engine() {
    let stored = stored();
    for (name, engine) in COUNTS.into_iter().chain(STATES) {
        let [short, decoded, steps] = telling(&engine, &stored);
        println!("{name}: {short}, {decoded} decoded, {steps} single steps");
        assert!(short > 0 && decoded > 0 && steps > 0, "{name}");
    }
}

/// Kind 21's most passes are stored too.
#[test]
fn stored_cases_tell_a_mask_of_kind_21() {
    let masked = begun(|kind, count| match kind {
        21 => low(count, 0x3FFF),
        _ => low(count, 0xFFFF),
    });
    assert_eq!(telling(&masked, &stored()), [1, 0, 0]);
}

#[test]
fn the_right_one_is_told_by_none() {
    assert_eq!(telling(&RIGHT, &stored()), [0; 3]);
    for (_, case) in runs(&["random_passes"]) {
        assert_eq!(line(&RIGHT, &case), simulator::cases::line(&case));
    }
}

/// Kind 21 with a literal of 16 bits is refused, and REPEAT by 4000 hex makes 16,385 runs.
#[test]
fn kinds_20_and_21_are_as_before() {
    let of = |kind: u8, start: &str| {
        let runs = runs(&["passes"]).into_iter().map(|(_, case)| case);
        let fits =
            |case: &Case| case.file[8] == kind && simulator::cases::line(case).starts_with(start);
        runs.filter(fits).collect::<Vec<Case>>()
    };
    let refused = of(21, "refused4 ");
    let high: Vec<u8> = refused.iter().map(|case| case.file[11]).collect();
    assert_eq!(high, [0x80, 0xFF]);
    assert!(refused.iter().all(|case| check_file(&case.file) == Err(4)));
    assert_eq!(of(20, "done 16386 1073807360 0 ").len(), 1);
}
