//! A run in two parts is the run in one: every state the engine returns is an
//! accepted one, and going on from it gives the same end.

use simulator::cases::Case;
use simulator::generate::case::candidate;
use simulator::generate::random::Random;
use simulator::{run, Ending, Outcome, State};

fn part(case: &Case, state: &State, memory: &mut [u16], budget: u32) -> Outcome {
    run(&case.file, &case.settings, state, memory, budget)
}

#[test]
fn a_run_in_two_parts_is_the_run_in_one() {
    let mut random = Random::new(44);
    let (mut parted, mut within_loops, mut within_repeats) = (0, 0, 0);
    for _ in 0..6_000 {
        let case = candidate(&mut random, true);
        let mut memory = case.memory.clone();
        let whole = part(&case, &case.state, &mut memory, case.budget);
        // Whatever the end, the state is accepted again.
        let mut copy = memory.clone();
        let again = part(&case, &whole.state, &mut copy, 0);
        assert!(matches!(again.ending, Ending::Done | Ending::Spent));
        assert_eq!((again.state, &copy), (whole.state, &memory));
        if whole.steps == 0 {
            continue;
        }
        let first = random.below(whole.steps as usize) as u32;
        let mut parts = case.memory.clone();
        let early = part(&case, &case.state, &mut parts, first);
        assert_eq!((early.ending, early.steps), (Ending::Spent, first));
        within_loops += usize::from(early.state.flow.active > 0);
        within_repeats += usize::from(early.state.flow.repeat > 0);
        let late = part(&case, &early.state, &mut parts, case.budget - first);
        assert_eq!(late.ending, whole.ending);
        assert_eq!(late.steps + first, whole.steps);
        assert_eq!((late.state, parts), (whole.state, memory));
        parted += 1;
    }
    println!("{parted} {within_loops} {within_repeats}");
    assert!(parted >= 4_000);
    assert!(within_loops >= 1_000);
    assert!(within_repeats >= 700);
}

#[test]
fn a_step_with_budget_1_at_a_time_is_the_same_run() {
    let mut random = Random::new(45);
    for _ in 0..150 {
        let mut case = candidate(&mut random, true);
        case.budget = case.budget.min(400);
        let mut memory = case.memory.clone();
        let whole = part(&case, &case.state, &mut memory, case.budget);
        let (mut state, mut single) = (case.state, case.memory.clone());
        for _ in 0..whole.steps {
            let step = part(&case, &state, &mut single, 1);
            assert_eq!(step.steps, 1);
            state = step.state;
        }
        assert_eq!((state, single), (whole.state, memory));
    }
}
