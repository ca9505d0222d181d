//! Random runs about wish 1: from the middle of loops with passes of 17 bits, and counts
//! of 16 bits by register.

use super::case::candidate;
use super::random::Random;
use crate::cases::Case;
use crate::file::check_file;

/// Passes left up to the most, some of them just beyond it or none.
fn passes(random: &mut Random) -> u32 {
    match random.below(16) {
        0 | 1 => 65_536,
        2 | 3 => 32_769,
        4 => random.pick(&[0, 65_537, 131_072]),
        5 => random.range(65_537, 262_144) as u32,
        6..=9 => random.range(32_769, 65_536) as u32,
        _ => random.range(1, 4) as u32,
    }
}

/// Whether the program has a loop by register.
fn counts_by_register(case: &Case) -> bool {
    let operations = check_file(&case.file).map_or(Vec::new(), |(_, operations)| operations);
    operations.iter().any(|operation| operation.kind() == 22)
}

/// A run with a loop by register or from inside a loop; with `clears` kind 25 may be in it.
pub fn random_passes(random: &mut Random, clears: bool) -> Case {
    loop {
        let mut case = candidate(random, clears);
        let active = usize::from(case.state.flow.active);
        if active == 0 && !counts_by_register(&case) {
            continue;
        }
        for slot in &mut case.state.flow.loops[..active] {
            slot.passes = passes(random);
        }
        if random.percent(50) {
            case.state.w[3] = random.word();
        }
        case.budget = case.budget.min(3_000);
        return case;
    }
}
