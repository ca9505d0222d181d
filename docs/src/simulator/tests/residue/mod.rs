//! Whole numbers modulo the prime 2^61 - 1: another count of what the ledger that goes
//! on keeps, in which nothing is long. It has no order that means anything and no
//! floors, so it is for runs that wish 12 is about.

use std::ops::{Add, Neg, Sub};

use simulator::cases::Case;
use simulator::integer::Integer;
use simulator::ledger::ledger_run_beyond;
use simulator::onward::OnwardOutcome;
use simulator::whole::Whole;

const PRIME: u128 = (1 << 61) - 1;

#[derive(Clone, Copy, Debug, PartialEq, Eq, PartialOrd, Ord)]
pub struct Residue(u128);

impl From<i128> for Residue {
    fn from(value: i128) -> Residue {
        Residue(value.rem_euclid(PRIME as i128) as u128)
    }
}

impl Add for Residue {
    type Output = Residue;
    fn add(self, other: Residue) -> Residue {
        Residue((self.0 + other.0) % PRIME)
    }
}

impl Neg for Residue {
    type Output = Residue;
    fn neg(self) -> Residue {
        Residue((PRIME - self.0) % PRIME)
    }
}

impl Sub for Residue {
    type Output = Residue;
    fn sub(self, other: Residue) -> Residue {
        self + -other
    }
}

impl Whole for Residue {
    fn times_power(&self, n: u32) -> Residue {
        (0..n).fold(*self, |number, _| number + number)
    }

    fn floor_power(&self, _: u32) -> Residue {
        panic!("no floor of a residue")
    }

    fn modulo_power(&self, _: u32) -> u64 {
        panic!("no bits of a residue")
    }
}

/// A number's residue: its 32 bits at the bottom and 2^32 times that of the rest.
pub fn residue(number: &Integer) -> Residue {
    let mut rest = number.clone();
    let mut digits = Vec::new();
    while rest != Integer::from(0) && rest != Integer::from(-1) {
        digits.push(i128::from(rest.modulo_power(32)));
        rest = rest.floor_power(32);
    }
    let sign = Residue::from(if rest.is_negative() { -1 } else { 0 });
    let upwards = |number: Residue, digit| number.times_power(32) + Residue::from(digit);
    digits.into_iter().rev().fold(sign, upwards)
}

/// Whether the numbers of a run that the wish is about are exact modulo the prime.
pub fn are_exact(case: &Case, budget: u32, outcome: &OnwardOutcome) -> bool {
    let (settings, state) = (&case.settings, &case.state);
    let counted = ledger_run_beyond(&case.file, settings, state, &case.memory, budget, Some);
    let residues: [Residue; 2] = counted.state.accumulators;
    outcome.state.accumulators.each_ref().map(residue) == residues
}
