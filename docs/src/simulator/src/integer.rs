//! Whole numbers without end: two's complement in as many limbs of 32 bits as are
//! needed, the lowest first. The top bit of the last limb is the sign, and goes on
//! for ever above it.

use std::cmp::Ordering;
use std::fmt;
use std::ops::{Add, Neg, Sub};

use crate::whole::Whole;

const LIMB: u32 = 32;

/// One limb at least, and none at the top that the sign alone stands for: a number
/// has one form.
#[derive(Clone, PartialEq, Eq)]
pub struct Integer {
    limbs: Vec<u32>,
}

impl Integer {
    pub fn is_negative(&self) -> bool {
        self.limbs[self.limbs.len() - 1] >> (LIMB - 1) == 1
    }

    /// The limb at a place, the sign's above the last.
    fn limb(&self, place: usize) -> u32 {
        let above = if self.is_negative() { u32::MAX } else { 0 };
        self.limbs.get(place).copied().unwrap_or(above)
    }

    /// The number of these limbs, in its one form.
    fn of_limbs(mut limbs: Vec<u32>) -> Integer {
        while let [.., below, top] = limbs[..] {
            let sign = if below >> (LIMB - 1) == 1 {
                u32::MAX
            } else {
                0
            };
            if top != sign {
                break;
            }
            limbs.pop();
        }
        Integer { limbs }
    }

    /// The sum with every bit of `other` flipped or none, and a carry into it. One
    /// limb more than the longer number has holds every sum.
    fn plus(&self, other: &Integer, flip: u32, carry: u64) -> Integer {
        let mut carry = carry;
        let count = self.limbs.len().max(other.limbs.len()) + 1;
        let sums = (0..count).map(|place| {
            let other = other.limb(place) ^ flip;
            let sum = u64::from(self.limb(place)) + u64::from(other) + carry;
            carry = sum >> LIMB;
            sum as u32
        });
        Integer::of_limbs(sums.collect())
    }
}

impl From<i128> for Integer {
    fn from(value: i128) -> Integer {
        let limbs = (0..4).map(|place| (value >> (LIMB * place)) as u32);
        Integer::of_limbs(limbs.collect())
    }
}

impl Add for Integer {
    type Output = Integer;
    fn add(self, other: Integer) -> Integer {
        self.plus(&other, 0, 0)
    }
}

/// Every bit flipped and 1 more is the negative.
impl Sub for Integer {
    type Output = Integer;
    fn sub(self, other: Integer) -> Integer {
        self.plus(&other, u32::MAX, 1)
    }
}

impl Neg for Integer {
    type Output = Integer;
    fn neg(self) -> Integer {
        Integer::from(0) - self
    }
}

impl Ord for Integer {
    /// By sign, then by length, then by limbs from the top.
    fn cmp(&self, other: &Integer) -> Ordering {
        let by_sign = other.is_negative().cmp(&self.is_negative());
        let by_length = self.limbs.len().cmp(&other.limbs.len());
        let by_length = if self.is_negative() {
            by_length.reverse()
        } else {
            by_length
        };
        let by_limbs = || self.limbs.iter().rev().cmp(other.limbs.iter().rev());
        by_sign.then(by_length).then_with(by_limbs)
    }
}

impl PartialOrd for Integer {
    fn partial_cmp(&self, other: &Integer) -> Option<Ordering> {
        Some(self.cmp(other))
    }
}

/// The 32 bits from bit `bit` on of two limbs, the lower first.
fn across(low: u32, high: u32, bit: u32) -> u32 {
    let both = u64::from(high) << LIMB | u64::from(low);
    (both >> bit) as u32
}

impl Whole for Integer {
    fn times_power(&self, n: u32) -> Integer {
        let (limbs, bits) = ((n / LIMB) as usize, n % LIMB);
        let mut moved = vec![0; limbs];
        let mut below = 0;
        for place in 0..=self.limbs.len() {
            let limb = self.limb(place);
            moved.push(across(below, limb, LIMB - bits));
            below = limb;
        }
        Integer::of_limbs(moved)
    }

    /// The bits below 2^n fall away, which is the floor for both signs.
    fn floor_power(&self, n: u32) -> Integer {
        let (limbs, bits) = ((n / LIMB) as usize, n % LIMB);
        let last = self.limbs.len().max(limbs + 1);
        let moved = (limbs..last).map(|i| across(self.limb(i), self.limb(i + 1), bits));
        Integer::of_limbs(moved.collect())
    }

    fn modulo_power(&self, n: u32) -> u64 {
        let low = u64::from(self.limb(1)) << LIMB | u64::from(self.limb(0));
        let mask = u64::MAX.checked_shr(u64::BITS - n).unwrap_or(0);
        low & mask
    }
}

/// In hexadecimal, the sign's limbs once.
impl fmt::Debug for Integer {
    fn fmt(&self, f: &mut fmt::Formatter) -> fmt::Result {
        let sign = if self.is_negative() { "..F" } else { "..0" };
        write!(f, "{sign}")?;
        self.limbs
            .iter()
            .rev()
            .try_for_each(|limb| write!(f, " {limb:08X}"))
    }
}
