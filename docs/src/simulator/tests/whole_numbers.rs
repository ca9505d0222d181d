//! The whole numbers without end: against 128 bits where those are enough, by laws
//! and by known numbers beyond.

mod common;
use common::{decimal, power};

use simulator::generate::random::Random;
use simulator::integer::Integer;
use simulator::whole::Whole;

fn integer(value: i128) -> Integer {
    Integer::from(value)
}

/// A number of up to 126 bits, rather often next to a power of two.
fn telling(random: &mut Random) -> i128 {
    let bits = random.below(126) as u32;
    let any = i128::from(random.number()) << 64 | i128::from(random.number());
    match random.below(4) {
        0 => (1 << bits) + i128::from(random.range(-2, 2)),
        1 => -(1 << bits) + i128::from(random.range(-2, 2)),
        2 => i128::from(random.range(-3, 3)),
        _ => any >> (127 - bits),
    }
}

/// A number of up to some 900 bits, of either sign.
fn long(random: &mut Random) -> Integer {
    let mut number = integer(telling(random));
    for _ in 0..random.below(9) {
        let bits = random.range(1, 90) as u32;
        number = number.times_power(bits) + integer(telling(random));
    }
    number
}

#[test]
fn they_are_those_of_128_bits() {
    let mut random = Random::new(12);
    for _ in 0..50_000 {
        let (a, b) = (telling(&mut random), telling(&mut random));
        assert_eq!(integer(a) + integer(b), integer(a + b), "{a} + {b}");
        assert_eq!(integer(a) - integer(b), integer(a - b), "{a} - {b}");
        assert_eq!(-integer(a), integer(-a), "{a}");
        assert_eq!(integer(a).cmp(&integer(b)), a.cmp(&b), "{a} {b}");
        assert_eq!(integer(a) == integer(b), a == b, "{a} {b}");
        assert_eq!(integer(a).is_negative(), a < 0, "{a}");
    }
}

#[test]
fn powers_of_two_are_those_of_128_bits() {
    let mut random = Random::new(13);
    for _ in 0..50_000 {
        let (a, n) = (telling(&mut random), random.below(127) as u32);
        let floor = integer(a.div_euclid(1 << n));
        assert_eq!(integer(a).floor_power(n), floor, "{a} / 2^{n}");
        let n = n % 65;
        let modulo = a.rem_euclid(1 << n) as u64;
        assert_eq!(integer(a).modulo_power(n), modulo, "{a} mod 2^{n}");
        let (small, n) = (a >> 64, n % 63);
        let times = integer(small * (1 << n));
        assert_eq!(integer(small).times_power(n), times, "{small} x 2^{n}");
    }
}

#[test]
fn laws_of_long_numbers() {
    let mut random = Random::new(14);
    for _ in 0..20_000 {
        let [a, b, c] = std::array::from_fn(|_| long(&mut random));
        let sum = a.clone() + b.clone();
        assert_eq!(sum, b.clone() + a.clone());
        assert_eq!(sum.clone() - b.clone(), a);
        assert_eq!(sum + c.clone(), a.clone() + (b.clone() + c));
        let difference = a.clone() - b.clone();
        assert_eq!(difference, a.clone() + -b.clone());
        assert_eq!(difference.is_negative(), a < b);
        assert_eq!(difference == integer(0), a == b);
        assert_eq!(-(-a.clone()), a);
        assert_eq!(a.cmp(&b), b.cmp(&a).reverse());
    }
}

#[test]
fn laws_of_powers() {
    let mut random = Random::new(15);
    for _ in 0..20_000 {
        let (a, n) = (long(&mut random), random.below(300) as u32);
        let times = a.times_power(n);
        assert_eq!(times.floor_power(n), a);
        assert_eq!(a.times_power(n + 1), times.clone() + times);
        let floor = a.floor_power(n);
        let rest = a.clone() - floor.times_power(n);
        assert!(integer(0) <= rest && rest < power(n));
        let n = n % 65;
        let modulo = integer(i128::from(a.modulo_power(n)));
        assert_eq!(a.floor_power(n).times_power(n) + modulo, a);
    }
}

#[test]
fn carries_and_borrows_go_all_the_way() {
    for n in 0..1_100 {
        let one = integer(1);
        let below = power(n) - one.clone();
        assert!(below < power(n) && -power(n) < -below.clone());
        assert_eq!(below + one.clone(), power(n));
        assert_eq!(power(n).floor_power(n), one);
        assert_eq!((-power(n)).floor_power(n), integer(-1));
        assert_eq!((-power(n)).floor_power(n + 1), integer(-1));
        assert_eq!((-power(n) - one.clone()).floor_power(n), integer(-2));
        assert_eq!(power(n) - power(n), integer(0));
        assert_eq!(power(n) + power(n), power(n + 1));
        assert_eq!(-power(n) - power(n), -power(n + 1));
    }
}

/// 3^400 by 400 times x + 2x, and back by nothing but subtractions.
#[test]
fn a_power_of_three_there_and_back() {
    let thrice = |number: &Integer| Some(number.times_power(1) + number.clone());
    let powers = std::iter::successors(Some(integer(1)), thrice).take(401);
    let powers: Vec<Integer> = powers.collect();
    assert_eq!(powers[9], decimal("19683"));
    let eightieth = decimal("147808829414345923316083210206383297601");
    assert_eq!(powers[80], eightieth);
    let hundredth = decimal("515377520732011331036461129765621272702107522001");
    assert_eq!(powers[100], hundredth);
    for pair in powers.windows(2) {
        let [lower, upper] = [&pair[0], &pair[1]].map(Integer::clone);
        assert_eq!(upper - lower.clone() - lower.clone(), lower);
    }
}

#[test]
fn known_numbers() {
    assert_eq!(power(64), decimal("18446744073709551616"));
    let square = decimal("340282366920938463463374607431768211456");
    assert_eq!(power(128), square);
    assert_eq!(power(128).floor_power(64), power(64));
    assert_eq!(power(128).modulo_power(64), 0);
    assert_eq!((power(128) - integer(1)).modulo_power(40), (1 << 40) - 1);
    assert_eq!((-power(128) - integer(1)).modulo_power(64), u64::MAX);
    assert_eq!(format!("{:?}", power(64)), "..0 00000001 00000000 00000000");
    assert_eq!(format!("{:?}", integer(-1)), "..F FFFFFFFF");
}
