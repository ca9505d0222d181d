//! Traps 1 to 4: every access odd or outside, two bad ones at once, shifts too
//! far, a fifth loop. Flags, loops and repeats are set, so that a change would
//! show; some steps just beside are complete.

use crate::generate::bench::Bench;
use crate::generate::ops::*;

/// X at W8, Y at W10, a write at W13: 1004, 1016, 100A hex are good.
type Addresses = (u16, u16, u16);

/// One bad address: X's, in the Y part too; Y's, in the X part too.
const BAD_READS: [Addresses; 12] = [
    (0x1005, 0x1016, 0x100A),
    (0x0FFE, 0x1016, 0x100A),
    (0x1010, 0x1016, 0x100A),
    (0x0FFF, 0x1016, 0x100A),
    (0x1020, 0x1016, 0x100A),
    (0x1004, 0x1017, 0x100A),
    (0x1004, 0x100E, 0x100A),
    (0x1004, 0x1020, 0x100A),
    (0x1004, 0x1021, 0x100A),
    (0x1004, 0xFFFE, 0x100A),
    // X odd before Y outside, X outside before Y odd.
    (0x1005, 0x100E, 0x100A),
    (0x1010, 0x1017, 0x100A),
];

/// The write's address is bad, alone, with X's, with Y's, with both.
const BAD_WRITES: [Addresses; 10] = [
    (0x1004, 0x1016, 0x100B),
    (0x1004, 0x1016, 0x0FFE),
    (0x1004, 0x1016, 0x1020),
    (0x1004, 0x1016, 0xFFFF),
    (0x1005, 0x1016, 0x1020),
    (0x1010, 0x1016, 0x100B),
    (0x1004, 0x1017, 0x0FFE),
    (0x1004, 0x100E, 0x100B),
    (0x1010, 0x1017, 0x100B),
    (0x1005, 0x100E, 0x0FFE),
];

pub fn cases() -> Vec<Bench> {
    let mut all = prefetches();
    all.extend(unchecked());
    all.extend(sums());
    all.extend(plain());
    all.extend(shifts());
    all.extend(fifth_loops());
    all.extend(in_flow());
    all
}

/// Flags and every trap bit set.
fn marked(bench: Bench) -> Bench {
    bench.flags(0b1011).traps(0x0700)
}

/// Both reads and, in kinds 1, 3, 4, 7, a write-back to memory.
fn reading(kind: u8, target: u8, (x, y, write): Addresses) -> Bench {
    let bytes = match kind {
        1 | 7 => [kind, target, 0, 0x58, 0x1A, 0x76, 2, 0],
        2 => [kind, target, 0x54, 0x58, 0x1A, 0x76, 0, 0],
        5 | 6 => [kind, target, 0x44, 0x58, 0x1A, 0x06, 0, 0],
        _ => [kind, target, 0x54, 0x58, 0x1A, 0x76, 2, 0],
    };
    marked(Bench::one(bytes).w(8, x).w(10, y).w(13, write))
}

/// All of them in kind 3; some in each other kind.
fn prefetches() -> Vec<Bench> {
    let mut all = Vec::new();
    for (i, addresses) in BAD_READS.into_iter().enumerate() {
        all.push(reading(3, i as u8 % 2, addresses));
        all.push(reading([5, 6, 7, 5, 2, 6][i % 6], 1, addresses));
        if i >= 10 {
            all.push(reading(5, 0, addresses));
        }
    }
    for (i, addresses) in BAD_WRITES.into_iter().enumerate() {
        all.push(reading(3, i as u8 % 2, addresses));
        if i < 6 {
            all.push(reading([1, 4, 7][i / 2], 1, addresses));
        }
    }
    all
}

/// Bad numbers where no address is used, and the last good addresses.
fn unchecked() -> Vec<Bench> {
    vec![
        Bench::one([3, 0, 0x54, 0x58, 0x1A, 0x76, 1, 0]).w(13, 0x0001),
        Bench::one([4, 1, 0x54, 0x58, 0x1A, 0x76, 0, 0]).w(13, 0xFFFF),
        Bench::one([1, 1, 0, 0x58, 0, 0x06, 0, 0]).w(10, 0x1001),
        Bench::one([7, 0, 0, 0, 0x1A, 0x70, 2, 0]).w(8, 0x0FFF),
        Bench::one(scaled(12, 0, 0, 1, 0)).w(1, 0x0FFF),
        Bench::one(scaled(14, 1, 0, 1, 0)).w(1, 0x0FFF),
        reading(1, 0, (0x100E, 0x1010, 0x1000)).traps(0),
        reading(7, 1, (0x1000, 0x101E, 0x101E)),
        reading(2, 0, (0x100E, 0x101E, 0x0FFF)).traps(0),
    ]
}

/// W9 + W12 and W11 + W13: odd, outside, past 65,536; bad numbers with a good
/// sum.
fn sums() -> Vec<Bench> {
    let x = |w9, w12| marked(Bench::one([7, 0, 0, 0x0C, 0, 4, 0, 0]).w(9, w9).w(12, w12));
    let y = |w11, w13| {
        marked(
            Bench::one([7, 1, 0, 0, 0x0D, 0x40, 0, 0])
                .w(11, w11)
                .w(13, w13),
        )
    };
    vec![
        x(0x1004, 0x0001),
        x(0x1004, 0x000C),
        x(0xF000, 0x1FFE),
        x(0x0801, 0x0803),
        y(0x1014, 0x0003),
        y(0x1014, 0xFFFA),
        y(0x1014, 0x000C),
        y(0x8809, 0x8809),
    ]
}

/// Plain reads and writes: odd, odd and outside, below, above; the first and
/// the last word.
fn plain() -> Vec<Bench> {
    let mut all = Vec::new();
    for (i, kind) in (0..).zip(ACCESSES) {
        let pointer = (2 * i + 1) % 14;
        let form = 1 + i % 3;
        let bench = |address| marked(Bench::one(access(kind, pointer, form)).w(pointer, address));
        all.extend([0x1007, 0x0FFE, 0x1020].map(bench));
        all.push(bench([0x0FFF, 0x1021][usize::from(i) % 2]));
        let end = [0x1000, 0x101E][usize::from(i) % 2];
        all.push(bench(end).traps(0));
    }
    all
}

/// Kind 11 by 16 and beyond.
fn shifts() -> Vec<Bench> {
    let by = |target, count: i16| {
        let bench = Bench::one(shift_by(target, 3)).w(3, count as u16);
        bench.flags(0b1100)
    };
    let mut all = Vec::new();
    for target in [0, 1] {
        all.extend([16, 17, -16, -17].map(|count| by(target, count)));
    }
    all.extend([by(0, i16::MAX), by(1, i16::MIN), by(0, 256 + 3)]);
    all
}

/// DO with four loops active, and with three.
fn fifth_loops() -> Vec<Bench> {
    let mut all = Vec::new();
    for inner in [do_to(2, 7), do_by(3, 7)] {
        let program = [
            do_to(0, 11),
            do_to(0, 10),
            do_to(0, 9),
            do_to(0, 8),
            inner,
            IDLE,
            IDLE,
            IDLE,
            IDLE,
            IDLE,
            IDLE,
            IDLE,
        ];
        let four = Bench::of(&program).within(0, 3).within(1, 1).within(2, 4);
        all.push(marked(four.clone().within(3, 9).at(4)));
        all.push(marked(four.at(3)));
    }
    all
}

/// In a repeated last place of a loop, and as the program's last operation.
fn in_flow() -> Vec<Bench> {
    let program = |last| [do_to(0, 3), IDLE, repeat(4), last, IDLE];
    let placed = |last| marked(Bench::of(&program(last)).at(3).within(0, 2).repeating(1));
    vec![
        placed(load(4, 0, 2)).w(0, 0x1003),
        placed(store(4, 0, 2)).w(0, 0x1020),
        placed(shift_by(0, 2)).w(2, 17),
        placed(movsac(0, 2)).w(13, 0x0FFE).repeating(5),
        marked(Bench::of(&[IDLE, store(4, 0, 3)]).at(1).w(0, 0x0001)),
    ]
}
