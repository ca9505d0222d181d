//! Circular buffers of X and Y: round at E and at S, beside, in every use.

use crate::generate::bench::Bench;
use crate::generate::ops::*;

/// X's buffer: 1004..100B hex; Y's: 1014..101B hex, four words each.
const X: (u16, u16) = (0x1004, 0x100B);
const Y: (u16, u16) = (0x1014, 0x101B);

pub fn cases() -> Vec<Bench> {
    let mut all = x_reads();
    all.extend(y_reads());
    all.extend(x_buffer_of_y_pointers());
    all.extend(y_pointers_elsewhere());
    all.extend(plain_accesses());
    all.extend(never_corrected());
    all.extend(sizes());
    all.extend(at_the_top());
    all
}

/// An X read at a pointer with its step, in kinds by turns; kinds 5 and 6 read Y
/// too.
fn x_read(pointer: u8, old: u16, c: u8) -> Bench {
    let kind = [7, 2, 1, 3, 5, 4, 6][usize::from(c)];
    let b3 = stepped(pointer, c);
    let bytes = match kind {
        1 | 7 => [kind, 0, 0, b3, 0, 6, 0, 0],
        5 | 6 => [kind, 1, 0x77, b3, 0x3A, 4, 0, 0],
        _ => [kind, 1, 0x54, b3, 0, 5, 0, 0],
    };
    Bench::one(bytes).w(pointer, old)
}

/// X's register 8 and 9: every step from the buffer's ends, from between, from
/// outside into it and over it.
fn x_reads() -> Vec<Bench> {
    let mut places: Vec<(u8, u16, u8)> = (0..7).map(|c| (8, 0x1004, c)).collect();
    places.extend((0..7).map(|c| (8, 0x100A, c)));
    places.extend([(9, 0x1004, 0), (9, 0x1004, 2), (9, 0x1006, 0)]);
    places.extend([(9, 0x100A, 4), (9, 0x100A, 6), (9, 0x1008, 6)]);
    places.extend([(8, 0x1002, 4), (8, 0x1000, 6), (9, 0x1002, 2)]);
    places.extend([(8, 0x100C, 2), (8, 0x100E, 0), (9, 0x100C, 0)]);
    let case = |(pointer, old, c)| x_read(pointer, old, c).x(pointer, X.0, X.1);
    places.into_iter().map(case).collect()
}

/// A Y read at a pointer with its step, in kinds by turns.
fn y_read(pointer: u8, old: u16, c: u8) -> Bench {
    let kind = [1, 3, 6, 7, 2, 5, 4][usize::from(c)];
    let b4 = stepped(pointer, c);
    let bytes = match kind {
        1 | 7 => [kind, 1, 0, 0, b4, 0x60, 0, 0],
        5 | 6 => [kind, 0, 0x77, 0x38, b4, 4, 0, 0],
        _ => [kind, 0, 0x54, 0, b4, 0x50, 0, 0],
    };
    Bench::one(bytes).w(pointer, old)
}

/// Y's register 10 and 11 in Y reads.
fn y_reads() -> Vec<Bench> {
    let mut places: Vec<(u8, u16, u8)> = (0..4).map(|c| (10, 0x1014, c)).collect();
    places.extend((3..7).map(|c| (10, 0x101A, c)));
    places.extend([(11, 0x1014, 0), (11, 0x1014, 2), (11, 0x1016, 1)]);
    places.extend([(11, 0x101A, 4), (11, 0x101A, 6), (11, 0x1018, 5)]);
    places.extend([(10, 0x1012, 4), (11, 0x1010, 6)]);
    places.extend([(10, 0x101C, 2), (11, 0x101E, 0)]);
    let case = |(pointer, old, c)| y_read(pointer, old, c).y(pointer, Y.0, Y.1);
    places.into_iter().map(case).collect()
}

/// X's register is 10 or 11: a Y read through it follows Y's setting alone,
/// other accesses X's.
fn x_buffer_of_y_pointers() -> Vec<Bench> {
    let mut all = Vec::new();
    for (own, other) in [(10, 11), (11, 10)] {
        let buffer = |bench: Bench| bench.x(own, Y.0, Y.1);
        all.push(buffer(y_read(own, 0x101A, 4)));
        all.push(buffer(y_read(own, 0x1014, 2)));
        // Y's buffer with the same register: round there, beside it.
        let both = |bench: Bench| buffer(bench).y(own, 0x1010, 0x1017);
        all.push(both(y_read(own, 0x1016, 4)));
        all.push(both(y_read(own, 0x101A, 4)));
        all.push(buffer(y_read(own, 0x101A, 6)).y(other, 0x1010, 0x1017));
        let load = Bench::one(load(4, own, 2)).w(own, 0x101A);
        let store = Bench::one(store(4, own, 3)).w(own, 0x1014);
        all.extend([buffer(load.clone()), buffer(store)]);
        all.push(both(load));
    }
    all
}

/// Y's register outside of Y reads is not corrected.
fn y_pointers_elsewhere() -> Vec<Bench> {
    let mut all = Vec::new();
    for (i, kind) in (0..).zip(ACCESSES) {
        let pointer = 10 + i / 2 % 2;
        let (form, old) = [(2, 0x101A), (3, 0x1014)][usize::from(i % 2)];
        let bench = Bench::one(access(kind, pointer, form)).w(pointer, old);
        all.push(bench.y(pointer, Y.0, Y.1));
    }
    all
}

/// X's register in plain accesses, 0 to 3 and others: up at E, down at S, still,
/// within, beside; and as the write-back's pointer.
fn plain_accesses() -> Vec<Bench> {
    let buffer = |kind, pointer, form, old| {
        let bench = Bench::one(access(kind, pointer, form));
        bench.w(pointer, old).x(pointer, X.0, X.1)
    };
    let mut all = Vec::new();
    let pointers = [(0, 13), (1, 12), (2, 0), (3, 9), (8, 1), (5, 3)];
    for (kind, (up, down)) in ACCESSES.into_iter().zip(pointers) {
        all.push(buffer(kind, up, 2, 0x100A));
        all.push(buffer(kind, down, 3, 0x1004));
    }
    all.push(buffer(17, 0, 1, 0x100A));
    all.push(buffer(14, 1, 1, 0x1004));
    all.push(buffer(18, 2, 2, 0x1008));
    all.push(buffer(12, 3, 3, 0x1006));
    all.push(buffer(15, 0, 2, 0x100C));
    all.push(buffer(13, 1, 3, 0x1002));
    for old in [0x100A, 0x1006, 0x1002] {
        all.push(Bench::one(clr(1, 2)).w(13, old).x(13, X.0, X.1));
    }
    all
}

/// W9 + W12 and W11 + W13, each of the four being a circular register; another
/// register than X's at the buffer's end.
fn never_corrected() -> Vec<Bench> {
    let x = |w9, w12| Bench::one([7, 0, 0, 0x0C, 0, 4, 0, 0]).w(9, w9).w(12, w12);
    let y = |w11, w13| {
        Bench::one([2, 0, 0x54, 0, 0x0D, 0x40, 0, 0])
            .w(11, w11)
            .w(13, w13)
    };
    vec![
        x(0x100A, 4).x(9, X.0, X.1),
        x(4, 0x100A).x(12, X.0, X.1),
        y(0x101A, 4).y(11, Y.0, Y.1),
        y(0x101A, 4).x(11, Y.0, Y.1),
        y(4, 0x101A).x(13, Y.0, Y.1),
        x_read(8, 0x100A, 4).x(9, X.0, X.1),
        y_read(10, 0x101A, 4).y(11, Y.0, Y.1),
        Bench::one(load(4, 0, 2)).w(0, 0x100A).x(1, X.0, X.1),
    ]
}

/// The smallest buffer, where 6 leads back to the same word; one over both
/// parts; the whole memory.
fn sizes() -> Vec<Bench> {
    let small = |old, c| x_read(8, old, c).x(8, 0x1004, 0x1009);
    let across = |old, c| x_read(9, old, c).x(9, 0x100C, 0x1013);
    vec![
        small(0x1004, 0),
        small(0x1004, 6),
        small(0x1008, 6),
        small(0x1008, 4),
        y_read(11, 0x101E, 6).y(11, 0x101A, 0x101F),
        across(0x100E, 4),
        across(0x100C, 2),
        Bench::one(store(5, 3, 2)).w(3, 0x101E).x(3, 0x1000, 0x101F),
        Bench::one(load(5, 3, 3)).w(3, 0x1000).x(3, 0x1000, 0x101F),
    ]
}

/// The largest memory, its last word at FFFE hex: the sums pass 65,536, with and
/// without a correction before the reduction to 16 bits.
fn at_the_top() -> Vec<Bench> {
    let bytes = [3, 0, 0x54, 0, stepped(10, 6), 0x60, 2, 0];
    let top = Bench::one(bytes)
        .memory(30_720, 30_710)
        .w(10, 0xFFFE)
        .w(13, 0xFFFE);
    let round = top.clone().x(13, 0xFFF6, 0xFFFF).y(10, 0xFFF8, 0xFFFF);
    vec![round, top]
}
