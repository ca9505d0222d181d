//! Refusal 6: memory and each setting at its edge, and the value beside it that
//! is accepted.

use crate::generate::bench::Bench;
use crate::generate::ops::*;

pub fn cases() -> Vec<Bench> {
    let mut all = sizes();
    all.extend(trap_words());
    all.extend(x_registers());
    all.extend(x_buffers());
    all.extend(y_registers());
    all.extend(y_buffers());
    all.extend(reversed_registers());
    all.extend(reversed_words());
    all
}

fn bench() -> Bench {
    Bench::one(literal(1, 0x2222))
}

/// Words of memory 0, 1, 2, and 30,721 (30,720 are accepted among the buffers);
/// the X part.
fn sizes() -> Vec<Bench> {
    let sizes = [
        (0, 0),
        (1, 0),
        (1, 1),
        (2, 1),
        (2, 0),
        (2, 2),
        (16, 0),
        (16, 1),
        (16, 15),
        (16, 16),
        (16, 0xFFFF),
        (30_721, 8),
    ];
    sizes
        .map(|(words, x_words)| bench().memory(words, x_words))
        .to_vec()
}

/// Bits 8, 9 and 10 alone and together, the bits beside them, the ends.
fn trap_words() -> Vec<Bench> {
    let bits = [0, 7, 8, 9, 10, 11, 12, 15].map(|number| 1 << number);
    let words = bits.into_iter().chain([0x0700, 0x0701]);
    words.map(|word| bench().traps(word)).collect()
}

/// X's register over 1004..100B hex, and 15 with 0 or something else.
fn x_registers() -> Vec<Bench> {
    let registers = [0, 13, 14, 15, 16, 255];
    let mut all = registers
        .map(|register| bench().x(register, 0x1004, 0x100B))
        .to_vec();
    let none = [(15, 0, 0), (15, 2, 0), (15, 0, 1), (14, 0, 0), (0, 0, 0)];
    all.extend(none.map(|(register, start, end)| bench().x(register, start, end)));
    all
}

/// X's S and E: odd, even, near, crossed, at memory's ends; over both parts.
fn x_buffers() -> Vec<Bench> {
    let buffers = [
        (0x1005, 0x100B),
        (0x1004, 0x100A),
        (0x1004, 0x1009),
        (0x1004, 0x1007),
        (0x100A, 0x1005),
        (0x1000, 0x1005),
        (0x0FFE, 0x1005),
        (0x101A, 0x101F),
        (0x101A, 0x1021),
        (0x100C, 0x1013),
        (0x1000, 0x101F),
    ];
    buffers
        .map(|(start, end)| bench().x(8, start, end))
        .to_vec()
}

/// Y's register over 1014..101B hex, and 15 with something else than 0.
fn y_registers() -> Vec<Bench> {
    let registers = [9, 10, 11, 12, 0, 14, 15, 255];
    let mut all = registers
        .map(|register| bench().y(register, 0x1014, 0x101B))
        .to_vec();
    let none = [(15, 2, 0), (15, 0, 1), (14, 0, 0), (10, 0, 0)];
    all.extend(none.map(|(register, start, end)| bench().y(register, start, end)));
    all
}

/// Y's S and E: odd, even, near, crossed, at the Y part's ends.
fn y_buffers() -> Vec<Bench> {
    let buffers = [
        (0x1015, 0x101B),
        (0x1014, 0x101A),
        (0x1014, 0x1019),
        (0x1014, 0x1017),
        (0x101A, 0x1015),
        (0x1010, 0x1015),
        (0x100E, 0x1015),
        (0x101A, 0x101F),
        (0x101A, 0x1021),
    ];
    let mut all = buffers
        .map(|(start, end)| bench().y(10, start, end))
        .to_vec();
    // X's and Y's registers may be equal, and each buffer is judged alone.
    let both = bench().x(10, 0x1000, 0x1005);
    all.push(both.clone().y(10, 0x1010, 0x1015));
    all.push(both.y(10, 0x1010, 0x1013));
    all
}

/// The bit-reversed register: 0..13, not X's; Y's is good; 15 with N = 0.
fn reversed_registers() -> Vec<Bench> {
    let registers = [0, 13, 14, 15, 16, 255];
    let mut all = registers
        .map(|register| bench().reversed(register, 8))
        .to_vec();
    all.extend([
        bench().reversed(15, 0),
        bench().reversed(14, 0),
        bench().x(3, 0x1004, 0x100B).reversed(3, 8),
        bench().x(3, 0x1004, 0x100B).reversed(4, 8),
        bench().y(11, 0x1014, 0x101B).reversed(11, 8),
    ]);
    all
}

fn reversed_words() -> Vec<Bench> {
    let words = [0, 1, 2, 3, 6, 512, 1_023, 1_024, 1_025, 2_048, 0x8000];
    words.map(|words| bench().reversed(2, words)).to_vec()
}
