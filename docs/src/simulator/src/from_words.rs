//! The operation that 16 words are. The words are those of an accepted operation, so that
//! nothing is judged here, and the eight bytes are not looked at.

use crate::mode::Mode;
use crate::operation::*;
use crate::sixteen::WORDS;

type Words = [u16; WORDS];

/// Word 0 is the kind.
pub fn from_words(w: &Words) -> Operation {
    match w[0] {
        1..=7 => multiply(w),
        8 => Operation::AddBoth(target(w)),
        9 => Operation::Subtract(target(w)),
        10 => Operation::Negate(target(w)),
        11 => Operation::ShiftBy(target(w), number(w[4])),
        12 => Operation::Lac(scaled(w)),
        13 => Operation::Add(scaled(w)),
        14 => Operation::Sac(scaled(w)),
        15 => Operation::SacR(scaled(w)),
        _ => without_accumulator(w),
    }
}

/// A register's number.
fn number(word: u16) -> Register {
    word as Register
}

/// Word 1: 0 A, 1 B.
fn target(w: &Words) -> Target {
    match w[1] {
        0 => Target::A,
        _ => Target::B,
    }
}

/// Kinds 1 to 7: word 2 is m, word 3 n.
fn multiply(w: &Words) -> Operation {
    let factors = Factors {
        m: number(w[2]),
        n: number(w[3]),
    };
    let (target, prefetch, back) = (target(w), prefetch(w), write_back(w));
    match w[0] {
        1 => Operation::Clr(target, prefetch, back),
        2 => Operation::Mpy(target, factors, prefetch),
        3 => Operation::Mac(target, factors, prefetch, back),
        4 => Operation::Msc(target, factors, prefetch, back),
        5 => Operation::Ed(target, factors.m, difference(w)),
        6 => Operation::Edac(target, factors.m, difference(w)),
        _ => Operation::Movsac(target, prefetch, back),
    }
}

/// Words 4, 5 of X's address or 6, 7 of Y's: the pointer and c, step 2(c - 3); 12 or 13
/// for a sum.
fn address(pointer: u16, c: u16) -> ReadAddress {
    match pointer {
        12 | 13 => ReadAddress::Indexed,
        _ => ReadAddress::Stepped {
            pointer: number(pointer),
            step: 2 * (c as i16 - 3),
        },
    }
}

/// A read where there is a pointer, with its destination.
fn read(pointer: u16, c: u16, destination: u16) -> Option<Read> {
    (pointer != 0).then(|| Read {
        from: address(pointer, c),
        destination: number(destination),
    })
}

/// Word 8 is X's destination, word 9 Y's.
fn prefetch(w: &Words) -> Prefetch {
    Prefetch {
        x: read(w[4], w[5], w[8]),
        y: read(w[6], w[7], w[9]),
    }
}

/// Kinds 5 and 6: word 8 gets the difference.
fn difference(w: &Words) -> Difference {
    Difference {
        x: address(w[4], w[5]),
        y: address(w[6], w[7]),
        destination: number(w[8]),
    }
}

/// Word 10.
fn write_back(w: &Words) -> WriteBack {
    match w[10] {
        0 => WriteBack::None,
        1 => WriteBack::ToW13,
        _ => WriteBack::ToMemory,
    }
}

/// Forms 1, 2, 3 in word 6.
fn change(w: &Words) -> Change {
    match w[6] {
        1 => Change::Stay,
        2 => Change::Up,
        _ => Change::Down,
    }
}

/// Kinds 12 to 15: shift + 8 in word 2, the register in word 4, the form in word 6.
fn scaled(w: &Words) -> Scaled {
    let pointer = number(w[4]);
    Scaled {
        target: target(w),
        shift: w[2] as i8 - 8,
        operand: match w[6] {
            0 => Operand::Register(pointer),
            _ => Operand::Memory {
                pointer,
                change: change(w),
            },
        },
    }
}

/// Kinds 16 to 25: literals, counts and the mode word in word 11, DO's last in word 12.
fn without_accumulator(w: &Words) -> Operation {
    let (register, pointer) = (number(w[1]), number(w[4]));
    let (literal, last) = (w[11], w[12]);
    match w[0] {
        16 => Operation::Literal(register, literal),
        17 => Operation::Load {
            to: register,
            pointer,
            change: change(w),
        },
        18 => Operation::Store {
            from: register,
            pointer,
            change: change(w),
        },
        19 => Operation::RepeatLiteral(literal),
        20 => Operation::RepeatRegister(register),
        21 => Operation::DoLiteral {
            count: literal,
            last,
        },
        22 => Operation::DoRegister { register, last },
        23 => Operation::EndEarly,
        24 => Operation::SetMode(Mode(literal)),
        _ => Operation::ClearSaturation,
    }
}
