//! Eight bytes to an operation; nothing where refusal 4 is given.

use crate::mode::Mode;
use crate::operation::*;
use crate::words::word_at;

/// Bytes of one operation.
pub const LENGTH: usize = 8;

/// The operation of bytes b0..b7, or `None` for a kind or field not listed.
pub fn decode(b: &[u8; LENGTH]) -> Option<Operation> {
    match b[0] {
        1..=7 => decode_multiply(b),
        8..=11 => decode_accumulators(b),
        12..=15 => decode_scaled(b),
        16..=18 => decode_move(b),
        19..=22 => decode_flow(b),
        23..=25 => decode_control(b),
        _ => None,
    }
}

/// "Unused bytes are 0."
fn zero(bytes: &[u8]) -> Option<()> {
    bytes.iter().all(|&byte| byte == 0).then_some(())
}

fn target(byte: u8) -> Option<Target> {
    match byte {
        0 => Some(Target::A),
        1 => Some(Target::B),
        _ => None,
    }
}

fn register(byte: u8) -> Option<Register> {
    (byte <= 13).then_some(byte)
}

/// A register among 4..7.
fn data_register(nibble: u8) -> Option<Register> {
    (4..=7).contains(&nibble).then_some(nibble)
}

fn decode_multiply(b: &[u8; LENGTH]) -> Option<Operation> {
    zero(&b[7..])?;
    let target = target(b[1])?;
    match b[0] {
        1 | 7 => {
            zero(&b[2..3])?;
            let (prefetch, write_back) = (decode_prefetch(b)?, decode_write_back(b[6])?);
            Some(match b[0] {
                1 => Operation::Clr(target, prefetch, write_back),
                _ => Operation::Movsac(target, prefetch, write_back),
            })
        }
        2 => {
            zero(&b[6..])?;
            Some(Operation::Mpy(target, factors(b[2])?, decode_prefetch(b)?))
        }
        3 | 4 => {
            let (factors, prefetch) = (factors(b[2])?, decode_prefetch(b)?);
            let write_back = decode_write_back(b[6])?;
            Some(match b[0] {
                3 => Operation::Mac(target, factors, prefetch, write_back),
                _ => Operation::Msc(target, factors, prefetch, write_back),
            })
        }
        _ => {
            zero(&b[6..])?;
            let Factors { m, n } = factors(b[2])?;
            let difference = decode_difference(b)?;
            match (m == n, b[0]) {
                (true, 5) => Some(Operation::Ed(target, m, difference)),
                (true, 6) => Some(Operation::Edac(target, m, difference)),
                _ => None,
            }
        }
    }
}

/// b2: low nibble m, high nibble n.
fn factors(byte: u8) -> Option<Factors> {
    Some(Factors {
        m: data_register(byte & 15)?,
        n: data_register(byte >> 4)?,
    })
}

/// b3 (pointers 8, 9, indexed 0C) or b4 (10, 11, 0D): `Some(None)` for no read.
fn read_address(byte: u8, pointers: [u8; 2], indexed: u8) -> Option<Option<ReadAddress>> {
    if byte == 0 {
        return Some(None);
    }
    if byte == indexed {
        return Some(Some(ReadAddress::Indexed));
    }
    let (pointer, c) = (byte & 15, byte >> 4);
    if !pointers.contains(&pointer) || c > 6 {
        return None;
    }
    let step = 2 * (i16::from(c) - 3);
    Some(Some(ReadAddress::Stepped { pointer, step }))
}

fn x_address(byte: u8) -> Option<Option<ReadAddress>> {
    read_address(byte, [8, 9], 0x0C)
}

fn y_address(byte: u8) -> Option<Option<ReadAddress>> {
    read_address(byte, [10, 11], 0x0D)
}

/// A read with its destination nibble, which is 0 without the read.
fn read(from: Option<ReadAddress>, nibble: u8) -> Option<Option<Read>> {
    match from {
        None => (nibble == 0).then_some(None),
        Some(from) => {
            let destination = data_register(nibble)?;
            Some(Some(Read { from, destination }))
        }
    }
}

fn decode_prefetch(b: &[u8; LENGTH]) -> Option<Prefetch> {
    let x = read(x_address(b[3])?, b[5] & 15)?;
    let y = read(y_address(b[4])?, b[5] >> 4)?;
    match (x, y) {
        (Some(x), Some(y)) if x.destination == y.destination => None,
        _ => Some(Prefetch { x, y }),
    }
}

/// "Kinds 5, 6 need both reads; b5's high nibble is 0."
fn decode_difference(b: &[u8; LENGTH]) -> Option<Difference> {
    if b[5] >> 4 != 0 {
        return None;
    }
    Some(Difference {
        x: x_address(b[3])??,
        y: y_address(b[4])??,
        destination: data_register(b[5])?,
    })
}

fn decode_write_back(byte: u8) -> Option<WriteBack> {
    match byte {
        0 => Some(WriteBack::None),
        1 => Some(WriteBack::ToW13),
        2 => Some(WriteBack::ToMemory),
        _ => None,
    }
}

fn decode_accumulators(b: &[u8; LENGTH]) -> Option<Operation> {
    let target = target(b[1])?;
    zero(&b[2..3])?;
    zero(&b[4..])?;
    if b[0] == 11 {
        return Some(Operation::ShiftBy(target, register(b[3])?));
    }
    zero(&b[3..4])?;
    Some(match b[0] {
        8 => Operation::AddBoth(target),
        9 => Operation::Subtract(target),
        _ => Operation::Negate(target),
    })
}

/// Forms 1, 2, 3 of a pointer.
fn change(form: u8) -> Option<Change> {
    match form {
        1 => Some(Change::Stay),
        2 => Some(Change::Up),
        3 => Some(Change::Down),
        _ => None,
    }
}

fn decode_scaled(b: &[u8; LENGTH]) -> Option<Operation> {
    zero(&b[5..])?;
    if b[2] > 15 {
        return None;
    }
    let pointer = register(b[3])?;
    let operand = match b[4] {
        0 => Operand::Register(pointer),
        form => Operand::Memory {
            pointer,
            change: change(form)?,
        },
    };
    let scaled = Scaled {
        target: target(b[1])?,
        shift: b[2] as i8 - 8,
        operand,
    };
    Some(match b[0] {
        12 => Operation::Lac(scaled),
        13 => Operation::Add(scaled),
        14 => Operation::Sac(scaled),
        _ => Operation::SacR(scaled),
    })
}

fn decode_move(b: &[u8; LENGTH]) -> Option<Operation> {
    let named = register(b[1])?;
    if b[0] == 16 {
        zero(&b[4..])?;
        return Some(Operation::Literal(named, word_at(b, 2)));
    }
    zero(&b[2..3])?;
    zero(&b[5..])?;
    let (pointer, change) = (register(b[3])?, change(b[4])?);
    Some(match b[0] {
        17 => Operation::Load {
            to: named,
            pointer,
            change,
        },
        _ => Operation::Store {
            from: named,
            pointer,
            change,
        },
    })
}

/// A literal count, 0..32,767.
fn count(word: u16) -> Option<u16> {
    (word <= 32_767).then_some(word)
}

/// DO's last is judged by refusal 5 alone.
fn decode_flow(b: &[u8; LENGTH]) -> Option<Operation> {
    let last = word_at(b, 4);
    zero(&b[6..])?;
    if b[0] <= 20 {
        zero(&b[4..6])?;
    }
    if b[0] == 19 || b[0] == 21 {
        zero(&b[1..2])?;
        let count = count(word_at(b, 2))?;
        return Some(match b[0] {
            19 => Operation::RepeatLiteral(count),
            _ => Operation::DoLiteral { count, last },
        });
    }
    zero(&b[2..4])?;
    let register = register(b[1])?;
    Some(match b[0] {
        20 => Operation::RepeatRegister(register),
        _ => Operation::DoRegister { register, last },
    })
}

fn decode_control(b: &[u8; LENGTH]) -> Option<Operation> {
    zero(&b[1..2])?;
    zero(&b[4..])?;
    if b[0] == 24 {
        let mode = Mode(word_at(b, 2));
        return mode.is_good().then_some(Operation::SetMode(mode));
    }
    zero(&b[2..4])?;
    Some(match b[0] {
        23 => Operation::EndEarly,
        _ => Operation::ClearSaturation,
    })
}

/// All operations in order; nothing at the first that fails.
pub fn decode_all(bytes: &[u8]) -> Option<Vec<Operation>> {
    let mut operations = Vec::with_capacity(bytes.len() / LENGTH);
    for part in bytes.chunks_exact(LENGTH) {
        let b: &[u8; LENGTH] = part.try_into().ok()?;
        operations.push(decode(b)?);
    }
    Some(operations)
}
