//! An operation to its eight bytes, built up from zeros.

use crate::decode::LENGTH;
use crate::operation::*;

pub fn encode(operation: &Operation) -> [u8; LENGTH] {
    use Operation::*;
    let mut b = [0; LENGTH];
    b[0] = operation.kind();
    match *operation {
        Clr(target, prefetch, write_back) | Movsac(target, prefetch, write_back) => {
            b[1] = target as u8;
            put_prefetch(&mut b, prefetch);
            b[6] = write_back_byte(write_back);
        }
        Mpy(target, factors, prefetch) => {
            b[1] = target as u8;
            b[2] = factors.m | factors.n << 4;
            put_prefetch(&mut b, prefetch);
        }
        Mac(target, factors, prefetch, write_back) | Msc(target, factors, prefetch, write_back) => {
            b[1] = target as u8;
            b[2] = factors.m | factors.n << 4;
            put_prefetch(&mut b, prefetch);
            b[6] = write_back_byte(write_back);
        }
        Ed(target, m, difference) | Edac(target, m, difference) => {
            b[1] = target as u8;
            b[2] = m | m << 4;
            b[3] = address_byte(difference.x, 0x0C);
            b[4] = address_byte(difference.y, 0x0D);
            b[5] = difference.destination;
        }
        AddBoth(target) | Subtract(target) | Negate(target) => b[1] = target as u8,
        ShiftBy(target, register) => {
            b[1] = target as u8;
            b[3] = register;
        }
        Lac(scaled) | Add(scaled) | Sac(scaled) | SacR(scaled) => put_scaled(&mut b, scaled),
        _ => encode_from_16(operation, &mut b),
    }
    b
}

fn encode_from_16(operation: &Operation, b: &mut [u8; LENGTH]) {
    use Operation::*;
    match *operation {
        Literal(register, value) => {
            b[1] = register;
            put_word(b, 2, value);
        }
        Load {
            to: named,
            pointer,
            change,
        }
        | Store {
            from: named,
            pointer,
            change,
        } => {
            b[1] = named;
            b[3] = pointer;
            b[4] = form(change);
        }
        RepeatLiteral(count) => put_word(b, 2, count),
        RepeatRegister(register) => b[1] = register,
        DoLiteral { count, last } => {
            put_word(b, 2, count);
            put_word(b, 4, last);
        }
        DoRegister { register, last } => {
            b[1] = register;
            put_word(b, 4, last);
        }
        SetMode(mode) => put_word(b, 2, mode.0),
        _ => {}
    }
}

fn put_word(b: &mut [u8; LENGTH], at: usize, word: u16) {
    b[at..at + 2].copy_from_slice(&word.to_le_bytes());
}

fn address_byte(address: ReadAddress, indexed: u8) -> u8 {
    match address {
        ReadAddress::Indexed => indexed,
        ReadAddress::Stepped { pointer, step } => pointer | ((step / 2 + 3) as u8) << 4,
    }
}

fn put_prefetch(b: &mut [u8; LENGTH], prefetch: Prefetch) {
    if let Some(x) = prefetch.x {
        b[3] = address_byte(x.from, 0x0C);
        b[5] |= x.destination;
    }
    if let Some(y) = prefetch.y {
        b[4] = address_byte(y.from, 0x0D);
        b[5] |= y.destination << 4;
    }
}

fn write_back_byte(write_back: WriteBack) -> u8 {
    match write_back {
        WriteBack::None => 0,
        WriteBack::ToW13 => 1,
        WriteBack::ToMemory => 2,
    }
}

fn form(change: Change) -> u8 {
    match change {
        Change::Stay => 1,
        Change::Up => 2,
        Change::Down => 3,
    }
}

fn put_scaled(b: &mut [u8; LENGTH], scaled: Scaled) {
    b[1] = scaled.target as u8;
    b[2] = (scaled.shift + 8) as u8;
    (b[3], b[4]) = match scaled.operand {
        Operand::Register(register) => (register, 0),
        Operand::Memory { pointer, change } => (pointer, form(change)),
    };
}

/// The bytes of all operations, 8 each, in order.
pub fn encode_all(operations: &[Operation]) -> Vec<u8> {
    operations.iter().flat_map(encode).collect()
}
