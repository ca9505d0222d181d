//! An operation in the manual's mnemonics. DO's last is its number; mode word and
//! kinds 23 and 25 are writes to the manual's registers.

use simulator::operation::*;

pub fn mnemonic(operation: &Operation) -> String {
    use Operation::*;
    match *operation {
        Clr(t, prefetch, back) => format!("CLR {t:?}{}", moves(prefetch, back)),
        Mpy(t, f, prefetch) => product("MPY", t, f, moves(prefetch, WriteBack::None)),
        Mac(t, f, prefetch, back) => product("MAC", t, f, moves(prefetch, back)),
        Msc(t, f, prefetch, back) => product("MSC", t, f, moves(prefetch, back)),
        Ed(t, m, both) => product("ED", t, Factors { m, n: m }, difference(both)),
        Edac(t, m, both) => product("EDAC", t, Factors { m, n: m }, difference(both)),
        Movsac(t, prefetch, back) => format!("MOVSAC {t:?}{}", moves(prefetch, back)),
        AddBoth(t) => format!("ADD {t:?}"),
        Subtract(t) => format!("SUB {t:?}"),
        Negate(t) => format!("NEG {t:?}"),
        ShiftBy(t, register) => format!("SFTAC {t:?}, W{register}"),
        Lac(scaled) => taken("LAC", scaled),
        Add(scaled) => taken("ADD", scaled),
        Sac(scaled) => given("SAC", scaled),
        SacR(scaled) => given("SAC.R", scaled),
        _ => from_16(operation),
    }
}

fn from_16(operation: &Operation) -> String {
    use Operation::*;
    match *operation {
        Literal(register, value) => format!("MOV #0x{value:04X}, W{register}"),
        Load {
            to,
            pointer,
            change,
        } => format!("MOV {}, W{to}", place(pointer, change)),
        Store {
            from,
            pointer,
            change,
        } => format!("MOV W{from}, {}", place(pointer, change)),
        RepeatLiteral(count) => format!("REPEAT #{count}"),
        RepeatRegister(register) => format!("REPEAT W{register}"),
        DoLiteral { count, last } => format!("DO #{count}, {last}"),
        DoRegister { register, last } => format!("DO W{register}, {last}"),
        EndEarly => "BSET CORCON, #EDT".to_string(),
        SetMode(mode) => format!("MOV #0x{:04X}, CORCON", mode.0),
        _ => "BCLR SR, #SAB".to_string(),
    }
}

fn product(name: &str, target: Target, factors: Factors, moves: String) -> String {
    format!("{name} W{}*W{}, {target:?}{moves}", factors.m, factors.n)
}

fn address(from: ReadAddress, sum: &str) -> String {
    match from {
        ReadAddress::Indexed => format!(", [{sum}]"),
        ReadAddress::Stepped { pointer, step: 0 } => format!(", [W{pointer}]"),
        ReadAddress::Stepped { pointer, step } => {
            let sign = if step < 0 { '-' } else { '+' };
            format!(", [W{pointer}]{sign}={}", step.abs())
        }
    }
}

fn x_address(from: ReadAddress) -> String {
    address(from, "W9+W12")
}

fn y_address(from: ReadAddress) -> String {
    address(from, "W11+W13")
}

/// The two reads and the write-back.
fn moves(prefetch: Prefetch, back: WriteBack) -> String {
    let x = prefetch.x.map(|x| (x_address(x.from), x.destination));
    let y = prefetch.y.map(|y| (y_address(y.from), y.destination));
    let reads = [x, y].into_iter().flatten();
    let reads: String = reads.map(|(from, to)| format!("{from}, W{to}")).collect();
    let back = match back {
        WriteBack::None => "",
        WriteBack::ToW13 => ", W13",
        WriteBack::ToMemory => ", [W13]+=2",
    };
    reads + back
}

fn difference(both: Difference) -> String {
    let (x, y) = (x_address(both.x), y_address(both.y));
    format!("{x}{y}, W{}", both.destination)
}

fn place(pointer: Register, change: Change) -> String {
    match change {
        Change::Stay => format!("[W{pointer}]"),
        Change::Up => format!("[W{pointer}++]"),
        Change::Down => format!("[W{pointer}--]"),
    }
}

fn operand(operand: Operand) -> String {
    match operand {
        Operand::Register(register) => format!("W{register}"),
        Operand::Memory { pointer, change } => place(pointer, change),
    }
}

fn shift(by: i8) -> String {
    match by {
        0 => String::new(),
        by => format!("#{by}, "),
    }
}

/// LAC and ADD.
fn taken(name: &str, scaled: Scaled) -> String {
    let (operand, shift) = (operand(scaled.operand), shift(scaled.shift));
    format!("{name} {operand}, {shift}{:?}", scaled.target)
}

/// SAC and SAC.R.
fn given(name: &str, scaled: Scaled) -> String {
    let (operand, shift) = (operand(scaled.operand), shift(scaled.shift));
    format!("{name} {:?}, {shift}{operand}", scaled.target)
}
