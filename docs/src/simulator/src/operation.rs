//! "Operations": the 25 kinds as one enum.

use crate::mode::Mode;

/// A working register's number, 0..13.
pub type Register = u8;

/// The target accumulator: 0 A, 1 B.
#[derive(Clone, Copy, Debug, PartialEq, Eq)]
pub enum Target {
    A = 0,
    B = 1,
}

impl Target {
    pub fn index(self) -> usize {
        self as usize
    }

    pub fn other(self) -> Target {
        match self {
            Target::A => Target::B,
            Target::B => Target::A,
        }
    }
}

/// The factors m and n of a product, registers 4..7.
#[derive(Clone, Copy, Debug, PartialEq, Eq)]
pub struct Factors {
    pub m: Register,
    pub n: Register,
}

/// The address of an X or Y read.
#[derive(Clone, Copy, Debug, PartialEq, Eq)]
pub enum ReadAddress {
    /// At the pointer, which is then stepped by -6, -4 .. 6.
    Stepped { pointer: Register, step: i16 },
    /// X: W9 + W12; Y: W11 + W13. No pointer changes.
    Indexed,
}

/// A read with the register 4..7 that gets its word.
#[derive(Clone, Copy, Debug, PartialEq, Eq)]
pub struct Read {
    pub from: ReadAddress,
    pub destination: Register,
}

/// The X and Y reads of kinds 1 to 4 and 7.
#[derive(Clone, Copy, Debug, PartialEq, Eq)]
pub struct Prefetch {
    pub x: Option<Read>,
    pub y: Option<Read>,
}

/// The two reads of kinds 5 and 6 and the register of their difference.
#[derive(Clone, Copy, Debug, PartialEq, Eq)]
pub struct Difference {
    pub x: ReadAddress,
    pub y: ReadAddress,
    pub destination: Register,
}

/// b6 of kinds 1, 3, 4, 7.
#[derive(Clone, Copy, Debug, PartialEq, Eq)]
pub enum WriteBack {
    None,
    ToW13,
    ToMemory,
}

/// What happens to a pointer: forms 1, 2, 3.
#[derive(Clone, Copy, Debug, PartialEq, Eq)]
pub enum Change {
    Stay,
    Up,
    Down,
}

/// The one operand of LAC, ADD, SAC and SAC.R.
#[derive(Clone, Copy, Debug, PartialEq, Eq)]
pub enum Operand {
    Register(Register),
    Memory { pointer: Register, change: Change },
}

/// Kinds 12 to 15 without the kind: target, shift b2 - 8, operand.
#[derive(Clone, Copy, Debug, PartialEq, Eq)]
pub struct Scaled {
    pub target: Target,
    pub shift: i8,
    pub operand: Operand,
}

#[derive(Clone, Copy, Debug, PartialEq, Eq)]
pub enum Operation {
    /// 1
    Clr(Target, Prefetch, WriteBack),
    /// 2
    Mpy(Target, Factors, Prefetch),
    /// 3
    Mac(Target, Factors, Prefetch, WriteBack),
    /// 4
    Msc(Target, Factors, Prefetch, WriteBack),
    /// 5
    Ed(Target, Register, Difference),
    /// 6
    Edac(Target, Register, Difference),
    /// 7
    Movsac(Target, Prefetch, WriteBack),
    /// 8
    AddBoth(Target),
    /// 9
    Subtract(Target),
    /// 10
    Negate(Target),
    /// 11
    ShiftBy(Target, Register),
    /// 12
    Lac(Scaled),
    /// 13
    Add(Scaled),
    /// 14
    Sac(Scaled),
    /// 15
    SacR(Scaled),
    /// 16
    Literal(Register, u16),
    /// 17
    Load {
        to: Register,
        pointer: Register,
        change: Change,
    },
    /// 18
    Store {
        from: Register,
        pointer: Register,
        change: Change,
    },
    /// 19
    RepeatLiteral(u16),
    /// 20
    RepeatRegister(Register),
    /// 21
    DoLiteral { count: u16, last: u16 },
    /// 22
    DoRegister { register: Register, last: u16 },
    /// 23
    EndEarly,
    /// 24
    SetMode(Mode),
    /// 25
    ClearSaturation,
}

impl Operation {
    pub fn kind(&self) -> u8 {
        use Operation::*;
        match self {
            Clr(..) => 1,
            Mpy(..) => 2,
            Mac(..) => 3,
            Msc(..) => 4,
            Ed(..) => 5,
            Edac(..) => 6,
            Movsac(..) => 7,
            AddBoth(_) => 8,
            Subtract(_) => 9,
            Negate(_) => 10,
            ShiftBy(..) => 11,
            Lac(_) => 12,
            Add(_) => 13,
            Sac(_) => 14,
            SacR(_) => 15,
            Literal(..) => 16,
            Load { .. } => 17,
            Store { .. } => 18,
            RepeatLiteral(_) => 19,
            RepeatRegister(_) => 20,
            DoLiteral { .. } => 21,
            DoRegister { .. } => 22,
            EndEarly => 23,
            SetMode(_) => 24,
            ClearSaturation => 25,
        }
    }

    /// b6 of kinds 1, 3, 4, 7; none for other kinds.
    pub fn write_back(&self) -> WriteBack {
        use Operation::*;
        match *self {
            Clr(_, _, back) | Mac(_, _, _, back) | Msc(_, _, _, back) | Movsac(_, _, back) => back,
            _ => WriteBack::None,
        }
    }

    /// The accumulator that is written, by kinds 1 to 6 and 8 to 13.
    pub fn written(&self) -> Option<Target> {
        use Operation::*;
        match *self {
            Clr(target, ..)
            | Mpy(target, ..)
            | Mac(target, ..)
            | Msc(target, ..)
            | Ed(target, ..)
            | Edac(target, ..)
            | AddBoth(target)
            | Subtract(target)
            | Negate(target)
            | ShiftBy(target, _) => Some(target),
            Lac(scaled) | Add(scaled) => Some(scaled.target),
            _ => None,
        }
    }

    pub fn is_repeat(&self) -> bool {
        matches!(
            self,
            Operation::RepeatLiteral(_) | Operation::RepeatRegister(_)
        )
    }

    /// Kinds 19 to 22, which move pc on themselves.
    pub fn is_repeat_or_do(&self) -> bool {
        self.is_repeat() || self.last_of_do().is_some()
    }

    /// DO's last operation's number; nothing for other kinds.
    pub fn last_of_do(&self) -> Option<u16> {
        match *self {
            Operation::DoLiteral { last, .. } | Operation::DoRegister { last, .. } => Some(last),
            _ => None,
        }
    }
}
