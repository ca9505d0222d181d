//! Random operations other than DO and REPEAT.

use super::program::Maker;
use super::random::Random;
use crate::mode::Mode;
use crate::operation::*;
use crate::settings::Settings;

/// How often each kind comes, kinds 1 to 18 and 23 to 25.
const WEIGHTS: [(u8, usize); 21] = [
    (1, 5),
    (2, 7),
    (3, 10),
    (4, 8),
    (5, 5),
    (6, 6),
    (7, 5),
    (8, 4),
    (9, 4),
    (10, 3),
    (11, 5),
    (12, 6),
    (13, 6),
    (14, 6),
    (15, 7),
    (16, 8),
    (17, 6),
    (18, 6),
    (23, 2),
    (24, 3),
    (25, 2),
];

fn random_kind(maker: &mut Maker) -> u8 {
    let total: usize = WEIGHTS.iter().map(|(_, weight)| weight).sum();
    let mut at = maker.random.below(total);
    for (kind, weight) in WEIGHTS {
        if at < weight {
            return match kind {
                24 if !maker.style.mode_changes => 16,
                25 if !maker.style.clears => 16,
                11 | 14 | 15 if !maker.style.upper_bits => 8,
                _ => kind,
            };
        }
        at -= weight;
    }
    16
}

pub fn random(maker: &mut Maker) -> Operation {
    let target = maker.random.pick(&[Target::A, Target::B]);
    match random_kind(maker) {
        1 => Operation::Clr(target, prefetch(maker), write_back(maker)),
        2 => Operation::Mpy(target, factors(maker.random), prefetch(maker)),
        3 => Operation::Mac(
            target,
            factors(maker.random),
            prefetch(maker),
            write_back(maker),
        ),
        4 => Operation::Msc(
            target,
            factors(maker.random),
            prefetch(maker),
            write_back(maker),
        ),
        5 => Operation::Ed(target, data(maker.random), difference(maker)),
        6 => Operation::Edac(target, data(maker.random), difference(maker)),
        7 => Operation::Movsac(target, prefetch(maker), write_back(maker)),
        8 => Operation::AddBoth(target),
        9 => Operation::Subtract(target),
        10 => Operation::Negate(target),
        11 => Operation::ShiftBy(target, shift_register(maker)),
        12 => Operation::Lac(scaled(maker, target, false)),
        13 => Operation::Add(scaled(maker, target, false)),
        14 => Operation::Sac(scaled(maker, target, true)),
        15 => Operation::SacR(scaled(maker, target, true)),
        17 => load(maker),
        18 => store(maker),
        23 => Operation::EndEarly,
        24 => Operation::SetMode(random_mode(maker.random)),
        25 => Operation::ClearSaturation,
        _ => literal(maker),
    }
}

/// Any good mode word.
pub fn random_mode(random: &mut Random) -> Mode {
    let word = random.word() & Mode::GOOD_BITS;
    // Saturation rather off or wide at times, so that not every run leaves.
    Mode(match random.below(4) {
        0 => word & !0x00C0,
        1 => word | 0x0010,
        _ => word,
    })
}

fn data(random: &mut Random) -> Register {
    random.range(4, 7) as Register
}

fn factors(random: &mut Random) -> Factors {
    Factors {
        m: data(random),
        n: data(random),
    }
}

fn step(random: &mut Random) -> i16 {
    random.pick(&[-6, -4, -2, -2, 0, 0, 2, 2, 2, 4, 6])
}

fn x_address(maker: &mut Maker) -> ReadAddress {
    if maker.random.percent(15) {
        return ReadAddress::Indexed;
    }
    ReadAddress::Stepped {
        pointer: maker.random.pick(&[8, 9]),
        step: step(maker.random),
    }
}

fn y_address(maker: &mut Maker) -> ReadAddress {
    let indexed = if maker.style.indexed_y { 40 } else { 1 };
    if maker.random.percent(indexed) {
        return ReadAddress::Indexed;
    }
    ReadAddress::Stepped {
        pointer: maker.random.pick(&[10, 11]),
        step: step(maker.random),
    }
}

fn prefetch(maker: &mut Maker) -> Prefetch {
    let destination = data(maker.random);
    let other = 4 + (destination - 4 + maker.random.range(1, 3) as u8) % 4;
    let (with_x, with_y) = (maker.random.percent(55), maker.random.percent(55));
    Prefetch {
        x: with_x.then(|| Read {
            from: x_address(maker),
            destination,
        }),
        y: with_y.then(|| Read {
            from: y_address(maker),
            destination: other,
        }),
    }
}

fn difference(maker: &mut Maker) -> Difference {
    Difference {
        x: x_address(maker),
        y: y_address(maker),
        destination: data(maker.random),
    }
}

/// Write-back to W13 spoils it as a pointer, so it is rarer.
fn write_back(maker: &mut Maker) -> WriteBack {
    let choice = maker.random.below(100);
    match choice {
        _ if !maker.style.upper_bits => WriteBack::None,
        0..=5 => WriteBack::ToW13,
        6..=45 if !maker.style.indexed_y => WriteBack::ToMemory,
        _ => WriteBack::None,
    }
}

fn is_wild(maker: &mut Maker) -> bool {
    let share = maker.style.wildness;
    maker.random.percent(share)
}

fn any_register(maker: &mut Maker) -> Register {
    maker.random.below(14) as Register
}

fn shift_register(maker: &mut Maker) -> Register {
    if is_wild(maker) {
        return any_register(maker);
    }
    2
}

/// A register to be written by a load, literal or store.
fn result_register(maker: &mut Maker) -> Register {
    if is_wild(maker) {
        return any_register(maker);
    }
    data(maker.random)
}

/// A pointer for a plain access: the circular and bit-reversed registers rather
/// often.
fn pointer(maker: &mut Maker, stores: bool) -> Register {
    if is_wild(maker) {
        return any_register(maker);
    }
    let settings = &maker.layout.settings;
    let (x, reversed) = (settings.x.register, settings.reversed.register);
    let fits = |register: Register| register <= 13 && !(2..=7).contains(&register);
    if stores && fits(reversed) && maker.random.percent(40) {
        return reversed;
    }
    if fits(x) && maker.random.percent(25) {
        return x;
    }
    maker.random.pick(&[0, 0, 0, 1, 1, 1, 8, 9, 10, 11, 13])
}

fn change(random: &mut Random) -> Change {
    random.pick(&[Change::Stay, Change::Up, Change::Up, Change::Down])
}

fn scaled(maker: &mut Maker, target: Target, stores: bool) -> Scaled {
    let operand = if maker.random.percent(35) {
        Operand::Register(if stores {
            result_register(maker)
        } else {
            any_register(maker)
        })
    } else {
        Operand::Memory {
            pointer: pointer(maker, stores),
            change: change(maker.random),
        }
    };
    let shift = match maker.random.below(3) {
        0 => 0,
        _ => maker.random.range(-8, 7) as i8,
    };
    Scaled {
        target,
        shift,
        operand,
    }
}

fn literal(maker: &mut Maker) -> Operation {
    let register = any_register(maker);
    let value = maker.good_value(register);
    Operation::Literal(register, value)
}

/// A load, now and then into its own pointer.
fn load(maker: &mut Maker) -> Operation {
    let pointer = pointer(maker, false);
    let to = if maker.random.percent(6) {
        pointer
    } else {
        result_register(maker)
    };
    Operation::Load {
        to,
        pointer,
        change: change(maker.random),
    }
}

fn store(maker: &mut Maker) -> Operation {
    Operation::Store {
        from: any_register(maker),
        pointer: pointer(maker, true),
        change: change(maker.random),
    }
}

fn pointer_of(from: ReadAddress, indexed: Register) -> Register {
    match from {
        ReadAddress::Stepped { pointer, .. } => pointer,
        ReadAddress::Indexed => indexed,
    }
}

/// The registers that should hold good values before the operation.
pub fn used_registers(operation: &Operation) -> Vec<Register> {
    use Operation::*;
    match *operation {
        Clr(_, prefetch, back) | Movsac(_, prefetch, back) => used_by_prefetch(prefetch, back),
        Mpy(_, _, prefetch) => used_by_prefetch(prefetch, WriteBack::None),
        Mac(_, _, prefetch, back) | Msc(_, _, prefetch, back) => used_by_prefetch(prefetch, back),
        Ed(_, _, both) | Edac(_, _, both) => {
            vec![pointer_of(both.x, 9), pointer_of(both.y, 11)]
        }
        ShiftBy(_, register) => vec![register],
        Lac(scaled) | Add(scaled) | Sac(scaled) | SacR(scaled) => match scaled.operand {
            Operand::Memory { pointer, .. } => vec![pointer],
            Operand::Register(_) => Vec::new(),
        },
        Load { pointer, .. } | Store { pointer, .. } => vec![pointer],
        _ => Vec::new(),
    }
}

fn used_by_prefetch(prefetch: Prefetch, write_back: WriteBack) -> Vec<Register> {
    let x = prefetch.x.map(|read| pointer_of(read.from, 9));
    let y = prefetch.y.map(|read| pointer_of(read.from, 11));
    let back = (write_back == WriteBack::ToMemory).then_some(13);
    [x, y, back].into_iter().flatten().collect()
}

/// A read without its step, unless its pointer goes round a buffer anyway.
fn still(from: ReadAddress, round: Register) -> ReadAddress {
    match from {
        ReadAddress::Stepped { pointer, .. } if pointer != round => {
            ReadAddress::Stepped { pointer, step: 0 }
        }
        other => other,
    }
}

fn still_read(read: Option<Read>, round: Register) -> Option<Read> {
    read.map(|read| Read {
        from: still(read.from, round),
        ..read
    })
}

/// The operation without pointer steps that could lead out of memory, so that
/// it can run often.
pub fn stand_still(operation: Operation, settings: &Settings) -> Operation {
    use Operation::*;
    let (x, y) = (settings.x.register, settings.y.register);
    let quiet = |prefetch: Prefetch| Prefetch {
        x: still_read(prefetch.x, x),
        y: still_read(prefetch.y, y),
    };
    let back = |back: WriteBack| match back {
        WriteBack::ToMemory if x != 13 => WriteBack::None,
        other => other,
    };
    let apart = |both: Difference| Difference {
        x: still(both.x, x),
        y: still(both.y, y),
        ..both
    };
    match operation {
        Clr(target, prefetch, to) => Clr(target, quiet(prefetch), back(to)),
        Mpy(target, factors, prefetch) => Mpy(target, factors, quiet(prefetch)),
        Mac(target, factors, prefetch, to) => Mac(target, factors, quiet(prefetch), back(to)),
        Msc(target, factors, prefetch, to) => Msc(target, factors, quiet(prefetch), back(to)),
        Movsac(target, prefetch, to) => Movsac(target, quiet(prefetch), back(to)),
        Ed(target, m, both) => Ed(target, m, apart(both)),
        Edac(target, m, both) => Edac(target, m, apart(both)),
        other => stand_still_plain(other, settings),
    }
}

/// Form 1, unless the pointer goes round a buffer or in reversed order.
fn calm(pointer: Register, change: Change, stores: bool, settings: &Settings) -> Change {
    let reversed = stores && change == Change::Up && pointer == settings.reversed.register;
    if pointer == settings.x.register || reversed {
        change
    } else {
        Change::Stay
    }
}

fn calm_operand(scaled: Scaled, stores: bool, settings: &Settings) -> Scaled {
    let operand = match scaled.operand {
        Operand::Memory { pointer, change } => Operand::Memory {
            pointer,
            change: calm(pointer, change, stores, settings),
        },
        register => register,
    };
    Scaled { operand, ..scaled }
}

/// The same for forms 2 and 3 of kinds 12 to 15, 17 and 18.
fn stand_still_plain(operation: Operation, settings: &Settings) -> Operation {
    use Operation::*;
    match operation {
        Lac(scaled) => Lac(calm_operand(scaled, false, settings)),
        Add(scaled) => Add(calm_operand(scaled, false, settings)),
        Sac(scaled) => Sac(calm_operand(scaled, true, settings)),
        SacR(scaled) => SacR(calm_operand(scaled, true, settings)),
        Load {
            to,
            pointer,
            change,
        } => Load {
            to,
            pointer,
            change: calm(pointer, change, false, settings),
        },
        Store {
            from,
            pointer,
            change,
        } => Store {
            from,
            pointer,
            change: calm(pointer, change, true, settings),
        },
        other => other,
    }
}
