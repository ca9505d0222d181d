//! Cases of a few operations: one field off, or DO and REPEAT in any places.
//! They are short, so that many of them fit in a stream.

use super::case::file_of;
use super::damage::{damage_length, near_miss, two_blocks};
use super::layout::Layout;
use super::program::{Maker, Style};
use super::random::Random;
use super::simple;
use crate::cases::{Case, What};
use crate::decode::decode;
use crate::encode::{encode, encode_all};
use crate::file::blocks_of;
use crate::operation::Operation;
use crate::settings::Settings;
use crate::state::State;

/// An operation without any effect but its step.
pub const IDLE: Operation = Operation::Literal(0, 0);

/// A write, load or run of these operations, good or bad. The run has no memory:
/// where the operations are good, refusal 6 follows.
fn copy_case(random: &mut Random, bytes: Vec<u8>) -> Case {
    let what = random.pick(&[What::Write, What::Write, What::Write, What::Load, What::Run]);
    let writes = what == What::Write;
    Case {
        what,
        budget: if writes { 512 } else { bytes.len() as u32 },
        file: if writes { bytes } else { blocks_of(&bytes) },
        memory: Vec::new(),
        settings: Settings::plain(1),
        state: State::reset(),
    }
}

/// Any operation that could stand at 0 before four others.
fn any_operation(random: &mut Random) -> Operation {
    let register = random.below(14) as u8;
    match random.below(12) {
        0 => Operation::RepeatLiteral(random.pick(&[0, 1, 32_767])),
        1 => Operation::RepeatRegister(register),
        2 => Operation::DoLiteral {
            count: random.pick(&[0, 1, 32_767]),
            last: random.range(2, 4) as u16,
        },
        3 => Operation::DoRegister {
            register,
            last: random.range(2, 4) as u16,
        },
        _ => {
            let layout = Layout {
                words: 64,
                settings: Settings::plain(32),
            };
            let mut style = Style::random(random, true);
            style.mode_changes = true;
            style.wildness = 50;
            simple::random(&mut Maker {
                random,
                layout: &layout,
                style,
                operations: Vec::new(),
            })
        }
    }
}

/// A value of one byte just inside or just outside what is good there, with the
/// other bytes as they are.
fn edge_value(random: &mut Random, operation: [u8; 8], at: usize) -> u8 {
    let good = |value: u8| {
        let mut changed = operation;
        changed[at] = value;
        decode(&changed).is_some()
    };
    let in_nibbles = operation[0] <= 7 && (2..=5).contains(&at);
    let steps: &[u8] = if in_nibbles {
        &[1, 255, 16, 240]
    } else {
        &[1, 255]
    };
    let is_edge = |value: &u8| {
        let mut beside = steps.iter().map(|step| value.wrapping_add(*step));
        beside.any(|other| good(other) != good(*value))
    };
    let edges: Vec<u8> = (0..=255).filter(is_edge).collect();
    if edges.is_empty() {
        near_miss(random, operation[at])
    } else {
        random.pick(&edges)
    }
}

/// One operation with one byte off, and four idle ones after it.
pub fn field_case(random: &mut Random) -> Case {
    let mut operation = encode(&any_operation(random));
    let at = random.pick(&[0, 1, 1, 2, 2, 3, 3, 3, 4, 4, 4, 5, 5, 5, 6, 7]);
    if operation[0] <= 7 && random.percent(15) {
        // Both reads to one register.
        operation[5] = 0x11 * random.range(4, 7) as u8;
    } else if random.percent(75) {
        operation[at] = edge_value(random, operation, at);
    } else {
        operation[at] = near_miss(random, operation[at]);
    }
    let mut bytes = operation.to_vec();
    bytes.extend(encode_all(&[IDLE; 4]));
    copy_case(random, bytes)
}

/// A place that matters: a DO's last, next to it, before a DO, or any.
fn telling_place(random: &mut Random, operations: &[Operation]) -> usize {
    let count = operations.len();
    let mut places = vec![count - 1, random.below(count), random.below(count)];
    for (number, operation) in operations.iter().enumerate() {
        if let Some(last) = operation.last_of_do() {
            let last = usize::from(last);
            places.extend([last, last + 1, last.saturating_sub(1)]);
            places.extend([number.saturating_sub(1), number + 1]);
        }
    }
    places.retain(|&place| place < count);
    random.pick(&places)
}

/// Two loops that just nest, just follow each other, or just do not.
fn two_loops(random: &mut Random) -> Vec<Operation> {
    let outer = random.range(4, 7);
    let place = random.pick(&[2, outer - 2, outer - 1, outer, outer, outer + 1]);
    let inner = (outer + random.range(-1, 1)).max(place + 2);
    let mut operations = vec![IDLE; 12];
    operations[1] = Operation::DoLiteral {
        count: 1,
        last: outer as u16,
    };
    operations[place as usize] = Operation::DoLiteral {
        count: 1,
        last: inner as u16,
    };
    operations
}

/// A few operations with DOs and REPEATs, their places good or bad.
pub fn placement_case(random: &mut Random) -> Case {
    if random.percent(25) {
        let operations = two_loops(random);
        return copy_case(random, encode_all(&operations));
    }
    let count = random.range(3, 12) as usize;
    let mut operations = vec![IDLE; count];
    for _ in 0..random.pick(&[0, 1, 1, 1, 2, 2, 3]) {
        let place = telling_place(random, &operations);
        let last = match random.below(16) {
            0 => place + random.below(3),
            1 => count,
            _ => (place + 2 + random.below(5)).min(count - 1),
        } as u16;
        operations[place] = if random.percent(50) {
            Operation::DoLiteral { count: 1, last }
        } else {
            Operation::DoRegister { register: 1, last }
        };
    }
    for _ in 0..random.pick(&[0, 1, 1, 2]) {
        let place = telling_place(random, &operations);
        operations[place] = if random.percent(50) {
            Operation::RepeatLiteral(1)
        } else {
            Operation::RepeatRegister(1)
        };
    }
    copy_case(random, encode_all(&operations))
}

/// A load or run of a few blocks: two of them bad in different ways, or a wrong
/// length. The run has no memory, so that refusal 6 would follow.
pub fn blocks_case(random: &mut Random) -> Case {
    let mut case = copy_case(random, Vec::new());
    case.what = random.pick(&[What::Load, What::Run]);
    if random.percent(50) {
        case.file = file_of(&vec![IDLE; random.range(64, 189) as usize]);
        two_blocks(random, &mut case.file);
    } else {
        case.file = file_of(&vec![IDLE; random.range(1, 70) as usize]);
        damage_length(random, &mut case.file);
    }
    case.budget = 1_600;
    case
}
