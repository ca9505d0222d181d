//! Damage to accepted cases, so that every refusal comes up with its
//! boundaries: some damage is just inside and leaves the case accepted.

use super::random::Random;
use crate::cases::{Case, What};
use crate::file::{block_sum, check_file, BLOCK};
use crate::flow::Loop;
use crate::mode::Mode;
use crate::settings::Circular;

/// Make every block's sum right again.
pub fn repair(file: &mut [u8]) {
    for block in file.chunks_exact_mut(BLOCK) {
        let sum = block_sum(block);
        block[4..6].copy_from_slice(&sum.to_le_bytes());
    }
}

/// Damage a run's file, settings or state, now and then two of them.
pub fn damage_run(random: &mut Random, case: &mut Case) {
    let times = if random.percent(15) { 2 } else { 1 };
    for _ in 0..times {
        match random.below(11) {
            0..=3 => damage_file(random, &mut case.file),
            4..=7 => damage_settings(random, case),
            _ => damage_state(random, case),
        }
    }
}

/// Damage a load's or write's input.
pub fn damage_copy(random: &mut Random, case: &mut Case) {
    match case.what {
        What::Write => damage_operations(random, &mut case.file),
        _ => damage_file(random, &mut case.file),
    }
}

fn damage_file(random: &mut Random, file: &mut Vec<u8>) {
    if file.len() < BLOCK {
        return;
    }
    let block = BLOCK * random.below(file.len() / BLOCK);
    match random.below(15) {
        14 => damage_length(random, file),
        0 => flip(random, file),
        1 => file[block + 4] ^= 1 << random.below(8),
        2 | 3 => damage_header(random, file, block),
        4 => damage_tail(random, file, block),
        5 => damage_length(random, file),
        6 => swap_blocks(random, file),
        7 => {
            flip(random, file);
            repair(file);
        }
        8 => two_blocks(random, file),
        _ => damage_held(random, file),
    }
}

fn flip(random: &mut Random, bytes: &mut [u8]) {
    if !bytes.is_empty() {
        let at = random.below(bytes.len());
        bytes[at] ^= 1 << random.below(8);
    }
}

/// A wrong number, count or zero byte, with the sum right.
fn damage_header(random: &mut Random, file: &mut [u8], block: usize) {
    let count = file[block + 2];
    match random.below(5) {
        0 => file[block] ^= 1 << random.below(7),
        1 => file[block + 1] = random.pick(&[1, 128]),
        2 => {
            file[block + 2] =
                random.pick(&[0, 64, 255, count.wrapping_sub(1), count.wrapping_add(1)])
        }
        3 => file[block + 3] = random.pick(&[1, 255]),
        _ => file[block + 6 + random.below(2)] = random.pick(&[1, 255]),
    }
    repair(file);
}

/// A byte past the operations, just past them and last of all too.
fn damage_tail(random: &mut Random, file: &mut [u8], block: usize) {
    let first = (8 + 8 * usize::from(file[block + 2])).min(BLOCK - 1);
    let any = first + random.below(BLOCK - first);
    let at = random.pick(&[first, BLOCK - 1, any]);
    file[block + at] = file[block + at].wrapping_add(1);
    repair(file);
}

/// Not 1 to 64 whole blocks, or a block of zeros too much.
pub fn damage_length(random: &mut Random, file: &mut Vec<u8>) {
    let length = match random.below(5) {
        0 => 0,
        1 => file.len() - 1,
        2 => file.len() + 1,
        3 => file.len() + BLOCK,
        _ => 65 * BLOCK,
    };
    file.resize(length, 0);
}

fn swap_blocks(random: &mut Random, file: &mut [u8]) {
    let blocks = file.len() / BLOCK;
    let (from, to) = (random.below(blocks), random.below(blocks));
    for at in 0..BLOCK {
        file.swap(BLOCK * from + at, BLOCK * to + at);
    }
}

/// A bad header in one block and a bad sum in another: the first counts.
pub fn two_blocks(random: &mut Random, file: &mut [u8]) {
    let blocks = file.len() / BLOCK;
    let (header, sum) = (random.below(blocks), random.below(blocks));
    damage_header(random, file, BLOCK * header);
    file[BLOCK * sum + 5] ^= 1;
}

/// Damage the operations a file holds and put them back with the sum right.
fn damage_held(random: &mut Random, file: &mut [u8]) {
    let Ok((mut bytes, _)) = check_file(file) else {
        return;
    };
    damage_fields(random, &mut bytes);
    for (block, held) in file.chunks_exact_mut(BLOCK).zip(bytes.chunks(8 * 63)) {
        block[8..8 + held.len()].copy_from_slice(held);
    }
    repair(file);
}

/// A writer's operations: their length, or their fields.
fn damage_operations(random: &mut Random, bytes: &mut Vec<u8>) {
    match random.below(8) {
        0 => bytes.truncate(bytes.len() - 1 - random.below(7)),
        1 => bytes.push(0),
        2 => bytes.clear(),
        3 => {
            let one: [u8; 8] = [16, 0, 0, 0, 0, 0, 0, 0];
            *bytes = one.repeat(4_032 + random.below(2));
        }
        _ => damage_fields(random, bytes),
    }
}

/// One byte of one operation off, or a DO or REPEAT misplaced.
fn damage_fields(random: &mut Random, bytes: &mut [u8]) {
    let count = bytes.len() / 8;
    if count == 0 {
        return;
    }
    if random.percent(45) && misplace(random, bytes) {
        return;
    }
    let at = 8 * random.below(count) + random.below(8);
    bytes[at] = near_miss(random, bytes[at]);
}

/// Another value for a byte, rather one near its own or at the edge of a field:
/// of a register, a nibble, a form.
pub fn near_miss(random: &mut Random, byte: u8) -> u8 {
    let (low, high) = (byte & 15, byte >> 4);
    let low_edge = random.pick(&[0, 3, 4, 5, 6, 7, 8, 9, 10, 11, 12, 13, 14]);
    let high_edge = random.pick(&[0, 3, 4, 5, 6, 7, 8]);
    match random.below(10) {
        0 => byte.wrapping_add(1),
        1 => byte.wrapping_sub(1),
        2 => byte.wrapping_add(0x10),
        3 => byte ^ 1 << random.below(8),
        4 => random.pick(&[1, 2, 3, 4, 13, 14, 14, 15, 16, 26, 128, 255]),
        5 | 6 => high << 4 | low_edge,
        7 | 8 => high_edge << 4 | low,
        _ => high_edge << 4 | low_edge,
    }
}

/// Misplace a DO's last or put a REPEAT where it may not stand.
fn misplace(random: &mut Random, bytes: &mut [u8]) -> bool {
    let count = bytes.len() / 8;
    let loops: Vec<usize> = (0..count)
        .filter(|&n| bytes[8 * n] == 21 || bytes[8 * n] == 22)
        .collect();
    let repeat = [19, 0, 2, 0, 0, 0, 0, 0];
    if loops.is_empty() || random.percent(20) {
        let any = random.below(count);
        let at = random.pick(&[count - 1, any]);
        bytes[8 * at..8 * at + 8].copy_from_slice(&repeat);
        return true;
    }
    let place = random.pick(&loops);
    let field = 8 * place + 4;
    let last = i64::from(bytes[field]) | i64::from(bytes[field + 1]) << 8;
    let outer = random.pick(&loops);
    let outer_last = i64::from(bytes[8 * outer + 4]) | i64::from(bytes[8 * outer + 5]) << 8;
    let new = match random.below(8) {
        0 => place as i64 + 1,
        1 => place as i64 + 2,
        2 => count as i64 - 1,
        3 => count as i64,
        4 => outer_last,
        5 => outer_last + 1,
        6 if (last as usize) < count => {
            let at = 8 * last as usize;
            bytes[at..at + 8].copy_from_slice(&repeat);
            last
        }
        _ => last + random.range(-2, 2),
    };
    bytes[field..field + 2].copy_from_slice(&(new as u16).to_le_bytes());
    true
}

/// One setting just inside or just outside what row 6 allows.
pub fn damage_settings(random: &mut Random, case: &mut Case) {
    let words = case.memory.len();
    let settings = &mut case.settings;
    match random.below(9) {
        0 => {
            let length = random.pick(&[0, 1, 1, 2, 30_721]);
            case.memory.resize(length, 7);
        }
        1 => settings.x_words = random.pick(&[0, words as u16, words as u16 + 1, 0xFFFF]),
        2 => settings.trap_word ^= 1 << random.below(16),
        3 | 4 => damage_buffer(random, &mut settings.x, 0, words),
        5 | 6 => {
            let first = usize::from(settings.x_words);
            damage_buffer(random, &mut settings.y, first, words);
        }
        7 => {
            settings.reversed.register = random.pick(&[0, 1, 5, 12, 13, 14, 15, 16]);
            settings.reversed.words = random.pick(&[0, 1, 1, 2, 3, 1_024, 1_023, 2_048]);
        }
        _ => {
            settings.reversed.register = settings.x.register;
            settings.reversed.words = random.pick(&[0, 8]);
        }
    }
}

/// A buffer just inside or just outside what row 6 allows.
fn damage_buffer(random: &mut Random, buffer: &mut Circular, first: usize, end: usize) {
    if buffer.register == 15 && random.percent(60) {
        buffer.register = random.pick(&[8, 10, 11]);
        buffer.start = (0x1000 + 2 * first) as u16;
        buffer.end = buffer.start.wrapping_add(5);
    }
    let low = (0x1000 + 2 * first) as u16;
    let high = (0x1000 + 2 * end - 1) as u16;
    match random.below(12) {
        0 => buffer.register = random.pick(&[14, 15, 16, 255]),
        1 => buffer.register = random.pick(&[9, 10, 11, 12, 13, 0]),
        2 => buffer.start ^= 1,
        3 => buffer.end ^= 1,
        4 => buffer.end = buffer.start.wrapping_add(random.pick(&[1, 3])),
        5 => buffer.end = buffer.start.wrapping_add(5),
        6 => buffer.start = low,
        7 => buffer.start = low.wrapping_sub(2),
        8 => buffer.end = high,
        9 => buffer.end = high.wrapping_add(2),
        10 => std::mem::swap(&mut buffer.start, &mut buffer.end),
        _ => {
            buffer.register = 15;
            (buffer.start, buffer.end) = random.pick(&[(0, 0), (0, 1), (2, 0), (0x1000, 0x1005)]);
        }
    }
}

/// One part of the state just inside or just outside what row 7 allows.
pub fn damage_state(random: &mut Random, case: &mut Case) {
    let state = &mut case.state;
    if state.flow.repeat > 0 && random.percent(40) {
        state.flow.repeat = random.pick(&[0, 65_537]);
        return;
    }
    match random.below(10) {
        0 | 1 => {
            let value = 1 << 39;
            state.accumulators[random.below(2)] =
                random.pick(&[value, value - 1, -value, -value - 1, i64::MAX, i64::MIN]);
        }
        2 => state.mode = Mode(state.mode.0 ^ 1 << random.below(16)),
        3 => state.mode = Mode(state.mode.0 | random.pick(&[0x2000, 0x3000, 0x1000])),
        4 => damage_pc(random, case),
        5 => {
            let active = state.flow.active;
            state.flow.active =
                random.pick(&[active.wrapping_add(1), active.wrapping_sub(1), 4, 5, 255]);
        }
        6 | 7 => damage_slot(random, case),
        _ => state.flow.repeat = random.pick(&[0, 1, 65_536, 65_537, u32::MAX]),
    }
}

fn damage_pc(random: &mut Random, case: &mut Case) {
    let count = check_file(&case.file).map_or(1, |(_, operations)| operations.len());
    let pc = case.state.flow.pc;
    let any = random.below(count) as u16;
    case.state.flow.pc = random.pick(&[
        count as u16,
        count as u16 + 1,
        u16::MAX,
        pc.wrapping_sub(1),
        pc.wrapping_add(1),
        any,
    ]);
}

/// A slot with another number, with passes far inside or outside; `passes` has 65,537.
fn damage_slot(random: &mut Random, case: &mut Case) {
    let flow = &mut case.state.flow;
    let in_use = usize::from(flow.active).min(4);
    let index = if in_use > 0 && random.percent(70) {
        random.below(in_use)
    } else {
        random.below(4)
    };
    let slot = &mut flow.loops[index];
    match random.below(8) {
        0 => slot.do_number = slot.do_number.wrapping_add(1),
        1 => slot.do_number = slot.do_number.wrapping_sub(1),
        2 => slot.passes = 0,
        3 => slot.passes = 32_768,
        4 => slot.passes = 32_769,
        5 => slot.passes = u32::MAX,
        6 => {
            *slot = Loop {
                do_number: 0,
                passes: 1,
            }
        }
        _ => flow.loops.swap(index, (index + 1) % 4),
    }
}
