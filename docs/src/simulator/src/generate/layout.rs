//! Random accepted settings and memory, and pointers that fit them.

use super::random::Random;
use crate::address::BASE;
use crate::settings::{BitReversed, Circular, Settings};

/// Memory's size and the settings over it.
#[derive(Clone, Copy, Debug)]
pub struct Layout {
    pub words: usize,
    pub settings: Settings,
}

/// The byte address of word i, for i within memory.
pub fn address_of(index: usize) -> u16 {
    (usize::from(BASE) + 2 * index) as u16
}

impl Layout {
    pub fn random(random: &mut Random) -> Layout {
        let words = match random.below(40) {
            0 => 30_720,
            1 => 2,
            2 => random.range(2, 20) as usize,
            3 => random.range(500, 3_000) as usize,
            _ => random.range(40, 300) as usize,
        };
        let x_words = match random.below(12) {
            0 => 1,
            1 => words - 1,
            _ => random.range(1, words as i64 - 1) as usize / 2 + words / 4,
        };
        let x_words = x_words.clamp(1, words - 1);
        let mut settings = Settings::plain(x_words as u16);
        if random.percent(33) {
            settings.trap_word = 0x0100 * random.below(8) as u16;
        }
        if random.percent(50) {
            settings.x = x_buffer(random, x_words, words);
        }
        if random.percent(50) {
            let register = random.pick(&[10, 11]);
            settings.y = buffer(random, register, x_words, words);
        }
        let reversed = reversed(random);
        if random.percent(50) && reversed.register != settings.x.register {
            settings.reversed = reversed;
        }
        Layout { words, settings }
    }

    fn x_words(&self) -> usize {
        usize::from(self.settings.x_words)
    }

    /// A good address for a use of the register as it is usual here: 8 and 9
    /// read X, 10 and 11 read Y, others anywhere.
    pub fn pointer(&self, random: &mut Random, register: u8) -> u16 {
        let (first, end) = match register {
            8 | 9 => (0, self.x_words()),
            10 | 11 => (self.x_words(), self.words),
            _ => (0, self.words),
        };
        let buffer = match register {
            10 | 11 if self.settings.y.register == register => self.settings.y,
            _ if self.settings.x.register == register => self.settings.x,
            _ => Circular::NONE,
        };
        if buffer.register != 15 && random.percent(90) {
            let (low, high) = (i64::from(buffer.start / 2), i64::from(buffer.end / 2));
            return (2 * random.range(low, high)) as u16;
        }
        // Rather in the middle, so that steps either way stay inside.
        let middle = (random.below(end - first) + random.below(end - first)) / 2;
        address_of(first + middle)
    }

    /// Memory words: wild, small, or in between, so that some runs leave the
    /// limits and some do not.
    pub fn memory(&self, random: &mut Random) -> Vec<u16> {
        styled_words(random, self.words)
    }
}

/// So many words of one style.
pub fn styled_words(random: &mut Random, count: usize) -> Vec<u16> {
    let style = random.below(4);
    let word = |random: &mut Random| match style {
        0 => random.word(),
        1 => random.range(-200, 200) as u16,
        2 => random.telling_word(),
        _ => random.range(-5_000, 5_000) as u16,
    };
    (0..count).map(|_| word(random)).collect()
}

/// X's buffer: in the X part for X's own pointers, in the Y part for Y's (whose
/// reads it must leave alone), else anywhere.
fn x_buffer(random: &mut Random, x_words: usize, words: usize) -> Circular {
    let any = random.below(14) as u8;
    let register = random.pick(&[8, 8, 8, 9, 9, 9, 13, 13, 0, 1, 10, 11, any]);
    let (first, end) = match register {
        8 | 9 => (0, x_words),
        10 | 11 => (x_words, words),
        _ => (0, words),
    };
    buffer(random, register, first, end)
}

fn reversed(random: &mut Random) -> BitReversed {
    let any = random.below(14) as u8;
    BitReversed {
        register: random.pick(&[0, 1, 0, 1, 13, 10, any]),
        words: 2 << random.pick(&[0, 1, 2, 2, 3, 3, 4, 5, 9]),
    }
}

/// A buffer within words `first` up to `end`, if there is room for 3 words.
fn buffer(random: &mut Random, register: u8, first: usize, end: usize) -> Circular {
    if end - first < 3 {
        return Circular::NONE;
    }
    let longest = (end - first).min(if random.percent(30) { 3 } else { 24 });
    let length = random.range(3, longest as i64) as usize;
    let offset = match random.below(4) {
        0 => 0,
        1 => end - first - length,
        _ => random.below(end - first - length + 1),
    };
    let start = first + offset;
    Circular {
        register,
        start: address_of(start),
        end: address_of(start + length - 1) + 1,
    }
}
