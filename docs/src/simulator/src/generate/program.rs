//! Random accepted programs, steered so that most accesses are good.
//!
//! Registers by use: W0, W1 plain pointers; W2 shift; W3 count; W4..W7 data;
//! W8..W11 prefetch pointers; W12 offset; W13 write-back pointer.

use super::layout::Layout;
use super::random::Random;
use super::simple;
use crate::operation::Operation;

/// What a program may hold.
#[derive(Clone, Copy, Debug, PartialEq, Eq)]
pub struct Style {
    /// Kind 25 may stand in it.
    pub clears: bool,
    /// Kind 24 may stand in it.
    pub mode_changes: bool,
    /// Kinds 11, 14, 15 and write-back, which look at more than the low bits of an
    /// accumulator, may stand in it.
    pub upper_bits: bool,
    /// In a hundred operations, so many with any register at all.
    pub wildness: usize,
    /// W11 + W13 is a Y address, so W13 is no pointer.
    pub indexed_y: bool,
    /// Deepest nest of loops.
    pub depth: usize,
    /// Loop counts are small.
    pub short_loops: bool,
}

impl Style {
    pub fn random(random: &mut Random, clears: bool) -> Style {
        Style {
            clears,
            mode_changes: random.percent(40),
            upper_bits: true,
            wildness: random.pick(&[0, 0, 0, 1, 3]),
            indexed_y: random.percent(20),
            depth: random.pick(&[0, 1, 1, 2, 2, 3, 4, 4, 6]),
            short_loops: random.percent(60),
        }
    }

    /// Without anything that wish 12 bars.
    pub fn onward(random: &mut Random) -> Style {
        Style {
            mode_changes: false,
            upper_bits: false,
            ..Style::random(random, false)
        }
    }
}

/// A program in the making.
pub struct Maker<'a> {
    pub random: &'a mut Random,
    pub layout: &'a Layout,
    pub style: Style,
    pub operations: Vec<Operation>,
}

/// A program of exactly `count` operations, placed well.
pub fn program(random: &mut Random, layout: &Layout, style: Style, count: usize) -> Vec<Operation> {
    let mut maker = Maker {
        random,
        layout,
        style,
        operations: Vec::with_capacity(count),
    };
    maker.prologue(count);
    let left = count - maker.operations.len();
    maker.items(left, 0);
    maker.operations
}

impl Maker<'_> {
    pub fn push(&mut self, operation: Operation) {
        self.operations.push(operation);
    }

    /// Aim some registers by literals.
    fn prologue(&mut self, count: usize) {
        for register in 0..14 {
            if self.operations.len() + 1 < count && self.random.percent(30) {
                let value = self.good_value(register);
                self.push(Operation::Literal(register, value));
            }
        }
    }

    /// A value that fits the register's usual work.
    pub fn good_value(&mut self, register: u8) -> u16 {
        good_value(self.random, self.layout, self.style.indexed_y, register)
    }

    /// Exactly `left` operations, loops of them no deeper than the style's.
    fn items(&mut self, left: usize, depth: usize) {
        let end = self.operations.len() + left;
        while self.operations.len() < end {
            let left = end - self.operations.len();
            let choice = self.random.below(100);
            let loops = if self.style.depth >= 3 { 24 } else { 14 };
            if choice < loops && left >= 4 && depth < self.style.depth {
                let size = 3 + self.random.below((left - 2).min(14 << depth.min(1)));
                self.do_loop(size.min(left), depth);
            } else if (24..36).contains(&choice) && left >= 2 {
                self.repeated(left);
            } else {
                self.aimed(left, depth);
            }
        }
    }

    /// One operation, its pointers or shift set by literals before it where
    /// there is room; in a loop, what was not set rather stands still.
    fn aimed(&mut self, left: usize, depth: usize) {
        let operation = simple::random(self);
        let (mut room, mut drifts) = (left - 1, false);
        for register in simple::used_registers(&operation) {
            if room > 0 && self.random.percent(50) {
                let value = self.good_value(register);
                self.push(Operation::Literal(register, value));
                room -= 1;
            } else {
                drifts = true;
            }
        }
        let still = depth > 0 && drifts && self.random.percent(75);
        self.push_stilled(operation, still);
    }

    fn push_stilled(&mut self, operation: Operation, still: bool) {
        self.push(if still {
            simple::stand_still(operation, &self.layout.settings)
        } else {
            operation
        });
    }

    fn loop_count(&mut self) -> u16 {
        let large = !self.style.short_loops;
        match self.random.below(20) {
            0 => 0,
            1 if large => 32_767,
            2..=5 if large => self.random.range(10, 2_000) as u16,
            _ => self.random.range(0, 6) as u16,
        }
    }

    /// A loop of exactly `size` operations, DO included: 3 or more. Of a register's count
    /// bits 14 and 15 are drawn apart: so many passes are rather ended by the budget.
    fn do_loop(&mut self, size: usize, depth: usize) {
        let mut size = size;
        let count = self.loop_count();
        let by_register = self.random.percent(35);
        if by_register && size >= 4 {
            let high = self.random.pick(&[0, 0, 0x4000, 0x8000, 0xC000]);
            self.push(Operation::Literal(3, (count & 0x3FFF) | high));
            size -= 1;
        }
        let last = (self.operations.len() + size - 1) as u16;
        self.push(if by_register {
            Operation::DoRegister { register: 3, last }
        } else {
            Operation::DoLiteral { count, last }
        });
        let body = size - 1;
        if body >= 2 && self.random.percent(20) {
            self.items(body - 2, depth + 1);
            self.repeat_literal();
        } else {
            self.items(body - 1, depth + 1);
            self.ending_operation();
        }
        self.end_early_near(last);
    }

    /// The last operation of a loop: any simple one, now and then kind 23.
    fn ending_operation(&mut self) {
        let operation = if self.random.percent(12) {
            Operation::EndEarly
        } else {
            simple::random(self)
        };
        self.push(operation);
    }

    /// Put kind 23 in the last-but-one place now and then.
    fn end_early_near(&mut self, last: u16) {
        let place = usize::from(last) - 1;
        let stands = self.operations[place];
        if !stands.is_repeat_or_do() && self.random.percent(8) {
            self.operations[place] = Operation::EndEarly;
        }
    }

    fn repeat_count(&mut self) -> u16 {
        match self.random.below(24) {
            0 => 0,
            1 if !self.style.short_loops => 32_767,
            2..=4 if !self.style.short_loops => self.random.range(20, 1_000) as u16,
            _ => self.random.range(0, 9) as u16,
        }
    }

    /// REPEAT by a literal and the operation it repeats.
    fn repeat_literal(&mut self) {
        let count = self.repeat_count();
        self.push(Operation::RepeatLiteral(count));
        self.calm(count);
    }

    /// REPEAT and the operation it repeats, 2 or 3 operations.
    fn repeated(&mut self, left: usize) {
        if left >= 3 && self.random.percent(40) {
            let count = match self.random.below(20) {
                0 => 65_535,
                1 => 32_768,
                _ => self.repeat_count(),
            };
            self.push(Operation::Literal(3, count));
            self.push(Operation::RepeatRegister(3));
            self.calm(count);
        } else {
            self.repeat_literal();
        }
    }

    /// An operation to be repeated, its pointers rather standing still.
    fn calm(&mut self, count: u16) {
        let operation = simple::random(self);
        let share = if count > 12 { 92 } else { 45 };
        let still = self.random.percent(share);
        self.push_stilled(operation, still);
    }
}

/// A value that fits a register's usual work.
pub fn good_value(random: &mut Random, layout: &Layout, indexed_y: bool, register: u8) -> u16 {
    match register {
        2 => match random.below(12) {
            0 => random.pick(&[17, -17, 16, -16]) as u16,
            _ => random.range(-16, 16) as u16,
        },
        3 => random.below(12) as u16,
        4..=7 => random.telling_word(),
        12 => (2 * random.range(-3, 3)) as u16,
        13 if indexed_y => (2 * random.range(-3, 3)) as u16,
        _ => layout.pointer(random, register),
    }
}
