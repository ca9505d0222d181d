//! A case in the making: a program, and a start that is accepted until something
//! is changed. Its budget is 1 until another is given.

use crate::cases::{Case, What};
use crate::file::blocks_of;
use crate::flow::Loop;
use crate::generate::forms::Bytes;
use crate::generate::ops::IDLE;
use crate::mode::Mode;
use crate::settings::{BitReversed, Circular, Settings};
use crate::state::State;

/// X 1000..100F hex, Y 1010..101F hex.
const MEMORY: [u16; 16] = [
    0x0123, 0xFEDC, 0x4567, 0x89AB, 0x1357, 0xECA8, 0x2468, 0xDB97, //
    0x0F1E, 0xF0E1, 0x3C2D, 0xC3D2, 0x5A4B, 0xA5B4, 0x6978, 0x9687,
];
const X_WORDS: u16 = 8;

/// W0, W1, W8 to W11 and W13 are addresses, W9 + W12 one in the X part.
const REGISTERS: [u16; 14] = [
    0x1002, 0x1016, 0x0003, 0x0005, 0x1234, 0xFACE, 0x7BC1, 0x8D0F, //
    0x1008, 0x1004, 0x1018, 0x1014, 0x0006, 0x100C,
];

/// Within 32 bits, both far from a whole multiple of 65,536.
const ACCUMULATORS: [i64; 2] = [305_419_896, -1_164_413_356];

#[derive(Clone, Debug)]
pub struct Bench {
    pub case: Case,
}

impl Bench {
    pub fn of(operations: &[Bytes]) -> Bench {
        let mut state = State::reset();
        state.w = REGISTERS;
        state.accumulators = ACCUMULATORS;
        Bench {
            case: Case {
                what: What::Run,
                file: blocks_of(&operations.concat()),
                memory: MEMORY.to_vec(),
                budget: 1,
                settings: Settings::plain(X_WORDS),
                state,
            },
        }
    }

    /// The operation and an idle one after it.
    pub fn one(operation: Bytes) -> Bench {
        Bench::of(&[operation, IDLE])
    }

    pub fn budget(mut self, budget: u32) -> Bench {
        self.case.budget = budget;
        self
    }

    pub fn w(mut self, register: u8, word: u16) -> Bench {
        self.case.state.w[usize::from(register)] = word;
        self
    }

    /// A and B.
    pub fn both(mut self, a: i64, b: i64) -> Bench {
        self.case.state.accumulators = [a, b];
        self
    }

    /// The target's accumulator and the other one.
    pub fn target(self, target: u8, own: i64, other: i64) -> Bench {
        match target {
            0 => self.both(own, other),
            _ => self.both(other, own),
        }
    }

    pub fn mode(mut self, word: u16) -> Bench {
        self.case.state.mode = Mode(word);
        self
    }

    /// Bit 0 OA, 1 OB, 2 SA, 3 SB.
    pub fn flags(mut self, bits: u8) -> Bench {
        let flag = |number: u8| (bits >> number) & 1 == 1;
        self.case.state.overflow = [flag(0), flag(1)];
        self.case.state.saturated = [flag(2), flag(3)];
        self
    }

    pub fn traps(mut self, word: u16) -> Bench {
        self.case.settings.trap_word = word;
        self
    }

    pub fn at(mut self, pc: u16) -> Bench {
        self.case.state.flow.pc = pc;
        self
    }

    /// A further active loop.
    pub fn within(mut self, do_number: u16, passes: u32) -> Bench {
        let flow = &mut self.case.state.flow;
        flow.loops[usize::from(flow.active)] = Loop { do_number, passes };
        flow.active += 1;
        self
    }

    /// Another word in a slot, in use or not.
    pub fn slot(mut self, slot: usize, do_number: u16, passes: u32) -> Bench {
        self.case.state.flow.loops[slot] = Loop { do_number, passes };
        self
    }

    /// The number of active loops, whatever the slots hold.
    pub fn active(mut self, count: u8) -> Bench {
        self.case.state.flow.active = count;
        self
    }

    pub fn repeating(mut self, left: u32) -> Bench {
        self.case.state.flow.repeat = left;
        self
    }

    pub fn x(mut self, register: u8, start: u16, end: u16) -> Bench {
        self.case.settings.x = Circular {
            register,
            start,
            end,
        };
        self
    }

    pub fn y(mut self, register: u8, start: u16, end: u16) -> Bench {
        self.case.settings.y = Circular {
            register,
            start,
            end,
        };
        self
    }

    pub fn reversed(mut self, register: u8, words: u16) -> Bench {
        self.case.settings.reversed = BitReversed { register, words };
        self
    }

    /// Another size of memory: the same words over and over.
    pub fn memory(self, words: usize, x_words: u16) -> Bench {
        let memory = MEMORY.into_iter().cycle().take(words);
        self.words(memory.collect(), x_words)
    }

    /// These words of memory, the first of them X's.
    pub fn words(mut self, words: Vec<u16>, x_words: u16) -> Bench {
        self.case.memory = words;
        self.case.settings.x_words = x_words;
        self
    }

    pub fn operations(self, operations: &[Bytes]) -> Bench {
        self.file(blocks_of(&operations.concat()))
    }

    pub fn file(mut self, file: Vec<u8>) -> Bench {
        self.case.file = file;
        self
    }
}
