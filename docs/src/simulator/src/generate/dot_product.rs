//! Random programs that make the dot product of given pairs, A being written by kind 3
//! alone and once for each pair: literals, REPEAT, loops, reads from X and Y, with other
//! work between that leaves A alone.
//!
//! Registers by use: W0, W1 pointers of loads; W2 shift; W3 count; W4..W7 data; W8..W11
//! prefetch pointers; W12 and W13 spare.

use super::case::file_of;
use super::layout::address_of;
use super::random::Random;
use super::start::accumulator;
use crate::cases::{Case, What};
use crate::mode::Mode;
use crate::operation::*;
use crate::settings::{BitReversed, Circular, Settings};
use crate::state::State;
use crate::stretches::Words;

/// Enough for every stretch.
const BUDGET: u32 = 200_000;
/// The longest chunk that is made of literals.
const MOST_LITERALS: usize = 6;

/// The words of one side: the place of the first and how many words on the next is.
#[derive(Clone, Copy)]
struct Row {
    first: usize,
    stride: i16,
}

impl Row {
    /// A row of so many words within a part of memory, and the part's words.
    fn random(random: &mut Random, count: usize, start: usize) -> (Row, usize) {
        let stride: i16 = match count {
            0..=2_000 => random.pick(&[1, 1, 1, -1, -1, 2, -3]),
            _ => random.pick(&[1, -1]),
        };
        let reach = usize::from(stride.unsigned_abs()) * count.saturating_sub(1);
        let before = random.below(5);
        let lowest = start + before;
        let first = if stride < 0 { lowest + reach } else { lowest };
        let words = before + reach + 1 + random.below(6);
        (Row { first, stride }, words)
    }

    fn place(&self, i: usize) -> usize {
        (self.first as i64 + i64::from(self.stride) * i as i64) as usize
    }

    fn address(&self, i: usize) -> u16 {
        address_of(self.place(i))
    }

    /// What happens to a pointer of kinds 17 and 18, where it is enough.
    fn change(&self) -> Option<Change> {
        match self.stride {
            1 => Some(Change::Up),
            -1 => Some(Change::Down),
            _ => None,
        }
    }
}

struct Maker<'a> {
    random: &'a mut Random,
    mode: Mode,
    pairs: &'a [Words],
    x: Row,
    y: Row,
    factors: Factors,
    /// In a hundred places, so many with other work.
    noise: usize,
    /// Kind 25 may stand between; the sum is then only asked about where SA was clear.
    clears: bool,
    operations: Vec<Operation>,
}

/// A run that multiplies these pairs in their order and is done, but now and then ends
/// before by its budget or a trap.
pub fn dot_product(random: &mut Random, mode: Mode, pairs: &[Words]) -> Case {
    let (x, x_words) = Row::random(random, pairs.len(), 0);
    let (y, y_words) = Row::random(random, pairs.len(), x_words);
    let m = random.range(4, 7) as Register;
    let n = 4 + (m - 4 + random.range(1, 3) as Register) % 4;
    let noise = random.pick(&[0, 20, 50]);
    let clears = random.percent(4);
    let mut maker = Maker {
        random,
        mode,
        pairs,
        x,
        y,
        factors: Factors { m, n },
        noise,
        clears,
        operations: Vec::new(),
    };
    maker.whole();
    let operations = maker.operations;
    let mut memory: Vec<u16> = (0..x_words + y_words).map(|_| random.word()).collect();
    for (i, &(left, right)) in pairs.iter().enumerate() {
        (memory[x.place(i)], memory[y.place(i)]) = (left, right);
    }
    let mut case = Case {
        what: What::Run,
        file: file_of(&operations),
        settings: settings(random, x_words, y_words),
        memory,
        budget: BUDGET,
        state: state(random, mode),
    };
    shorten(random, &mut case);
    case
}

/// A 0 and SA clear; all else is free.
fn state(random: &mut Random, mode: Mode) -> State {
    let mut state = State::reset();
    state.w = std::array::from_fn(|_| random.telling_word());
    state.w[2] = random.range(-16, 16) as u16;
    state.accumulators = [0, accumulator(random)];
    state.overflow = [random.percent(30), random.percent(30)];
    state.saturated = [false, random.percent(40)];
    state.mode = mode;
    state
}

/// Plain, or X's register 8 round all of the X part, Y's register 10 round the Y part, a
/// bit-reversed register that is no pointer, a trap word.
fn settings(random: &mut Random, x_words: usize, y_words: usize) -> Settings {
    let round = |register, first, words: usize| match words {
        0..=2 => Circular::NONE,
        _ => Circular {
            register,
            start: address_of(first),
            end: address_of(first + words - 1) + 1,
        },
    };
    let mut settings = Settings::plain(x_words as u16);
    if random.percent(30) {
        settings.x = round(8, 0, x_words);
    }
    if random.percent(30) {
        settings.y = round(10, x_words, y_words);
    }
    if random.percent(30) {
        settings.reversed = BitReversed {
            register: 12,
            words: 8,
        };
    }
    if random.percent(15) {
        settings.trap_word = 0x0100 * random.below(8) as u16;
    }
    settings
}

/// Now and then a budget that is spent before the end, or is exactly enough.
fn shorten(random: &mut Random, case: &mut Case) {
    if random.percent(88) {
        return;
    }
    let (outcome, _) = case.run(BUDGET);
    let steps = outcome.steps;
    case.budget = match random.below(3) {
        0 => steps,
        1 => steps.saturating_sub(1),
        _ => random.range(0, i64::from(steps)) as u32,
    };
}

impl Maker<'_> {
    fn push(&mut self, operation: Operation) {
        self.operations.push(operation);
    }

    /// The whole list in chunks, each in its own way.
    fn whole(&mut self) {
        self.push(Operation::Literal(12, 0));
        let mut first = 0;
        while first < self.pairs.len() {
            self.other_work();
            let left = self.pairs.len() - first;
            let length = match self.random.below(3) {
                0 => left,
                _ => self.random.range(1, left as i64) as usize,
            };
            first += self.chunk(first, length);
        }
        self.other_work();
    }

    /// Some pairs from here on; how many.
    fn chunk(&mut self, first: usize, length: usize) -> usize {
        let plain = self.x.change().zip(self.y.change());
        match (self.random.below(4), plain) {
            (0, _) => {
                let few = length.min(MOST_LITERALS);
                (first..first + few).for_each(|i| self.literals(i));
                return few;
            }
            (1, Some(changes)) => self.loads(first, length, changes),
            (2, _) => self.reads_in_a_loop(first, length),
            _ => self.repeated(first, length),
        }
        length
    }

    /// kind 3 into A, with what it reads for the next.
    fn mac(&mut self, prefetch: Prefetch) {
        let back = match self.random.percent(20) {
            true => WriteBack::ToW13,
            false => WriteBack::None,
        };
        self.push(Operation::Mac(Target::A, self.factors, prefetch, back));
    }

    const QUIET: Prefetch = Prefetch { x: None, y: None };

    fn literals(&mut self, i: usize) {
        let (left, right) = self.pairs[i];
        self.push(Operation::Literal(self.factors.m, left));
        self.other_work();
        self.push(Operation::Literal(self.factors.n, right));
        self.other_work();
        self.mac(Self::QUIET);
    }

    /// Both reads, pointers going on.
    fn reads(&self, [x, y]: [Register; 2]) -> Prefetch {
        let read = |pointer, row: Row, destination| Read {
            from: ReadAddress::Stepped {
                pointer,
                step: 2 * row.stride,
            },
            destination,
        };
        Prefetch {
            x: Some(read(x, self.x, self.factors.m)),
            y: Some(read(y, self.y, self.factors.n)),
        }
    }

    /// Pointers to the pair with this number.
    fn aim(&mut self, [x, y]: [Register; 2], i: usize) {
        self.push(Operation::Literal(x, self.x.address(i)));
        self.push(Operation::Literal(y, self.y.address(i)));
    }

    fn pointers(&mut self) -> [Register; 2] {
        [self.random.pick(&[8, 9]), self.random.pick(&[10, 11])]
    }

    /// A pair read by an operation that leaves A alone.
    fn read_pair(&mut self, pointers: [Register; 2]) {
        let prefetch = self.reads(pointers);
        let other = Factors { m: 4, n: 7 };
        let operation = match self.random.below(4) {
            0 => Operation::Clr(Target::B, prefetch, WriteBack::None),
            1 => Operation::Mpy(Target::B, other, prefetch),
            2 => Operation::Msc(Target::B, other, prefetch, WriteBack::ToW13),
            _ => Operation::Movsac(Target::A, prefetch, WriteBack::None),
        };
        self.push(operation);
    }

    /// The first pair read, then each multiplied as the next is read.
    fn repeated(&mut self, first: usize, length: usize) {
        let pointers = self.pointers();
        self.aim(pointers, first);
        self.read_pair(pointers);
        if let Some(count) = length.checked_sub(2) {
            self.begin_repeat(count as u16);
            self.mac(self.reads(pointers));
        }
        self.mac(Self::QUIET);
    }

    fn begin_repeat(&mut self, count: u16) {
        if self.random.percent(30) {
            self.push(Operation::Literal(3, count));
            self.push(Operation::RepeatRegister(3));
        } else {
            self.push(Operation::RepeatLiteral(count));
        }
    }

    /// Each pair loaded by kind 17 in a loop, or in two where the number has a divisor.
    fn loads(&mut self, first: usize, length: usize, (x, y): (Change, Change)) {
        self.aim([0, 1], first);
        let outer = match self.random.percent(50) {
            true => (2..6).find(|divisor| length.is_multiple_of(*divisor)),
            false => None,
        };
        self.in_loop(outer.unwrap_or(1), |maker| {
            maker.in_loop(length / outer.unwrap_or(1), |maker| {
                maker.load(maker.factors.m, 0, x);
                maker.other_work_in_loop();
                maker.load(maker.factors.n, 1, y);
                maker.mac(Self::QUIET);
            });
            maker.push(Operation::Literal(12, 1));
        });
    }

    fn load(&mut self, to: Register, pointer: Register, change: Change) {
        self.push(Operation::Load {
            to,
            pointer,
            change,
        });
    }

    /// Each pair read and then multiplied.
    fn reads_in_a_loop(&mut self, first: usize, length: usize) {
        let pointers = self.pointers();
        self.aim(pointers, first);
        self.in_loop(length, |maker| {
            maker.read_pair(pointers);
            maker.other_work_in_loop();
            maker.mac(Self::QUIET);
        });
    }

    /// DO, by a literal or by W3, round two operations or more.
    fn in_loop(&mut self, passes: usize, body: impl FnOnce(&mut Self)) {
        let count = passes as u16 - 1;
        let by_register = self.random.percent(30);
        if by_register {
            self.push(Operation::Literal(3, count));
        }
        let place = self.operations.len();
        self.push(Operation::EndEarly);
        body(self);
        let last = self.operations.len() as u16 - 1;
        self.operations[place] = match by_register {
            true => Operation::DoRegister { register: 3, last },
            false => Operation::DoLiteral { count, last },
        };
    }

    fn other_work(&mut self) {
        while self.random.percent(self.noise) {
            let operation = match self.random.below(12) {
                0 => Operation::EndEarly,
                _ => self.harmless(),
            };
            self.push(operation);
        }
    }

    fn other_work_in_loop(&mut self) {
        while self.random.percent(self.noise) {
            let operation = self.harmless();
            self.push(operation);
        }
    }

    /// One operation that leaves A, the pair and the pointers alone.
    fn harmless(&mut self) -> Operation {
        let data = |random: &mut Random| random.range(4, 7) as Register;
        let factors = Factors {
            m: data(self.random),
            n: data(self.random),
        };
        let target = self.random.pick(&[Target::A, Target::B]);
        let spare = self.random.pick(&[12, 13]);
        let scaled = |target, register, shift| Scaled {
            target,
            shift,
            operand: Operand::Register(register),
        };
        let shift = self.random.range(-8, 7) as i8;
        let word = scaled(Target::B, data(self.random), shift);
        let stored = scaled(target, spare, shift);
        match self.random.below(15) {
            0 => Operation::Mpy(Target::B, factors, Self::QUIET),
            1 => Operation::Mac(Target::B, factors, Self::QUIET, WriteBack::ToW13),
            2 => Operation::Msc(Target::B, factors, Self::QUIET, WriteBack::None),
            3 => Operation::AddBoth(Target::B),
            4 => Operation::Subtract(Target::B),
            5 => Operation::Negate(Target::B),
            6 => Operation::ShiftBy(Target::B, 2),
            7 => Operation::Lac(word),
            8 => Operation::Add(word),
            9 => Operation::Sac(stored),
            10 => Operation::SacR(stored),
            11 => Operation::SetMode(self.mode),
            12 if self.clears => Operation::ClearSaturation,
            13 => Operation::Movsac(target, Self::QUIET, WriteBack::ToW13),
            _ => Operation::Literal(spare, self.random.word()),
        }
    }
}
