//! Operations as bytes straight from the paper, and a bench to run them on.
#![allow(dead_code)]

use simulator::cases::{Case, What};
use simulator::generate::random::Random;
use simulator::integer::Integer;
use simulator::ledger::{LedgerEnding, LedgerOutcome, LedgerState, ListedStore};
use simulator::whole::Whole;
use simulator::{ledger, Outcome, Settings, State};

pub type Op = [u8; 8];

fn with_word(mut op: Op, at: usize, word: u16) -> Op {
    op[at..at + 2].copy_from_slice(&word.to_le_bytes());
    op
}

pub fn clr(t: u8, b3: u8, b4: u8, b5: u8, b6: u8) -> Op {
    [1, t, 0, b3, b4, b5, b6, 0]
}
pub fn mpy(t: u8, b2: u8, b3: u8, b4: u8, b5: u8) -> Op {
    [2, t, b2, b3, b4, b5, 0, 0]
}
pub fn mac(t: u8, b2: u8, b3: u8, b4: u8, b5: u8, b6: u8) -> Op {
    [3, t, b2, b3, b4, b5, b6, 0]
}
pub fn msc(t: u8, b2: u8, b3: u8, b4: u8, b5: u8, b6: u8) -> Op {
    [4, t, b2, b3, b4, b5, b6, 0]
}
pub fn ed(t: u8, b2: u8, b3: u8, b4: u8, b5: u8) -> Op {
    [5, t, b2, b3, b4, b5, 0, 0]
}
pub fn edac(t: u8, b2: u8, b3: u8, b4: u8, b5: u8) -> Op {
    [6, t, b2, b3, b4, b5, 0, 0]
}
pub fn movsac(t: u8, b3: u8, b4: u8, b5: u8, b6: u8) -> Op {
    [7, t, 0, b3, b4, b5, b6, 0]
}
pub fn add_both(t: u8) -> Op {
    [8, t, 0, 0, 0, 0, 0, 0]
}
pub fn subtract(t: u8) -> Op {
    [9, t, 0, 0, 0, 0, 0, 0]
}
pub fn negate(t: u8) -> Op {
    [10, t, 0, 0, 0, 0, 0, 0]
}
pub fn shift_by(t: u8, r: u8) -> Op {
    [11, t, 0, r, 0, 0, 0, 0]
}
fn scaled(kind: u8, t: u8, shift: i8, r: u8, form: u8) -> Op {
    [kind, t, (shift + 8) as u8, r, form, 0, 0, 0]
}
pub fn lac(t: u8, shift: i8, r: u8, form: u8) -> Op {
    scaled(12, t, shift, r, form)
}
pub fn add(t: u8, shift: i8, r: u8, form: u8) -> Op {
    scaled(13, t, shift, r, form)
}
pub fn sac(t: u8, shift: i8, r: u8, form: u8) -> Op {
    scaled(14, t, shift, r, form)
}
pub fn sac_r(t: u8, shift: i8, r: u8, form: u8) -> Op {
    scaled(15, t, shift, r, form)
}
pub fn lit(r: u8, value: u16) -> Op {
    with_word([16, r, 0, 0, 0, 0, 0, 0], 2, value)
}
pub fn load(r: u8, pointer: u8, form: u8) -> Op {
    [17, r, 0, pointer, form, 0, 0, 0]
}
pub fn store(r: u8, pointer: u8, form: u8) -> Op {
    [18, r, 0, pointer, form, 0, 0, 0]
}
pub fn repeat(count: u16) -> Op {
    with_word([19, 0, 0, 0, 0, 0, 0, 0], 2, count)
}
pub fn repeat_w(r: u8) -> Op {
    [20, r, 0, 0, 0, 0, 0, 0]
}
pub fn do_lit(count: u16, last: u16) -> Op {
    with_word(with_word([21, 0, 0, 0, 0, 0, 0, 0], 2, count), 4, last)
}
pub fn do_w(r: u8, last: u16) -> Op {
    with_word([22, r, 0, 0, 0, 0, 0, 0], 4, last)
}
pub const END_EARLY: Op = [23, 0, 0, 0, 0, 0, 0, 0];
pub fn mode(word: u16) -> Op {
    with_word([24, 0, 0, 0, 0, 0, 0, 0], 2, word)
}
pub const CLEAR_S: Op = [25, 0, 0, 0, 0, 0, 0, 0];
/// An operation without any effect but its step: literal 0 to W0.
pub const IDLE: Op = [16, 0, 0, 0, 0, 0, 0, 0];

/// The file of operations, whatever they are, built by hand.
pub fn file_of(ops: &[Op]) -> Vec<u8> {
    let mut file = Vec::new();
    for (number, part) in ops.chunks(63).enumerate() {
        let mut block = vec![number as u8, 0, part.len() as u8, 0, 0, 0, 0, 0];
        block.extend(part.iter().flatten());
        block.resize(512, 0);
        let sum: u32 = block.iter().map(|&b| u32::from(b)).sum();
        block[4] = (sum % 256) as u8;
        block[5] = (sum / 256 % 256) as u8;
        file.extend(block);
    }
    file
}

/// Make every block's sum right again, by hand.
pub fn set_sum(file: &mut [u8]) {
    for block in file.chunks_exact_mut(512) {
        (block[4], block[5]) = (0, 0);
        let sum: u32 = block.iter().map(|&b| u32::from(b)).sum();
        (block[4], block[5]) = ((sum % 256) as u8, (sum / 256 % 256) as u8);
    }
}

/// The folder that holds crates, docs and samples.
const ROOT: &str = concat!(env!("CARGO_MANIFEST_DIR"), "/../../../");

/// A file stored there that this workspace answers for too.
fn stored(name: &str) -> Vec<u8> {
    let path = format!("{ROOT}{name}");
    std::fs::read(&path).unwrap_or_else(|error| panic!("{path}: {error}"))
}

/// The stored case to time, `repeat`, `loop`, `reversed` or one of them with `-decoded`.
pub fn stored_speed(name: &str) -> Vec<u8> {
    stored(&format!("docs/speed/{name}.case"))
}

/// A stream with a few of its bytes changed.
pub fn altered(stream: &[u8], random: &mut Random) -> Vec<u8> {
    let mut altered = stream.to_vec();
    for _ in 0..random.range(1, 6) {
        let at = random.below(altered.len());
        altered[at] = random.word() as u8;
    }
    altered
}

/// The number of cases in each part of a stream.
pub fn lengths<T>(parts: Vec<(&'static str, Vec<T>)>) -> Vec<(&'static str, usize)> {
    let length = |(name, cases): (&'static str, Vec<T>)| (name, cases.len());
    parts.into_iter().map(length).collect()
}

/// The stored request stream or its answers.
pub fn stored_requests(name: &str) -> Vec<u8> {
    stored(&format!("crates/files/{name}"))
}

/// The stored stream of single steps or its lines.
pub fn stored_step_files(name: &str) -> Vec<u8> {
    stored(&format!("crates/steps/{name}"))
}

/// A file of a sample: its text, program file, case or line.
pub fn stored_sample(name: &str) -> Vec<u8> {
    stored(&format!("samples/{name}"))
}

/// The stored input or output of the proved assembler.
pub fn stored_assembly(name: &str) -> Vec<u8> {
    stored(&format!("crates/assemble/{name}"))
}

/// The stored stream of runs or its lines.
pub fn stored_case_files(name: &str) -> Vec<u8> {
    stored(&format!("crates/cases/{name}"))
}

/// The stored stream of services or its lines.
pub fn stored_bags(name: &str) -> Vec<u8> {
    stored(&format!("crates/bags/{name}"))
}

/// The stored input or output of tally.
pub fn stored_tally(name: &str) -> Vec<u8> {
    stored(&format!("crates/tally/{name}"))
}

/// Four words of memory, the first two X's; all else as after reset.
pub fn memory(words: [u16; 4]) -> Bench {
    parted(words, 2)
}

pub fn parted(words: [u16; 4], x_words: u16) -> Bench {
    holding(&words, x_words)
}

pub fn holding(words: &[u16], x_words: u16) -> Bench {
    let mut bench = Bench::sized(words.len(), x_words);
    bench.memory = words.to_vec();
    bench
}

pub const NO_LOOPS: &str = "0 0:0 0:0 0:0 0:0";

/// A line's fields: up to the mode word, the loops, the registers that are not
/// zero, the memory's check.
pub fn whole_line(start: &str, loops: &str, w: &[(usize, u16)], check: u32) -> String {
    let mut registers = [0; 14];
    for &(register, word) in w {
        registers[register] = word;
    }
    let words: Vec<String> = registers.iter().map(|w| format!("{w:04X}")).collect();
    format!("{start} {loops} {} {check}", words.join(" "))
}

/// 64 words of memory, X 1000..103F, Y 1040..107F hex.
pub struct Bench {
    pub settings: Settings,
    pub state: State,
    pub memory: Vec<u16>,
    pub budget: u32,
}

impl Bench {
    pub fn new() -> Bench {
        Bench::sized(64, 32)
    }

    pub fn sized(words: usize, x_words: u16) -> Bench {
        Bench {
            settings: Settings::plain(x_words),
            state: State::reset(),
            memory: vec![0; words],
            budget: 1_000_000,
        }
    }

    pub fn mode(mut self, word: u16) -> Bench {
        self.state.mode.0 = word;
        self
    }

    pub fn a(mut self, value: i64) -> Bench {
        self.state.accumulators[0] = value;
        self
    }

    pub fn b(mut self, value: i64) -> Bench {
        self.state.accumulators[1] = value;
        self
    }

    pub fn w(mut self, register: usize, value: u16) -> Bench {
        self.state.w[register] = value;
        self
    }

    /// A word of memory by its byte address.
    pub fn word(mut self, address: u16, value: u16) -> Bench {
        self.memory[(usize::from(address) - 0x1000) / 2] = value;
        self
    }

    pub fn at(&self, address: u16) -> u16 {
        self.memory[(usize::from(address) - 0x1000) / 2]
    }

    pub fn budget(mut self, budget: u32) -> Bench {
        self.budget = budget;
        self
    }

    pub fn traps(mut self, trap_word: u16) -> Bench {
        self.settings.trap_word = trap_word;
        self
    }

    pub fn pc(mut self, pc: u16) -> Bench {
        self.state.flow.pc = pc;
        self
    }

    /// A further active loop.
    pub fn within(mut self, do_number: u16, passes: u32) -> Bench {
        let slot = usize::from(self.state.flow.active);
        self.state.flow.loops[slot].do_number = do_number;
        self.state.flow.loops[slot].passes = passes;
        self.state.flow.active += 1;
        self
    }

    pub fn repeating(mut self, left: u32) -> Bench {
        self.state.flow.repeat = left;
        self
    }

    pub fn run(&mut self, ops: &[Op]) -> Outcome {
        simulator::run(
            &file_of(ops),
            &self.settings,
            &self.state,
            &mut self.memory,
            self.budget,
        )
    }

    pub fn ledger(&self, ops: &[Op]) -> ledger::LedgerOutcome {
        simulator::ledger_run(
            &file_of(ops),
            &self.settings,
            &self.state,
            &self.memory,
            self.budget,
        )
    }

    /// The case of a run from this bench.
    pub fn case(&self, ops: &[Op]) -> Case {
        Case {
            what: What::Run,
            file: file_of(ops),
            memory: self.memory.clone(),
            budget: self.budget,
            settings: self.settings,
            state: self.state,
        }
    }

    /// The line of a single step.
    pub fn step_line(&self, ops: &[Op]) -> String {
        simulator::steps::line(&self.case(ops))
    }

    /// Run, and ask that it was refused with this number and changed nothing.
    pub fn refused(&mut self, ops: &[Op], number: u8) {
        let before = self.memory.clone();
        let outcome = self.run(ops);
        assert_eq!(outcome.ending, simulator::Ending::Refused(number));
        assert_eq!(outcome.state, self.state);
        assert_eq!(outcome.steps, 0);
        assert_eq!(self.memory, before);
    }

    /// Run with budget 0, and ask that it was accepted.
    pub fn accepted(&mut self, ops: &[Op]) {
        let budget = self.budget;
        self.budget = 0;
        let outcome = self.run(ops);
        self.budget = budget;
        assert!(
            !matches!(outcome.ending, simulator::Ending::Refused(_)),
            "{:?}",
            outcome.ending
        );
    }
}

/// A whole number by its decimal digits, without sign.
pub fn decimal(digits: &str) -> Integer {
    let digits = digits
        .bytes()
        .map(|byte| Integer::from(i128::from(byte - b'0')));
    digits.fold(Integer::from(0), |number, digit| {
        number.times_power(3) + number.times_power(1) + digit
    })
}

/// 2^n.
pub fn power(n: u32) -> Integer {
    Integer::from(1).times_power(n)
}

/// The ending of a trap by its number.
pub fn trap(number: u8) -> simulator::Ending {
    use simulator::Trap::*;
    simulator::Ending::Trap(
        [
            OddAddress,
            OutsideRegion,
            ShiftTooFar,
            FourLoopsActive,
            LimitsLeft,
            OverflowA,
            OverflowB,
        ][usize::from(number) - 1],
    )
}

/// Everything the ledger has is as the engine's.
pub fn end_alike(outcome: &Outcome, memory: &[u16], ledger: &LedgerOutcome) {
    assert_eq!(LedgerState::of(&outcome.state), ledger.state);
    assert_eq!(memory, ledger.memory);
    assert_eq!(outcome.steps, ledger.steps);
    assert_eq!(LedgerEnding::AsRun(outcome.ending), ledger.ending);
}

/// The engine's stored word at a store's step, by a run of its own.
pub fn engine_word(case: &Case, store: &ListedStore) -> i128 {
    let (outcome, memory) = case.run(store.step);
    assert_eq!(outcome.steps, store.step);
    store.standing(&outcome.state.w, &memory)
}
