//! A program in the making, so that loops find their last operation.

use crate::generate::bench::Bench;
use crate::generate::forms::Bytes;
use crate::generate::ops::*;
use crate::generate::random::Random;

#[derive(Clone, Debug, Default)]
pub struct Program {
    pub operations: Vec<Bytes>,
}

impl Program {
    pub fn new() -> Program {
        Program::default()
    }

    pub fn op(mut self, operation: Bytes) -> Program {
        self.operations.push(operation);
        self
    }

    pub fn ops(mut self, operations: &[Bytes]) -> Program {
        self.operations.extend(operations);
        self
    }

    /// REPEAT with its literal, and the operation.
    pub fn repeated(self, count: u16, operation: Bytes) -> Program {
        self.op(repeat(count)).op(operation)
    }

    /// DO with its literal, and the body.
    pub fn looped(self, count: u16, body: impl FnOnce(Program) -> Program) -> Program {
        self.around(|last| do_to(count, last), body)
    }

    /// DO with its register, and the body.
    pub fn looped_by(self, register: u8, body: impl FnOnce(Program) -> Program) -> Program {
        self.around(|last| do_by(register, last), body)
    }

    fn around(
        self,
        begin: impl Fn(u16) -> Bytes,
        body: impl FnOnce(Program) -> Program,
    ) -> Program {
        let place = self.operations.len();
        let mut program = body(self.op(begin(0)));
        let last = program.operations.len() - 1;
        program.operations[place] = begin(last as u16);
        program
    }

    /// The program on a bench, with a budget of 10,000.
    pub fn bench(self) -> Bench {
        Bench::of(&self.operations).budget(10_000)
    }
}

/// So many words from `low` to `high`, the same for the same seed.
pub fn words(seed: u64, count: usize, low: i64, high: i64) -> Vec<u16> {
    let mut random = Random::new(seed);
    (0..count).map(|_| random.range(low, high) as u16).collect()
}

/// The steps of a case with its own budget.
pub fn steps_of(bench: &Bench) -> u32 {
    bench.case.run(bench.case.budget).0.steps
}

/// ADD of a register to A or B: an operation whose every run shows.
pub fn add(target: u8, register: u8) -> Bytes {
    scaled(13, target, 0, register, 0)
}
