//! What a stream covers: endings, answers, kinds executed, kinds of start.

use std::collections::BTreeMap;

use crate::address::{circular_step, plain_step};
use crate::cases::{Case, What};
use crate::ending::Ending;
use crate::form::{forms_of, line, Form};
use crate::long::Call;
use crate::operation::{Change, Operand, Operation, ReadAddress, Register};
use crate::settings::Settings;
use crate::state::State;
use crate::walk::walk;

#[derive(Clone, Debug, Default)]
pub struct Coverage {
    pub cases: usize,
    /// Runs by their ending, other calls by their answer: `run done`, `run trap3`,
    /// `load refused2`, `write written`, `long done`, `join refused9`,
    /// `combine combined`, `decoded refused8`, `call unknown`.
    pub endings: BTreeMap<String, usize>,
    /// Executions of each kind, traps without effect not counted.
    pub kinds: [u64; 26],
    pub mid_loop_starts: usize,
    pub mid_repeat_starts: usize,
    pub most_steps: u64,
    pub steps: u64,
    /// Runs of a hundred steps and more.
    pub long_runs: usize,
    /// Steps in which X's or Y's pointer was corrected.
    pub corrections: [u64; 2],
    /// Bit-reversed steps.
    pub reversed_steps: u64,
    /// Reads at W9 + W12 or W11 + W13.
    pub indexed_reads: [u64; 2],
    /// Steps with so many active loops.
    pub depths: [u64; 5],
}

/// The coverage of a whole stream.
pub fn coverage(stream: &[u8]) -> Coverage {
    let mut coverage = Coverage::default();
    for form in forms_of(stream) {
        coverage.add(&form);
    }
    coverage
}

impl Coverage {
    fn add(&mut self, form: &Form) {
        self.cases += 1;
        let call = call_of(form);
        let answer = match form {
            Form::Short(case) if case.what == What::Run => self.add_run(case).to_string(),
            Form::Long(long) if long.call == Call::Run => self.add_run(&long.start).to_string(),
            Form::Long(long) if long.call == Call::Decoded => self.add_decoded(&long.start, form),
            _ => first_field(form),
        };
        *self.endings.entry(format!("{call} {answer}")).or_default() += 1;
    }

    /// Count a decoded run as the run it is, but for one whose slice is too short.
    fn add_decoded(&mut self, case: &Case, form: &Form) -> String {
        let answer = first_field(form);
        if answer != "refused8" {
            self.add_run(case);
        }
        answer
    }

    /// Count a run's start, and its kinds by stepping through it.
    fn add_run(&mut self, case: &Case) -> Ending {
        let flow = &case.state.flow;
        let outcome = walk(case, |operation, before, _| {
            self.note(operation, before, &case.settings)
        });
        if !matches!(outcome.ending, Ending::Refused(_)) {
            self.mid_loop_starts += usize::from(flow.active > 0);
            self.mid_repeat_starts += usize::from(flow.repeat > 0);
        }
        let steps = u64::from(outcome.steps);
        self.steps += steps;
        self.long_runs += usize::from(steps >= 100);
        self.most_steps = self.most_steps.max(steps);
        outcome.ending
    }

    /// Count one executed operation by the state before it.
    fn note(&mut self, operation: &Operation, before: &State, settings: &Settings) {
        self.kinds[usize::from(operation.kind())] += 1;
        self.depths[usize::from(before.flow.active)] += 1;
        let buffers = [&settings.x, &settings.y];
        for (side, read) in reads(operation).into_iter().enumerate() {
            match read {
                Some(ReadAddress::Indexed) => self.indexed_reads[side] += 1,
                Some(ReadAddress::Stepped { pointer, step }) => {
                    let old = before.w[usize::from(pointer)];
                    let buffer = buffers[side];
                    let corrected = pointer == buffer.register
                        && circular_step(old, step, buffer) != plain_step(old, step);
                    self.corrections[side] += u64::from(corrected);
                }
                None => {}
            }
        }
        if storing_up(operation) == Some(settings.reversed.register) {
            self.reversed_steps += 1;
        }
    }
}

/// The X and Y read of an operation.
fn reads(operation: &Operation) -> [Option<ReadAddress>; 2] {
    use Operation::*;
    match *operation {
        Clr(_, prefetch, _)
        | Mpy(_, _, prefetch)
        | Mac(_, _, prefetch, _)
        | Msc(_, _, prefetch, _)
        | Movsac(_, prefetch, _) => [
            prefetch.x.map(|read| read.from),
            prefetch.y.map(|read| read.from),
        ],
        Ed(_, _, both) | Edac(_, _, both) => [Some(both.x), Some(both.y)],
        _ => [None, None],
    }
}

/// The pointer of a store of form 2.
fn storing_up(operation: &Operation) -> Option<Register> {
    let (pointer, change) = match *operation {
        Operation::Store {
            pointer, change, ..
        } => (pointer, change),
        Operation::Sac(scaled) | Operation::SacR(scaled) => match scaled.operand {
            Operand::Memory { pointer, change } => (pointer, change),
            Operand::Register(_) => return None,
        },
        _ => return None,
    };
    (change == Change::Up).then_some(pointer)
}

fn first_field(form: &Form) -> String {
    let line = line(form);
    line.split(' ').next().unwrap_or_default().to_string()
}

/// What a case asks for; `long` is a run in the long form.
fn call_of(form: &Form) -> &'static str {
    match form {
        Form::Short(case) => match case.what {
            What::Run => "run",
            What::Load => "load",
            What::Write => "write",
        },
        Form::Long(long) => match long.call {
            Call::Run => "long",
            Call::Join => "join",
            Call::Decoded => "decoded",
            Call::Combine => "combine",
            Call::Unknown(_) => "call",
        },
    }
}
