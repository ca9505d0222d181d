//! An interpreter of document 01's engine written to be fast, in safe Rust: a yardstick
//! of speed for the proved engine. It takes accepted inputs and looks for no refusal.

#![forbid(unsafe_code)]

mod accumulator;
mod address;
mod case;
mod flow;
mod lent;
mod line;
mod machine;
mod mode;
mod multiply;
mod operation;
mod run;
mod settings;
mod transfer;

use case::Case;

/// The lines for a stream of cases, up to its end or to a case that breaks off.
pub fn lines(mut stream: &[u8]) -> String {
    let mut lines = String::new();
    while !stream.is_empty() {
        let Some((case, rest)) = case::first(stream) else {
            return lines + "short\n";
        };
        lines += &line(&case);
        lines += "\n";
        stream = rest;
    }
    lines
}

/// The line for a case: of a run in the short form (0), of one in the long form (16), of
/// one over decoded operations (21), or of a call that is not here.
fn line(case: &Case) -> String {
    match case.what() {
        0 => run(case, line::short),
        16 => run(case, line::long),
        21 => run(case, line::long) + &format!(" {}", line::check(&lent::decoded(case))),
        _ => "unknown".to_string(),
    }
}

/// A run, and the line of the machine that it leaves.
fn run(case: &Case, line: fn(run::Ending, &machine::Machine) -> String) -> String {
    let (mut machine, operations) = case.start();
    let ending = machine.run(&operations, case.budget());
    line(ending, &machine)
}
