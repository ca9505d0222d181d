//! The line of a run.

use std::fmt::Write;

use crate::machine::Machine;
use crate::run::Ending;

/// Registers of the four sets besides W0..W13 of set 0, all zero.
const OTHER_REGISTERS: usize = 56;

/// The line of a run in the short form.
pub fn short(ending: Ending, machine: &Machine) -> String {
    let Machine { steps, flow, .. } = machine;
    let [a, b] = machine.accumulators;
    let (status, mode) = (status_word(machine), machine.mode.word);
    let (pc, repeat, active) = (flow.pc, flow.repeat, flow.active);
    let mut line = name(ending);
    let _ = write!(line, " {steps} {a} {b} {status:04X}");
    let _ = write!(line, " {pc} {repeat} {mode:04X} {active}");
    for slot in &flow.loops {
        let _ = write!(line, " {}:{}", slot.do_number, slot.passes);
    }
    for word in own_registers(machine) {
        let _ = write!(line, " {word:04X}");
    }
    let memory = &machine.memory[..machine.settings.words];
    let _ = write!(line, " {}", check(memory));
    line
}

/// The line of a run in the long form: set 0 in use and the others zero, no tasks.
pub fn long(ending: Ending, machine: &Machine) -> String {
    let registers = [own_registers(machine), &[0; OTHER_REGISTERS]].concat();
    let (line, check, steps) = (short(ending, machine), check(&registers), machine.steps);
    format!("{line} 0 {check} 0 0 0 0 0 0 0 0 {steps}")
}

fn name(ending: Ending) -> String {
    match ending {
        Ending::Done => "done".to_string(),
        Ending::Spent => "spent".to_string(),
        Ending::Trap(trap) => format!("trap{}", trap as u8),
    }
}

/// The check of a list of numbers.
pub fn check(numbers: &[u16]) -> u32 {
    let next = |h: u32, &x: &u16| h.wrapping_mul(31).wrapping_add(u32::from(x));
    numbers.iter().fold(0, next)
}

/// W0..W13.
fn own_registers(machine: &Machine) -> &[u16] {
    &machine.w[..14]
}

/// SR.
fn status_word(machine: &Machine) -> u16 {
    let ([oa, ob], [sa, sb]) = (machine.overflow, machine.saturated);
    let bits = [
        (oa, 15),
        (ob, 14),
        (sa, 13),
        (sb, 12),
        (oa || ob, 11),
        (sa || sb, 10),
        (machine.flow.active > 0, 9),
        (machine.flow.repeat != 0, 4),
    ];
    let bit = |(is_set, number): (bool, u32)| u16::from(is_set) << number;
    bits.map(bit).iter().sum()
}
