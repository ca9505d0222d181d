//! Kinds 12 to 15, 17 and 18: words between accumulators, registers and memory.

use crate::accumulator::shifted;
use crate::address::{next_reversed, word_within};
use crate::machine::{Machine, Step, Trap};
use crate::operation::{Form, Operation};

impl Machine {
    /// Kinds 12 and 13: a signed word times 65,536, shifted, to the target or added to it.
    pub fn load_accumulator(&mut self, operation: &Operation) -> Step {
        let word = self.operand_read(operation)?;
        let target = operation.target();
        let value = shifted(i64::from(word as i16) << 16, operation.shift);
        let own = match operation.kind {
            13 => self.accumulators[target],
            _ => 0,
        };
        self.settle(target, own + value)
    }

    /// Kinds 14 and 15: the truncated or rounded store of the shifted target.
    pub fn store_accumulator(&mut self, operation: &Operation) -> Step {
        let value = shifted(self.accumulators[operation.target()], operation.shift);
        let word = match operation.kind {
            14 => self.mode.truncated(value),
            _ => self.mode.rounded(value),
        };
        self.operand_write(operation, word)
    }

    /// Kind 17: a word of memory to a register, which beats the pointer's change.
    pub fn load_register(&mut self, operation: &Operation) -> Step {
        let word = self.operand_read(operation)?;
        self.set_register(operation.register, word);
        Ok(())
    }

    /// Kind 18: a register to memory.
    pub fn store_register(&mut self, operation: &Operation) -> Step {
        self.operand_write(operation, self.register(operation.register))
    }

    /// The word of an operand: a register's, or that at a pointer, which is then changed.
    fn operand_read(&mut self, operation: &Operation) -> Result<u16, Trap> {
        let own = self.register(operation.operand);
        if operation.form == Form::Direct {
            return Ok(own);
        }
        let place = word_within(0..self.settings.words, own)?;
        self.change_pointer(operation, own);
        Ok(self.memory[place])
    }

    /// A word to an operand: to a register, or to memory at a pointer, which is then changed.
    fn operand_write(&mut self, operation: &Operation, word: u16) -> Step {
        if operation.form == Form::Direct {
            self.set_register(operation.operand, word);
            return Ok(());
        }
        let address = self.register(operation.operand);
        let place = word_within(0..self.settings.words, address)?;
        self.change_pointer(operation, address);
        self.memory[place] = word;
        Ok(())
    }

    /// The pointer after its use at an address.
    fn change_pointer(&mut self, operation: &Operation, address: u16) {
        let to = match operation.form {
            Form::Direct | Form::Memory => return,
            Form::ThenUp => operation.buffer.stepped(address, 2),
            Form::ThenDown => operation.buffer.stepped(address, -2),
            Form::ThenReversed => next_reversed(address, self.settings.reversed_words),
        };
        self.set_register(operation.operand, to);
    }
}
