//! Kinds 1 to 7, with their X and Y reads and their write-back.

use std::ops::Range;

use crate::address::{word_number, word_within};
use crate::machine::{Machine, Step, Trap};
use crate::operation::{Operation, Prefetch, Read, WriteBack};

pub const CLR: u8 = 1;
pub const MPY: u8 = 2;
pub const MAC: u8 = 3;
pub const MSC: u8 = 4;
pub const ED: u8 = 5;
pub const EDAC: u8 = 6;
pub const MOVSAC: u8 = 7;

/// The word of a prefetch, and its address.
#[derive(Default)]
struct Fetched {
    address: u16,
    word: u16,
}

impl Machine {
    /// One step of a kind; a plain one has two stepped reads and no write-back.
    #[inline(always)]
    pub fn multiply<const KIND: u8, const PLAIN: bool>(&mut self, operation: &Operation) -> Step {
        let (x, y) = (&operation.x, &operation.y);
        let (x_read, y_read, write_back) = if PLAIN {
            (Read::Stepped, Read::Stepped, WriteBack::No)
        } else {
            (x.read, y.read, operation.write_back)
        };
        let (x_words, words) = (self.settings.x_words, self.settings.words);
        let x_fetched = self.fetched(x_read, x.pointer, [9, 12], 0..x_words)?;
        let y_fetched = self.fetched(y_read, y.pointer, [11, 13], x_words..words)?;
        if write_back == WriteBack::Memory {
            word_within(0..words, self.w[13])?;
        }
        let result = self.result::<KIND>(operation);
        self.step_pointer(x_read, x, x_fetched.address);
        self.step_pointer(y_read, y, y_fetched.address);
        if KIND == ED || KIND == EDAC {
            let difference = x_fetched.word.wrapping_sub(y_fetched.word);
            self.set_register(x.destination, difference);
        } else {
            self.arrive(x_read, x, x_fetched.word);
            self.arrive(y_read, y, y_fetched.word);
        }
        self.write_back(write_back, operation);
        if KIND == MOVSAC {
            return Ok(());
        }
        self.settle(operation.target(), result)
    }

    /// The read of a prefetch at its pointer or at the sum of two registers, in its region.
    #[inline(always)]
    fn fetched(
        &self,
        read: Read,
        pointer: u8,
        sum: [usize; 2],
        region: Range<usize>,
    ) -> Result<Fetched, Trap> {
        let address = match read {
            Read::No => return Ok(Fetched::default()),
            Read::Stepped => self.register(pointer),
            Read::Indexed => self.w[sum[0]].wrapping_add(self.w[sum[1]]),
        };
        let word = self.memory[word_within(region, address)?];
        Ok(Fetched { address, word })
    }

    /// The exact result, of the old registers.
    #[inline(always)]
    fn result<const KIND: u8>(&self, operation: &Operation) -> i64 {
        if KIND == CLR || KIND == MOVSAC {
            return 0;
        }
        let own = self.accumulators[operation.target()];
        let m = self.register(operation.m);
        let n = if KIND == ED || KIND == EDAC {
            m
        } else {
            self.register(operation.n)
        };
        let product = self.mode.product(m, n);
        match KIND {
            MAC | EDAC => own + product,
            MSC => own - product,
            _ => product,
        }
    }

    #[inline(always)]
    fn step_pointer(&mut self, read: Read, prefetch: &Prefetch, old: u16) {
        if read == Read::Stepped {
            let to = prefetch.buffer.stepped(old, prefetch.step);
            self.set_register(prefetch.pointer, to);
        }
    }

    #[inline(always)]
    fn arrive(&mut self, read: Read, prefetch: &Prefetch, word: u16) {
        if read != Read::No {
            self.set_register(prefetch.destination, word);
        }
    }

    /// The rounded store of the other accumulator, to W13 or to memory at W13, then W13 + 2.
    #[inline(always)]
    fn write_back(&mut self, to: WriteBack, operation: &Operation) {
        if to == WriteBack::No {
            return;
        }
        let other = self.accumulators[operation.target() ^ 1];
        let mut word = self.mode.rounded(other);
        if to == WriteBack::Memory {
            let address = self.w[13];
            self.memory[word_number(address)] = word;
            word = operation.buffer.stepped(address, 2);
        }
        self.w[13] = word;
    }
}
