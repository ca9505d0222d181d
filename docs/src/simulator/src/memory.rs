//! The lent memory with its X and Y parts.

use crate::address::{ByteAddress, Region, WordIndex};
use crate::ending::Trap;

pub struct Memory<'a> {
    words: &'a mut [u16],
    x_words: usize,
}

impl<'a> Memory<'a> {
    pub fn new(words: &'a mut [u16], x_words: u16) -> Self {
        Memory {
            words,
            x_words: usize::from(x_words),
        }
    }

    fn whole(&self) -> Region {
        Region {
            first: 0,
            end: self.words.len(),
        }
    }

    fn word(&self, address: ByteAddress, region: Region) -> Result<u16, Trap> {
        let WordIndex(index) = address.locate(region)?;
        Ok(self.words[index])
    }

    /// X reads fall in the first part.
    pub fn read_x(&self, address: ByteAddress) -> Result<u16, Trap> {
        let region = Region {
            first: 0,
            end: self.x_words,
        };
        self.word(address, region)
    }

    /// Y reads fall in the rest.
    pub fn read_y(&self, address: ByteAddress) -> Result<u16, Trap> {
        let region = Region {
            first: self.x_words,
            end: self.words.len(),
        };
        self.word(address, region)
    }

    /// Other reads fall anywhere in memory.
    pub fn read(&self, address: ByteAddress) -> Result<u16, Trap> {
        self.word(address, self.whole())
    }

    /// The place of a write, anywhere in memory; nothing is written yet.
    pub fn place(&self, address: ByteAddress) -> Result<WordIndex, Trap> {
        address.locate(self.whole())
    }

    pub fn put(&mut self, index: WordIndex, word: u16) {
        self.words[index.0] = word;
    }
}
