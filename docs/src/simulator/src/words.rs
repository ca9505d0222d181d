//! Words of 16 bits and how they are read ("State and numbers").

/// How a factor is read: US 0 signed, US 1 unsigned.
#[derive(Clone, Copy, Debug, PartialEq, Eq)]
pub enum Reading {
    Signed,
    Unsigned,
}

/// A word read as signed.
pub fn signed(word: u16) -> i64 {
    i64::from(word as i16)
}

/// A word read as unsigned.
pub fn unsigned(word: u16) -> i64 {
    i64::from(word)
}

/// A word read as asked.
pub fn read(word: u16, reading: Reading) -> i64 {
    match reading {
        Reading::Signed => signed(word),
        Reading::Unsigned => unsigned(word),
    }
}

/// The low 16 bits of a whole number.
pub fn low_16(value: i64) -> u16 {
    (value & 0xFFFF) as u16
}

/// The low 40 bits of a whole number, read as signed.
pub fn signed_40(value: i64) -> i64 {
    (value << 24) >> 24
}

/// Two bytes, low byte first.
pub fn word_at(bytes: &[u8], at: usize) -> u16 {
    u16::from_le_bytes([bytes[at], bytes[at + 1]])
}
