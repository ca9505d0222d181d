//! The mode word, taken apart when it changes; products and stores by it.

#[derive(Clone, Copy)]
pub struct Mode {
    pub word: u16,
    /// US 1.
    unsigned: bool,
    /// 1 where IF 0 doubles a product, else 0.
    doubling: u32,
    /// RND.
    ties_up: bool,
    /// SATDW.
    limits_stores: bool,
    /// SATA and SATB.
    pub saturates: [bool; 2],
    /// 2^k of each accumulator's limits -2^k..2^k - 1.
    pub limits: [i64; 2],
}

impl Mode {
    pub fn of(word: u16) -> Mode {
        let bit = |number: u32| (word >> number) & 1 == 1;
        let saturates = [bit(7), bit(6)];
        let is_narrow = |saturates: bool| saturates && !bit(4);
        Mode {
            word,
            unsigned: (word >> 12) & 3 == 1,
            doubling: u32::from(!bit(0)),
            ties_up: bit(1),
            limits_stores: bit(5),
            saturates,
            limits: saturates.map(|on| if is_narrow(on) { 1 << 31 } else { 1 << 39 }),
        }
    }

    #[inline(always)]
    pub fn product(&self, m: u16, n: u16) -> i64 {
        let product = if self.unsigned {
            i64::from(m) * i64::from(n)
        } else {
            i64::from(m as i16) * i64::from(n as i16)
        };
        product << self.doubling
    }

    /// The truncated store of a value.
    pub fn truncated(&self, value: i64) -> u16 {
        self.stored(value >> 16)
    }

    /// The rounded store of a value.
    pub fn rounded(&self, value: i64) -> u16 {
        let (quotient, remainder) = (value >> 16, value & 0xFFFF);
        let tie_goes_up = self.ties_up || quotient & 1 == 1;
        let up = remainder > 32_768 || (remainder == 32_768 && tie_goes_up);
        self.stored(quotient + i64::from(up))
    }

    fn stored(&self, value: i64) -> u16 {
        if self.limits_stores {
            value.clamp(-32_768, 32_767) as u16
        } else {
            value as u16
        }
    }
}
