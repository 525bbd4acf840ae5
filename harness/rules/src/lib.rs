//! The two calls of `include/lanternrung_rules.h`, as Rust functions.

#[repr(C)]
#[derive(Clone, Copy, PartialEq, Eq, Debug)]
pub struct Status {
    pub refused: u32,
    pub place: u64,
}

extern "C" {
    fn lr_rules_utf8(bytes: *const u8, length: usize) -> Status;
    fn lr_rules_date(year: u64, month: u64, day: u64) -> Status;
}

pub fn utf8(s: &[u8]) -> Status {
    // A slice is a pointer to that many readable bytes, which is all that the call asks.
    unsafe { lr_rules_utf8(s.as_ptr(), s.len()) }
}

pub fn date(year: u64, month: u64, day: u64) -> Status {
    unsafe { lr_rules_date(year, month, day) }
}

/// A small fixed-seed generator (xorshift64*).
pub struct Random(pub u64);

impl Random {
    pub fn next(&mut self) -> u64 {
        self.0 ^= self.0 >> 12;
        self.0 ^= self.0 << 25;
        self.0 ^= self.0 >> 27;
        self.0.wrapping_mul(0x2545_F491_4F6C_DD1D)
    }

    pub fn below(&mut self, n: usize) -> usize {
        (self.next() % n as u64) as usize
    }
}
