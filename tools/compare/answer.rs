//! The answer of a call, in one form for the source and the library.

/// What a slot holds before a call. A refused call leaves it there.
pub const UNTOUCHED: u16 = 43690;

/// A refusal's number or 0 for done, and the slots after the call. A call is lent the first one,
/// two or three of them. The rest show that it wrote no further.
#[derive(Clone, Copy, Debug, Eq, PartialEq)]
pub struct Answer {
    pub refusal: u32,
    pub slots: [u16; 4],
}

impl Answer {
    pub fn refused(refusal: u32) -> Self {
        Self {
            refusal,
            slots: [UNTOUCHED; 4],
        }
    }

    pub fn done(written: &[u16]) -> Self {
        let mut answer = Self::refused(0);
        answer.slots[..written.len()].copy_from_slice(written);
        answer
    }

    pub fn of_value(value: u16) -> Self {
        Self::done(&[value])
    }

    pub fn of_word(word: u32) -> Self {
        Self::done(&[word as u16, (word >> 16) as u16])
    }

    pub fn of_reading(kind: u16, number: u32) -> Self {
        Self::done(&[kind, number as u16, (number >> 16) as u16])
    }

    /// The 32-bit number whose low half is in the slot `at`. If the call was refused, 0.
    fn number_at(&self, at: usize) -> u32 {
        match self.refusal {
            0 => u32::from(self.slots[at]) | u32::from(self.slots[at + 1]) << 16,
            _ => 0,
        }
    }

    pub fn value(&self) -> u32 {
        self.number_at(0) & 0xffff
    }

    pub fn word(&self) -> u32 {
        self.number_at(0)
    }

    pub fn kind(&self) -> u32 {
        self.number_at(0) & 0xffff
    }

    pub fn number(&self) -> u32 {
        self.number_at(1)
    }
}
