//! An answer of the library in its 64 bits (docs/STATE.md), taken apart: every bit is in one of the
//! parts, so that comparing the parts is comparing the bits.
//!
//! Assumes nothing.

use std::fmt;

/// The words by their numbers.
const WORDS: [&str; 8] = [
    "ok", "executes", "spins", "granted", "waits", "passed", "freed", "refused",
];
pub const OK: u8 = 0;
pub const EXECUTES: u8 = 1;
pub const SPINS: u8 = 2;
pub const GRANTED: u8 = 3;
pub const REFUSED: u8 = 7;
const FURTHER_BITS: u64 = 0xff_ffff;

#[derive(Clone, Copy, Debug, PartialEq, Eq)]
pub struct Answer {
    /// Bits 56 to 63.
    pub word: u8,
    /// Bits 0 to 31.
    pub number: u32,
    /// What follows the number: bits 32 to 55, which are 0 for nothing and else one more than it.
    pub follows: Option<u32>,
}

impl Answer {
    pub fn of(packed: u64) -> Answer {
        let further = (packed >> 32 & FURTHER_BITS) as u32;
        Answer {
            word: (packed >> 56) as u8,
            number: packed as u32,
            follows: further.checked_sub(1),
        }
    }

    pub fn ok(number: u32) -> Answer {
        Answer {
            word: OK,
            number,
            follows: None,
        }
    }

    pub fn refused(number: u32) -> Answer {
        Answer {
            word: REFUSED,
            ..Answer::ok(number)
        }
    }
}

/// As in a listing; a word that there is not by its number.
impl fmt::Display for Answer {
    fn fmt(&self, out: &mut fmt::Formatter) -> fmt::Result {
        match WORDS.get(usize::from(self.word)) {
            Some(word) => write!(out, "{word} {}", self.number)?,
            None => write!(out, "word {} {}", self.word, self.number)?,
        }
        match self.follows {
            Some(further) => write!(out, " {further}"),
            None => Ok(()),
        }
    }
}
