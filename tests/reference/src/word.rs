//! Event words: bits 31-28 the kind, 23-16 the process, 7-0 the argument, the others 0.

use crate::refusal;
use crate::row::MOST;

pub const STAY: u32 = 1;
pub const COME: u32 = 2;
pub const FLICKER: u32 = 3;
pub const GO: u32 = 4;
pub const LOOK: u32 = 5;
pub const CANCEL: u32 = 6;

const SPARE: u32 = 0x0F00_FF00;

/// A word in its three parts; the process is not yet compared with anything.
#[derive(Clone, Copy, Debug, PartialEq, Eq)]
pub struct Parts {
    pub kind: u32,
    pub process: u32,
    pub argument: u32,
}

/// The parts of a word, or 8 for its kind or a spare bit.
#[inline]
pub(crate) fn split(word: u32) -> Result<Parts, u16> {
    let kind = word >> 28;
    if !(STAY..=CANCEL).contains(&kind) || word & SPARE != 0 {
        return Err(refusal::WORD_FORM);
    }
    Ok(Parts { kind, process: process_of(word), argument: word & 0xFF })
}

/// The process of a word.
pub(crate) fn process_of(word: u32) -> u32 {
    word >> 16 & 0xFF
}

/// The word of three parts that fit their bits.
pub(crate) fn join(kind: u32, process: u32, argument: u32) -> u32 {
    kind << 28 | process << 16 | argument
}

/// The answer to a word that is taken apart, as the exported function gives it: the parts are 0 where it is refused.
#[repr(C)]
#[derive(Clone, Copy, Debug, Default, PartialEq, Eq)]
pub struct PartsAnswer {
    pub refusal: u16,
    pub kind: u16,
    pub process: u16,
    pub argument: u16,
}

/// The answer to parts that are put together, as the exported function gives it: the word is 0 where they are refused.
#[repr(C)]
#[derive(Clone, Copy, Debug, Default, PartialEq, Eq)]
pub struct WordAnswer {
    pub refusal: u32,
    pub word: u32,
}

/// Takes a word apart without a table: 8, then 9 for a process over 15.
pub fn take_apart(word: u32) -> PartsAnswer {
    let refused = |refusal| PartsAnswer { refusal, ..PartsAnswer::default() };
    match split(word) {
        Err(refusal) => refused(refusal),
        Ok(parts) if parts.process as usize >= MOST => refused(refusal::NO_PROCESS),
        Ok(Parts { kind, process, argument }) => PartsAnswer {
            refusal: refusal::NONE,
            kind: kind as u16,
            process: process as u16,
            argument: argument as u16,
        },
    }
}

/// Puts a word together: 8 for the kind, then 9 for a process over 15, then 11 for an argument over 255.
pub fn put_together(kind: u32, process: u32, argument: u32) -> WordAnswer {
    let refused = |refusal: u16| WordAnswer { refusal: refusal.into(), word: 0 };
    if !(STAY..=CANCEL).contains(&kind) {
        refused(refusal::WORD_FORM)
    } else if process as usize >= MOST {
        refused(refusal::NO_PROCESS)
    } else if argument > 0xFF {
        refused(refusal::ARGUMENT)
    } else {
        WordAnswer { refusal: 0, word: join(kind, process, argument) }
    }
}
