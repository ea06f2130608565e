//! Event words without a table.

use super::Fault;
use crate::{PartsAnswer, WordAnswer};

/// The kinds are 1 to 6; one fault ends them at 5, another at 7.
pub fn is_kind(kind: u32, fault: Fault, ends_at_5: Fault, ends_at_7: Fault) -> bool {
    let last = if fault == ends_at_5 {
        5
    } else if fault == ends_at_7 {
        7
    } else {
        6
    };
    kind >= 1 && kind <= last
}

/// 8 for kind or spare bits, then 9 for a process over 15; no parts then.
pub fn take_apart(word: u32, fault: Fault) -> PartsAnswer {
    let bits = |from: u32, count: u32| word / 2u32.pow(from) % 2u32.pow(count);
    let (kind, process, argument) = (bits(28, 4), bits(16, 8), bits(0, 8));
    let known = is_kind(kind, fault, Fault::ApartRefusesKind6, Fault::ApartTakesKind7);
    let refusal = if !known || bits(24, 4) != 0 || bits(8, 8) != 0 {
        8
    } else if process > 15 {
        9
    } else {
        0
    };
    if refusal != 0 && fault != Fault::ApartKeepsPartsOnRefusal {
        return PartsAnswer { refusal, kind: 0, process: 0, argument: 0 };
    }
    PartsAnswer { refusal, kind: kind as u16, process: process as u16, argument: argument as u16 }
}

/// 8 for the kind, 9 for a process over 15, 11 for an argument over 255; no word then.
pub fn put_together(kind: u32, process: u32, argument: u32, fault: Fault) -> WordAnswer {
    let refusal = if !is_kind(kind, fault, Fault::TogetherRefusesKind6, Fault::TogetherTakesKind7) {
        8
    } else if process > 15 {
        9
    } else if argument > 255 && fault != Fault::TogetherCutsTheArgument {
        11
    } else {
        0
    };
    if refusal != 0 && fault != Fault::TogetherKeepsWordOnRefusal {
        return WordAnswer { refusal, word: 0 };
    }
    WordAnswer { refusal, word: kind % 16 * 0x1000_0000 + process % 256 * 0x1_0000 + argument % 256 }
}
