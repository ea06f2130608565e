//! The calls on bytes: the run, the printed run, and its text in lent bytes.

use super::calls::{take_words, too_many};
use super::cells::printed;
use super::image::{header, read, words_asked_for, write, Header};
use super::settings::{memory, Act, Memory, Turn, SAFE};
use super::system::System;
use super::Fault;
use crate::Ran;

/// The words of an input, or 14.
fn words_in(bytes: &[u8], fault: Fault) -> Result<Vec<u32>, u16> {
    let odd = bytes.len() % 4 != 0 && fault != Fault::OddBytesDropped;
    let most = match fault {
        Fault::ByteLimitIgnored => usize::MAX,
        Fault::ByteLimitWithoutPasses => 33_088,
        _ => 34_112,
    };
    if odd || bytes.len() > most {
        return Err(14);
    }
    let value = |word: &[u8]| (0..4).map(|i| u32::from(word[i]) * 256u32.pow(i as u32)).sum();
    Ok(bytes.chunks_exact(4).map(value).collect())
}

/// The image and the event words of an input.
fn divide(words: &[u32], fault: Fault) -> (&[u32], &[u32]) {
    let length = match header(words, fault) {
        Some(Header { n, .. }) if fault == Fault::CutWithoutPasses => 5 * n,
        Some(header) => header.length(),
        None => words.len(),
    };
    words.split_at(length.min(words.len()))
}

pub fn c_call(input: &[u8], lent: &mut [u8], act: u32, turn: u32, fault: Fault) -> u64 {
    let memory = memory(act, turn, fault);
    if memory.is_err() && fault == Fault::SettingsBeforeBytes {
        return 18;
    }
    let words = match words_in(input, fault) {
        Ok(words) => words,
        Err(refusal) => return refusal.into(),
    };
    if memory.is_err() && fault == Fault::SettingsBeforeImage {
        return 18;
    }
    let (image, events) = divide(&words, fault);
    let mut system = match read(image, fault) {
        Ok(system) => system,
        Err((refusal, _)) => return refusal.into(),
    };
    let asked_for = 4 * words_asked_for(system.n(), fault);
    let lent_too_few = lent.len() < asked_for || (fault == Fault::LentMustBeWords && lent.len() % 4 != 0);
    let applies = |refusal: &u64| match refusal {
        18 => memory.is_err(),
        12 => too_many(events.len(), fault),
        _ => lent_too_few,
    };
    if let Some(refusal) = before_the_run(fault).into_iter().find(applies) {
        spoil_lent(&system, lent, refusal, fault);
        return refusal;
    }
    let memory = memory.ok().filter(|_| fault != Fault::CallUnderSafe).unwrap_or(SAFE);
    let ran = take_words(&mut system, events, memory, fault, |_, _| ());
    if !(fault == Fault::NoImageOnStop && ran.refusal != 0) {
        write_bytes(&system, lent, fault);
        if fault == Fault::ImageFillsAllLent {
            lent[asked_for..].fill(0);
        }
    }
    256 * u64::from(ran.taken) + u64::from(ran.refusal)
}

/// What is checked between the image and the words, in order: 18, 12, 13.
fn before_the_run(fault: Fault) -> [u64; 3] {
    match fault {
        Fault::LentBeforeWordCount => [18, 13, 12],
        Fault::CallSettingsAfterWordCount => [12, 18, 13],
        Fault::SettingsAfterLent => [12, 13, 18],
        _ => [18, 12, 13],
    }
}

/// A refusal leaves the lent bytes as given, but for faults of 18.
fn spoil_lent(system: &System, lent: &mut [u8], refusal: u64, fault: Fault) {
    match (refusal, fault) {
        (18, Fault::WrongSettingsWriteImage) => write_bytes(system, lent, fault),
        (18, Fault::WrongSettingsClearLent) => lent.fill(0),
        _ => {}
    }
}

fn write_bytes(system: &System, lent: &mut [u8], fault: Fault) {
    let bytes = write(system, fault).into_iter().flat_map(|word| (0..4).map(move |i| word / 256u32.pow(i) % 256));
    for (cell, byte) in lent.iter_mut().zip(bytes) {
        *cell = byte as u8;
    }
}

pub fn text(input: &[u8], fault: Fault) -> String {
    let words = match words_in(input, fault) {
        Ok(words) => words,
        Err(refusal) => return format!("input {refusal}\n"),
    };
    let (image, events) = divide(&words, fault);
    let mut system = match read(image, fault) {
        Ok(system) => system,
        Err((refusal, place)) => return format!("image {place} {refusal}\n"),
    };
    let mut out = format!("posts {}\n", system.n());
    if too_many(events.len(), fault) {
        return out + "stop 0 12\n";
    }
    let mut place = 0;
    // the number is counted again after each word; `error` is what a fault has made it wrong by
    let mut error = if fault == Fault::FigureFrom0 { -(system.at_30(fault) as i64) } else { 0 };
    let mut used_before = None;
    let ran = take_words(&mut system, events, memory_of_text(fault), fault, |system, moved| {
        let (arrives, departs) = (moved.before != 30 && moved.after == 30, moved.before == 30 && moved.after != 30);
        error += match (fault, moved.before, moved.after) {
            (Fault::FigureKeptFrom30To40, 30, 40) => 1,
            (Fault::FigureLoweredFrom40To10, 40, 10) => -1,
            (Fault::FigureRaisedFrom21To22, 21, 22) => 1,
            (Fault::FigureBeforeTheWord, ..) => i64::from(departs) - i64::from(arrives) - error,
            _ => 0,
        };
        let inside = system.at_30(fault) as i64 + error;
        let used = if fault == Fault::PrintedCellOfWordBefore { used_before } else { moved.used };
        let cell = printed(used, fault);
        out += &format!("{place} {} {} {} {inside}{cell}\n", moved.process, moved.before, moved.after);
        place += 1;
        used_before = moved.used;
    });
    out + &last_line(&ran)
}

/// The printed run is under 0 and 0.
fn memory_of_text(fault: Fault) -> Memory {
    match fault {
        Fault::TextUnderPlain => Memory { act: Act::Plain, turn: Turn::Plain },
        Fault::TextUnderOneWriter => Memory { turn: Turn::OneWriter, ..SAFE },
        _ => SAFE,
    }
}

fn last_line(ran: &Ran) -> String {
    match ran.refusal {
        0 => format!("done {}\n", ran.taken),
        refusal => format!("stop {} {refusal}\n", ran.taken),
    }
}

/// The length of the text; the text stands at the start of the lent bytes where they hold all of it.
pub fn print(input: &[u8], lent: &mut [u8], fault: Fault) -> usize {
    let text = text(input, fault).into_bytes();
    let needed = if fault == Fault::PrintNeedsOneByteMore { text.len() + 1 } else { text.len() };
    let fits = needed <= lent.len();
    if !fits && fault == Fault::PrintAnswers0WhenShort {
        return 0;
    }
    for (place, &byte) in text.iter().enumerate() {
        if fits || (fault == Fault::PrintPartWhenShort && place < lent.len()) {
            lent[place] = byte;
        }
    }
    if fault == Fault::PrintZeroAfterText && lent.len() > text.len() {
        lent[text.len()] = 0;
    }
    text.len()
}
