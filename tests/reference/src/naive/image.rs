//! Images as lists of words.

use super::system::{bits_from_set, set_from_bits, System};
use super::Fault;
use crate::{Reading, Row};

const CODES: [u32; 8] = [10, 20, 21, 22, 23, 24, 30, 40];

/// The first lent rows become the table of an image; or refusal and place, 13 last, and no row changes.
pub fn read_image(words: &[u32], lent: &mut [Row], fault: Fault) -> Reading {
    if let Some(early) = before_the_words(words, lent, fault) {
        return early;
    }
    let system = match read(words, fault) {
        Ok(system) => system,
        Err((refusal, place)) => return Reading { refusal, place: place as u16, size: 0 },
    };
    let n = system.n();
    let needed = if fault == Fault::ReadAsksFor16Rows { 16 } else { n };
    if lent.len() < needed {
        let size = if fault == Fault::ReadSizeWith13 { n as u16 } else { 0 };
        return Reading { refusal: 13, place: 0, size };
    }
    let old = lent[..n].to_vec();
    system.to_rows(&mut lent[..n]);
    if fault == Fault::ShortFormKeepsPasses && words.len() == 5 * n {
        for (row, old) in lent.iter_mut().zip(old) {
            row.passes = old.passes;
        }
    }
    if fault == Fault::ReadClearsRowsPastTheTable {
        lent[n..].fill(Row::default());
    }
    Reading { refusal: 0, place: 0, size: n as u16 }
}

/// The faults of looking at the lent rows as soon as the header and the number of words are right.
fn before_the_words(words: &[u32], lent: &mut [Row], fault: Fault) -> Option<Reading> {
    let Header { n, .. } = header(words, fault).filter(|header| words.len() == header.length())?;
    if fault == Fault::ReadClearsRowsFirst {
        let known = n.min(lent.len());
        System::fresh(n).to_rows(&mut lent[..known]);
    }
    let early = fault == Fault::ReadLentBeforeWords && lent.len() < n;
    early.then_some(Reading { refusal: 13, place: 0, size: 0 })
}

/// Writes the image into the first lent words, 5N + N times N of them: 6, 7, then 13.
pub fn write_image(rows: &[Row], lent: &mut [u32], fault: Fault) -> u16 {
    let system = match System::from_rows(rows, fault) {
        Ok(system) => system,
        Err(refusal) => return refusal,
    };
    let image = write(&system, fault);
    let short = lent.len() < words_asked_for(system.n(), fault);
    for (place, &word) in image.iter().enumerate().take(lent.len()) {
        if !short || fault == Fault::WritesPartWhenShort {
            lent[place] = word;
        }
    }
    if fault == Fault::WritesOneWordMore && lent.len() > image.len() {
        lent[image.len()] = 0;
    }
    if short {
        13
    } else {
        0
    }
}

/// How many words must be lent for the image of n processes.
pub fn words_asked_for(n: usize, fault: Fault) -> usize {
    match fault {
        Fault::LentWithoutPasses => 5 * n,
        _ => 5 * n + n * n,
    }
}

/// What a first word says: the number of processes, and whether words for passes follow.
#[derive(Clone, Copy)]
pub struct Header {
    pub n: usize,
    pub with_passes: bool,
}

impl Header {
    pub fn length(self) -> usize {
        let Header { n, with_passes } = self;
        if with_passes {
            5 * n + n * n
        } else {
            5 * n
        }
    }
}

pub fn header(words: &[u32], fault: Fault) -> Option<Header> {
    for n in 2..=16 {
        if words.first() == Some(&(0x8000_0000 + n as u32)) && fault != Fault::ShortFormRefused {
            return Some(Header { n, with_passes: false });
        }
        if words.first() == Some(&(0x8100_0000 + n as u32)) {
            return Some(Header { n, with_passes: true });
        }
    }
    None
}

pub fn read(words: &[u32], fault: Fault) -> Result<System, (u16, usize)> {
    let header = header(words, fault).ok_or((1, 0))?;
    let length = (2, words.len().min(header.length()));
    let length_wrong = words.len() != header.length();
    if length_wrong && fault != Fault::LengthAfterWords {
        return Err(length);
    }
    let mut system = System::fresh(header.n);
    for (place, &word) in words.iter().enumerate().take(header.length()).skip(1) {
        let shown = if fault == Fault::PlaceFromImageStart1 { place + 1 } else { place };
        read_word(&mut system, place, word, fault).map_err(|refusal| (refusal, shown))?;
    }
    if length_wrong {
        return Err(length);
    }
    Ok(system)
}

fn read_word(system: &mut System, place: usize, word: u32, fault: Fault) -> Result<(), u16> {
    let n = system.n();
    if place >= 5 * n {
        let (q, r) = pair_at(place - 5 * n, n, fault);
        return read_passes(system, q, r, word, fault);
    }
    let (kind, number) =
        if place <= 4 * n { ([0x9, 0xA, 0xB, 0xC][(place - 1) % 4], (place - 1) / 4) } else { (0xD, place - 4 * n) };
    let form = word / 0x1000_0000 == kind && word / 0x1_0000 % 0x100 == number as u32 && !spare_set(kind, word, fault);
    if !form && fault != Fault::RangeBeforeForm {
        return Err(3);
    }
    match kind {
        0x9 => read_state(system, number, word, fault)?,
        0xD => {
            let turn = (word % 0x100) as usize;
            if turn >= n {
                return Err(4);
            }
            system.turn[number] = turn;
        }
        _ => {
            let set = set_from_bits(word % 0x1_0000);
            if (n..16).any(|q| set[q]) {
                return Err(4);
            }
            let process = &mut system.processes[number];
            match kind {
                0xA => process.est = set,
                0xB => process.lis = set,
                _ => process.ahead = set,
            }
        }
    }
    if form {
        Ok(())
    } else {
        Err(3)
    }
}

/// Whose passes, and over whom, the words at the end have: rows in order.
fn pair_at(place: usize, n: usize, fault: Fault) -> (usize, usize) {
    match fault {
        Fault::PassWordsByColumn => (place % n, place / n),
        _ => (place / n, place % n),
    }
}

/// A word of kind E but for its count.
fn pass_word(q: usize, r: usize, fault: Fault) -> u32 {
    let (q, r) = if fault == Fault::PassWordsTurnedAbout { (r, q) } else { (q, r) };
    0xE000_0000 + q as u32 * 0x100_0000 + r as u32 * 0x1_0000
}

fn read_passes(system: &mut System, q: usize, r: usize, word: u32, fault: Fault) -> Result<(), u16> {
    let count = word % 0x1_0000;
    let spare = if fault == Fault::SpareBitsOfPassesIgnored { word / 0x10_0000 % 0x10 * 0x10_0000 } else { 0 };
    let form = word - count - spare == pass_word(q, r, fault);
    let over_itself = q == r && count != 0 && fault != Fault::OwnPassesInImage;
    if over_itself && fault == Fault::RangeBeforeForm {
        return Err(4);
    }
    if !form || (over_itself && fault == Fault::OwnPassesAreForm) {
        return Err(3);
    }
    if over_itself {
        return Err(4);
    }
    system.processes[q].passes[r] = count;
    Ok(())
}

/// Whether a word of a kind has a bit set that the kind does not use.
fn spare_set(kind: u32, word: u32, fault: Fault) -> bool {
    let bit = |b: u32| word / 2u32.pow(b) % 2 == 1;
    let low = match kind {
        0x9 if fault != Fault::SpareBitsOfStateIgnored => (10..12).any(bit),
        0xD => (8..16).any(bit),
        _ => false,
    };
    low || (24..28).any(bit)
}

fn read_state(system: &mut System, number: usize, word: u32, fault: Fault) -> Result<(), u16> {
    let code = (word / 0x1000 % 0x10) as usize;
    let level = (word % 0x100) as usize;
    if code >= 8 {
        return Err(4);
    }
    let location = CODES[code];
    if fault == Fault::Level30IsLevel && location == 30 && level != 0 {
        return Err(5);
    }
    if level >= system.n() {
        return Err(4);
    }
    if [22, 23, 24].contains(&location) && level == 0 || location == 30 && level != 0 {
        return Err(5);
    }
    let process = &mut system.processes[number];
    process.location = location;
    process.act = word / 0x200 % 2 == 1;
    process.bb = word / 0x100 % 2 == 1;
    process.level = level;
    Ok(())
}

pub fn write(system: &System, fault: Fault) -> Vec<u32> {
    let n = system.n();
    let short = fault == Fault::ShortFormWritten;
    let mut words = vec![if short { 0x8000_0000 } else { 0x8100_0000 } + n as u32];
    for (p, process) in system.processes.iter().enumerate() {
        let number = p as u32 * 0x1_0000;
        let code = CODES.iter().position(|&location| location == process.location).expect("a location");
        let act = if process.act { 0x200 } else { 0 };
        let bb = if process.bb { 0x100 } else { 0 };
        words.push(0x9000_0000 + number + code as u32 * 0x1000 + act + bb + process.level as u32);
        words.push(0xA000_0000 + number + bits_from_set(&process.est));
        words.push(0xB000_0000 + number + bits_from_set(&process.lis));
        words.push(0xC000_0000 + number + bits_from_set(&process.ahead));
    }
    for k in 1..n {
        words.push(0xD000_0000 + k as u32 * 0x1_0000 + system.turn[k] as u32);
    }
    for place in 0..n * n {
        let (q, r) = pair_at(place, n, fault);
        if !short {
            words.push(pass_word(q, r, fault) + system.processes[q].passes[r]);
        }
    }
    words
}
