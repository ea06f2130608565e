//! Images: a header 81000000 + N, four words for each process, a word for each turn cell from 1, then N words of passes
//! for each process. Those of the short form have the header 80000000 + N and no passes; they are read, not written.

use crate::refusal;
use crate::row::{check, code, everyone, Row, Table, FEWEST, LOCATIONS, MOST};

const SHORT_HEADER: u32 = 0x8000_0000;
pub(crate) const HEADER: u32 = 0x8100_0000;
pub(crate) const STATE: u32 = 0x9;
pub(crate) const EST: u32 = 0xA;
pub(crate) const LIS: u32 = 0xB;
pub(crate) const AHEAD: u32 = 0xC;
pub(crate) const TURN: u32 = 0xD;
pub(crate) const PASSES: u32 = 0xE;

/// The words, the header included, that the image of n processes has.
pub const fn image_length(n: usize) -> usize {
    short_length(n) + n * n
}

/// The same in the short form, without passes.
pub const fn short_length(n: usize) -> usize {
    5 * n
}

/// What a header says: the number of processes, and whether passes follow.
#[derive(Clone, Copy)]
pub(crate) struct Header {
    pub n: usize,
    pub passes: bool,
}

impl Header {
    /// The header in a first word, if it is one.
    pub fn of(word: u32) -> Option<Header> {
        let passes = word >= HEADER;
        let n = word.wrapping_sub(if passes { HEADER } else { SHORT_HEADER }) as usize;
        (FEWEST..=MOST).contains(&n).then_some(Header { n, passes })
    }

    /// The words of the image, the header included.
    pub fn length(self) -> usize {
        if self.passes {
            image_length(self.n)
        } else {
            short_length(self.n)
        }
    }
}

/// A word as it is given: a number, or its 4 bytes, lowest byte first.
pub(crate) trait Word: Copy {
    fn number(self) -> u32;
    fn of(number: u32) -> Self;
}

impl Word for u32 {
    #[inline(always)]
    fn number(self) -> u32 {
        self
    }

    #[inline(always)]
    fn of(number: u32) -> u32 {
        number
    }
}

impl Word for [u8; 4] {
    #[inline(always)]
    fn number(self) -> u32 {
        u32::from_le_bytes(self)
    }

    #[inline(always)]
    fn of(number: u32) -> [u8; 4] {
        number.to_le_bytes()
    }
}

/// The answer to an image: the refusal and the place that it is about, or the number of processes; 0 what says nothing.
#[repr(C)]
#[derive(Clone, Copy, Debug, Default, PartialEq, Eq)]
pub struct Reading {
    pub refusal: u16,
    pub place: u16,
    pub size: u16,
}

/// Reads an image into the first lent rows and touches no other: 1 to 5, then 13.
pub fn read_into(words: &[u32], lent: &mut [Row]) -> Reading {
    let table = match read(words) {
        Ok(table) => table,
        Err((refusal, place)) => return Reading { refusal, place: place as u16, size: 0 },
    };
    let Some(lent) = lent.get_mut(..table.len()) else {
        return Reading { refusal: refusal::LENT_TOO_FEW, place: 0, size: 0 };
    };
    lent.copy_from_slice(&table);
    Reading { refusal: refusal::NONE, place: 0, size: table.len() as u16 }
}

/// The table of an image, or the refusal and the place of the word that met it. It is inlined, so that the table is made
/// where the caller has it.
#[inline(always)]
pub(crate) fn read<W: Word>(words: &[W]) -> Result<Table, (u16, usize)> {
    let header = words.first().and_then(|word| Header::of(word.number())).ok_or((refusal::NO_HEADER, 0))?;
    if words.len() != header.length() {
        return Err((refusal::IMAGE_LENGTH, words.len().min(header.length())));
    }
    let mut table = Table::idle(header.n);
    let mut reader = Reader { words, n: header.n, place: 0 };
    reader.table(&mut table, header.passes).map_err(|refused| (refused, reader.place))?;
    Ok(table)
}

/// The words of an image, as many as its header asks for, and the place of the last one taken.
struct Reader<'a, W> {
    words: &'a [W],
    n: usize,
    place: usize,
}

impl<W: Word> Reader<'_, W> {
    fn table(&mut self, rows: &mut [Row], passes: bool) -> Result<(), u16> {
        self.rows(rows)?;
        if passes {
            self.passes(rows)?;
        }
        Ok(())
    }

    fn rows(&mut self, rows: &mut [Row]) -> Result<(), u16> {
        for (p, row) in rows.iter_mut().enumerate() {
            self.state(p, row)?;
            row.est = self.set(EST, p)?;
            row.lis = self.set(LIS, p)?;
            row.ahead = self.set(AHEAD, p)?;
        }
        for (k, row) in rows.iter_mut().enumerate().skip(1) {
            let bits = self.bits(TURN, k as u32, 0xFF)?;
            row.turn = self.number(bits)?;
        }
        Ok(())
    }

    /// What differs in the words of a row is put together and looked at once.
    fn passes(&mut self, rows: &mut [Row]) -> Result<(), u16> {
        for (q, row) in rows.iter_mut().enumerate() {
            let words = &self.words[self.place + 1..][..self.n];
            let mut differences = 0;
            for (r, (count, found)) in row.passes.iter_mut().zip(words).enumerate() {
                differences |= found.number() ^ word(PASSES, of_pair(q, r));
                *count = found.number() as u16;
            }
            if differences > 0xFFFF || row.passes[q] != 0 {
                return Err(self.first_wrong(q));
            }
            self.place += self.n;
        }
        Ok(())
    }

    /// The refusal of the first wrong word among the next n, which are the passes of process q.
    #[cold]
    fn first_wrong(&mut self, q: usize) -> u16 {
        let mut r = 0;
        loop {
            match self.bits(PASSES, of_pair(q, r), 0xFFFF) {
                Ok(count) if q == r && count != 0 => return refusal::IMAGE_RANGE,
                Ok(_) => r += 1,
                Err(refused) => return refused,
            }
        }
    }

    /// The low half of the next word, which must have this kind and number and no bits but `used` besides.
    #[inline]
    fn bits(&mut self, kind: u32, number: u32, used: u32) -> Result<u16, u16> {
        self.place += 1;
        let found = self.words[self.place].number();
        if found & !used == word(kind, number) {
            Ok(found as u16)
        } else {
            Err(refusal::IMAGE_FORM)
        }
    }

    #[inline]
    fn state(&mut self, p: usize, row: &mut Row) -> Result<(), u16> {
        let bits = self.bits(STATE, p as u32, 0xF3FF)?;
        row.loc = *LOCATIONS.get(usize::from(bits >> 12)).ok_or(refusal::IMAGE_RANGE)?;
        row.act = bits >> 9 & 1;
        row.bb = bits >> 8 & 1;
        row.level = self.number(bits)?;
        if row.is_placed() {
            Ok(())
        } else {
            Err(refusal::IMAGE_LEVEL)
        }
    }

    #[inline]
    fn set(&mut self, kind: u32, p: usize) -> Result<u16, u16> {
        let set = self.bits(kind, p as u32, 0xFFFF)?;
        if set <= everyone(self.n) {
            Ok(set)
        } else {
            Err(refusal::IMAGE_RANGE)
        }
    }

    /// Bits 7-0 as a number below n.
    #[inline]
    fn number(&self, bits: u16) -> Result<u16, u16> {
        let number = bits & 0xFF;
        if usize::from(number) < self.n {
            Ok(number)
        } else {
            Err(refusal::IMAGE_RANGE)
        }
    }
}

/// Writes the image of a sound table into the first lent words, as many as it has, and touches no other: 6, 7, then 13.
pub fn write_image(rows: &[Row], lent: &mut [u32]) -> u16 {
    let refused = check(rows);
    if refused != refusal::NONE {
        return refused;
    }
    let Some(lent) = lent.get_mut(..image_length(rows.len())) else {
        return refusal::LENT_TOO_FEW;
    };
    write(rows, lent);
    refusal::NONE
}

/// Writes the image of a sound table into lent words, which are as many as it has. It is not inlined, since the run of the
/// C call is slower with it.
#[inline(never)]
pub(crate) fn write<W: Word>(rows: &[Row], lent: &mut [W]) {
    let n = rows.len();
    lent[0] = W::of(HEADER + n as u32);
    let (own, others) = lent[1..].split_at_mut(4 * n);
    let (turns, passes) = others.split_at_mut(n - 1);
    for (p, (row, words)) in rows.iter().zip(own.as_chunks_mut().0).enumerate() {
        *words = [
            W::of(word(STATE, p as u32) | state(row)),
            W::of(word(EST, p as u32) | u32::from(row.est)),
            W::of(word(LIS, p as u32) | u32::from(row.lis)),
            W::of(word(AHEAD, p as u32) | u32::from(row.ahead)),
        ];
    }
    for (k, (row, cell)) in rows.iter().skip(1).zip(turns).enumerate() {
        *cell = W::of(word(TURN, k as u32 + 1) | u32::from(row.turn));
    }
    for (q, (row, words)) in rows.iter().zip(passes.chunks_exact_mut(n)).enumerate() {
        for (r, (count, cell)) in row.passes.iter().zip(words).enumerate() {
            *cell = W::of(word(PASSES, of_pair(q, r)) | u32::from(*count));
        }
    }
}

/// A word of a kind with a number in bits 27-16, and no other bits.
#[inline(always)]
pub(crate) fn word(kind: u32, number: u32) -> u32 {
    kind << 28 | number << 16
}

/// The number of a pair in bits 27-16: q, then r, with four bits between them.
#[inline(always)]
pub(crate) fn of_pair(q: usize, r: usize) -> u32 {
    (q as u32) << 8 | r as u32
}

/// Bits 15-0 of the word for a location, act, bb and the level.
pub(crate) fn state(row: &Row) -> u32 {
    u32::from(code(row.loc)) << 12 | u32::from(row.act) << 9 | u32::from(row.bb) << 8 | u32::from(row.level)
}
