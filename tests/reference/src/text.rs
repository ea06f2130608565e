//! The printed run.

use crate::bytes::{read_input, words, Bad, Input};
use crate::cell::{Cell, ACT, READ};
use crate::refusal;
use crate::row::at_30;
use crate::run::{take_all, Ran, MOST_WORDS};
use crate::settings::Settings;
use crate::step::Event;

/// Room for every text.
pub const MOST_TEXT: usize = 180_260;

/// Prints into the first lent bytes and touches no other, or none where the text does not fit. Answers the text's length.
pub fn print_into(input: &[u8], lent: &mut [u8]) -> usize {
    if let Some(room) = lent.get_mut(..room_for(input)) {
        return print(input, room);
    }
    let text = text(input);
    if let Some(lent) = lent.get_mut(..text.len()) {
        lent.copy_from_slice(&text);
    }
    text.len()
}

/// What the printing program writes for an input.
pub fn text(input: &[u8]) -> Vec<u8> {
    let mut text = vec![0; room_for(input)];
    let length = print(input, &mut text);
    text.truncate(length);
    text
}

/// Room for the text of an input: a word of 4 bytes has a line of at most 22.
fn room_for(input: &[u8]) -> usize {
    MOST_TEXT.min(22 * (input.len() / 4) + 36)
}

/// Prints into bytes that have room, and answers the text's length.
fn print(input: &[u8], room: &mut [u8]) -> usize {
    let mut page = Page { room, length: 0 };
    match read_input(input) {
        Ok(input) => page.run(input),
        Err(Bad::Bytes) => page.line(b"input ", &[refusal::INPUT_BYTES.into()]),
        Err(Bad::Image { refusal, place }) => page.line(b"image ", &[place as u32, refusal.into()]),
    }
    page.length
}

/// Bytes with room for a text, and the length of what is printed by now.
struct Page<'a> {
    room: &'a mut [u8],
    length: usize,
}

impl Page<'_> {
    fn run(&mut self, input: Input) {
        let Input { mut table, events } = input;
        self.line(b"posts ", &[table.len() as u32]);
        let ran = if events.len() > 4 * MOST_WORDS {
            Ran::refused(refusal::TOO_MANY_WORDS)
        } else {
            let (mut place, mut inside) = (0, at_30(&table));
            take_all(&mut table, words(events), Settings::SAFE, |event| {
                inside += u16::from(event.after == 30);
                inside -= u16::from(event.before == 30);
                self.taken_line(place, event, inside);
                place += 1;
            })
        };
        match ran.refusal {
            0 => self.line(b"done ", &[ran.taken]),
            refused => self.line(b"stop ", &[ran.taken, refused]),
        }
    }

    /// A line: what it begins with, then numbers with single spaces between them.
    fn line(&mut self, begin: &[u8], numbers: &[u32]) {
        begin.iter().for_each(|&byte| self.byte(byte));
        for (i, &number) in numbers.iter().enumerate() {
            if i > 0 {
                self.byte(b' ');
            }
            self.number(number);
        }
        self.byte(b'\n');
    }

    /// The line of a taken word: numbers, and then the cell that it used.
    #[inline(always)]
    fn taken_line(&mut self, place: u32, event: Event, inside: u16) {
        for number in [place, event.p as u32, event.before.into(), event.after.into(), inside.into()] {
            self.number(number);
            self.byte(b' ');
        }
        self.cell(event.cell);
        self.byte(b'\n');
    }

    #[inline(always)]
    fn cell(&mut self, cell: Cell) {
        if cell.access == 0 {
            return self.byte(b'-');
        }
        self.byte(if cell.access == READ { b'r' } else { b'w' });
        self.byte(if cell.variable == ACT { b'a' } else { b't' });
        self.number(cell.index.into());
    }

    /// The digits of a number below 10,000.
    #[inline(always)]
    fn number(&mut self, number: u32) {
        if number >= 1000 {
            self.digit(number / 1000);
        }
        if number >= 100 {
            self.digit(number / 100 % 10);
        }
        if number >= 10 {
            self.digit(number / 10 % 10);
        }
        self.digit(number % 10);
    }

    #[inline(always)]
    fn digit(&mut self, digit: u32) {
        self.byte(b'0' + digit as u8);
    }

    #[inline(always)]
    fn byte(&mut self, byte: u8) {
        self.room[self.length] = byte;
        self.length += 1;
    }
}
