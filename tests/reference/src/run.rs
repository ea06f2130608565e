//! Runs: words in order up to the first refused one, and the tally that goes along.

use crate::cell::Cell;
use crate::refusal;
use crate::row::Row;
use crate::settings::Settings;
use crate::step::{Event, Machine};
use crate::word::COME;

pub const MOST_WORDS: usize = 8192;

/// Words taken, COMEs among them, and arrivals at 30.
#[repr(C)]
#[derive(Clone, Copy, Debug, Default, PartialEq, Eq)]
pub struct Tally {
    pub words: u32,
    pub comes: u32,
    pub arrivals: u32,
}

impl Tally {
    #[inline]
    pub(crate) fn count(&mut self, event: &Event) {
        self.words += 1;
        self.comes += u32::from(event.kind == COME);
        self.arrivals += u32::from(event.after == 30 && event.before != 30);
    }
}

/// How many words were taken, the refusal or 0, and the cell of the last word taken, none where none was.
#[repr(C)]
#[derive(Clone, Copy, Debug, Default, PartialEq, Eq)]
pub struct Ran {
    pub taken: u32,
    pub refusal: u32,
    pub cell: Cell,
}

impl Ran {
    pub(crate) fn refused(refusal: u16) -> Ran {
        Ran { taken: 0, refusal: refusal.into(), cell: Cell::NONE }
    }
}

/// Runs the words over the rows. A run refused with 6, 7, 18 or 12 changes no row and leaves the tally zero.
pub fn run(rows: &mut [Row], words: &[u32], tally: &mut Tally, settings: Settings) -> Ran {
    let mut counted = Tally::default();
    let ran = match settings.check_with(rows) {
        refusal::NONE if words.len() > MOST_WORDS => Ran::refused(refusal::TOO_MANY_WORDS),
        refusal::NONE => take_all(rows, words.iter().copied(), settings, |event| counted.count(&event)),
        refused => Ran::refused(refused),
    };
    *tally = counted;
    ran
}

/// Takes words up to the first refused one and shows each event to `see`. The rows must be sound, and the settings among
/// the six.
#[inline]
pub(crate) fn take_all(
    rows: &mut [Row],
    mut words: impl ExactSizeIterator<Item = u32>,
    settings: Settings,
    mut see: impl FnMut(Event),
) -> Ran {
    let mut machine = Machine::new(rows, settings);
    let (count, mut cell) = (words.len(), Cell::NONE);
    while let Some(word) = words.next() {
        match machine.take(word) {
            Ok(event) => {
                cell = event.cell;
                see(event);
            }
            Err(refused) => {
                let taken = (count - words.len() - 1) as u32;
                return Ran { taken, refusal: refused.into(), cell };
            }
        }
    }
    Ran { taken: count as u32, refusal: 0, cell }
}
