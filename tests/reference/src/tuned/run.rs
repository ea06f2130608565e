//! Runs: words in order up to the first refused one, and the tally that goes along.

use super::row::check_under;
use super::step::Machine;
use crate::run::MOST_WORDS;
use crate::{refusal, Event, Ran, Row, Settings, Tally};

/// Runs the words over the rows. A run refused with 6, 7, 18 or 12 changes no row and leaves the tally zero.
pub fn run(rows: &mut [Row], words: &[u32], tally: &mut Tally, settings: Settings) -> Ran {
    let refused = match check_under(rows, settings) {
        refusal::NONE if words.len() > MOST_WORDS => refusal::TOO_MANY_WORDS,
        refused => refused,
    };
    let ran;
    (ran, *tally) = match refused {
        refusal::NONE => run_sound(rows, words, settings),
        _ => (Ran::refused(refused), Tally::default()),
    };
    ran
}

/// A run and its tally; apart from the checks, so that it has the registers to itself.
#[inline(never)]
fn run_sound(rows: &mut [Row], words: &[u32], settings: Settings) -> (Ran, Tally) {
    let mut machine = Machine::new(rows, settings);
    let ran = machine.take_all(words.iter().copied(), |_| ());
    (ran, Tally { words: ran.taken, comes: machine.comes, arrivals: machine.arrivals })
}

impl Machine<'_> {
    /// Takes words up to the first refused one and shows each event to `see`.
    #[inline(always)]
    fn take_all(&mut self, mut words: impl ExactSizeIterator<Item = u32>, mut see: impl FnMut(Event)) -> Ran {
        let count = words.len() as u32;
        while let Some(word) = words.next() {
            match self.take(word) {
                Ok(event) => see(event),
                Err(refused) => {
                    let taken = count - 1 - words.len() as u32;
                    return Ran { taken, refusal: refused.into(), cell: self.cell() };
                }
            }
        }
        Ran { taken: count, refusal: 0, cell: self.cell() }
    }
}

/// The same for rows that are known to be sound, and settings that are known to be among the six.
#[inline(always)]
pub(crate) fn take_all(
    rows: &mut [Row],
    words: impl ExactSizeIterator<Item = u32>,
    settings: Settings,
    see: impl FnMut(Event),
) -> Ran {
    Machine::new(rows, settings).take_all(words, see)
}
