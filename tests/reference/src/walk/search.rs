//! Breadth first over the tables that accepted words lead to, passes apart; each of them, without passes, is given every
//! candidate word once.

use super::exchange::Exchange;
use super::full::Full;
use super::packed::{pack, unpack, Tables};
use super::silence::Silence;
use super::under::Under;
use crate::word::{join, CANCEL, STAY};
use crate::Row;

/// What is done at the tables of a walk.
pub trait Guide<const N: usize> {
    /// What ends a walk.
    type Finding;

    /// Looks at a table and gives it every word; tells `each` the word and what it led to, None where it was refused.
    /// Answers what it counted of pairs of words, of rounds, of words to tables with passes and of words under settings.
    fn visit(
        &self,
        rows: &[Row; N],
        words: &[u32],
        each: impl FnMut(u32, Option<[Row; N]>),
    ) -> Result<Visited, Self::Finding>;
}

/// What is counted at one table, or at all tables of a walk, beside its words.
#[derive(Clone, Copy, Debug, Default, PartialEq, Eq)]
pub struct Visited {
    pub exchange: Exchange,
    pub silence: Silence,
    pub full: Full,
    pub under: Under,
}

impl std::ops::AddAssign for Visited {
    fn add_assign(&mut self, more: Visited) {
        self.exchange += more.exchange;
        self.silence += more.silence;
        self.full += more.full;
        self.under += more.under;
    }
}

/// What a walk counted. Accepted and refused words are pairs of a table and a word.
#[derive(Clone, Copy, Debug, Default, PartialEq, Eq)]
pub struct Figures {
    pub tables: u64,
    pub accepted: u64,
    pub refused: u64,
    pub visited: Visited,
}

/// What was found at a table, and a shortest list of words that leads to it, passes apart, with the rows where the list
/// begins.
#[derive(Clone, Debug)]
pub struct Found<F> {
    pub finding: F,
    pub start: Vec<Row>,
    pub words: Vec<u32>,
}

/// The candidate words: every kind, every process and every argument from 0 to N. No table takes the argument N, so that
/// refusals 10 and 11 are met besides the accepted words.
pub fn candidates(n: u32) -> Vec<u32> {
    let arguments = |kind, process| (0..=n).map(move |argument| join(kind, process, argument));
    (STAY..=CANCEL).flat_map(|kind| (0..n).flat_map(move |process| arguments(kind, process))).collect()
}

/// Walks from the starts until no table is new, or until something is found.
pub fn walk<const N: usize, G: Guide<N>>(starts: &[[Row; N]], guide: &G) -> Result<Figures, Found<G::Finding>> {
    let words = candidates(N as u32);
    let (mut met, mut figures) = (Met::default(), Figures::default());
    starts.iter().for_each(|rows| met.note(pack(rows), met.tables.len(), 0));
    let mut place = 0;
    while let Some(&table) = met.tables.get(place) {
        let visited = guide.visit(&unpack(table), &words, |word, led_to| match led_to {
            Some(rows) => {
                figures.accepted += 1;
                met.note(pack(&rows), place, word);
            }
            None => figures.refused += 1,
        });
        match visited {
            Ok(visited) => figures.visited += visited,
            Err(finding) => {
                let (start, words) = met.way_to(place);
                return Err(Found { finding, start: unpack::<N>(start).to_vec(), words });
            }
        }
        place += 1;
    }
    figures.tables = place as u64;
    Ok(figures)
}

/// The tables met, in the order in which they were; and for each the place of the one that it was met from, and the word. A
/// start was met from itself.
#[derive(Default)]
struct Met {
    set: Tables,
    tables: Vec<u64>,
    from: Vec<(u32, u32)>,
}

impl Met {
    fn note(&mut self, table: u64, parent: usize, word: u32) {
        if self.set.insert(table) {
            self.tables.push(table);
            self.from.push((parent as u32, word));
        }
    }

    /// The start that a table was met from, and the words between them.
    fn way_to(&self, mut place: usize) -> (u64, Vec<u32>) {
        let mut words = Vec::new();
        while self.from[place].0 as usize != place {
            let (parent, word) = self.from[place];
            words.push(word);
            place = parent as usize;
        }
        words.reverse();
        (self.tables[place], words)
    }
}
