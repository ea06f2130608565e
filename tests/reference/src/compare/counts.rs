//! What a comparison has met, so that it cannot go blind.

use super::passes::Passes;
use super::pieces::settings_of;
use super::rounds::Rounds;
use super::settings::Forbidden;
use super::{Answer, Case, Kind};
use crate::bytes::{read_input, words};
use crate::row::{at_30, Row, LOCATIONS, MOST};
use crate::run::{take_all, Ran, MOST_WORDS};
use crate::word::CANCEL;
use crate::{Cell, Settings};

/// The cells that are told, by their letters.
pub const CELLS: [&str; 5] = ["-", "ra", "wa", "rt", "wt"];

/// Cells told by accepted steps, by runs that took a word, and by printed lines.
#[derive(Clone, Debug, Default)]
pub struct Cells {
    pub steps: [u64; CELLS.len()],
    pub runs: [u64; CELLS.len()],
    pub lines: [u64; CELLS.len()],
    /// Lines with an index of two digits.
    pub wide: u64,
    /// Runs that a word stopped, with the cell of an earlier one.
    pub stops: u64,
    /// Runs that took no word.
    pub without: u64,
}

/// Calls by kind, refusals by kind and number, words taken; for each number of processes the CANCELs among these, the
/// lines of printed runs with two or more at 30, and visits of each location; lines with ten or more at 30; cells told;
/// what rounds answered; passes and the forms of images; what settings forbid and leave.
#[derive(Clone, Debug, Default)]
pub struct Counts {
    pub calls: [u64; Kind::ALL.len()],
    pub refusals: [[u64; REFUSALS]; Kind::ALL.len()],
    pub words: u64,
    pub cancels: [u64; MOST + 1],
    pub together: [u64; MOST + 1],
    pub ten_together: u64,
    pub visits: [[u64; LOCATIONS.len()]; MOST + 1],
    pub cells: Cells,
    pub rounds: Rounds,
    pub passes: Passes,
    pub forbidden: Forbidden,
}

/// The refusals by number, and 0.
const REFUSALS: usize = 19;

impl Counts {
    pub fn note(&mut self, case: &Case, answer: &Answer) {
        let kind = case.kind() as usize;
        self.calls[kind] += 1;
        self.refusals[kind][answer.refusal() as usize] += 1;
        self.cells.note(answer);
        self.rounds.note(answer);
        self.passes.note(case, answer);
        self.forbidden.note(case, answer);
        let settings = settings_of(case);
        match (case, answer.refusal()) {
            (_, 1..=7 | 12..=14 | 18) => {}
            (Case::Call { input, .. }, _) => self.walk_input(&input.bytes, settings, false),
            (Case::Print { input, .. }, _) => self.walk_input(&input.bytes, settings, true),
            (Case::Text { bytes }, _) => self.walk_input(bytes, settings, true),
            (Case::Run { rows, words, .. }, _) => self.walk(&mut rows.clone(), words.iter().copied(), settings, false),
            (Case::Step { rows, word, .. }, _) => self.walk(&mut rows.clone(), [*word].into_iter(), settings, false),
            _ => {}
        }
    }

    fn walk_input(&mut self, bytes: &[u8], settings: Settings, printed: bool) {
        if let Ok(mut input) = read_input(bytes) {
            self.walk(&mut input.table, words(input.events), settings, printed);
        }
    }

    fn walk(&mut self, rows: &mut [Row], words: impl ExactSizeIterator<Item = u32>, settings: Settings, printed: bool) {
        let n = rows.len();
        let mut inside = at_30(rows);
        let ran = take_all(rows, words.take(MOST_WORDS), settings, |event| {
            let code = LOCATIONS.iter().position(|&loc| loc == event.after).expect("a location");
            self.visits[n][code] += 1;
            self.cancels[n] += u64::from(event.kind == CANCEL);
            inside += u16::from(event.after == 30);
            inside -= u16::from(event.before == 30);
            self.together[n] += u64::from(printed && inside >= 2);
            self.ten_together += u64::from(printed && inside >= 10);
            if printed {
                self.cells.note_line(event.cell);
            }
        });
        self.words += u64::from(ran.taken);
    }

    /// The refusals that calls of a kind can meet.
    fn possible(kind: Kind) -> &'static [usize] {
        match kind {
            Kind::Call => &[0, 1, 2, 3, 4, 5, 8, 9, 10, 11, 12, 13, 14, 15, 16, 17, 18],
            Kind::Print => &[0, 1, 2, 3, 4, 5, 8, 9, 10, 11, 12, 13, 14, 15],
            Kind::Text => &[0, 1, 2, 3, 4, 5, 8, 9, 10, 11, 12, 14, 15],
            Kind::Step => &[0, 6, 7, 8, 9, 10, 11, 15, 16, 17, 18],
            Kind::Run => &[0, 6, 7, 8, 9, 10, 11, 12, 15, 16, 17, 18],
            Kind::Census => &[0, 6, 7],
            Kind::Rounds => &[0, 6, 7, 15],
            Kind::Fresh => &[0, 6],
            Kind::TakeApart => &[0, 8, 9],
            Kind::PutTogether => &[0, 8, 9, 11],
            Kind::ReadImage => &[0, 1, 2, 3, 4, 5, 13],
            Kind::WriteImage => &[0, 6, 7, 13],
        }
    }

    /// Whether texts were asked for.
    fn prints(&self) -> bool {
        self.calls[Kind::Print as usize] + self.calls[Kind::Text as usize] > 0
    }

    /// What was never met by the kinds of call that were made; empty if the comparison saw everything.
    pub fn unseen(&self) -> Vec<String> {
        let mut unseen = Vec::new();
        for kind in Kind::ALL {
            let met = &self.refusals[kind as usize];
            let asked = self.calls[kind as usize] > 0;
            let missing = Self::possible(kind).iter().filter(|&&number| asked && met[number] == 0);
            unseen.extend(missing.map(|number| format!("{kind:?} never met refusal {number}")));
        }
        for n in 2..=MOST {
            let missing = LOCATIONS.iter().zip(self.visits[n]).filter(|(_, visits)| *visits == 0);
            unseen.extend(missing.map(|(loc, _)| format!("no visit of {loc} with {n} processes")));
            if self.cancels[n] == 0 {
                unseen.push(format!("no CANCEL taken with {n} processes"));
            }
            if self.together[n] == 0 && self.prints() {
                unseen.push(format!("no line with two at 30 of {n} processes"));
            }
        }
        if self.ten_together == 0 && self.prints() {
            unseen.push("no line with ten at 30".to_string());
        }
        unseen.extend(self.cells_unseen());
        if self.calls[Kind::Rounds as usize] > 0 {
            unseen.extend(self.rounds.unseen());
        }
        unseen.extend(self.passes.unseen(|kind| self.calls[kind as usize] > 0));
        unseen.extend(self.forbidden.unseen(|kind| self.calls[kind as usize] > 0));
        unseen
    }

    /// The same of cells.
    fn cells_unseen(&self) -> Vec<String> {
        let Cells { steps, runs, lines, wide, stops, without } = self.cells;
        let (stepped, ran) = (self.calls[Kind::Step as usize] > 0, self.calls[Kind::Run as usize] > 0);
        let mut unseen = Vec::new();
        for (what, asked, told) in [("step", stepped, steps), ("run", ran, runs), ("line", self.prints(), lines)] {
            let missing = CELLS.iter().zip(told).filter(|(_, count)| asked && *count == 0);
            unseen.extend(missing.map(|(letters, _)| format!("no {what} with cell {letters}")));
        }
        let others = [
            (self.prints() && wide == 0, "no line with a cell of two digits"),
            (ran && stops == 0, "no run that stops with a cell"),
            (ran && without == 0, "no run that takes no word"),
        ];
        unseen.extend(others.iter().filter(|(missing, _)| *missing).map(|(_, what)| what.to_string()));
        unseen
    }

    /// Refusal numbers met, all kinds together.
    pub fn met(&self) -> [u64; REFUSALS] {
        let mut sum = [0; REFUSALS];
        for met in &self.refusals {
            sum.iter_mut().zip(met).for_each(|(sum, met)| *sum += met);
        }
        sum
    }

    /// The table of visits, then one line with everything, by the seed of the cases.
    pub fn report(&self, seed: u64) -> String {
        let mut out = String::from("visits  N");
        LOCATIONS.iter().for_each(|loc| out += &format!("{loc:>10}"));
        let mut total = [0; LOCATIONS.len()];
        for n in 2..=MOST {
            out += &format!("\n       {n:2}");
            for (code, visits) in self.visits[n].iter().enumerate() {
                out += &format!("{visits:>10}");
                total[code] += visits;
            }
        }
        let calls = Kind::ALL.iter().map(|&kind| (format!("{kind:?}"), self.calls[kind as usize]));
        let refusals = self.met().into_iter().enumerate().map(|(number, met)| (number.to_string(), met));
        let visits = LOCATIONS.iter().map(|loc| loc.to_string()).zip(total);
        out + &format!(
            "\nsummary: seed {seed}: calls [{}] words {} cancels {} lines with two at 30 {}, with ten {} {} {} {} {} \
             refusals [{}] visits [{}]",
            listed(calls),
            self.words,
            self.cancels.iter().sum::<u64>(),
            self.together.iter().sum::<u64>(),
            self.ten_together,
            self.cells.report(),
            self.rounds.report(),
            self.passes.report(),
            self.forbidden.report(),
            listed(refusals),
            listed(visits)
        )
    }
}

impl Cells {
    fn note(&mut self, answer: &Answer) {
        match answer {
            Answer::Step { stepped, .. } if stepped.refusal == 0 => self.steps[letters(stepped.cell)] += 1,
            Answer::Run { ran: Ran { taken: 0, .. }, .. } => self.without += 1,
            Answer::Run { ran, .. } => {
                self.runs[letters(ran.cell)] += 1;
                self.stops += u64::from(ran.refusal != 0 && ran.cell != Cell::NONE);
            }
            _ => {}
        }
    }

    fn note_line(&mut self, cell: Cell) {
        self.lines[letters(cell)] += 1;
        self.wide += u64::from(cell.index >= 10);
    }

    fn report(&self) -> String {
        let named = |told: [u64; CELLS.len()]| listed(CELLS.iter().map(|name| name.to_string()).zip(told));
        let Cells { steps, runs, lines, wide, stops, without } = *self;
        format!(
            "cells of steps [{}] of runs [{}] of lines [{}] two digits {wide} stops with a cell {stops} \
             runs of no word {without}",
            named(steps),
            named(runs),
            named(lines)
        )
    }
}

/// The place of a cell's letters among the five.
fn letters(cell: Cell) -> usize {
    CELLS.iter().position(|&letters| letters == cell.letters()).expect("one of the five")
}

fn listed(pairs: impl Iterator<Item = (String, u64)>) -> String {
    let pairs: Vec<String> =
        pairs.filter(|(_, count)| *count > 0).map(|(name, count)| format!("{name}: {count}")).collect();
    pairs.join(", ")
}
