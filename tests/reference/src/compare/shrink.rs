//! Greedy shrinking: words out, bits to 0, rows to idle, images to the short form, settings to 0, less lent, as long as the
//! difference stays.

use super::pieces::{in_short_form, lent_of, rows_of, settings_of, word_list};
use super::pieces::{with_lent, with_rows, with_settings, with_words};
use super::{Case, Kind};
use crate::row::{Row, MOST};
use crate::{Settings, Tally};

/// The most cases tried; a printing program is a process for each.
const TRIES: usize = 20_000;

/// A case as small as greedy steps make it on which `differs` still holds.
pub fn shrink(case: Case, differs: &dyn Fn(&Case) -> bool) -> Case {
    let mut shrinker = Shrinker { best: case, differs, tries: TRIES };
    while shrinker.pass() && shrinker.tries > 0 {}
    shrinker.best
}

struct Shrinker<'a> {
    best: Case,
    differs: &'a dyn Fn(&Case) -> bool,
    tries: usize,
}

impl Shrinker<'_> {
    /// Keeps another case that still differs.
    fn keep(&mut self, candidate: Case) -> bool {
        if self.tries == 0 || candidate == self.best {
            return false;
        }
        self.tries -= 1;
        let kept = (self.differs)(&candidate);
        if kept {
            self.best = candidate;
        }
        kept
    }

    /// One round over all ways of making the case smaller; false if none did.
    fn pass(&mut self) -> bool {
        let later = self.later_start();
        let fewer = self.fewer_words();
        let rows = self.simpler_rows();
        let short = has_image(&self.best) && self.keep(in_short_form(&self.best));
        let bits = self.clear_bits();
        let lent = self.less_lent();
        let settings = self.simpler_settings();
        later | fewer | rows | short | bits | lent | settings
    }

    /// Clears the settings, then each, then their bits.
    fn simpler_settings(&mut self) -> bool {
        let mut changed = self.keep(with_settings(&self.best, Settings::SAFE));
        for mask in [0].into_iter().chain((0..32).rev().map(|bit| !(1 << bit))) {
            let Settings { act, turn } = settings_of(&self.best);
            changed |= self.keep(with_settings(&self.best, Settings::of(act & mask, turn)));
            let Settings { act, .. } = settings_of(&self.best);
            changed |= self.keep(with_settings(&self.best, Settings::of(act, turn & mask)));
        }
        changed
    }

    /// Starts from the rows after the first words, as many of them as can be.
    fn later_start(&mut self) -> bool {
        let mut changed = false;
        let mut stretch = word_list(&self.best).len();
        while stretch > 0 {
            if started_later(&self.best, stretch).is_some_and(|later| self.keep(later)) {
                changed = true;
            } else {
                stretch /= 2;
            }
        }
        changed
    }

    /// Leaves out stretches of words, halves first, then single ones.
    fn fewer_words(&mut self) -> bool {
        let mut changed = false;
        let mut stretch = word_list(&self.best).len();
        while stretch > 0 {
            let mut from = 0;
            while from < word_list(&self.best).len() && self.tries > 0 {
                let mut list = word_list(&self.best);
                let to = list.len().min(from + stretch);
                list.drain(from..to);
                if self.keep(with_words(&self.best, list)) {
                    changed = true;
                } else {
                    from += stretch;
                }
            }
            stretch /= 2;
        }
        changed
    }

    fn clear_bits(&mut self) -> bool {
        let mut changed = false;
        for place in 0..word_list(&self.best).len() {
            for bit in (0..32).rev() {
                let mut list = word_list(&self.best);
                if list.get(place).is_some_and(|word| word >> bit & 1 == 1) {
                    list[place] ^= 1 << bit;
                    changed |= self.keep(with_words(&self.best, list));
                }
            }
        }
        changed
    }

    /// Lends less, by much first, then by one.
    fn less_lent(&mut self) -> bool {
        let mut changed = false;
        let mut stretch = lent_of(&self.best);
        while stretch > 0 {
            let less = lent_of(&self.best).checked_sub(stretch);
            if less.is_some_and(|less| self.keep(with_lent(&self.best, less))) {
                changed = true;
            } else {
                stretch /= 2;
            }
        }
        changed
    }

    fn simpler_rows(&mut self) -> bool {
        let mut changed = false;
        let mut r = rows_of(&self.best).map_or(0, |rows| rows.len());
        while r > 0 && rows_of(&self.best).is_some_and(|rows| rows.len() > 2) {
            r -= 1;
            changed |= self.keep(without_process(&self.best, r));
        }
        let count = rows_of(&self.best).map_or(0, |rows| rows.len());
        for p in 0..count {
            for simpler in simpler_forms() {
                let Some(mut rows) = rows_of(&self.best) else { return changed };
                let row = simpler(rows[p]);
                if row != rows[p] {
                    rows[p] = row;
                    changed |= self.keep(with_rows(&self.best, rows));
                }
            }
        }
        changed
    }
}

/// Whether the case has an image that can be read.
fn has_image(case: &Case) -> bool {
    let kinds = [Kind::Call, Kind::Text, Kind::Print, Kind::ReadImage];
    kinds.contains(&case.kind()) && rows_of(case).is_some()
}

/// Ways to make one row simpler.
fn simpler_forms() -> Vec<Box<dyn Fn(Row) -> Row>> {
    let mut forms: Vec<Box<dyn Fn(Row) -> Row>> = vec![
        Box::new(|_| Row::IDLE),
        Box::new(|row| Row { act: 0, ..row }),
        Box::new(|row| Row { bb: 0, ..row }),
        Box::new(|row| Row { level: 0, ..row }),
        Box::new(|row| Row { level: row.level.min(1), ..row }),
        Box::new(|row| Row { turn: 0, ..row }),
        Box::new(Row::without_passes),
    ];
    for bit in 0..16 {
        forms.push(Box::new(move |row| Row { est: row.est & !(1 << bit), ..row }));
        forms.push(Box::new(move |row| Row { lis: row.lis & !(1 << bit), ..row }));
        forms.push(Box::new(move |row| Row { ahead: row.ahead & !(1 << bit), ..row }));
        forms.push(Box::new(move |row| Row { passes: with_0(row.passes, bit), ..row }));
    }
    forms
}

fn with_0(mut passes: [u16; MOST], r: usize) -> [u16; MOST] {
    passes[r] = 0;
    passes
}

/// The case with its first words done, if they are all taken.
fn started_later(case: &Case, count: usize) -> Option<Case> {
    let (mut rows, mut words) = (rows_of(case)?, word_list(case));
    if count > words.len() || matches!(case, Case::Step { .. }) {
        return None;
    }
    let rest = words.split_off(count);
    let ran = crate::run(&mut rows, &words, &mut Tally::default(), settings_of(case));
    (ran.refusal == 0).then(|| with_words(&with_rows(case, rows), rest))
}

/// A number of a process, or of a level and its turn cell, once r is gone.
fn renumbered(number: u16, r: usize) -> u16 {
    number - u16::from(usize::from(number) > r)
}

/// A set once r is gone from among the processes.
fn closed_up(set: u16, r: usize) -> u16 {
    let low = (1u64 << r) - 1;
    (u64::from(set) & low | (u64::from(set) >> 1) & !low) as u16
}

/// Passes once r is gone from among the processes.
fn moved_up(mut passes: [u16; MOST], r: usize) -> [u16; MOST] {
    if r < MOST {
        passes.copy_within(r + 1.., r);
        passes[MOST - 1] = 0;
    }
    passes
}

/// The case without process r: those above move down by one, in rows, sets, cells and words.
fn without_process(case: &Case, r: usize) -> Case {
    let Some(mut rows) = rows_of(case) else { return case.clone() };
    if r >= rows.len() {
        return case.clone();
    }
    rows.remove(r);
    let top = rows.len() as u16 - 1;
    for row in &mut rows {
        row.est = closed_up(row.est, r);
        row.lis = closed_up(row.lis, r);
        row.ahead = closed_up(row.ahead, r);
        row.passes = moved_up(row.passes, r);
        row.level = renumbered(row.level, r).min(top);
        row.turn = renumbered(row.turn, r).min(top);
    }
    rows[0].turn = 0;
    let fewer = with_rows(case, rows);
    if matches!(case, Case::ReadImage { .. }) {
        return fewer;
    }
    let others = word_list(case).into_iter().filter(|word| (word >> 16 & 0xFF) as usize != r);
    with_words(&fewer, others.map(|word| moved_down(word, r)).collect())
}

/// An event word once process r is gone.
fn moved_down(word: u32, r: usize) -> u32 {
    let process = renumbered((word >> 16 & 0xFF) as u16, r);
    let argument = match word >> 28 {
        3 | 5 => renumbered((word & 0xFF) as u16, r),
        _ => (word & 0xFF) as u16,
    };
    word & !0x00FF_00FF | u32::from(process) << 16 | u32::from(argument)
}
