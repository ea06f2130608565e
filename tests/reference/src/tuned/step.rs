//! One step on rows in place (manual, "Steps", "Ahead sets", "Passes", "Shared cells" and "Settings"; but for CANCEL, the
//! paper, sections 3.2 and 3.4; the passes are those of section 4.1).

use super::row::{check_under, size};
use super::used::Used;
use crate::cell::{ACT, READ, TURN, WRITTEN};
use crate::row::{competing, everyone, only, MOST};
use crate::settings::{ACT_PLAIN, TURN_ONE_WRITER, TURN_PLAIN};
use crate::word::{process_of, split, Parts, CANCEL, COME, FLICKER, GO, LOOK, STAY};
use crate::{refusal, Cell, Event, Row, Settings, StepAnswer};

/// The step as the exported function answers it.
#[inline]
pub fn step_in(rows: &mut [Row], word: u32, settings: Settings) -> StepAnswer {
    match step(rows, word, settings) {
        Ok(Event { cell, .. }) => StepAnswer { refusal: refusal::NONE, cell },
        Err(refusal) => StepAnswer { refusal, cell: Cell::NONE },
    }
}

/// Moves the rows by one word. A refused word, a refused table or refused settings change no row.
#[inline(always)]
fn step(rows: &mut [Row], word: u32, settings: Settings) -> Result<Event, u16> {
    match check_under(rows, settings) {
        refusal::NONE => Machine::for_one(rows, settings).take(word),
        refused => Err(refused),
    }
}

/// Sound rows, and beside them the settings, the cell of the last word taken, and how many COMEs and arrivals there were.
/// The sets of competing processes and of those with act 1 are kept up from step to step, or found where they are asked
/// for if they are not kept.
pub struct Machine<'a> {
    rows: &'a mut [Row],
    settings: Settings,
    competing: Option<u16>,
    acts: Option<u16>,
    used: Used,
    pub comes: u32,
    pub arrivals: u32,
}

impl<'a> Machine<'a> {
    /// The rows must be sound, and the settings among the six.
    #[inline(always)]
    pub fn new(rows: &'a mut [Row], settings: Settings) -> Self {
        let competing = Some(competing(rows));
        Machine { competing, ..Machine::for_one(rows, settings) }
    }

    /// The same for rounds, which are LOOKs for the most part: the processes with act 1 are kept too. Runs, whose words
    /// are of every kind, are slower with them.
    #[inline(always)]
    pub fn for_rounds(rows: &'a mut [Row]) -> Self {
        let acts = Some(rows.iter().rev().fold(0, |set, row| set << 1 | row.act));
        Machine { acts, ..Machine::new(rows, Settings::SAFE) }
    }

    /// The same for one word; few words ask who competes, so that it is not kept.
    #[inline(always)]
    fn for_one(rows: &'a mut [Row], settings: Settings) -> Self {
        debug_assert_eq!(check_under(rows, settings), refusal::NONE);
        Machine { rows, settings, competing: None, acts: None, used: Used::NONE, comes: 0, arrivals: 0 }
    }

    #[inline(always)]
    pub fn rows(&self) -> &[Row] {
        self.rows
    }

    /// The cell of the last word taken, none where none was.
    #[inline(always)]
    pub fn cell(&self) -> Cell {
        self.used.cell()
    }

    /// Takes one word, or refuses it and changes nothing. Kinds are tried one by one, the commonest first: such branches
    /// are foretold better than one jump for every kind and location. What is tried is whether the word is accepted; the
    /// refusal of one that is not is found apart, since a run meets one at most.
    #[inline(always)]
    pub fn take(&mut self, word: u32) -> Result<Event, u16> {
        let (p, argument) = (process_of(word) as usize, (word & ARGUMENT) as usize);
        let Some(row) = self.rows.get(p) else {
            return Err(refusal_of(self.rows, word));
        };
        let before = row.loc;
        let (order, kind) = (word & !PROCESS, word & !PROCESS & !ARGUMENT);
        let mut used = Used::NONE;
        let led = if order == GO << 28 {
            self.go(p, &mut used)
        } else if kind == LOOK << 28 {
            used = Used::of(READ, ACT, argument);
            self.look(p, argument)
        } else if kind == FLICKER << 28 {
            self.flicker(p, argument, &mut used)
        } else {
            self.shift(order, p)
        };
        match led {
            Some(after) => {
                self.used = used;
                Ok(Event { kind: word >> 28, p, before, after, cell: used.cell() })
            }
            None => Err(refusal_of(self.rows, word)),
        }
    }

    /// STAY, COME and CANCEL, which change the location alone. This and the next three answer the location that the word
    /// leads to, or none where it is refused; `order` is a word without its process.
    #[inline(always)]
    fn shift(&mut self, order: u32, p: usize) -> Option<u16> {
        let row = &mut self.rows[p];
        match (order, row.loc) {
            (STAY_ORDER, 10) => return Some(10),
            (COME_ORDER, 10) => {
                row.loc = 20;
                self.comes += 1;
            }
            (CANCEL_ORDER, 20) => row.loc = 40,
            _ => return None,
        }
        Some(row.loc)
    }

    /// FLICKER: act of p at 20 and at 40, the turn cell of the level at 24.
    #[inline(always)]
    fn flicker(&mut self, p: usize, argument: usize, used: &mut Used) -> Option<u16> {
        let n = self.rows.len();
        let row = &mut self.rows[p];
        match row.loc {
            20 | 40 if argument <= 1 && self.settings.act != ACT_PLAIN => {
                row.act = argument as u16;
                self.acts = self.acts.map(|set| set & !only(p) | row.act << p);
                *used = Used::of(WRITTEN, ACT, p);
                Some(row.loc)
            }
            24 if argument < n && self.settings.turn != TURN_PLAIN => {
                let level = usize::from(row.level);
                self.rows[level].turn = argument as u16;
                *used = Used::of(WRITTEN, TURN, level);
                Some(24)
            }
            _ => None,
        }
    }

    /// LOOK at q, which must be a member of lis.
    #[inline(always)]
    fn look(&mut self, p: usize, q: usize) -> Option<u16> {
        let row = &self.rows[p];
        let listed = q < self.rows.len() && row.loc == 22 && row.lis & only(q) != 0;
        listed.then(|| self.look_at(p, q))
    }

    /// GO, by the location.
    #[inline(always)]
    fn go(&mut self, p: usize, used: &mut Used) -> Option<u16> {
        let row = &mut self.rows[p];
        let after = match row.loc {
            20 => self.enter(p, used)?,
            21 => self.pass(p),
            22 if row.lis == 0 => 23,
            23 => self.reconsider(p, used)?,
            24 => self.push(p, used),
            30 => self.leave(p),
            40 => {
                row.act = 0;
                self.acts = self.acts.map(|set| set & !only(p));
                *used = Used::of(WRITTEN, ACT, p);
                10
            }
            _ => return None,
        };
        self.rows[p].loc = after;
        Some(after)
    }

    /// Gives process p its word of a round, and answers the location that it leads to: STAY at 10, LOOK at the lowest
    /// member of lis at 22, GO elsewhere and where lis is empty. Every table takes it, but for an entry that would carry
    /// a count too far.
    #[inline(always)]
    pub fn advance(&mut self, p: usize) -> Result<u16, u16> {
        let row = &mut self.rows[p];
        let lis = row.lis;
        let mut used = Used::NONE;
        let led = match row.loc {
            10 => return Ok(10),
            22 if lis != 0 => Some(self.look_at(p, lis.trailing_zeros() as usize)),
            _ => self.go(p, &mut used),
        };
        led.ok_or(refusal::FULL_COUNT)
    }

    /// All processes but p.
    #[inline(always)]
    fn others(&self, p: usize) -> u16 {
        everyone(self.rows.len()) & !only(p)
    }

    /// The set of competing processes.
    #[inline(always)]
    fn competing(&self) -> u16 {
        self.competing.unwrap_or_else(|| competing(self.rows))
    }

    /// GO at 20: process p passes all that compete, and competes from now on. None where a count is full.
    #[inline(always)]
    fn enter(&mut self, p: usize, used: &mut Used) -> Option<u16> {
        let (n, others, competing) = (self.rows.len(), self.others(p), self.competing());
        let row = &mut self.rows[p];
        row.passes = one_more(row.passes, competing)?;
        row.act = 1;
        self.acts = self.acts.map(|set| set | only(p));
        row.level = n as u16 - 1;
        row.est = others;
        row.ahead = competing;
        self.competing = self.competing.map(|set| set | only(p));
        *used = Used::of(WRITTEN, ACT, p);
        Some(21)
    }

    /// GO at 21: a pass over est begins, or the critical section.
    #[inline(always)]
    fn pass(&mut self, p: usize) -> u16 {
        let row = &mut self.rows[p];
        let above_0 = row.level > 0;
        row.lis = if above_0 { row.est } else { row.lis };
        self.arrivals += u32::from(!above_0);
        if above_0 {
            22
        } else {
            30
        }
    }

    /// GO at 24: the turn cell of the level names p.
    #[inline(always)]
    fn push(&mut self, p: usize, used: &mut Used) -> u16 {
        let (competing, others) = (self.competing(), self.others(p));
        let row = &mut self.rows[p];
        row.bb = 1;
        row.est = others;
        row.ahead = competing & others;
        let level = usize::from(row.level);
        self.rows[level].turn = p as u16;
        *used = Used::of(WRITTEN, TURN, level);
        21
    }

    /// GO at 30: p leaves every ahead set, nobody has passes over it any more, and it competes no longer.
    #[inline(always)]
    fn leave(&mut self, p: usize) -> u16 {
        forget(self.rows, p);
        self.competing = self.competing.map(|set| set & !only(p));
        40
    }

    /// LOOK at q: it leaves lis of p, and est too if its act is 0.
    #[inline(always)]
    fn look_at(&mut self, p: usize, q: usize) -> u16 {
        let acts = self.acts.unwrap_or_else(|| self.rows[q].act << q);
        let row = &mut self.rows[p];
        row.lis &= !only(q);
        row.est &= acts | !only(q);
        22
    }

    /// GO at 23: the size of est decides first, then bb, then the turn cell of the level, which only then counts as
    /// read. Where the settings say so, nobody goes to 24 while the cell has a writer, and the answer is none.
    #[inline(always)]
    fn reconsider(&mut self, p: usize, used: &mut Used) -> Option<u16> {
        if self.settings.turn == TURN_ONE_WRITER && waits_for_writer(self.rows, p) {
            return None;
        }
        let Row { level, bb, est, .. } = self.rows[p];
        let turn = self.rows[usize::from(level)].turn;
        let size = size(est);
        let moves = size < level;
        let pushes = !moves & (bb == 0);
        let reads = !moves & !pushes;
        let falls = reads & (turn != p as u16);
        let row = &mut self.rows[p];
        row.level = if moves { size } else { level - u16::from(falls) };
        row.bb = if moves | falls { 0 } else { bb };
        *used = if reads { Used::of(READ, TURN, level.into()) } else { Used::NONE };
        Some(if pushes { 24 } else { 21 })
    }
}

/// The bits of a word that have its process, and those that have its argument.
const PROCESS: u32 = 0x00FF_0000;
const ARGUMENT: u32 = 0xFF;

const STAY_ORDER: u32 = STAY << 28;
const COME_ORDER: u32 = COME << 28;
const CANCEL_ORDER: u32 = CANCEL << 28;

/// The refusal of a word that is not accepted: what the settings forbid and what a full count refuses come last, and are
/// the only reasons left by then.
#[cold]
#[inline(never)]
fn refusal_of(rows: &[Row], word: u32) -> u16 {
    let Parts { kind, process, argument } = match split(word) {
        Ok(parts) => parts,
        Err(refused) => return refused,
    };
    let Some(row) = rows.get(process as usize) else {
        return refusal::NO_PROCESS;
    };
    let n = rows.len() as u32;
    let listed = match (kind, row.loc) {
        (STAY | COME, 10) | (CANCEL, 20) | (GO, 20 | 21 | 23 | 24 | 30 | 40) => argument == 0,
        (GO, 22) if row.lis == 0 => argument == 0,
        (LOOK, 22) if row.lis != 0 => argument < n && row.lis & only(argument as usize) != 0,
        (FLICKER, 20 | 40) => argument <= 1,
        (FLICKER, 24) => argument < n,
        _ => return refusal::NOT_ALLOWED,
    };
    match kind {
        _ if !listed => refusal::ARGUMENT,
        FLICKER => refusal::FORBIDDEN_FLICKER,
        GO if row.loc == 23 => refusal::FORBIDDEN_GO,
        _ => refusal::FULL_COUNT,
    }
}

/// Whether process p at 23 would go to 24 while another process at 24 has its level. It is kept out of the words' loop,
/// which is slower with it.
#[cold]
#[inline(never)]
fn waits_for_writer(rows: &[Row], p: usize) -> bool {
    let Row { level, bb, est, .. } = rows[p];
    size(est) >= level && bb == 0 && rows.iter().any(|row| row.loc == 24 && row.level == level)
}

/// Takes p out of every ahead set, and sets the passes over it to 0.
#[inline(never)]
fn forget(rows: &mut [Row], p: usize) {
    for row in rows {
        row.ahead &= !only(p);
        row.passes[p % MOST] = 0;
    }
}

/// Counts with one more for each member of a set, or none where one is full; without a branch for each.
#[inline(always)]
fn one_more(mut counts: [u16; MOST], set: u16) -> Option<[u16; MOST]> {
    let mut full = false;
    for (count, only) in counts.iter_mut().zip(ONLY) {
        let member = set & only == only;
        full |= member & (*count == u16::MAX);
        *count = count.wrapping_add(member.into());
    }
    (!full).then_some(counts)
}

/// The sets of one process each.
const ONLY: [u16; MOST] = {
    let (mut sets, mut p) = ([0; MOST], 0);
    while p < MOST {
        sets[p] = 1 << p;
        p += 1;
    }
    sets
};
