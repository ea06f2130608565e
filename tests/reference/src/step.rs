//! One step on rows in place (manual, "Steps", "Ahead sets", "Passes", "Shared cells" and "Settings"; but for CANCEL, the
//! paper, sections 3.2 and 3.4; the passes are those of section 4.1).

use crate::cell::{Cell, READ, TURN};
use crate::refusal;
use crate::row::{code, competing, everyone, only, Row, LOCATIONS, MOST};
use crate::settings::{Settings, ACT_PLAIN, TURN_ONE_WRITER, TURN_PLAIN};
use crate::word::{split, Parts, CANCEL, COME, FLICKER, GO, LOOK, STAY};

/// What an accepted word did: process p went from `before` to `after`, which may be the same location, and used a cell
/// or none.
#[derive(Clone, Copy, Debug, PartialEq, Eq)]
pub struct Event {
    pub kind: u32,
    pub p: usize,
    pub before: u16,
    pub after: u16,
    pub cell: Cell,
}

/// The answer of a step as the exported function gives it: the refusal or 0, and the cell that the word used.
#[repr(C)]
#[derive(Clone, Copy, Debug, Default, PartialEq, Eq)]
pub struct StepAnswer {
    pub refusal: u16,
    pub cell: Cell,
}

/// The step as the exported function answers it.
#[inline]
pub fn step_in(rows: &mut [Row], word: u32, settings: Settings) -> StepAnswer {
    match step(rows, word, settings) {
        Ok(Event { cell, .. }) => StepAnswer { refusal: refusal::NONE, cell },
        Err(refusal) => StepAnswer { refusal, cell: Cell::NONE },
    }
}

/// Moves the rows by one word. A refused word, a refused table or refused settings change no row.
#[inline(always)]
pub fn step(rows: &mut [Row], word: u32, settings: Settings) -> Result<Event, u16> {
    match settings.check_with(rows) {
        refusal::NONE => Machine::new(rows, settings).take(word),
        refused => Err(refused),
    }
}

/// The location that a word leads to, and the cell that it uses.
type Led = (u16, Cell);

/// Sound rows, and beside them the set of competing processes, kept up from step to step; and the settings.
pub(crate) struct Machine<'a> {
    rows: &'a mut [Row],
    competing: u16,
    settings: Settings,
}

impl<'a> Machine<'a> {
    /// The rows must be sound, and the settings among the six.
    pub fn new(rows: &'a mut [Row], settings: Settings) -> Self {
        debug_assert_eq!(settings.check_with(rows), refusal::NONE);
        let competing = competing(rows);
        Machine { rows, competing, settings }
    }

    pub fn rows(&self) -> &[Row] {
        self.rows
    }

    /// Takes one word, or refuses it and changes nothing. Kind and location decide in one jump, and what follows it is
    /// without branches where it can be: in a run with many processes nothing else is hard to foretell.
    #[inline(always)]
    pub fn take(&mut self, word: u32) -> Result<Event, u16> {
        let Parts { kind, process, argument } = split(word)?;
        let p = process as usize;
        let Some(row) = self.rows.get_mut(p) else {
            return Err(refusal::NO_PROCESS);
        };
        let before = row.loc;
        let (after, cell) = match kind << 3 | u32::from(code(before)) {
            STAY_10 => none(argument, 10)?,
            COME_10 => none(argument, 20)?,
            FLICKER_20 | FLICKER_40 => {
                demand(argument <= 1)?;
                allow(self.settings.act != ACT_PLAIN, refusal::FORBIDDEN_FLICKER)?;
                row.act = argument as u16;
                (before, Cell::act_written(p))
            }
            FLICKER_24 => self.flicker_turn(p, argument)?,
            LOOK_22 => self.look(p, argument)?,
            GO_20 => self.enter(p, argument)?,
            GO_21 => self.pass(p, argument)?,
            GO_22 if row.lis == 0 => none(argument, 23)?,
            GO_23 => self.reconsider(p, argument)?,
            GO_24 => self.push(p, argument)?,
            GO_30 => self.leave(p, argument)?,
            GO_40 => {
                demand(argument == 0)?;
                row.act = 0;
                (10, Cell::act_written(p))
            }
            CANCEL_20 => none(argument, 40)?,
            _ => return Err(refusal::NOT_ALLOWED),
        };
        self.rows[p].loc = after;
        Ok(Event { kind, p, before, after, cell })
    }

    /// Gives process p its word of a round, and answers the location that it leads to: STAY at 10, LOOK at the lowest
    /// member of lis at 22, GO elsewhere and where lis is empty. Every table takes it, but for an entry that would carry
    /// a count too far.
    #[inline(always)]
    pub fn advance(&mut self, p: usize) -> Result<u16, u16> {
        let row = &mut self.rows[p];
        let lis = row.lis;
        let (after, _) = match row.loc {
            10 => return Ok(10),
            20 => self.enter(p, 0)?,
            21 => self.pass(p, 0)?,
            22 if lis != 0 => self.look_at(p, lis.trailing_zeros() as usize),
            22 => none(0, 23)?,
            23 => self.reconsider(p, 0)?,
            24 => self.push(p, 0)?,
            30 => self.leave(p, 0)?,
            _ => {
                row.act = 0;
                none(0, 10)?
            }
        };
        self.rows[p].loc = after;
        Ok(after)
    }

    /// All processes but p.
    #[inline(always)]
    fn others(&self, p: usize) -> u16 {
        everyone(self.rows.len()) & !only(p)
    }

    /// FLICKER at 24: the turn cell of the level.
    #[inline(always)]
    fn flicker_turn(&mut self, p: usize, argument: u32) -> Result<Led, u16> {
        demand((argument as usize) < self.rows.len())?;
        allow(self.settings.turn != TURN_PLAIN, refusal::FORBIDDEN_FLICKER)?;
        let level = usize::from(self.rows[p].level);
        self.rows[level].turn = argument as u16;
        Ok((24, Cell::turn_written(level)))
    }

    /// GO at 20: process p passes all that compete, and competes from now on.
    #[inline(always)]
    fn enter(&mut self, p: usize, argument: u32) -> Result<Led, u16> {
        demand(argument == 0)?;
        let (n, others) = (self.rows.len(), self.others(p));
        let row = &mut self.rows[p];
        row.passes = one_more(row.passes, self.competing).ok_or(refusal::FULL_COUNT)?;
        row.act = 1;
        row.level = n as u16 - 1;
        row.est = others;
        row.ahead = self.competing;
        self.competing |= only(p);
        Ok((21, Cell::act_written(p)))
    }

    /// GO at 21: a pass over est begins, or the critical section.
    #[inline(always)]
    fn pass(&mut self, p: usize, argument: u32) -> Result<Led, u16> {
        demand(argument == 0)?;
        let row = &mut self.rows[p];
        let above_0 = row.level > 0;
        row.lis = if above_0 { row.est } else { row.lis };
        Ok((if above_0 { 22 } else { 30 }, Cell::NONE))
    }

    /// GO at 24: the turn cell of the level names p.
    #[inline(always)]
    fn push(&mut self, p: usize, argument: u32) -> Result<Led, u16> {
        demand(argument == 0)?;
        let (competing, others) = (self.competing, self.others(p));
        let row = &mut self.rows[p];
        row.bb = 1;
        row.est = others;
        row.ahead = competing & others;
        let level = usize::from(row.level);
        self.rows[level].turn = p as u16;
        Ok((21, Cell::turn_written(level)))
    }

    /// GO at 30: p leaves every ahead set, nobody has passes over it any more, and it competes no longer.
    #[inline(always)]
    fn leave(&mut self, p: usize, argument: u32) -> Result<Led, u16> {
        demand(argument == 0)?;
        for row in self.rows.iter_mut() {
            row.ahead &= !only(p);
            row.passes[p % MOST] = 0;
        }
        self.competing &= self.others(p);
        Ok((40, Cell::NONE))
    }

    /// LOOK at 22: the argument must be a member of lis.
    #[inline(always)]
    fn look(&mut self, p: usize, argument: u32) -> Result<Led, u16> {
        let lis = self.rows[p].lis;
        if lis == 0 {
            return Err(refusal::NOT_ALLOWED);
        }
        demand(u32::from(lis) & 1u32.checked_shl(argument).unwrap_or(0) != 0)?;
        Ok(self.look_at(p, argument as usize))
    }

    /// q leaves lis of p, and est too if its act is 0.
    #[inline(always)]
    fn look_at(&mut self, p: usize, q: usize) -> Led {
        let idle = self.rows[q].act ^ 1;
        let row = &mut self.rows[p];
        row.lis &= !only(q);
        row.est &= !(idle << q);
        (22, Cell::act_read(q))
    }

    /// GO at 23: the size of est decides first, then bb, then the turn cell of the level, which only then counts as
    /// read. Where the settings say so, nobody goes to 24 while the cell has a writer.
    #[inline(always)]
    fn reconsider(&mut self, p: usize, argument: u32) -> Result<Led, u16> {
        demand(argument == 0)?;
        let Row { level, bb, est, .. } = self.rows[p];
        let turn = self.rows[usize::from(level)].turn;
        let size = est.count_ones() as u16;
        let moves = size < level;
        let pushes = !moves & (bb == 0);
        if self.settings.turn == TURN_ONE_WRITER && pushes {
            allow(!has_writer(self.rows, level), refusal::FORBIDDEN_GO)?;
        }
        let row = &mut self.rows[p];
        let reads = !moves & !pushes;
        let falls = reads & (turn != p as u16);
        row.level = if moves { size } else { level - u16::from(falls) };
        row.bb &= u16::from(!(moves | falls));
        let used = u16::from(reads);
        let cell = Cell { access: used * READ, variable: used * TURN, index: used * level };
        Ok((if pushes { 24 } else { 21 }, cell))
    }
}

/// Whether a process at 24 has the level. It is kept out of the words' loop, which is slower with it.
#[cold]
#[inline(never)]
fn has_writer(rows: &[Row], level: u16) -> bool {
    rows.iter().any(|row| row.loc == 24 && row.level == level)
}

/// Counts with one more for each member of a set, or none where one is full; without a branch for each.
#[inline(always)]
fn one_more(mut counts: [u16; MOST], set: u16) -> Option<[u16; MOST]> {
    let mut full = false;
    for (r, count) in counts.iter_mut().enumerate() {
        let one = u16::from(set & only(r) != 0);
        *count = count.wrapping_add(one);
        full |= *count < one;
    }
    (!full).then_some(counts)
}

/// A kind at the location of a code.
const fn at(kind: u32, loc: u16) -> u32 {
    let mut code = 0;
    while LOCATIONS[code as usize] != loc {
        code += 1;
    }
    kind << 3 | code
}

const STAY_10: u32 = at(STAY, 10);
const COME_10: u32 = at(COME, 10);
const FLICKER_20: u32 = at(FLICKER, 20);
const FLICKER_24: u32 = at(FLICKER, 24);
const FLICKER_40: u32 = at(FLICKER, 40);
const LOOK_22: u32 = at(LOOK, 22);
const GO_20: u32 = at(GO, 20);
const GO_21: u32 = at(GO, 21);
const GO_22: u32 = at(GO, 22);
const GO_23: u32 = at(GO, 23);
const GO_24: u32 = at(GO, 24);
const GO_30: u32 = at(GO, 30);
const GO_40: u32 = at(GO, 40);
const CANCEL_20: u32 = at(CANCEL, 20);

/// Where a word without an argument leads to that uses no cell.
#[inline]
fn none(argument: u32, after: u16) -> Result<Led, u16> {
    demand(argument == 0).map(|()| (after, Cell::NONE))
}

#[inline]
fn demand(argument_fits: bool) -> Result<(), u16> {
    allow(argument_fits, refusal::ARGUMENT)
}

#[inline]
fn allow(allowed: bool, refusal: u16) -> Result<(), u16> {
    if allowed {
        Ok(())
    } else {
        Err(refusal)
    }
}
