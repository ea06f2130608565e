//! The calls on lent rows: the fresh table, steps, runs and the census.

use super::cells::answered;
use super::settings::{is_forbidden, memory, Memory, SAFE};
use super::step::{carry_out, is_malformed, judge, spoil_refused, take, would_use, Moved};
use super::system::{size, System};
use super::Fault;
use crate::{Cell, Census, Ran, Row, StepAnswer, Tally};

const NO_CELL: Cell = Cell { access: 0, variable: 0, index: 0 };

/// Every lent row becomes that of the fresh table; or 6 where there are not 2 to 16, and no row changes.
pub fn fresh(rows: &mut [Row], fault: Fault) -> u16 {
    let n = rows.len();
    let most = if fault == Fault::FreshOf17Rows { 17 } else { 16 };
    if n < 2 || n > most {
        return 6;
    }
    let old = rows.to_vec();
    System::fresh(n).to_rows(rows);
    if fault == Fault::FreshKeepsWhatMayBeAnything {
        for (row, old) in rows.iter_mut().zip(old) {
            *row = Row { loc: 10, act: 0, bb: 0, ahead: 0, passes: [0; 16], ..old };
        }
    } else if fault == Fault::FreshKeepsPasses {
        for (row, old) in rows.iter_mut().zip(old) {
            row.passes = old.passes;
        }
    }
    0
}

/// The refusal; or 0, the cell that the word used, and the rows moved.
pub fn step(rows: &mut [Row], word: u32, act: u32, turn: u32, fault: Fault) -> StepAnswer {
    Standing::new(rows, fault).step(word, act, turn, rows)
}

/// Rows that are read once, to be given any number of words, each as if it were the first.
pub struct Standing {
    system: Result<System, u16>,
    fault: Fault,
}

impl Standing {
    pub fn new(rows: &[Row], fault: Fault) -> Standing {
        Standing { system: System::from_rows(rows, fault), fault }
    }

    /// The refusal; or 0, the cell that the word used, and `rows` become those that it leads to.
    pub fn step(&self, word: u32, act: u32, turn: u32, rows: &mut [Row]) -> StepAnswer {
        match begin(self.system.as_ref(), act, turn, self.fault) {
            Ok((system, _)) if self.fault == Fault::StepUnderSafe => self.step_under(system, word, SAFE, rows),
            Ok((system, memory)) => self.step_under(system, word, memory, rows),
            Err(18) if self.fault == Fault::SettingsAfterForm && is_malformed(word, self.fault) => {
                StepAnswer { refusal: 8, cell: NO_CELL }
            }
            Err(18) if self.fault == Fault::WrongSettingsMoveRows => {
                step(rows, word, 0, 0, Fault::None);
                StepAnswer { refusal: 18, cell: NO_CELL }
            }
            Err(refusal) => StepAnswer { refusal, cell: NO_CELL },
        }
    }

    fn step_under(&self, system: &System, word: u32, memory: Memory, rows: &mut [Row]) -> StepAnswer {
        match judge(system, word, memory, self.fault) {
            Ok(event) => {
                let mut after = system.clone();
                let moved = carry_out(&mut after, event, self.fault);
                after.to_rows(rows);
                StepAnswer { refusal: 0, cell: answered(moved.used) }
            }
            Err(refusal)
                if self.fault == Fault::RefusedWordUsesCell
                    || (self.fault == Fault::ForbiddenWordUsesCell && is_forbidden(refusal)) =>
            {
                StepAnswer { refusal, cell: answered(would_use(system, word, refusal)) }
            }
            Err(refusal) => {
                if self.fault == Fault::FullCountsTheOthers || self.fault == Fault::ForbiddenWordMoves {
                    let mut after = system.clone();
                    spoil_refused(&mut after, word, refusal, self.fault);
                    after.to_rows(rows);
                }
                StepAnswer { refusal, cell: NO_CELL }
            }
        }
    }
}

/// What a step or a run begins with; or 6, 7, then 18.
fn begin<T>(system: Result<T, &u16>, act: u32, turn: u32, fault: Fault) -> Result<(T, Memory), u16> {
    match (system, memory(act, turn, fault)) {
        (Ok(system), Ok(memory)) => Ok((system, memory)),
        (Err(6), Err(_)) if fault == Fault::SettingsBeforeRowCount => Err(18),
        (Err(7), Err(_)) if fault == Fault::SettingsBeforeRows => Err(18),
        (Err(refusal), _) => Err(*refusal),
        (Ok(_), Err(refusal)) => Err(refusal),
    }
}

pub fn too_many(count: usize, fault: Fault) -> bool {
    match fault {
        Fault::OneWordFewer => count > 8191,
        Fault::OneWordMore => count > 8193,
        _ => count > 8192,
    }
}

pub fn run(rows: &mut [Row], words: &[u32], tally: &mut Tally, act: u32, turn: u32, fault: Fault) -> Ran {
    let old = *tally;
    if fault != Fault::TallyKeptOnRefusal {
        *tally = Tally { words: 0, comes: 0, arrivals: 0 };
    }
    let system = System::from_rows(rows, fault);
    let (mut system, memory) = match begin(system.as_ref(), act, turn, fault) {
        Ok((system, _)) if fault == Fault::RunUnderSafe => (system.clone(), SAFE),
        Ok((system, memory)) => (system.clone(), memory),
        Err(refusal) => {
            if refusal == 18 && fault == Fault::WrongSettingsKeepTally {
                *tally = old;
            }
            return not_begun(rows, words, refusal, fault);
        }
    };
    if too_many(words.len(), fault) {
        return Ran { taken: 0, refusal: 12, cell: NO_CELL };
    }
    *tally = Tally { words: 0, comes: 0, arrivals: 0 };
    let ran = take_words(&mut system, words, memory, fault, |_, moved| {
        tally.words += 1;
        tally.comes += if moved.come { 1 } else { 0 };
        tally.arrivals += if moved.before != 30 && moved.after == 30 { 1 } else { 0 };
    });
    system.to_rows(rows);
    if fault == Fault::ForbiddenWordTallied && is_forbidden(ran.refusal as u16) {
        tally.words += 1;
    }
    ran
}

/// A run refused with 6, 7 or 18: it takes no word and changes no row.
fn not_begun(rows: &mut [Row], words: &[u32], refusal: u16, fault: Fault) -> Ran {
    let refusal = match (refusal, fault) {
        (18, Fault::RunSettingsAfterWordCount) if too_many(words.len(), fault) => 12,
        (18, Fault::SettingsUnaskedWithoutWords) if words.is_empty() => 0,
        (18, Fault::WrongSettingsMoveRows) => {
            run(rows, words, &mut Tally::default(), 0, 0, Fault::None);
            18
        }
        _ => refusal,
    };
    Ran { taken: 0, refusal: refusal.into(), cell: NO_CELL }
}

pub fn take_words(
    system: &mut System,
    words: &[u32],
    memory: Memory,
    fault: Fault,
    mut each: impl FnMut(&System, &Moved),
) -> Ran {
    let mut ran = Ran { taken: 0, refusal: 0, cell: NO_CELL };
    for &word in words {
        match take(system, word, memory, fault) {
            Ok(moved) if ran.refusal == 0 => {
                ran.cell = cell_after(&ran, &moved, fault);
                ran.taken += 1;
                each(system, &moved);
            }
            Ok(_) => {}
            Err(refusal) if is_forbidden(refusal) && fault == Fault::ForbiddenWordSkipped => {}
            Err(refusal) if ran.refusal == 0 => {
                ran.refusal = refusal.into();
                ran.taken += if is_forbidden(refusal) && fault == Fault::ForbiddenWordTaken { 1 } else { 0 };
                ran.cell = match fault {
                    Fault::RunCellLostOnStop => NO_CELL,
                    Fault::RunCellOfRefusedWord => answered(would_use(system, word, refusal)),
                    Fault::ForbiddenWordUsesCell if is_forbidden(refusal) => answered(would_use(system, word, refusal)),
                    _ => ran.cell,
                };
            }
            Err(_) => {}
        }
        if ran.refusal != 0 && fault != Fault::GoesOnPastRefusal {
            break;
        }
    }
    ran
}

/// The cell of a run after one word more: that word's.
fn cell_after(ran: &Ran, moved: &Moved, fault: Fault) -> Cell {
    match fault {
        Fault::RunCellOfFirstWord if ran.taken > 0 => ran.cell,
        Fault::RunCellKeptByNone if moved.used.is_none() => ran.cell,
        _ => answered(moved.used),
    }
}

pub fn census(rows: &[Row], fault: Fault) -> Census {
    let system = match System::from_rows(rows, fault) {
        Ok(system) => system,
        Err(refusal) => return Census { refusal, ..Census::default() },
    };
    let mut census =
        Census { at_30: system.at_30(fault) as u16, waiting: system.waiting(fault) as u16, ..Census::default() };
    for (q, process) in system.processes.iter().enumerate() {
        for k in 0..=system.n() {
            if !system.competes(q, fault) {
                continue;
            }
            let under = process.level < k;
            let not_at_24 = process.location != 24 || fault == Fault::HeldAlsoAt24;
            if under {
                census.below[k] += 1;
            }
            if under || (not_at_24 && size(&process.ahead) < k) {
                census.held[k] += 1;
            }
        }
    }
    census
}
