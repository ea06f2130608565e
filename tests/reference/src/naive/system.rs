//! The state as sections 3.2 and 3.4 of the paper have it, with the passes of section 4.1, and its soundness.

use super::cells::Use;
use super::Fault;
use crate::Row;

pub type Set = [bool; 16];

#[derive(Clone, Debug)]
pub struct Process {
    pub location: u32,
    pub act: bool,
    pub bb: bool,
    pub level: usize,
    pub est: Set,
    pub lis: Set,
    pub ahead: Set,
    /// Over each process, how often this one entered while that one competed.
    pub passes: [u32; 16],
}

#[derive(Clone, Debug)]
pub struct System {
    pub processes: Vec<Process>,
    /// turn[k] for k from 1; turn[0] is never used.
    pub turn: Vec<usize>,
    /// What the step under way has used of act and turn.
    pub used: Option<Use>,
}

pub fn size(set: &Set) -> usize {
    set.iter().filter(|&&member| member).count()
}

pub fn set_from_bits(bits: u32) -> Set {
    let mut set = [false; 16];
    for (q, member) in set.iter_mut().enumerate() {
        *member = bits >> q & 1 == 1;
    }
    set
}

pub fn bits_from_set(set: &Set) -> u32 {
    let mut bits = 0;
    for q in 0..16 {
        if set[q] {
            bits += 1 << q;
        }
    }
    bits
}

impl System {
    pub fn fresh(n: usize) -> System {
        let idle = Process {
            location: 10,
            act: false,
            bb: false,
            level: 0,
            est: [false; 16],
            lis: [false; 16],
            ahead: [false; 16],
            passes: [0; 16],
        };
        System { processes: vec![idle; n], turn: vec![0; n], used: None }
    }

    pub fn n(&self) -> usize {
        self.processes.len()
    }

    /// All processes but p.
    pub fn others(&self, p: usize) -> Set {
        let mut set = [false; 16];
        for q in 0..self.n() {
            set[q] = q != p;
        }
        set
    }

    pub fn competes(&self, q: usize, fault: Fault) -> bool {
        match self.processes[q].location {
            21 | 22 | 23 | 24 | 30 => true,
            20 => fault == Fault::CompetingFrom20,
            40 => fault == Fault::CompetingTo40,
            _ => false,
        }
    }

    pub fn competing(&self, fault: Fault) -> Set {
        let mut set = [false; 16];
        for q in 0..self.n() {
            set[q] = self.competes(q, fault);
        }
        set
    }

    pub fn at_30(&self, fault: Fault) -> usize {
        let counted = |location| location == 30 || (fault == Fault::Counts40With30 && location == 40);
        self.processes.iter().filter(|process| counted(process.location)).count()
    }

    /// How many wait: the write of act at 20 is complete, and the critical section not reached.
    pub fn waiting(&self, fault: Fault) -> usize {
        let waits = |location| match location {
            21..=24 => true,
            20 => fault == Fault::WaitingFrom20,
            30 => fault == Fault::WaitingTo30,
            _ => false,
        };
        self.processes.iter().filter(|process| waits(process.location)).count()
    }

    /// The system that lent rows hold, or 6 or 7.
    pub fn from_rows(rows: &[Row], fault: Fault) -> Result<System, u16> {
        let n = rows.len();
        let count_wrong = n < 2 || n > 16;
        if count_wrong && fault != Fault::RowCountAfterRows {
            return Err(6);
        }
        for (k, row) in rows.iter().enumerate() {
            if !row_is_sound(k, row, n, fault) {
                return Err(7);
            }
        }
        if count_wrong {
            return Err(6);
        }
        let process = |row: &Row| Process {
            location: row.loc.into(),
            act: row.act == 1,
            bb: row.bb == 1,
            level: row.level.into(),
            est: set_from_bits(row.est.into()),
            lis: set_from_bits(row.lis.into()),
            ahead: set_from_bits(row.ahead.into()),
            passes: row.passes.map(|count| count.into()),
        };
        Ok(System {
            processes: rows.iter().map(process).collect(),
            turn: rows.iter().map(|row| row.turn.into()).collect(),
            used: None,
        })
    }

    pub fn to_rows(&self, rows: &mut [Row]) {
        for (k, row) in rows.iter_mut().enumerate() {
            let process = &self.processes[k];
            *row = Row {
                loc: process.location as u16,
                act: process.act.into(),
                bb: process.bb.into(),
                level: process.level as u16,
                est: bits_from_set(&process.est) as u16,
                lis: bits_from_set(&process.lis) as u16,
                ahead: bits_from_set(&process.ahead) as u16,
                turn: self.turn[k] as u16,
                passes: process.passes.map(|count| count as u16),
            };
        }
    }
}

fn row_is_sound(k: usize, row: &Row, n: usize, fault: Fault) -> bool {
    if ![10, 20, 21, 22, 23, 24, 30, 40].contains(&row.loc) {
        return false;
    }
    if row.act > 1 || row.bb > 1 || usize::from(row.level) >= n {
        return false;
    }
    for bits in [row.est, row.lis, row.ahead] {
        let set = set_from_bits(bits.into());
        for q in n..16 {
            if set[q] {
                return false;
            }
        }
    }
    if usize::from(row.turn) >= n || (k == 0 && row.turn != 0 && fault != Fault::FirstTurnUnchecked) {
        return false;
    }
    if (row.loc == 22 || row.loc == 23 || row.loc == 24) && row.level == 0 {
        return false;
    }
    if row.loc == 30 && row.level != 0 {
        return false;
    }
    passes_are_sound(k, row, n, fault)
}

/// No passes of a process over itself, nor over one that the table does not have.
fn passes_are_sound(k: usize, row: &Row, n: usize, fault: Fault) -> bool {
    for r in 0..16 {
        let over_itself = r == k && fault != Fault::OwnPassesInRows;
        let over_nobody = r >= n && fault != Fault::PassesPastNInRows;
        if row.passes[r] != 0 && (over_itself || over_nobody) {
            return false;
        }
    }
    true
}
