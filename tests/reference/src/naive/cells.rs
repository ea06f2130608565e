//! The shared cells: whoever reads or writes one notes it, and a step answers what was noted.

use super::step::{Event, FLICKER, GO, LOOK};
use super::system::{Process, System};
use super::Fault;
use crate::Cell;

#[derive(Clone, Copy, Debug, PartialEq, Eq)]
pub enum Variable {
    Act,
    Turn,
}

/// One use of act[index] or turn[index].
#[derive(Clone, Copy, Debug, PartialEq, Eq)]
pub struct Use {
    pub written: bool,
    pub variable: Variable,
    pub index: usize,
}

impl System {
    /// A step uses one shared cell at most.
    fn note(&mut self, used: Use) {
        assert!(self.used.is_none_or(|before| before == used), "two shared cells in one step");
        self.used = Some(used);
    }

    pub fn read_act(&mut self, q: usize) -> bool {
        self.note(Use { written: false, variable: Variable::Act, index: q });
        self.processes[q].act
    }

    pub fn write_act(&mut self, p: usize, act: bool) {
        self.note(Use { written: true, variable: Variable::Act, index: p });
        self.processes[p].act = act;
    }

    pub fn read_turn(&mut self, k: usize) -> usize {
        self.note(Use { written: false, variable: Variable::Turn, index: k });
        self.turn[k]
    }

    pub fn write_turn(&mut self, k: usize, turn: usize) {
        self.note(Use { written: true, variable: Variable::Turn, index: k });
        self.turn[k] = turn;
    }
}

/// A use as C gets it.
pub fn answered(used: Option<Use>) -> Cell {
    match used {
        None => Cell { access: 0, variable: 0, index: 0 },
        Some(Use { written, variable, index }) => Cell {
            access: if written { 2 } else { 1 },
            variable: if variable == Variable::Act { 1 } else { 2 },
            index: index as u16,
        },
    }
}

/// A use as a line ends with it.
pub fn printed(used: Option<Use>, fault: Fault) -> String {
    let Some(Use { written, variable, index }) = used else {
        return if fault == Fault::PrintedNoneLeftOut { "".into() } else { " -".into() };
    };
    let access = if written { "w" } else { "r" };
    let name = match variable {
        Variable::Turn if fault != Fault::PrintedTurnAsAct => "t",
        _ => "a",
    };
    match fault {
        Fault::PrintedCellWithoutIndex => format!(" {access}{name}"),
        Fault::PrintedIndexOfOneDigit => format!(" {access}{name}{}", index % 10),
        _ => format!(" {access}{name}{index}"),
    }
}

/// The use that a step by an event tells: the one that it made, but for a fault. `before` and `after` are its process.
pub fn told(event: &Event, before: &Process, after: &Process, used: Option<Use>, fault: Fault) -> Option<Use> {
    let used = match (event.kind, before.location, fault) {
        (GO, 20, Fault::Go20UsesNone) => None,
        (GO, 40, Fault::Go40UsesNone) => None,
        (GO, 24, Fault::Go24UsesNone) => None,
        (FLICKER, 24, Fault::FlickerAt24UsesNone) => None,
        (GO, 24, Fault::Go24Reads) | (FLICKER, _, Fault::FlickerReads) => {
            used.map(|used| Use { written: false, ..used })
        }
        (FLICKER, 24, Fault::FlickerTurnOfValue) => used.map(|used| Use { index: event.a, ..used }),
        (LOOK, _, Fault::LookReadsOwnAct) => used.map(|used| Use { index: event.p, ..used }),
        (GO, 23, _) => told_at_23(before, after, used, fault),
        _ => used,
    };
    used.map(|used| match used.variable {
        Variable::Turn if fault == Fault::TurnOfProcess => Use { index: event.p, ..used },
        _ => used,
    })
}

/// The same of GO at 23, which has read turn in its third and fourth case.
fn told_at_23(before: &Process, after: &Process, used: Option<Use>, fault: Fault) -> Option<Use> {
    let reads = |index| Some(Use { written: false, variable: Variable::Turn, index });
    match (used, fault) {
        (None, Fault::Go23To24Reads) if after.location == 24 => reads(before.level),
        (None, Fault::Go23FirstCaseReads) if after.location == 21 => reads(before.level),
        (Some(_), Fault::Go23ReadsLevelAfter) => reads(after.level),
        (Some(_), Fault::Go23LastCaseUsesNone) if after.bb => None,
        (Some(_), Fault::Go23UsesNone) => None,
        _ => used,
    }
}
