//! Settings (manual, "Settings"): what the two numbers say of act and of turn, and which words that forbids.

use super::step::{carry_out, judge, Event, FLICKER, GO};
use super::system::{size, Process, System};
use super::Fault;

#[derive(Clone, Copy, Debug, PartialEq, Eq)]
pub enum Act {
    Safe,
    Plain,
}

#[derive(Clone, Copy, Debug, PartialEq, Eq)]
pub enum Turn {
    WriteSafe,
    OneWriter,
    Plain,
}

/// What the shared cells do while they are written.
#[derive(Clone, Copy, Debug, PartialEq, Eq)]
pub struct Memory {
    pub act: Act,
    pub turn: Turn,
}

/// Under 0 and 0, which forbids nothing.
pub const SAFE: Memory = Memory { act: Act::Safe, turn: Turn::WriteSafe };

/// What the two numbers say, all their bits compared; or 18.
pub fn memory(act: u32, turn: u32, fault: Fault) -> Result<Memory, u16> {
    let (act, turn) = if fault == Fault::SettingsSwapped { (turn, act) } else { (act, turn) };
    let (act, turn) = match fault {
        Fault::ActOfLowBit => (act % 2, turn),
        Fault::ActOfOneByte => (act % 0x100, turn),
        Fault::TurnOfTwoBits => (act, turn % 4),
        Fault::TurnOfTwoBytes => (act, turn % 0x1_0000),
        _ => (act, turn),
    };
    let act = match act {
        0 => Some(Act::Safe),
        1 => Some(Act::Plain),
        2 if fault == Fault::ActOf2Taken => Some(Act::Plain),
        _ => None,
    };
    let turn = match turn {
        0 => Some(Turn::WriteSafe),
        1 => Some(Turn::OneWriter),
        2 => Some(Turn::Plain),
        3 if fault == Fault::TurnOf3Taken => Some(Turn::Plain),
        _ => None,
    };
    match (act, turn) {
        (Some(act), Some(turn)) => Ok(Memory { act, turn }),
        (Some(act), None) if fault == Fault::OneWrongSettingTaken => Ok(Memory { act, turn: Turn::WriteSafe }),
        (None, Some(turn)) if fault == Fault::OneWrongSettingTaken => Ok(Memory { act: Act::Safe, turn }),
        _ => Err(18),
    }
}

/// 16 or 17 for a word that is otherwise as it must be, where that is forbidden.
pub fn forbidden(system: &System, event: &Event, memory: Memory, fault: Fault) -> Option<u16> {
    let process = &system.processes[event.p];
    let (flicker, go) = if fault == Fault::SixteenAndSeventeenSwapped { (17, 16) } else { (16, 17) };
    match event.kind {
        FLICKER => forbids_flicker(process.location, memory, fault).then_some(flicker),
        GO if forbids_go(system, event.p, memory, fault) => Some(if fault == Fault::ForbiddenGoIs16 { 16 } else { go }),
        _ => None,
    }
}

/// Plain forbids FLICKER on that cell: act at 20 and at 40, turn at 24.
fn forbids_flicker(location: u32, memory: Memory, fault: Fault) -> bool {
    let act = memory.act == Act::Plain && fault != Fault::ActPlainForbidsNothing;
    let turn = memory.turn == Turn::Plain && fault != Fault::TurnPlainForbidsNothing;
    let turn_forbids_act = turn && fault == Fault::TurnPlainForbidsAct;
    match location {
        20 => (act && fault != Fault::ActPlainOnlyAt40) || turn_forbids_act,
        40 => (act && fault != Fault::ActPlainOnlyAt20) || turn_forbids_act,
        24 if fault == Fault::ActPlainForbidsTurn => act || turn,
        24 if fault == Fault::OneWriterForbidsFlicker => turn || memory.turn == Turn::OneWriter,
        24 => turn,
        // where no FLICKER is allowed, which only a fault asks
        _ => act,
    }
}

/// One writer forbids a GO from 23 to 24 while another process at 24 has the same level.
fn forbids_go(system: &System, p: usize, memory: Memory, fault: Fault) -> bool {
    let asked = match memory.turn {
        Turn::WriteSafe => false,
        Turn::OneWriter => fault != Fault::OneWriterUnasked,
        Turn::Plain => fault == Fault::PlainAsksForOneWriter,
    };
    asked && goes_to_24(&system.processes[p], fault) && another_writes(system, p, fault)
}

/// Whether GO would lead from 23 to 24: est has at least level members, and bb is 0.
fn goes_to_24(process: &Process, fault: Fault) -> bool {
    let any = fault == Fault::OneWriterAtAnyGo23;
    let enough = size(&process.est) >= process.level || any || fault == Fault::OneWriterWhereEstIsFew;
    let free = !process.bb || any || fault == Fault::OneWriterWhereBb;
    process.location == 23 && enough && free
}

fn another_writes(system: &System, p: usize, fault: Fault) -> bool {
    let level = system.processes[p].level;
    let writes = |q: usize| {
        if q == p {
            // it is at 24 after the step
            return fault == Fault::OneWriterSeesItself;
        }
        let other = &system.processes[q];
        let there = match other.location {
            24 => fault != Fault::OneWriterLooksAt23,
            23 => fault == Fault::OneWriterLooksAt23 || fault == Fault::OneWriterAlsoAt23,
            _ => false,
        };
        let skipped = fault == Fault::OneWriterSeesLowerOnes && q > p;
        there && !skipped && (other.level == level || fault == Fault::OneWriterOfAnyLevel)
    };
    (0..system.n()).any(writes)
}

/// A forbidden word changes nothing, but for a fault: it moves its process all the same.
pub fn spoil_forbidden(system: &mut System, word: u32, refusal: u16, fault: Fault) {
    if fault != Fault::ForbiddenWordMoves || !is_forbidden(refusal) {
        return;
    }
    if let Ok(event) = judge(system, word, SAFE, Fault::None) {
        carry_out(system, event, Fault::None);
    }
}

pub fn is_forbidden(refusal: u16) -> bool {
    refusal == 16 || refusal == 17
}
