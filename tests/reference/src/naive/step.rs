//! One step, in the order of the manual, "Steps" and "Ahead sets"; "Passes" and "Settings" have files of their own.

use super::cells::{told, Use, Variable};
use super::passes::{add_passes, clear_passes, counts_passes, is_full, spoil_full};
use super::settings::{forbidden, spoil_forbidden, Memory, SAFE};
use super::system::{size, Process, System};
use super::words::is_kind;
use super::Fault;

const STAY: u32 = 1;
pub const COME: u32 = 2;
pub const FLICKER: u32 = 3;
pub const GO: u32 = 4;
pub const LOOK: u32 = 5;
const CANCEL: u32 = 6;

/// What an accepted word did.
pub struct Moved {
    pub process: usize,
    pub before: u32,
    pub after: u32,
    pub come: bool,
    pub used: Option<Use>,
}

/// Takes one word, or refuses it and changes nothing.
pub fn take(system: &mut System, word: u32, memory: Memory, fault: Fault) -> Result<Moved, u16> {
    match judge(system, word, memory, fault) {
        Ok(event) => Ok(carry_out(system, event, fault)),
        Err(refusal) => {
            spoil_refused(system, word, refusal, fault);
            Err(refusal)
        }
    }
}

/// A refused word changes nothing, but for two faults.
pub fn spoil_refused(system: &mut System, word: u32, refusal: u16, fault: Fault) {
    spoil_full(system, word, refusal, fault);
    spoil_forbidden(system, word, refusal, fault);
}

/// A word that was not refused, in its parts.
pub struct Event {
    pub kind: u32,
    pub p: usize,
    pub a: usize,
}

/// Whether the kind is wrong or a spare bit set.
pub fn is_malformed(word: u32, fault: Fault) -> bool {
    let (kind, p, a) = (word / 0x1000_0000, word / 0x1_0000 % 0x100, word % 0x100);
    let known = is_kind(kind, fault, Fault::StepRefusesKind6, Fault::StepTakesKind7);
    !known || word != kind * 0x1000_0000 + p * 0x1_0000 + a
}

/// The parts of a word that may be taken, or its refusal.
pub fn judge(system: &System, word: u32, memory: Memory, fault: Fault) -> Result<Event, u16> {
    let p = (word / 0x1_0000 % 0x100) as usize;
    let form_wrong = is_malformed(word, fault);
    let no_process = p > 15 || p >= system.n();
    if fault == Fault::ProcessBeforeForm && no_process {
        return Err(9);
    }
    if form_wrong {
        return Err(8);
    }
    if no_process {
        return Err(9);
    }
    // where a fault lets kind 7 through, it is taken for CANCEL
    let event = Event { kind: (word / 0x1000_0000).min(CANCEL), p, a: (word % 0x100) as usize };
    judge_there(system, &event, memory, fault)?;
    Ok(event)
}

/// The refusal of a word whose process is there, if it has one.
fn judge_there(system: &System, event: &Event, memory: Memory, fault: Fault) -> Result<(), u16> {
    let &Event { kind, p, a } = event;
    let process = &system.processes[p];
    let allowed = is_allowed(kind, process, fault);
    let listed = is_listed(kind, process, a, system.n(), fault);
    let forbidden = forbidden(system, event, memory, fault);
    if fault == Fault::ArgumentBeforeAllowed && !listed {
        return Err(11);
    }
    if fault == Fault::FullBeforeAllowed && !allowed && is_full(system, p, fault) {
        return Err(15);
    }
    if fault == Fault::ForbiddenFlickerBeforeAllowed && forbidden == Some(16) {
        return Err(16);
    }
    if !allowed {
        return Err(10);
    }
    let full = counts_passes(kind, process.location, fault) && is_full(system, p, fault);
    if fault == Fault::FullBeforeArgument && full {
        return Err(15);
    }
    match forbidden {
        Some(16) if fault == Fault::ForbiddenFlickerBeforeArgument => return Err(16),
        Some(17) if fault == Fault::ForbiddenGoBeforeArgument => return Err(17),
        _ => {}
    }
    if !listed {
        return Err(11);
    }
    if let Some(refusal) = forbidden {
        return Err(refusal);
    }
    if full {
        return Err(15);
    }
    Ok(())
}

/// Moves the system by a word that `judge` let through.
pub fn carry_out(system: &mut System, event: Event, fault: Fault) -> Moved {
    let Event { kind, p, a } = event;
    let before = system.processes[p].clone();
    system.used = None;
    if counts_passes(kind, before.location, fault) {
        add_passes(system, p, fault);
    }
    match kind {
        STAY => {}
        COME => system.processes[p].location = 20,
        FLICKER => flicker(system, p, a, fault),
        GO => go(system, p, fault),
        LOOK => look(system, p, a, fault),
        _ => cancel(system, p, fault),
    }
    let come = match kind {
        COME => true,
        STAY => fault == Fault::StayCountsAsCome,
        CANCEL => fault == Fault::CancelCountsAsCome,
        _ => false,
    };
    let after = &system.processes[p];
    let used = told(&event, &before, after, system.used, fault);
    Moved { process: p, before: before.location, after: after.location, come, used }
}

/// What a word would have used that is refused for its argument, had that been 0, or for a full count, had that not been,
/// or that is forbidden, had it not been. Only faults ask.
pub fn would_use(system: &System, word: u32, refusal: u16) -> Option<Use> {
    let mut without_passes = system.clone();
    without_passes.processes.iter_mut().for_each(|process| process.passes = [0; 16]);
    let without_argument = judge(&without_passes, word / 0x100 * 0x100, SAFE, Fault::None);
    let event = without_argument.ok().filter(|_| [11, 15, 16, 17].contains(&refusal))?;
    carry_out(&mut without_passes, event, Fault::None).used
}

fn is_allowed(kind: u32, process: &Process, fault: Fault) -> bool {
    let lis_empty = size(&process.lis) == 0;
    match kind {
        STAY | COME => process.location == 10,
        FLICKER => [20, 40, 24].contains(&process.location),
        GO if process.location == 22 => lis_empty || fault == Fault::Go22WithLisIsArgument,
        GO => [20, 21, 23, 24, 30, 40].contains(&process.location),
        LOOK => process.location == 22 && !lis_empty,
        CANCEL if process.location == 21 => fault == Fault::CancelAlsoAt21,
        CANCEL if process.location == 40 => fault == Fault::CancelAlsoAt40,
        CANCEL => process.location == 20,
        _ => false,
    }
}

fn is_listed(kind: u32, process: &Process, a: usize, n: usize, fault: Fault) -> bool {
    match kind {
        FLICKER if process.location == 24 && fault == Fault::FlickerUpToN => a <= n,
        FLICKER if process.location == 24 => a < n,
        FLICKER => a == 0 || a == 1,
        LOOK => a < 16 && process.lis[a],
        GO if process.location == 22 && size(&process.lis) > 0 => false,
        CANCEL => a == 0 || fault == Fault::CancelOfAnyArgument,
        _ => a == 0,
    }
}

fn flicker(system: &mut System, p: usize, a: usize, fault: Fault) {
    if system.processes[p].location == 24 {
        let level = system.processes[p].level;
        if !(fault == Fault::OwnRowStoreLostAtFlicker && level == p) {
            system.write_turn(level, a);
        }
    } else {
        system.write_act(p, a == 1);
    }
}

fn look(system: &mut System, p: usize, q: usize, fault: Fault) {
    let act = system.read_act(q);
    system.processes[p].lis[q] = false;
    let drops = match fault {
        Fault::LookKeepsIdle => false,
        Fault::LookDropsBusy => act,
        _ => !act,
    };
    if drops {
        system.processes[p].est[q] = false;
    }
}

/// To 40, and act keeps the value that the last FLICKER left.
fn cancel(system: &mut System, p: usize, fault: Fault) {
    let process = &mut system.processes[p];
    process.location = if fault == Fault::CancelTo10 { 10 } else { 40 };
    match fault {
        Fault::ActClearedAtCancel => process.act = false,
        Fault::ActSetAtCancel => process.act = true,
        Fault::AheadClearedAtCancel => leave_ahead_sets(system, p, fault),
        Fault::CancelWritesAct => system.used = Some(Use { written: true, variable: Variable::Act, index: p }),
        _ => {}
    }
}

fn go(system: &mut System, p: usize, fault: Fault) {
    let n = system.n();
    match system.processes[p].location {
        20 => {
            system.processes[p].ahead = system.competing(fault);
            system.processes[p].ahead[p] = fault == Fault::AheadWithSelfAtGo20;
            system.write_act(p, true);
            system.processes[p].level = n - 1;
            system.processes[p].est = system.others(p);
            system.processes[p].location = 21;
        }
        21 => go_21(system, p, fault),
        22 => system.processes[p].location = 23,
        23 => go_23(system, p, fault),
        24 => go_24(system, p, fault),
        30 => {
            system.processes[p].location = 40;
            if fault != Fault::AheadClearedAtGo40 {
                leave_ahead_sets(system, p, fault);
            }
            if fault != Fault::PassesClearedAtGo40 {
                clear_passes(system, p, fault);
            }
        }
        _ => {
            let act = fault == Fault::ActKeptAtGo40 && system.processes[p].act;
            system.write_act(p, act);
            system.processes[p].location = 10;
            if fault == Fault::AheadClearedAtGo40 {
                leave_ahead_sets(system, p, fault);
            }
            if fault == Fault::PassesClearedAtGo40 {
                clear_passes(system, p, fault);
            }
        }
    }
}

fn go_21(system: &mut System, p: usize, fault: Fault) {
    let others = system.others(p);
    let process = &mut system.processes[p];
    if process.level > 0 {
        process.lis = if fault == Fault::LisFromEveryone { others } else { process.est };
        process.location = 22;
    } else {
        process.location = 30;
    }
}

fn go_23(system: &mut System, p: usize, fault: Fault) {
    let Process { level, est, bb, .. } = system.processes[p].clone();
    let cell = if fault == Fault::TurnComparedAtLevelBelow && level > 1 { level - 1 } else { level };
    let number = size(&est);
    let fewer = number < level || (fault == Fault::MoveAtEqualSize && number == level);
    let turn_first = fault == Fault::TurnBeforeSizeOfEst && bb && system.read_turn(cell) != p;
    if fewer && !turn_first {
        system.processes[p].level = number;
        system.processes[p].bb = bb && fault == Fault::MoveKeepsBb;
        system.processes[p].location = 21;
    } else if !bb {
        system.processes[p].location = 24;
    } else if system.read_turn(cell) != p {
        let fallen = level - 1;
        let twice = fault == Fault::FallsTwoLevels && fallen > 0;
        system.processes[p].level = if twice { fallen - 1 } else { fallen };
        system.processes[p].bb = fault == Fault::FallKeepsBb;
        system.processes[p].location = 21;
    } else {
        system.processes[p].location = 21;
    }
}

fn go_24(system: &mut System, p: usize, fault: Fault) {
    let level = system.processes[p].level;
    if !(fault == Fault::OwnRowStoreLostAtGo24 && level == p) {
        system.write_turn(level, p);
    }
    system.processes[p].bb = true;
    if fault != Fault::EstKeptAtGo24 {
        system.processes[p].est = system.others(p);
    }
    if fault != Fault::AheadKeptAtGo24 {
        system.processes[p].ahead = system.competing(fault);
        system.processes[p].ahead[p] = fault == Fault::AheadWithSelfAtGo24;
    }
    system.processes[p].location = 21;
}

fn leave_ahead_sets(system: &mut System, p: usize, fault: Fault) {
    for q in 0..system.n() {
        if !(q == p && fault == Fault::OwnAheadKeptAtGo30) {
            system.processes[q].ahead[p] = false;
        }
    }
}
