//! Rounds, in the order of the manual, "Rounds": which word each process gets, when a round follows, which word breaks
//! one, and what is told.

use super::settings::{Memory, Turn, SAFE};
use super::step::{take, GO, LOOK};
use super::system::{size, Process, System};
use super::Fault;
use crate::{Rounded, Row};

const STAY: u32 = 1;
const COME: u32 = 2;

/// Rounds in the lent rows until somebody is at 30 after one, or the limit is used up, or a word is refused; 6 or 7 and no
/// round.
pub fn rounds(rows: &mut [Row], fault: Fault) -> Rounded {
    let mut system = match System::from_rows(rows, fault) {
        Ok(system) => system,
        Err(refusal) => {
            if fault == Fault::RoundsClearRefusedRows {
                rows.fill(Row::default());
            }
            return Rounded { refusal, rounds: 0, occupied: 0 };
        }
    };
    if !is_begun(&system, fault) {
        let occupied = if fault == Fault::OccupiedBeforehandUntold { 0 } else { told_of(&system, fault) };
        return Rounded { refusal: 0, rounds: 0, occupied };
    }
    let (mut counted, mut occupied) = (0, 0);
    for _ in 0..limit(system.n(), fault) {
        let before = told_of(&system, fault);
        let given = system.clone();
        let whole = match do_round(&mut system, fault) {
            Ok(whole) => whole,
            Err(refusal) => return broken(rows, refusal, counted, (given, system), fault),
        };
        if whole || fault != Fault::RoundEndsAt30Uncounted {
            counted += 1;
        }
        occupied = if fault == Fault::OccupiedBeforeTheLastRound { before } else { told_of(&system, fault) };
        if somebody_at_30(&system, fault) {
            break;
        }
    }
    if fault != Fault::RoundsOnACopy {
        system.to_rows(rows);
    }
    Rounded { refusal: 0, rounds: told_rounds(counted, fault), occupied }
}

/// What is told where a word of a round was refused: the rounds before it, and who is at 30 in the rows, which keep what
/// the words before it did. The two systems are that before the broken round and that before the word.
fn broken(rows: &mut [Row], refusal: u16, counted: u16, systems: (System, System), fault: Fault) -> Rounded {
    let (given, reached) = systems;
    let left = if fault == Fault::BrokenRoundUndone { given } else { reached };
    if fault != Fault::RoundsOnACopy {
        left.to_rows(rows);
    }
    let rounds = if fault == Fault::BrokenRoundCounted { counted + 1 } else { counted };
    let occupied = if fault == Fault::BrokenRoundNeverOccupied { 0 } else { told_of(&left, fault) };
    Rounded { refusal, rounds, occupied }
}

/// Whether there is a first round: nobody is at 30, and somebody is at 20 to 24.
fn is_begun(system: &System, fault: Fault) -> bool {
    let pending = |process: &Process| match process.location {
        20 => fault != Fault::PendingFrom21,
        21..=24 => true,
        40 => fault == Fault::PendingAlsoAt40,
        _ => false,
    };
    let free = !somebody_at_30(system, fault) || fault == Fault::At30BeforehandUnseen;
    free && (system.processes.iter().any(pending) || fault == Fault::NobodyPendingUnseen)
}

fn somebody_at_30(system: &System, fault: Fault) -> bool {
    let there = |location| location == 30 || (location == 40 && fault == Fault::RoundsTake40For30);
    system.processes.iter().any(|process| there(process.location))
}

/// The most rounds: 4 times N times N times N + 3.
fn limit(n: usize, fault: Fault) -> usize {
    match fault {
        Fault::LimitWithNAnd2 => 4 * n * n * (n + 2),
        Fault::LimitOneLess => 4 * n * n * (n + 3) - 1,
        Fault::LimitOneMore => 4 * n * n * (n + 3) + 1,
        _ => 4 * n * n * (n + 3),
    }
}

/// A word for each process in number order; each word goes to the table that the word before left. Whether all had
/// theirs; or the refusal of one, which ends the round before it.
fn do_round(system: &mut System, fault: Fault) -> Result<bool, u16> {
    let n = system.n();
    if fault == Fault::RoundAllAtOnce {
        *system = all_at_once(system);
        return Ok(true);
    }
    let memory = if fault == Fault::RoundsUnderOneWriter { Memory { turn: Turn::OneWriter, ..SAFE } } else { SAFE };
    for i in 0..n {
        let p = if fault == Fault::RoundFromTheLast { n - 1 - i } else { i };
        let word = word_of(system, p, fault);
        match take(system, word, memory, fault) {
            Err(15) if fault != Fault::RoundsGoOnPast15 => return Err(15),
            Err(refusal) => assert!(fault != Fault::None, "a word of a round meets {refusal}"),
            Ok(_) => {}
        }
        let asks_within = fault == Fault::RoundEndsAt30 || fault == Fault::RoundEndsAt30Uncounted;
        if asks_within && somebody_at_30(system, fault) {
            return Ok(i == n - 1);
        }
    }
    Ok(true)
}

/// The word that a round has for process p.
fn word_of(system: &System, p: usize, fault: Fault) -> u32 {
    let Process { location, lis, .. } = &system.processes[p];
    let (kind, argument) = if *location == 10 {
        (if fault == Fault::RoundComesAt10 { COME } else { STAY }, 0)
    } else if *location == 22 && size(lis) > 0 {
        let (mut lowest, mut highest) = (0..16, (0..16).rev());
        let member = |q: &usize| lis[*q];
        let chosen = if fault == Fault::LooksAtHighest { highest.find(member) } else { lowest.find(member) };
        (LOOK, chosen.expect("a member"))
    } else {
        (GO, 0)
    };
    kind * 0x1000_0000 + p as u32 * 0x1_0000 + argument as u32
}

/// The fault of a round whose words all go to the table at its start: of each the row of its process is kept, and the
/// turn cell that it wrote.
fn all_at_once(start: &System) -> System {
    let mut end = start.clone();
    for p in 0..start.n() {
        let mut alone = start.clone();
        take(&mut alone, word_of(start, p, Fault::None), SAFE, Fault::None).ok();
        end.processes[p] = alone.processes[p].clone();
        for k in 0..start.n() {
            if alone.turn[k] != start.turn[k] {
                end.turn[k] = alone.turn[k];
            }
        }
    }
    end
}

/// 1 where somebody is at 30, else 0.
fn told_of(system: &System, fault: Fault) -> u16 {
    match fault {
        Fault::OccupiedIsANumber => system.processes.iter().filter(|process| process.location == 30).count() as u16,
        _ if somebody_at_30(system, fault) => 1,
        _ => 0,
    }
}

fn told_rounds(counted: u16, fault: Fault) -> u16 {
    match fault {
        Fault::OneRoundFewer => counted - 1,
        Fault::OneRoundMore => counted + 1,
        _ => counted,
    }
}
