//! Passes (manual, "Passes"): how often each process entered while another competed, and the entry that is refused since
//! a count would come past 65,535.

use super::step::{COME, GO};
use super::system::{Set, System};
use super::Fault;

/// Whether a word of this kind counts passes where its process is: entry does, which is GO at 20.
pub fn counts_passes(kind: u32, location: u32, fault: Fault) -> bool {
    match (kind, location) {
        (GO, 20) => fault != Fault::PassesCountedAtCome,
        (GO, 24) => fault == Fault::PassesCountedAtGo24,
        (COME, _) => fault == Fault::PassesCountedAtCome,
        _ => false,
    }
}

/// Those over whom p has one more if it enters: all that compete.
fn passed(system: &System, p: usize, fault: Fault) -> Set {
    let mut passed = system.competing(fault);
    for q in 0..system.n() {
        if fault == Fault::PassesOverThoseAt20 && system.processes[q].location == 20 {
            passed[q] = true;
        }
    }
    passed[p] = fault == Fault::PassesOverItself;
    passed
}

/// Whether an entry of p would bring a count past 65,535.
pub fn is_full(system: &System, p: usize, fault: Fault) -> bool {
    let most = if fault == Fault::FullAt65534 { 65_534 } else { 65_535 };
    let passed = match fault {
        Fault::CountsWrap | Fault::CountsStayFull => [false; 16],
        Fault::FullOverAnyone => [true; 16],
        _ => passed(system, p, fault),
    };
    (0..16).any(|r| passed[r] && system.processes[p].passes[r] + 1 > most)
}

/// The entry of p: one more at (p, r) for each r that competes.
pub fn add_passes(system: &mut System, p: usize, fault: Fault) {
    let passed = passed(system, p, fault);
    for r in 0..16 {
        if passed[r] {
            let (of, over) = if fault == Fault::PassesOfTheOther { (r, p) } else { (p, r) };
            let count = &mut system.processes[of].passes[over];
            *count = match fault {
                Fault::CountsWrap => (*count + 1) % 65_536,
                Fault::CountsStayFull | Fault::FullCountsTheOthers => (*count + 1).min(65_535),
                _ => *count + 1,
            };
        }
    }
}

/// The exit of p: 0 at every (q, p).
pub fn clear_passes(system: &mut System, p: usize, fault: Fault) {
    if fault == Fault::PassesNotCleared {
        return;
    }
    for q in 0..system.n() {
        if fault == Fault::PassesOfLeaverCleared || fault == Fault::PassesOfLeaverClearedToo {
            system.processes[p].passes[q] = 0;
        }
        let skipped = match fault {
            Fault::PassesOfLeaverCleared => true,
            Fault::PassesClearedOfCompeting => !system.competes(q, fault),
            _ => false,
        };
        if !skipped {
            system.processes[q].passes[p] = 0;
        }
    }
}

/// A refused word changes nothing, but for a fault: one that meets 15 counts where there is room.
pub fn spoil_full(system: &mut System, word: u32, refusal: u16, fault: Fault) {
    if fault != Fault::FullCountsTheOthers || refusal != 15 {
        return;
    }
    let p = (word / 0x1_0000 % 0x100) as usize;
    add_passes(system, p, fault);
}
