//! Rounds: one word for each process in number order, again and again, until one of them is at 30 (manual, "Rounds").

use super::row::check;
use super::step::Machine;
use crate::rounds::most_rounds;
use crate::{refusal, Rounded, Row};

/// Sets of locations, bit l for location l.
const AT_30: u64 = 1 << 30;
const PENDING: u64 = 0b11111 << 20;

/// Does rounds in the lent rows until some process is at 30 after one, or the most are done. With a process at 30
/// beforehand, or with nobody at 20 to 24, it does none. A refused table is left as given. A refused word breaks its round,
/// which is not counted; what the round has done stays.
pub fn rounds(rows: &mut [Row]) -> Rounded {
    let refusal = check(rows);
    if refusal != refusal::NONE {
        return Rounded { refusal, ..Rounded::default() };
    }
    let met = rows.iter().fold(0u64, |met, row| met | 1 << row.loc);
    let mut occupied = met & AT_30 != 0;
    let most = if met & PENDING != 0 { most_rounds(rows.len()) } else { 0 };
    let mut machine = Machine::for_rounds(rows);
    let mut rounds = 0;
    while !occupied && rounds < most {
        match round(&mut machine, &mut occupied) {
            Ok(()) => rounds += 1,
            Err(refusal) => return Rounded { refusal, rounds, occupied: occupied.into() },
        }
    }
    Rounded { refusal, rounds, occupied: occupied.into() }
}

/// One round, up to a word that is refused. Each process moves once, so that some process is at 30 after it exactly if a
/// word led there.
#[inline]
fn round(machine: &mut Machine, occupied: &mut bool) -> Result<(), u16> {
    (0..machine.rows().len()).try_for_each(|p| {
        *occupied |= machine.advance(p)? == 30;
        Ok(())
    })
}
