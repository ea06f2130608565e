//! Rounds: one word for each process in number order, again and again, until one of them is at 30 (manual, "Rounds").

use crate::refusal;
use crate::row::{check, Row};
use crate::settings::Settings;
use crate::step::Machine;

/// The refusal or 0, the rounds done, and 1 where some process is at 30 in the rows as left.
#[repr(C)]
#[derive(Clone, Copy, Debug, Default, PartialEq, Eq)]
pub struct Rounded {
    pub refusal: u16,
    pub rounds: u16,
    pub occupied: u16,
}

/// The most rounds that are done with n processes.
pub fn most_rounds(n: usize) -> u16 {
    (4 * n * n * (n + 3)) as u16
}

/// Sets of locations, bit l for location l.
const AT_30: u64 = 1 << 30;
const PENDING: u64 = 0b11111 << 20;

/// Does rounds in the lent rows until some process is at 30 after one, or the most are done. With a process at 30
/// beforehand, or with nobody at 20 to 24, it does none. A refused table is left as given. A refused word breaks its round,
/// which is not counted; what the round has done stays.
pub fn rounds(rows: &mut [Row]) -> Rounded {
    let refusal = check(rows);
    if refusal != refusal::NONE {
        return Rounded { refusal, ..Rounded::default() };
    }
    let met = rows.iter().fold(0u64, |met, row| met | 1 << row.loc);
    let mut occupied = met & AT_30 != 0;
    let most = if met & PENDING != 0 { most_rounds(rows.len()) } else { 0 };
    let mut machine = Machine::new(rows, Settings::SAFE);
    let mut rounds = 0;
    while !occupied && rounds < most {
        match round(&mut machine, &mut occupied) {
            Ok(()) => rounds += 1,
            Err(refusal) => return Rounded { refusal, rounds, occupied: occupied.into() },
        }
    }
    Rounded { refusal, rounds, occupied: occupied.into() }
}

/// One round, up to a word that is refused. Each process moves once, so that some process is at 30 after it exactly if a
/// word led there.
#[inline]
fn round(machine: &mut Machine, occupied: &mut bool) -> Result<(), u16> {
    (0..machine.rows().len()).try_for_each(|p| {
        *occupied |= machine.advance(p)? == 30;
        Ok(())
    })
}
