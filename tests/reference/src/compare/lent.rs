//! Memory lent to an engine, between guards.

use crate::{Row, Tally};

/// What is lent: each type has a value that no engine writes by chance, which stands on both sides.
pub trait Guarded: Copy + PartialEq {
    const GUARD: Self;
}

impl Guarded for u8 {
    const GUARD: u8 = 0x5A;
}

impl Guarded for u32 {
    const GUARD: u32 = 0x5A5A_5A5A;
}

impl Guarded for Row {
    const GUARD: Row = Row { loc: 1, act: 2, bb: 3, level: 4, est: 5, lis: 6, ahead: 7, turn: 8, passes: [9; 16] };
}

impl Guarded for Tally {
    const GUARD: Tally = Tally { words: 1, comes: 2, arrivals: 3 };
}

/// Cells of guard on each side.
const GUARDS: usize = 64;

/// What lent bytes and words hold before the call.
pub const FILL: u8 = 0xA5;
pub const FILL_WORD: u32 = u32::from_le_bytes([FILL; 4]);

/// Memory that was lent: the part in between, whether the guards about it are whole, and whether what was lent for reading is.
#[derive(Clone, Debug, PartialEq, Eq)]
pub struct Lent<T> {
    pub inside: Vec<T>,
    pub guards_whole: bool,
    pub input_whole: bool,
}

/// Guards, `shift` of them more in front, and `given` in between; the last two numbers are where it begins and ends.
fn guarded<T: Guarded>(given: &[T], shift: usize) -> (Vec<T>, usize, usize) {
    let (from, to) = (GUARDS + shift, GUARDS + shift + given.len());
    let mut memory = vec![T::GUARD; to + GUARDS];
    memory[from..to].copy_from_slice(given);
    (memory, from, to)
}

fn guards_whole<T: Guarded>(memory: &[T], from: usize, to: usize) -> bool {
    memory[..from].iter().chain(&memory[to..]).all(|cell| *cell == T::GUARD)
}

/// Lends `given` to `with`, then looks at all of it. `with` tells besides whether what it lent for reading is whole.
pub fn lend<T: Guarded, R>(given: &[T], shift: usize, with: impl FnOnce(&mut [T]) -> (R, bool)) -> (R, Lent<T>) {
    let (mut memory, from, to) = guarded(given, shift);
    let (result, input_whole) = with(&mut memory[from..to]);
    let guards_whole = guards_whole(&memory, from, to);
    (result, Lent { inside: memory[from..to].to_vec(), guards_whole, input_whole })
}

/// Lends `given` to `with` for reading, and tells whether it and its guards are whole afterwards.
pub fn lend_to_read<T: Guarded, R>(given: &[T], shift: usize, with: impl FnOnce(&[T]) -> R) -> (R, bool) {
    let (memory, from, to) = guarded(given, shift);
    let result = with(&memory[from..to]);
    let whole = guards_whole(&memory, from, to) && memory[from..to] == *given;
    (result, whole)
}
