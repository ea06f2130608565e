//! The reference under the exported names, as a static library: tries the linked build before the other library exists.

use reference::{Census, PartsAnswer, Ran, Reading, Rounded, Row, Settings, StepAnswer, Tally, WordAnswer};
use std::ffi::c_char;
use std::slice::{from_raw_parts, from_raw_parts_mut};

/// A lent array for reading; of no elements the pointer may be NULL.
unsafe fn array<'a, T>(pointer: *const T, count: usize) -> &'a [T] {
    match count {
        0 => &[],
        _ => from_raw_parts(pointer, count),
    }
}

/// A lent array for writing; of no elements the pointer may be NULL.
unsafe fn array_mut<'a, T>(pointer: *mut T, count: usize) -> &'a mut [T] {
    match count {
        0 => &mut [],
        _ => from_raw_parts_mut(pointer, count),
    }
}

/// # Safety
/// The pointers go with their lengths.
#[no_mangle]
pub unsafe extern "C" fn zaguypo_run(
    input: *const u8,
    input_len: usize,
    image: *mut u8,
    image_len: usize,
    act: u32,
    turn: u32,
) -> u64 {
    reference::c_call(array(input, input_len), array_mut(image, image_len), Settings { act, turn })
}

/// # Safety
/// The pointers go with their lengths.
#[no_mangle]
pub unsafe extern "C" fn zaguypo_print(
    input: *const u8,
    input_len: usize,
    text: *mut c_char,
    text_len: usize,
) -> usize {
    reference::print_into(array(input, input_len), array_mut(text.cast(), text_len))
}

/// # Safety
/// The pointer goes with its length.
#[no_mangle]
pub unsafe extern "C" fn zaguypo_fresh(rows: *mut Row, size: usize) -> u16 {
    reference::fresh_in(array_mut(rows, size))
}

/// # Safety
/// The pointer goes with its length.
#[no_mangle]
pub unsafe extern "C" fn zaguypo_step(rows: *mut Row, size: usize, word: u32, act: u32, turn: u32) -> StepAnswer {
    reference::step_in(array_mut(rows, size), word, Settings { act, turn })
}

/// # Safety
/// The pointers go with their lengths.
#[no_mangle]
pub unsafe extern "C" fn zaguypo_run_rows(
    rows: *mut Row,
    size: usize,
    words: *const u32,
    count: usize,
    tally: *mut Tally,
    act: u32,
    turn: u32,
) -> Ran {
    reference::run(array_mut(rows, size), array(words, count), &mut *tally, Settings { act, turn })
}

/// # Safety
/// The pointer goes with its length.
#[no_mangle]
pub unsafe extern "C" fn zaguypo_census(rows: *const Row, size: usize) -> Census {
    reference::census(array(rows, size))
}

/// # Safety
/// The pointer goes with its length.
#[no_mangle]
pub unsafe extern "C" fn zaguypo_rounds(rows: *mut Row, size: usize) -> Rounded {
    reference::rounds(array_mut(rows, size))
}

/// # Safety
/// The pointers go with their lengths.
#[no_mangle]
pub unsafe extern "C" fn zaguypo_read(words: *const u32, count: usize, rows: *mut Row, size: usize) -> Reading {
    reference::read_into(array(words, count), array_mut(rows, size))
}

/// # Safety
/// The pointers go with their lengths.
#[no_mangle]
pub unsafe extern "C" fn zaguypo_write(rows: *const Row, size: usize, words: *mut u32, count: usize) -> u16 {
    reference::write_image(array(rows, size), array_mut(words, count))
}

#[no_mangle]
pub extern "C" fn zaguypo_apart(word: u32) -> PartsAnswer {
    reference::take_apart(word)
}

#[no_mangle]
pub extern "C" fn zaguypo_together(kind: u32, process: u32, argument: u32) -> WordAnswer {
    reference::put_together(kind, process, argument)
}
