//! The linked library behind the common face. Everything that depends on its names and types is in the one block below.

use super::{Engine, Kind};
use crate::{Census, PartsAnswer, Ran, Reading, Rounded, Row, Settings, StepAnswer, Tally, WordAnswer};
use std::io::{Read, Write};
use std::path::PathBuf;
use std::process::{Command, Stdio};

/// THE EXPORTED NAMES, as include/zaguypo.h declares them. The records are `repr(C)` in row.rs, cell.rs, step.rs,
/// run.rs, census.rs, rounds.rs, image.rs and word.rs.
mod exported {
    use crate::{Census, PartsAnswer, Ran, Reading, Rounded, Row, StepAnswer, Tally, WordAnswer};
    use std::ffi::c_char;

    extern "C" {
        pub fn zaguypo_run(
            input: *const u8,
            input_len: usize,
            image: *mut u8,
            image_len: usize,
            act: u32,
            turn: u32,
        ) -> u64;
        pub fn zaguypo_print(input: *const u8, input_len: usize, text: *mut c_char, text_len: usize) -> usize;

        pub fn zaguypo_fresh(rows: *mut Row, size: usize) -> u16;
        pub fn zaguypo_step(rows: *mut Row, size: usize, word: u32, act: u32, turn: u32) -> StepAnswer;
        pub fn zaguypo_run_rows(
            rows: *mut Row,
            size: usize,
            words: *const u32,
            count: usize,
            tally: *mut Tally,
            act: u32,
            turn: u32,
        ) -> Ran;
        pub fn zaguypo_census(rows: *const Row, size: usize) -> Census;
        pub fn zaguypo_rounds(rows: *mut Row, size: usize) -> Rounded;

        pub fn zaguypo_read(words: *const u32, count: usize, rows: *mut Row, size: usize) -> Reading;
        pub fn zaguypo_write(rows: *const Row, size: usize, words: *mut u32, count: usize) -> u16;

        pub fn zaguypo_apart(word: u32) -> PartsAnswer;
        pub fn zaguypo_together(kind: u32, process: u32, argument: u32) -> WordAnswer;
    }
}

// the sizes that C has for a row, for the answers with a cell, the second of which ends in two bytes of padding, and for
// rounds
const _: () = assert!(size_of::<Row>() == 48 && size_of::<StepAnswer>() == 8);
const _: () = assert!(size_of::<Ran>() == 16 && size_of::<Rounded>() == 6);

/// The library, and the printing program if its path is given.
pub struct Linked {
    pub replay: Option<PathBuf>,
}

// SAFETY of every call: the pointers come from slices of the lengths given with them, or from a reference.
impl Engine for Linked {
    fn name(&self) -> &str {
        "linked"
    }

    fn offers(&self, kind: Kind) -> bool {
        kind != Kind::Text || self.replay.is_some()
    }

    fn call_under(&self, input: &[u8], image: &mut [u8], Settings { act, turn }: Settings) -> u64 {
        unsafe { exported::zaguypo_run(input.as_ptr(), input.len(), image.as_mut_ptr(), image.len(), act, turn) }
    }

    fn text(&self, input: &[u8]) -> Vec<u8> {
        let program = self.replay.as_ref().expect("a printing program");
        print_with(program, input).unwrap_or_else(|error| format!("{}: {error}", program.display()).into_bytes())
    }

    fn print(&self, input: &[u8], text: &mut [u8]) -> usize {
        unsafe { exported::zaguypo_print(input.as_ptr(), input.len(), text.as_mut_ptr().cast(), text.len()) }
    }

    fn step_under(&self, rows: &mut [Row], word: u32, Settings { act, turn }: Settings) -> StepAnswer {
        unsafe { exported::zaguypo_step(rows.as_mut_ptr(), rows.len(), word, act, turn) }
    }

    fn run_under(&self, rows: &mut [Row], words: &[u32], tally: &mut Tally, settings: Settings) -> Ran {
        let (rows, size, Settings { act, turn }) = (rows.as_mut_ptr(), rows.len(), settings);
        unsafe { exported::zaguypo_run_rows(rows, size, words.as_ptr(), words.len(), tally, act, turn) }
    }

    fn census(&self, rows: &[Row]) -> Census {
        unsafe { exported::zaguypo_census(rows.as_ptr(), rows.len()) }
    }

    fn rounds(&self, rows: &mut [Row]) -> Rounded {
        unsafe { exported::zaguypo_rounds(rows.as_mut_ptr(), rows.len()) }
    }

    fn fresh(&self, rows: &mut [Row]) -> u16 {
        unsafe { exported::zaguypo_fresh(rows.as_mut_ptr(), rows.len()) }
    }

    fn take_apart(&self, word: u32) -> PartsAnswer {
        unsafe { exported::zaguypo_apart(word) }
    }

    fn put_together(&self, kind: u32, process: u32, argument: u32) -> WordAnswer {
        unsafe { exported::zaguypo_together(kind, process, argument) }
    }

    fn read_image(&self, words: &[u32], rows: &mut [Row]) -> Reading {
        unsafe { exported::zaguypo_read(words.as_ptr(), words.len(), rows.as_mut_ptr(), rows.len()) }
    }

    fn write_image(&self, rows: &[Row], words: &mut [u32]) -> u16 {
        unsafe { exported::zaguypo_write(rows.as_ptr(), rows.len(), words.as_mut_ptr(), words.len()) }
    }
}

/// Runs a printing program on an input.
fn print_with(program: &PathBuf, input: &[u8]) -> std::io::Result<Vec<u8>> {
    let mut child = Command::new(program).stdin(Stdio::piped()).stdout(Stdio::piped()).spawn()?;
    let mut stdin = child.stdin.take().expect("a pipe");
    let mut stdout = child.stdout.take().expect("a pipe");
    let input = input.to_vec();
    // a program that refuses its input may stop reading; what it prints is compared, not that
    let feeding = std::thread::spawn(move || stdin.write_all(&input));
    let mut out = Vec::new();
    stdout.read_to_end(&mut out)?;
    let _ = feeding.join();
    let status = child.wait()?;
    if !status.success() {
        out.extend_from_slice(format!("[{status}]").as_bytes());
    }
    Ok(out)
}
