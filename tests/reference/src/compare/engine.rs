//! What is compared: one face for the plain engine, the tuned one, the naive model and the linked library.

use super::Kind;
use crate::naive::{self, Fault};
use crate::tuned;
use crate::{Census, PartsAnswer, Ran, Reading, Rounded, Row, Settings, StepAnswer, Tally, WordAnswer};

/// Every function of include/zaguypo.h, and the printing program as `text`. An engine that lacks a kind of call says so in
/// `offers` and is not asked for it. What takes settings can be asked without, which is under 0 and 0.
pub trait Engine {
    fn name(&self) -> &str;
    fn offers(&self, kind: Kind) -> bool;
    fn call_under(&self, input: &[u8], image: &mut [u8], settings: Settings) -> u64;
    fn text(&self, input: &[u8]) -> Vec<u8>;
    fn print(&self, input: &[u8], text: &mut [u8]) -> usize;
    fn step_under(&self, rows: &mut [Row], word: u32, settings: Settings) -> StepAnswer;
    fn run_under(&self, rows: &mut [Row], words: &[u32], tally: &mut Tally, settings: Settings) -> Ran;
    fn census(&self, rows: &[Row]) -> Census;
    fn rounds(&self, rows: &mut [Row]) -> Rounded;
    fn fresh(&self, rows: &mut [Row]) -> u16;
    fn take_apart(&self, word: u32) -> PartsAnswer;
    fn put_together(&self, kind: u32, process: u32, argument: u32) -> WordAnswer;
    fn read_image(&self, words: &[u32], rows: &mut [Row]) -> Reading;
    fn write_image(&self, rows: &[Row], words: &mut [u32]) -> u16;

    fn call(&self, input: &[u8], image: &mut [u8]) -> u64 {
        self.call_under(input, image, Settings::SAFE)
    }
    fn step(&self, rows: &mut [Row], word: u32) -> StepAnswer {
        self.step_under(rows, word, Settings::SAFE)
    }
    fn run(&self, rows: &mut [Row], words: &[u32], tally: &mut Tally) -> Ran {
        self.run_under(rows, words, tally, Settings::SAFE)
    }
}

/// The plain engine of this package.
pub struct Reference;

impl Engine for Reference {
    fn name(&self) -> &str {
        "reference"
    }
    fn offers(&self, _: Kind) -> bool {
        true
    }
    fn call_under(&self, input: &[u8], image: &mut [u8], settings: Settings) -> u64 {
        crate::c_call(input, image, settings)
    }
    fn text(&self, input: &[u8]) -> Vec<u8> {
        crate::text(input)
    }
    fn print(&self, input: &[u8], text: &mut [u8]) -> usize {
        crate::print_into(input, text)
    }
    fn step_under(&self, rows: &mut [Row], word: u32, settings: Settings) -> StepAnswer {
        crate::step_in(rows, word, settings)
    }
    fn run_under(&self, rows: &mut [Row], words: &[u32], tally: &mut Tally, settings: Settings) -> Ran {
        crate::run(rows, words, tally, settings)
    }
    fn census(&self, rows: &[Row]) -> Census {
        crate::census(rows)
    }
    fn rounds(&self, rows: &mut [Row]) -> Rounded {
        crate::rounds(rows)
    }
    fn fresh(&self, rows: &mut [Row]) -> u16 {
        crate::fresh_in(rows)
    }
    fn take_apart(&self, word: u32) -> PartsAnswer {
        crate::take_apart(word)
    }
    fn put_together(&self, kind: u32, process: u32, argument: u32) -> WordAnswer {
        crate::put_together(kind, process, argument)
    }
    fn read_image(&self, words: &[u32], rows: &mut [Row]) -> Reading {
        crate::read_into(words, rows)
    }
    fn write_image(&self, rows: &[Row], words: &mut [u32]) -> u16 {
        crate::write_image(rows, words)
    }
}

/// The tuned engine. What there is nothing to tune in is the plain one's.
pub struct Tuned;

impl Engine for Tuned {
    fn name(&self) -> &str {
        "tuned"
    }
    fn offers(&self, _: Kind) -> bool {
        true
    }
    fn call_under(&self, input: &[u8], image: &mut [u8], settings: Settings) -> u64 {
        tuned::c_call(input, image, settings)
    }
    fn text(&self, input: &[u8]) -> Vec<u8> {
        tuned::text(input)
    }
    fn print(&self, input: &[u8], text: &mut [u8]) -> usize {
        tuned::print_into(input, text)
    }
    fn step_under(&self, rows: &mut [Row], word: u32, settings: Settings) -> StepAnswer {
        tuned::step_in(rows, word, settings)
    }
    fn run_under(&self, rows: &mut [Row], words: &[u32], tally: &mut Tally, settings: Settings) -> Ran {
        tuned::run(rows, words, tally, settings)
    }
    fn census(&self, rows: &[Row]) -> Census {
        tuned::census(rows)
    }
    fn rounds(&self, rows: &mut [Row]) -> Rounded {
        tuned::rounds(rows)
    }
    fn fresh(&self, rows: &mut [Row]) -> u16 {
        crate::fresh_in(rows)
    }
    fn take_apart(&self, word: u32) -> PartsAnswer {
        crate::take_apart(word)
    }
    fn put_together(&self, kind: u32, process: u32, argument: u32) -> WordAnswer {
        crate::put_together(kind, process, argument)
    }
    fn read_image(&self, words: &[u32], rows: &mut [Row]) -> Reading {
        tuned::read_into(words, rows)
    }
    fn write_image(&self, rows: &[Row], words: &mut [u32]) -> u16 {
        tuned::write_image(rows, words)
    }
}

/// The naive model, with or without a fault.
pub struct Naive(pub Fault);

impl Engine for Naive {
    fn name(&self) -> &str {
        "naive"
    }
    fn offers(&self, _: Kind) -> bool {
        true
    }
    fn call_under(&self, input: &[u8], image: &mut [u8], Settings { act, turn }: Settings) -> u64 {
        naive::c_call(input, image, act, turn, self.0)
    }
    fn text(&self, input: &[u8]) -> Vec<u8> {
        naive::text(input, self.0).into_bytes()
    }
    fn print(&self, input: &[u8], text: &mut [u8]) -> usize {
        naive::print(input, text, self.0)
    }
    fn step_under(&self, rows: &mut [Row], word: u32, Settings { act, turn }: Settings) -> StepAnswer {
        naive::step(rows, word, act, turn, self.0)
    }
    fn run_under(&self, rows: &mut [Row], words: &[u32], tally: &mut Tally, settings: Settings) -> Ran {
        naive::run(rows, words, tally, settings.act, settings.turn, self.0)
    }
    fn census(&self, rows: &[Row]) -> Census {
        naive::census(rows, self.0)
    }
    fn rounds(&self, rows: &mut [Row]) -> Rounded {
        naive::rounds(rows, self.0)
    }
    fn fresh(&self, rows: &mut [Row]) -> u16 {
        naive::fresh(rows, self.0)
    }
    fn take_apart(&self, word: u32) -> PartsAnswer {
        naive::take_apart(word, self.0)
    }
    fn put_together(&self, kind: u32, process: u32, argument: u32) -> WordAnswer {
        naive::put_together(kind, process, argument, self.0)
    }
    fn read_image(&self, words: &[u32], rows: &mut [Row]) -> Reading {
        naive::read_image(words, rows, self.0)
    }
    fn write_image(&self, rows: &[Row], words: &mut [u32]) -> u16 {
        naive::write_image(rows, words, self.0)
    }
}
