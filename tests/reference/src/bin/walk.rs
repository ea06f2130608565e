//! Walks through every table that two processes reach from a fresh one, and three from zeros: the linked library, or the
//! reference where none is linked, beside the naive model.
//!
//!     walk            three lines for each walk, the first with the most memory that the program has had, and two more
//!                     for two processes; then `walked: ..`
//!     walk --control  the naive model alone, which lets two of three processes be at 30 if est is kept at GO 24; with
//!                     cells that are not told, so that the order of two words matters though none is seen to clash;
//!                     and with rounds that never end or end too late
//!
//! It exits with 1 after a difference, a table that breaks demand 3, two words without a clash whose order matters,
//! rounds that lead nobody to 30 in time, or a figure other than the one expected.

use reference::compare::{Case, Engine, Hex, Naive};
use reference::naive::Fault;
use reference::walk::{control, Beside, Exchange, Figures, Finding, Found, Full, Silence, Under, Visited, Walk};
use reference::walk::{EVERY_OF_2, SHORTEST, TOO_LONG, UNTOLD, ZEROS_OF_2, ZEROS_OF_3};
use reference::{Settings, Tally};
use std::time::Instant;

#[cfg(feature = "linked")]
fn engine() -> impl Engine {
    reference::compare::Linked { replay: None }
}

#[cfg(not(feature = "linked"))]
fn engine() -> impl Engine {
    reference::compare::Reference
}

fn main() {
    let arguments: Vec<String> = std::env::args().skip(1).collect();
    let passed = match arguments.iter().map(String::as_str).collect::<Vec<_>>()[..] {
        [] => walks(&engine()),
        ["--control"] => controls(),
        _ => panic!("walk, or walk --control"),
    };
    if !passed {
        std::process::exit(1);
    }
}

fn walks(engine: &dyn Engine) -> bool {
    let walks = [ZEROS_OF_2, EVERY_OF_2, ZEROS_OF_3];
    let passed = walks.iter().all(|walk| passes(walk, engine));
    if passed {
        println!("walked: {} walks, no difference", walks.len());
    }
    passed
}

fn passes(walk: &Walk, engine: &dyn Engine) -> bool {
    let start = Instant::now();
    match (walk.over)(&Beside { engine, fault: Fault::None, again: true }) {
        Ok(figures) => {
            let seconds = start.elapsed().as_secs_f64();
            println!("walk {}: {}, {seconds:.1} s, {} MB", walk.name, shown(&figures), most_memory());
            lines(&figures.visited).iter().for_each(|(what, line)| println!("{what} {}: {line}", walk.name));
            let Walk { expected, .. } = walk;
            if figures != *expected {
                println!("EXPECTED {}: {}", walk.name, shown(expected));
                lines(&expected.visited).iter().for_each(|(what, line)| println!("EXPECTED {what}: {line}"));
            }
            figures == *expected
        }
        Err(found) => {
            println!("walk {}", walk.name);
            show(found, engine);
            false
        }
    }
}

fn shown(Figures { tables, accepted, refused, .. }: &Figures) -> String {
    format!("{tables} tables, {accepted} accepted words, {refused} refused")
}

/// What was counted beside tables and words, a line each; of passes and of settings where there were any.
fn lines(Visited { exchange, silence, full, under }: &Visited) -> Vec<(&'static str, String)> {
    let mut lines = vec![("exchange", exchanged(exchange)), ("rounds", rounded(silence))];
    if full.words > 0 {
        lines.push(("passes", with_passes(full)));
    }
    if under.words > 0 {
        lines.push(("settings", under_settings(under)));
    }
    lines
}

fn exchanged(exchange: &Exchange) -> String {
    let Exchange { apart, ahead_differs, passes_differ, clashing, clash_differs, full } = exchange;
    format!(
        "{apart} pairs without a clash, the order shows in ahead sets in {ahead_differs}, in passes in {passes_differ}; \
         {clashing} with a clash, the order matters in {clash_differs}; {full} with a full count"
    )
}

fn with_passes(Full { words, entries, exits, full }: &Full) -> String {
    format!("{words} words with passes few or full, {entries} entries, {exits} exits, {full} refused with 15")
}

fn under_settings(Under { words, accepted, flickers, goes }: &Under) -> String {
    format!("{words} words under the other five, {accepted} accepted, {flickers} refused with 16, {goes} with 17")
}

fn rounded(Silence { tables, rounds, most }: &Silence) -> String {
    format!("from {tables} tables with somebody at 20 to 24 and nobody at 30, {rounds} in all, at most {most} from one")
}

/// The most memory that this program has had so far, in MB.
fn most_memory() -> u64 {
    let status = std::fs::read_to_string("/proc/self/status").expect("Linux");
    let kilobytes = status.lines().find_map(|line| line.strip_prefix("VmHWM:")?.strip_suffix("kB"));
    kilobytes.and_then(|number| number.trim().parse::<u64>().ok()).expect("a number of kB") / 1024
}

fn show(found: Found<Finding>, engine: &dyn Engine) {
    let (what, cases) = match found.finding {
        Finding::Difference(case) => ("DIFFERENCE", vec![*case]),
        Finding::Demand3(case) => ("DEMAND 3 BROKEN", vec![*case]),
        Finding::Exchange(cases) => ("THE ORDER OF TWO WORDS MATTERS", cases.to_vec()),
        Finding::Silence(case) => ("ROUNDS LEAD NOBODY TO 30 IN TIME", vec![*case]),
    };
    for case in cases {
        println!("{what}: {case}");
        for engine in [engine, &Naive(Fault::None)] {
            println!("  {}: {}", engine.name(), case.answer(engine));
        }
    }
    let (tally, settings) = (Tally::default(), Settings::SAFE);
    println!("  met by: {}", Case::Run { rows: found.start, words: found.words, tally, settings });
}

fn controls() -> bool {
    let (two, three) = (control::<2>(), control::<3>());
    show_control(2, &two);
    show_control(3, &three);
    let exchanges = UNTOLD.map(exchange_fails);
    let rounds = TOO_LONG.map(rounds_fail);
    let excluded = two.is_ok() && three.is_err_and(|found| found.words.len() == SHORTEST);
    excluded && exchanges == [true; UNTOLD.len()] && rounds == [true; TOO_LONG.len()]
}

/// The naive model with a fault on both sides, so that they agree: two words whose order matters are found.
fn exchange_fails(fault: Fault) -> bool {
    match (ZEROS_OF_2.over)(&Beside { engine: &Naive(fault), fault, again: true }) {
        Err(Found { finding: Finding::Exchange(cases), words, .. }) => {
            println!("control exchange, {fault:?}: after {} words the order of two matters", words.len());
            cases.iter().for_each(|case| println!("  {case}\n  leads to {}", case.answer(&Naive(fault))));
            true
        }
        _ => false,
    }
}

/// The same: rounds that lead nobody to 30 in time are found.
fn rounds_fail(fault: Fault) -> bool {
    match (ZEROS_OF_2.over)(&Beside { engine: &Naive(fault), fault, again: true }) {
        Err(Found { finding: Finding::Silence(case), words, .. }) => {
            println!("control rounds, {fault:?}: after {} words there are too many", words.len());
            println!("  {case}\n  lead to {}", case.answer(&Naive(fault)));
            true
        }
        _ => false,
    }
}

fn show_control<F>(n: usize, ended: &Result<Figures, Found<F>>) {
    match ended {
        Ok(figures) => println!("control {n}: never two at 30 ({} tables)", figures.tables),
        Err(found) => println!("control {n}: two at 30 after {} words{}", found.words.len(), Hex(&found.words)),
    }
}
