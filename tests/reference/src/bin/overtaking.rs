//! Searches every table that two processes reach from a fresh one, and three from zeros with every turn, under each turn
//! setting, with and without CANCELs, for the largest count of passes: through the linked library, or the reference where
//! none is linked.
//!
//!     overtaking [2 | 3]        both where no number of processes is given; a line for each search
//!
//! It exits with 1 if the largest count is not 2 under one writer or plain turn, or is not cut off under a write-safe one.

use reference::compare::Engine;
use reference::overtaking::{is_expected, of_2, of_3, Overtaken, CUT_OF_2, CUT_OF_3};
use std::cell::Cell;
use std::time::{Duration, Instant};

#[cfg(feature = "linked")]
fn engine() -> impl Engine {
    reference::compare::Linked { replay: None }
}

#[cfg(not(feature = "linked"))]
fn engine() -> impl Engine {
    reference::compare::Reference
}

/// How often progress is told.
const PAUSE: Duration = Duration::from_secs(5);

fn main() {
    let sizes: Vec<usize> = match std::env::args().nth(1) {
        None => vec![2, 3],
        Some(size) => vec![size.parse().expect("overtaking, overtaking 2 or overtaking 3")],
    };
    let engine = engine();
    let mut passed = true;
    for n in sizes {
        for turn in 0..=2 {
            passed &= searched(n, turn, false, &engine) & searched(n, turn, true, &engine);
        }
    }
    if !passed {
        std::process::exit(1);
    }
    println!("searched: the largest count of passes is 2 under turn 1 and 2, and grows under turn 0");
}

/// Makes one search, and tells whether it met what is expected.
fn searched(n: usize, turn: u32, cancels: bool, engine: &impl Engine) -> bool {
    let cancels_or_not = if cancels { "with cancels" } else { "without cancels" };
    let name = format!("{n} processes, turn {turn}, {cancels_or_not}");
    let (start, told) = (Instant::now(), Cell::new(Duration::ZERO));
    let progress = |tables: usize| {
        if start.elapsed() > told.get() + PAUSE {
            told.set(start.elapsed());
            eprintln!("{name}: {tables} tables after {} s", start.elapsed().as_secs());
        }
    };
    let (cut, overtaken) = match n {
        2 => (CUT_OF_2, of_2(turn, cancels, engine, progress)),
        3 => (CUT_OF_3, of_3(turn, cancels, engine, progress)),
        _ => panic!("two or three processes"),
    };
    let Overtaken { tables, words, largest, after } = overtaken;
    let or_more = if largest == cut { " or more" } else { "" };
    println!(
        "{name}: {tables} tables, {words} words, largest count of passes {largest}{or_more}, first after {after} words"
    );
    eprintln!("{name}: {:.1} s", start.elapsed().as_secs_f64());
    let expected = is_expected(turn, cut, &overtaken);
    if !expected {
        println!("NOT EXPECTED: {name}");
    }
    expected
}
