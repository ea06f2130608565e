//! Compares the reference with the linked library, or with the naive model where none is linked.
//!
//!     compare [--seed S] [--calls C] [--seconds T] [--case I] [--replay PATH]
//!
//! C runs on bytes (210,000 by default) with the other kinds in proportion, or T seconds; `--case I` shows one case of a seed.
//! The seed is 1 where none is given, so that two comparisons without one are the same. On a difference it prints the case, made
//! small, and both answers, and exits with 1; if some refusal, location, CANCEL, shared cell, end of rounds, form of an
//! image, unsound count of passes, or effect of settings was never met it exits with 2.

use reference::compare::{make_case, shrink, Case, Counts, Engine, Kind, Reference};
use reference::generate::Random;
use std::time::{Duration, Instant};

/// The seed where none is given.
const SEED: u64 = 1;

struct Options {
    seed: u64,
    calls: u64,
    time: Option<Duration>,
    case: Option<u64>,
    replay: Option<String>,
}

fn options() -> Options {
    let mut options =
        Options { seed: SEED, calls: 210_000, time: None, case: None, replay: std::env::var("ZAGUYPO_REPLAY").ok() };
    let mut words = std::env::args().skip(1);
    while let Some(option) = words.next() {
        let value = words.next().unwrap_or_else(|| panic!("{option} needs a value"));
        let number = || value.parse::<u64>().unwrap_or_else(|_| panic!("{option} needs a number"));
        match option.as_str() {
            "--seed" => options.seed = number(),
            "--calls" => options.calls = number(),
            "--seconds" => options.time = Some(Duration::from_secs(number())),
            "--case" => options.case = Some(number()),
            "--replay" => options.replay = Some(value),
            _ => panic!("unknown option {option}"),
        }
    }
    options
}

#[cfg(feature = "linked")]
fn other(replay: Option<String>) -> impl Engine {
    reference::compare::Linked { replay: replay.map(Into::into) }
}

#[cfg(not(feature = "linked"))]
fn other(_: Option<String>) -> impl Engine {
    reference::compare::Naive(reference::naive::Fault::None)
}

/// The kind of a case by its number: 16 of 31 are runs on bytes, each other exported function has one to three of 31, and the
/// printing program, which is a process each time, one of 124.
fn kind_of(number: u64) -> Kind {
    match number % 31 {
        0..=15 => Kind::Call,
        16 if number % 124 == 16 => Kind::Text,
        16..=18 => Kind::Step,
        19 | 20 => Kind::Run,
        21 => Kind::Census,
        22 | 23 => Kind::Print,
        24 | 25 => Kind::ReadImage,
        26 => Kind::WriteImage,
        27 => Kind::Fresh,
        28 => Kind::TakeApart,
        29 => Kind::Rounds,
        _ => Kind::PutTogether,
    }
}

fn case_of(seed: u64, number: u64) -> Case {
    make_case(&mut Random::of_case(seed, number), kind_of(number))
}

fn main() {
    let options = options();
    let engine = other(options.replay.clone());
    println!("seed {}, reference against {}", options.seed, engine.name());
    let left_out: Vec<String> =
        Kind::ALL.iter().filter(|kind| !engine.offers(**kind)).map(|kind| format!("{kind:?}")).collect();
    if !left_out.is_empty() {
        println!("not offered, so not compared: {}", left_out.join(", "));
    }
    if let Some(number) = options.case {
        return show(&engine, &case_of(options.seed, number));
    }
    let start = Instant::now();
    let mut counts = Counts::default();
    for number in 0.. {
        let enough = match options.time {
            Some(time) => number % 64 == 0 && start.elapsed() >= time,
            None => counts.calls[Kind::Call as usize] >= options.calls,
        };
        if enough {
            break;
        }
        if engine.offers(kind_of(number)) {
            let case = case_of(options.seed, number);
            let ours = case.answer(&Reference);
            if ours != case.answer(&engine) {
                report(&engine, options.seed, number, case);
                std::process::exit(1);
            }
            counts.note(&case, &ours);
        }
    }
    let unseen = counts.unseen();
    unseen.iter().for_each(|line| println!("{line}"));
    println!("no difference in {:.1} s", start.elapsed().as_secs_f64());
    println!("{}", counts.report(options.seed));
    if !unseen.is_empty() {
        std::process::exit(2);
    }
}

fn report(engine: &dyn Engine, seed: u64, number: u64, case: Case) {
    println!("DIFFERENCE: --seed {seed} --case {number}");
    show(engine, &shrink(case, &|case| case.answer(&Reference) != case.answer(engine)));
}

fn show(engine: &dyn Engine, case: &Case) {
    println!("{case}");
    println!("  reference: {}", case.answer(&Reference));
    if engine.offers(case.kind()) {
        println!("  {}: {}", engine.name(), case.answer(engine));
    }
}
