//! What settings leave, at random tables and along random lists: what is accepted under them is accepted under 0 and 0 with
//! the same answer, demand 3 holds, and two words can be exchanged but for one writer.

use reference::compare::{Engine, Naive, Reference};
use reference::generate::schedule::schedule;
use reference::generate::settings::contend;
use reference::generate::tables::{fresh_table, sound_table};
use reference::generate::Random;
use reference::naive::Fault;
use reference::walk::{candidates, exchange, Exchange, Taken};
use reference::{Ran, Row, Settings, StepAnswer, Tally};

const SETTINGS_REFUSALS: [u16; 3] = [16, 17, 18];

/// A random sound table; in every second one two processes are about one turn cell.
fn some_rows(rng: &mut Random, n: usize) -> Vec<Row> {
    let mut rows = sound_table(rng, n);
    if rng.chance(1, 2) {
        contend(rng, &mut rows);
    }
    rows
}

/// Every candidate word at random tables: accepted with the table and the cell of 0 and 0, refused as there, or refused
/// with 16 or 17 though it is accepted there. Answers how often these two were met.
fn words_at_tables(engine: &dyn Engine, n: usize, rounds: u64) -> [u64; 2] {
    let mut rng = Random::new(7 * n as u64);
    let mut met = [0; 2];
    for _ in 0..rounds {
        let rows = some_rows(&mut rng, n);
        for word in candidates(n as u32) {
            let under = |settings| {
                let mut after = rows.clone();
                (engine.step_under(&mut after, word, settings), after)
            };
            let safe = under(Settings::SAFE);
            for settings in Settings::ALL {
                let (answer, after) = under(settings);
                if !SETTINGS_REFUSALS.contains(&answer.refusal) {
                    assert_eq!((answer, after), safe, "{settings}: {word:08X} {rows:?}");
                    continue;
                }
                assert_eq!((safe.0.refusal, &after), (0, &rows), "{settings}: {word:08X} {rows:?}");
                met[usize::from(answer.refusal) - 16] += 1;
            }
        }
    }
    met
}

#[test]
fn what_is_accepted_is_accepted_under_0_and_0() {
    for engine in [&Reference as &dyn Engine, &Naive(Fault::None)] {
        let mut all = [0; 2];
        for (n, rounds) in [(2, 600), (3, 300), (5, 60), (16, 3)] {
            let met = words_at_tables(engine, n, rounds);
            all.iter_mut().zip(met).for_each(|(all, met)| *all += met);
        }
        assert!(all.iter().all(|&met| met > 100), "{all:?}");
    }
}

/// A run under settings: the words that it takes are all taken under 0 and 0, with the same table, tally and cell.
#[test]
fn every_allowed_run_is_a_run_under_0_and_0() {
    for engine in [&Reference as &dyn Engine, &Naive(Fault::None)] {
        let mut rng = Random::new(18);
        let mut stops = [0; 2];
        for round in 0..900 {
            let (n, settings) = (2 + round % 15, Settings::ALL[round % 6]);
            let start = if round % 3 == 0 { fresh_table(&mut rng, n) } else { some_rows(&mut rng, n) };
            let words = schedule(&mut rng, &start, 200, round % 4, settings);
            let under = |words: &[u32], settings| {
                let (mut rows, mut tally) = (start.clone(), Tally::default());
                let ran = engine.run_under(&mut rows, words, &mut tally, settings);
                (ran, rows, tally)
            };
            let (ran, rows, tally) = under(&words, settings);
            let whole = Ran { refusal: 0, ..ran };
            assert_eq!(under(&words[..ran.taken as usize], Settings::SAFE), (whole, rows, tally), "{settings}");
            if let 16 | 17 = ran.refusal {
                stops[ran.refusal as usize - 16] += 1;
            }
        }
        assert!(stops.iter().all(|&met| met > 4), "{stops:?}");
    }
}

/// Lists from fresh tables, past refused words: at most k are held at k, and one is at 30; and the table is that of the
/// accepted words under 0 and 0.
#[test]
fn held_is_at_most_k_under_every_setting() {
    let engine = &Reference;
    let mut rng = Random::new(31);
    let (mut arrivals, mut forbidden) = ([0; 6], [0; 2]);
    for round in 0..300 {
        let (n, place) = (2 + round % 15, round % 6);
        let settings = Settings::ALL[place];
        let start = fresh_table(&mut rng, n);
        // every second list is made for 0 and 0, so that more of its words are forbidden
        let made_for = if round % 2 == 0 { Settings::SAFE } else { settings };
        let (mut rows, mut safe) = (start.clone(), start.clone());
        for word in schedule(&mut rng, &start, 300, 10, made_for) {
            match engine.step_under(&mut rows, word, settings).refusal {
                0 => assert_eq!(engine.step(&mut safe, word).refusal, 0),
                refusal @ (16 | 17) => forbidden[usize::from(refusal) - 16] += 1,
                _ => {}
            }
            assert_eq!(rows, safe);
            let census = engine.census(&rows);
            assert!(census.at_30 <= 1 && (0..=n).all(|k| usize::from(census.held[k]) <= k), "{settings}: {rows:?}");
            arrivals[place] += census.at_30;
        }
    }
    assert!(
        arrivals.iter().all(|&met| met > 50) && forbidden.iter().all(|&met| met > 20),
        "{arrivals:?} {forbidden:?}"
    );
}

/// The words that a table accepts under settings.
fn taken<const N: usize>(engine: &dyn Engine, rows: &[Row; N], settings: Settings) -> Vec<Taken<N>> {
    let mut taken = Vec::new();
    for word in candidates(N as u32) {
        let mut led = *rows;
        let StepAnswer { refusal, cell } = engine.step_under(&mut led, word, settings);
        if refusal == 0 {
            taken.push(Taken { word, cell, rows: led });
        }
    }
    taken
}

/// All pairs at random sound tables under settings; answers how many tables have a pair whose order matters.
fn at_random_tables<const N: usize>(engine: &dyn Engine, rounds: u64, settings: Settings) -> u64 {
    let mut rng = Random::new(N as u64);
    let (mut all, mut failed) = (Exchange::default(), 0);
    for _ in 0..rounds {
        let rows: [Row; N] = some_rows(&mut rng, N).try_into().expect("N rows");
        let step = |rows: &mut [Row; N], word: u32| engine.step_under(rows, word, settings);
        match exchange(&taken(engine, &rows, settings), step) {
            Ok(counts) => all += counts,
            Err(pair) => {
                // both go to 24 of one level, and 17 is what the second meets
                let [first, second] = *pair;
                let mut after = first.rows;
                assert_eq!(step(&mut after, second.word).refusal, 17, "{first:?} {second:?}");
                failed += 1;
            }
        }
    }
    assert!(all.apart > 0 && all.ahead_differs > 0 && all.passes_differ > 0, "{settings}: {all:?}");
    failed
}

#[test]
fn exchange_under_settings() {
    for engine in [&Reference as &dyn Engine, &Naive(Fault::None)] {
        for settings in Settings::ALL {
            let failed = [
                at_random_tables::<2>(engine, 700, settings),
                at_random_tables::<3>(engine, 400, settings),
                at_random_tables::<5>(engine, 100, settings),
            ];
            assert_eq!(failed.iter().any(|&failed| failed > 0), settings.turn == 1, "{settings}: {failed:?}");
        }
    }
}

/// Two processes at 23 of one level: either goes to 24 under one writer, no cell is used, and after either the other meets
/// 17.
#[test]
fn one_writer_breaks_the_exchange() {
    let rows = [0b10, 0b01].map(|est| Row { loc: 23, level: 1, est, ..Row::IDLE });
    for engine in [&Reference as &dyn Engine, &Naive(Fault::None)] {
        for settings in Settings::ALL {
            let step = |rows: &mut [Row; 2], word: u32| engine.step_under(rows, word, settings);
            let goes: Vec<_> = taken(engine, &rows, settings);
            assert_eq!(goes.iter().map(|taken| taken.word).collect::<Vec<_>>(), [0x40000000, 0x40010000]);
            assert_eq!(exchange(&goes, step).is_err(), settings.turn == 1, "{settings}");
        }
    }
}
