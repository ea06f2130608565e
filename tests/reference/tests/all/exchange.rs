//! Two words of different processes in both orders: at any sound table, each way in which the check can fail, and what it
//! leaves out.

use reference::compare::{Engine, Naive, Reference};
use reference::generate::tables::sound_table;
use reference::generate::Random;
use reference::naive::Fault;
use reference::walk::{candidates, exchange, Exchange, Taken};
use reference::{Cell, Row, Settings, StepAnswer};

/// The words that a table accepts, by a step.
fn taken<const N: usize>(rows: &[Row; N], step: impl Fn(&mut [Row; N], u32) -> StepAnswer) -> Vec<Taken<N>> {
    let mut taken = Vec::new();
    for word in candidates(N as u32) {
        let mut led = *rows;
        let StepAnswer { refusal, cell } = step(&mut led, word);
        if refusal == 0 {
            taken.push(Taken { word, cell, rows: led });
        }
    }
    taken
}

/// All pairs at random sound tables, most of which no fresh one leads to.
fn at_random_tables<const N: usize>(engine: &dyn Engine, rounds: u64) {
    let mut rng = Random::new(N as u64);
    let mut all = Exchange::default();
    for _ in 0..rounds {
        let rows: [Row; N] = sound_table(&mut rng, N).try_into().expect("N rows");
        let step = |rows: &mut [Row; N], word: u32| engine.step(rows, word);
        all += exchange(&taken(&rows, step), step).expect("no order that matters");
    }
    let Exchange { apart, ahead_differs, passes_differ, clashing, clash_differs, full } = all;
    assert!(ahead_differs > 0 && ahead_differs < apart && clash_differs > 0 && clash_differs < clashing, "{all:?}");
    assert!(passes_differ > 0 && passes_differ < apart && full > 0, "{all:?}");
}

#[test]
fn at_sound_tables() {
    for engine in [&Reference as &dyn Engine, &Naive(Fault::None)] {
        at_random_tables::<2>(engine, 4_000);
        at_random_tables::<3>(engine, 2_000);
        at_random_tables::<5>(engine, 500);
        at_random_tables::<16>(engine, 20);
    }
}

/// Whether a step, tried at a table of two, is found to give two words without a clash an order that matters.
fn fails(rows: [Row; 2], step: impl Fn(&mut [Row; 2], u32) -> StepAnswer) -> bool {
    exchange(&taken(&rows, &step), &step).is_err()
}

fn right(rows: &mut [Row; 2], word: u32) -> StepAnswer {
    reference::step_in(rows, word, Settings::SAFE)
}

#[test]
fn a_word_refused_after_the_other() {
    // COME is refused where somebody is at 20
    let one_at_a_time = |rows: &mut [Row; 2], word: u32| match word >> 28 {
        2 if rows.iter().any(|row| row.loc == 20) => StepAnswer { refusal: 10, cell: Cell::NONE },
        _ => right(rows, word),
    };
    assert!(fails([Row::IDLE; 2], one_at_a_time));
    assert!(!fails([Row::IDLE; 2], right));
}

#[test]
fn another_cell_after_the_other() {
    // COME tells act of process 0 where somebody is at 20
    let tells_more = |rows: &mut [Row; 2], word: u32| {
        let cell = if rows.iter().any(|row| row.loc == 20) { Cell::act_read(0) } else { Cell::NONE };
        match (word >> 28, right(rows, word)) {
            (2, StepAnswer { refusal: 0, .. }) => StepAnswer { refusal: 0, cell },
            (_, answer) => answer,
        }
    };
    assert!(fails([Row::IDLE; 2], tells_more));
}

#[test]
fn another_table_after_the_other() {
    // LOOK tells nothing, so that it is not seen to clash with the FLICKER that it meets
    let tells_nothing = |rows: &mut [Row; 2], word: u32| StepAnswer { cell: Cell::NONE, ..right(rows, word) };
    let looking = Row { loc: 22, level: 1, est: 0b10, lis: 0b10, ..Row::IDLE };
    let writing = Row { loc: 20, ..Row::IDLE };
    assert!(fails([looking, writing], tells_nothing));
    assert!(!fails([looking, writing], right));
    // ahead sets and passes are not looked at
    assert!(!fails([writing, writing], right));
}

/// A step that leaves a mark in a cell of the process that comes after the other.
fn marks(cell: fn(&mut Row) -> &mut u16) -> impl Fn(&mut [Row; 2], u32) -> StepAnswer {
    move |rows, word| {
        let second = word >> 28 == 2 && rows.iter().any(|row| row.loc == 20);
        let answer = right(rows, word);
        if second && answer.refusal == 0 {
            *cell(&mut rows[(word >> 16) as usize % 256]) = 7;
        }
        answer
    }
}

#[test]
fn every_cell_but_ahead_and_passes_is_compared() {
    let cells: [fn(&mut Row) -> &mut u16; 7] = [
        |row| &mut row.loc,
        |row| &mut row.act,
        |row| &mut row.bb,
        |row| &mut row.level,
        |row| &mut row.est,
        |row| &mut row.lis,
        |row| &mut row.turn,
    ];
    for (place, cell) in cells.into_iter().enumerate() {
        assert!(fails([Row::IDLE; 2], marks(cell)), "cell {place}");
    }
    assert!(!fails([Row::IDLE; 2], marks(|row| &mut row.ahead)));
    assert!(!fails([Row::IDLE; 2], marks(|row| &mut row.passes[15])));
}

/// Of two at 20, one cannot enter after the other: the pair is left out. Another refusal is not left out.
#[test]
fn a_pair_that_meets_15_is_left_out() {
    let mut rows = [Row { loc: 20, ..Row::IDLE }; 2];
    rows[1].passes[0] = 65_535;
    let counts = exchange(&taken(&rows, right), right).expect("no order that matters");
    // each of the two takes four words, and of their sixteen pairs the two GOs are left out
    assert_eq!((counts.full, counts.apart, counts.clashing), (1, 15, 0));
    let refuses_with_10 = |rows: &mut [Row; 2], word: u32| match right(rows, word) {
        StepAnswer { refusal: 15, cell } => StepAnswer { refusal: 10, cell },
        answer => answer,
    };
    assert!(fails(rows, refuses_with_10));
}
