//! Rounds on both models: examples with their answers, how many rounds lists can leave to be done, and the two models
//! against each other.

use crate::manual::{fresh_rows, on_both, OLD};
use reference::compare::{Engine, Naive, Reference};
use reference::generate::rounds::{after_every_come, table_for_rounds};
use reference::generate::schedule::schedule;
use reference::generate::tables::{fresh_table, sound_table};
use reference::generate::Random;
use reference::naive::Fault;
use reference::walk::most_needed;
use reference::{Rounded, Row, Settings};

/// The rows and the answer after rounds.
fn rounded(engine: &dyn Engine, rows: &[Row]) -> (Vec<Row>, Rounded) {
    let mut after = rows.to_vec();
    let rounded = engine.rounds(&mut after);
    (after, rounded)
}

/// Rounds that do nothing: the rows are as given.
fn none(engine: &dyn Engine, rows: &[Row], refusal: u16, occupied: u16) {
    assert_eq!(rounded(engine, rows), (rows.to_vec(), Rounded { refusal, rounds: 0, occupied }), "{rows:?}");
}

const FAMILY: [u16; 15] = [11, 24, 41, 62, 87, 116, 149, 186, 227, 272, 321, 374, 431, 492, 557];

/// COME of every process from any fresh table: exactly as many rounds for every number of processes.
#[test]
fn after_every_come_the_rounds_are_exact() {
    on_both(|engine| {
        let mut rng = Random::new(5);
        for (n, rounds) in (2..).zip(FAMILY) {
            assert_eq!(usize::from(rounds), most_needed(n));
            let zeros = vec![Row { loc: 20, ..Row::IDLE }; n];
            let tables = (0..8).map(|_| after_every_come(&mut rng, n)).chain([zeros]);
            for rows in tables {
                let (after, answer) = rounded(engine, &rows);
                assert_eq!(answer, Rounded { refusal: 0, rounds, occupied: 1 }, "{rows:?}");
                // the lowest arrives first, all others still compete
                let at_30: Vec<usize> = (0..n).filter(|&p| after[p].loc == 30).collect();
                assert_eq!(at_30, [0], "{rows:?}");
                assert!(after[1..].iter().all(|row| (21..=24).contains(&row.loc)), "{after:?}");
            }
        }
    });
}

/// A lone process needs a round for each word from its COME on, and the others stay.
#[test]
fn a_lone_process() {
    on_both(|engine| {
        for n in 2..=16 {
            for p in [0, n / 2, n - 1] {
                let mut rows = fresh_rows(engine, n);
                rows[p].loc = 20;
                let mut expected = fresh_rows(engine, n);
                expected[p] = Row { loc: 30, act: 1, ..Row::IDLE };
                let answer = Rounded { refusal: 0, rounds: n as u16 + 4, occupied: 1 };
                assert_eq!(rounded(engine, &rows), (expected, answer), "{p} of {n}");
            }
        }
    });
}

/// One pass over each of some processes.
fn over(some: [usize; 3]) -> [u16; 16] {
    std::array::from_fn(|r| u16::from(some.contains(&r)))
}

/// Two at 21 with level 0 arrive in one round, and the others, before and after them, have their words in it.
#[test]
fn a_round_is_done_to_its_end() {
    on_both(|engine| {
        let waiting = Row { loc: 21, act: 1, ..Row::IDLE };
        let rows = [
            Row { loc: 40, act: 1, ..Row::IDLE },
            waiting,
            Row { loc: 22, act: 1, level: 2, est: 0b11010, lis: 0b11000, ..Row::IDLE },
            waiting,
            Row { loc: 20, ahead: 0b11111, ..Row::IDLE },
        ];
        let after = [
            Row::IDLE,
            Row { loc: 30, ..waiting },
            // looks at 3, the lowest in lis, whose act is 1
            Row { lis: 0b10000, ..rows[2] },
            Row { loc: 30, ..waiting },
            // enters behind all that compete, and has passes over them
            Row { loc: 21, act: 1, level: 4, est: 0b01111, ahead: 0b01110, passes: over([1, 2, 3]), ..Row::IDLE },
        ];
        let answer = Rounded { refusal: 0, rounds: 1, occupied: 1 };
        assert_eq!(rounded(engine, &rows), (after.to_vec(), answer));
    });
}

/// A word reads what those before it in the round have written, and not what those after it will: process 0 looks at
/// process 1 before that rests or enters, and process 2 looks afterwards.
#[test]
fn each_word_goes_to_the_table_that_the_word_before_left() {
    on_both(|engine| {
        let looking = Row { loc: 22, act: 1, level: 2, est: 0b010, lis: 0b010, ..Row::IDLE };
        let near = Row { loc: 21, act: 1, ..Row::IDLE };
        for (loc, act, est_of_0, est_of_2) in [(40, 1, 0b010, 0), (20, 0, 0, 0b010)] {
            let rows = [looking, Row { loc, act, ..Row::IDLE }, looking, near];
            let (after, answer) = rounded(engine, &rows);
            assert_eq!(answer, Rounded { refusal: 0, rounds: 1, occupied: 1 });
            assert_eq!((after[0].est, after[2].est), (est_of_0, est_of_2), "{loc}");
        }
    });
}

/// Sound tables that no list makes: process 1 rests with act 1, so that process 0 keeps it in est.
#[test]
fn a_limit_that_is_used_up() {
    on_both(|engine| {
        for loc in [21, 22] {
            let own = Row { loc, act: 1, bb: 1, level: 1, est: 0b10, ..Row::IDLE };
            let (after, answer) = rounded(engine, &[own, Row { act: 1, ..Row::IDLE }]);
            assert_eq!(answer, Rounded { refusal: 0, rounds: 80, occupied: 0 });
            // four words go about: 21, 22 with lis, 22 without, 23
            assert_eq!(after, [own, Row { act: 1, ..Row::IDLE }]);
        }
        for n in [2, 3, 5, 16] {
            let mut rows = vec![Row { act: 1, ..Row::IDLE }; n];
            rows[0].loc = 20;
            let (after, answer) = rounded(engine, &rows);
            let rounds = 4 * n * n * (n + 3);
            assert_eq!(answer, Rounded { refusal: 0, rounds: rounds as u16, occupied: 0 }, "{n}");
            assert!((21..=24).contains(&after[0].loc) && after[1..] == rows[1..], "{n}: {after:?}");
        }
    });
}

#[test]
fn no_rounds() {
    on_both(|engine| {
        let at = |loc| Row { loc, level: u16::from([22, 23, 24].contains(&loc)), ..Row::IDLE };
        for loc in [10, 20, 21, 22, 23, 24, 30, 40] {
            none(engine, &[at(30), at(loc)], 0, 1);
            none(engine, &[at(loc), at(30)], 0, 1);
        }
        for rows in [[at(10), at(10)], [at(40), at(10)], [at(10), at(40)], [at(40), at(40)]] {
            none(engine, &rows, 0, 0);
        }
        // 20 is enough for rounds, whatever a census counts
        let answer = Rounded { refusal: 0, rounds: 6, occupied: 1 };
        assert_eq!((rounded(engine, &[at(20), at(10)]).1, engine.census(&[at(20), at(10)]).waiting), (answer, 0));
    });
}

#[test]
fn refused_tables() {
    on_both(|engine| {
        let busy = Row { loc: 20, ..Row::IDLE };
        for n in [0, 1, 17, 18] {
            none(engine, &vec![busy; n], 6, 0);
            none(engine, &vec![OLD; n], 6, 0);
        }
        for n in 2..=16 {
            for p in 0..n {
                let mut rows = vec![busy; n];
                rows[p].act = 2;
                none(engine, &rows, 7, 0);
                rows[p] = Row { loc: 30, level: 1, ..Row::IDLE };
                none(engine, &rows, 7, 0);
            }
        }
    });
}

/// From a table that a list made, with nobody at 30 and somebody at 20 to 24, rounds lead to 30 in time.
#[test]
fn rounds_after_random_lists() {
    let mut rng = Random::new(54);
    let (mut begun, mut longest) = (0, [0; 17]);
    for round in 0..600 {
        let n = 2 + round % 15;
        let mut rows = fresh_table(&mut rng, n);
        for (i, word) in schedule(&mut rng, &rows, 300, 10, Settings::SAFE).into_iter().enumerate() {
            reference::step(&mut rows, word, Settings::SAFE).ok();
            if i % 7 != 0 || rows.iter().any(|row| row.loc == 30) {
                continue;
            }
            let (_, answer) = rounded(&Reference, &rows);
            if rows.iter().any(|row| (20..=24).contains(&row.loc)) {
                assert_eq!((answer.refusal, answer.occupied), (0, 1), "{rows:?}");
                assert!((1..=most_needed(n)).contains(&answer.rounds.into()), "{rows:?}");
                longest[n] = answer.rounds.max(longest[n]);
                begun += 1;
            } else {
                assert_eq!(answer, Rounded::default(), "{rows:?}");
            }
        }
    }
    assert!(begun > 15_000 && (2..=16).all(|n| usize::from(longest[n]) > n + 4), "{begun} {longest:?}");
}

/// Random sound tables, most of which no list makes.
#[test]
fn the_models_agree_on_rounds() {
    let mut rng = Random::new(19);
    let (mut arrived, mut used_up) = (0, 0);
    for round in 0..3_000 {
        let n = 2 + round % 15;
        let rows = if round % 2 == 0 { sound_table(&mut rng, n) } else { table_for_rounds(&mut rng, n) };
        let fast = rounded(&Reference, &rows);
        assert_eq!(fast, rounded(&Naive(Fault::None), &rows), "{rows:?}");
        arrived += u32::from(fast.1.rounds > 0 && fast.1.occupied == 1);
        used_up += u32::from(fast.1.rounds > 0 && fast.1.occupied == 0);
    }
    assert!(arrived > 1_000 && used_up > 30, "{arrived} {used_up}");
}
