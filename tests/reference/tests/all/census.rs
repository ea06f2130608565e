//! The waiting figure: who waits and who does not, on both models.

use crate::manual::{on_both, ran};
use reference::compare::Engine;
use reference::generate::tables::sound_table;
use reference::generate::Random;
use reference::Row;

/// Process 0 still writes act, process 1 has written it: one waits. Counted from 20 it would be two.
#[test]
fn one_at_20_and_one_at_21() {
    on_both(|engine| {
        let (rows, answer) = ran(engine, &[0x20000000, 0x20010000, 0x40010000]);
        assert_eq!((answer.taken, rows[0].loc, rows[1].loc), (3, 20, 21));
        let census = engine.census(&rows);
        assert_eq!((census.at_30, census.waiting), (0, 1));
        assert_eq!((&census.below[..3], &census.held[..3]), (&[0, 0, 1][..], &[0, 1, 1][..]));
    });
}

/// Critical and waiting of two processes, one at the location, with a level that goes with it, and one at 10.
fn beside_one_that_rests(engine: &dyn Engine, loc: u16) -> (u16, u16) {
    let level = u16::from((22..=24).contains(&loc));
    let census = engine.census(&[Row { loc, level, ..Row::IDLE }, Row::IDLE]);
    assert_eq!(census.refusal, 0);
    (census.at_30, census.waiting)
}

#[test]
fn a_process_at_each_location() {
    on_both(|engine| {
        for loc in [10, 20, 40] {
            assert_eq!(beside_one_that_rests(engine, loc), (0, 0), "{loc}");
        }
        for loc in [21, 22, 23, 24] {
            assert_eq!(beside_one_that_rests(engine, loc), (0, 1), "{loc}");
        }
        assert_eq!(beside_one_that_rests(engine, 30), (1, 0));
    });
}

/// Who competes waits or is at 30: all that compete have a level under N.
#[test]
fn the_competing_wait_or_are_at_30() {
    on_both(|engine| {
        let mut rng = Random::new(21);
        let (mut at_20, mut at_30) = (0, 0);
        for round in 0..3_000 {
            let n = 2 + round % 15;
            let rows = sound_table(&mut rng, n);
            let census = engine.census(&rows);
            assert_eq!(census.below[n], census.waiting + census.at_30, "{rows:?}");
            at_20 += rows.iter().filter(|row| row.loc == 20).count();
            at_30 += rows.iter().filter(|row| row.loc == 30).count();
        }
        assert!(at_20 > 300 && at_30 > 300, "{at_20} {at_30}");
    });
}
