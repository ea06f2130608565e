//! Examples of CANCEL with their answers, on both models, most of them from the fresh table of two.

use crate::manual::{fresh_rows, on_both, ran, refused, FRESH};
use reference::generate::inputs::to_bytes;
use reference::{Cell, Ran, Row, StepAnswer, Tally};

const COME: u32 = 0x20000000;
const FLICKER_1: u32 = 0x30000001;
const GO: u32 = 0x40000000;
const CANCEL: u32 = 0x60000000;

/// Process 0 at 40 with this act, else as it was when it came.
fn cancelled(act: u16) -> Vec<Row> {
    vec![Row { loc: 40, act, ..Row::IDLE }, Row::IDLE]
}

#[test]
fn act_stays_as_it_was_left() {
    on_both(|engine| {
        assert_eq!(ran(engine, &[COME, CANCEL]), (cancelled(0), Ran { taken: 2, ..Ran::default() }));
        assert_eq!(ran(engine, &[COME, FLICKER_1, CANCEL]), (cancelled(1), Ran { taken: 3, ..Ran::default() }));
        let (rows, answer) = ran(engine, &[COME, FLICKER_1, 0x30000000, CANCEL]);
        assert_eq!((rows, answer.taken), (cancelled(0), 4));
    });
}

/// A sound table, which no fresh one leads to, with something in every cell that can hold it.
#[test]
fn everything_but_the_location_stays() {
    on_both(|engine| {
        let mut other = Row { loc: 24, act: 1, bb: 1, level: 1, est: 0b01, lis: 0b11, ahead: 0b11, ..Row::IDLE };
        other.passes[1] = 7;
        let mut own = Row { loc: 20, act: 1, bb: 1, level: 1, est: 0b11, lis: 0b10, ahead: 0b11, turn: 1, ..Row::IDLE };
        // process 1 could not enter
        own.passes[0] = 65_535;
        let mut rows = vec![other, own];
        assert_eq!(engine.step(&mut rows, 0x60010000), StepAnswer::default());
        assert_eq!(rows, [other, Row { loc: 40, ..own }]);
    });
}

/// Process 1 enters and looks at process 0, which has cancelled: it stays in est while its act is 1.
#[test]
fn another_sees_the_act_that_was_left() {
    on_both(|engine| {
        let enter_and_look = [0x20010000, 0x40010000, 0x40010000, 0x50010000];
        for (before, est) in [([COME, CANCEL].as_slice(), 0), (&[COME, FLICKER_1, CANCEL], 0b01)] {
            let words = [before, &enter_and_look].concat();
            let (rows, answer) = ran(engine, &words);
            assert_eq!((answer.taken as usize, answer.refusal), (words.len(), 0));
            assert_eq!((rows[1].loc, rows[1].lis, rows[1].est), (22, 0, est));
        }
    });
}

#[test]
fn a_cancelled_process_goes_on_as_from_30() {
    on_both(|engine| {
        let (rows, answer) = ran(engine, &[COME, CANCEL, FLICKER_1]);
        assert_eq!((rows, answer.taken), (cancelled(1), 3));
        let words = [COME, CANCEL, FLICKER_1, GO];
        let answer = Ran { taken: 4, refusal: 0, cell: Cell::act_written(0) };
        assert_eq!(ran(engine, &words), (fresh_rows(engine, 2), answer));
    });
}

#[test]
fn refused_elsewhere() {
    on_both(|engine| {
        refused(engine, &[CANCEL], 0, 10);
        // 10 comes before 11
        refused(engine, &[CANCEL + 1], 0, 10);
        refused(engine, &[COME, CANCEL + 1], 1, 11);
        refused(engine, &[COME, CANCEL + 255], 1, 11);
        refused(engine, &[COME, GO, CANCEL], 2, 10);
        refused(engine, &[COME, CANCEL, CANCEL], 2, 10);
        refused(engine, &[0x60020000], 0, 9);
        for kind in [0, 7, 8, 15] {
            refused(engine, &[kind << 28], 0, 8);
            refused(engine, &[COME, kind << 28], 1, 8);
        }
        // at every location but 20
        for loc in [10, 21, 22, 23, 24, 30, 40] {
            let level = u16::from([22, 23, 24].contains(&loc));
            let rows = vec![Row { loc, level, ..Row::IDLE }, Row::IDLE];
            let mut after = rows.clone();
            let refused = StepAnswer { refusal: 10, cell: Cell::NONE };
            assert_eq!((engine.step(&mut after, CANCEL), after), (refused, rows));
        }
    });
}

#[test]
fn counted_as_a_word_alone() {
    on_both(|engine| {
        let mut tally = Tally { words: 9, comes: 9, arrivals: 9 };
        engine.run(&mut fresh_rows(engine, 2), &[COME, CANCEL], &mut tally);
        assert_eq!(tally, Tally { words: 2, comes: 1, arrivals: 0 });
    });
}

#[test]
fn printed() {
    on_both(|engine| {
        let input = to_bytes(&[FRESH.as_slice(), &[COME, CANCEL, GO]].concat());
        assert_eq!(engine.text(&input), b"posts 2\n0 0 10 20 0 -\n1 0 20 40 0 -\n2 0 40 10 0 wa0\ndone 3\n");
    });
}
