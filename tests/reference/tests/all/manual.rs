//! Examples with their answers, those of the manual among them, on both models.

use reference::compare::{Engine, Naive, Reference};
use reference::generate::inputs::{image_of, to_bytes};
use reference::naive::Fault;
use reference::{Ran, Reading, Row, Tally};

pub const FRESH: [u32; 14] = [
    0x81000002, 0x90000000, 0xA0000000, 0xB0000000, 0xC0000000, 0x90010000, 0xA0010000, 0xB0010000, 0xC0010000,
    0xD0010000, 0xE0000000, 0xE0010000, 0xE1000000, 0xE1010000,
];
/// The same in the short form.
pub const SHORT_FRESH: [u32; 10] = [
    0x80000002, 0x90000000, 0xA0000000, 0xB0000000, 0xC0000000, 0x90010000, 0xA0010000, 0xB0010000, 0xC0010000,
    0xD0010000,
];
pub const SEVEN: [u32; 7] = [0x20000000, 0x40000000, 0x40000000, 0x50000001, 0x40000000, 0x40000000, 0x40000000];

/// What lent rows hold before a call.
pub const OLD: Row = Row { loc: 9, act: 9, bb: 9, level: 9, est: 9, lis: 9, ahead: 9, turn: 9, passes: [9; 16] };

/// Tries an example on each model.
pub fn on_both(example: impl Fn(&dyn Engine)) {
    example(&Reference);
    example(&Naive(Fault::None));
}

pub fn fresh_rows(engine: &dyn Engine, n: usize) -> Vec<Row> {
    let mut rows = vec![OLD; n];
    assert_eq!(engine.fresh(&mut rows), 0);
    rows
}

/// The rows and the answer after words from a fresh table of two.
pub fn ran(engine: &dyn Engine, words: &[u32]) -> (Vec<Row>, Ran) {
    let mut rows = fresh_rows(engine, 2);
    let ran = engine.run(&mut rows, words, &mut Tally::default());
    (rows, ran)
}

/// A word that stops the run after others: rows and cell are those that the others left.
pub fn refused(engine: &dyn Engine, words: &[u32], taken: u32, refusal: u32) {
    let (rows, before) = ran(engine, &words[..taken as usize]);
    assert_eq!((before.taken, before.refusal), (taken, 0), "{words:X?}");
    assert_eq!(ran(engine, words), (rows, Ran { refusal, ..before }), "{words:X?}");
}

#[test]
fn no_words() {
    on_both(|engine| assert_eq!(ran(engine, &[]), (fresh_rows(engine, 2), Ran::default())));
}

#[test]
fn the_seven_words() {
    on_both(|engine| {
        let (rows, answer) = ran(engine, &SEVEN);
        assert_eq!(answer, Ran { taken: 7, ..Ran::default() });
        let mut after = FRESH;
        after[1] = 0x90006200;
        assert_eq!(image_of(&rows), after);
        for fresh in [FRESH.as_slice(), &SHORT_FRESH] {
            let mut image = vec![0xEE; 57];
            let input = to_bytes(&[fresh, &SEVEN].concat());
            assert_eq!(engine.call(&input, &mut image), 7 * 256);
            assert_eq!(image, [to_bytes(&after), vec![0xEE]].concat());
        }
    });
}

#[test]
fn the_tally_of_the_seven_words() {
    on_both(|engine| {
        let mut tally = Tally { words: 9, comes: 9, arrivals: 9 };
        engine.run(&mut fresh_rows(engine, 2), &SEVEN, &mut tally);
        assert_eq!(tally, Tally { words: 7, comes: 1, arrivals: 1 });
    });
}

#[test]
fn refused_first_words() {
    on_both(|engine| {
        refused(engine, &[0x40000000], 0, 10);
        refused(engine, &[0x00000000], 0, 8);
        refused(engine, &[0x20020000], 0, 9);
        refused(engine, &[0x20000001], 0, 11);
    });
}

#[test]
fn flicker_at_20() {
    on_both(|engine| {
        let (rows, answer) = ran(engine, &[0x20000000, 0x30000001]);
        assert_eq!((answer.taken, answer.refusal), (2, 0));
        assert_eq!((rows[0].loc, rows[0].act), (20, 1));
        refused(engine, &[0x20000000, 0x30000001, 0x30000002], 2, 11);
    });
}

#[test]
fn look_and_go_at_22() {
    on_both(|engine| {
        let at_22 = &SEVEN[..3];
        refused(engine, &[at_22, &[0x50000000]].concat(), 3, 11);
        refused(engine, &[at_22, &[0x40000000]].concat(), 3, 10);
    });
}

/// An image that is refused at a place, whatever number of rows is lent.
pub fn image_refused(engine: &dyn Engine, image: &[u32], place: u16, refusal: u16) {
    for lent in [0, 1, 2, 16] {
        let mut rows = vec![OLD; lent];
        assert_eq!(engine.read_image(image, &mut rows), Reading { refusal, place, size: 0 });
        assert_eq!(rows, vec![OLD; lent]);
    }
}

#[test]
fn refused_images() {
    on_both(|engine| {
        image_refused(engine, &[], 0, 1);
        for (fresh, form) in [(FRESH.as_slice(), 0x81000000), (&SHORT_FRESH, 0x80000000)] {
            let changed = |place: usize, word: u32| {
                let mut image = fresh.to_vec();
                image[place] = word;
                image
            };
            image_refused(engine, &fresh[..9], 9, 2);
            image_refused(engine, &changed(0, form + 1), 0, 1);
            image_refused(engine, &changed(0, form + 0x11), 0, 1);
            image_refused(engine, &[form + 0x10], 1, 2);
            image_refused(engine, &changed(1, 0x90003000), 1, 5);
        }
    });
}

/// The words that lead process p from 10 or 21 to where it has looked at the other and stands at 23.
fn pass(p: u32) -> [u32; 4] {
    let word = |kind: u32, a: u32| kind << 28 | p << 16 | a;
    [word(4, 0), word(5, 1 - p), word(4, 0), word(4, 0)]
}

#[test]
fn two_that_see_each_other() {
    on_both(|engine| {
        let mut words = vec![0x20000000, 0x20010000, 0x40000000, 0x40010000];
        words.extend(pass(0));
        words.extend(pass(1));
        let (rows, answer) = ran(engine, &words);
        assert_eq!((answer.taken, answer.refusal), (12, 0));
        assert_eq!((rows[0].loc, rows[1].loc), (24, 24));
        words.extend([0x40000000, 0x40010000]);
        let (rows, answer) = ran(engine, &words);
        assert_eq!(answer.refusal, 0);
        assert_eq!((rows[1].turn, rows[0].ahead, rows[1].ahead), (1, 0b10, 0b01));
        words.extend(pass(0));
        words.extend(pass(1));
        let (rows, answer) = ran(engine, &words);
        assert_eq!(answer.refusal, 0);
        assert_eq!((rows[0].loc, rows[0].level, rows[0].bb), (21, 0, 0));
        assert_eq!((rows[1].loc, rows[1].level, rows[1].bb), (21, 1, 1));
    });
}

#[test]
fn the_most_words() {
    on_both(|engine| {
        let mut words = vec![0x10000000; 8192];
        assert_eq!(ran(engine, &words), (fresh_rows(engine, 2), Ran { taken: 8192, ..Ran::default() }));
        let inputs = |words: &[u32]| [FRESH.as_slice(), &SHORT_FRESH].map(|fresh| to_bytes(&[fresh, words].concat()));
        for input in inputs(&words) {
            assert_eq!(engine.call(&input, &mut [0; 56]), 8192 * 256);
        }
        words.push(0x10000000);
        assert_eq!(ran(engine, &words), (fresh_rows(engine, 2), Ran { refusal: 12, ..Ran::default() }));
        for input in inputs(&words) {
            assert_eq!(engine.call(&input, &mut [0; 56]), 12);
            assert_eq!(engine.call(&input, &mut []), 12);
            assert_eq!(engine.text(&input), b"posts 2\nstop 0 12\n");
        }
    });
}

#[test]
fn a_lone_process_needs_n_and_5_words() {
    on_both(|engine| {
        for n in 2..=16 {
            for p in [0, 1, n - 1] {
                let mut rows = fresh_rows(engine, n);
                let mut needed = 0;
                while rows[p].loc != 30 {
                    let (kind, a) = match rows[p] {
                        Row { loc: 10, .. } => (2, 0),
                        Row { loc: 22, lis, .. } if lis != 0 => (5, lis.trailing_zeros()),
                        _ => (4, 0),
                    };
                    assert_eq!(engine.step(&mut rows, kind << 28 | (p as u32) << 16 | a).refusal, 0);
                    needed += 1;
                }
                assert_eq!(needed, n + 5);
            }
        }
    });
}

#[test]
fn inputs_that_are_refused_at_the_door() {
    on_both(|engine| {
        assert_eq!(engine.text(&[]), b"image 0 1\n");
        assert_eq!(engine.call(&[], &mut []), 1);
        assert_eq!(engine.text(&[1, 2, 3]), b"input 14\n");
        assert_eq!(engine.call(&[0; 34_116], &mut []), 14);
        assert_eq!(engine.call(&[0; 34_112], &mut []), 1);
        for fresh in [FRESH.as_slice(), &SHORT_FRESH] {
            assert_eq!(engine.call(&to_bytes(fresh), &mut [0; 55]), 13);
            assert_eq!(engine.call(&to_bytes(fresh), &mut [0; 56]), 0);
        }
    });
}
