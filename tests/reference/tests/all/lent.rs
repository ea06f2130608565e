//! Examples for what C lends and gets beside the runs: fresh tables, images, event words and the printed text.

use crate::manual::{fresh_rows, on_both, FRESH, OLD, SEVEN, SHORT_FRESH};
use reference::compare::Engine;
use reference::generate::inputs::{image_of, to_bytes};
use reference::{PartsAnswer, Reading, Row, WordAnswer};

#[test]
fn fresh_tables() {
    on_both(|engine| {
        for n in 2..=16 {
            assert_eq!(fresh_rows(engine, n), vec![Row::IDLE; n]);
        }
        for n in [0, 1, 17] {
            let mut rows = vec![OLD; n];
            assert_eq!((engine.fresh(&mut rows), rows), (6, vec![OLD; n]));
        }
    });
}

#[test]
fn the_fresh_image_read_and_written() {
    on_both(|engine| {
        for fresh in [FRESH.as_slice(), &SHORT_FRESH] {
            for lent in [2, 3, 16, 17] {
                let mut rows = vec![OLD; lent];
                assert_eq!(engine.read_image(fresh, &mut rows), Reading { refusal: 0, place: 0, size: 2 });
                assert_eq!(rows, [fresh_rows(engine, 2), vec![OLD; lent - 2]].concat());
            }
            let mut rows = [OLD];
            assert_eq!(engine.read_image(fresh, &mut rows), Reading { refusal: 13, place: 0, size: 0 });
            assert_eq!(rows, [OLD]);
        }
        let (mut words, mut few) = ([0xEE; 16], [0xEE; 13]);
        assert_eq!(engine.write_image(&fresh_rows(engine, 2), &mut words), 0);
        assert_eq!(words, [FRESH.as_slice(), &[0xEE, 0xEE]].concat()[..]);
        assert_eq!((engine.write_image(&fresh_rows(engine, 2), &mut few), few), (13, [0xEE; 13]));
        assert_eq!((engine.write_image(&[OLD, OLD], &mut words[..0]), engine.write_image(&[OLD], &mut [])), (7, 6));
    });
}

#[test]
fn every_word_that_comes_apart_goes_together_again() {
    on_both(|engine| {
        for kind in 1..=6 {
            for process in 0..16 {
                for argument in 0..256 {
                    let WordAnswer { refusal, word } = engine.put_together(kind, process, argument);
                    let (kind, process, argument) = (kind as u16, process as u16, argument as u16);
                    assert_eq!(refusal, 0);
                    assert_eq!(engine.take_apart(word), PartsAnswer { refusal: 0, kind, process, argument });
                }
            }
        }
    });
}

#[test]
fn words_and_parts_that_are_refused() {
    on_both(|engine| {
        let no_word = |refusal| WordAnswer { refusal, word: 0 };
        assert_eq!(engine.put_together(0, 16, 256), no_word(8));
        assert_eq!(engine.put_together(7, 16, 256), no_word(8));
        assert_eq!(engine.put_together(6, 16, 256), no_word(9));
        assert_eq!(engine.put_together(6, 15, 256), no_word(11));
        let no_parts = |refusal| PartsAnswer { refusal, kind: 0, process: 0, argument: 0 };
        assert_eq!(engine.take_apart(0x0110_0000), no_parts(8));
        assert_eq!(engine.take_apart(0x7010_0000), no_parts(8));
        assert_eq!(engine.take_apart(0x1010_0001), no_parts(9));
    });
}

/// Prints into all of `lent` bytes: the answer, and the bytes afterwards.
fn printed(engine: &dyn Engine, input: &[u8], lent: usize) -> (usize, Vec<u8>) {
    let mut text = vec![0xEE; lent];
    (engine.print(input, &mut text), text)
}

#[test]
fn the_seven_words_printed_into_lent_bytes() {
    on_both(|engine| {
        let input = to_bytes(&[FRESH.as_slice(), &SEVEN].concat());
        let text = include_bytes!("../../../example/example.txt");
        let length = text.len();
        assert_eq!(printed(engine, &input, length), (length, text.to_vec()));
        assert_eq!(printed(engine, &input, length + 2), (length, [text.as_slice(), &[0xEE, 0xEE]].concat()));
        for short in [0, 1, length - 1] {
            assert_eq!(printed(engine, &input, short), (length, vec![0xEE; short]));
        }
        assert_eq!(printed(engine, &[], 10), (10, b"image 0 1\n".to_vec()));
        assert_eq!(printed(engine, &[1], 9), (9, b"input 14\n".to_vec()));
    });
}

/// Every part of a line is as long as it can be: process 10 of 16 flickers turn[10], with ten others at 30.
#[test]
fn the_longest_text_fits() {
    on_both(|engine| {
        let mut rows = fresh_rows(engine, 16);
        rows[..10].fill(Row { loc: 30, ..Row::IDLE });
        rows[10] = Row { loc: 24, level: 10, ..Row::IDLE };
        let input = to_bytes(&[image_of(&rows), vec![0x300A0000; 8192]].concat());
        let (length, text) = printed(engine, &input, 180_260);
        assert_eq!(length, 179_133);
        assert!(text.starts_with(b"posts 16\n0 10 24 24 10 wt10\n"));
        assert!(text[..length].ends_with(b"\n8191 10 24 24 10 wt10\ndone 8192\n"));
    });
}
