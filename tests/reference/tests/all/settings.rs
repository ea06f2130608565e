//! Examples of settings with their answers, on both models: the words that they forbid, and the order of their refusals.

use crate::manual::{fresh_rows, on_both, FRESH, OLD, SEVEN, SHORT_FRESH};
use reference::compare::Engine;
use reference::generate::inputs::{image_of, to_bytes};
use reference::{Cell, Ran, Rounded, Row, Settings, StepAnswer, Tally};

/// Words of process 0; process p is `p << 16` more.
const STAY: u32 = 0x10000000;
const COME: u32 = 0x20000000;
const FLICKER: u32 = 0x30000000;
const GO: u32 = 0x40000000;
const P1: u32 = 1 << 16;

const OLD_TALLY: Tally = Tally { words: 9, comes: 9, arrivals: 9 };

/// Settings of which none is among the six: next to them, with a bit of the second byte, the third and the last, and with
/// low bits that are among them.
const WRONG: [(u32, u32); 14] = [
    (2, 0),
    (0, 3),
    (2, 3),
    (3, 2),
    (0x100, 0),
    (0x101, 1),
    (0, 0x100),
    (0x1_0000, 0),
    (1, 0x1_0002),
    (0x8000_0000, 0),
    (0, 0x8000_0001),
    (u32::MAX, 0),
    (0, u32::MAX),
    (u32::MAX, u32::MAX),
];

fn wrong() -> impl Iterator<Item = Settings> {
    WRONG.into_iter().map(|(act, turn)| Settings { act, turn })
}

/// Process 0 of three at a location, on level 1; of the others one rests, and one is at 24 of level 2.
fn three(loc: u16) -> [Row; 3] {
    let own = Row { loc, level: u16::from(loc != 30), est: 0b110, ..Row::IDLE };
    [own, Row::IDLE, Row { loc: 24, level: 2, ..Row::IDLE }]
}

/// Process 0 at 23 about to go to 24, and process 1 at 24 of the same level.
fn contended() -> [Row; 3] {
    let level = 1;
    [Row { loc: 23, level, est: 0b110, ..Row::IDLE }, Row { loc: 24, level, ..Row::IDLE }, Row::IDLE]
}

/// A word is refused with this number by a step, by a run and by a call, and changes nothing there.
fn stops(engine: &dyn Engine, rows: &[Row], word: u32, settings: Settings, refusal: u16) {
    let (mut stepped, mut ran, mut tally) = (rows.to_vec(), rows.to_vec(), OLD_TALLY);
    let refused = StepAnswer { refusal, cell: Cell::NONE };
    assert_eq!(engine.step_under(&mut stepped, word, settings), refused, "{settings}: {word:08X} {rows:?}");
    let answer = engine.run_under(&mut ran, &[word], &mut tally, settings);
    assert_eq!(answer, Ran { taken: 0, refusal: refusal.into(), cell: Cell::NONE });
    assert_eq!((&stepped[..], &ran[..], tally), (rows, rows, Tally::default()));
    let (image, mut lent) = (image_of(rows), vec![0xEE; 4 * image_of(rows).len()]);
    let input = to_bytes(&[image.as_slice(), &[word]].concat());
    assert_eq!((engine.call_under(&input, &mut lent, settings), lent), (refusal.into(), to_bytes(&image)));
}

/// A word is taken by a step, by a run and by a call just as under 0 and 0.
fn goes(engine: &dyn Engine, rows: &[Row], word: u32, settings: Settings) {
    let under = |settings| {
        let (mut stepped, mut ran, mut tally) = (rows.to_vec(), rows.to_vec(), OLD_TALLY);
        let answers = (
            engine.step_under(&mut stepped, word, settings),
            engine.run_under(&mut ran, &[word], &mut tally, settings),
        );
        let input = to_bytes(&[image_of(rows), vec![word]].concat());
        let mut image = vec![0xEE; 4 * image_of(rows).len()];
        (answers, engine.call_under(&input, &mut image, settings), stepped, ran, tally, image)
    };
    assert_eq!(under(settings).1, 256, "{settings}: {word:08X} {rows:?}");
    assert_eq!(under(settings), under(Settings::SAFE), "{settings}: {word:08X} {rows:?}");
}

#[test]
fn plain_forbids_flicker() {
    on_both(|engine| {
        for settings in Settings::ALL {
            for (loc, plain) in [(20, settings.act == 1), (40, settings.act == 1), (24, settings.turn == 2)] {
                for argument in [0, 1] {
                    match plain {
                        true => stops(engine, &three(loc), FLICKER + argument, settings, 16),
                        false => goes(engine, &three(loc), FLICKER + argument, settings),
                    }
                }
                // 11 before 16, whatever is forbidden
                stops(engine, &three(loc), FLICKER + 3, settings, 11);
            }
            // 10 before it
            [10, 21, 22, 23, 30].iter().for_each(|&loc| stops(engine, &three(loc), FLICKER, settings, 10));
            stops(engine, &three(20), FLICKER | 0x100, settings, 8);
            stops(engine, &three(20), FLICKER | 3 << 16, settings, 9);
        }
    });
}

#[test]
fn one_writer_forbids_go_to_24() {
    on_both(|engine| {
        for settings in Settings::ALL {
            match settings.turn {
                1 => stops(engine, &contended(), GO, settings, 17),
                _ => goes(engine, &contended(), GO, settings),
            }
            // 11 before 17
            stops(engine, &contended(), GO + 1, settings, 11);
            // whoever is at 24 goes on
            goes(engine, &contended(), GO | P1, settings);
            // a writer of another level; nobody at 24, the process itself apart from it
            goes(engine, &three(23), GO, settings);
            let [own, _, idle] = contended();
            goes(engine, &[own, idle, idle], GO, settings);
            // another of the level that is not at 24
            for loc in [10, 20, 21, 22, 23, 40] {
                goes(engine, &[own, Row { loc, level: 1, ..idle }, idle], GO, settings);
            }
        }
    });
}

/// Est has fewer members than the level, or bb is 1: GO leads to 21, and no writer is asked for.
#[test]
fn one_writer_leaves_the_other_cases_of_go_at_23() {
    on_both(|engine| {
        let [own, writer, idle] = contended();
        let idle_2 = Row { turn: 2, ..idle };
        for settings in Settings::ALL {
            goes(engine, &[Row { est: 0, ..own }, writer, idle], GO, settings);
            goes(engine, &[Row { est: 0, bb: 1, ..own }, writer, idle], GO, settings);
            // turn[1] is 0, the process itself, or another
            goes(engine, &[Row { bb: 1, ..own }, writer, idle], GO, settings);
            goes(engine, &[Row { bb: 1, ..own }, Row { turn: 2, ..writer }, idle_2], GO, settings);
        }
    });
}

/// Of sixteen, the last has the level of the first; every other at 24 has another.
#[test]
fn one_writer_among_sixteen() {
    on_both(|engine| {
        let settings = Settings::of(0, 1);
        for (p, q) in [(0, 15), (15, 0), (7, 8), (8, 7), (1, 2)] {
            let mut rows: Vec<Row> = (0..16).map(|_| Row { loc: 24, level: 9, ..Row::IDLE }).collect();
            rows[p] = Row { loc: 23, level: 5, est: 0b11111, ..Row::IDLE };
            goes(engine, &rows, GO | (p as u32) << 16, settings);
            rows[q].level = 5;
            stops(engine, &rows, GO | (p as u32) << 16, settings, 17);
            rows[p].est = 0b1111;
            goes(engine, &rows, GO | (p as u32) << 16, settings);
        }
    });
}

/// 15 is met under every setting.
#[test]
fn a_full_count_under_settings() {
    on_both(|engine| {
        let mut rows = [Row { loc: 20, ..Row::IDLE }, Row { loc: 24, level: 1, ..Row::IDLE }];
        rows[0].passes[1] = 65_535;
        for settings in Settings::ALL {
            stops(engine, &rows, GO, settings, 15);
            stops(engine, &rows, GO + 1, settings, 11);
        }
    });
}

/// A run that a forbidden word stops has the table, the tally and the cell of the words before.
#[test]
fn a_run_up_to_a_forbidden_word() {
    on_both(|engine| {
        let settings = Settings::of(1, 0);
        let words = [COME, COME | P1, GO, FLICKER | P1, GO | P1];
        let (mut rows, mut tally) = (fresh_rows(engine, 2), OLD_TALLY);
        let ran = engine.run_under(&mut rows, &words, &mut tally, settings);
        assert_eq!(ran, Ran { taken: 3, refusal: 16, cell: Cell::act_written(0) });
        assert_eq!(tally, Tally { words: 3, comes: 2, arrivals: 0 });
        let mut expected = fresh_rows(engine, 2);
        engine.run(&mut expected, &words[..3], &mut Tally::default());
        assert_eq!(rows, expected);
        let (input, mut image) = (to_bytes(&[FRESH.as_slice(), &words].concat()), vec![0xEE; 57]);
        assert_eq!(engine.call_under(&input, &mut image, settings), 256 * 3 + 16);
        assert_eq!(image, [to_bytes(&image_of(&expected)), vec![0xEE]].concat());
    });
}

/// The seven words meet nothing that is forbidden.
#[test]
fn the_seven_words_under_every_setting() {
    on_both(|engine| {
        for settings in Settings::ALL {
            let (mut rows, mut tally) = (fresh_rows(engine, 2), OLD_TALLY);
            let ran = engine.run_under(&mut rows, &SEVEN, &mut tally, settings);
            assert_eq!((ran, tally.words), (Ran { taken: 7, ..Ran::default() }, 7));
        }
    });
}

#[test]
fn wrong_settings_of_a_step() {
    on_both(|engine| {
        for settings in wrong() {
            let step = |rows: &[Row], word| {
                let mut after = rows.to_vec();
                let StepAnswer { refusal, cell } = engine.step_under(&mut after, word, settings);
                assert_eq!((&after[..], cell), (rows, Cell::NONE));
                refusal
            };
            // whatever the word is
            for word in [STAY, COME, GO, 0, 0x70000000, STAY | 0x100, STAY | 16 << 16, STAY | 2 << 16, STAY + 1] {
                assert_eq!(step(&[Row::IDLE; 2], word), 18, "{settings}");
            }
            assert_eq!((step(&[OLD, OLD], 0), step(&[OLD], 0), step(&[], 0), step(&[OLD; 17], 0)), (7, 6, 6, 6));
            // the whole table is looked at first
            assert_eq!(step(&[Row::IDLE, Row { act: 2, ..Row::IDLE }], STAY), 7);
        }
    });
}

#[test]
fn wrong_settings_of_a_run() {
    on_both(|engine| {
        for settings in wrong() {
            let run = |rows: &[Row], words: &[u32]| {
                let (mut after, mut tally) = (rows.to_vec(), OLD_TALLY);
                let ran = engine.run_under(&mut after, words, &mut tally, settings);
                assert_eq!((&after[..], tally), (rows, Tally::default()));
                assert_eq!((ran.taken, ran.cell), (0, Cell::NONE));
                ran.refusal
            };
            let fresh = [Row::IDLE; 2];
            assert_eq!((run(&fresh, &[]), run(&fresh, &[COME, GO]), run(&fresh, &[0])), (18, 18, 18), "{settings}");
            assert_eq!(run(&fresh, &[STAY; 8193]), 18);
            assert_eq!((run(&[OLD, OLD], &[]), run(&[OLD], &[STAY; 8193])), (7, 6));
        }
    });
}

#[test]
fn wrong_settings_of_a_call() {
    on_both(|engine| {
        for settings in wrong() {
            let call = |words: &[u32], lent: usize| {
                let mut image = vec![0xEE; lent];
                let number = engine.call_under(&to_bytes(words), &mut image, settings);
                assert_eq!(image, vec![0xEE; lent]);
                number
            };
            for fresh in [FRESH.as_slice(), &SHORT_FRESH] {
                let with = |words: &[u32]| [fresh, words].concat();
                assert_eq!((call(fresh, 56), call(fresh, 60), call(&with(&[COME, 0]), 56)), (18, 18, 18), "{settings}");
                // before 12 and 13
                assert_eq!(
                    (call(&with(&[STAY; 8193]), 56), call(fresh, 55), call(&with(&[STAY; 8193]), 0)),
                    (18, 18, 18)
                );
                // after 2 and 4
                assert_eq!((call(&fresh[..9], 56), call(&with(&[])[..1], 0)), (2, 2));
                let mut level = with(&[]);
                level[1] |= 2;
                assert_eq!(call(&level, 56), 4);
            }
            assert_eq!((call(&[], 56), call(&[0; 8528], 0), call(&[0; 8529], 56)), (1, 1, 14));
            assert_eq!(engine.call_under(&[1, 2, 3], &mut [], settings), 14);
        }
    });
}

/// Rounds and the printed run step under 0 and 0: both processes go to 24, and FLICKERs are printed.
#[test]
fn rounds_and_texts_are_under_0_and_0() {
    on_both(|engine| {
        let at_23 = |q: u16| Row { loc: 23, act: 1, level: 1, est: 0b11 & !(1 << q), ..Row::IDLE };
        let mut rows = vec![at_23(0), at_23(1)];
        stops(engine, &[Row { loc: 24, ..rows[0] }, rows[1]], GO | P1, Settings::of(0, 1), 17);
        let input = to_bytes(&[image_of(&rows), vec![GO, GO | P1, FLICKER + 1]].concat());
        assert_eq!(engine.text(&input), b"posts 2\n0 0 23 24 0 -\n1 1 23 24 0 -\n2 0 24 24 0 wt1\ndone 3\n");
        assert_eq!(engine.rounds(&mut rows), Rounded { refusal: 0, rounds: 7, occupied: 1 });
        let writing = [Row { loc: 20, ..Row::IDLE }, Row::IDLE];
        let input = to_bytes(&[image_of(&writing), vec![FLICKER + 1]].concat());
        assert_eq!(engine.text(&input), b"posts 2\n0 0 20 20 0 wa0\ndone 1\n");
    });
}
