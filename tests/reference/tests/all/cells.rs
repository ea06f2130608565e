//! Examples of the shared cell that a step, a run and a printed line tell, and of two words in both orders, on both
//! models.

use crate::manual::{fresh_rows, on_both, OLD, SEVEN};
use reference::compare::Engine;
use reference::generate::inputs::{image_of, to_bytes};
use reference::{Cell, Ran, Row, StepAnswer, Tally};

/// Words of process 0; process p is `p << 16` more.
const STAY: u32 = 0x10000000;
const COME: u32 = 0x20000000;
const FLICKER: u32 = 0x30000000;
const GO: u32 = 0x40000000;
const LOOK: u32 = 0x50000000;
const CANCEL: u32 = 0x60000000;
const P1: u32 = 1 << 16;
const P2: u32 = 2 << 16;

/// The numbers that C gets for a cell in its printed form.
fn cell(printed: &str) -> Cell {
    if printed == "-" {
        return Cell { access: 0, variable: 0, index: 0 };
    }
    let (letters, index) = printed.split_at(2);
    let (access, variable) = match letters {
        "ra" => (1, 1),
        "wa" => (2, 1),
        "rt" => (1, 2),
        "wt" => (2, 2),
        _ => panic!("no cell: {printed}"),
    };
    Cell { access, variable, index: index.parse().expect("an index") }
}

/// An accepted word tells this cell, as a step, as a run and in its line. Answers the rows that it leads to.
fn uses(engine: &dyn Engine, rows: &[Row], word: u32, printed: &str) -> Vec<Row> {
    let (mut stepped, mut ran) = (rows.to_vec(), rows.to_vec());
    let answer = engine.step(&mut stepped, word);
    assert_eq!(answer, StepAnswer { refusal: 0, cell: cell(printed) }, "{word:08X} {rows:?}");
    let answer = engine.run(&mut ran, &[word], &mut Tally::default());
    assert_eq!(answer, Ran { taken: 1, refusal: 0, cell: cell(printed) }, "{word:08X} {rows:?}");
    assert_eq!(stepped, ran);
    let input = to_bytes(&[image_of(rows), vec![word]].concat());
    let text = String::from_utf8(engine.text(&input)).expect("a text");
    let line = text.lines().nth(1).expect("a line");
    assert_eq!(line.split(' ').skip(5).collect::<Vec<_>>(), [printed], "{word:08X} {rows:?}");
    stepped
}

/// Process 1 of three at a location, on level 2; the others rest, one of them with act 1.
fn three(own: Row) -> [Row; 3] {
    [Row::IDLE, own, Row { act: 1, turn: 1, ..Row::IDLE }]
}

fn at(loc: u16) -> Row {
    Row { loc, bb: 1, level: if loc == 30 { 0 } else { 2 }, est: 0b101, lis: 0b101, ..Row::IDLE }
}

#[test]
fn each_kind_at_each_location() {
    let examples = [
        (at(10), STAY, "-"),
        (at(10), COME, "-"),
        (at(20), FLICKER, "wa1"),
        (at(20), FLICKER + 1, "wa1"),
        (at(20), GO, "wa1"),
        (at(20), CANCEL, "-"),
        (at(21), GO, "-"),
        (Row { level: 0, ..at(21) }, GO, "-"),
        (at(22), LOOK, "ra0"),
        (at(22), LOOK + 2, "ra2"),
        (Row { lis: 0b010, ..at(22) }, LOOK + 1, "ra1"),
        (Row { lis: 0, ..at(22) }, GO, "-"),
        (at(24), FLICKER, "wt2"),
        (at(24), FLICKER + 1, "wt2"),
        (at(24), FLICKER + 2, "wt2"),
        (Row { level: 1, ..at(24) }, FLICKER, "wt1"),
        (at(24), GO, "wt2"),
        (Row { level: 1, ..at(24) }, GO, "wt1"),
        (at(30), GO, "-"),
        (at(40), FLICKER, "wa1"),
        (at(40), FLICKER + 1, "wa1"),
        (at(40), GO, "wa1"),
    ];
    on_both(|engine| {
        for (own, word, printed) in examples {
            uses(engine, &three(own), word | P1, printed);
        }
    });
}

/// The first that applies; bb 1 or 0 and turn[2] of process 1 or of another tell nothing in the first two.
#[test]
fn the_cases_of_go_at_23() {
    let fewer = Row { est: 0b100, ..at(23) };
    let cases = [
        ("fewer in est", fewer, "-", (21, 1, 0)),
        ("fewer in est, bb 0", Row { bb: 0, ..fewer }, "-", (21, 1, 0)),
        ("bb is 0", Row { bb: 0, ..at(23) }, "-", (24, 2, 0)),
        ("turn[2] is another", at(23), "rt2", (21, 1, 0)),
        ("turn[2] is 1", at(23), "rt2", (21, 2, 1)),
    ];
    on_both(|engine| {
        for (what, own, printed, after) in cases {
            for turn in 0..3 {
                if printed == "-" || (turn == 1) == (what == "turn[2] is 1") {
                    let rows = [Row::IDLE, own, Row { turn, ..Row::IDLE }];
                    let led = uses(engine, &rows, GO | P1, printed)[1];
                    assert_eq!((led.loc, led.level, led.bb), after, "{what}, turn[2] {turn}");
                }
            }
        }
    });
}

/// The longest index and letters, through a row that is the process's own.
#[test]
fn two_digits() {
    on_both(|engine| {
        let mut rows = [Row::IDLE; 16];
        rows[15] = Row { loc: 24, level: 15, ..Row::IDLE };
        rows[10] = Row { loc: 22, level: 9, lis: 1 << 15, ..Row::IDLE };
        uses(engine, &rows, FLICKER | 15 << 16 | 15, "wt15");
        uses(engine, &rows, LOOK | 10 << 16 | 15, "ra15");
    });
}

#[test]
fn a_refused_word_uses_none() {
    let refused = [
        (at(20), FLICKER + 2, 11),
        (at(20), GO + 1, 11),
        (at(22), LOOK + 1, 11),
        (at(23), GO + 1, 11),
        (at(24), FLICKER + 3, 11),
        (at(24), GO + 1, 11),
        (at(40), GO + 1, 11),
        (at(21), FLICKER, 10),
        (Row { lis: 0, ..at(22) }, LOOK, 10),
        (at(20), FLICKER + 0x20000, 9),
        (at(20), FLICKER + 0x100, 8),
        (Row { act: 2, ..at(20) }, FLICKER, 7),
        (Row { passes: [0, 1, 0, 0, 0, 0, 0, 0, 0, 0, 0, 0, 0, 0, 0, 0], ..at(20) }, FLICKER, 7),
    ];
    on_both(|engine| {
        for (own, word, refusal) in refused {
            let answer = engine.step(&mut three(own), word + P1);
            assert_eq!(answer, StepAnswer { refusal, cell: Cell::NONE }, "{own:?} {word:08X}");
        }
        assert_eq!(engine.step(&mut [at(20)], FLICKER), StepAnswer { refusal: 6, cell: Cell::NONE });
        // entry would write act of 1, had process 0 not been passed so often
        let mut rows = three(at(20));
        rows[0] = at(30);
        rows[1].passes[0] = 65_535;
        assert_eq!(engine.step(&mut rows, GO | P1), StepAnswer { refusal: 15, cell: Cell::NONE });
    });
}

/// What a run from these rows answers.
fn run(engine: &dyn Engine, rows: &[Row], words: &[u32]) -> (u32, u32, Cell) {
    let Ran { taken, refusal, cell } = engine.run(&mut rows.to_vec(), words, &mut Tally::default());
    (taken, refusal, cell)
}

#[test]
fn the_cell_of_a_run_is_that_of_its_last_taken_word() {
    on_both(|engine| {
        let fresh = fresh_rows(engine, 2);
        for (taken, printed) in ["-", "-", "wa0", "-", "ra1", "-", "-", "-"].into_iter().enumerate() {
            assert_eq!(run(engine, &fresh, &SEVEN[..taken]), (taken as u32, 0, cell(printed)));
        }
        // after a stop; the refused word alone would have written act of 1, or have been taken elsewhere
        let rows = [Row { loc: 20, ..Row::IDLE }, Row { loc: 20, ..Row::IDLE }];
        assert_eq!(run(engine, &rows, &[FLICKER, FLICKER + P1 + 2]), (1, 11, cell("wa0")));
        assert_eq!(run(engine, &rows, &[FLICKER, 0, FLICKER + P1]), (1, 8, cell("wa0")));
        assert_eq!(run(engine, &rows, &[FLICKER, CANCEL, CANCEL]), (2, 10, cell("-")));
        // no word taken
        assert_eq!(run(engine, &rows, &[FLICKER + 2]), (0, 11, cell("-")));
        assert_eq!(run(engine, &rows, &[FLICKER; 8193]), (0, 12, cell("-")));
        assert_eq!(run(engine, &[OLD, OLD], &[FLICKER]), (0, 7, cell("-")));
        assert_eq!(run(engine, &rows[..1], &[FLICKER]), (0, 6, cell("-")));
    });
}

/// The rows that two words lead to, in this order and in the other. Each tells the same cell first or second.
fn orders(engine: &dyn Engine, rows: &[Row], first: (u32, &str), second: (u32, &str)) -> [Vec<Row>; 2] {
    let both = |a: (u32, &str), b: (u32, &str)| uses(engine, &uses(engine, rows, a.0, a.1), b.0, b.1);
    [both(first, second), both(second, first)]
}

/// Process 0 looks at process 1 while that writes its act.
#[test]
fn look_against_flicker() {
    on_both(|engine| {
        let looking = Row { loc: 22, level: 1, est: 0b10, lis: 0b10, ..Row::IDLE };
        let rows = [looking, Row { loc: 20, ..Row::IDLE }];
        let [looked_first, wrote_first] = orders(engine, &rows, (LOOK + 1, "ra1"), (FLICKER + P1 + 1, "wa1"));
        assert_eq!((looked_first[0].est, wrote_first[0].est), (0b00, 0b10));
    });
}

/// Process 0 compares turn[1] while process 1 writes it.
#[test]
fn go_at_23_against_flicker_at_24() {
    on_both(|engine| {
        let comparing = Row { loc: 23, bb: 1, level: 1, est: 0b10, ..Row::IDLE };
        let rows = [comparing, Row { loc: 24, level: 1, ..Row::IDLE }];
        let [read_first, wrote_first] = orders(engine, &rows, (GO, "rt1"), (FLICKER + P1 + 1, "wt1"));
        assert_eq!((read_first[0].level, wrote_first[0].level), (1, 0));
    });
}

/// Two writes of one cell: the later one stays.
#[test]
fn two_that_push() {
    on_both(|engine| {
        let rows = [Row { loc: 24, level: 1, ..Row::IDLE }; 2];
        let [zero_first, one_first] = orders(engine, &rows, (GO, "wt1"), (GO + P1, "wt1"));
        assert_eq!((zero_first[1].turn, one_first[1].turn), (1, 0));
    });
}

/// Each writes its own act: who enters later has the other ahead and a pass over it, and nothing else differs.
#[test]
fn two_that_enter_agree_but_for_ahead_and_passes() {
    on_both(|engine| {
        let rows = [Row { loc: 20, ..Row::IDLE }; 2];
        let [zero_first, one_first] = orders(engine, &rows, (GO, "wa0"), (GO + P1, "wa1"));
        assert_eq!([zero_first[0].ahead, zero_first[1].ahead], [0b00, 0b01]);
        assert_eq!([one_first[0].ahead, one_first[1].ahead], [0b10, 0b00]);
        assert_eq!([zero_first[0].passes[1], zero_first[1].passes[0]], [0, 1]);
        assert_eq!([one_first[0].passes[1], one_first[1].passes[0]], [1, 0]);
        let others = |rows: Vec<Row>| rows.into_iter().map(|row| Row { ahead: 0, ..row.without_passes() });
        assert!(others(zero_first).eq(others(one_first)));
    });
}

/// Process 0 writes turn[2], which stands in the row of process 2, while that uses cells of its own or of others there.
#[test]
fn two_cells_of_one_row() {
    on_both(|engine| {
        let own_words = [
            (20, FLICKER + 1, "wa2"),
            (20, GO, "wa2"),
            (22, LOOK, "ra0"),
            (24, GO, "wt1"),
            (24, FLICKER + 1, "wt1"),
            (40, GO, "wa2"),
        ];
        for (loc, word, printed) in own_words {
            let own = Row { loc, level: 1, lis: 0b001, turn: 0, ..Row::IDLE };
            let rows = [Row { loc: 24, level: 2, ..Row::IDLE }, Row::IDLE, own];
            let [flickered_first, last] = orders(engine, &rows, (FLICKER + 1, "wt2"), (word | P2, printed));
            assert_eq!((flickered_first[2].turn, &flickered_first), (1, &last), "{loc}");
        }
    });
}
