//! The printed number at 30 and the printed cell, on both models.

use crate::manual::on_both;
use reference::compare::Engine;
use reference::generate::inputs::{image_of, to_bytes};
use reference::generate::schedule::schedule;
use reference::generate::tables::sound_table;
use reference::generate::Random;
use reference::{Row, Settings, StepAnswer};

fn text(engine: &dyn Engine, rows: &[Row], words: &[u32]) -> String {
    let input = [to_bytes(&image_of(rows)), to_bytes(words)].concat();
    String::from_utf8(engine.text(&input)).expect("a text")
}

/// Two at 30 in the image: one departs, another arrives beside the one there; 40 to 10 and 21 to 22 change nothing.
#[test]
fn two_at_30() {
    let at = |loc| Row { loc, act: 1, ..Row::IDLE };
    let words =
        [0x40000000, 0x40020000, 0x40000000, 0x20000000, 0x40000000, 0x40000000, 0x40010000, 0x60000000, 0x40020000];
    let expected = [
        "posts 3",
        "0 0 30 40 1 -",
        "1 2 21 30 2 -",
        "2 0 40 10 2 wa0",
        "3 0 10 20 2 -",
        "4 0 20 21 2 wa0",
        "5 0 21 22 2 -",
        "6 1 30 40 1 -",
        "stop 7 10",
        "",
    ];
    on_both(|engine| assert_eq!(text(engine, &[at(30), at(30), at(21)], &words), expected.join("\n")));
}

/// From any sound table the last number of each line is what the census has after that word, and its cell the one that
/// the step tells.
#[test]
fn the_number_is_the_census_and_the_cell_is_the_step() {
    on_both(|engine| {
        let mut rng = Random::new(30);
        let (mut raised, mut lowered, mut most) = (0, 0, 0);
        for round in 0..600 {
            let start = sound_table(&mut rng, 2 + round % 15);
            let words = schedule(&mut rng, &start, 60, round % 2, Settings::SAFE);
            let printed = text(engine, &start, &words);
            let mut rows = start.clone();
            let mut before = engine.census(&rows).at_30;
            let lines = printed.lines().skip(1).filter(|line| line.starts_with(|c: char| c.is_ascii_digit()));
            for (line, &word) in lines.zip(&words) {
                let StepAnswer { refusal, cell } = engine.step(&mut rows, word);
                let inside = engine.census(&rows).at_30;
                assert_eq!(refusal, 0, "{line}");
                assert_eq!(
                    line.split(' ').skip(4).collect::<Vec<_>>(),
                    [inside.to_string(), cell.to_string()],
                    "{line}"
                );
                raised += u32::from(inside > before);
                lowered += u32::from(inside < before);
                most = most.max(inside);
                before = inside;
            }
        }
        assert!(raised > 300 && lowered > 300 && most >= 10, "{raised} {lowered} {most}");
    });
}
