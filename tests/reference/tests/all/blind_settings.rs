//! The same of settings: what they forbid and leave, and what is refused with 18 or before it.

use reference::compare::{Case, Counts, Reference};
use reference::generate::inputs::{image_of, to_bytes, Input};
use reference::{Row, Settings, Tally};

const FLICKER: u32 = 0x30000000;
const GO: u32 = 0x40000000;

const WRONG: Settings = Settings::of(2, 0);

fn step(rows: &[Row], word: u32, settings: Settings) -> Case {
    Case::Step { rows: rows.to_vec(), word, settings }
}

fn run(rows: &[Row], words: &[u32], settings: Settings) -> Case {
    Case::Run { rows: rows.to_vec(), words: words.to_vec(), tally: Tally::default(), settings }
}

fn call(words: &[u32], lent: usize, settings: Settings) -> Case {
    Case::Call { input: Input { bytes: to_bytes(words), lent }, shift: 0, settings }
}

fn note(counts: &mut Counts, case: &Case) {
    counts.note(case, &case.answer(&Reference));
}

/// Each case in its turn ends one blindness, and those of the later ones are still there; where no such call was made none
/// is missed. `first` is noted before, to end nothing of it.
fn ends_one_after_the_other(first: Case, ends: &[(&str, Case)]) {
    let mut counts = Counts::default();
    let misses = |counts: &Counts, what: &str| counts.unseen().iter().any(|unseen| unseen == what);
    assert!(ends.iter().all(|(what, _)| !misses(&counts, what)));
    note(&mut counts, &first);
    assert!(ends.iter().all(|(what, _)| misses(&counts, what)), "{:?}", counts.unseen());
    for (place, (what, case)) in ends.iter().enumerate() {
        note(&mut counts, case);
        assert!(!misses(&counts, what), "{what}: {case}");
        assert!(ends[place + 1..].iter().all(|(later, _)| misses(&counts, later)), "after {what}");
    }
}

/// Process 0 at a location, on level 1, and another of three at 24.
fn beside_24(own: Row, level: u16) -> Vec<Row> {
    vec![Row { level: 1, ..own }, Row { loc: 24, level, ..Row::IDLE }, Row::IDLE]
}

#[test]
fn a_comparison_without_forbidden_words_is_blind() {
    let at = |loc| beside_24(Row { loc, est: 0b110, ..Row::IDLE }, 2);
    let written = |own: Row| beside_24(Row { loc: 23, ..own }, 1);
    let few = Row { est: 0, ..Row::IDLE };
    let enough = Row { est: 0b110, ..Row::IDLE };
    let (plain, one) = (Settings::of(1, 2), Settings::of(0, 1));
    let ends = [
        ("no FLICKER forbidden at 20", step(&at(20), FLICKER, plain)),
        ("no FLICKER forbidden at 40", step(&at(40), FLICKER, plain)),
        ("no FLICKER forbidden at 24", step(&at(24), FLICKER, plain)),
        ("no GO forbidden", step(&written(enough), GO, one)),
        ("no forbidden FLICKER refused for its argument", step(&at(24), FLICKER + 3, Settings::of(0, 2))),
        ("no forbidden GO refused for its argument", step(&written(enough), GO + 1, one)),
        ("no FLICKER at 24 under one writer", step(&at(24), FLICKER, one)),
        ("no GO to 24 under one writer beside a writer of another level", step(&at(23), GO, one)),
        ("no GO at 23 under one writer beside a writer of its level, with a small est", step(&written(few), GO, one)),
        (
            "no GO at 23 under one writer beside a writer of its level, with bb 1",
            step(&written(Row { bb: 1, ..enough }), GO, one),
        ),
        ("Step never met refusal 18", step(&at(20), FLICKER, WRONG)),
    ];
    ends_one_after_the_other(step(&at(20), FLICKER, Settings::SAFE), &ends);
    // an argument that is refused where nothing is forbidden ends nothing
    let mut counts = Counts::default();
    for (loc, settings) in [(20, Settings::of(0, 2)), (24, Settings::of(1, 1))] {
        note(&mut counts, &step(&at(loc), FLICKER + 3, settings));
        assert!(counts.unseen().contains(&"no forbidden FLICKER refused for its argument".to_string()));
    }
}

#[test]
fn a_comparison_without_all_six_is_blind() {
    let rows = [Row::IDLE; 2];
    let words = [image_of(&rows), vec![0x10000000]].concat();
    for settings in Settings::ALL {
        let step = (format!("no word taken by Step under {settings}"), step(&rows, 0x10000000, settings));
        let run = (format!("no word taken by Run under {settings}"), run(&rows, &[0x10000000], settings));
        let call = (format!("no word taken by Call under {settings}"), call(&words, 56, settings));
        for (what, case) in [step, run, call] {
            let mut counts = Counts::default();
            Settings::ALL.iter().filter(|&&other| other != settings).for_each(|&other| {
                let mut case = case.clone();
                if let Case::Step { settings, .. } | Case::Run { settings, .. } | Case::Call { settings, .. } =
                    &mut case
                {
                    *settings = other;
                }
                note(&mut counts, &case);
            });
            assert!(counts.unseen().contains(&what), "{what}");
            note(&mut counts, &case);
            assert!(!counts.unseen().contains(&what), "{what}");
        }
    }
}

#[test]
fn a_comparison_without_wrong_settings_is_blind() {
    let (fresh, unsound) = ([Row::IDLE; 2], [Row { act: 2, ..Row::IDLE }, Row::IDLE]);
    let steps = [
        ("no step with wrong settings refused with 6", step(&fresh[..1], GO, WRONG)),
        ("no step with wrong settings refused with 7", step(&unsound, GO, WRONG)),
        ("no step refused with 18 though its word has a wrong form", step(&fresh, 0, WRONG)),
    ];
    ends_one_after_the_other(step(&fresh, 0x10000000, Settings::SAFE), &steps);
    let runs = [
        ("no run with wrong settings refused with 6", run(&fresh[..1], &[], WRONG)),
        ("no run with wrong settings refused with 7", run(&unsound, &[], WRONG)),
        ("no run refused with 18 though it has too many words", run(&fresh, &[0; 8193], WRONG)),
        ("no run refused with 18 that has no words", run(&fresh, &[], WRONG)),
        ("nothing refused with 18 for turn alone", run(&fresh, &[], Settings::of(1, 3))),
        ("nothing refused with 18 for act and turn", run(&fresh, &[], Settings::of(2, 3))),
    ];
    ends_one_after_the_other(run(&fresh, &[0x10000000], Settings::SAFE), &runs);
    let image = image_of(&fresh);
    let calls = [
        ("no call with wrong settings refused with 14", call(&[0; 8529], 56, WRONG)),
        ("no call with wrong settings refused for its image", call(&image[..13], 56, WRONG)),
        (
            "no call refused with 18 though it has too many words",
            call(&[image.clone(), vec![0; 8193]].concat(), 56, WRONG),
        ),
        ("no call refused with 18 though it is lent too little", call(&image, 55, WRONG)),
        ("nothing refused with 18 for turn alone", call(&image, 56, Settings::of(1, 3))),
    ];
    ends_one_after_the_other(call(&[image.clone(), vec![0; 8193]].concat(), 0, Settings::SAFE), &calls);
}

/// 16, 17 and 18 must be met by runs and by calls too.
#[test]
fn a_comparison_without_refusals_of_settings_is_blind() {
    let own = Row { loc: 23, est: 0b110, ..Row::IDLE };
    let (at_20, at_23) = (beside_24(Row { loc: 20, ..own }, 1), beside_24(own, 1));
    let image = |rows: &[Row], word: u32| [image_of(rows), vec![word]].concat();
    let (plain, one) = (Settings::of(1, 0), Settings::of(1, 1));
    let runs = [
        ("Run never met refusal 16", run(&at_20, &[FLICKER], plain)),
        ("Run never met refusal 17", run(&at_23, &[GO], one)),
        ("Run never met refusal 18", run(&at_23, &[GO], WRONG)),
    ];
    ends_one_after_the_other(run(&at_20, &[FLICKER], Settings::SAFE), &runs);
    let calls = [
        ("Call never met refusal 16", call(&image(&at_20, FLICKER), 96, plain)),
        ("Call never met refusal 17", call(&image(&at_23, GO), 96, one)),
        ("Call never met refusal 18", call(&image(&at_23, GO), 96, WRONG)),
    ];
    ends_one_after_the_other(call(&image(&at_20, FLICKER), 96, Settings::SAFE), &calls);
}
