//! What a comparison must have met, lest it be blind to something: it says so until it has.

use reference::compare::{Case, Counts, Reference};
use reference::generate::inputs::{image_of, short_image_of, to_bytes, Input};
use reference::{Row, Settings, Tally};

/// A step under 0 and 0.
fn step(rows: &[Row], word: u32) -> Case {
    Case::Step { rows: rows.to_vec(), word, settings: Settings::SAFE }
}

/// A run under 0 and 0.
fn run(rows: &[Row], words: &[u32]) -> Case {
    Case::Run { rows: rows.to_vec(), words: words.to_vec(), tally: Tally::default(), settings: Settings::SAFE }
}

/// A call on bytes under 0 and 0.
fn call(words: &[u32], lent: usize) -> Case {
    Case::Call { input: Input { bytes: to_bytes(words), lent }, shift: 0, settings: Settings::SAFE }
}

#[test]
fn a_comparison_without_cancels_is_blind() {
    let mut counts = Counts::default();
    let blind = |counts: &Counts, n: usize| counts.unseen().contains(&format!("no CANCEL taken with {n} processes"));
    assert!((2..=16).all(|n| blind(&counts, n)));
    let rows = vec![Row { loc: 20, ..Row::IDLE }, Row::IDLE];
    for (word, taken) in [(0x60000001, false), (0x60000000, true)] {
        let case = step(&rows, word);
        counts.note(&case, &case.answer(&Reference));
        assert_eq!(blind(&counts, 2), !taken);
    }
    assert!((3..=16).all(|n| blind(&counts, n)));
}

/// Only lines that are printed count, and each number of processes by itself.
#[test]
fn a_comparison_without_crowds_is_blind() {
    let mut counts = Counts::default();
    let misses = |counts: &Counts, what: &str| counts.unseen().iter().any(|unseen| unseen == what);
    let (two, ten) = ("no line with two at 30 of 12 processes", "no line with ten at 30");
    assert!(!misses(&counts, two) && !misses(&counts, ten));
    for (inside, without_two, without_ten) in [(1, true, true), (2, false, true), (9, false, true), (10, false, false)]
    {
        let rows: Vec<Row> = (0..12).map(|q| Row { loc: if q < inside { 30 } else { 10 }, ..Row::IDLE }).collect();
        let lent = step(&rows, 0x100B0000);
        counts.note(&lent, &lent.answer(&Reference));
        let printed = Case::Text { bytes: [to_bytes(&image_of(&rows)), to_bytes(&[0x100B0000])].concat() };
        counts.note(&printed, &printed.answer(&Reference));
        assert_eq!((misses(&counts, two), misses(&counts, ten)), (without_two, without_ten), "{inside}");
    }
    assert!(misses(&counts, "no line with two at 30 of 11 processes"));
}

/// Notes a case, and tells whether the comparison then misses what is named.
fn misses_after(counts: &mut Counts, case: Case, what: &str) -> bool {
    counts.note(&case, &case.answer(&Reference));
    counts.unseen().iter().any(|unseen| unseen == what)
}

/// Each of the five answers must be told by a step, by a run and by a line; a refused step tells none.
#[test]
fn a_comparison_without_cells_is_blind() {
    let mut counts = Counts::default();
    let at = |loc| vec![Row { loc, bb: 1, level: 1, est: 0b10, lis: 0b10, ..Row::IDLE }, Row::IDLE];
    let words = [(0x40000000, 21, "-"), (0x50000001, 22, "ra"), (0x30000001, 20, "wa"), (0x40000000, 23, "rt")];
    for (word, loc, letters) in words.into_iter().chain([(0x30000001, 24, "wt")]) {
        let rows = at(loc);
        let (of_step, of_run) = (format!("no step with cell {letters}"), format!("no run with cell {letters}"));
        assert!(misses_after(&mut counts, step(&rows, word | 0x7F), &of_step), "{letters}");
        assert!(!misses_after(&mut counts, step(&rows, word), &of_step), "{letters}");
        assert!(misses_after(&mut counts, run(&rows, &[word | 0x7F]), &of_run), "{letters}");
        assert!(!misses_after(&mut counts, run(&rows, &[word]), &of_run), "{letters}");
        let image = to_bytes(&image_of(&rows));
        let no_lines = Case::Text { bytes: image.clone() };
        assert!(misses_after(&mut counts, no_lines, &format!("no line with cell {letters}")), "{letters}");
        let line = Case::Text { bytes: [image, to_bytes(&[word])].concat() };
        assert!(!misses_after(&mut counts, line, &format!("no line with cell {letters}")), "{letters}");
    }
}

#[test]
fn a_comparison_without_stops_or_wide_cells_is_blind() {
    let mut counts = Counts::default();
    let (at_20, at_10) = (Row { loc: 20, ..Row::IDLE }, Row::IDLE);
    let text = |rows: &[Row], word| Case::Text { bytes: [to_bytes(&image_of(rows)), to_bytes(&[word])].concat() };

    let (stop, none) = ("no run that stops with a cell", "no run that takes no word");
    assert!(misses_after(&mut counts, run(&[at_20, at_10], &[0x30000000]), stop));
    assert!(misses_after(&mut counts, run(&[at_20, at_10], &[0x10010000, 0]), stop));
    assert!(misses_after(&mut counts, run(&[at_20, at_10], &[0x30000000, 0]), none));
    assert!(!misses_after(&mut counts, run(&[at_20, at_10], &[0]), none));
    assert!(!misses_after(&mut counts, run(&[at_20, at_10], &[]), stop));

    let wide = "no line with a cell of two digits";
    assert!(misses_after(&mut counts, text(&[at_20; 16], 0x30090000), wide));
    assert!(!misses_after(&mut counts, text(&[at_20; 16], 0x300A0000), wide));
}

/// A row of two processes once these have changed places.
fn turned_about(mut row: Row) -> Row {
    row.passes.swap(0, 1);
    row
}

/// Each end of rounds must be met, that at 30 for each number of processes, and both refusals.
#[test]
fn a_comparison_without_every_end_of_rounds_is_blind() {
    let mut counts = Counts::default();
    let at = |loc, act| Row { loc, act, ..Row::IDLE };
    let rounds = |rows: &[Row]| Case::Rounds { rows: rows.into() };
    let ends = [
        ("no rounds to 30 with 2 processes", vec![at(20, 0), at(10, 0)]),
        ("no rounds to 30 with 16 processes", vec![at(20, 0); 16]),
        ("no limit of rounds that is used up", vec![at(20, 0), at(10, 1)]),
        ("no rounds asked for with a process at 30", vec![at(20, 0), at(30, 0)]),
        ("no rounds asked for with nobody at 20 to 24 or 30", vec![at(10, 0), at(40, 0)]),
        ("no round broken with nobody at 30", entering(0, 1, 65_535)),
        ("no round broken with a process at 30", entering(0, 1, 65_535).into_iter().rev().map(turned_about).collect()),
        ("Rounds never met refusal 6", vec![at(20, 0)]),
        ("Rounds never met refusal 7", vec![at(20, 0), at(20, 2)]),
    ];
    // where no rounds are asked for none is missed
    assert!(ends.iter().all(|(what, _)| !counts.unseen().iter().any(|unseen| unseen == what)));
    assert!(misses_after(&mut counts, rounds(&[at(20, 0); 3]), ends[0].0));
    for (place, (what, rows)) in ends.iter().enumerate() {
        assert!(!misses_after(&mut counts, rounds(rows), what), "{what}");
        let later = ends[place + 1..].iter();
        later.for_each(|(what, _)| assert!(counts.unseen().iter().any(|unseen| unseen == what), "{what}"));
    }
    assert!(counts.unseen().contains(&"no rounds to 30 with 15 processes".to_string()));
}

/// Process 0 at 20 and process 1 at 21, with so many passes of one over another.
fn entering(q: usize, r: usize, count: u16) -> Vec<Row> {
    let mut rows = vec![Row { loc: 20, ..Row::IDLE }, Row { loc: 21, ..Row::IDLE }];
    rows[q].passes[r] = count;
    rows
}

#[test]
fn a_comparison_without_full_counts_is_blind() {
    let mut counts = Counts::default();
    let rows = || entering(0, 1, 65_535);
    let words = [image_of(&rows()), vec![0x40000000]].concat();
    let bytes = to_bytes(&words);
    let cases = [
        step(&rows(), 0x40000000),
        run(&rows(), &[0x40000000]),
        Case::Rounds { rows: rows() },
        call(&words, 100),
        Case::Print { input: Input { bytes: bytes.clone(), lent: 100 }, shift: 0 },
        Case::Text { bytes },
    ];
    for case in cases {
        let what = format!("{:?} never met refusal 15", case.kind());
        counts.calls[case.kind() as usize] += 1;
        assert!(counts.unseen().contains(&what), "{what}");
        assert!(!misses_after(&mut counts, case, &what), "{what}");
    }
    let argument = "no GO at 20 with a full count refused for its argument";
    for (count, word) in [(65_535, 0x30000002), (65_534, 0x40000001), (65_535, 0x40000000), (65_535, 0x40010001)] {
        let case = step(&entering(0, 1, count), word);
        assert!(misses_after(&mut counts, case, argument), "{count} {word:08X}");
    }
    assert!(!misses_after(&mut counts, step(&rows(), 0x40000001), argument));
}

/// Tables that are unsound for another reason as well do not count.
#[test]
fn a_comparison_without_unsound_passes_is_blind() {
    let mut counts = Counts::default();
    let own = "no table refused for passes of a process over itself";
    let past = "no table refused for passes over a process that is not there";
    let census = |rows: Vec<Row>| Case::Census { rows };
    let worse = |mut rows: Vec<Row>| {
        rows[0].act = 2;
        rows
    };
    assert!(misses_after(&mut counts, census(worse(entering(1, 1, 1))), own));
    assert!(misses_after(&mut counts, census(worse(entering(1, 2, 1))), past));
    assert!(misses_after(&mut counts, census(entering(1, 1, 1)), past));
    assert!(!misses_after(&mut counts, census(entering(1, 2, 1)), past));
    assert!(!misses_after(&mut counts, census(entering(0, 1, 1)), own));
}

/// Both forms must be met, accepted and with a wrong length, and words of passes with 3 and with 4: by images that are read
/// and by inputs.
#[test]
fn a_comparison_without_both_forms_is_blind() {
    let (long, short) = (image_of(&entering(0, 1, 7)), short_image_of(&entering(0, 1, 0)));
    let changed = |place: usize, word: u32| {
        let mut image = long.clone();
        image[place] = word;
        image
    };
    let images = [
        ("of the short form accepted", short.clone()),
        ("with passes accepted", long.clone()),
        ("of the short form refused with 2", short[..9].to_vec()),
        ("with passes refused with 2", long[..13].to_vec()),
        ("refused with 3 at a word of passes", changed(12, 0xE1100000)),
        ("refused with 4 at a word of passes", changed(13, 0xE1010001)),
    ];
    let read = |words: &[u32]| Case::ReadImage { words: words.to_vec(), rows: vec![Row::IDLE; 2] };
    let input = |words: &[u32]| call(words, 56);
    for (of, case) in [("image", &read as &dyn Fn(&[u32]) -> Case), ("input", &input)] {
        let mut counts = Counts::default();
        // 3 and 4 at words that are not of passes
        for other in [changed(9, 0), changed(9, 0xD0010002)] {
            assert!(images.iter().all(|(what, _)| misses_after(&mut counts, case(&other), &format!("no {of} {what}"))));
        }
        for (place, (what, words)) in images.iter().enumerate() {
            assert!(!misses_after(&mut counts, case(words), &format!("no {of} {what}")), "{of} {what}");
            let missed = |what: &str| counts.unseen().contains(&format!("no {of} {what}"));
            assert!(images[place + 1..].iter().all(|(what, _)| missed(what)), "{of} {what}");
        }
    }
}
