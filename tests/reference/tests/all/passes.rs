//! Passes on both models: how often a process entered while another competed, counts that are full, tables that are
//! unsound for them, both forms of an image, and rounds that a full count breaks.

use crate::manual::{fresh_rows, image_refused, on_both, ran, FRESH, OLD, SHORT_FRESH};
use reference::compare::Engine;
use reference::generate::inputs::{image_of, short_image_of, to_bytes};
use reference::{Cell, Ran, Reading, Rounded, Row, StepAnswer, Tally};

/// Words of process 0; process p is `p << 16` more.
const COME: u32 = 0x20000000;
const FLICKER: u32 = 0x30000000;
const GO: u32 = 0x40000000;
const LOOK: u32 = 0x50000000;
const P1: u32 = 1 << 16;

const LOCATIONS: [u16; 8] = [10, 20, 21, 22, 23, 24, 30, 40];

fn at(loc: u16) -> Row {
    Row { loc, level: u16::from([22, 23, 24].contains(&loc)), ..Row::IDLE }
}

/// Rows at locations, with so many passes of one process over another.
fn table(locations: &[u16], passes: &[(usize, usize, u16)]) -> Vec<Row> {
    let mut rows: Vec<Row> = locations.iter().map(|&loc| at(loc)).collect();
    passes.iter().for_each(|&(q, r, count)| rows[q].passes[r] = count);
    rows
}

/// Process 1 comes to 24 after process 0, which has seen its act flicker; pushes, is let by since process 0 flickers
/// turn[1], and comes again; then process 0 pushes before it, passes it and leaves.
#[test]
fn process_1_enters_twice_while_0_competes() {
    let both_come = [COME, COME | P1, FLICKER + 1 | P1];
    let to_24 = |p: u32| [GO, GO, LOOK + 1 - p, GO, GO].map(|word| word | p << 16);
    let in_and_out = [GO | P1, GO | P1, LOOK | P1, GO | P1, FLICKER, GO | P1, GO | P1, GO | P1, GO | P1];
    let pushed_past = [GO | P1, LOOK | P1, GO | P1, GO | P1, GO, GO | P1, GO, LOOK + 1, GO, GO, GO];
    let stages = [
        (both_come.to_vec(), (20, 20), 0),
        (to_24(0).to_vec(), (24, 20), 0),
        (to_24(1).to_vec(), (24, 24), 1),
        (in_and_out.to_vec(), (24, 10), 1),
        (vec![COME | P1], (24, 20), 1),
        (vec![GO | P1], (24, 21), 2),
        (pushed_past.to_vec(), (30, 21), 2),
        (vec![GO], (40, 21), 0),
    ];
    on_both(|engine| {
        let mut words = Vec::new();
        for (more, locations, passes) in &stages {
            words.extend(more);
            let (rows, answer) = ran(engine, &words);
            assert_eq!((answer.taken as usize, answer.refusal), (words.len(), 0));
            assert_eq!((rows[0].loc, rows[1].loc), *locations);
            let mut of_1 = [0; 16];
            of_1[0] = *passes;
            assert_eq!([rows[0].passes, rows[1].passes], [[0; 16], of_1], "{locations:?}");
        }
    });
}

/// Entry counts those at 21 to 30, whatever it has counted before, and itself not; nobody else's counts change.
#[test]
fn who_is_passed() {
    on_both(|engine| {
        let locations: Vec<u16> = LOCATIONS.into_iter().chain([20]).collect();
        let before = [(8, 0, 5), (8, 3, 5), (8, 6, 65_534), (8, 7, 65_535), (3, 8, 9), (0, 1, 9)];
        let mut rows = table(&locations, &before);
        let answer = engine.step(&mut rows, GO | 8 << 16);
        assert_eq!(answer, StepAnswer { refusal: 0, cell: Cell::act_written(8) });
        let mut expected = table(&locations, &before);
        expected[8] = Row { passes: [5, 0, 1, 6, 1, 1, 65_535, 65_535, 0, 0, 0, 0, 0, 0, 0, 0], ..rows[8] };
        assert_eq!((rows[8].loc, rows), (21, expected));
    });
}

/// Exit clears what all have over the process that leaves, those that do not compete among them, and no more.
#[test]
fn who_leaves_is_passed_by_nobody() {
    on_both(|engine| {
        let locations: Vec<u16> = LOCATIONS.into_iter().chain([30]).collect();
        let every: Vec<_> = (0..9).flat_map(|q| (0..9).map(move |r| (q, r, if q == r { 0 } else { 7 }))).collect();
        let mut rows = table(&locations, &every);
        assert_eq!(engine.step(&mut rows, GO | 8 << 16).refusal, 0);
        let left: Vec<_> = every.iter().map(|&(q, r, count)| (q, r, if r == 8 { 0 } else { count })).collect();
        let mut expected = table(&locations, &left);
        expected[8].loc = 40;
        assert_eq!(rows, expected);
    });
}

/// Every other word of process 1 of three leaves the counts as they were.
#[test]
fn nothing_else_counts() {
    let every = [(0, 1, 1), (0, 2, 2), (1, 0, 3), (1, 2, 65_535), (2, 0, 5), (2, 1, 6)];
    let others = [
        (10, 0x10000000),
        (10, COME),
        (20, FLICKER),
        (20, 0x60000000),
        (21, GO),
        (22, GO),
        (23, GO),
        (24, FLICKER),
        (24, GO),
        (40, FLICKER),
        (40, GO),
    ];
    on_both(|engine| {
        for (loc, word) in others {
            let before = table(&[30, loc, 21], &every);
            let mut rows = before.clone();
            assert_eq!(engine.step(&mut rows, word | P1).refusal, 0, "{word:08X} at {loc}");
            let passes = |rows: &[Row]| rows.iter().map(|row| row.passes).collect::<Vec<_>>();
            assert_eq!(passes(&rows), passes(&before), "{word:08X} at {loc}");
        }
        let mut looking = table(&[30, 22, 21], &every);
        looking[1].lis = 0b101;
        assert_eq!(engine.step(&mut looking, LOOK | P1).refusal, 0);
        assert_eq!((looking[1].lis, looking[1].passes[2]), (0b100, 65_535));
    });
}

/// A word that stops whatever it is given to with this refusal, and changes nothing there.
fn stops(engine: &dyn Engine, rows: &[Row], word: u32, refusal: u16) {
    let (mut stepped, mut ran) = (rows.to_vec(), rows.to_vec());
    assert_eq!(engine.step(&mut stepped, word), StepAnswer { refusal, cell: Cell::NONE }, "{word:08X} {rows:?}");
    let mut tally = Tally { words: 9, comes: 9, arrivals: 9 };
    let answer = engine.run(&mut ran, &[word], &mut tally);
    assert_eq!(answer, Ran { taken: 0, refusal: refusal.into(), cell: Cell::NONE });
    assert_eq!((&stepped, &ran, tally), (&rows.to_vec(), &rows.to_vec(), Tally::default()));
    let (image, mut lent) = (image_of(rows), vec![0xEE; 4 * image_of(rows).len()]);
    let input = to_bytes(&[image.as_slice(), &[word]].concat());
    assert_eq!((engine.call(&input, &mut lent), lent), (refusal.into(), to_bytes(&image)));
    let text = format!("posts {}\nstop 0 {refusal}\n", rows.len());
    assert_eq!(String::from_utf8_lossy(&engine.text(&input)), text);
}

/// An image with a count of 65,535, and the GO that would add to it.
#[test]
fn a_full_count() {
    let image = [
        0x81000002, 0x90001000, 0xA0000000, 0xB0000000, 0xC0000000, 0x90012201, 0xA0010000, 0xB0010000, 0xC0010000,
        0xD0010000, 0xE0000000, 0xE001FFFF, 0xE1000000, 0xE1010000,
    ];
    on_both(|engine| {
        let mut rows = vec![OLD; 2];
        assert_eq!(engine.read_image(&image, &mut rows), Reading { refusal: 0, place: 0, size: 2 });
        assert_eq!((rows[0].loc, rows[1].loc, rows[0].passes[1]), (20, 21, 65_535));
        assert_eq!(image_of(&rows), image);
        stops(engine, &rows, GO, 15);
        // full over several, over one of several, and over all
        let locations = [20, 21, 22, 23, 24, 30];
        for full in [&[1, 4][..], &[3], &[5], &[1, 2, 3, 4, 5]] {
            let passes: Vec<_> = full.iter().map(|&r| (0, r, 65_535)).collect();
            stops(engine, &table(&locations, &passes), GO, 15);
        }
    });
}

#[test]
fn a_count_becomes_full_and_stops_the_next_entry() {
    on_both(|engine| {
        let mut rows = table(&[20, 21], &[(0, 1, 65_534)]);
        assert_eq!(engine.step(&mut rows, GO).refusal, 0);
        assert_eq!((rows[0].loc, rows[0].passes[1]), (21, 65_535));
        rows[0].loc = 20;
        stops(engine, &rows, GO, 15);
        // process 1 is at 30, leaves, and is not in the way any more
        rows[1] = at(30);
        stops(engine, &rows, GO, 15);
        let mut tally = Tally::default();
        let answer = engine.run(&mut rows, &[GO | P1, GO], &mut tally);
        assert_eq!((answer.taken, answer.refusal, rows[0].loc, rows[0].passes), (2, 0, 21, [0; 16]));
    });
}

/// 15 comes last: after 8 to 11, and for entries alone; who does not compete is not counted.
#[test]
fn other_answers_with_a_full_count() {
    on_both(|engine| {
        let full = |loc| table(&[loc, 21], &[(0, 1, 65_535)]);
        for argument in [1, 2, 255] {
            stops(engine, &full(20), GO + argument, 11);
        }
        stops(engine, &full(20), FLICKER + 2, 11);
        stops(engine, &full(20), COME, 10);
        stops(engine, &full(10), GO, 10);
        stops(engine, &full(20), GO + 0x20000, 9);
        stops(engine, &full(20), GO + 0x100, 8);
        for (loc, word) in [(10, COME), (20, FLICKER), (20, 0x60000000), (21, GO), (24, GO), (30, GO), (40, GO)] {
            assert_eq!(engine.step(&mut full(loc), word).refusal, 0, "{loc}");
        }
        for loc in [10, 20, 40] {
            let mut rows = table(&[20, loc], &[(0, 1, 65_535), (1, 0, 65_535)]);
            assert_eq!(engine.step(&mut rows, GO).refusal, 0, "{loc}");
            assert_eq!((rows[0].passes[1], rows[1].passes[0]), (65_535, 65_535));
        }
    });
}

/// A run keeps what it took before it, with its cell.
#[test]
fn a_run_that_stops_with_15() {
    on_both(|engine| {
        let mut rows = table(&[20, 10], &[(0, 1, 65_535)]);
        let words = [COME | P1, GO | P1, GO, GO | P1];
        let mut tally = Tally::default();
        let answer = engine.run(&mut rows, &words, &mut tally);
        assert_eq!(answer, Ran { taken: 2, refusal: 15, cell: Cell::act_written(1) });
        assert_eq!((tally, rows[0].loc, rows[1].loc), (Tally { words: 2, comes: 1, arrivals: 0 }, 20, 21));
        let input = to_bytes(&[image_of(&table(&[20, 10], &[(0, 1, 65_535)])), words.to_vec()].concat());
        let mut lent = vec![0; 56];
        assert_eq!((engine.call(&input, &mut lent), lent), (2 * 256 + 15, to_bytes(&image_of(&rows))));
        assert_eq!(engine.text(&input), b"posts 2\n0 1 10 20 0 -\n1 1 20 21 0 wa1\nstop 2 15\n");
    });
}

/// Whatever is given the table refuses it with 7, and changes nothing.
fn unsound(engine: &dyn Engine, rows: &[Row]) {
    let mut after = rows.to_vec();
    assert_eq!(engine.step(&mut after, 0x10000000).refusal, 7, "{rows:?}");
    assert_eq!(engine.run(&mut after, &[], &mut Tally::default()).refusal, 7);
    assert_eq!(engine.rounds(&mut after), Rounded { refusal: 7, rounds: 0, occupied: 0 });
    assert_eq!(after, rows);
    assert_eq!((engine.census(rows).refusal, engine.write_image(rows, &mut [0; 400])), (7, 7));
}

#[test]
fn tables_that_are_unsound_for_passes() {
    on_both(|engine| {
        for n in 2..=16 {
            for (q, r) in (0..n).flat_map(|q| (0..16).map(move |r| (q, r))) {
                for count in [1, 65_535] {
                    let rows = table(&vec![20; n], &[(q, r, count)]);
                    if q == r || r >= n {
                        unsound(engine, &rows);
                    } else {
                        assert_eq!(engine.census(&rows).refusal, 0, "{q} {r} of {n}");
                    }
                }
            }
        }
    });
}

/// The two forms of one table without passes are read alike, and the one with passes is written.
#[test]
fn both_forms_of_one_table() {
    on_both(|engine| {
        for n in 2..=16 {
            let mut rows = fresh_rows(engine, n);
            rows[0] = Row { loc: 22, act: 1, bb: 1, level: 1, est: 0b11, lis: 0b10, ahead: 0b01, ..Row::IDLE };
            rows[n - 1].turn = 1;
            let (long, short) = (image_of(&rows), short_image_of(&rows));
            assert_eq!((long.len(), short.len()), (5 * n + n * n, 5 * n));
            assert_eq!((long[0], short[0]), (0x81000000 + n as u32, 0x80000000 + n as u32));
            assert_eq!(long[1..5 * n], short[1..]);
            for image in [&long, &short] {
                let mut read = vec![OLD; n];
                assert_eq!(engine.read_image(image, &mut read), Reading { refusal: 0, place: 0, size: n as u16 });
                assert_eq!(read, rows);
                let mut written = vec![0xEE; long.len()];
                assert_eq!((engine.write_image(&read, &mut written), &written), (0, &long));
                let mut called = vec![0xEE; 4 * long.len()];
                assert_eq!((engine.call(&to_bytes(image), &mut called), called), (0, to_bytes(&long)));
            }
            let mut few = vec![0xEE; long.len() - 1];
            assert_eq!((engine.write_image(&rows, &mut few), few), (13, vec![0xEE; long.len() - 1]));
            assert_eq!(engine.call(&to_bytes(&short), &mut vec![0; 4 * long.len() - 1]), 13);
        }
    });
}

/// The words of passes stand row by row, each with both numbers.
#[test]
fn the_words_of_passes() {
    on_both(|engine| {
        let rows = table(&[10, 10, 10], &[(0, 1, 1), (0, 2, 0xFFFF), (1, 0, 3), (1, 2, 4), (2, 0, 0x8000), (2, 1, 6)]);
        let expected = [
            0xE0000000, 0xE0010001, 0xE002FFFF, 0xE1000003, 0xE1010000, 0xE1020004, 0xE2008000, 0xE2010006, 0xE2020000,
        ];
        let mut image = [0; 24];
        assert_eq!(engine.write_image(&rows, &mut image), 0);
        assert_eq!((image[0], &image[15..]), (0x81000003, &expected[..]));
        let mut read = vec![OLD; 3];
        assert_eq!(engine.read_image(&image, &mut read), Reading { refusal: 0, place: 0, size: 3 });
        assert_eq!(read, rows);
    });
}

#[test]
fn words_of_passes_that_are_refused() {
    let changed = |changes: &[(usize, u32)]| {
        let mut image = FRESH;
        changes.iter().for_each(|&(place, word)| image[place] = word);
        image
    };
    on_both(|engine| {
        // out of order: the first of two is at fault
        image_refused(engine, &changed(&[(11, 0xE1000000), (12, 0xE0010000)]), 11, 3);
        image_refused(engine, &changed(&[(10, 0xE0010000), (11, 0xE0000000)]), 10, 3);
        // kind, q, r and each spare bit
        for word in [0xD1000000, 0xF1000000, 0xE0000000, 0xE2000000, 0xE1010000, 0xE1020000] {
            image_refused(engine, &changed(&[(12, word)]), 12, 3);
        }
        for spare in 20..24 {
            image_refused(engine, &changed(&[(12, 0xE1000000 | 1 << spare)]), 12, 3);
            image_refused(engine, &changed(&[(10, 0xE0000000 | 1 << spare)]), 10, 3);
        }
        // of a process over itself: any count; 3 of the same word comes first, and so does an earlier word
        for count in [1, 256, 0x8000, 0xFFFF] {
            image_refused(engine, &changed(&[(10, 0xE0000000 + count)]), 10, 4);
            image_refused(engine, &changed(&[(13, 0xE1010000 + count)]), 13, 4);
            image_refused(engine, &changed(&[(10, 0xE0100000 + count)]), 10, 3);
            image_refused(engine, &changed(&[(10, 0xE0000000 + count), (11, 0)]), 10, 4);
            image_refused(engine, &changed(&[(9, 0), (10, 0xE0000000 + count)]), 9, 3);
        }
        assert_eq!(engine.text(&to_bytes(&changed(&[(13, 0xE1010001)]))), b"image 13 4\n");
    });
}

/// As many words as the header asks for; the place is where there is one too few or too many.
#[test]
fn lengths_of_both_forms() {
    on_both(|engine| {
        let long = |count: usize| [FRESH.as_slice(), &[0xE0000000; 3]].concat()[..count].to_vec();
        let short = |count: usize| [&SHORT_FRESH[..1], &long(17)[1..]].concat()[..count].to_vec();
        for count in [1, 9, 10, 11, 13, 15, 17] {
            image_refused(engine, &long(count), count.min(14) as u16, 2);
        }
        for count in [1, 9, 11, 14, 17] {
            image_refused(engine, &short(count), count.min(10) as u16, 2);
        }
    });
}

/// The event words of an input begin after as many words as its header asks for.
#[test]
fn inputs_of_both_forms() {
    on_both(|engine| {
        let printed = |words: &[&[u32]]| String::from_utf8(engine.text(&to_bytes(&words.concat()))).expect("a text");
        let come = "posts 2\n0 0 10 20 0 -\ndone 1\n";
        assert_eq!(printed(&[&FRESH, &[COME]]), come);
        assert_eq!(printed(&[&SHORT_FRESH, &[COME]]), come);
        // words of passes are no event words, and event words are none of passes
        assert_eq!(printed(&[&SHORT_FRESH, &FRESH[10..]]), "posts 2\nstop 0 8\n");
        assert_eq!(printed(&[&FRESH[..10], &[COME]]), "image 11 2\n");
        assert_eq!(printed(&[&FRESH[..10], &[COME; 4]]), "image 10 3\n");
    });
}

/// The most bytes are the image of sixteen with passes and 8,192 words.
#[test]
fn the_longest_input() {
    on_both(|engine| {
        let rows = fresh_rows(engine, 16);
        let input = |image: Vec<u32>, count: usize| to_bytes(&[image, vec![0x10000000; count]].concat());
        let call = |input: Vec<u8>| (input.len(), engine.call(&input, &mut [0; 1344]));
        assert_eq!(call(input(image_of(&rows), 8192)), (34_112, 8192 * 256));
        assert_eq!(call(input(image_of(&rows), 8193)), (34_116, 14));
        assert_eq!(call(input(short_image_of(&rows), 8193)), (33_092, 12));
        assert_eq!(call(input(short_image_of(&rows), 8448)), (34_112, 12));
        assert_eq!(call(input(short_image_of(&rows), 8449)), (34_116, 14));
    });
}

/// A fresh table has no passes, whatever its rows held.
#[test]
fn fresh_has_no_passes() {
    on_both(|engine| assert!(fresh_rows(engine, 16).iter().all(|row| row.passes == [0; 16])));
}

fn rounds(engine: &dyn Engine, rows: &[Row]) -> (Rounded, Vec<Row>) {
    let mut after = rows.to_vec();
    (engine.rounds(&mut after), after)
}

/// The round ends before the entry that meets 15, is not counted, and what its words did before stays.
#[test]
fn rounds_that_a_full_count_breaks() {
    on_both(|engine| {
        // process 0 rests again, 1 cannot enter since 3 competes, 2 and 3 have no word
        let rows = table(&[40, 20, 20, 21], &[(1, 3, 65_535)]);
        let mut expected = rows.clone();
        expected[0].loc = 10;
        let broken = |occupied| Rounded { refusal: 15, rounds: 0, occupied };
        assert_eq!(rounds(engine, &rows), (broken(0), expected));
        // process 0 comes to 30 first
        let rows = table(&[21, 20], &[(1, 0, 65_535)]);
        let mut expected = rows.clone();
        expected[0].loc = 30;
        assert_eq!(rounds(engine, &rows), (broken(1), expected));
        // process 2 would come to 30 afterwards
        let rows = table(&[24, 20, 21], &[(1, 0, 65_535)]);
        let (answer, after) = rounds(engine, &rows);
        assert_eq!((answer, after[0].loc, after[1], after[2]), (broken(0), 21, rows[1], rows[2]));
        // process 0 enters, and competes then
        let rows = table(&[20, 20], &[(1, 0, 65_535)]);
        let (answer, after) = rounds(engine, &rows);
        assert_eq!((answer, after[0].loc, after[1]), (broken(0), 21, rows[1]));
        // nor is the first word kept where it is the one
        let rows = table(&[20, 21], &[(0, 1, 65_535)]);
        assert_eq!(rounds(engine, &rows), (broken(0), rows));
    });
}

/// Full counts that no entry of the first round adds to break none.
#[test]
fn rounds_that_a_full_count_does_not_break() {
    on_both(|engine| {
        // process 1 enters after process 0, and not before it
        let rows = table(&[20, 20], &[(0, 1, 65_535)]);
        let (answer, after) = rounds(engine, &rows);
        assert_eq!((answer, after[0].passes[1]), (Rounded { refusal: 0, rounds: 11, occupied: 1 }, 65_535));
        assert_eq!(after[1].passes[0], 1);
        // nobody is at 20 to 24, or somebody at 30
        for (locations, occupied) in [([40, 10], 0), ([20, 30], 1), ([30, 20], 1)] {
            let rows = table(&locations, &[(0, 1, 65_535), (1, 0, 65_535)]);
            assert_eq!(rounds(engine, &rows), (Rounded { refusal: 0, rounds: 0, occupied }, rows), "{locations:?}");
        }
    });
}
