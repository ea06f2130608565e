//! What each load of the benchmark claims of its words.

use reference::generate::loads::Load;
use reference::generate::schedule::deep_run;
use reference::word::{CANCEL, COME, FLICKER, GO, LOOK, STAY};
use reference::{Cell, Ran, Row, Settings, Tally};

const SIZES: [usize; 3] = [2, 5, 16];
const COUNTS: [usize; 2] = [64, 8192];

/// Each number of processes with each number of words.
fn each(mut check: impl FnMut(usize, usize)) {
    SIZES.into_iter().for_each(|n| COUNTS.into_iter().for_each(|count| check(n, count)));
}

fn kinds(words: &[u32], kind: u32) -> usize {
    words.iter().filter(|&word| word >> 28 == kind).count()
}

fn process(word: u32) -> usize {
    (word >> 16 & 0xFF) as usize
}

/// The rows after each word of a load.
fn tables(load: Load, n: usize, count: usize) -> Vec<Vec<Row>> {
    let (mut rows, words) = load.made(n, count);
    let mut after = |&word: &u32| {
        assert_eq!(reference::step_in(&mut rows, word, Settings::SAFE).refusal, 0);
        rows.clone()
    };
    words.iter().map(&mut after).collect()
}

fn away(rows: &[Row]) -> usize {
    rows.iter().filter(|row| row.loc != 10).count()
}

#[test]
fn all_are_accepted_or_the_first_is_refused() {
    for load in Load::ALL {
        each(|n, count| {
            let (mut rows, words) = load.made(n, count);
            assert_eq!((&rows, words.len()), (&vec![Row::IDLE; n], count));
            let ran = reference::run(&mut rows, &words, &mut Tally::default(), Settings::SAFE);
            if load == Load::RefusedFirst {
                assert_eq!(ran, Ran { taken: 0, refusal: 10, cell: Cell::NONE });
            } else {
                assert_eq!((ran.taken as usize, ran.refusal), (count, 0), "{load:?}, N = {n}");
            }
        });
    }
}

#[test]
fn the_shorter_load_begins_the_longer() {
    for load in Load::ALL {
        each(|n, count| assert_eq!(load.made(n, count).1, load.made(n, 8192).1[..count]));
    }
}

#[test]
fn names_differ() {
    let mut names = Load::ALL.map(Load::name);
    names.sort_unstable();
    assert!(names.windows(2).all(|two| two[0] != two[1]));
}

#[test]
fn mixed_is_a_deep_run_and_has_every_kind() {
    each(|n, count| assert_eq!(Load::Mixed.made(n, count), deep_run(1, n, count)));
    // of 16 nobody cancels
    for n in [2, 5] {
        let (_, words) = Load::Mixed.made(n, 8192);
        let counts = [STAY, COME, FLICKER, GO, LOOK, CANCEL].map(|kind| kinds(&words, kind));
        assert!(counts.iter().all(|&count| count > 0), "N = {n}: {counts:?}");
    }
}

#[test]
fn stays_are_of_each_process_in_turn() {
    each(|n, count| {
        let (_, words) = Load::Stays.made(n, count);
        assert_eq!(kinds(&words, STAY), count);
        assert!(words.iter().enumerate().all(|(i, &word)| process(word) == i % n && word & 0xFF == 0));
    });
}

/// A whole way from 10 to 10 is n + 7 words: n - 1 LOOKs, and eight others.
#[test]
fn one_by_one_is_a_whole_way_of_each() {
    each(|n, count| {
        let (_, words) = Load::OneByOne.made(n, count);
        assert!(words.iter().enumerate().all(|(i, &word)| process(word) == i / (n + 7) % n));
        let tables = tables(Load::OneByOne, n, count);
        assert!(tables.iter().all(|rows| away(rows) <= 1));
        for (way, rows) in tables.chunks_exact(n + 7).enumerate() {
            assert_eq!(rows.iter().filter(|rows| rows[way % n].loc == 30).count(), 1);
            assert_eq!(away(&rows[n + 6]), 0);
        }
    });
}

#[test]
fn all_at_once_come_first_and_are_rarely_at_10_again() {
    each(|n, count| {
        let (_, words) = Load::AllAtOnce.made(n, count);
        assert!((0..n).all(|p| words[p] >> 28 == COME && process(words[p]) == p));
        assert_eq!([STAY, FLICKER, CANCEL].map(|kind| kinds(&words, kind)), [0; 3]);
        let tables = tables(Load::AllAtOnce, n, count);
        let there: usize = tables[n..].iter().map(|rows| away(rows)).sum();
        assert!(4 * there > 3 * n * (count - n), "N = {n}: {there}");
    });
    for n in [2, 5] {
        let tables = tables(Load::AllAtOnce, n, 8192);
        assert!((0..n).all(|p| tables.iter().any(|rows| rows[p].loc == 30)));
    }
}

/// FLICKERs at 20, 24 and 40, in a run that goes on all the same.
#[test]
fn flickers_are_at_least_a_third() {
    each(|n, count| {
        let (_, words) = Load::Flickers.made(n, count);
        assert!(3 * kinds(&words, FLICKER) >= count, "N = {n}: {}", kinds(&words, FLICKER));
        assert_eq!([STAY, CANCEL].map(|kind| kinds(&words, kind)), [0; 2]);
    });
    for n in [2, 5] {
        let (words, tables) = (Load::Flickers.made(n, 8192).1, tables(Load::Flickers, n, 8192));
        for loc in [20, 24, 40] {
            let there = |(i, &word): (usize, &u32)| word >> 28 == FLICKER && tables[i][process(word)].loc == loc;
            assert!(words.iter().enumerate().any(there), "N = {n}, at {loc}");
        }
        assert!(tables.iter().any(|rows| rows.iter().any(|row| row.loc == 30)));
    }
}

#[test]
fn come_cancel_has_no_other_kind_but_go() {
    each(|n, count| {
        let (_, words) = Load::ComeCancel.made(n, count);
        let [comes, cancels, goes] = [COME, CANCEL, GO].map(|kind| kinds(&words, kind));
        assert_eq!(comes + cancels + goes, count);
        assert!(comes >= cancels && cancels >= goes && comes <= goes + n);
    });
}

#[test]
fn refused_first_is_mixed_after_its_first_word() {
    each(|n, count| {
        assert_eq!(Load::RefusedFirst.made(n, count).1[1..], Load::Mixed.made(n, count).1[1..]);
    });
}
