//! How often one process of two overtakes the other, under each turn setting; and that the search would find more.

use reference::compare::{Naive, Reference};
use reference::generate::tables::sound_table;
use reference::generate::Random;
use reference::naive::Fault;
use reference::overtaking::{is_expected, of_2, pack, under, unpack, Overtaken, Set, CUT_OF_2, CUT_OF_3};
use reference::Row;
use std::collections::HashSet;

/// What two processes meet, without cancels and with them, under each turn setting.
const MET: [[Overtaken; 2]; 3] = [
    [
        Overtaken { tables: 27_904, words: 133_240, largest: 8, after: 113 },
        Overtaken { tables: 64_256, words: 379_776, largest: 8, after: 113 },
    ],
    [
        Overtaken { tables: 25_468, words: 125_680, largest: 2, after: 23 },
        Overtaken { tables: 61_820, words: 371_936, largest: 2, after: 23 },
    ],
    [
        Overtaken { tables: 25_370, words: 124_482, largest: 2, after: 23 },
        Overtaken { tables: 61_728, words: 370_032, largest: 2, after: 23 },
    ],
];

#[test]
fn two_processes_under_each_turn_setting() {
    for (turn, met) in (0..).zip(MET) {
        for (cancels, met) in [false, true].into_iter().zip(met) {
            assert_eq!(of_2(turn, cancels, &Reference, |_| ()), met, "turn {turn}, cancels {cancels}");
            assert!(is_expected(turn, CUT_OF_2, &met));
        }
    }
}

/// Wherever counts are cut off, that count is met under a write-safe turn, 15 words after the one before from 2 on; and under
/// the other settings a higher cut makes no difference.
#[test]
fn where_counts_are_cut_off() {
    let zeros = [[Row::IDLE; 2]];
    let over = |turn, cut| under(turn, true, cut).over(&zeros, &Reference, |_| ());
    for (cut, after) in [(1, 4), (2, 23), (3, 38), (4, 53), (15, 218)] {
        let Overtaken { largest, after: first, .. } = over(0, cut);
        assert_eq!((largest, first), (cut, after));
    }
    for turn in [1, 2] {
        assert_eq!(over(turn, 3), over(turn, 15));
        assert_eq!((over(turn, 3).largest, over(turn, 3).after), (2, 23));
    }
}

/// The naive model agrees; with a fault that lets both write turn at once, or flicker it, there is no bound.
#[test]
fn settings_that_forbid_nothing_are_found() {
    let naive = |turn, fault| of_2(turn, false, &Naive(fault), |_| ());
    assert_eq!(naive(1, Fault::None), MET[1][0]);
    for (turn, fault) in [(1, Fault::OneWriterUnasked), (2, Fault::TurnPlainForbidsNothing)] {
        let overtaken = naive(turn, fault);
        assert_eq!(overtaken, MET[0][0], "{fault:?}");
        assert!(!is_expected(turn, CUT_OF_2, &overtaken));
    }
    // under a write-safe turn the cut must be met
    assert!(!is_expected(0, CUT_OF_2, &MET[1][0]) && !is_expected(2, CUT_OF_3, &MET[0][0]));
}

/// Tables come out of their numbers as they went in, ahead sets apart, and different tables have different numbers.
fn packs<const N: usize>(cut: u16) {
    let mut rng = Random::new(N as u64);
    let mut met = HashSet::new();
    for _ in 0..2_000 {
        let mut rows: [Row; N] = sound_table(&mut rng, N).try_into().expect("N rows");
        rows.iter_mut().flat_map(|row| &mut row.passes).for_each(|count| *count = cut.min(*count));
        let without_ahead = rows.map(|row| Row { ahead: 0, ..row });
        assert_eq!((pack(&rows), unpack(pack(&rows))), (pack(&without_ahead), without_ahead));
        met.insert(pack(&rows));
    }
    assert!(met.len() > 1_500, "{}", met.len());
}

#[test]
fn tables_in_numbers() {
    packs::<2>(CUT_OF_2);
    packs::<3>(CUT_OF_3);
}

#[test]
#[should_panic(expected = "a table that does not fit its bits")]
fn a_count_that_is_too_large_has_no_number() {
    let mut rows = [Row::IDLE; 3];
    rows[0].passes[1] = 4;
    pack(&rows);
}

#[test]
fn a_set_of_tables() {
    let mut rng = Random::new(1);
    let (mut set, mut other) = (Set::default(), HashSet::new());
    for _ in 0..400_000 {
        let table = rng.below(300_000) as u64;
        assert_eq!(set.insert(table), other.insert(table));
    }
    assert_eq!(set.count(), other.len());
}
