//! The walks through every table: their figures, what a fault on both sides breaks, and the control.

use reference::compare::{Answer, Case, Naive, Reference};
use reference::naive::{self, Fault};
use reference::walk::{control, most_needed, walk, Beside, Exchange, Figures, Finding, Found, Full};
use reference::walk::{Under, Visited, EVERY_OF_2, SHORTEST, TOO_LONG, UNTOLD, ZEROS_OF_2, ZEROS_OF_3};
use reference::{Ran, Rounded, Row, Tally};

#[test]
fn two_processes_from_zeros_and_from_every_fresh_table() {
    let beside = Beside { engine: &Reference, fault: Fault::None, again: true };
    for walk in [ZEROS_OF_2, EVERY_OF_2] {
        assert_eq!((walk.over)(&beside).expect("no difference"), walk.expected, "{}", walk.name);
    }
}

/// The same fault on both sides: they agree, and what is left is demand 3.
#[test]
fn a_fault_on_both_sides_breaks_demand_3() {
    let faults = [
        Fault::OwnRowStoreLostAtGo24,
        Fault::MoveKeepsBb,
        Fault::FallKeepsBb,
        Fault::Counts40With30,
        Fault::HeldAlsoAt24,
        // who cancels at 21 keeps bb, and enters with it again
        Fault::CancelAlsoAt21,
    ];
    for fault in faults {
        let found = (ZEROS_OF_2.over)(&Beside { engine: &Naive(fault), fault, again: true });
        let broken = matches!(&found, Err(Found { finding: Finding::Demand3(_), .. }));
        assert!(broken, "{fault:?}: {found:?}");
    }
}

/// They agree that a table is not sound, whose figures of 0 would meet demand 3.
#[test]
fn an_unsound_table_breaks_demand_3() {
    let unsound = [Row { turn: 1, ..Row::IDLE }, Row::IDLE];
    let found = walk(&[unsound], &Beside { engine: &Reference, fault: Fault::None, again: true });
    assert!(matches!(&found, Err(Found { finding: Finding::Demand3(_), .. })), "{found:?}");
}

/// The same fault on both sides: they agree, most of them on a wrong cell, and what is left is that the order of two
/// words matters which are not seen to clash.
#[test]
fn a_fault_on_both_sides_breaks_the_exchange() {
    let faults = [
        Fault::Go20UsesNone,
        Fault::Go40UsesNone,
        Fault::Go24UsesNone,
        Fault::Go24Reads,
        Fault::FlickerReads,
        Fault::FlickerTurnOfValue,
        Fault::LookReadsOwnAct,
        Fault::Go23ReadsLevelAfter,
        Fault::Go23LastCaseUsesNone,
        Fault::TurnOfProcess,
        // after it the table is not sound, and the other word is refused
        Fault::FlickerUpToN,
    ];
    for fault in faults.into_iter().chain(UNTOLD) {
        let found = (ZEROS_OF_2.over)(&Beside { engine: &Naive(fault), fault, again: true })
            .expect_err("an order that matters");
        let Finding::Exchange(cases) = &found.finding else { panic!("{fault:?}: {found:?}") };
        let [one, other] = cases.each_ref().map(|case| led_to(case, fault));
        assert_ne!(one, other, "{fault:?}");
    }
}

/// The refusal of a step, and the rows that it leads to, ahead sets and passes apart.
fn led_to(case: &Case, fault: Fault) -> (u16, Vec<Row>) {
    let Answer::Step { stepped, rows } = case.answer(&Naive(fault)) else { panic!("{case}") };
    (stepped.refusal, rows.inside.iter().map(|&row| Row { ahead: 0, ..row.without_passes() }).collect())
}

/// Where a cell is told that was not used, fewer words can be exchanged, and none wrongly.
#[test]
fn cells_too_many_leave_fewer_pairs() {
    for fault in [Fault::Go23FirstCaseReads, Fault::Go23To24Reads, Fault::CancelWritesAct] {
        let figures = (ZEROS_OF_2.over)(&Beside { engine: &Naive(fault), fault, again: true }).expect("no difference");
        assert!(figures.visited.exchange.apart < ZEROS_OF_2.expected.visited.exchange.apart, "{fault:?}: {figures:?}");
    }
}

/// The walks of two and of three processes meet what the exchange is about: orders that show in ahead sets, or in passes
/// too, and clashes with and without another table. No count is full.
#[test]
fn pairs_of_every_sort_are_met() {
    for walk in [ZEROS_OF_2, EVERY_OF_2, ZEROS_OF_3] {
        let Exchange { apart, ahead_differs, passes_differ, clashing, clash_differs, full } =
            walk.expected.visited.exchange;
        assert!(0 < ahead_differs && ahead_differs < apart, "{}", walk.name);
        assert!(0 < passes_differ && passes_differ < apart && full == 0, "{}", walk.name);
        assert!(0 < clash_differs && clash_differs < clashing, "{}", walk.name);
    }
}

/// The same fault on both sides: they agree, and what is left is that rounds lead nobody to 30, or too late, or are
/// done where none is asked for.
#[test]
fn a_fault_on_both_sides_breaks_the_bound() {
    let faults = [
        // somebody waits for good
        (Fault::LookKeepsIdle, 80, 0),
        (Fault::LookDropsBusy, 80, 0),
        (Fault::MoveAtEqualSize, 80, 0),
        (Fault::ActKeptAtGo40, 80, 0),
        (Fault::CancelTo10, 80, 0),
        (Fault::OneRoundMore, 12, 1),
        (Fault::PendingFrom21, 0, 0),
        (Fault::PendingAlsoAt40, 80, 0),
        (Fault::NobodyPendingUnseen, 80, 0),
        (Fault::RoundsTake40For30, 0, 1),
    ];
    assert!(TOO_LONG.iter().all(|control| faults.iter().any(|(fault, ..)| fault == control)));
    for (fault, rounds, occupied) in faults {
        let found = (ZEROS_OF_2.over)(&Beside { engine: &Naive(fault), fault, again: true })
            .expect_err("rounds that are wrong");
        let Finding::Silence(case) = &found.finding else { panic!("{fault:?}: {found:?}") };
        let Answer::Rounds { rounded, .. } = case.answer(&Naive(fault)) else { panic!("{case}") };
        assert_eq!(rounded, Rounded { refusal: 0, rounds, occupied }, "{fault:?}");
    }
}

/// Words with passes: every candidate with each of the sixteen pairs of counts, at every table; of the entries over a process
/// that competes one in four has a full count.
#[test]
fn passes_few_and_full_are_met() {
    for walk in [ZEROS_OF_2, EVERY_OF_2] {
        let Full { words, entries, exits, full } = walk.expected.visited.full;
        assert_eq!(words, 16 * (walk.expected.accepted + walk.expected.refused), "{}", walk.name);
        assert!(
            0 < full && full < entries && 0 < exits && (entries + full) % 16 == 0 && exits % 16 == 0 && full % 4 == 0
        );
    }
    assert_eq!(ZEROS_OF_3.expected.visited.full, Full::default());
}

/// Words under the other five settings: every candidate, at every table; of those that 0 and 0 accepts the others are
/// forbidden.
#[test]
fn words_under_every_setting_are_met() {
    for walk in [ZEROS_OF_2, EVERY_OF_2] {
        let Under { words, accepted, flickers, goes } = walk.expected.visited.under;
        assert_eq!(words, 5 * (walk.expected.accepted + walk.expected.refused), "{}", walk.name);
        assert_eq!(accepted + flickers + goes, 5 * walk.expected.accepted, "{}", walk.name);
        assert!(flickers > 0 && goes > 0, "{}", walk.name);
    }
    assert_eq!(ZEROS_OF_3.expected.visited.under, Under::default());
}

/// The most rounds that a walk must meet are as many as its processes can need; that it meets them is its own check.
#[test]
fn the_bound_is_met() {
    for (walk, n) in [(ZEROS_OF_2, 2), (EVERY_OF_2, 2), (ZEROS_OF_3, 3)] {
        assert_eq!(usize::from(walk.expected.visited.silence.most), most_needed(n), "{}", walk.name);
    }
}

#[test]
fn est_kept_at_go_24_lets_two_of_three_be_at_30() {
    let words_alone = Figures { visited: Visited::default(), ..ZEROS_OF_2.expected };
    assert_eq!(control::<2>().expect("never two at 30"), words_alone);

    let Found { start, words, .. } = control::<3>().expect_err("two at 30");
    assert_eq!((&start, words.len()), (&vec![Row::IDLE; 3], SHORTEST));
    let mut rows = start;
    let ran = naive::run(&mut rows, &words, &mut Tally::default(), 0, 0, Fault::EstKeptAtGo24);
    assert_eq!(ran, Ran { taken: SHORTEST as u32, ..Ran::default() });
    assert_eq!(rows.iter().filter(|row| row.loc == 30).count(), 2);
}
