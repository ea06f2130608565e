//! The plain engine against the naive model and against the tuned engine, and the generated cases against the faults that
//! they must see.

use reference::compare::{make_case, shrink, Case, Counts, Engine, Kind, Naive, Reference, Tuned};
use reference::generate::inputs::{image_of, short_image_of, to_bytes};
use reference::generate::Random;
use reference::naive::Fault;
use reference::{Row, Settings};

/// The first case of a seed on which the reference and another engine differ, among `rounds` of each kind.
fn first_difference(seed: u64, rounds: u64, other: &dyn Engine, mut note: impl FnMut(&Case)) -> Option<Case> {
    let kinds = Kind::ALL.len() as u64;
    (0..rounds * kinds).find_map(|number| {
        let kind = Kind::ALL[(number % kinds) as usize];
        let case = make_case(&mut Random::of_case(seed, number), kind);
        note(&case);
        (case.answer(&Reference) != case.answer(other)).then_some(case)
    })
}

/// Shows a case on which they differ, made small.
fn show(case: Case, other: &dyn Engine) -> ! {
    let small = shrink(case, &|case| case.answer(&Reference) != case.answer(other));
    panic!("{small}\nreference: {}\n{}: {}", small.answer(&Reference), other.name(), small.answer(other));
}

#[test]
fn the_two_models_agree() {
    let mut counts = Counts::default();
    let seed = 2009;
    let other = Naive(Fault::None);
    let difference = first_difference(seed, 8_000, &other, |case| counts.note(case, &case.answer(&Reference)));
    if let Some(case) = difference {
        show(case, &other);
    }
    println!("{}", counts.report(seed));
    assert_eq!(counts.unseen(), Vec::<String>::new());
    assert!(counts.met()[1..].iter().all(|&met| met > 0));
    // deep for every number of processes: 24, 30 and 40
    for n in 2..=16 {
        assert!(counts.visits[n][5..].iter().all(|&visits| visits > 300), "{n}: {:?}", counts.visits[n]);
    }
}

/// On cases of another seed, so that the tuned engine is not only tried where the plain one is.
#[test]
fn the_tuned_engine_agrees() {
    if let Some(case) = first_difference(2010, 8_000, &Tuned, |_| ()) {
        show(case, &Tuned);
    }
}

#[test]
fn every_fault_is_seen() {
    for fault in Fault::ALL {
        let mut cases = 0;
        let found = first_difference(1, 4_000, &Naive(fault), |_| cases += 1);
        let found = found.unwrap_or_else(|| panic!("{fault:?} is not seen"));
        println!("{fault:?}: seen by {:?}, case {cases}", found.kind());
    }
}

/// The errors that move rows wrongly are seen by the call from C alone, so that a host without lent rows sees them too.
#[test]
fn the_call_from_c_sees_wrong_moves() {
    let moves = [
        Fault::EstKeptAtGo24,
        Fault::TurnBeforeSizeOfEst,
        Fault::AheadClearedAtGo40,
        Fault::OwnRowStoreLostAtGo24,
        Fault::OwnRowStoreLostAtFlicker,
        Fault::ActClearedAtCancel,
        Fault::ActSetAtCancel,
        Fault::AheadClearedAtCancel,
        Fault::CancelTo10,
        Fault::CancelAlsoAt21,
        Fault::CancelAlsoAt40,
    ];
    for fault in moves {
        let seen = (0..20_000).any(|number| {
            let case = make_case(&mut Random::of_case(5, number), Kind::Call);
            case.answer(&Reference) != case.answer(&Naive(fault))
        });
        assert!(seen, "{fault:?} is not seen");
    }
}

/// So are they by rounds, but for those of words that no round has; and those of rounds by nothing else.
#[test]
fn rounds_see_wrong_moves() {
    let moves = [
        Fault::EstKeptAtGo24,
        Fault::TurnBeforeSizeOfEst,
        Fault::OwnRowStoreLostAtGo24,
        Fault::AheadKeptAtGo24,
        Fault::AheadWithSelfAtGo20,
        Fault::CompetingFrom20,
        Fault::CompetingTo40,
        Fault::LookKeepsIdle,
        Fault::FallsTwoLevels,
        Fault::LisFromEveryone,
        Fault::ActKeptAtGo40,
    ];
    for fault in moves.into_iter().chain(Fault::of_rounds()) {
        assert!(seen_by(Kind::Rounds, fault, 4_000).is_some(), "{fault:?} is not seen");
    }
    for kind in Kind::ALL.into_iter().filter(|&kind| kind != Kind::Rounds) {
        assert!(Fault::of_rounds().all(|fault| seen_by(kind, fault, 20).is_none()), "{kind:?}");
    }
}

/// A cell that is told wrongly is seen by the step, by the run and by the text, each by itself.
#[test]
fn step_run_and_text_see_wrong_cells() {
    for (fault, kind) in Fault::of_step_cells().flat_map(|fault| TELL_CELLS.map(|kind| (fault, kind))) {
        assert!(seen_by(kind, fault, 8_000).is_some(), "{fault:?} is not seen by {kind:?}");
    }
    // the call from C does not tell a cell
    assert!(Fault::of_step_cells().all(|fault| seen_by(Kind::Call, fault, 200).is_none()));
}

/// Passes that are counted or cleared wrongly are seen by the step, by the run, by the call from C and, but for those of
/// words that no round has, by rounds.
#[test]
fn step_run_call_and_rounds_see_wrong_passes() {
    let at_entry = [
        Fault::PassesOfTheOther,
        Fault::PassesOverThoseAt20,
        Fault::PassesOverItself,
        Fault::PassesCountedAtCome,
        Fault::PassesCountedAtGo24,
        Fault::FullAt65534,
        Fault::CountsWrap,
        Fault::CountsStayFull,
        Fault::FullOverAnyone,
        Fault::FullCountsTheOthers,
    ];
    let at_exit = [
        Fault::PassesClearedAtGo40,
        Fault::PassesOfLeaverCleared,
        Fault::PassesOfLeaverClearedToo,
        Fault::PassesClearedOfCompeting,
        Fault::PassesNotCleared,
    ];
    for (fault, kind) in at_entry.into_iter().flat_map(|fault| MOVE.map(|kind| (fault, kind))) {
        assert!(seen_by(kind, fault, 20_000).is_some(), "{fault:?} is not seen by {kind:?}");
    }
    for (fault, kind) in at_exit.into_iter().flat_map(|fault| MOVE[..3].iter().map(move |&kind| (fault, kind))) {
        assert!(seen_by(kind, fault, 20_000).is_some(), "{fault:?} is not seen by {kind:?}");
    }
}

/// Words that are forbidden wrongly, or not, are seen by the step, by the run and by the call from C; texts and rounds have
/// no settings.
#[test]
fn step_run_and_call_see_what_is_forbidden_wrongly() {
    let words = || Fault::of_settings().take_while(|&fault| fault != Fault::ForbiddenWordMoves);
    for (fault, kind) in words().flat_map(|fault| MOVE[..3].iter().map(move |&kind| (fault, kind))) {
        assert!(seen_by(kind, fault, 40_000).is_some(), "{fault:?} is not seen by {kind:?}");
    }
    for kind in [Kind::Text, Kind::Print, Kind::Rounds] {
        assert!(words().all(|fault| seen_by(kind, fault, 100).is_none()), "{kind:?}");
    }
}

const MOVE: [Kind; 4] = [Kind::Step, Kind::Run, Kind::Call, Kind::Rounds];

const TELL_CELLS: [Kind; 4] = [Kind::Step, Kind::Run, Kind::Print, Kind::Text];

/// The first case of a kind on which a fault shows, among so many.
fn seen_by(kind: Kind, fault: Fault, cases: u64) -> Option<Case> {
    (0..cases).map(|number| make_case(&mut Random::of_case(7, number), kind)).find(shows(fault))
}

fn shows(fault: Fault) -> impl Fn(&Case) -> bool {
    move |case| case.answer(&Reference) != case.answer(&Naive(fault))
}

/// The first case of a kind on which a fault shows, and which can be run, made small.
fn made_small(kind: Kind, fault: Fault) -> Case {
    let cases = (0..20_000).map(|number| make_case(&mut Random::of_case(7, number), kind));
    let runs = |case: &Case| !matches!(case.answer(&Reference).refusal(), 1..=5 | 14);
    let case = cases.filter(runs).find(shows(fault)).expect("a difference");
    shrink(case, &shows(fault))
}

#[test]
fn a_difference_is_made_small() {
    let small = made_small(Kind::Call, Fault::OwnRowStoreLostAtGo24);
    let bytes = match &small {
        Case::Call { input, .. } => input.bytes.len(),
        _ => 0,
    };
    assert_eq!(bytes, 4 * 11, "not two processes and one GO: {small}");
}

#[test]
fn a_difference_in_what_c_lends_and_gets_is_made_small() {
    let small = made_small(Kind::ReadImage, Fault::ReadClearsRowsPastTheTable);
    let rows = matches!(&small, Case::ReadImage { words, rows } if words.len() == 10 && rows.len() == 3);
    assert!(rows, "not an image of two and one row more: {small}");
    let small = made_small(Kind::Print, Fault::PrintZeroAfterText);
    let text = matches!(&small, Case::Print { input, .. } if input.bytes.len() == 40 && input.lent == 16);
    assert!(text, "not two processes, no words and one byte more: {small}");
    let small = made_small(Kind::Rounds, Fault::PendingFrom21);
    assert_eq!(small, Case::Rounds { rows: vec![Row::IDLE, Row { loc: 20, ..Row::IDLE }] });
    let small = made_small(Kind::PutTogether, Fault::TogetherKeepsWordOnRefusal);
    assert_eq!(small, Case::PutTogether { kind: 0, process: 0, argument: 1 });
}

#[test]
fn a_difference_in_passes_is_made_small() {
    let small = made_small(Kind::Step, Fault::FullCountsTheOthers);
    let Case::Step { rows, word, .. } = &small else { panic!("{small}") };
    let full = rows.iter().filter(|row| row.passes.iter().filter(|&&count| count != 0).eq([&65_535])).count();
    assert_eq!((rows.len(), full, word >> 28), (3, 1, 4), "not a full count beside one that is not: {small}");
    let small = made_small(Kind::Call, Fault::ShortFormRefused);
    let fresh = vec![Row::IDLE; 2];
    assert!(matches!(&small, Case::Call { input, .. } if input.bytes == to_bytes(&short_image_of(&fresh))), "{small}");
    let small = made_small(Kind::ReadImage, Fault::PassWordsTurnedAbout);
    let Case::ReadImage { words, .. } = &small else { panic!("{small}") };
    // up to the passes of 0 over 1, with which they disagree
    assert_eq!((words.len(), &words[..12]), (14, &image_of(&fresh)[..12]), "{small}");
}

#[test]
fn a_difference_in_settings_is_made_small() {
    let small = made_small(Kind::Step, Fault::ActOfOneByte);
    let rows = vec![Row::IDLE; 2];
    let Case::Step { word, settings, .. } = small else { panic!("{small}") };
    assert_eq!(small, Case::Step { rows: rows.clone(), word, settings });
    assert!(settings.act.is_power_of_two() && settings.act >= 0x100 && settings.turn == 0, "{settings}");
    let small = made_small(Kind::Run, Fault::OneWriterUnasked);
    let Case::Run { rows, words, settings, .. } = &small else { panic!("{small}") };
    let others = rows.iter().filter(|&&row| row != Row::IDLE).count();
    assert_eq!((others, words.len(), settings), (2, 1, &Settings::of(0, 1)), "{small}");
    let small = made_small(Kind::Call, Fault::TurnPlainForbidsNothing);
    let Case::Call { input, settings, .. } = &small else { panic!("{small}") };
    assert_eq!((input.bytes.len(), settings), (4 * 11, &Settings::of(0, 2)), "{small}");
}
