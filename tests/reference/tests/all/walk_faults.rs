//! The faults that a walk sees, of two processes or of three, and those that it does not.

use reference::compare::{Case, Naive, Reference};
use reference::naive::Fault;
use reference::walk::{
    Beside, Figures, Finding, Found, Full, Under, Visited, Walk, EVERY_OF_2, ZEROS_OF_2, ZEROS_OF_3,
};
use reference::{Row, Settings, Tally};

/// Seen by a walk of two processes from every fresh table, and so are those of a step's cell.
const SEEN: [Fault; 46] = [
    Fault::Counts40With30,
    Fault::AheadClearedAtGo40,
    Fault::OwnRowStoreLostAtGo24,
    Fault::WaitingFrom20,
    Fault::WaitingTo30,
    Fault::HeldAlsoAt24,
    Fault::OwnRowStoreLostAtFlicker,
    Fault::CompetingFrom20,
    Fault::CompetingTo40,
    Fault::AheadWithSelfAtGo20,
    Fault::AheadWithSelfAtGo24,
    Fault::AheadKeptAtGo24,
    Fault::LookKeepsIdle,
    Fault::LookDropsBusy,
    Fault::MoveAtEqualSize,
    Fault::MoveKeepsBb,
    Fault::FallKeepsBb,
    Fault::ActKeptAtGo40,
    Fault::Go22WithLisIsArgument,
    Fault::ArgumentBeforeAllowed,
    Fault::FlickerUpToN,
    Fault::ActClearedAtCancel,
    Fault::ActSetAtCancel,
    Fault::CancelTo10,
    Fault::CancelAlsoAt21,
    Fault::CancelAlsoAt40,
    Fault::CancelOfAnyArgument,
    Fault::StepRefusesKind6,
    // at level 1, an empty est and the turn of another both lead to level 0, bb 0 and 21: the cell tells them apart
    Fault::TurnBeforeSizeOfEst,
    Fault::RefusedWordUsesCell,
    Fault::RoundComesAt10,
    Fault::RoundFromTheLast,
    Fault::RoundAllAtOnce,
    Fault::RoundEndsAt30,
    Fault::RoundEndsAt30Uncounted,
    Fault::OneRoundFewer,
    Fault::OneRoundMore,
    Fault::PendingFrom21,
    Fault::PendingAlsoAt40,
    Fault::NobodyPendingUnseen,
    Fault::At30BeforehandUnseen,
    Fault::RoundsTake40For30,
    Fault::OccupiedBeforeTheLastRound,
    Fault::OccupiedBeforehandUntold,
    Fault::RoundsOnACopy,
    Fault::RoundsUnderOneWriter,
];

/// Seen by a walk of two processes from zeros, where tables have passes that are few.
const SEEN_WITH_PASSES: [Fault; 10] = [
    Fault::PassesOfTheOther,
    Fault::PassesCountedAtCome,
    Fault::PassesCountedAtGo24,
    Fault::PassesOverThoseAt20,
    Fault::PassesOverItself,
    Fault::PassesClearedAtGo40,
    Fault::PassesOfLeaverCleared,
    Fault::PassesOfLeaverClearedToo,
    Fault::PassesClearedOfCompeting,
    Fault::PassesNotCleared,
];

/// And where they have passes that are full.
const SEEN_WITH_FULL: [Fault; 6] = [
    Fault::FullBeforeArgument,
    Fault::FullBeforeAllowed,
    Fault::FullAt65534,
    Fault::CountsWrap,
    Fault::CountsStayFull,
    Fault::FullOverAnyone,
];

/// Seen by a walk of two processes from zeros, where words are given under every setting.
const SEEN_UNDER_SETTINGS: [Fault; 25] = [
    Fault::ActPlainForbidsTurn,
    Fault::ActPlainOnlyAt20,
    Fault::ActPlainOnlyAt40,
    Fault::ActPlainForbidsNothing,
    Fault::TurnPlainForbidsAct,
    Fault::TurnPlainForbidsNothing,
    Fault::OneWriterForbidsFlicker,
    Fault::OneWriterWhereEstIsFew,
    Fault::OneWriterWhereBb,
    Fault::OneWriterAtAnyGo23,
    Fault::OneWriterSeesItself,
    Fault::OneWriterSeesLowerOnes,
    Fault::OneWriterLooksAt23,
    Fault::OneWriterAlsoAt23,
    Fault::OneWriterUnasked,
    Fault::PlainAsksForOneWriter,
    Fault::ForbiddenFlickerBeforeArgument,
    Fault::ForbiddenGoBeforeArgument,
    Fault::ForbiddenFlickerBeforeAllowed,
    Fault::SixteenAndSeventeenSwapped,
    Fault::ForbiddenGoIs16,
    Fault::ForbiddenWordMoves,
    Fault::ForbiddenWordUsesCell,
    Fault::StepUnderSafe,
    Fault::SettingsSwapped,
];

/// Faults of settings that a walk of two does not see, as is tried from zeros.
const UNSEEN_OF_SETTINGS: [Fault; 28] = [
    // of two, every process at 23 or 24 has level 1
    Fault::OneWriterOfAnyLevel,
    // words go to the step one by one
    Fault::ForbiddenWordTaken,
    Fault::ForbiddenWordTallied,
    Fault::ForbiddenWordSkipped,
    Fault::RunUnderSafe,
    Fault::CallUnderSafe,
    Fault::TextUnderPlain,
    Fault::TextUnderOneWriter,
    // they are given under the six settings, and every table is sound
    Fault::ActOfLowBit,
    Fault::ActOfOneByte,
    Fault::TurnOfTwoBits,
    Fault::TurnOfTwoBytes,
    Fault::ActOf2Taken,
    Fault::TurnOf3Taken,
    Fault::OneWrongSettingTaken,
    Fault::SettingsBeforeRowCount,
    Fault::SettingsBeforeRows,
    Fault::SettingsAfterForm,
    Fault::SettingsUnaskedWithoutWords,
    Fault::RunSettingsAfterWordCount,
    Fault::SettingsBeforeBytes,
    Fault::SettingsBeforeImage,
    Fault::CallSettingsAfterWordCount,
    Fault::SettingsAfterLent,
    Fault::WrongSettingsKeepTally,
    Fault::WrongSettingsMoveRows,
    Fault::WrongSettingsWriteImage,
    Fault::WrongSettingsClearLent,
];

/// Seen by a walk of three processes only. Of two, the level is at most 1 and est has at most the other one in it.
const SEEN_OF_3: [Fault; 4] = [
    // at 24, and at 21 with level 1, est is all others
    Fault::EstKeptAtGo24,
    Fault::LisFromEveryone,
    // no level 2
    Fault::FallsTwoLevels,
    Fault::TurnComparedAtLevelBelow,
];

/// Not seen by a walk of two, as is tried, nor by one of three, for the reasons given.
const UNSEEN: [Fault; 82] = [
    // no table that is reached has a process in its own ahead
    Fault::OwnAheadKeptAtGo30,
    // nor a process at 20 in an ahead set
    Fault::AheadClearedAtCancel,
    // every word has a kind from 1 to 6, no spare bits, and a process of the table
    Fault::ProcessBeforeForm,
    Fault::StepTakesKind7,
    // words go to the step one by one: there is no list of them, no tally and no cell of a run
    Fault::StayCountsAsCome,
    Fault::CancelCountsAsCome,
    Fault::TallyKeptOnRefusal,
    Fault::GoesOnPastRefusal,
    Fault::OneWordFewer,
    Fault::OneWordMore,
    Fault::RunCellOfFirstWord,
    Fault::RunCellKeptByNone,
    Fault::RunCellLostOnStop,
    Fault::RunCellOfRefusedWord,
    // every table is sound and has two or three rows
    Fault::FirstTurnUnchecked,
    Fault::RowCountAfterRows,
    Fault::RoundsClearRefusedRows,
    Fault::OwnPassesInRows,
    Fault::PassesPastNInRows,
    // of two, lis has one member at most at 22; rounds of three are compared with the reference
    Fault::LooksAtHighest,
    // rounds are done without passes
    Fault::RoundsGoOnPast15,
    Fault::BrokenRoundCounted,
    Fault::BrokenRoundUndone,
    Fault::BrokenRoundNeverOccupied,
    // rounds lead to 30 long before the limit, and one process alone
    Fault::LimitWithNAnd2,
    Fault::LimitOneLess,
    Fault::LimitOneMore,
    Fault::OccupiedIsANumber,
    // of two, there is nobody else over whom a refused word could count
    Fault::FullCountsTheOthers,
    // the call on bytes is not made
    Fault::NoImageOnStop,
    Fault::LentBeforeWordCount,
    Fault::LentMustBeWords,
    Fault::ImageFillsAllLent,
    Fault::ByteLimitIgnored,
    Fault::OddBytesDropped,
    Fault::ByteLimitWithoutPasses,
    Fault::CutWithoutPasses,
    // no image is read or written
    Fault::LengthAfterWords,
    Fault::RangeBeforeForm,
    Fault::Level30IsLevel,
    Fault::SpareBitsOfStateIgnored,
    Fault::PlaceFromImageStart1,
    Fault::ReadLentBeforeWords,
    Fault::ReadClearsRowsFirst,
    Fault::ReadClearsRowsPastTheTable,
    Fault::ReadAsksFor16Rows,
    Fault::ReadSizeWith13,
    Fault::WritesPartWhenShort,
    Fault::WritesOneWordMore,
    Fault::OwnPassesInImage,
    Fault::OwnPassesAreForm,
    Fault::SpareBitsOfPassesIgnored,
    Fault::PassWordsTurnedAbout,
    Fault::PassWordsByColumn,
    Fault::ShortFormWritten,
    Fault::ShortFormRefused,
    Fault::ShortFormKeepsPasses,
    Fault::LentWithoutPasses,
    // no engine is asked for a fresh table, to take a word apart or to put one together, or to print
    Fault::FreshOf17Rows,
    Fault::FreshKeepsWhatMayBeAnything,
    Fault::FreshKeepsPasses,
    Fault::ApartKeepsPartsOnRefusal,
    Fault::TogetherKeepsWordOnRefusal,
    Fault::TogetherCutsTheArgument,
    Fault::ApartRefusesKind6,
    Fault::ApartTakesKind7,
    Fault::TogetherRefusesKind6,
    Fault::TogetherTakesKind7,
    Fault::FigureFrom0,
    Fault::FigureKeptFrom30To40,
    Fault::FigureLoweredFrom40To10,
    Fault::FigureRaisedFrom21To22,
    Fault::FigureBeforeTheWord,
    Fault::PrintedNoneLeftOut,
    Fault::PrintedCellWithoutIndex,
    Fault::PrintedIndexOfOneDigit,
    Fault::PrintedTurnAsAct,
    Fault::PrintedCellOfWordBefore,
    Fault::PrintPartWhenShort,
    Fault::PrintZeroAfterText,
    Fault::PrintAnswers0WhenShort,
    Fault::PrintNeedsOneByteMore,
];

#[test]
fn every_fault_is_in_one_list() {
    let cells: Vec<Fault> = Fault::of_step_cells().collect();
    for fault in Fault::ALL {
        let with_passes = [&SEEN_WITH_PASSES[..], &SEEN_WITH_FULL];
        let of_settings = [&SEEN_UNDER_SETTINGS[..], &UNSEEN_OF_SETTINGS];
        let lists = [&SEEN[..], &cells, &SEEN_OF_3, &UNSEEN].into_iter().chain(with_passes).chain(of_settings);
        let lists = lists.filter(|list| list.contains(&fault)).count();
        assert_eq!(lists, 1, "{fault:?}");
    }
}

/// The reference and the model with the fault differ where the words lead to, passes apart, on that very case.
fn differs(found: Found<Finding>, fault: Fault) {
    let Finding::Difference(case) = found.finding else { panic!("{fault:?}: {found:?}") };
    assert_ne!(case.answer(&Reference), case.answer(&Naive(fault)), "{fault:?}");
    let (Case::Step { rows, .. } | Case::Census { rows } | Case::Rounds { rows }) = *case else {
        panic!("{fault:?}: {case}")
    };
    let mut led_to = found.start;
    let ran = reference::run(&mut led_to, &found.words, &mut Tally::default(), Settings::SAFE);
    let apart = |rows: Vec<Row>| rows.into_iter().map(Row::without_passes).collect::<Vec<_>>();
    assert_eq!((ran.refusal, apart(led_to)), (0, apart(rows)), "{fault:?}");
}

#[test]
fn faults_that_two_processes_show() {
    for fault in SEEN.into_iter().chain(Fault::of_step_cells()) {
        let found = (EVERY_OF_2.over)(&Beside { engine: &Reference, fault, again: false });
        differs(found.expect_err(&format!("{fault:?} is seen")), fault);
    }
}

/// Those of full counts and of settings are not seen where no word is given again with such, or under such.
#[test]
fn faults_that_words_given_again_show() {
    for fault in SEEN_WITH_PASSES.into_iter().chain(SEEN_WITH_FULL).chain(SEEN_UNDER_SETTINGS) {
        let found = (ZEROS_OF_2.over)(&Beside { engine: &Reference, fault, again: true });
        differs(found.expect_err(&format!("{fault:?} is seen")), fault);
    }
    for fault in SEEN_WITH_FULL.into_iter().chain(SEEN_UNDER_SETTINGS) {
        let figures = (ZEROS_OF_2.over)(&Beside { engine: &Reference, fault, again: false });
        assert_eq!(figures.expect("no difference"), not_again(&ZEROS_OF_2), "{fault:?}");
    }
}

/// What a walk counts that gives no words again.
fn not_again(walk: &Walk) -> Figures {
    let Figures { visited, .. } = walk.expected;
    let visited = Visited { full: Full::default(), under: Under::default(), ..visited };
    Figures { visited, ..walk.expected }
}

#[test]
fn faults_that_only_three_processes_show() {
    for fault in SEEN_OF_3 {
        let found = (ZEROS_OF_3.over)(&Beside { engine: &Reference, fault, again: true });
        differs(found.expect_err(&format!("{fault:?} is seen")), fault);
    }
}

/// Every second fault that two processes do not show, so that two tests run beside each other.
fn not_shown_by_two(first: usize) {
    for fault in SEEN_OF_3.into_iter().chain(UNSEEN).skip(first).step_by(2) {
        let figures = (EVERY_OF_2.over)(&Beside { engine: &Reference, fault, again: false });
        assert_eq!(figures.expect("no difference"), not_again(&EVERY_OF_2), "{fault:?}");
    }
    for fault in SEEN_OF_3.into_iter().chain(UNSEEN).chain(UNSEEN_OF_SETTINGS).skip(first).step_by(2) {
        let figures = (ZEROS_OF_2.over)(&Beside { engine: &Reference, fault, again: true });
        assert_eq!(figures.expect("no difference"), ZEROS_OF_2.expected, "{fault:?}");
    }
}

#[test]
fn faults_that_two_processes_do_not_show() {
    not_shown_by_two(0);
}

#[test]
fn the_other_half_of_them() {
    not_shown_by_two(1);
}
