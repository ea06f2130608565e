//! The errors that can be put into the model.

/// Each fault is named once, and stands in the list of all.
macro_rules! faults {
    ($($name:ident,)*) => {
        /// One error put into the model; the first group is of errors that are near, the third of CANCEL and the kinds,
        /// the fourth of the printed number at 30, which may be carried wrongly, the fifth of the shared cell that a step,
        /// a run and a line tell, the sixth of rounds, the seventh of passes, the eighth of settings, the last that of
        /// memory lent by C and of answers in records.
        #[derive(Clone, Copy, Debug, PartialEq, Eq)]
        pub enum Fault {
            None,
            $($name,)*
        }

        impl Fault {
            pub const ALL: [Fault; [$(Fault::$name,)*].len()] = [$(Fault::$name,)*];
        }
    };
}

faults! {
    Counts40With30,
    EstKeptAtGo24,
    TurnBeforeSizeOfEst,
    AheadClearedAtGo40,
    OwnRowStoreLostAtGo24,
    WaitingFrom20,
    WaitingTo30,
    HeldAlsoAt24,

    OwnRowStoreLostAtFlicker,
    CompetingFrom20,
    CompetingTo40,
    AheadWithSelfAtGo20,
    AheadWithSelfAtGo24,
    AheadKeptAtGo24,
    OwnAheadKeptAtGo30,
    LookKeepsIdle,
    LookDropsBusy,
    MoveAtEqualSize,
    MoveKeepsBb,
    FallKeepsBb,
    FallsTwoLevels,
    TurnComparedAtLevelBelow,
    ActKeptAtGo40,
    LisFromEveryone,
    Go22WithLisIsArgument,
    ArgumentBeforeAllowed,
    ProcessBeforeForm,
    FlickerUpToN,
    StayCountsAsCome,
    TallyKeptOnRefusal,
    NoImageOnStop,
    GoesOnPastRefusal,
    OneWordFewer,
    OneWordMore,
    LentBeforeWordCount,
    LentMustBeWords,
    ImageFillsAllLent,
    ByteLimitIgnored,
    OddBytesDropped,
    FirstTurnUnchecked,
    LengthAfterWords,
    RangeBeforeForm,
    Level30IsLevel,
    SpareBitsOfStateIgnored,
    PlaceFromImageStart1,
    RowCountAfterRows,

    ActClearedAtCancel,
    ActSetAtCancel,
    AheadClearedAtCancel,
    CancelTo10,
    CancelAlsoAt21,
    CancelAlsoAt40,
    CancelOfAnyArgument,
    CancelCountsAsCome,
    StepRefusesKind6,
    StepTakesKind7,
    ApartRefusesKind6,
    ApartTakesKind7,
    TogetherRefusesKind6,
    TogetherTakesKind7,

    FigureFrom0,
    FigureKeptFrom30To40,
    FigureLoweredFrom40To10,
    FigureRaisedFrom21To22,
    FigureBeforeTheWord,

    Go20UsesNone,
    Go40UsesNone,
    Go24UsesNone,
    Go24Reads,
    FlickerReads,
    FlickerAt24UsesNone,
    FlickerTurnOfValue,
    LookReadsOwnAct,
    Go23FirstCaseReads,
    Go23To24Reads,
    Go23ReadsLevelAfter,
    Go23LastCaseUsesNone,
    Go23UsesNone,
    TurnOfProcess,
    CancelWritesAct,
    RefusedWordUsesCell,
    RunCellOfFirstWord,
    RunCellKeptByNone,
    RunCellLostOnStop,
    RunCellOfRefusedWord,
    PrintedNoneLeftOut,
    PrintedCellWithoutIndex,
    PrintedIndexOfOneDigit,
    PrintedTurnAsAct,
    PrintedCellOfWordBefore,

    LooksAtHighest,
    RoundComesAt10,
    RoundFromTheLast,
    RoundAllAtOnce,
    RoundEndsAt30,
    RoundEndsAt30Uncounted,
    OneRoundFewer,
    OneRoundMore,
    LimitWithNAnd2,
    LimitOneLess,
    LimitOneMore,
    PendingFrom21,
    PendingAlsoAt40,
    NobodyPendingUnseen,
    At30BeforehandUnseen,
    RoundsTake40For30,
    OccupiedBeforeTheLastRound,
    OccupiedBeforehandUntold,
    OccupiedIsANumber,
    RoundsOnACopy,
    RoundsClearRefusedRows,
    RoundsGoOnPast15,
    BrokenRoundCounted,
    BrokenRoundUndone,
    BrokenRoundNeverOccupied,

    PassesOfTheOther,
    PassesCountedAtCome,
    PassesCountedAtGo24,
    PassesOverThoseAt20,
    PassesOverItself,
    PassesClearedAtGo40,
    PassesOfLeaverCleared,
    PassesOfLeaverClearedToo,
    PassesClearedOfCompeting,
    PassesNotCleared,
    FullBeforeArgument,
    FullBeforeAllowed,
    FullAt65534,
    CountsWrap,
    CountsStayFull,
    FullOverAnyone,
    FullCountsTheOthers,
    OwnPassesInRows,
    PassesPastNInRows,
    OwnPassesInImage,
    OwnPassesAreForm,
    SpareBitsOfPassesIgnored,
    PassWordsTurnedAbout,
    PassWordsByColumn,
    ShortFormWritten,
    ShortFormRefused,
    ShortFormKeepsPasses,
    CutWithoutPasses,
    LentWithoutPasses,
    ByteLimitWithoutPasses,
    FreshKeepsPasses,

    ActPlainForbidsTurn,
    ActPlainOnlyAt20,
    ActPlainOnlyAt40,
    ActPlainForbidsNothing,
    TurnPlainForbidsAct,
    TurnPlainForbidsNothing,
    OneWriterForbidsFlicker,
    OneWriterWhereEstIsFew,
    OneWriterWhereBb,
    OneWriterAtAnyGo23,
    OneWriterSeesItself,
    OneWriterSeesLowerOnes,
    OneWriterOfAnyLevel,
    OneWriterLooksAt23,
    OneWriterAlsoAt23,
    OneWriterUnasked,
    PlainAsksForOneWriter,
    ForbiddenFlickerBeforeArgument,
    ForbiddenGoBeforeArgument,
    ForbiddenFlickerBeforeAllowed,
    SixteenAndSeventeenSwapped,
    ForbiddenGoIs16,
    ForbiddenWordMoves,
    ForbiddenWordUsesCell,
    ForbiddenWordTaken,
    ForbiddenWordTallied,
    ForbiddenWordSkipped,
    StepUnderSafe,
    RunUnderSafe,
    CallUnderSafe,
    TextUnderPlain,
    TextUnderOneWriter,
    RoundsUnderOneWriter,
    SettingsSwapped,
    ActOfLowBit,
    ActOfOneByte,
    TurnOfTwoBits,
    TurnOfTwoBytes,
    ActOf2Taken,
    TurnOf3Taken,
    OneWrongSettingTaken,
    SettingsBeforeRowCount,
    SettingsBeforeRows,
    SettingsAfterForm,
    SettingsUnaskedWithoutWords,
    RunSettingsAfterWordCount,
    SettingsBeforeBytes,
    SettingsBeforeImage,
    CallSettingsAfterWordCount,
    SettingsAfterLent,
    WrongSettingsKeepTally,
    WrongSettingsMoveRows,
    WrongSettingsWriteImage,
    WrongSettingsClearLent,

    FreshOf17Rows,
    FreshKeepsWhatMayBeAnything,
    ReadLentBeforeWords,
    ReadClearsRowsFirst,
    ReadClearsRowsPastTheTable,
    ReadAsksFor16Rows,
    ReadSizeWith13,
    WritesPartWhenShort,
    WritesOneWordMore,
    ApartKeepsPartsOnRefusal,
    TogetherKeepsWordOnRefusal,
    TogetherCutsTheArgument,
    PrintPartWhenShort,
    PrintZeroAfterText,
    PrintAnswers0WhenShort,
    PrintNeedsOneByteMore,
}

impl Fault {
    /// Those of the cell that an accepted step tells, which stand together in ALL.
    pub fn of_step_cells() -> impl Iterator<Item = Fault> {
        let from_the_first = Fault::ALL.into_iter().skip_while(|&fault| fault != Fault::Go20UsesNone);
        from_the_first.take_while(|&fault| fault != Fault::RefusedWordUsesCell)
    }

    /// Those of rounds, which stand together in ALL.
    pub fn of_rounds() -> impl Iterator<Item = Fault> {
        let from_the_first = Fault::ALL.into_iter().skip_while(|&fault| fault != Fault::LooksAtHighest);
        from_the_first.take_while(|&fault| fault != Fault::PassesOfTheOther)
    }

    /// Those of passes, which stand together in ALL.
    pub fn of_passes() -> impl Iterator<Item = Fault> {
        let from_the_first = Fault::ALL.into_iter().skip_while(|&fault| fault != Fault::PassesOfTheOther);
        from_the_first.take_while(|&fault| fault != Fault::ActPlainForbidsTurn)
    }

    /// Those of settings, which stand together in ALL.
    pub fn of_settings() -> impl Iterator<Item = Fault> {
        let from_the_first = Fault::ALL.into_iter().skip_while(|&fault| fault != Fault::ActPlainForbidsTurn);
        from_the_first.take_while(|&fault| fault != Fault::FreshOf17Rows)
    }
}
