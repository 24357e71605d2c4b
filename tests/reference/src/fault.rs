//! One deliberate fault at a time, so that the cases can be shown to notice it.

/// A fault that `check_with` and `recheck_with` may be run with.
pub type Slip = Option<Fault>;

macro_rules! faults {
    ($($(#[$doc:meta])* $name:ident,)*) => {
        #[derive(Clone, Copy, Debug, PartialEq, Eq)]
        pub enum Fault {
            $($(#[$doc])* $name,)*
        }

        impl Fault {
            /// Each fault once.
            pub const ALL: &'static [Fault] = &[$(Fault::$name,)*];
        }
    };
}

faults! {
    // short cuts that open the gate
    /// A log that ran out counts as concluded.
    RanOutAccepted,
    /// A hole inside an interval is dropped.
    HolesDropped,
    /// A hole at an end does not move the end.
    EndHoleIgnored,
    /// An activity's own sure part counts against itself.
    OwnSurePartCounted,
    /// The set of all positions counts as a subcycle.
    FullCycleIsSubcycle,
    /// A step may cite itself.
    SelfCitation,
    /// A negative coefficient takes the smallest value.
    SmallestForNegative,

    // frauds
    /// Everything is refused.
    RefusesAll,
    /// The answer is always the same acceptance.
    AlwaysTheSame,
    /// No place is written.
    WritesNoPlaces,
    /// Only step 0 is judged.
    JudgesOnlyStepZero,
    /// A recheck judges nothing.
    RecheckAlwaysCarried,
    /// A recheck is the whole check under another name.
    RecheckIsWholeCheck,
    /// The judged count is the number of all steps.
    JudgedMadeUp,

    // the recheck
    /// The refused step is left out of the judged count.
    JudgedWithoutRefused,
    /// The last row is never seen as changed.
    ChangedForgetsLastRow,
    /// Rows are compared by their kind and length only.
    ChangedByShape,
    /// Only changed rows that are cited are counted.
    ChangedOnlyCited,
    /// A recheck judges deductions too.
    RecheckJudgesDeductions,
    /// A recheck judges the conclusion too.
    RecheckJudgesConclusion,
    /// Differing bounds do not make the recheck whole.
    BoundChangeOverlooked,
    /// A differing number of rows does not make the recheck whole.
    RowCountChangeOverlooked,
    /// A bad old model counts as one with the rows of the new one.
    BadOldModelTrusted,
    /// A carried log is called accepted.
    CarriedCalledAccepted,
    /// Whole mode reports no changed rows.
    WholeModeReportsZero,
    /// Steps that a recheck does not judge get no place.
    UnjudgedUnplaced,
    /// The conclusion of a 13 is left out of the judged count.
    ThirteenNotJudged,
    /// Refusals of the new model report its rows as changed.
    RefusedModelReportsRows,

    // reading the model
    /// 5 and 6 are exchanged.
    FiveSixExchanged,
    /// 6 is looked for at the end of the row.
    SixAtRowEnd,
    /// A variable may come twice in any row.
    TwiceAllowed,
    /// Words after the model are overlooked.
    WordsAfterModelAllowed,
    /// The range of a high is not bound to its low.
    HighBelowLow,
    /// 64 variables are one too many.
    VariablesLimitTight,
    /// 17 entries fit in a row.
    RowLengthLimitLoose,
    /// A usage of 0 is out of range.
    UsageZeroRefused,

    // reading the log
    /// 16,384 words are one too many.
    LogLimitTight,
    /// 4,096 places are one too few.
    PlacesLimitTight,
    /// Fewer places are enough for a short log.
    FewPlacesAllowed,
    /// 13 is looked for before the conclusion is judged.
    ThirteenBeforeTwentyFour,
    /// 13 names the number of the step after the conclusion.
    ThirteenStepIsNext,
    /// 13 is not looked for.
    WordsAfterConclusionAllowed,
    /// 10 names the last step.
    TenStepIsLast,
    /// A log that ends inside a step is refused with 10.
    ElevenAsTen,
    /// 12 names the first word of the step.
    TwelveAtStepStart,
    /// Hints behind the conflict are not read.
    UnusedHintsUnread,
    /// 17 premises fit in a fact.
    PremisesLimitLoose,
    /// 64 hints are one too many.
    HintsLimitTight,
    /// A row number equal to the number of rows is read as the last row.
    RowNumberLoose,
    /// A value may lie one past its range.
    ValueLimitLoose,

    // places
    /// Each place is one too large.
    PlaceOffByOne,
    /// A refused step is given its place.
    RefusedStepPlaced,
    /// The conclusion is given no place.
    ConclusionUnplaced,

    // the box
    /// An end that moves onto a hole stays there.
    EndStaysOnHole,
    /// An end that moves onto a hole moves past that one only.
    EndPassesOneHole,
    /// 20 is looked for after 21, 22 and 23.
    TwentyAfterTwentyOne,
    /// An empty box passes the step.
    EmptyBoxPasses,
    /// Only variables of the cited row are looked at for 20.
    TwentyOnlyInRow,
    /// The consequent is not negated.
    ConsequentNotNegated,
    /// Not "at most v" is read as "at least v".
    NegationKeepsValue,

    // rows
    /// A least sum equal to the bound conflicts.
    LinearAtBound,
    /// Sums wrap at 32 bits.
    LinearWraps,
    /// All variables of the row count, in the fact or not.
    AllDifferentOverAll,
    /// A variable of the consequent alone does not count.
    AllDifferentPremisesOnly,
    /// The union is taken of the intervals.
    AllDifferentByIntervals,
    /// As many values as variables conflict.
    AllDifferentTight,
    /// Activities are told apart by their variable.
    CumulativeByVariable,
    /// A full capacity conflicts.
    CumulativeAtCapacity,
    /// The first and the last start decide for all between them.
    CumulativeByEnds,
    /// Only times at which usages are sure are looked at.
    CumulativeOnlySure,
    /// An activity still runs at its start plus its duration.
    CumulativeRunsLonger,
    /// Positions are named from 1.
    CircuitFromOne,
    /// A value outside the positions leaves the set.
    CircuitOutsideLeaves,
    /// Only fixed subcycles conflict.
    CircuitOnlyFixed,

    // deductions
    /// 22 names the hint after the one that does not apply.
    HintIndexOffByOne,
    /// 22 names the cited fact.
    HintNumberForIndex,
    /// Premises of hints are not looked at.
    HintPremisesUnchecked,
    /// A premise that some value left satisfies holds.
    HintPremisesMayHold,
    /// Premises are held against the box of the fact, not as narrowed.
    HintPremisesOnFirstBox,
    /// Hints behind the conflict are applied too.
    HintsGoOn,
    /// 23 is not looked for.
    TwentyThreePasses,

    // conclusions
    /// Conclusion 3 takes a fact with premises.
    ConclusionPremisesForgiven,
    /// Conclusion 4 needs the claimed value itself.
    ClaimExact,
    /// Conclusion 4 may claim more than the fact says.
    ClaimMore,
    /// Conclusion 4 takes a fact on another variable.
    ClaimAnyVariable,
    /// Conclusion 4 takes relation 3.
    ClaimByEqual,
    /// Conclusion 4 takes "false".
    ClaimByFalse,
    /// The value of the fact is named, not the claimed one.
    FactValueNamed,
}
