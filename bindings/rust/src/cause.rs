//! What the number of a refusal stands for. The header has the same names, numbers and texts.

use std::fmt;

/// Why a log is refused.
#[non_exhaustive]
#[derive(Clone, Copy, Debug, PartialEq, Eq, Hash)]
pub enum Cause {
    /// The model has more than [`MODEL_WORDS`](crate::MODEL_WORDS) words.
    ModelTooLong = 1,
    /// The log has more than [`LOG_WORDS`](crate::LOG_WORDS) words.
    LogTooLong = 2,
    /// Fewer than [`PLACES`](crate::PLACES) places were lent.
    TooFewPlaces = 3,
    /// The model ends before it is complete; the position is its length.
    ModelEndsEarly = 4,
    /// The word of the model at the position is outside its range.
    ModelWordOutOfRange = 5,
    /// An all-different or circuit row names a variable again, at the position in the model.
    VariableTwice = 6,
    /// The model is complete before the position, and words follow.
    WordsAfterModel = 7,
    /// The log ends between steps and has no conclusion; the position is its length.
    NoConclusion = 10,
    /// The log ends inside the step; the position is its length.
    LogEndsInsideStep = 11,
    /// The word of the log at the position is outside its range; so are numbers that may not be cited there.
    LogWordOutOfRange = 12,
    /// The step concludes, and words follow from the position on.
    WordsAfterConclusion = 13,
    /// The premises and the negated consequent of the step leave some variable no value.
    BoxEmpty = 20,
    /// The row that the step cites does not conflict with what the step's fact leaves.
    RowDoesNotConflict = 21,
    /// The position is an index among the step's hints; a premise of that hint does not hold there.
    HintDoesNotApply = 22,
    /// All hints of the step were applied, and values are left to every variable.
    HintsUsedUp = 23,
    /// The fact that the conclusion cites does not say what is concluded.
    FactDoesNotFit = 24,
}

/// What the position of a refusal counts, from 0.
#[non_exhaustive]
#[derive(Clone, Copy, Debug, PartialEq, Eq, Hash)]
pub enum Position {
    /// Nothing: the position is 0.
    Nothing,
    /// Words of the model.
    ModelWord,
    /// Words of the log.
    LogWord,
    /// The step's hints.
    Hint,
}

impl Cause {
    /// Every cause, by rising number.
    pub const ALL: &'static [Cause] = &[
        Cause::ModelTooLong,
        Cause::LogTooLong,
        Cause::TooFewPlaces,
        Cause::ModelEndsEarly,
        Cause::ModelWordOutOfRange,
        Cause::VariableTwice,
        Cause::WordsAfterModel,
        Cause::NoConclusion,
        Cause::LogEndsInsideStep,
        Cause::LogWordOutOfRange,
        Cause::WordsAfterConclusion,
        Cause::BoxEmpty,
        Cause::RowDoesNotConflict,
        Cause::HintDoesNotApply,
        Cause::HintsUsedUp,
        Cause::FactDoesNotFit,
    ];

    /// The number of the cause, as documents name it.
    pub fn number(self) -> u32 {
        self as u32
    }

    /// The cause of a number; none where no refusal has it.
    pub fn from_number(number: u32) -> Option<Cause> {
        Cause::ALL
            .iter()
            .copied()
            .find(|cause| cause.number() == number)
    }

    /// The cause in a few words.
    pub fn text(self) -> &'static str {
        match self {
            Cause::ModelTooLong => "the model has more than 4,096 words",
            Cause::LogTooLong => "the log has more than 16,384 words",
            Cause::TooFewPlaces => "fewer than 4,096 places were lent",
            Cause::ModelEndsEarly => "the model ends early",
            Cause::ModelWordOutOfRange => "a word of the model is outside its range",
            Cause::VariableTwice => "a variable stands twice in a row of kind 2 or 4",
            Cause::WordsAfterModel => "words follow the model",
            Cause::NoConclusion => "the log ends between steps, without a conclusion",
            Cause::LogEndsInsideStep => "the log ends inside a step",
            Cause::LogWordOutOfRange => "a word of the log is outside its range",
            Cause::WordsAfterConclusion => "words follow the conclusion",
            Cause::BoxEmpty => "the box is empty: a variable has no value left",
            Cause::RowDoesNotConflict => "the row does not conflict",
            Cause::HintDoesNotApply => "a hint does not apply",
            Cause::HintsUsedUp => "the hints are used up without a conflict",
            Cause::FactDoesNotFit => "the fact does not fit the conclusion",
        }
    }

    /// Whether the refusal's step says something; without one it is 0.
    pub fn has_step(self) -> bool {
        self.number() >= 10
    }

    /// What the refusal's position counts.
    pub fn position(self) -> Position {
        match self.number() {
            4..=7 => Position::ModelWord,
            10..=13 => Position::LogWord,
            22 => Position::Hint,
            _ => Position::Nothing,
        }
    }
}

impl fmt::Display for Cause {
    fn fmt(&self, f: &mut fmt::Formatter) -> fmt::Result {
        f.write_str(self.text())
    }
}
