//! What a check and a recheck have shown.

use crate::raw;
use crate::shut::Shut;
use crate::told::{of_check, of_recheck, Told};
use std::fmt;

/// What a log has shown of every assignment within the bounds that meets the model's rows.
#[derive(Clone, Copy, Debug, PartialEq, Eq, Hash)]
pub enum Conclusion {
    /// There is none.
    NoAssignment,
    /// In each of them the variable is at least the value.
    NeverBelow {
        /// The number of the variable, from 0.
        variable: u32,
        /// The value that was claimed.
        value: i32,
    },
}

/// A log that was accepted: every step was judged and passed.
///
/// It comes from [`check`] and [`Accepted::recheck`] alone, and keeps hold of the tables that were checked. So a
/// recheck needs an acceptance, and neither table can be exchanged in between:
///
/// ```compile_fail
/// # use dimpsyholt::{check, PLACES};
/// let mut log = [1, 0, 0, 1, 0, 2, 3, 4, 0, 3, 0];
/// let model = [1, 0, 10, 1, 1, 1, -3, -1, 0];
/// let accepted = check(&model, &log, &mut [0; PLACES]).unwrap();
/// log[9] = 4; // the log is still lent to `accepted`
/// accepted.recheck(&model, &mut [0; PLACES]);
/// ```
///
/// nor can one be made up:
///
/// ```compile_fail
/// # use dimpsyholt::{Accepted, Conclusion, PLACES};
/// let claimed = Accepted { model: &[], log: &[], conclusion: Conclusion::NoAssignment };
/// claimed.recheck(&[], &mut [0; PLACES]);
/// ```
#[must_use = "the gate may only be opened for what was accepted"]
#[derive(Clone, Copy, Debug, PartialEq, Eq)]
pub struct Accepted<'a> {
    model: &'a [i32],
    log: &'a [i32],
    conclusion: Conclusion,
}

/// A log that an amended model carries on from an acceptance: what was judged passed, and all else is as it was.
///
/// It is as good as that acceptance, which this wrapper has seen.
#[must_use = "the gate may only be opened for what was carried"]
#[derive(Clone, Copy, Debug, PartialEq, Eq)]
pub struct Carried<'a> {
    model: &'a [i32],
    conclusion: Conclusion,
}

/// What a recheck has shown of the new model.
#[derive(Clone, Copy, Debug, PartialEq, Eq)]
pub enum Held<'a> {
    /// The whole check of the new model accepted the log: variables, bounds or the number of rows differ.
    Accepted(Accepted<'a>),
    /// Only rows differ, and the log still holds.
    Carried(Carried<'a>),
}

/// The answer of a recheck.
#[non_exhaustive]
#[must_use = "the gate may only be opened for what was accepted or carried"]
#[derive(Clone, Copy, Debug, PartialEq, Eq)]
pub struct Recheck<'a> {
    /// What was shown, or why the gate stays shut.
    pub verdict: Result<Held<'a>, Shut>,
    /// How many rows changed; all of the new model's where the recheck was the whole check.
    pub changed: u32,
    /// How many steps were judged for their meaning.
    pub judged: u32,
}

/// Checks the log against the model.
///
/// Entry k of `places` becomes the position of the first word of step k for each step that passed; all other
/// entries stay as lent. With fewer than [`PLACES`](crate::PLACES) entries the log is refused.
///
/// ```
/// use dimpsyholt::{check, Cause, Conclusion, Shut, PLACES};
///
/// // x is in 0..10 and -x <= -3; the log shows that x is never below 3
/// let model = [1, 0, 10, 1, 1, 1, -3, -1, 0];
/// let log = [1, 0, 0, 1, 0, 2, 3, 4, 0, 3, 0];
/// let mut places = vec![0; PLACES];
/// let accepted = check(&model, &log, &mut places)?;
/// assert_eq!(accepted.conclusion(), Conclusion::NeverBelow { variable: 0, value: 3 });
///
/// // without its conclusion the log is refused
/// let Err(Shut::Refused(refusal)) = check(&model, &log[..7], &mut places) else {
///     panic!("the gate would have opened");
/// };
/// assert_eq!((refusal.cause, refusal.step, refusal.position), (Cause::NoConclusion, 1, 7));
/// # Ok::<(), Shut>(())
/// ```
pub fn check<'a>(
    model: &'a [i32],
    log: &'a [i32],
    places: &mut [u32],
) -> Result<Accepted<'a>, Shut> {
    let conclusion = of_check(raw::check(model, log, places))?;
    Ok(Accepted {
        model,
        log,
        conclusion,
    })
}

impl<'a> Accepted<'a> {
    /// What was shown.
    pub fn conclusion(&self) -> Conclusion {
        self.conclusion
    }

    /// The model that it was shown of.
    pub fn model(&self) -> &'a [i32] {
        self.model
    }

    /// The log that showed it.
    pub fn log(&self) -> &'a [i32] {
        self.log
    }

    /// Checks the same log again after the model was amended.
    ///
    /// Where only rows differ, only inferences that cite a changed row are judged, and a log that gets through is
    /// [`Held::Carried`]. Elsewhere this is the whole check of `new_model`. The places are written as by [`check`].
    ///
    /// ```
    /// use dimpsyholt::{check, Held, Shut, PLACES};
    ///
    /// let model = [1, 0, 10, 1, 1, 1, -3, -1, 0]; // x in 0..10, -x <= -3
    /// let log = [1, 0, 0, 1, 0, 2, 3, 4, 0, 3, 0]; // x is never below 3
    /// let mut places = vec![0; PLACES];
    /// let accepted = check(&model, &log, &mut places)?;
    ///
    /// let stricter = [1, 0, 10, 1, 1, 1, -4, -1, 0];
    /// let again = accepted.recheck(&stricter, &mut places);
    /// assert!(matches!(again.verdict?, Held::Carried(_)));
    /// assert_eq!((again.changed, again.judged), (1, 1));
    ///
    /// let looser = [1, 0, 10, 1, 1, 1, -2, -1, 0];
    /// assert!(accepted.recheck(&looser, &mut places).verdict.is_err());
    /// # Ok::<(), Shut>(())
    /// ```
    ///
    /// There is no recheck without an acceptance:
    ///
    /// ```compile_fail
    /// # use dimpsyholt::PLACES;
    /// # let (model, log) = ([1, 0, 10, 0], [3, 0]);
    /// dimpsyholt::recheck(&model, &model, &log, &mut [0; PLACES]);
    /// ```
    pub fn recheck<'b>(&self, new_model: &'b [i32], places: &mut [u32]) -> Recheck<'b>
    where
        'a: 'b,
    {
        let answer = raw::recheck(self.model, new_model, self.log, places);
        let verdict = of_recheck(answer).and_then(|told| match told {
            Told::Refused(refusal) => Err(Shut::Refused(refusal)),
            Told::Accepted(conclusion) => Ok(Held::Accepted(Accepted {
                model: new_model,
                log: self.log,
                conclusion,
            })),
            Told::Carried(conclusion) => Ok(Held::Carried(Carried {
                model: new_model,
                conclusion,
            })),
        });
        Recheck {
            verdict,
            changed: answer.changed,
            judged: answer.judged,
        }
    }
}

impl<'a> Carried<'a> {
    /// What was shown.
    pub fn conclusion(&self) -> Conclusion {
        self.conclusion
    }

    /// The amended model that it was shown of.
    pub fn model(&self) -> &'a [i32] {
        self.model
    }
}

impl fmt::Display for Conclusion {
    fn fmt(&self, f: &mut fmt::Formatter) -> fmt::Result {
        match self {
            Conclusion::NoAssignment => f.write_str("no assignment meets every row"),
            Conclusion::NeverBelow { variable, value } => {
                write!(f, "variable {variable} is never below {value}")
            }
        }
    }
}

impl fmt::Display for Accepted<'_> {
    fn fmt(&self, f: &mut fmt::Formatter) -> fmt::Result {
        write!(f, "accepted: {}", self.conclusion)
    }
}

impl fmt::Display for Carried<'_> {
    fn fmt(&self, f: &mut fmt::Formatter) -> fmt::Result {
        write!(f, "carried: {}", self.conclusion)
    }
}

impl fmt::Display for Held<'_> {
    fn fmt(&self, f: &mut fmt::Formatter) -> fmt::Result {
        match self {
            Held::Accepted(accepted) => accepted.fmt(f),
            Held::Carried(carried) => carried.fmt(f),
        }
    }
}
