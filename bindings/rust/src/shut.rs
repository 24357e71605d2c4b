//! Why the gate stays shut.

use crate::cause::{Cause, Position};
use crate::raw;
use std::error::Error;
use std::fmt;

/// There is no acceptance.
#[derive(Clone, Copy, Debug, PartialEq, Eq)]
pub enum Shut {
    /// The log was refused.
    Refused(Refusal),
    /// What came back is no answer of this library: another one was linked.
    Unknown(UnknownAnswer),
}

/// A refusal: its cause, the step that it concerns and where to look.
#[non_exhaustive]
#[derive(Clone, Copy, Debug, PartialEq, Eq)]
pub struct Refusal {
    /// Why.
    pub cause: Cause,
    /// The number of the step, from 0; 0 for the causes that concern no step.
    pub step: u32,
    /// What [`Cause::position`] says, from 0; else 0.
    pub position: u32,
}

/// An answer whose kind or numbers this wrapper does not know. It is not a refusal: nothing is known of the log.
#[derive(Clone, Copy, Debug, PartialEq, Eq)]
pub struct UnknownAnswer(pub(crate) raw::Answer);

impl fmt::Display for Shut {
    fn fmt(&self, f: &mut fmt::Formatter) -> fmt::Result {
        match self {
            Shut::Refused(refusal) => refusal.fmt(f),
            Shut::Unknown(unknown) => unknown.fmt(f),
        }
    }
}

impl fmt::Display for Refusal {
    fn fmt(&self, f: &mut fmt::Formatter) -> fmt::Result {
        write!(f, "refused {}", self.cause.number())?;
        if self.cause.has_step() {
            write!(f, " at step {}", self.step)?;
        }
        match self.cause.position() {
            Position::ModelWord => write!(f, " at model word {}", self.position)?,
            Position::LogWord => write!(f, ", log word {}", self.position)?,
            Position::Hint => write!(f, ", hint {}", self.position)?,
            Position::Nothing => {}
        }
        write!(f, ": {}", self.cause)
    }
}

impl fmt::Display for UnknownAnswer {
    fn fmt(&self, f: &mut fmt::Formatter) -> fmt::Result {
        write!(f, "no answer of this library: {:?}", self.0)
    }
}

impl Error for Shut {}
impl Error for Refusal {}
impl Error for UnknownAnswer {}
