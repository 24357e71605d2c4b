//! Safe access to the verified checker of refusal logs.
//!
//! The caller lends three tables: the model and the log, which are read, and the places, which are written.
//! `docs/FORMAT.md` says what they hold. [`check`] gives an [`Accepted`] or says why the gate stays [`Shut`]; after
//! the model was amended, [`Accepted::recheck`] holds the same log against the new one.
//!
//! Both may be called from any number of threads at once: the library keeps no state.

#![warn(missing_docs)]

mod cause;
#[cfg(feature = "raw")]
pub mod raw;
#[cfg(not(feature = "raw"))]
mod raw;
mod shut;
mod told;
mod verdict;

pub use cause::{Cause, Position};
pub use raw::version;
pub use shut::{Refusal, Shut, UnknownAnswer};
pub use verdict::{check, Accepted, Carried, Conclusion, Held, Recheck};

/// The version of the interface that this wrapper was written for: 1.0.0, two digits each for minor and patch.
pub const VERSION: u32 = 10_000;

/// The number of the table format.
pub const FORMAT: u32 = 1;

/// A model may have at most so many words.
pub const MODEL_WORDS: usize = 4_096;

/// A log may have at most so many words.
pub const LOG_WORDS: usize = 16_384;

/// How many places must be lent at least.
pub const PLACES: usize = 4_096;
