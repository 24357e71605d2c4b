//! What the tests of the library share. The tests themselves are in the folder beside.

mod assignments;
mod compare;
mod differences;
mod guard;
mod library;
mod tally;

pub use assignments::{counterexample, satisfies, Search};
pub use compare::{answers_alike, lent};
pub use differences::Differences;
pub use guard::{Edge, Guarded, Vast};
pub use library::{answer, version, LIBRARY};
pub use tally::Tally;
