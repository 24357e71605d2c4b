//! The model, the log and the answer as plain data, and the words that stand for them.
//!
//! Reading and judging are not here: the reference and the fast version each do that on their own.

mod answer;
mod log;
mod model;
mod write;

pub use answer::{Answer, Conclusion, Kind};
pub use log::{at_least, at_most, equal, not_equal, Atom, Fact, Relation, Step};
pub use model::{Activity, Model, Row, Term};
pub use write::{log_words, model_words, write_log, write_model, Written};

/// The limits of the tables.
pub mod limits {
    pub const MODEL_WORDS: usize = 4_096;
    pub const LOG_WORDS: usize = 16_384;
    pub const PLACES: usize = 4_096;
    pub const VARIABLES: i32 = 64;
    pub const ROWS: i32 = 64;
    pub const ROW_LENGTH: i32 = 16;
    pub const VALUE: i32 = 100_000;
    pub const COEFFICIENT: i32 = 1_000_000;
    pub const CAPACITY: i32 = 1_000_000;
    pub const USAGE: i32 = 1_000_000;
    pub const DURATION: i32 = 10_000;
    pub const PREMISES: i32 = 16;
    pub const HINTS: i32 = 64;
}
