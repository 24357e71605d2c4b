//! The library under test.

use tables::Answer;

/// What is being tested.
pub const LIBRARY: &str = if cfg!(feature = "linked") {
    "the linked archive"
} else {
    "the fast version in place of the archive"
};

/// The version that the linked archive gives itself; none where no archive is linked.
pub fn version() -> Option<u32> {
    backend::version()
}

/// A check, or a recheck where there is an old model.
pub fn answer(old: Option<&[i32]>, model: &[i32], log: &[i32], places: &mut [u32]) -> Answer {
    match old {
        Some(old) => backend::recheck(old, model, log, places),
        None => backend::check(model, log, places),
    }
}

#[cfg(not(feature = "linked"))]
mod backend {
    pub use fast::{check, recheck};

    pub fn version() -> Option<u32> {
        None
    }
}

#[cfg(feature = "linked")]
mod backend {
    use dimpsyholt::raw;
    use tables::Answer;

    pub fn version() -> Option<u32> {
        Some(raw::version())
    }

    pub fn check(model: &[i32], log: &[i32], places: &mut [u32]) -> Answer {
        same(raw::check(model, log, places))
    }

    pub fn recheck(old: &[i32], new: &[i32], log: &[i32], places: &mut [u32]) -> Answer {
        same(raw::recheck(old, new, log, places))
    }

    fn same(answer: raw::Answer) -> Answer {
        Answer {
            kind: answer.kind,
            number: answer.number,
            step: answer.step,
            position: answer.position,
            conclusion: answer.conclusion,
            variable: answer.variable,
            value: answer.value,
            changed: answer.changed,
            judged: answer.judged,
        }
    }
}
