//! 1, 2 and 3: how long the tables are.

use super::page::{line, Page};
use dimpsyholt::{LOG_WORDS, MODEL_WORDS, PLACES};

pub fn explain(page: &mut Page, model: &[i32], log: &[i32]) {
    line!(page, 0, "The model has {} words; at most {MODEL_WORDS} are read.", model.len());
    line!(page, 0, "The log has {} words; at most {LOG_WORDS} are read.", log.len());
    line!(page, 0, "This command lends {PLACES} places, as many as are needed.");
}
