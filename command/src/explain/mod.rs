//! What stands in the tables, in plain words, and why a step fails.
//!
//! The verdict is the library's. This part reads the tables again, for people, and decides nothing.

mod accepted;
mod all_different;
mod circuit;
mod conclusion;
mod conflict;
mod cumulative;
mod empty;
mod hints;
mod linear;
mod log;
mod model;
mod page;
mod reader;
mod say;
mod sizes;
mod spot;
mod values;

pub use page::DISAGREES;

use dimpsyholt::{Cause, Refusal};
use log::read_log;
use model::read_model;
use page::{line, Page};

const FOR_READING: &str =
    "The verdict above is the library's. What follows is worked out again for people to read; it decides nothing.";

/// Explains the verdict on a model and a log: an acceptance, or the refusal.
pub fn explain(model: &[i32], log: &[i32], refusal: Option<Refusal>) -> String {
    let mut page = Page::default();
    page.line(0, "");
    page.line(0, FOR_READING);
    page.line(0, "");
    match refusal {
        Some(refusal) if refusal.cause.number() <= 3 => sizes::explain(&mut page, model, log),
        _ => explain_tables(&mut page, model, log, refusal),
    }
    page.text
}

/// Both tables have a length that can be read.
fn explain_tables(page: &mut Page, model: &[i32], log: &[i32], refusal: Option<Refusal>) {
    let table = read_model(model);
    say::model(page, &table);
    page.line(0, "");
    if let Some(refusal) = refusal.filter(|refusal| refusal.cause.number() < 10) {
        return spot::in_model(page, model, &table, refusal);
    }
    let read = read_log(log, &table.model);
    let Some(refusal) = refusal else {
        return accepted::explain(page, &read);
    };
    let number = refusal.step as usize;
    say::passed(page, number);
    if matches!(refusal.cause.number(), 10..=13) {
        return spot::in_log(page, log, &read, refusal);
    }
    let Some(step) = read.steps.get(number) else {
        return page.disagrees();
    };
    say::step(page, &table.model, number, step);
    match refusal.cause {
        Cause::BoxEmpty => empty::explain(page, &table.model, step),
        Cause::RowDoesNotConflict => conflict::explain(page, &table.model, step),
        Cause::HintDoesNotApply => hints::does_not_apply(page, &table.model, &read.steps, step, refusal.position),
        Cause::HintsUsedUp => hints::used_up(page, &table.model, &read.steps, step),
        Cause::FactDoesNotFit => conclusion::explain(page, &read.steps, step),
        other => line!(page, 0, "There is no explanation for {}: {other}.", other.number()),
    }
}
