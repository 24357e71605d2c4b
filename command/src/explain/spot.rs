//! 4 to 7 and 10 to 13: the word, where it stands, what was expected there, and the words around it.

use super::log::LogTable;
use super::model::ModelTable;
use super::page::{counted, line, Page};
use super::reader::{Expected, Fault};
use dimpsyholt::{Cause, Refusal};

/// How many words before and behind the spot are shown.
const BEFORE: usize = 6;
const BEHIND: usize = 8;

pub fn in_model(page: &mut Page, words: &[i32], table: &ModelTable, refusal: Refusal) {
    spot(page, "model", words, &table.trail, table.fault, refusal);
    if table.fault == Some(Fault::Surplus) {
        let at = 1 + 2 * table.model.bounds.len();
        let rows = counted(table.model.rows.len(), "row");
        line!(page, 1, "C, the number of rows, is word {at}: with {rows} the model ends before these words.");
    }
}

pub fn in_log(page: &mut Page, words: &[i32], table: &LogTable, refusal: Refusal) {
    let start = table.steps.last().map_or(0, |step| step.end);
    match refusal.cause {
        Cause::NoConclusion if words.is_empty() => page.line(0, "The log is empty."),
        Cause::NoConclusion => page.line(0, "The log ends between steps: none of kind 3 or 4 stands at its end."),
        Cause::WordsAfterConclusion => {
            line!(page, 0, "Step {} concludes; the log should end with it.", refusal.step)
        }
        _ => line!(page, 0, "Step {} begins at word {start}.", refusal.step),
    }
    spot(page, "log", words, &table.trail, table.fault, refusal);
}

fn spot(page: &mut Page, name: &str, words: &[i32], trail: &[Expected], fault: Option<Fault>, refusal: Refusal) {
    let at = refusal.position as usize;
    let found = match fault {
        None => None,
        Some(Fault::Surplus) => Some(trail.len()),
        Some(_) => trail.len().checked_sub(1),
    };
    let (Some(fault), true) = (fault, found == Some(at)) else {
        return page.disagrees();
    };
    page.line(
        0,
        match fault {
            Fault::Missing => format!("The {name} has {}; word {at} is not there.", counted(words.len(), "word")),
            Fault::OutOfRange => format!("Word {at} of the {name} is {}.", words[at]),
            Fault::Twice(first) => format!(
                "Word {at} of the {name} is {}, and so is word {first}: x{} stands there already.",
                words[at], words[at]
            ),
            Fault::Surplus => {
                format!("The {name} is complete before word {at}, and has {}.", counted(words.len(), "word"))
            }
        },
    );
    match trail.get(at) {
        Some(expected) => line!(page, 0, "Expected there: {}.", wanted(expected)),
        None => page.line(0, "Expected there: nothing."),
    }
    around(page, words, trail, at);
}

/// The words before the spot, each with what it is, the spot, and the bare words behind it.
fn around(page: &mut Page, words: &[i32], trail: &[Expected], at: usize) {
    let from = at.saturating_sub(BEFORE);
    for (k, word) in words.iter().enumerate().take(at).skip(from) {
        let what = trail.get(k).map_or("", |expected| &expected.what);
        line!(page, 1, "  word {k}: {word}, {what}");
    }
    match words.get(at) {
        Some(word) => line!(page, 1, "> word {at}: {word}"),
        None => line!(page, 1, "> the end, before word {at}"),
    }
    let rest: Vec<String> = words.iter().skip(at + 1).take(BEHIND).map(|word| word.to_string()).collect();
    if !rest.is_empty() {
        let more = if words.len() > at + 1 + BEHIND { " ..." } else { "" };
        line!(page, 1, "  then: {}{more}", rest.join(" "));
    }
}

fn wanted(expected: &Expected) -> String {
    let Expected { what, low, high } = expected;
    match (low, high) {
        _ if low > high => format!("{what}; there is no such number here"),
        _ if low == high => format!("{what}; it can only be {low}"),
        _ => format!("{what}; from {low} to {high}"),
    }
}
