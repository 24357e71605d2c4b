//! The cases of crates/bench/stdin: tables, answers and places as they are written there.

use crate::Known;
use tables::limits::PLACES;
use tables::Answer;

const FILE: &str = include_str!("../../../crates/bench/stdin");

/// Every case of the file, in its order.
pub fn written() -> Vec<Known> {
    let mut cases: Vec<Known> = Vec::new();
    let (mut model, mut log) = (Vec::new(), Vec::new());
    for (number, line) in FILE.lines().enumerate() {
        let (key, rest) = line.split_once(' ').unwrap_or((line, ""));
        let here = cases.last_mut();
        match (key, here) {
            ("" | "#", _) => {}
            ("case", _) => cases.push(begun(rest, &model, &log)),
            ("model", Some(case)) => {
                model = words(rest);
                case.model = model.clone();
            }
            ("log", Some(case)) => {
                log = words(rest);
                case.log = log.clone();
            }
            ("old", Some(case)) => case.old = Some(words(rest)),
            ("lent", Some(case)) => case.places = word(rest) as usize,
            ("answer", Some(case)) => case.answer = answer(&words(rest)),
            ("written", Some(case)) => {
                case.written = words(rest).iter().map(|&start| start as u32).collect()
            }
            _ => panic!("line {} of the cases: {line}", number + 1),
        }
    }
    cases
}

/// A case begins with the model and the log of the one before.
fn begun(name: &str, model: &[i32], log: &[i32]) -> Known {
    Known {
        name: name.to_string(),
        old: None,
        model: model.to_vec(),
        log: log.to_vec(),
        places: PLACES,
        answer: Answer::default(),
        written: Vec::new(),
    }
}

fn word(text: &str) -> i32 {
    text.parse().unwrap_or_else(|_| panic!("no word: {text}"))
}

/// `7*100` stands for a hundred words 7.
fn words(text: &str) -> Vec<i32> {
    let each = |part: &str| match part.split_once('*') {
        Some((value, times)) => vec![word(value); word(times) as usize],
        None => vec![word(part)],
    };
    text.split_whitespace().flat_map(each).collect()
}

fn answer(numbers: &[i32]) -> Answer {
    let [kind, number, step, position, conclusion, variable, value, changed, judged] = *numbers
    else {
        panic!("an answer has nine numbers: {numbers:?}");
    };
    Answer {
        kind: kind as u32,
        number: number as u32,
        step: step as u32,
        position: position as u32,
        conclusion: conclusion as u32,
        variable: variable as u32,
        value,
        changed: changed as u32,
        judged: judged as u32,
    }
}
