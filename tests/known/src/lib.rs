//! Cases whose answers are known from the documents, for everything that answers.

mod limits;
mod written;

pub use limits::limits;
use tables::{Answer, Conclusion};
pub use written::written;

/// A case, its answer and the places that it writes; the rest stay as lent.
#[derive(Clone, Debug)]
pub struct Known {
    pub name: String,
    /// The old model, where the case is a recheck.
    pub old: Option<Vec<i32>>,
    pub model: Vec<i32>,
    pub log: Vec<i32>,
    /// How many places are lent.
    pub places: usize,
    pub answer: Answer,
    pub written: Vec<u32>,
}

/// Every known case.
pub fn all() -> Vec<Known> {
    [written(), limits()].concat()
}

/// What answers: the old model (for a recheck), the model, the log, the places.
pub type Answers<'a> = &'a dyn Fn(Option<&[i32]>, &[i32], &[i32], &mut [u32]) -> Answer;

/// The names of the cases that are answered otherwise, and how.
pub fn failures(cases: &[Known], answers: Answers) -> Vec<String> {
    let told = cases.iter().filter_map(|case| case.failure(answers));
    told.collect()
}

/// A test for each table of known cases: what is named must give every answer and every place.
#[macro_export]
macro_rules! each_answer {
    ($answers:expr, $name:expr) => {
        $crate::each_answer!($answers, $name; written limits);
    };
    ($answers:expr, $name:expr; $($table:ident)*) => {$(
        #[test]
        fn $table() {
            let cases = $crate::$table();
            let failures = $crate::failures(&cases, &$answers);
            assert!(failures.is_empty(), "{}", failures.join("\n"));
            println!("{} known cases, {}", cases.len(), $name);
        }
    )*};
}

impl Known {
    fn failure(&self, answers: Answers) -> Option<String> {
        let lent: Vec<u32> = (0..self.places as u32).map(|k| k ^ 0xA5A5_0000).collect();
        let mut places = lent.clone();
        let answer = answers(self.old.as_deref(), &self.model, &self.log, &mut places);
        let mut expected = lent;
        expected[..self.written.len()].copy_from_slice(&self.written);
        if answer != self.answer {
            return Some(format!("{}: {answer:?}, not {:?}", self.name, self.answer));
        }
        let differing = (0..places.len()).find(|&k| places[k] != expected[k])?;
        Some(format!("{}: place {differing} is wrong", self.name))
    }
}

/// A whole check with as many places as are needed.
fn case(name: &str, model: &[i32], log: &[i32], answer: Answer, written: &[u32]) -> Known {
    Known {
        name: name.to_string(),
        old: None,
        model: model.to_vec(),
        log: log.to_vec(),
        places: tables::limits::PLACES,
        answer,
        written: written.to_vec(),
    }
}

/// The whole example of the documents, the first case of the file: its model and its log.
pub fn whole_example() -> (Vec<i32>, Vec<i32>) {
    let cases = written();
    (cases[0].model.clone(), cases[0].log.clone())
}

fn no_assignment() -> Answer {
    Answer::accepted(Conclusion::NoAssignment)
}

fn never_below(variable: u32, value: i32) -> Answer {
    Answer::accepted(Conclusion::NeverBelow { variable, value })
}
