//! A verdict as the command says it: the line, the exit status, and the parts that go into JSON.

use dimpsyholt::{Accepted, Conclusion, Held, Refusal};

/// How the command ends. Only an acceptance is 0, so a script that tests for 0 opens on nothing else.
#[derive(Clone, Copy, Debug, PartialEq, Eq)]
pub enum Status {
    Accepted = 0,
    Refused = 1,
    /// Bad files or usage: there is no verdict.
    Failed = 2,
    Carried = 3,
}

impl Status {
    pub fn number(self) -> u8 {
        self as u8
    }

    pub fn name(self) -> &'static str {
        match self {
            Status::Accepted => "accepted",
            Status::Refused => "refused",
            Status::Failed => "error",
            Status::Carried => "carried",
        }
    }
}

/// What the library said of some tables.
#[derive(Debug)]
pub struct Report {
    pub status: Status,
    /// The verdict line.
    pub line: String,
    /// What follows the verdict line.
    pub more: String,
    pub conclusion: Option<Conclusion>,
    pub refusal: Option<Refusal>,
    /// Rows changed and steps judged, in a recheck that came to the comparing.
    pub counts: Option<(u32, u32)>,
    /// What OLD said of the log.
    pub old: Option<String>,
}

impl Report {
    fn new(status: Status, line: String) -> Report {
        Report { status, line, more: String::new(), conclusion: None, refusal: None, counts: None, old: None }
    }

    pub fn accepted(accepted: &Accepted) -> Report {
        Report { conclusion: Some(accepted.conclusion()), ..Report::new(Status::Accepted, accepted.to_string()) }
    }

    pub fn held(held: &Held) -> Report {
        match held {
            Held::Accepted(accepted) => Report::accepted(accepted),
            Held::Carried(carried) => {
                Report { conclusion: Some(carried.conclusion()), ..Report::new(Status::Carried, carried.to_string()) }
            }
        }
    }

    pub fn refused(refusal: Refusal) -> Report {
        Report { refusal: Some(refusal), ..Report::new(Status::Refused, refusal.to_string()) }
    }
}

/// What `--version` prints.
pub fn version() -> String {
    let [command, library] = [dimpsyholt::VERSION, dimpsyholt::version()]
        .map(|version| format!("{}.{}.{}", version / 10_000, version / 100 % 100, version % 100));
    format!("dimpsyholt {command}, library {library}, table format {}\n", dimpsyholt::FORMAT)
}
