//! The command `dimpsyholt`: a model and a log that lie on disk are held against each other.
//!
//! Every verdict comes from the verified library. What this program adds is the reading of text files, the words of
//! the verdict line, and an explanation for people.

mod arguments;
mod ask;
mod explain;
mod failure;
mod input;
mod json;
mod report;
mod text;

pub use explain::{explain, DISAGREES};
pub use report::Status;
pub use text::{words, Fault};

use arguments::{Request, Task};
use failure::Failure;
use report::Report;
use std::ffi::OsString;
use std::io::{Read, Write};

/// Runs the command: reads what the arguments name, says the verdict, and gives the exit status.
pub fn run(arguments: &[OsString], stdin: &mut dyn Read, stdout: &mut dyn Write, stderr: &mut dyn Write) -> Status {
    let request = Request::read(arguments);
    let json = match &request {
        Ok(request) => request.json,
        // bad usage is said in the way that was asked for, as far as can be seen
        Err(_) => arguments.iter().any(|argument| argument == "--json"),
    };
    let answer = request.and_then(|request| answer(request.task, stdin));
    let (status, out) = match answer {
        Ok(Answer::Page(page)) => (Status::Accepted, page),
        Ok(Answer::Report(report)) if json => (report.status, json::report(&report)),
        Ok(Answer::Report(report)) => (report.status, format!("{}\n{}", report.line, report.more)),
        Err(failure) if json => (Status::Failed, json::failure(&failure)),
        Err(failure) => {
            let _ = writeln!(stderr, "dimpsyholt: {failure}");
            (Status::Failed, String::new())
        }
    };
    match stdout.write_all(out.as_bytes()).and_then(|()| stdout.flush()) {
        Ok(()) => status,
        // a verdict that nobody could read is none
        Err(error) => {
            let _ = writeln!(stderr, "dimpsyholt: standard output: {error}");
            Status::Failed
        }
    }
}

enum Answer {
    Page(String),
    Report(Report),
}

fn answer(task: Task, stdin: &mut dyn Read) -> Result<Answer, Failure> {
    Ok(match task {
        Task::Help => Answer::Page(arguments::HELP.to_string()),
        Task::Version => Answer::Page(report::version()),
        Task::Check { model, log, places } => Answer::Report(ask::check(&model, &log, places.as_deref(), stdin)?),
        Task::Recheck { old, new, log } => Answer::Report(ask::recheck(&old, &new, &log, stdin)?),
        Task::Explain { model, log } => Answer::Report(ask::explained(&model, &log, stdin)?),
    })
}
