//! The command line.

use crate::failure::Failure;
use crate::input::Source;
use std::ffi::{OsStr, OsString};
use std::path::PathBuf;

pub const HELP: &str = "\
dimpsyholt: holds a solver's log against a model

  dimpsyholt check MODEL LOG [--places FILE] [--json]
  dimpsyholt recheck OLD NEW LOG [--json]
  dimpsyholt explain MODEL LOG
  dimpsyholt --version
  dimpsyholt --help

MODEL, OLD, NEW and LOG are text files of decimal words, signed 32-bit, with white space between them; # begins a
comment that runs to the end of its line. One of them may be - for standard input. docs/FORMAT.md says what the
words mean.

check    the whole check of the log against the model
recheck  for an amended model: checks the log against OLD first. Where OLD accepts it, only what the amendment
         touches is judged again: \"carried\" is then as good as that acceptance. Where OLD does not accept it, the
         verdict line says so, and the log gets the whole check against NEW.
explain  the whole check, then the model and the refused step in plain words

--places FILE  writes where the steps that passed begin, one position in the log to a line
--json         one line of JSON in place of the verdict line, for errors too

The first line is the verdict. Exit status: 0 accepted, 1 refused, 2 bad files or usage, 3 carried.
";

/// What is asked for.
#[derive(Debug, PartialEq, Eq)]
pub enum Task {
    Check { model: Source, log: Source, places: Option<PathBuf> },
    Recheck { old: Source, new: Source, log: Source },
    Explain { model: Source, log: Source },
    Help,
    Version,
}

/// The whole command line.
#[derive(Debug, PartialEq, Eq)]
pub struct Request {
    pub task: Task,
    pub json: bool,
}

/// The words of the command line, told apart.
#[derive(Default)]
struct Words<'a> {
    plain: Vec<&'a OsStr>,
    json: bool,
    places: Option<PathBuf>,
}

impl Request {
    pub fn read(arguments: &[OsString]) -> Result<Request, Failure> {
        let Some((first, rest)) = arguments.split_first() else {
            return Err(Failure::usage("nothing is asked for"));
        };
        let plain = |task| Ok(Request { task, json: false });
        match first.to_string_lossy().as_ref() {
            "--help" if rest.is_empty() => plain(Task::Help),
            "--version" if rest.is_empty() => plain(Task::Version),
            name @ ("check" | "recheck" | "explain") => {
                let words = Words::read(rest)?;
                let json = words.json;
                files(name, words).map(|task| Request { task, json })
            }
            name @ ("--help" | "--version") => Err(Failure::usage(format!("{name} stands alone"))),
            other => Err(Failure::usage(format!("{other} is no command"))),
        }
    }
}

impl<'a> Words<'a> {
    fn read(arguments: &'a [OsString]) -> Result<Words<'a>, Failure> {
        let mut words = Words::default();
        let mut rest = arguments.iter();
        let mut options = true;
        while let Some(word) = rest.next() {
            match word.to_str() {
                Some("--") if options => options = false,
                Some("--json") if options => words.json = true,
                Some("--places") if options => words.places(rest.next())?,
                Some(option) if options && option.len() > 1 && option.starts_with('-') => {
                    return Err(Failure::usage(format!("{option} is no option")));
                }
                _ => words.plain.push(word),
            }
        }
        Ok(words)
    }

    fn places(&mut self, file: Option<&OsString>) -> Result<(), Failure> {
        match file {
            Some(file) if file == "-" => Err(Failure::usage("--places needs a file, standard output has the verdict")),
            Some(file) if file.to_string_lossy().starts_with("--") => Err(Failure::usage("--places needs a file, ./ before a name that begins so")),
            Some(_) if self.places.is_some() => Err(Failure::usage("--places is given twice")),
            Some(file) => {
                self.places = Some(PathBuf::from(file));
                Ok(())
            }
            None => Err(Failure::usage("--places needs a file")),
        }
    }
}

fn files(name: &str, words: Words) -> Result<Task, Failure> {
    if words.places.is_some() && name != "check" {
        return Err(Failure::usage(format!("{name} has no --places")));
    }
    if words.json && name == "explain" {
        return Err(Failure::usage("explain is for people and has no --json"));
    }
    if words.plain.iter().filter(|&&word| word == "-").count() > 1 {
        return Err(Failure::usage("standard input can be read once"));
    }
    let source = |at: usize| Source::named(words.plain[at]);
    match (name, words.plain.len()) {
        ("check", 2) => Ok(Task::Check { model: source(0), log: source(1), places: words.places }),
        ("explain", 2) => Ok(Task::Explain { model: source(0), log: source(1) }),
        ("recheck", 3) => Ok(Task::Recheck { old: source(0), new: source(1), log: source(2) }),
        ("recheck", _) => Err(Failure::usage("recheck needs three files: OLD NEW LOG")),
        _ => Err(Failure::usage(format!("{name} needs two files: MODEL LOG"))),
    }
}
