//! The tables are read, and the library is asked.

use crate::explain::explain;
use crate::failure::Failure;
use crate::input::Source;
use crate::report::Report;
use dimpsyholt::{Shut, PLACES};
use std::fmt::Write as _;
use std::fs;
use std::io::Read;
use std::os::unix::fs::MetadataExt;
use std::path::Path;

/// An entry that no step writes: a log has fewer words.
const LENT: u32 = u32::MAX;

pub fn check(model: &Source, log: &Source, places: Option<&Path>, stdin: &mut dyn Read) -> Result<Report, Failure> {
    if let Some(file) = places {
        not_an_input(file, &[model, log])?;
    }
    let (model, log) = (model.table(stdin)?, log.table(stdin)?);
    let mut starts = lent();
    let report = checked(&model, &log, &mut starts)?;
    if let Some(file) = places {
        write_starts(file, &starts)?;
    }
    Ok(report)
}

pub fn explained(model: &Source, log: &Source, stdin: &mut dyn Read) -> Result<Report, Failure> {
    let (model, log) = (model.table(stdin)?, log.table(stdin)?);
    let mut report = checked(&model, &log, &mut lent())?;
    report.more = explain(&model, &log, report.refusal);
    Ok(report)
}

/// Only a log that OLD accepts is rechecked; any other gets the whole check against NEW.
pub fn recheck(old: &Source, new: &Source, log: &Source, stdin: &mut dyn Read) -> Result<Report, Failure> {
    let (old, new, log) = (old.table(stdin)?, new.table(stdin)?, log.table(stdin)?);
    match dimpsyholt::check(&old, &log, &mut lent()) {
        Ok(accepted) => {
            let again = accepted.recheck(&new, &mut lent());
            let mut report = match again.verdict {
                Ok(held) => Report::held(&held),
                Err(shut) => refused(shut)?,
            };
            report.counts = Some((again.changed, again.judged));
            report.old = Some(accepted.to_string());
            Ok(report)
        }
        Err(shut) => {
            let earlier = refused(shut)?.line;
            let mut report = checked(&new, &log, &mut lent())?;
            report.line =
                format!("{}; checked whole, as the old model did not accept this log: {earlier}", report.line);
            report.old = Some(earlier);
            Ok(report)
        }
    }
}

fn lent() -> Vec<u32> {
    vec![LENT; PLACES]
}

fn checked(model: &[i32], log: &[i32], places: &mut [u32]) -> Result<Report, Failure> {
    match dimpsyholt::check(model, log, places) {
        Ok(accepted) => Ok(Report::accepted(&accepted)),
        Err(shut) => refused(shut),
    }
}

/// A refusal is a verdict; an answer that the library does not have is none.
fn refused(shut: Shut) -> Result<Report, Failure> {
    match shut {
        Shut::Refused(refusal) => Ok(Report::refused(refusal)),
        Shut::Unknown(unknown) => Err(Failure { message: unknown.to_string(), ..Failure::default() }),
    }
}

/// The file of the places must not be a table that is still needed, by whatever name.
fn not_an_input(file: &Path, inputs: &[&Source]) -> Result<(), Failure> {
    let identity = |path: &Path| fs::metadata(path).ok().map(|found| (found.dev(), found.ino()));
    let Some(places) = identity(file) else {
        return Ok(());
    };
    for input in inputs {
        let path = match input {
            Source::File(path) => path,
            Source::StandardInput => Path::new("/dev/stdin"),
        };
        if identity(path) == Some(places) {
            return Err(Failure::usage(format!("--places would overwrite {}", path.display())));
        }
    }
    Ok(())
}

fn write_starts(file: &Path, places: &[u32]) -> Result<(), Failure> {
    let mut lines = String::new();
    for start in places.iter().take_while(|&&start| start != LENT) {
        let _ = writeln!(lines, "{start}");
    }
    fs::write(file, lines).map_err(|error| Failure::of_file(file.display().to_string(), error))
}
