//! The files of the command line.

use crate::failure::Failure;
use crate::text::words;
use std::ffi::OsStr;
use std::fs::File;
use std::io::{self, Read};
use std::path::PathBuf;

/// A table as text is far smaller; what is larger is no table, or has no end.
const LARGEST: u64 = 16 * 1024 * 1024;

#[derive(Debug, PartialEq, Eq)]
pub enum Source {
    StandardInput,
    File(PathBuf),
}

impl Source {
    pub fn named(word: &OsStr) -> Source {
        match word.to_str() {
            Some("-") => Source::StandardInput,
            _ => Source::File(PathBuf::from(word)),
        }
    }

    fn name(&self) -> String {
        match self {
            Source::StandardInput => "standard input".to_string(),
            Source::File(path) => path.display().to_string(),
        }
    }

    /// The words of the table, or why it is none.
    pub fn table(&self, stdin: &mut dyn Read) -> Result<Vec<i32>, Failure> {
        let bytes = self.bytes(stdin).map_err(|error| Failure::of_file(self.name(), error))?;
        if bytes.len() as u64 > LARGEST {
            return Err(Failure::of_file(self.name(), "this is larger than 16 MiB"));
        }
        words(&bytes).map_err(|fault| Failure {
            place: Some((fault.line, fault.column)),
            ..Failure::of_file(self.name(), fault.what)
        })
    }

    fn bytes(&self, stdin: &mut dyn Read) -> io::Result<Vec<u8>> {
        let mut bytes = Vec::new();
        match self {
            Source::StandardInput => stdin.take(LARGEST + 1).read_to_end(&mut bytes)?,
            Source::File(path) => File::open(path)?.take(LARGEST + 1).read_to_end(&mut bytes)?,
        };
        Ok(bytes)
    }
}
