//! What keeps the command from asking the library: bad files and bad usage.

use std::fmt;

/// A message for people, with the file and the place in it where there is one.
#[derive(Debug, Default, PartialEq, Eq)]
pub struct Failure {
    pub message: String,
    pub file: Option<String>,
    /// Line and column, from 1.
    pub place: Option<(usize, usize)>,
}

impl Failure {
    pub fn usage(message: impl Into<String>) -> Failure {
        Failure { message: format!("{}; see dimpsyholt --help", message.into()), ..Failure::default() }
    }

    pub fn of_file(file: String, message: impl fmt::Display) -> Failure {
        Failure { message: message.to_string(), file: Some(file), place: None }
    }
}

impl fmt::Display for Failure {
    fn fmt(&self, f: &mut fmt::Formatter) -> fmt::Result {
        if let Some(file) = &self.file {
            write!(f, "{file}:")?;
            if let Some((line, column)) = self.place {
                write!(f, "{line}:{column}:")?;
            }
            write!(f, " ")?;
        }
        f.write_str(&self.message)
    }
}
