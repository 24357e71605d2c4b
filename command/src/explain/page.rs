//! The text that is written, line by line.

use std::fmt::Display;

/// What is said where this explanation comes to another end than the library. It should never be read.
pub const DISAGREES: &str =
    "This explanation cannot follow the library here. The verdict stands; please report model and log.";

#[derive(Default)]
pub struct Page {
    pub text: String,
}

impl Page {
    /// A line, so many steps to the right.
    pub fn line(&mut self, indent: usize, text: impl Display) {
        let line = format!("{:width$}{text}", "", width = 2 * indent);
        self.text.push_str(line.trim_end());
        self.text.push('\n');
    }

    pub fn disagrees(&mut self) {
        self.line(0, DISAGREES);
    }
}

/// A line with values in it: `line!(page, 1, "x{variable}: {values}")`.
macro_rules! line {
    ($page:expr, $indent:expr, $($text:tt)*) => {
        $page.line($indent, format_args!($($text)*))
    };
}
pub(super) use line;

/// `1 row`, `2 rows`.
pub fn counted(count: usize, what: &str) -> String {
    match count {
        1 => format!("1 {what}"),
        _ => format!("{count} {what}s"),
    }
}
