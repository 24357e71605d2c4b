//! A table as text: decimal words with white space between them, and comments from # to the end of the line.
//!
//! White space is the space, the tab, the line feed, and the carriage return before a line feed. Nothing else is
//! passed over: whatever is no word is a fault with its line and column.

use std::iter::Peekable;
use std::str::Chars;

/// Where and why a text is no table.
#[derive(Clone, Debug, PartialEq, Eq)]
pub struct Fault {
    /// From 1; a line ends with a line feed.
    pub line: usize,
    /// From 1, in characters.
    pub column: usize,
    pub what: String,
}

/// The words of a text; the first fault decides.
pub fn words(bytes: &[u8]) -> Result<Vec<i32>, Fault> {
    let (text, whole) = match std::str::from_utf8(bytes) {
        Ok(text) => (text, true),
        Err(error) => {
            let good = &bytes[..error.valid_up_to()];
            (std::str::from_utf8(good).unwrap_or_default(), false)
        }
    };
    let mut scanner = Scanner::new(text);
    let words = scanner.words()?;
    match whole {
        true => Ok(words),
        false => Err(scanner.fault("this is not UTF-8")),
    }
}

struct Scanner<'a> {
    rest: Peekable<Chars<'a>>,
    line: usize,
    column: usize,
}

impl<'a> Scanner<'a> {
    fn new(text: &'a str) -> Scanner<'a> {
        Scanner { rest: text.chars().peekable(), line: 1, column: 1 }
    }

    fn fault(&self, what: impl Into<String>) -> Fault {
        Fault { line: self.line, column: self.column, what: what.into() }
    }

    fn words(&mut self) -> Result<Vec<i32>, Fault> {
        let mut words = Vec::new();
        while let Some(&next) = self.rest.peek() {
            match next {
                ' ' | '\t' | '\n' => self.pass(),
                '\r' => self.line_end()?,
                '#' => self.comment()?,
                '-' | '0'..='9' => words.push(self.word()?),
                other => return Err(self.fault(format!("{} is no part of a word", shown(other)))),
            }
        }
        Ok(words)
    }

    fn pass(&mut self) {
        if self.rest.next() == Some('\n') {
            self.line += 1;
            self.column = 1;
        } else {
            self.column += 1;
        }
    }

    /// A carriage return counts with its line feed alone: elsewhere a comment would swallow the lines behind it.
    fn line_end(&mut self) -> Result<(), Fault> {
        let fault = self.fault("a carriage return without a line feed");
        self.pass();
        match self.rest.peek() {
            Some('\n') => Ok(()),
            _ => Err(fault),
        }
    }

    fn comment(&mut self) -> Result<(), Fault> {
        while let Some(&next) = self.rest.peek() {
            match next {
                '\n' => return Ok(()),
                '\r' => self.line_end()?,
                '\0' => return Err(self.fault(format!("{} in a comment", shown('\0')))),
                _ => self.pass(),
            }
        }
        Ok(())
    }

    fn word(&mut self) -> Result<i32, Fault> {
        let start = self.fault("");
        let mut digits = String::new();
        while let Some(&next) = self.rest.peek() {
            match next {
                '-' if digits.is_empty() => digits.push(next),
                '0'..='9' => digits.push(next),
                ' ' | '\t' | '\n' | '\r' | '#' => break,
                other => return Err(self.fault(format!("{} is no part of a word", shown(other)))),
            }
            self.pass();
        }
        digits.parse().map_err(|_| Fault {
            what: match digits.as_str() {
                "-" => "a minus without digits".to_string(),
                _ => format!("{} is no signed 32-bit number", shortened(&digits)),
            },
            ..start
        })
    }
}

fn shown(character: char) -> String {
    match character {
        '!'..='~' => format!("'{character}'"),
        _ => format!("U+{:04X}", character as u32),
    }
}

fn shortened(digits: &str) -> String {
    match digits.len() {
        0..=20 => digits.to_string(),
        length => format!("{}... ({length} characters)", &digits[..20]),
    }
}

#[cfg(test)]
mod tests {
    use super::*;

    fn fault(text: &[u8]) -> (usize, usize, String) {
        let fault = words(text).unwrap_err();
        (fault.line, fault.column, fault.what)
    }

    #[test]
    fn words_and_nothing_else() {
        assert_eq!(words(b""), Ok(vec![]));
        assert_eq!(words(b"# only a comment"), Ok(vec![]));
        assert_eq!(words(b" 1\t-2\r\n003#x\n-0 2147483647 -2147483648"), Ok(vec![1, -2, 3, 0, i32::MAX, i32::MIN]));
        assert_eq!(words("1 # Zug fährt ab\r\n2".as_bytes()), Ok(vec![1, 2]));
    }

    #[test]
    fn the_first_fault_has_its_place() {
        assert_eq!(fault(b"1 +2"), (1, 3, "'+' is no part of a word".to_string()));
        assert_eq!(fault(b"1\n 2x"), (2, 3, "'x' is no part of a word".to_string()));
        assert_eq!(fault(b"1-2"), (1, 2, "'-' is no part of a word".to_string()));
        assert_eq!(fault(b"--2"), (1, 2, "'-' is no part of a word".to_string()));
        assert_eq!(fault(b"1, 2"), (1, 2, "',' is no part of a word".to_string()));
        assert_eq!(fault(b"\n\n-"), (3, 1, "a minus without digits".to_string()));
        assert_eq!(fault(b"- 1"), (1, 1, "a minus without digits".to_string()));
        assert_eq!(fault(b"5 2147483648"), (1, 3, "2147483648 is no signed 32-bit number".to_string()));
        assert_eq!(fault(b"-2147483649"), (1, 1, "-2147483649 is no signed 32-bit number".to_string()));
        assert_eq!(fault(b"1 \0"), (1, 3, "U+0000 is no part of a word".to_string()));
        assert_eq!(fault(b"#\0"), (1, 2, "U+0000 in a comment".to_string()));
        assert_eq!(fault(b"1\r2"), (1, 2, "a carriage return without a line feed".to_string()));
        assert_eq!(fault(b"# a\r2"), (1, 4, "a carriage return without a line feed".to_string()));
        assert_eq!(fault(b"1\x0c2"), (1, 2, "U+000C is no part of a word".to_string()));
        assert_eq!(fault("\u{feff}1".as_bytes()), (1, 1, "U+FEFF is no part of a word".to_string()));
        assert_eq!(fault("# \u{e4}\n\u{a0}".as_bytes()), (2, 1, "U+00A0 is no part of a word".to_string()));
    }

    #[test]
    fn what_is_no_utf8_is_no_table() {
        assert_eq!(fault(b"1 2\n3 \xff"), (2, 3, "this is not UTF-8".to_string()));
        assert_eq!(fault(b"# \xc3\xa4\xff"), (1, 4, "this is not UTF-8".to_string()));
        assert_eq!(fault(b"a \xff"), (1, 1, "'a' is no part of a word".to_string()));
    }
}
