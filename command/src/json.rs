//! One line for machines. Every key is always there; what does not apply is null.

use crate::failure::Failure;
use crate::report::{Report, Status};
use dimpsyholt::Conclusion;

pub fn report(report: &Report) -> String {
    let refusal = report.refusal.as_ref();
    let (conclusion, variable, value) = match report.conclusion {
        None => (None, None, None),
        Some(Conclusion::NoAssignment) => (Some(3), None, None),
        Some(Conclusion::NeverBelow { variable, value }) => (Some(4), Some(variable), Some(value)),
    };
    line(&[
        ("verdict", string(report.status.name())),
        ("exit", number(Some(report.status.number()))),
        ("text", string(&report.line)),
        ("conclusion", number(conclusion)),
        ("variable", number(variable)),
        ("value", number(value)),
        ("number", number(refusal.map(|refusal| refusal.cause.number()))),
        ("step", number(refusal.map(|refusal| refusal.step))),
        ("position", number(refusal.map(|refusal| refusal.position))),
        ("changed", number(report.counts.map(|(changed, _)| changed))),
        ("judged", number(report.counts.map(|(_, judged)| judged))),
        ("old", optional(report.old.as_deref())),
        ("file", optional(None)),
        ("line", number(None::<u32>)),
        ("column", number(None::<u32>)),
    ])
}

pub fn failure(failure: &Failure) -> String {
    let mut pairs = vec![
        ("verdict", string(Status::Failed.name())),
        ("exit", number(Some(Status::Failed.number()))),
        ("text", string(&failure.message)),
    ];
    let unknown = ["conclusion", "variable", "value", "number", "step", "position", "changed", "judged", "old"];
    pairs.extend(unknown.map(|key| (key, optional(None))));
    pairs.push(("file", optional(failure.file.as_deref())));
    pairs.push(("line", number(failure.place.map(|(line, _)| line))));
    pairs.push(("column", number(failure.place.map(|(_, column)| column))));
    line(&pairs)
}

fn line(pairs: &[(&str, String)]) -> String {
    let members: Vec<String> = pairs.iter().map(|(key, value)| format!("\"{key}\":{value}")).collect();
    format!("{{{}}}\n", members.join(","))
}

fn number<N: ToString>(number: Option<N>) -> String {
    number.map_or("null".to_string(), |number| number.to_string())
}

fn optional(text: Option<&str>) -> String {
    text.map_or("null".to_string(), string)
}

fn string(text: &str) -> String {
    let mut out = String::from('"');
    for character in text.chars() {
        match character {
            '"' | '\\' => out.extend(['\\', character]),
            '\0'..='\x1f' => out.push_str(&format!("\\u{:04x}", character as u32)),
            _ => out.push(character),
        }
    }
    out.push('"');
    out
}

#[cfg(test)]
mod tests {
    use super::*;

    #[test]
    fn strings_stay_on_their_line() {
        assert_eq!(string("a\"b\\c\n\u{1b}ä"), "\"a\\\"b\\\\c\\u000a\\u001bä\"");
    }
}
