//! From the nine numbers to what they say, and only where they say it exactly as the header has it.

use crate::cause::Cause;
use crate::raw::Answer;
use crate::shut::{Refusal, Shut, UnknownAnswer};
use crate::verdict::Conclusion;

/// What a call of the library said.
#[derive(Debug, PartialEq, Eq)]
pub(crate) enum Told {
    Refused(Refusal),
    Accepted(Conclusion),
    Carried(Conclusion),
}

/// What the whole check said: it neither carries nor counts.
pub(crate) fn of_check(answer: Answer) -> Result<Conclusion, Shut> {
    let unknown = Shut::Unknown(UnknownAnswer(answer));
    match of_recheck(answer)? {
        Told::Accepted(conclusion) if (answer.changed, answer.judged) == (0, 0) => Ok(conclusion),
        Told::Refused(refusal) if (answer.changed, answer.judged) == (0, 0) => {
            Err(Shut::Refused(refusal))
        }
        _ => Err(unknown),
    }
}

/// What the recheck said, a refusal included; an error only where it is no answer at all.
pub(crate) fn of_recheck(answer: Answer) -> Result<Told, Shut> {
    read(&answer)
        .filter(|told| fields(told, answer.changed, answer.judged) == answer)
        .ok_or(Shut::Unknown(UnknownAnswer(answer)))
}

fn read(answer: &Answer) -> Option<Told> {
    Some(match answer.kind {
        0 => Told::Refused(Refusal {
            cause: Cause::from_number(answer.number)?,
            step: answer.step,
            position: answer.position,
        }),
        1 => Told::Accepted(conclusion(answer)?),
        2 => Told::Carried(conclusion(answer)?),
        _ => return None,
    })
}

fn conclusion(answer: &Answer) -> Option<Conclusion> {
    match answer.conclusion {
        3 => Some(Conclusion::NoAssignment),
        4 => Some(Conclusion::NeverBelow {
            variable: answer.variable,
            value: answer.value,
        }),
        _ => None,
    }
}

/// The only nine numbers that say this: a field that does not apply is 0.
fn fields(told: &Told, changed: u32, judged: u32) -> Answer {
    let counts = Answer {
        changed,
        judged,
        ..Answer::default()
    };
    match told {
        Told::Refused(refusal) => Answer {
            number: refusal.cause.number(),
            step: refusal.step,
            position: refusal.position,
            ..counts
        },
        Told::Accepted(conclusion) => reached(1, conclusion, counts),
        Told::Carried(conclusion) => reached(2, conclusion, counts),
    }
}

fn reached(kind: u32, conclusion: &Conclusion, counts: Answer) -> Answer {
    let (conclusion, variable, value) = match *conclusion {
        Conclusion::NoAssignment => (3, 0, 0),
        Conclusion::NeverBelow { variable, value } => (4, variable, value),
    };
    Answer {
        kind,
        conclusion,
        variable,
        value,
        ..counts
    }
}

#[cfg(test)]
mod tests {
    use super::*;

    fn answer(kind: u32, number: u32, conclusion: u32) -> Answer {
        Answer {
            kind,
            number,
            conclusion,
            ..Answer::default()
        }
    }

    #[test]
    fn only_a_well_formed_acceptance_is_one() {
        for kind in 0..5 {
            for number in 0..30 {
                for conclusion in 0..6 {
                    let accepted = of_check(answer(kind, number, conclusion)).is_ok();
                    assert_eq!(
                        accepted,
                        kind == 1 && number == 0 && (conclusion == 3 || conclusion == 4)
                    );
                }
            }
        }
    }

    #[test]
    fn what_no_check_says_is_unknown() {
        let counted = Answer {
            judged: 1,
            ..answer(1, 0, 3)
        };
        let named = Answer {
            variable: 1,
            ..answer(1, 0, 3)
        };
        let carried = answer(2, 0, 3);
        let zeros = Answer::default();
        for strange in [
            zeros,
            carried,
            counted,
            named,
            answer(9, 0, 3),
            answer(0, 8, 0),
            answer(0, 21, 3),
        ] {
            assert_eq!(
                of_check(strange),
                Err(Shut::Unknown(UnknownAnswer(strange)))
            );
        }
        assert_eq!(
            of_recheck(carried),
            Ok(Told::Carried(Conclusion::NoAssignment))
        );
    }

    #[test]
    fn every_number_has_at_most_one_cause() {
        let known: Vec<u32> = (0..1000)
            .filter(|&number| {
                of_check(answer(0, number, 0))
                    != Err(Shut::Unknown(UnknownAnswer(answer(0, number, 0))))
            })
            .collect();
        assert_eq!(
            known,
            [1, 2, 3, 4, 5, 6, 7, 10, 11, 12, 13, 20, 21, 22, 23, 24]
        );
    }
}
