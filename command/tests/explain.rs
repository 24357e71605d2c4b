//! `dimpsyholt explain`: the verdict line first, then every cause in plain words.

mod person;

use person::Folder;

const SAYS_SO: &str =
    "The verdict above is the library's. What follows is worked out again for people to read; it decides nothing.";
/// x0 in 0..10, -x0 <= -3
const AT_LEAST: &str = "1 0 10 1  1 1 -3 -1 0";

/// Explains the tables; the same verdict and status as the check, and every line is there.
fn explained(name: &str, model: &str, log: &str, lines: &[&str]) {
    let folder = Folder::new(&format!("explain-{name}"));
    folder.write("model", model);
    folder.write("log", log);
    let said = folder.run(&["explain", "model", "log"]);
    let checked = folder.run(&["check", "model", "log"]);
    assert_eq!((said.status, said.verdict()), (checked.status, checked.verdict()));
    assert_eq!(said.errors, "");
    for line in [SAYS_SO].iter().chain(lines) {
        assert!(said.out.lines().any(|told| told.trim() == *line), "no line {line:?} in\n{}", said.out);
    }
}

#[test]
fn an_acceptance() {
    let log = "1 0 3 0 2 1 1 2 1 2 2 1 0  2 0 0 1 0  3 1";
    explained(
        "accepted",
        "3 1 2 1 2 1 2 1 2 3 0 1 2",
        log,
        &[
            "accepted: no assignment meets every row",
            "The model: 3 variables and 1 row.",
            "x0 to x2 are each in 1..2",
            "row 0, all-different of 3 variables: no two of x0, x1, x2 are equal",
            "Shown: no assignment within the bounds meets every row.",
            "The log has 3 steps: 1 inference, 1 deduction and the conclusion.",
        ],
    );
    explained(
        "bound",
        AT_LEAST,
        "1 0 0 1 0 2 3 4 0 3 0",
        &["Shown: every assignment within the bounds that meets every row has x0 at 3 or above."],
    );
}

#[test]
fn sizes() {
    explained("model-size", &"0 ".repeat(5_000), "", &["The model has 5000 words; at most 4096 are read."]);
    explained("log-size", AT_LEAST, &"0 ".repeat(20_000), &["The log has 20000 words; at most 16384 are read."]);
}

#[test]
fn a_word_of_the_model() {
    explained(
        "ends",
        "1 0 10 1 1 1",
        "",
        &[
            "The model has 6 words; word 6 is not there.",
            "Expected there: the bound of row 0; from -2147483648 to 2147483647.",
            "word 5: 1, n of row 0, its number of terms",
            "> the end, before word 6",
        ],
    );
    explained(
        "range",
        "2 0 10 5 4 0",
        "",
        &[
            "Word 4 of the model is 4.",
            "Expected there: the high of x1; from 5 to 100000.",
            "word 3: 5, the low of x1",
            "> word 4: 4",
            "then: 0",
        ],
    );
    explained(
        "twice",
        "2 0 1 0 1 1 4 2 1 1",
        "",
        &[
            "Word 9 of the model is 1, and so is word 8: x1 stands there already.",
            "Expected there: the variable at position 1 of row 0; from 0 to 1.",
        ],
    );
    explained(
        "surplus",
        "1 0 1 0 7 8",
        "",
        &[
            "The model is complete before word 4, and has 6 words.",
            "Expected there: nothing.",
            "C, the number of rows, is word 3: with 0 rows the model ends before these words.",
        ],
    );
}

#[test]
fn a_word_of_the_log() {
    explained("no-log", AT_LEAST, "", &["The log is empty.", "No step has passed."]);
    explained(
        "no-conclusion",
        AT_LEAST,
        "1 0 0 1 0 2 3",
        &[
            "Step 0 has passed.",
            "The log ends between steps: none of kind 3 or 4 stands at its end.",
            "Expected there: the kind of step 1: 1 inference, 2 deduction, 3 or 4 conclusion; from 1 to 4.",
        ],
    );
    explained(
        "inside",
        AT_LEAST,
        "1 0 0 1 0 2 3 4 0",
        &[
            "Step 1 begins at word 7.",
            "The log has 9 words; word 9 is not there.",
            "Expected there: the claimed value of step 1; from -100000 to 100000.",
        ],
    );
    explained(
        "cited",
        AT_LEAST,
        "1 0 0 1 0 2 3 2 0 0 1 1",
        &[
            "Word 11 of the log is 1.",
            "Expected there: hint 0 of step 1, the number of an earlier fact; it can only be 0.",
        ],
    );
    explained("no-rows", "1 0 1 0", "1 0 0 0", &["Expected there: the row of step 0; there is no such number here."]);
    explained(
        "after",
        AT_LEAST,
        "1 0 0 1 0 2 3 4 0 3 0 9 9",
        &["Step 1 concludes; the log should end with it.", "The log is complete before word 11, and has 13 words."],
    );
}

#[test]
fn an_empty_box() {
    explained(
        "empty",
        "1 3 10 0",
        "2 1 0 1 5 1 0 2 3 0",
        &[
            "step 0, deduced without hints: if x0 is at most 5, then x0 is at least 3",
            "x0: no value",
            "declared: 3..10",
            "premise, x0 is at most 5: leaves 3..5",
            "the consequent does not hold, x0 is at most 2: leaves no value",
        ],
    );
}

#[test]
fn a_linear_row() {
    explained(
        "linear",
        "2 0 10 0 10 1 1 2 7 2 0 -3 1",
        "1 0 2 0 2 1 1 4 10 0",
        &[
            "row 0, linear of 2 terms: 2*x0 - 3*x1 is at most 7",
            "step 0, from row 0, linear of 2 terms: if x0 is at least 1 and x1 is not 10, then false",
            "x0: 1..10",
            "x1: 0..9",
            "2*x0: 2 times 1, the smallest value left, is 2",
            "-3*x1: -3 times 9, the largest value left, is -27",
            "least sum -25, bound 7: a conflict needs at least 8",
        ],
    );
}

#[test]
fn an_all_different_row() {
    explained(
        "different",
        "3 1 3 1 3 1 2 1 2 3 0 1 2",
        "1 0 2 0 4 2 1 2 1 0",
        &[
            "x0: 1..3 but not 2",
            "they are x0, x1: 2 variables",
            "values left to them together: 1..3, which is 3 values",
            "a conflict needs fewer values than variables, at most 1",
            "not named, so they do not count: x2; a premise that holds anyway brings one in",
        ],
    );
    explained(
        "unnamed",
        "3 1 2 1 2 1 2 1 2 3 0 1 2",
        "1 0 0 0",
        &["Why: the fact names no variable of the row, and only those that it names count."],
    );
}

#[test]
fn a_cumulative_row() {
    explained(
        "cumulative",
        "3 0 2 0 2 0 2 1 3 3 2 0 1 1 1 2 1 2 2 2",
        "1 0 1 1 3 0 0",
        &[
            "step 0, from row 0, cumulative of 3 activities: if x1 is 0, then false",
            "activity 0, start x0, lasts 1, uses 1: at no time",
            "activity 1, start x1, lasts 2, uses 1: at times 0..1",
            "at times 0..1: 1",
            "activity 2: 2",
        ],
    );
}

#[test]
fn a_circuit_row() {
    explained(
        "circuit",
        "3 0 2 0 2 -1 5 1 4 3 0 1 2",
        "1 0 1 0 3 1 0",
        &[
            "Why: there is no trap. From every position one can still come to all the others:",
            "position 0 (x0) can go to 1",
            "position 2 (x2) can go to 0, 1, 2",
        ],
    );
}

#[test]
fn a_hint() {
    let facts = "1 0 0 1 0 2 3  1 0 1 0 1 2 0 ";
    explained(
        "hint",
        AT_LEAST,
        &format!("{facts} 2 1 0 1 9 1 0 2 8 2 0 1"),
        &[
            "step 2, deduced from facts 0, 1: if x0 is at most 9, then x0 is at least 8",
            "hint 0, fact 0: always x0 is at least 3; leaves x0 3..7",
            "Why: hint 1, fact 1, does not apply. It says: if x0 is at most 2, then false",
            "its premise \"x0 is at most 2\" does not hold for every value left: x0 has 3..7",
        ],
    );
    explained(
        "hints",
        AT_LEAST,
        &format!("{facts} 2 1 0 1 9 1 0 2 8 1 0"),
        &[
            "step 2, deduced from fact 0: if x0 is at most 9, then x0 is at least 8",
            "Why: no hint says \"false\", and no variable is without a value. What is left after all hints:",
            "x0: 3..7",
        ],
    );
}

#[test]
fn a_conclusion() {
    explained(
        "claim",
        AT_LEAST,
        "1 0 0 1 0 2 3 4 0 4 0",
        &[
            "step 1, concluded from fact 0: x0 is never below 4",
            "fact 0 says: always x0 is at least 3",
            "the conclusion needs a fact without premises: always x0 is at least 4 or a larger value",
            "what does not fit: its consequent is \"x0 is at least 3\"",
        ],
    );
    explained(
        "false",
        AT_LEAST,
        "1 0 1 0 1 2 0 3 0",
        &["the conclusion needs a fact without premises: always false", "what does not fit: it has 1 premise"],
    );
    explained("premise", AT_LEAST, "1 0 1 0 1 9 1 0 2 3 4 0 3 0", &["what does not fit: it has 1 premise"]);
    explained(
        "relation",
        "1 0 3 1  1 1 -3 -1 0",
        "1 0 0 1 0 3 3 4 0 3 0",
        &["what does not fit: its consequent is \"x0 is 3\""],
    );
}
