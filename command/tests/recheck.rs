//! `dimpsyholt recheck`: carried only after an acceptance, and 0 only for what is accepted.

mod person;

use command::{run, Status};
use dimpsyholt::{check, PLACES};
use generator::Cases;
use person::Folder;
use std::collections::BTreeMap;
use std::ffi::OsString;

// x0 in 0..10; rows -x0 <= -3 and x0 <= 9
const OLD: &str = "1 0 10 2  1 1 -3 -1 0  1 1 9 1 0";
const LOG: &str = "1 0 0 1 0 2 3  4 0 3 0"; // x0 is never below 3

/// Status and verdict line of a recheck of the log.
fn recheck(folder: &Folder, old: &str, new: &str, log: &str) -> (i32, String) {
    folder.write("old", old);
    folder.write("new", new);
    folder.write("log", log);
    let said = folder.run(&["recheck", "old", "new", "log"]);
    assert_eq!((said.errors.as_str(), said.out.lines().count()), ("", 1));
    (said.status, said.verdict().to_string())
}

fn told(status: i32, line: &str) -> (i32, String) {
    (status, line.to_string())
}

#[test]
fn a_log_that_was_accepted_is_carried() {
    let folder = Folder::new("carried");
    let carried = told(3, "carried: variable 0 is never below 3");
    assert_eq!(recheck(&folder, OLD, OLD, LOG), carried);
    assert_eq!(recheck(&folder, OLD, &OLD.replace("-3", "-5"), LOG), carried);
    assert_eq!(recheck(&folder, OLD, &OLD.replace("9 1 0", "8 1 0"), LOG), carried);
}

#[test]
fn an_amendment_that_breaks_the_log_is_refused() {
    let folder = Folder::new("broken");
    let refused = told(1, "refused 21 at step 0: the row does not conflict");
    assert_eq!(recheck(&folder, OLD, &OLD.replace("-3", "-2"), LOG), refused);
    let refused = told(1, "refused 4 at model word 0: the model ends early");
    assert_eq!(recheck(&folder, OLD, "", LOG), refused);
}

#[test]
fn other_bounds_mean_the_whole_check() {
    let folder = Folder::new("whole");
    let accepted = told(0, "accepted: variable 0 is never below 3");
    assert_eq!(recheck(&folder, OLD, &OLD.replace("0 10 2", "0 11 2"), LOG), accepted);
    let refused = told(1, "refused 21 at step 0: the row does not conflict");
    assert_eq!(recheck(&folder, OLD, &OLD.replace("0 10 2 ", "0 11 2 ").replace("-3", "-2"), LOG), refused);
}

#[test]
fn a_log_that_was_not_accepted_is_never_carried() {
    let folder = Folder::new("never");
    let whole = "checked whole, as the old model did not accept this log: refused";
    // the old row did not show it, the new one does
    assert_eq!(
        recheck(&folder, &OLD.replace("-3", "-2"), OLD, LOG),
        told(0, &format!("accepted: variable 0 is never below 3; {whole} 21 at step 0: the row does not conflict"))
    );
    // the conclusion does not fit; nothing of it is judged in a recheck, so the library alone would carry it
    let claim = LOG.replace("4 0 3 0", "4 0 7 0");
    assert_eq!(
        recheck(&folder, OLD, OLD, &claim),
        told(1, &format!(
            "refused 24 at step 1: the fact does not fit the conclusion; {whole} 24 at step 1: the fact does not fit the conclusion"
        ))
    );
    assert_eq!(
        recheck(&folder, "", OLD, LOG),
        told(0, &format!("accepted: variable 0 is never below 3; {whole} 4 at model word 0: the model ends early"))
    );
    let said = folder.run(&["recheck", "old", "new", "log", "--json"]);
    assert!(said.out.contains("\"old\":\"refused 4 at model word 0: the model ends early\""), "{}", said.out);
}

#[test]
fn bad_files_end_in_2() {
    let folder = Folder::new("bad");
    folder.write("good", OLD);
    folder.write("log", LOG);
    folder.write("bad", "1 0 ten");
    for (at, name) in [(1, "bad"), (2, "bad"), (3, "bad"), (1, "nowhere"), (2, "nowhere"), (3, "nowhere")] {
        let mut arguments = ["recheck", "good", "good", "log"];
        arguments[at] = name;
        let said = folder.run(&arguments);
        assert_eq!((said.status, said.out.as_str()), (2, ""));
        assert!(said.errors.starts_with(&format!("dimpsyholt: {name}:")), "{}", said.errors);
    }
}

#[test]
fn any_of_the_three_may_be_standard_input() {
    let folder = Folder::new("input");
    folder.write("model", OLD);
    folder.write("log", LOG);
    for (arguments, input) in [
        (["recheck", "-", "model", "log"], OLD),
        (["recheck", "model", "-", "log"], OLD),
        (["recheck", "model", "model", "-"], LOG),
    ] {
        assert_eq!(folder.run_with(&arguments, input.as_bytes()).status, 3);
    }
}

/// Over generated amendments, damaged ones too: the command says 0 or 3 exactly where the new model accepts the log.
#[test]
fn nothing_opens_that_the_new_model_does_not_accept() {
    let folder = Folder::new("generated");
    let text = |words: &[i32]| words.iter().map(|word| format!("{word}\n")).collect::<String>();
    let path = |name: &str| OsString::from(format!("{}/generated/{name}", env!("CARGO_TARGET_TMPDIR")));
    let arguments = [OsString::from("recheck"), path("old"), path("new"), path("log")];
    let mut tally: BTreeMap<u8, usize> = BTreeMap::new();
    for case in Cases::new(15).filter(|case| case.old.is_some()).take(3_000) {
        folder.write("old", text(case.old.as_deref().unwrap()));
        folder.write("new", text(&case.model));
        folder.write("log", text(&case.log));
        let mut said = Vec::new();
        let status = run(&arguments, &mut std::io::empty(), &mut said, &mut std::io::sink());
        let accepted = check(&case.model, &case.log, &mut vec![0; PLACES]).is_ok();
        assert_eq!(accepted, matches!(status, Status::Accepted | Status::Carried), "{case:?}");
        *tally.entry(status.number()).or_default() += 1;
    }
    for status in [0, 1, 3] {
        assert!(tally[&status] >= 100, "{tally:?}");
    }
}
