//! `dimpsyholt check` on files and standard input, good and bad.

mod person;

use person::{Folder, Said};

const MODEL: &str = "# three variables, each 1 or 2, all different\n3  1 2  1 2  1 2\n1\n2 3 0 1 2\n";
const LOG: &str = "1 0 3  0 2 1  1 2 1  2 2 1  0\n2 0 0 1 0\n3 1\n";
const AT_LEAST: &str = "1 0 10 1  1 1 -3 -1 0"; // x0 in 0..10, -x0 <= -3

fn folder(name: &str) -> Folder {
    let folder = Folder::new(name);
    folder.write("model.txt", MODEL);
    folder.write("log.txt", LOG);
    folder
}

fn check(folder: &Folder, model: &str, log: &str) -> Said {
    folder.write("m", model);
    folder.write("l", log);
    let said = folder.run(&["check", "m", "l"]);
    assert_eq!(said.errors, "");
    said
}

#[test]
fn an_accepted_log_ends_in_0() {
    let said = folder("accepted").run(&["check", "model.txt", "log.txt"]);
    assert_eq!((said.status, said.out.as_str()), (0, "accepted: no assignment meets every row\n"));
    assert_eq!(said.errors, "");
    let said = check(&folder("accepted"), AT_LEAST, "1 0 0 1 0 2 3  4 0 3 0");
    assert_eq!((said.status, said.out.as_str()), (0, "accepted: variable 0 is never below 3\n"));
}

#[test]
fn a_refused_log_ends_in_1() {
    let folder = folder("refused");
    for (model, log, line) in [
        ("3 1 2 1 2 1 2 1 2 3 0 1", LOG, "refused 4 at model word 12: the model ends early"),
        ("65", LOG, "refused 5 at model word 0: a word of the model is outside its range"),
        ("2 0 1 0 1 1 2 2 0 0", LOG, "refused 6 at model word 9: a variable stands twice in a row of kind 2 or 4"),
        ("1 0 1 0 5", LOG, "refused 7 at model word 4: words follow the model"),
        (MODEL, "", "refused 10 at step 0, log word 0: the log ends between steps, without a conclusion"),
        (MODEL, "1 0", "refused 11 at step 0, log word 2: the log ends inside a step"),
        (MODEL, "1 1", "refused 12 at step 0, log word 1: a word of the log is outside its range"),
        (AT_LEAST, "1 0 0 1 0 2 3 4 0 3 0 9", "refused 13 at step 1, log word 11: words follow the conclusion"),
        (AT_LEAST, "1 0 0 1 0 2 0", "refused 20 at step 0: the box is empty: a variable has no value left"),
        (AT_LEAST, "1 0 0 1 0 2 4", "refused 21 at step 0: the row does not conflict"),
        (AT_LEAST, "1 0 1 0 2 1 0 2 0 0 1 0", "refused 21 at step 0: the row does not conflict"),
        (AT_LEAST, "1 0 1 0 1 1 0 2 0 0 1 0", "refused 22 at step 1, hint 0: a hint does not apply"),
        (AT_LEAST, "1 0 1 0 1 1 0 2 0 0 0", "refused 23 at step 1: the hints are used up without a conflict"),
        (AT_LEAST, "1 0 1 0 1 1 0 3 0", "refused 24 at step 1: the fact does not fit the conclusion"),
    ] {
        let said = check(&folder, model, log);
        assert_eq!((said.status, said.out), (1, format!("{line}\n")));
    }
}

#[test]
fn long_tables_are_refused_by_the_library() {
    let folder = folder("long");
    let said = check(&folder, &"0 ".repeat(4_097), LOG);
    assert_eq!((said.status, said.verdict()), (1, "refused 1: the model has more than 4,096 words"));
    let said = check(&folder, MODEL, &"0\n".repeat(16_385));
    assert_eq!((said.status, said.verdict()), (1, "refused 2: the log has more than 16,384 words"));
}

#[test]
fn one_table_may_come_from_standard_input() {
    let folder = folder("stdin");
    let said = folder.run_with(&["check", "-", "log.txt"], MODEL.as_bytes());
    assert_eq!((said.status, said.verdict()), (0, "accepted: no assignment meets every row"));
    let said = folder.run_with(&["check", "model.txt", "-"], LOG.as_bytes());
    assert_eq!((said.status, said.verdict()), (0, "accepted: no assignment meets every row"));
    let said = folder.run_with(&["check", "model.txt", "-"], b"");
    assert_eq!((said.status, said.verdict().split(':').next()), (1, Some("refused 10 at step 0, log word 0")));
    let said = folder.run_with(&["check", "model.txt", "-"], b"1 0\n 3x");
    assert_eq!((said.status, said.errors.as_str()), (2, "dimpsyholt: standard input:2:3: 'x' is no part of a word\n"));
}

#[test]
fn comments_and_line_ends_say_nothing() {
    let folder = folder("layout");
    let crlf = MODEL.replace('\n', "\r\n");
    let spread = LOG.replace(' ', "\t\n\n  ");
    assert_eq!(check(&folder, &crlf, &spread).status, 0);
    let commented = LOG.replace('\n', "# 99 --- x + \u{e4}\n");
    assert_eq!(check(&folder, MODEL.trim_end(), &commented).status, 0);
    let zeros = LOG.replace(" 0", " -000");
    assert_eq!(check(&folder, MODEL, &zeros).status, 0);
}

#[test]
fn what_is_no_word_has_its_place() {
    let folder = folder("words");
    for (text, place) in [
        (&b"3 1 2\n+1 2"[..], "2:1: '+' is no part of a word"),
        (b"3 1 2\n 1 2a 1 2", "2:5: 'a' is no part of a word"),
        (b"3, 1", "1:2: ',' is no part of a word"),
        (b"3 - 1", "1:3: a minus without digits"),
        (b"3 2147483648", "1:3: 2147483648 is no signed 32-bit number"),
        (b"3 1.5", "1:4: '.' is no part of a word"),
        (b"0x10", "1:2: 'x' is no part of a word"),
        (b"3 1\n\n\xff", "3:1: this is not UTF-8"),
        (b"3 1\0", "1:4: U+0000 is no part of a word"),
        (b"\xef\xbb\xbf3", "1:1: U+FEFF is no part of a word"),
    ] {
        folder.write("bad", text);
        let said = folder.run(&["check", "bad", "log.txt"]);
        assert_eq!((said.status, said.out.as_str()), (2, ""));
        assert_eq!(said.errors, format!("dimpsyholt: bad:{place}\n"));
        let said = folder.run(&["check", "model.txt", "bad"]);
        assert_eq!((said.status, said.errors), (2, format!("dimpsyholt: bad:{place}\n")));
    }
}

#[test]
fn files_that_cannot_be_read_end_in_2() {
    let folder = folder("files");
    for (arguments, error) in [
        (["check", "nowhere", "log.txt"], "nowhere: No such file"),
        (["check", "model.txt", "nowhere"], "nowhere: No such file"),
        (["check", ".", "log.txt"], ".: Is a directory"),
        (["check", "", "log.txt"], ": No such file"),
        (["check", "/dev/zero", "log.txt"], "/dev/zero: this is larger than 16 MiB"),
        (["explain", "nowhere", "log.txt"], "nowhere: No such file"),
    ] {
        let said = folder.run(&arguments);
        assert_eq!((said.status, said.out.as_str()), (2, ""));
        assert!(said.errors.starts_with(&format!("dimpsyholt: {error}")), "{}", said.errors);
    }
}

#[test]
fn empty_files_are_tables_without_words() {
    let folder = folder("empty");
    assert_eq!(check(&folder, "", LOG).verdict(), "refused 4 at model word 0: the model ends early");
    assert_eq!(check(&folder, "# nothing\n", LOG).status, 1);
}

#[test]
fn the_places_of_the_steps_that_passed_are_written() {
    let folder = folder("places");
    let said = folder.run(&["check", "model.txt", "log.txt", "--places", "places.txt"]);
    assert_eq!((said.status, folder.read("places.txt").as_str()), (0, "0\n13\n18\n"));

    folder.write("cut", LOG.replace("3 1\n", ""));
    let said = folder.run(&["check", "--places", "places.txt", "model.txt", "cut"]);
    assert_eq!((said.status, folder.read("places.txt").as_str()), (1, "0\n13\n"));

    let said = folder.run(&["check", "log.txt", "log.txt", "--places", "places.txt"]);
    assert_eq!((said.status, folder.read("places.txt").as_str()), (1, ""));
}

#[test]
fn places_that_cannot_be_written_give_no_verdict() {
    let folder = folder("unwritten");
    let said = folder.run(&["check", "model.txt", "log.txt", "--places", "."]);
    assert_eq!((said.status, said.out.as_str()), (2, ""));
    assert!(said.errors.starts_with("dimpsyholt: .: "), "{}", said.errors);

    let said = folder.run(&["check", "model.txt", "log.txt", "--places", "./log.txt"]);
    assert_eq!((said.status, said.out.as_str()), (2, ""));
    assert_eq!(folder.read("log.txt"), LOG);
}

#[test]
fn a_verdict_that_cannot_be_printed_is_none() {
    let folder = folder("full");
    let full = std::fs::OpenOptions::new().write(true).open("/dev/full").unwrap();
    let status = folder.command(&["check", "model.txt", "log.txt"]).stdout(full).status().unwrap();
    assert_eq!(status.code(), Some(2));
}

#[test]
fn a_name_may_begin_with_a_dash() {
    let folder = folder("dash");
    folder.write("--json", MODEL);
    folder.write("-l", LOG);
    let said = folder.run(&["check", "--", "--json", "-l"]);
    assert_eq!((said.status, said.verdict()), (0, "accepted: no assignment meets every row"));
    assert_eq!(folder.run(&["check", "./--json", "./-l"]).status, 0);
    assert_eq!(folder.run(&["check", "--json", "-l"]).status, 2);
}
