//! The command line, JSON, help and version.

mod person;

use person::Folder;

const MODEL: &str = "1 0 10 1  1 1 -3 -1 0";
const LOG: &str = "1 0 0 1 0 2 3  4 0 3 0";

fn folder(name: &str) -> Folder {
    let folder = Folder::new(name);
    folder.write("model", MODEL);
    folder.write("log", LOG);
    folder.write("stricter", MODEL.replace("-3", "-4"));
    folder.write("cut", "1 0 0 1 0 2 3");
    folder.write("bad \"table\"", "1\n 2 x");
    folder
}

#[test]
fn bad_usage_ends_in_2() {
    let folder = folder("usage");
    for (arguments, error) in [
        (&[][..], "nothing is asked for"),
        (&["verify", "model", "log"], "verify is no command"),
        (&["model", "log"], "model is no command"),
        (&["check"], "check needs two files: MODEL LOG"),
        (&["check", "model"], "check needs two files: MODEL LOG"),
        (&["check", "model", "log", "log"], "check needs two files: MODEL LOG"),
        (&["explain", "model"], "explain needs two files: MODEL LOG"),
        (&["recheck", "model", "log"], "recheck needs three files: OLD NEW LOG"),
        (&["check", "-", "-"], "standard input can be read once"),
        (&["recheck", "-", "model", "-"], "standard input can be read once"),
        (&["check", "model", "log", "--verbose"], "--verbose is no option"),
        (&["check", "model", "log", "-v"], "-v is no option"),
        (&["check", "model", "log", "--places"], "--places needs a file"),
        (&["check", "model", "log", "--places", "-"], "--places needs a file, standard output has the verdict"),
        (&["check", "model", "log", "--places", "a", "--places", "b"], "--places is given twice"),
        (&["recheck", "model", "model", "log", "--places", "a"], "recheck has no --places"),
        (&["explain", "model", "log", "--places", "a"], "explain has no --places"),
        (&["--help", "model"], "--help stands alone"),
        (&["check", "--help"], "--help is no option"),
    ] {
        let said = folder.run(arguments);
        assert_eq!((said.status, said.out.as_str()), (2, ""), "{arguments:?}");
        assert_eq!(said.errors, format!("dimpsyholt: {error}; see dimpsyholt --help\n"));
    }
    let said = folder.run(&["explain", "model", "log", "--json"]);
    assert_eq!(said.status, 2);
    assert!(said.out.contains("explain is for people and has no --json"), "{}", said.out);
}

#[test]
fn help_and_version_are_said() {
    let folder = folder("help");
    let said = folder.run(&["--help"]);
    assert_eq!((said.status, said.errors.as_str()), (0, ""));
    assert!(said.out.contains("Exit status: 0 accepted, 1 refused, 2 bad files or usage, 3 carried."));
    let said = folder.run(&["--version"]);
    assert_eq!((said.status, said.out.as_str()), (0, "dimpsyholt 1.0.0, library 1.0.0, table format 1\n"));
}

/// The members of a flat line of JSON whose strings hold no comma before a quote.
fn keys(line: &str) -> Vec<String> {
    let inner = line.trim_end().strip_prefix("{\"").unwrap().strip_suffix('}').unwrap();
    let members = inner.split(",\"");
    members.map(|member| member.split_once("\":").unwrap().0.to_string()).collect()
}

#[test]
fn json_is_one_line_with_the_same_keys() {
    let folder = folder("json");
    let nulls = r#""conclusion":null,"variable":null,"value":null,"number":null,"step":null,"position":null,"changed":null,"judged":null,"old":null"#;
    let no_file = r#""file":null,"line":null,"column":null"#;
    for (arguments, line) in [
        (
            &["check", "model", "log", "--json"][..],
            format!(
                r#"{{"verdict":"accepted","exit":0,"text":"accepted: variable 0 is never below 3","conclusion":4,"variable":0,"value":3,"number":null,"step":null,"position":null,"changed":null,"judged":null,"old":null,{no_file}}}"#
            ),
        ),
        (
            &["check", "--json", "model", "cut"],
            format!(
                r#"{{"verdict":"refused","exit":1,"text":"refused 10 at step 1, log word 7: the log ends between steps, without a conclusion","conclusion":null,"variable":null,"value":null,"number":10,"step":1,"position":7,"changed":null,"judged":null,"old":null,{no_file}}}"#
            ),
        ),
        (
            &["recheck", "model", "stricter", "log", "--json"],
            format!(
                r#"{{"verdict":"carried","exit":3,"text":"carried: variable 0 is never below 3","conclusion":4,"variable":0,"value":3,"number":null,"step":null,"position":null,"changed":1,"judged":1,"old":"accepted: variable 0 is never below 3",{no_file}}}"#
            ),
        ),
        (
            &["check", "model", "bad \"table\"", "--json"],
            format!(
                r#"{{"verdict":"error","exit":2,"text":"'x' is no part of a word",{nulls},"file":"bad \"table\"","line":2,"column":4}}"#
            ),
        ),
        (
            &["check", "nowhere", "log", "--json"],
            format!(
                r#"{{"verdict":"error","exit":2,"text":"No such file or directory (os error 2)",{nulls},"file":"nowhere","line":null,"column":null}}"#
            ),
        ),
        (
            &["--json"],
            format!(
                r#"{{"verdict":"error","exit":2,"text":"--json is no command; see dimpsyholt --help",{nulls},{no_file}}}"#
            ),
        ),
    ] {
        let said = folder.run(arguments);
        assert_eq!((said.out.as_str(), said.errors.as_str()), (format!("{line}\n").as_str(), ""));
        assert!(line.contains(&format!("\"exit\":{},", said.status)));
        assert_eq!(keys(&line).len(), 15);
        assert_eq!(keys(&line), keys(&folder.run(&["check", "model", "log", "--json"]).out));
    }
}
