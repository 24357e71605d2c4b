//! The command `dimpsyholt`: everything is in the library beside, where the tests reach it.

use std::io::{stderr, stdin, stdout};
use std::process::ExitCode;

fn main() -> ExitCode {
    let arguments: Vec<_> = std::env::args_os().skip(1).collect();
    let status = command::run(&arguments, &mut stdin().lock(), &mut stdout().lock(), &mut stderr().lock());
    ExitCode::from(status.number())
}
