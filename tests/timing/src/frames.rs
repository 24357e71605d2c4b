//! The frames of the library, read off the archive by objdump (x86-64 only).

use std::collections::BTreeMap;
use std::path::Path;
use std::process::Command;

#[derive(Default)]
struct Function {
    /// The bytes that it takes from the stack, its return address included.
    frame: usize,
    calls: Vec<String>,
}

type Functions = BTreeMap<String, Function>;

const RETURN_ADDRESS: usize = 8;
const SAVED_REGISTER: usize = 8;

pub fn print() {
    let Some(folder) = std::env::var_os("DIMPSYHOLT_LIB_DIR") else {
        println!("DIMPSYHOLT_LIB_DIR is not set, so no frames were read.");
        return;
    };
    let archive = Path::new(&folder).join("libdimpsyholt.a");
    let functions = functions(&text("objdump", &["-dr", "-M", "intel"], &archive));
    println!("| Function | Own frame | With the deepest that it calls |");
    println!("|---|---|---|");
    for (name, function) in &functions {
        let deepest = deepest(name, &functions);
        println!("| {name} | {} bytes | {deepest} bytes |", function.frame);
    }
    println!();
    let symbols = text("nm", &["--undefined-only"], &archive);
    let asked: Vec<&str> = symbols.lines().filter_map(undefined).collect();
    println!("The archive asks of others: {}.", asked.join(", "));
}

fn text(program: &str, arguments: &[&str], archive: &Path) -> String {
    let output = Command::new(program).args(arguments).arg(archive).output();
    let output = output.unwrap_or_else(|error| panic!("{program}: {error}"));
    assert!(output.status.success(), "{program} {}", archive.display());
    String::from_utf8_lossy(&output.stdout).into_owned()
}

fn functions(disassembly: &str) -> Functions {
    let mut functions = Functions::new();
    let mut current = String::new();
    for line in disassembly.lines() {
        if let Some(name) = begun(line) {
            current = name.to_string();
            let fresh = Function {
                frame: RETURN_ADDRESS,
                ..Function::default()
            };
            functions.insert(current.clone(), fresh);
        } else if let Some(function) = functions.get_mut(&current) {
            function.frame += taken(line);
            function.calls.extend(called(line));
        }
    }
    functions
}

/// `0000000000000000 <name>:`
fn begun(line: &str) -> Option<&str> {
    let (_, name) = line.strip_suffix(">:")?.split_once('<')?;
    Some(name)
}

/// What a `push` or a `sub rsp` takes.
fn taken(line: &str) -> usize {
    let instruction = line.rsplit('\t').next().unwrap_or_default();
    let words: Vec<&str> = instruction.split_whitespace().collect();
    match words[..] {
        ["push", _] => SAVED_REGISTER,
        ["sub", operands] => operands
            .strip_prefix("rsp,0x")
            .and_then(|bytes| usize::from_str_radix(bytes, 16).ok())
            .unwrap_or(0),
        _ => 0,
    }
}

/// A relocation names what is called: `R_X86_64_PLT32 .text.name-0x4`
fn called(line: &str) -> Option<String> {
    let (_, target) = line.split_once("R_X86_64_PLT32")?;
    let target = target.trim().trim_start_matches(".text.");
    let (name, _) = target.rsplit_once('-')?;
    Some(name.to_string())
}

/// Nothing calls itself, so this ends.
fn deepest(name: &str, functions: &Functions) -> usize {
    let Some(function) = functions.get(name) else {
        return 0;
    };
    let below = function.calls.iter().map(|call| deepest(call, functions));
    function.frame + below.max().unwrap_or(0)
}

fn undefined(line: &str) -> Option<&str> {
    line.trim().strip_prefix("U ")
}
