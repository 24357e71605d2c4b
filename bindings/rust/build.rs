//! Links libdimpsyholt.a from the folder that DIMPSYHOLT_LIB_DIR names.
//!
//! `cargo check` and `cargo doc` need no archive, so a missing one is said here and found by the linker.

use std::env;
use std::fs;
use std::path::Path;

const LIBRARY: &str = "libdimpsyholt.a";
const TOOL: &str = "tools/native-archive dimpsyholt";

fn main() {
    println!("cargo:rerun-if-changed=build.rs");
    println!("cargo:rerun-if-env-changed=DIMPSYHOLT_LIB_DIR");
    println!("cargo:rustc-link-lib=static=dimpsyholt");
    match env::var("DIMPSYHOLT_LIB_DIR") {
        Err(_) => warn(&format!(
            "to link, set DIMPSYHOLT_LIB_DIR to the folder of {LIBRARY}; `{TOOL} FOLDER/{LIBRARY}` writes it"
        )),
        Ok(folder) => link_from(&folder),
    }
}

fn link_from(folder: &str) {
    let archive = Path::new(folder).join(LIBRARY);
    println!("cargo:rerun-if-changed={}", archive.display());
    let shown = archive.display();
    let wanted = env::var("CARGO_CFG_TARGET_ARCH").unwrap_or_default();
    match fs::read(&archive) {
        Err(_) => warn(&format!("there is no {shown}; `{TOOL} {shown}` writes it")),
        Ok(bytes) => match processor(&bytes) {
            Some(name) if name != wanted => warn(&format!(
                "{shown} is for {name}, and this build is for {wanted}; \
                 `{TOOL} {shown}` writes one for x86-64, the one processor that the toolchain has"
            )),
            _ => println!("cargo:rustc-link-search=native={folder}"),
        },
    }
}

fn warn(what: &str) {
    println!("cargo:warning={what}");
}

/// The processor that the first ELF file of an archive is for, by cargo's name of it.
fn processor(archive: &[u8]) -> Option<&'static str> {
    let start = archive.windows(4).position(|bytes| bytes == b"\x7fELF")?;
    match archive.get(start + 18..start + 20)? {
        [62, 0] => Some("x86_64"),
        [183, 0] => Some("aarch64"),
        _ => Some("another processor"),
    }
}
