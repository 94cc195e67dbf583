//! One program under the names of several: by `argv[0]`, or as `ldi-front NAME ..`.

use std::ffi::{OsStr, OsString};
use std::io::Write;
use std::path::Path;
use std::process::ExitCode;

/// The program that a name stands for.
fn program_of(name: &OsStr) -> Option<fn(&[OsString]) -> u8> {
    match Path::new(name).file_name()?.to_str()? {
        "ld.ldi" | "ld" | "ld.bfd" => Some(ldi_front::once::main),
        "ldi-adapt" => Some(ldi_front::adapt::main),
        "ldi-gdb" => Some(ldi_front::gdb::main),
        "ldi-server" => Some(ldi_front::server::main),
        "ldi-watch" => Some(ldi_front::watch::main),
        _ => None,
    }
}

fn main() -> ExitCode {
    let words: Vec<OsString> = std::env::args_os().collect();
    let by_own_name = words.first().and_then(|name| Some((program_of(name)?, 1)));
    let by_first_word = || words.get(1).and_then(|name| Some((program_of(name)?, 2)));
    match by_own_name.or_else(by_first_word) {
        Some((program, first)) => ExitCode::from(program(words.get(first..).unwrap_or_default())),
        None => {
            let usage = "usage: ldi-front ld.ldi|ldi-watch|ldi-adapt|ldi-gdb ARGUMENTS..";
            let _ = writeln!(std::io::stderr(), "{usage}");
            ExitCode::from(2)
        }
    }
}
