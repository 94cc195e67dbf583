//! Tests of what is read and printed.

mod constructs;
mod places;
mod print;
mod random;
mod refused;
mod tokens;

use std::path::Path;

use super::{parse, Reading};

/// Reads a text that is a script.
fn read(text: &str) -> Reading {
    match parse(Path::new("script"), text.as_bytes()) {
        Ok(reading) => reading,
        Err(error) => panic!("{error} in {text:?}"),
    }
}

/// The text again, printed, with single spaces.
fn printed(text: &str) -> String {
    let printed = print::script(&read(text).script);
    let words: Vec<String> = String::from_utf8_lossy(&printed).split_whitespace().map(str::to_owned).collect();
    words.join(" ")
}
