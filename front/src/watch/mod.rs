//! `ldi-watch`: keeps a session open over files that change, and an image up to date (docs/watch.md).

mod arguments;
mod as_ld;
mod commands;
mod event_timer;
mod events;
mod group;
mod inputs;
mod jobserver;
mod linking;
mod listing;
mod making;
mod output_files;
mod places;
mod plain;
mod reported;
mod reporter;
mod running;
mod sources;
mod stops;
mod turns;
mod usage;
mod working_folder;

use std::ffi::OsString;
use std::io::Write;
use std::os::unix::ffi::OsStrExt;

use bstr::BString;

use crate::once::Status;
use crate::plan::{own_version, Environment};
use arguments::{read_words, USAGE};
use jobserver::Jobserver;
use listing::check_files;
use stops::Stops;
use turns::{Watch, WatchFault};

/// The program `ldi-watch`; gives its exit status.
pub fn main(words: &[OsString]) -> u8 {
    let jobserver = Jobserver::of_environment();
    let words: Vec<BString> = words.iter().map(|word| BString::from(word.as_bytes())).collect();
    if let [word] = words.as_slice() {
        if word == "-h" || word == "--help" {
            let _ = write!(std::io::stdout(), "{USAGE}");
            return Status::Good as u8;
        }
        if word == "--version" {
            let environment: Environment = std::env::vars_os().collect();
            println!("ldi-watch {}", own_version(&environment));
            return Status::Good as u8;
        }
    }
    let asked = match read_words(&words) {
        Ok(asked) => asked,
        Err(refused) => {
            let _ = write!(std::io::stderr(), "ldi-watch: {refused}\n\n{USAGE}");
            return Status::Refused as u8;
        }
    };
    if let Err(refused) = check_files(&asked) {
        eprintln!("ldi-watch: {refused}");
        return Status::Refused as u8;
    }
    watch(&asked, &jobserver).unwrap_or_else(|fault| {
        eprintln!("ldi-watch: {fault}");
        fault.status() as u8
    })
}

fn watch(words: &arguments::Words, jobserver: &Jobserver) -> Result<u8, WatchFault> {
    let stops = Stops::new(words.is_once)?;
    let mut watch = Watch::new(words, &stops, jobserver)?;
    let status = watch.run();
    watch.end();
    status
}
