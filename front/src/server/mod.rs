//! The server behind `ld.ldi`: a process in the background that keeps the link of an output open.
//!
//! A call asks the server of its output, and starts one if there is none. The server makes the link and writes the
//! new files beside their places; the call puts them there and prints what the server said. If the server does not
//! link, the call links by itself.

mod call;
mod host;
mod key;
mod links;
mod serve;
mod start;
mod status;
mod usage;
mod wire;
mod wishes;

use std::ffi::{OsStr, OsString};
use std::path::{Path, PathBuf};
use std::sync::atomic::AtomicBool;
use std::sync::Arc;
use std::time::Duration;

use signal_hook::consts::{SIGHUP, SIGINT, SIGTERM};

use crate::once::say;
use crate::plan::{Environment, WITHIN};
use crate::publish::{remove_apart, remove_left};
use call::{answer_limit, Call, Declined};
use key::{output_of, sockets_folder, value_of, Key};
pub(crate) use links::are_lasting_words;
pub use serve::main;
use wishes::Wishes;

/// The time in which a server that was started has to answer, or longer, by LDI_SERVER_ANSWER.
const START: Duration = Duration::from_secs(5);

/// Has the words' link made by the server of the output, or `by_itself`; gives the exit status.
pub fn call(words: &[OsString], environment: &Environment, by_itself: impl Fn(&[OsString]) -> u8) -> u8 {
    let wishes = Wishes::of(words);
    if let Some(request) = wishes.request {
        return status::run(request, wishes.output.as_deref(), environment);
    }
    let is_within = environment.contains_key(OsStr::new(WITHIN));
    if wishes.is_without_server || is_within || value_of(environment, "LDI_SERVER") == "0" {
        return by_itself(words);
    }
    match served(words, environment, wishes.is_verbose) {
        Some(status) => status,
        None => by_itself(words),
    }
}

/// The exit status by a server; `None` if the call links by itself.
fn served(words: &[OsString], environment: &Environment, is_verbose: bool) -> Option<u8> {
    let key = Key::of(words, environment).ok()?;
    let path = key.socket(&sockets_folder(environment)?)?;
    let call = Call { words, environment, key: &key };
    let declined = match path.exists() {
        true => {
            end_by_signals();
            match call.ask(&path, answer_limit(environment)) {
                Ok(status) => return Some(status),
                Err(declined) => Some(declined),
            }
        }
        false => None,
    };
    if let Some(declined) = &declined {
        clear(words, declined, is_verbose);
    }
    if let Some(why) = start::why_not_ours(environment) {
        if is_verbose {
            say(format!("no server is left {why}; LDI_SERVER=1 allows one"));
        }
        return None;
    }
    let has_place = declined.as_ref().map_or(true, |declined| declined.is_gone);
    if !has_place || !start::is_for_server(words) {
        return None;
    }
    start_and_ask(&call, &path, declined.is_some(), is_verbose)
}

/// Starts a server, which makes the link.
fn start_and_ask(call: &Call<'_>, path: &Path, replaces: bool, is_verbose: bool) -> Option<u8> {
    end_by_signals();
    start::start(path, replaces).ok()?;
    match call.ask(path, START.max(answer_limit(call.environment))) {
        Ok(status) => Some(status),
        Err(declined) => {
            clear(call.words, &declined, is_verbose);
            None
        }
    }
}

/// Removes what a server left that has gone, and says why it did not link.
fn clear(words: &[OsString], declined: &Declined, is_verbose: bool) {
    let output: PathBuf = key::real_path(&output_of(words));
    if declined.is_gone {
        remove_apart(&output);
    } else {
        remove_left(&output);
    }
    if is_verbose {
        say(format!("the server did not link: {declined}"));
    }
}

/// Ends the call at once by a signal, whatever the server does.
fn end_by_signals() {
    for signal in [SIGTERM, SIGHUP, SIGINT] {
        // If that cannot be, the system's own way is as good.
        let always = Arc::new(AtomicBool::new(true));
        let _ = signal_hook::flag::register_conditional_shutdown(signal, 128 + signal, always);
    }
}
