//! The jobserver of a `make` that started this program, for the `make` of a command that this program starts.
//!
//! GNU make hands its jobs out through a pipe whose descriptors MAKEFLAGS names. Commands inherit these descriptors
//! if they are open, for example in a rule that begins with `+`; if they are not, what names them is taken out of the
//! environment, so that the `make` of a command makes a jobserver of its own for the number of `-j`, and does not go on
//! with one job.

use std::ffi::OsString;
use std::os::unix::fs::FileTypeExt;

const VARIABLES: [&str; 2] = ["MAKEFLAGS", "MFLAGS"];
const PREFIXES: [&str; 2] = ["--jobserver-auth=", "--jobserver-fds="];

/// What commands get of the jobserver. It is made before the program opens anything, which takes descriptors.
#[derive(Clone, Debug, Default)]
pub(super) struct Jobserver {
    /// The variables of the environment that are others for commands.
    pub(super) variables: Vec<(&'static str, OsString)>,
}

impl Jobserver {
    pub(super) fn of_environment() -> Jobserver {
        let flags = std::env::var("MAKEFLAGS").unwrap_or_default();
        let words = named(&flags);
        let is_lost = words.map_or(false, |words| !words.starts_with("fifo:") && !is_open(words));
        let variables = VARIABLES.iter().filter(|_| is_lost);
        let variables = variables.filter_map(|name| Some((*name, without(&std::env::var(name).ok()?).into())));
        Jobserver { variables: variables.collect() }
    }
}

/// The word of the flags that names the jobserver.
fn named(flags: &str) -> Option<&str> {
    flags.split_whitespace().find_map(|word| PREFIXES.iter().find_map(|prefix| word.strip_prefix(prefix)))
}

/// The flags without what names the jobserver.
fn without(flags: &str) -> String {
    let words = flags.split(' ').filter(|word| !PREFIXES.iter().any(|prefix| word.starts_with(prefix)));
    words.collect::<Vec<_>>().join(" ")
}

/// Whether the two descriptors of a jobserver's pipe are open.
fn is_open(words: &str) -> bool {
    let numbers: Vec<Option<u32>> = words.split(',').map(|word| word.parse().ok()).collect();
    let is_pipe = |number: Option<u32>| {
        let path = number.filter(|number| *number > 2).map(|number| format!("/proc/self/fd/{number}"));
        path.and_then(|path| std::fs::metadata(path).ok()).map_or(false, |found| found.file_type().is_fifo())
    };
    numbers.len() == 2 && numbers.into_iter().all(is_pipe)
}

#[cfg(test)]
mod tests {
    use super::{is_open, named, without};

    #[test]
    fn the_jobserver_is_found_and_taken_out() {
        let flags = "rR -j4 --jobserver-auth=98,99 -- A=1";
        assert_eq!(named(flags), Some("98,99"));
        assert_eq!(without(flags), "rR -j4 -- A=1");
        assert_eq!(named("k"), None);
    }

    #[test]
    fn descriptors_that_are_no_pipe_are_not_open() {
        assert!(!is_open("1,2") && !is_open("98,99") && !is_open("-2,-2") && !is_open("x"));
    }
}
