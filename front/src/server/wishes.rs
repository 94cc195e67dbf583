//! What the words of a call wish of servers.
//!
//! A call that a server makes reads its words no further: they are read only if one of them may name an option that is
//! looked at here.

use std::ffi::{OsStr, OsString};
use std::fs;
use std::os::unix::ffi::OsStrExt;
use std::path::{Path, PathBuf};

use bstr::{BString, ByteSlice};

use super::links::are_lasting_words;
use crate::command::{expand_words, read_command, Command, ServerRequest};
use crate::snapshot::is_by_process;

/// The options that a call looks at, without their dashes.
const OPTIONS: [&str; 4] = ["no-server", "server-status", "server-stop", "verbose"];
/// The bytes of these that a name has at least.
const MIN_LENGTH: usize = 2;
/// What the text of a response file has if one of its words may name an option: how these begin, what may stand in them
/// besides, or another file.
const MARKS: [&str; 7] = ["-no", "-se", "-ve", "@", "\\", "'", "\""];

/// What is wished of servers.
#[derive(Clone, PartialEq, Eq, Debug, Default)]
pub(super) struct Wishes {
    /// `--server-status` or `--server-stop`
    pub(super) request: Option<ServerRequest>,
    /// The output of `-o`, for a request.
    pub(super) output: Option<PathBuf>,
    /// `--no-server`, or words that are no command line: no server makes such a link.
    pub(super) is_without_server: bool,
    /// `--verbose`
    pub(super) is_verbose: bool,
}

impl Wishes {
    /// The wishes of some words.
    pub(super) fn of(words: &[OsString]) -> Wishes {
        let own: Vec<&[u8]> = words.iter().map(|word| word.as_bytes()).collect();
        if !own.iter().any(|word| may_be_looked_at(word) || has_marks(word)) {
            return Wishes::default();
        }
        // A file that can be read once is left to the process that links; no server does.
        let words: Vec<BString> = match are_lasting_words(words) {
            true => expand_words(own).words,
            false => own.into_iter().map(BString::from).collect(),
        };
        if !words.iter().any(|word| may_be_looked_at(word)) {
            return Wishes::default();
        }
        let without_server = || Wishes { is_without_server: true, ..Wishes::default() };
        read_command(&words).map_or_else(|_| without_server(), Wishes::of_command)
    }

    fn of_command(command: Command) -> Wishes {
        Wishes {
            request: command.server_request,
            output: Some(command.output).filter(|_| command.has_output),
            is_without_server: command.is_without_server,
            is_verbose: command.is_verbose,
        }
    }
}

/// Whether a word is that of a response file in which a word may name one of the options.
fn has_marks(word: &[u8]) -> bool {
    let path = match word.strip_prefix(b"@") {
        Some(name) => Path::new(OsStr::from_bytes(name)),
        None => return false,
    };
    let is_regular = !is_by_process(path) && fs::metadata(path).map_or(false, |found| found.is_file());
    let text = if is_regular { fs::read(path).unwrap_or_default() } else { Vec::new() };
    MARKS.iter().any(|mark| text.contains_str(mark))
}

/// Whether a word may name one of the options, whole or shortened.
fn may_be_looked_at(word: &[u8]) -> bool {
    let text = match word.strip_prefix(b"-") {
        Some(text) => text.strip_prefix(b"-").unwrap_or(text),
        None => return false,
    };
    let name = text.find_byte(b'=').and_then(|end| text.get(..end)).unwrap_or(text);
    name.len() >= MIN_LENGTH && OPTIONS.iter().any(|option| option.as_bytes().starts_with(name))
}

#[cfg(test)]
mod tests {
    use super::*;
    use crate::command::{Action, Effect, OptionRow};

    fn wishes(text: &str) -> Wishes {
        Wishes::of(&text.split_whitespace().map(OsString::from).collect::<Vec<OsString>>())
    }

    #[test]
    fn options_are_those_of_the_command() {
        let without = Wishes { is_without_server: true, ..Wishes::default() };
        for text in ["--no-server a.o", "-no-server a.o", "a.o --no-ser"] {
            assert_eq!(wishes(text), without, "{text}");
        }
        for (text, request) in [("--server-sta", ServerRequest::Status), ("-server-stop", ServerRequest::Stop)] {
            assert_eq!(wishes(text).request, Some(request), "{text}");
            assert_eq!(wishes(text).output, None, "{text}");
        }
        assert_eq!(wishes("--server-stop -ox").output, Some("x".into()));
        assert!(wishes("--verbose=2 a.o").is_verbose && wishes("-verbose a.o").is_verbose);
    }

    #[test]
    fn a_value_is_no_option() {
        for text in ["-o --no-server a.o", "--defsym -no-server", "-T --verbose", "a.o -no", "--no-serve=1"] {
            let found = wishes(text);
            assert_eq!((found.request, found.is_verbose), (None, false), "{text}");
        }
        assert!(!wishes("-o --no-server a.o").is_without_server);
        assert!(wishes("--no-serve=1").is_without_server, "no command line");
    }

    #[test]
    fn words_of_files_are_looked_at() {
        let path = std::env::temp_dir().join(format!("ldi-front-wishes-{}", std::process::id()));
        let word = format!("@{}", path.display());
        for (text, is_without) in
            [("a.o --no-'server'", true), ("-no-server", true), ("--n\\o-server", true), ("a.o\n-o\nimage", false)]
        {
            std::fs::write(&path, text).unwrap();
            assert_eq!(wishes(&word).is_without_server, is_without, "{text}");
        }
        assert_eq!(wishes(&format!("--server-stop {word}")).output, Some("image".into()));
        std::fs::remove_file(path).unwrap();
    }

    /// The words are read if they may name an option that a call looks at, and only then.
    #[test]
    fn words_are_read_for_these_options_alone() {
        let is_looked_at = |row: &OptionRow| {
            matches!(row.effect, Effect::Taken(Action::NoServer | Action::Server(_) | Action::Verbose))
        };
        let rows = crate::command::OPTIONS.iter().filter(|row| is_looked_at(row));
        let mut names: Vec<&str> = rows.flat_map(OptionRow::names).collect();
        names.sort_unstable();
        assert_eq!(names, OPTIONS);
        for word in ["--no-server", "-no-server", "--serv", "--ver", "--verbose=1"] {
            assert!(may_be_looked_at(word.as_bytes()), "{word}");
        }
        for option in OPTIONS {
            let start = option.get(..MIN_LENGTH).unwrap();
            assert!(MARKS.contains(&format!("-{start}").as_str()), "{option}");
        }
        for word in ["-n", "-v", "--no-servers", "--no-relax", "no-server", "-", "--", "-s", "--gc-sections"] {
            assert!(!may_be_looked_at(word.as_bytes()), "{word}");
        }
    }
}
