//! The command line of `ldi-adapt`.

use std::ffi::{OsStr, OsString};
use std::os::unix::ffi::OsStrExt;
use std::path::{Path, PathBuf};

use bstr::ByteSlice;

use crate::report::os_message;

/// What is printed for `--help`.
pub(super) const USAGE: &str = "\
usage: ldi-adapt SCRIPT [-o OUT | --check] [-L DIR].. [--defsym SYMBOL=EXPRESSION].. [--objects OBJECT.. | @LIST]

Rewrites a linker script of GNU ld into the profile of ldi, and reports on standard error what it did:
dropped, rewritten, changed, left. Status 0: nothing is changed or left; 1: changed; 2: left, or no parse.

  -o OUT                      the file to write; without it standard output
  --check                     no script is written: why ldi refuses SCRIPT (status 2), or else the report alone
  -L DIR                      where INCLUDE looks, after the current folder
  --defsym SYMBOL=EXPRESSION  an assignment before the script's
  --objects OBJECT..          the objects of the link: all words that follow, up to the next option
  --objects @LIST             the same, a path to each line of the file LIST
  -h, --help                  this text
  --version                   the version
";

/// Why words are refused.
#[derive(Debug, PartialEq, Eq, thiserror::Error)]
pub(super) enum WordsRefused {
    #[error("no SCRIPT is given")]
    NoScript,
    #[error("{0} is no option")]
    NoOption(String),
    #[error("{0} is a word too many")]
    TooMany(String),
    #[error("{0} has no value")]
    NoValue(String),
    #[error("--check writes no script, and -o names one")]
    NoOut,
    #[error("--defsym {0}: SYMBOL=EXPRESSION is expected")]
    Defsym(String),
    #[error("{0}: {1}")]
    List(String, String),
}

/// The call that the words make.
#[derive(Debug, Default, PartialEq, Eq)]
pub(super) struct AdaptArguments {
    pub(super) script: PathBuf,
    pub(super) out: Option<PathBuf>,
    /// Whether the script is looked at alone.
    pub(super) is_check: bool,
    pub(super) folders: Vec<PathBuf>,
    pub(super) defsyms: Vec<Vec<u8>>,
    pub(super) objects: Option<Vec<PathBuf>>,
}

impl AdaptArguments {
    /// Where INCLUDE looks after the current folder: those of -L, and the script's own.
    pub(super) fn all_folders(&self) -> Vec<PathBuf> {
        let own = self.script.parent().map_or_else(PathBuf::new, Path::to_owned);
        self.folders.iter().cloned().chain(std::iter::once(own)).collect()
    }

    /// Reads the words.
    pub(super) fn read(words: &[OsString]) -> Result<AdaptArguments, WordsRefused> {
        let mut call = AdaptArguments::default();
        let mut rest = words.iter().peekable();
        while let Some(word) = rest.next() {
            let bytes = word.as_bytes();
            let shown = || word.to_string_lossy().into_owned();
            let mut value = || rest.next().ok_or_else(|| WordsRefused::NoValue(shown()));
            match bytes {
                b"-o" => call.out = Some(value()?.into()),
                b"--check" => call.is_check = true,
                b"-L" => call.folders.push(value()?.into()),
                b"--defsym" => call.defsyms.push(defsym(value()?.as_bytes())?),
                b"--objects" => {
                    let list = call.objects.get_or_insert_with(Vec::new);
                    while let Some(word) = rest.next_if(|word| !word.as_bytes().starts_with(b"-")) {
                        list.extend(listed(word)?);
                    }
                }
                _ if bytes.starts_with(b"--defsym=") => {
                    call.defsyms.push(defsym(bytes.get(b"--defsym=".len()..).unwrap_or_default())?);
                }
                _ if bytes.starts_with(b"-L") => {
                    call.folders.push(PathBuf::from(OsStr::from_bytes(bytes.get(2..).unwrap_or_default())));
                }
                _ if bytes.starts_with(b"-") && bytes != b"-" => return Err(WordsRefused::NoOption(shown())),
                _ if !call.script.as_os_str().is_empty() => return Err(WordsRefused::TooMany(shown())),
                _ => call.script = word.into(),
            }
        }
        match call.script.as_os_str().is_empty() {
            true => Err(WordsRefused::NoScript),
            false if call.is_check && call.out.is_some() => Err(WordsRefused::NoOut),
            false => Ok(call),
        }
    }
}

fn defsym(text: &[u8]) -> Result<Vec<u8>, WordsRefused> {
    let parts: Vec<&[u8]> = text.splitn_str(2, b"=").collect();
    let is_fine = parts.len() == 2 && parts.iter().all(|part| !part.trim_with(char::is_whitespace).is_empty());
    is_fine.then(|| text.to_vec()).ok_or_else(|| WordsRefused::Defsym(text.to_str_lossy().into_owned()))
}

/// A path, or those of the file that `@LIST` names.
fn listed(word: &OsStr) -> Result<Vec<PathBuf>, WordsRefused> {
    let name = match word.as_bytes().strip_prefix(b"@") {
        None => return Ok(vec![word.into()]),
        Some(name) => OsStr::from_bytes(name),
    };
    let refused = |fault| WordsRefused::List(name.to_string_lossy().into_owned(), os_message(&fault));
    let text = std::fs::read(name).map_err(refused)?;
    let lines = text.lines().map(|line| line.trim_with(char::is_whitespace)).filter(|line| !line.is_empty());
    Ok(lines.map(|line| PathBuf::from(OsStr::from_bytes(line))).collect())
}

#[cfg(test)]
mod tests {
    use super::*;

    fn read(words: &[&str]) -> Result<AdaptArguments, WordsRefused> {
        AdaptArguments::read(&words.iter().map(OsString::from).collect::<Vec<_>>())
    }

    #[test]
    fn words_in_any_order() {
        let call = read(&["-L", "a", "s.ld", "-Lb", "--defsym=x=1", "--objects", "a.o", "b.o", "-o", "out"]).unwrap();
        assert_eq!(call.script, PathBuf::from("s.ld"));
        assert_eq!(call.folders, [PathBuf::from("a"), PathBuf::from("b")]);
        assert_eq!(call.defsyms, [b"x=1".to_vec()]);
        assert_eq!(call.objects.unwrap().len(), 2);
        assert_eq!(call.out, Some("out".into()));
    }

    #[test]
    fn words_that_are_refused() {
        assert_eq!(read(&[]), Err(WordsRefused::NoScript));
        assert_eq!(read(&["a", "b"]), Err(WordsRefused::TooMany("b".into())));
        assert_eq!(read(&["a", "--none"]), Err(WordsRefused::NoOption("--none".into())));
        assert_eq!(read(&["a", "-o"]), Err(WordsRefused::NoValue("-o".into())));
        assert_eq!(read(&["a", "--check", "-o", "b"]), Err(WordsRefused::NoOut));
        assert!(read(&["--check", "a"]).unwrap().is_check);
        assert_eq!(read(&["a", "--defsym", "x"]), Err(WordsRefused::Defsym("x".into())));
    }
}
