//! The command line of `ldi-gdb`.

use std::ffi::{OsStr, OsString};
use std::os::unix::ffi::OsStrExt;
use std::path::PathBuf;

/// What is printed for `--help`.
pub(super) const USAGE: &str = "\
usage: ldi-gdb MAP [-o OUT] [--objects FOLDER] [--members FOLDER]
       ldi-gdb MAP --symbols IMAGE -o OUT [--objects FOLDER]
       ldi-gdb MAP --lines [ADDRESS ..] [--objects FOLDER] [--members FOLDER]

Prints a script of gdb that loads each object of an image where its sections lie: source lines, static functions, types.
MAP is the map of the link (ldi link --Map, ld.ldi -Map).

  -o OUT             the file to write; without it standard output
  --objects FOLDER   the folder that the names of objects count from; the current one by default
  --members FOLDER   unpacks members of archives into this folder, for gdb
  --symbols IMAGE    writes a copy of the image to OUT with the local names of all objects
  --lines            prints object, section, function and source line of each ADDRESS (hexadecimal), or of those that
                     standard input has
  -h, --help         this text
  --version          the version
";

/// Why words are refused.
#[derive(Debug, PartialEq, Eq, thiserror::Error)]
pub(super) enum WordsRefused {
    #[error("no MAP is given")]
    MapMissing,
    #[error("{0} is no option")]
    UnknownOption(String),
    #[error("{0} has no value")]
    ValueMissing(String),
    #[error("--symbols needs -o OUT")]
    OutputMissing,
    #[error("addresses need --lines")]
    LinesMissing,
}

/// What is to be made.
#[derive(Clone, PartialEq, Eq, Debug)]
pub(super) enum Task {
    /// A script of gdb.
    Script,
    /// A copy of this image with local names.
    Copy(PathBuf),
    /// Lines of these addresses; those of standard input if there are none.
    Lines(Vec<OsString>),
}

/// The call that the words make.
#[derive(Clone, PartialEq, Eq, Debug)]
pub(super) struct GdbArguments {
    pub(super) map: PathBuf,
    pub(super) task: Task,
    pub(super) output: Option<PathBuf>,
    pub(super) objects: PathBuf,
    pub(super) members: Option<PathBuf>,
}

/// The options that have a value.
#[derive(Default)]
struct Values {
    output: Option<PathBuf>,
    objects: Option<PathBuf>,
    members: Option<PathBuf>,
    image: Option<PathBuf>,
}

impl Values {
    /// Where the value of an option goes; `None` for no such option.
    fn place(&mut self, option: &[u8]) -> Option<&mut Option<PathBuf>> {
        match option {
            b"-o" => Some(&mut self.output),
            b"--objects" => Some(&mut self.objects),
            b"--members" => Some(&mut self.members),
            b"--symbols" => Some(&mut self.image),
            _ => None,
        }
    }
}

/// An option and the value that is joined to it: `--objects=V`, `-oV`.
fn joined(word: &[u8]) -> (&[u8], Option<&[u8]>) {
    if let Some(value) = word.strip_prefix(b"-o").filter(|value| !value.is_empty()) {
        return (b"-o", Some(value));
    }
    match word.iter().position(|byte| *byte == b'=') {
        Some(at) => (word.get(..at).unwrap_or_default(), word.get(at + 1..)),
        None => (word, None),
    }
}

impl GdbArguments {
    /// Reads the words.
    pub(super) fn read(words: &[OsString]) -> Result<GdbArguments, WordsRefused> {
        let mut values = Values::default();
        let mut others = Vec::new();
        let (mut has_lines, mut is_over) = (false, false);
        let mut rest = words.iter();
        while let Some(word) = rest.next() {
            let shown = || word.to_string_lossy().into_owned();
            if is_over || !word.as_bytes().starts_with(b"-") {
                others.push(word.clone());
            } else if word == "--" {
                is_over = true;
            } else if word == "--lines" {
                has_lines = true;
            } else {
                let (option, value) = joined(word.as_bytes());
                let place = values.place(option).ok_or_else(|| WordsRefused::UnknownOption(shown()))?;
                let value = value.map(OsStr::from_bytes).or_else(|| rest.next().map(OsString::as_os_str));
                *place = Some(PathBuf::from(value.ok_or_else(|| WordsRefused::ValueMissing(shown()))?));
            }
        }
        GdbArguments::of(values, others, has_lines)
    }

    /// The call for the values of options and the other words.
    fn of(values: Values, mut others: Vec<OsString>, has_lines: bool) -> Result<GdbArguments, WordsRefused> {
        if others.is_empty() {
            return Err(WordsRefused::MapMissing);
        }
        let map = PathBuf::from(others.remove(0));
        let task = match values.image {
            Some(_) if values.output.is_none() => return Err(WordsRefused::OutputMissing),
            _ if !has_lines && !others.is_empty() => return Err(WordsRefused::LinesMissing),
            Some(image) => Task::Copy(image),
            None if has_lines => Task::Lines(others),
            None => Task::Script,
        };
        let objects = values.objects.unwrap_or_else(|| PathBuf::from("."));
        Ok(GdbArguments { map, task, output: values.output, objects, members: values.members })
    }
}

#[cfg(test)]
mod tests {
    use super::*;

    fn read(words: &[&str]) -> Result<GdbArguments, WordsRefused> {
        GdbArguments::read(&words.iter().map(OsString::from).collect::<Vec<_>>())
    }

    #[test]
    fn options_stand_anywhere() {
        let call = read(&["-oout", "a.map", "--objects=o", "--members", "m"]).unwrap();
        assert_eq!((call.map, call.output), (PathBuf::from("a.map"), Some(PathBuf::from("out"))));
        assert_eq!((call.objects, call.members), (PathBuf::from("o"), Some(PathBuf::from("m"))));
        assert_eq!(call.task, Task::Script);
        let call = read(&["--lines", "a.map", "10", "20"]).unwrap();
        assert_eq!(call.task, Task::Lines(vec!["10".into(), "20".into()]));
    }

    #[test]
    fn words_are_refused() {
        assert_eq!(read(&[]), Err(WordsRefused::MapMissing));
        assert_eq!(read(&["a.map", "10"]), Err(WordsRefused::LinesMissing));
        assert_eq!(read(&["a.map", "--symbols", "i"]), Err(WordsRefused::OutputMissing));
        assert_eq!(read(&["a.map", "-o"]), Err(WordsRefused::ValueMissing("-o".into())));
        assert_eq!(read(&["a.map", "--x"]), Err(WordsRefused::UnknownOption("--x".into())));
    }
}
