//! The words of `ldi-watch`: those of `ldi link`, its own, and those of GNU ld that `ld.ldi` takes.

use std::collections::HashMap;
use std::ffi::OsStr;
use std::os::unix::ffi::OsStrExt;
use std::path::PathBuf;

use bstr::{BStr, BString, ByteSlice};

use crate::command::{find_option, Argument, FoundOption};
use crate::session_client::{Options, Orphans};

/// What `--help` prints.
pub(super) const USAGE: &str = "\
usage: ldi-watch -T SCRIPT -o IMAGE [--Map MAP] [--gc-sections] [-e SYMBOL] [--orphan-handling HANDLING]
                 [--make COMMAND [--sources PATTERN..]] [--run COMMAND] [--gdb FILE] [--json] [--once]
                 [OPTION OF GNU LD..] OBJECT.. | ARCHIVE.. | @LIST

Keeps IMAGE up to date while the script and the objects change. The words of `ldi link` mean what they mean there. With
other options of GNU ld, archives, or a script that is not of the profile, the image is that of `ld.ldi`.

  @LIST                a file with an object's name a line, read again when it changes
  --make COMMAND       is run at the start and when a source changes; no image while it runs, or after it has failed
  --sources PATTERN..  the sources: words up to the next option, or several in one word; without it
                       *.c *.h *.s *.S *.cc *.cpp *.cxx *.hpp *.inc *.rs *.ld Makefile, below this folder;
                       a pattern that begins with ! names files that are none
  --run COMMAND        is run after each new image; what ran before is ended first
  --gdb FILE           a script for gdb that goes with each new image, as of ldi-gdb
  --json               one object a line on standard output in place of the lines for people
  --once               ends after the first link: 0 a good image, 1 faults or a failed COMMAND, 2 a refusal,
                       3 a file cannot be read or written, 4 out of memory
  -h, --help           prints this
  --version            prints the version
";

const DEFAULT_SOURCES: &str = "*.c *.h *.s *.S *.cc *.cpp *.cxx *.hpp *.inc *.rs *.ld Makefile";

const LONG: &[&str] = &["--Map", "--orphan-handling", "--make", "--run", "--gdb"];
const FLAGS: &[&str] = &["--gc-sections", "--json", "--once"];
/// The options that no linker has.
const OWN: &[&str] = &["--make", "--run", "--gdb", "--json", "--once"];
/// Options of GNU ld by their first names in its table, and what they are here.
const AS_LD: &[(&str, &str)] =
    &[("T", "-T"), ("o", "-o"), ("e", "-e"), ("Map", "--Map"), ("orphan-handling", "--orphan-handling")];
/// What `ld.ldi` prints or writes beside an image, and a watch does not, by the first names.
const NOTHING: &[&str] = &[
    "M",
    "t",
    "v",
    "V",
    "help",
    "verbose",
    "cref",
    "print-output-format",
    "print-sysroot",
    "print-gc-sections",
    "no-print-gc-sections",
    "dependency-file",
];

/// Why the words are refused.
#[derive(Debug, thiserror::Error)]
#[error("{0}")]
pub(super) struct WordsRefused(String);

/// What names objects.
#[derive(Clone, PartialEq, Eq, Debug)]
pub(super) enum Named {
    /// An object.
    Object(BString),
    /// A file with an object's name a line.
    List(PathBuf),
}

/// What the words of a command line ask for.
#[derive(Clone, Debug)]
pub(super) struct Words {
    pub(super) script: PathBuf,
    pub(super) image: PathBuf,
    pub(super) objects: Vec<Named>,
    pub(super) map: Option<PathBuf>,
    pub(super) entry: Option<BString>,
    pub(super) options: Options,
    pub(super) make: Option<String>,
    pub(super) sources: Vec<String>,
    pub(super) run: Option<String>,
    pub(super) gdb: Option<PathBuf>,
    pub(super) is_json: bool,
    pub(super) is_once: bool,
    /// The words for `ld.ldi`: all that is not of the watch alone; lists are words with `@`.
    pub(super) as_ld: Vec<BString>,
    /// Whether there are options among them that `ldi link` has not.
    pub(super) is_ld: bool,
    /// The words that ask `ld.ldi` for what a watch does not print or write.
    pub(super) without_effect: Vec<BString>,
}

fn refused<T>(text: impl Into<String>) -> Result<T, WordsRefused> {
    Err(WordsRefused(text.into()))
}

/// Goes through the words from left to right.
#[derive(Default)]
struct Reader<'a> {
    words: &'a [BString],
    at: usize,
    values: HashMap<&'static str, BString>,
    flags: Vec<&'static str>,
    sources: Option<Vec<String>>,
    objects: Vec<Named>,
    as_ld: Vec<BString>,
    is_ld: bool,
    without_effect: Vec<BString>,
}

impl<'a> Reader<'a> {
    fn next(&mut self) -> Option<&'a BString> {
        let word = self.words.get(self.at)?;
        self.at += 1;
        Some(word)
    }

    fn read(&mut self) -> Result<(), WordsRefused> {
        while let Some(word) = self.next() {
            if word == "--" {
                while let Some(word) = self.next() {
                    self.objects.push(Named::Object(word.clone()));
                    self.as_ld.push(as_name(word.as_bstr()));
                }
                return Ok(());
            }
            if let Some(flag) = FLAGS.iter().find(|flag| *word == **flag) {
                self.flag(flag)?;
            } else if word == "--sources" {
                self.sources()?;
            } else if word.starts_with(b"-") && word != "-" {
                self.valued(word)?;
            } else {
                self.objects.push(match word.strip_prefix(b"@") {
                    Some(list) => Named::List(PathBuf::from(OsStr::from_bytes(list))),
                    None => Named::Object(word.clone()),
                });
                self.as_ld.push(word.clone());
            }
        }
        Ok(())
    }

    fn flag(&mut self, flag: &'static str) -> Result<(), WordsRefused> {
        if self.flags.contains(&flag) {
            return refused(format!("`{flag}` is given twice"));
        }
        self.flags.push(flag);
        if !OWN.contains(&flag) {
            self.as_ld.push(flag.into());
        }
        Ok(())
    }

    fn valued(&mut self, word: &'a BString) -> Result<(), WordsRefused> {
        let short = ["-T", "-o", "-e"].into_iter().find(|short| word.starts_with(short.as_bytes()));
        let (name, value) = match (short, word.find_byte(b'=')) {
            (Some(short), _) => {
                let rest = word.get(2..).unwrap_or_default();
                let value = (!rest.is_empty()).then(|| rest.strip_prefix(b"=").unwrap_or(rest));
                (short, value)
            }
            (None, at) => {
                let (front, value) = match at {
                    Some(at) => (word.get(..at).unwrap_or_default(), word.get(at + 1..)),
                    None => (word.as_slice(), None),
                };
                match LONG.iter().find(|long| long.as_bytes() == front) {
                    Some(name) => (*name, value),
                    None => return self.of_ld(word),
                }
            }
        };
        let value = match value {
            Some(value) => value.into(),
            None => self.value_of(name)?,
        };
        self.set(name, value)
    }

    fn value_of(&mut self, name: &str) -> Result<BString, WordsRefused> {
        match self.words.get(self.at).filter(|word| !word.starts_with(b"-")) {
            Some(word) => {
                self.at += 1;
                Ok(word.clone())
            }
            None => refused(format!("`{name}` has no value")),
        }
    }

    fn set(&mut self, name: &'static str, value: BString) -> Result<(), WordsRefused> {
        if !OWN.contains(&name) {
            self.as_ld.extend([BString::from(name), value.clone()]);
        }
        match self.values.get(name) {
            Some(_) if name == "-T" => self.is_ld = true, // several are one script, as for `ld.ldi`
            Some(_) => return refused(format!("`{name}` is given twice")),
            None => {
                self.values.insert(name, value);
            }
        }
        Ok(())
    }

    /// An option of GNU ld, by its whole name.
    fn of_ld(&mut self, word: &'a BString) -> Result<(), WordsRefused> {
        let no_option = || refused(format!("`{word}` is no option of ldi-watch"));
        let FoundOption { rows, mut value } = match find_option(word.as_bstr()) {
            Ok(found) => found,
            Err(_) => return no_option(),
        };
        let first = match rows.first() {
            Some(first) => *first,
            None => return no_option(),
        };
        let long = word.trim_start_with(|letter| letter == '-').split_str("=").next().unwrap_or_default();
        let is_named = |name: &[u8]| rows.iter().any(|row| row.names().any(|own| own.as_bytes() == name));
        if word.starts_with(b"--") && !is_named(long) {
            return no_option();
        }
        let mut words = vec![word.clone()];
        if first.argument == Argument::Needed && value.is_none() {
            match self.next() {
                Some(next) => {
                    words.push(next.clone());
                    value = Some(next.clone());
                }
                None => return refused(format!("`{word}` has no value")),
            }
        }
        let name = first.names().next().unwrap_or_default();
        if let Some((_, own)) = AS_LD.iter().find(|(first, _)| *first == name) {
            return self.set(own, value.unwrap_or_default());
        }
        self.is_ld = true;
        match NOTHING.contains(&name) {
            true => self.without_effect.push(word.clone()),
            false => self.as_ld.extend(words),
        }
        Ok(())
    }

    fn sources(&mut self) -> Result<(), WordsRefused> {
        if self.sources.is_some() {
            return refused("`--sources` is given twice");
        }
        let mut found: Vec<String> = Vec::new();
        while let Some(word) = self.words.get(self.at).filter(|word| !word.starts_with(b"-") && !word.starts_with(b"@"))
        {
            found.extend(word.to_str_lossy().split_whitespace().map(str::to_owned));
            self.at += 1;
        }
        if let Some(object) = found.iter().find(|pattern| pattern.ends_with(".o")) {
            return refused(format!("`{object}` follows --sources: objects stand before it, or after `--`"));
        }
        if found.is_empty() {
            return refused("`--sources` has no patterns");
        }
        self.sources = Some(found);
        Ok(())
    }

    fn options(&mut self) -> Result<Options, WordsRefused> {
        let orphans = match self.values.get("--orphan-handling").map(|handling| handling.as_slice()) {
            None => None,
            Some(b"error") => Some(Orphans::Error),
            Some(b"discard") => Some(Orphans::Discard),
            Some(b"place" | b"warn") => {
                self.is_ld = true; // as `ld.ldi` takes them
                Some(Orphans::Error)
            }
            Some(other) => {
                return refused(format!("--orphan-handling is `error` or `discard`, not `{}`", other.as_bstr()))
            }
        };
        Ok(Options { collects_sections: self.flags.contains(&"--gc-sections"), entry: None, orphans })
    }

    fn path(&self, name: &str) -> Option<PathBuf> {
        self.values.get(name).map(|value| path(value))
    }

    fn text(&self, name: &str) -> Option<String> {
        self.values.get(name).map(|value| value.to_str_lossy().into_owned())
    }
}

fn path(word: &[u8]) -> PathBuf {
    PathBuf::from(OsStr::from_bytes(word))
}

/// A file's name as a word that is no option and no list.
pub(super) fn as_name(word: &BStr) -> BString {
    match word.first() {
        Some(b'-' | b'@') => [b"./", word.as_bytes()].concat().into(),
        _ => word.to_owned(),
    }
}

/// The patterns of sources; if all of these name files that are none, the default ones with them.
fn sources_of(patterns: Vec<String>) -> Vec<String> {
    if patterns.iter().any(|pattern| !pattern.starts_with('!')) {
        return patterns;
    }
    DEFAULT_SOURCES.split(' ').map(str::to_owned).chain(patterns).collect()
}

/// Reads the words of the command line, without the program's name.
///
/// # Errors
/// If the words are no command line of `ldi-watch`.
pub(super) fn read_words(words: &[BString]) -> Result<Words, WordsRefused> {
    if let Some(word) = words.iter().find(|word| word.to_str().is_err()) {
        return refused(format!("the word {:?} is not UTF-8", word.as_bstr()));
    }
    let mut reader = Reader { words, ..Reader::default() };
    reader.read()?;
    let needed = |name: &'static str, what: &str| match reader.values.get(name).filter(|value| !value.is_empty()) {
        Some(value) => Ok(path(value)),
        None => refused(format!("`{name} {what}` is missing")),
    };
    let (script, image) = (needed("-T", "SCRIPT")?, needed("-o", "IMAGE")?);
    let options = reader.options()?;
    if reader.sources.is_some() && !reader.values.contains_key("--make") {
        return refused("--sources says when --make runs its COMMAND, which is not given");
    }
    Ok(Words {
        script,
        image,
        map: reader.path("--Map"),
        entry: reader.values.get("-e").cloned(),
        options,
        make: reader.text("--make"),
        run: reader.text("--run"),
        gdb: reader.path("--gdb"),
        is_json: reader.flags.contains(&"--json"),
        is_once: reader.flags.contains(&"--once"),
        sources: sources_of(reader.sources.unwrap_or_default()),
        objects: reader.objects,
        as_ld: reader.as_ld,
        is_ld: reader.is_ld,
        without_effect: reader.without_effect,
    })
}

#[cfg(test)]
mod tests {
    use super::{read_words, Named};
    use bstr::BString;

    fn read(line: &str) -> Result<super::Words, String> {
        let words: Vec<BString> = line.split(' ').map(BString::from).collect();
        read_words(&words).map_err(|fault| fault.to_string())
    }

    #[test]
    fn words_of_ldi_link_are_its_own() {
        let words = read("-T s.ld -o=i --Map=m a.o @list -- -b.o").unwrap();
        assert!(!words.is_ld);
        let objects = [Named::Object("a.o".into()), Named::List("list".into()), Named::Object("-b.o".into())];
        assert_eq!(words.objects, objects);
        assert_eq!(words.as_ld.last().unwrap(), "./-b.o");
    }

    #[test]
    fn an_option_of_gnu_ld_is_for_it() {
        let words = read("-T s.ld -o i -L lib -M a.o").unwrap();
        assert!(words.is_ld);
        assert_eq!(words.without_effect, ["-M"]);
        assert!(words.as_ld.iter().any(|word| word == "-L"));
    }

    #[test]
    fn a_word_that_is_none_is_refused() {
        for line in
            ["-T s.ld", "-T s.ld -o i -o k", "-T s.ld -o i --map m", "-T s.ld -o i --sources *.c", "-T s -o i -e"]
        {
            assert!(read(line).is_err(), "{line}");
        }
    }

    #[test]
    fn patterns_that_only_leave_out_are_beside_the_default_ones() {
        let words = read("-T s.ld -o i --make make --sources !gen.c").unwrap();
        assert!(words.sources.contains(&"*.c".to_owned()) && words.sources.contains(&"!gen.c".to_owned()));
    }
}
