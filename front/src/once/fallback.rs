//! Hands a link over to another linker: the one that LDI_FALLBACK names, or `ld.bfd` or `ld` on PATH.

use std::ffi::{OsStr, OsString};
use std::os::unix::ffi::{OsStrExt, OsStringExt};
use std::os::unix::process::CommandExt;
use std::path::{Path, PathBuf};
use std::process::Command as Process;

use bstr::ByteSlice;

use super::builds::is_first;
use super::{say, Status};
use crate::command::{expand_words, find_option, Argument, FoundOption};
use crate::plan::{is_own, others, Environment};
use crate::report::os_message;
use crate::server::are_lasting_words;
use crate::stdio;
use crate::stdio::Printed;

/// The variable that names another linker.
const VARIABLE: &str = "LDI_FALLBACK";
/// What it is if no other linker is to link.
const NONE: &str = "none";
/// The names of the linkers on PATH that are taken if it is not set.
const OTHERS: [&str; 2] = ["ld.bfd", "ld"];

/// Why another linker is needed.
pub(crate) struct Reasons<'a> {
    lines: Vec<String>,
    /// What is the same for links that need it for the same reason, of whatever objects; else the lines are.
    kind: Option<String>,
    /// Says more than the lines, before them: if nothing links, or with `--verbose`.
    say_more: Option<&'a dyn Fn()>,
    /// What is said in place of the lines if the other linker links: the first thing that is to blame.
    first: Option<&'a dyn Fn() -> String>,
    /// The status if nothing links, which `say_more` alone says then; `None`: the lines are said.
    status: Option<Status>,
}

impl<'a> Reasons<'a> {
    /// Reasons of these lines.
    pub(super) fn of(lines: Vec<String>) -> Reasons<'a> {
        Reasons { lines, kind: None, say_more: None, first: None, status: None }
    }

    /// A line of a kind that many links have, and what more there is to say.
    pub(super) fn of_kind(line: String, kind: &str, say_more: &'a dyn Fn()) -> Reasons<'a> {
        Reasons { kind: Some(kind.into()), say_more: Some(say_more), ..Reasons::of(vec![line]) }
    }

    /// Why another linker may make a link that came to no image; what is said, and the status, if it does not.
    pub(super) fn of_no_image(line: String, say: &'a dyn Fn(), status: Status) -> Reasons<'a> {
        Reasons { say_more: Some(say), status: Some(status), ..Reasons::of(vec![line]) }
    }

    /// Adds what is said if the other linker links.
    pub(super) fn with_first(self, first: &'a dyn Fn() -> String) -> Reasons<'a> {
        Reasons { first: Some(first), ..self }
    }

    /// The status of a link with faults that no other linker is to make: what there is to say is said.
    pub(crate) fn faults_without(&self, environment: &Environment) -> Option<Status> {
        let status = self.status.filter(|status| *status == Status::Faults && is_forbidden(environment))?;
        self.say_more();
        Some(status)
    }

    fn say_more(&self) {
        if let Some(say_more) = self.say_more {
            say_more();
        }
    }
}

/// Why another linker is needed, with all that is to be said of it, for the process that starts it.
#[derive(Clone, PartialEq, Eq, Debug, Default)]
pub(crate) struct HandedOver {
    /// The lines of [`Reasons`].
    pub(crate) lines: Vec<String>,
    /// What is the same for links of one kind.
    pub(crate) kind: Option<String>,
    /// What is said before the lines, if nothing links or with `--verbose`.
    pub(crate) more: Vec<Printed>,
    /// What is said in their place if the other linker links.
    pub(crate) first: Option<String>,
    /// `--verbose`
    pub(crate) is_verbose: bool,
    /// Whether no other linker is to link.
    pub(crate) is_forbidden: bool,
    /// The status if nothing links, and no line says so.
    pub(crate) status: Option<Status>,
}

impl HandedOver {
    /// The reasons, with the text that `say_more` prints.
    pub(crate) fn of(reasons: &Reasons<'_>, environment: &Environment, is_verbose: bool) -> HandedOver {
        let ((), more) = stdio::keep(stdio::error_style(), || reasons.say_more());
        HandedOver {
            lines: reasons.lines.clone(),
            kind: reasons.kind.clone(),
            more,
            first: reasons.first.map(|first| first()),
            is_verbose,
            is_forbidden: is_forbidden(environment),
            status: reasons.status,
        }
    }

    /// Runs the other linker in place of this process; gives a status if there is none.
    pub(crate) fn run(&self, words: &[OsString], environment: &Environment) -> Status {
        let mut environment = environment.clone();
        if self.is_forbidden {
            forbid(&mut environment);
        }
        let say_more = || self.more.iter().for_each(|one| stdio::print(one.stream, &one.text));
        let first = || self.first.clone().unwrap_or_default();
        let reasons = Reasons {
            lines: self.lines.clone(),
            kind: self.kind.clone(),
            say_more: Some(&say_more),
            first: if self.first.is_some() { Some(&first) } else { None },
            status: self.status,
        };
        hand_over(&reasons, words, &environment, self.is_verbose)
    }
}

/// From now on no other linker is to link (`--no-fallback`).
pub(super) fn forbid(environment: &mut Environment) {
    environment.insert(VARIABLE.into(), NONE.into());
}

/// Whether no other linker is to link.
fn is_forbidden(environment: &Environment) -> bool {
    environment.get(OsStr::new(VARIABLE)).map_or(false, |name| name == NONE)
}

/// Why LDI_FALLBACK names no linker.
#[derive(Debug, PartialEq, Eq, thiserror::Error)]
enum BadFallback {
    #[error("{0}: no closing quotation")]
    Quotation(String),
    #[error("{0} is ld.ldi itself")]
    Itself(String),
    #[error("{0}: no such linker on PATH, other than ld.ldi itself")]
    Missing(String),
}

/// The path of a program with its words.
type Linker = (PathBuf, Vec<OsString>);

/// The linker that is to link; `None` if there is none.
fn fallback_of(environment: &Environment) -> Result<Option<Linker>, BadFallback> {
    let text = environment.get(OsStr::new(VARIABLE)).cloned().unwrap_or_default();
    let shown = text.to_string_lossy().into_owned();
    let words = words_of(text.as_bytes()).ok_or(BadFallback::Quotation(shown))?;
    let first = match words.first() {
        Some(first) if words.len() == 1 && first == NONE => return Ok(None),
        Some(first) => first.clone(),
        None => {
            let found =
                OTHERS.iter().find_map(|name| Some((others(name.as_ref(), environment).into_iter().next()?, name)));
            return Ok(found.map(|(path, name)| (path, vec![OsString::from(*name)])));
        }
    };
    let name = first.to_string_lossy().into_owned();
    if first.as_bytes().contains(&b'/') {
        return match is_own(Path::new(&first)) {
            true => Err(BadFallback::Itself(name)),
            false => Ok(Some((PathBuf::from(first), words))),
        };
    }
    match others(&first, environment).into_iter().next() {
        Some(path) => Ok(Some((path, words))),
        None => Err(BadFallback::Missing(name)),
    }
}

/// The words of a text as a shell parts them; `None` if a quotation has no end.
fn words_of(text: &[u8]) -> Option<Vec<OsString>> {
    let (mut words, mut word, mut quote) = (Vec::new(), None::<Vec<u8>>, None);
    let mut bytes = text.iter().copied();
    while let Some(byte) = bytes.next() {
        match (quote, byte) {
            (Some(end), byte) if byte == end => quote = None,
            (None, b'\'' | b'"') => {
                quote = Some(byte);
                word.get_or_insert_with(Vec::new);
            }
            (None | Some(b'"'), b'\\') => word.get_or_insert_with(Vec::new).push(bytes.next()?),
            (None, byte) if byte.is_ascii_whitespace() => words.extend(word.take()),
            (_, byte) => word.get_or_insert_with(Vec::new).push(byte),
        }
    }
    words.extend(word);
    quote.is_none().then(|| words.into_iter().map(OsString::from_vec).collect())
}

/// The words without options that `ld.ldi` alone knows; if response files have some, with the words of these files.
fn of_others(words: &[OsString]) -> Vec<OsString> {
    let own = without_own(words.iter().map(|word| word.as_bytes()));
    let has_files = words.iter().any(|word| word.as_bytes().starts_with(b"@"));
    if has_files && are_lasting_words(words) {
        let expanded = expand_words(&own).words;
        let others = without_own(expanded.iter().map(|word| word.as_bytes()));
        if others.len() < expanded.len() {
            return others.into_iter().map(|word| OsStr::from_bytes(word).to_owned()).collect();
        }
    }
    own.into_iter().map(|word| OsStr::from_bytes(word).to_owned()).collect()
}

/// The words without options that `ld.ldi` alone knows, and without their values.
fn without_own<'a>(words: impl Iterator<Item = &'a [u8]>) -> Vec<&'a [u8]> {
    let (mut found, mut words) = (Vec::new(), words);
    while let Some(word) = words.next() {
        let option = if word.starts_with(b"-") { find_option(word.as_bstr()).ok() } else { None };
        let has_next = |option: &FoundOption| {
            option.value.is_none() && option.rows.iter().any(|row| row.argument == Argument::Needed)
        };
        let next = if option.as_ref().map_or(false, has_next) { words.next() } else { None };
        if !option.map_or(false, |option| option.rows.iter().any(|row| row.is_own())) {
            found.extend([Some(word), next].into_iter().flatten());
        }
    }
    found
}

/// Runs the other linker in place of this process, with the same words; gives a status if there is none.
///
/// That it does is said once a build for reasons of one kind, and always if `is_verbose`.
pub(super) fn hand_over(
    reasons: &Reasons<'_>,
    words: &[OsString],
    environment: &Environment,
    is_verbose: bool,
) -> Status {
    let (path, program) = match fallback_of(environment) {
        Err(fault) => return refused(reasons, &format!("{VARIABLE}: {fault}"), Status::Device),
        Ok(None) if reasons.status.is_some() => {
            reasons.say_more();
            return reasons.status.unwrap_or(Status::Refused);
        }
        Ok(None) => {
            let is_off = environment.contains_key(OsStr::new(VARIABLE));
            let why = if is_off { "LDI_FALLBACK names no linker for it" } else { "PATH has no other linker" };
            return refused(reasons, why, Status::Refused);
        }
        Ok(Some(found)) => found,
    };
    if is_verbose {
        reasons.say_more();
    }
    let name = program.first().cloned().unwrap_or_default();
    let text = reasons.lines.join("; ");
    if is_first(reasons.kind.as_deref().unwrap_or(&text), environment) || is_verbose {
        let text = reasons.first.map_or(text, |first| first());
        say(format!("{text}: linked by {}", name.to_string_lossy()));
    }
    // What leads back here ends here.
    let mut process = Process::new(&path);
    process.arg0(&name).args(program.get(1..).unwrap_or_default()).args(of_others(words)).env(VARIABLE, NONE);
    let why = os_message(&process.exec());
    say(format!("{VARIABLE}: {}: {why}", name.to_string_lossy()));
    Status::Device
}

/// Says that nothing links; gives the status.
fn refused(reasons: &Reasons<'_>, why: &str, status: Status) -> Status {
    reasons.say_more();
    for line in &reasons.lines {
        say(format!("{line}: not made by ldi; {why}"));
    }
    status
}

#[cfg(test)]
mod tests {
    use super::*;

    #[test]
    fn words_are_parted_as_by_a_shell() {
        let words = |text: &str| words_of(text.as_bytes());
        assert_eq!(words("a 'b c' \"d\\\"e\" f\\ g").unwrap(), ["a", "b c", "d\"e", "f g"]);
        assert_eq!(words("").unwrap(), Vec::<OsString>::new());
        assert_eq!(words("''").unwrap(), [""]);
        assert_eq!(words("'a"), None);
    }

    #[test]
    fn own_words_are_not_passed_on() {
        let words = ["-r", "--no-server", "-no-server", "a.o", "--Map-format", "ldi", "--Map-format=gnu", "-Map=m"];
        assert_eq!(of_others(&words.map(OsString::from)), ["-r", "a.o", "-Map=m"]);
        let words = ["--no-serv", "-o", "--no-server", "--Map-f=gnu", "-T", "x", "a.o"];
        assert_eq!(of_others(&words.map(OsString::from)), ["-o", "--no-server", "-T", "x", "a.o"]);
    }

    #[test]
    fn own_words_of_files_are_not_passed_on() {
        let path = std::env::temp_dir().join(format!("ldi-front-own-words-{}", std::process::id()));
        let words = [OsString::from("-r"), format!("@{}", path.display()).into()];
        for (text, passed) in
            [("a.o --no-server 'b c.o'", vec!["-r".into(), "a.o".into(), "b c.o".into()]), ("a.o b.o", words.to_vec())]
        {
            std::fs::write(&path, text).unwrap();
            assert_eq!(of_others(&words), passed, "{text}");
        }
        std::fs::remove_file(path).unwrap();
    }

    #[test]
    fn a_variable_names_the_linker() {
        let with = |text: &str| {
            let environment = [(VARIABLE, text), ("PATH", "/usr/bin")];
            fallback_of(&environment.iter().map(|(name, value)| (name.into(), value.into())).collect())
        };
        assert_eq!(with("none"), Ok(None));
        assert_eq!(with("/bin/true -v"), Ok(Some(("/bin/true".into(), vec!["/bin/true".into(), "-v".into()]))));
        assert_eq!(with("true").unwrap().unwrap().0, PathBuf::from("/usr/bin/true"));
        assert_eq!(with("no-such-linker"), Err(BadFallback::Missing("no-such-linker".into())));
        assert_eq!(with("'a"), Err(BadFallback::Quotation("'a".into())));
    }
}
