//! Why a text is no script of the profile of `ldi` (docs/scripts.md): each place, with what stands there and what to
//! write instead. The text is read by the parser of GNU ld's language with the profile's tokens, and its tree is gone
//! over.
//!
//! Whether a text is refused is not judged here: the proved reader says that, by a number, and `refused_for` leaves out
//! what that number excludes.

mod expressions;
pub mod limits;
mod names;
pub(crate) mod reserved_words;
mod sections;
mod statements;
pub(crate) mod text;

use std::collections::HashSet;
use std::path::{Path, PathBuf};

use bstr::ByteSlice;

use crate::report::plain;
use crate::script::source::{Place, ScriptFiles, Source};
use crate::script::tree::{Name, Span};
use crate::script::{Reader, WarningKind};

/// Why a text is refused, in the order in which `ldi` looks (docs/scripts.md, 'Refusals').
#[derive(Clone, Copy, PartialEq, Eq, PartialOrd, Ord, Hash, Debug)]
pub enum Cause {
    /// Refusal 1: no token begins there.
    Tokens,
    /// Refusal 5: a limit is passed.
    Limit,
    /// Refusal 2: the grammar has it not.
    Grammar,
    /// Refusal 3: it is given twice, or named too early.
    Repeated,
    /// Refusal 4: `.` may not stand there.
    Dot,
}

impl Cause {
    /// The cause of a refusal's number.
    #[must_use]
    pub fn of_number(number: u32) -> Option<Cause> {
        let causes = [Cause::Tokens, Cause::Grammar, Cause::Repeated, Cause::Dot, Cause::Limit];
        causes.get(number.checked_sub(1)? as usize).copied()
    }
}

/// A construct of a text that the profile does not have.
#[derive(Clone, PartialEq, Eq, Hash, Debug)]
pub struct Objection {
    /// What it is refused for.
    pub cause: Cause,
    /// Where it stands.
    pub place: Place,
    /// What stands there, and what to write instead.
    pub sentence: String,
}

/// All constructs of a text that the profile does not have, in its order. `files` are those that INCLUDE names.
pub fn objections(path: &Path, text: &[u8], files: &mut dyn ScriptFiles, folders: Vec<PathBuf>) -> Vec<Objection> {
    if text.len() > limits::MAX_SCRIPT {
        let sentence = format!("the text is longer than {} bytes", limits::MAX_SCRIPT);
        return vec![Objection {
            cause: Cause::Limit,
            place: Place { path: path.into(), line: 1, column: 1 },
            sentence,
        }];
    }
    let mut reader = Reader::new(files, folders).in_profile();
    let last = reader.text(path, text.to_vec()).err();
    let errors = reader.take_errors().into_iter().chain(last);
    let reading = reader.finish();
    let mut check = Check::new(&reading.source);
    check.text();
    for warning in &reading.warnings {
        if let WarningKind::Invalid(byte) = warning.kind {
            check.object(Cause::Tokens, warning.span, names::no_token(byte));
        }
    }
    check.statements(&reading.script.statements);
    if let Some(at) = text.find("OVERWRITE_SECTIONS").and_then(|at| u32::try_from(at).ok()) {
        check.outside(
            Span { start: at, end: at },
            "OVERWRITE_SECTIONS",
            "write its sections at their places in SECTIONS",
        );
    }
    for error in errors {
        let hint = error.hint().map(|hint| format!("; {hint}")).unwrap_or_default();
        check.object(Cause::Grammar, error.span(), format!("{}{hint}", error.kind()));
    }
    check.finish()
}

/// The objections for which a text can be refused with a number: the reader looks for their causes in an order, and has
/// found none that comes before.
#[must_use]
pub fn refused_for(mut objections: Vec<Objection>, number: u32) -> Vec<Objection> {
    if let Some(cause) = Cause::of_number(number) {
        objections.retain(|one| one.cause >= cause);
    }
    objections
}

/// A walk over a script, and what was found.
struct Check<'a> {
    source: &'a Source,
    found: Vec<(u32, Objection)>,
    /// The commands of which one may stand in a script, and that stood there.
    commands: HashSet<&'static str>,
    /// The names of memory regions whose declarations have ended.
    regions: HashSet<Name>,
    symbols: HashSet<Name>,
    sections: HashSet<Name>,
}

impl<'a> Check<'a> {
    fn new(source: &'a Source) -> Check<'a> {
        let names = HashSet::new;
        Check {
            source,
            found: Vec::new(),
            commands: HashSet::new(),
            regions: names(),
            symbols: names(),
            sections: names(),
        }
    }

    /// Notes what is wrong at a place.
    fn object(&mut self, cause: Cause, at: Span, sentence: impl Into<String>) {
        let place = self.source.place(at.start);
        self.found.push((at.start, Objection { cause, place, sentence: sentence.into() }));
    }

    /// Notes what GNU ld has and the profile has not.
    fn outside(&mut self, at: Span, what: impl std::fmt::Display, instead: &str) {
        self.object(Cause::Grammar, at, format!("{what} is not in the profile: {instead}"));
    }

    /// Notes what the profile has in other places.
    fn misplaced(&mut self, at: Span, what: impl std::fmt::Display, instead: &str) {
        self.object(Cause::Grammar, at, format!("{what} is not in the profile in this place: {instead}"));
    }

    /// Whether the text of a span has quotes in it.
    fn is_quoted(&self, span: Span) -> bool {
        self.source.slice(span).contains(&b'"')
    }

    /// The text of a span in quotes.
    fn shown(&self, span: Span) -> String {
        format!("`{}`", plain(self.source.slice(span)))
    }

    /// The text from one offset to another.
    fn between(&self, start: u32, end: u32) -> &'a [u8] {
        self.source.slice(Span { start, end })
    }

    /// What was found, in the order of the text; a sentence stands once for each line.
    fn finish(mut self) -> Vec<Objection> {
        self.found.sort_by_key(|(at, _)| *at);
        let mut seen = HashSet::new();
        let line = |one: &Objection| (one.place.path.clone(), one.place.line, one.sentence.clone());
        self.found.into_iter().map(|(_, one)| one).filter(|one| seen.insert(line(one))).collect()
    }
}

#[cfg(test)]
mod tests;
