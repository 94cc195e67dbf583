//! One message: what is wrong, where, and what to do.

use std::path::Path;

use super::plain::{plain, trimmed};
use crate::script::{Place, ScriptError, Warning};

/// How bad it is.
#[derive(Clone, Copy, PartialEq, Eq, Hash, Debug)]
pub enum Severity {
    /// No image is made.
    Error,
    /// An image is made, which may not be what was meant.
    Warning,
    /// A remark.
    Note,
}

impl Severity {
    /// The word for it in a message.
    #[must_use]
    pub fn word(self) -> &'static str {
        match self {
            Severity::Error => "error",
            Severity::Warning => "warning",
            Severity::Note => "note",
        }
    }
}

/// A line of a file, and the part of it that is meant.
#[derive(Clone, PartialEq, Eq, Debug)]
pub struct Excerpt {
    /// The line without its end, as text of one line.
    pub text: String,
    /// The characters before the part that is meant.
    pub column: usize,
    /// The characters of that part, at least 1.
    pub length: usize,
}

impl Excerpt {
    /// A line with the bytes that are meant; a tab is a space.
    #[must_use]
    pub fn new(line: &[u8], column: usize, length: usize) -> Excerpt {
        let spaced: Vec<u8> = line.iter().map(|byte| if *byte == b'\t' { b' ' } else { *byte }).collect();
        let width =
            |from: usize, to: usize| plain(spaced.get(from..to.min(spaced.len())).unwrap_or_default()).chars().count();
        let (column, end) = (column.min(spaced.len()), column.saturating_add(length));
        Excerpt { text: plain(&spaced), column: width(0, column), length: width(column, end).max(1) }
    }

    /// The line without the space around it, and the whole of it meant.
    #[must_use]
    pub fn of_line(line: &[u8]) -> Excerpt {
        let indent = line.iter().position(|byte| !byte.is_ascii_whitespace()).unwrap_or(0);
        Excerpt::new(line, indent, trimmed(line).len())
    }
}

/// A message.
#[derive(Clone, PartialEq, Eq, Debug)]
pub struct Diagnostic {
    /// How bad it is.
    pub severity: Severity,
    /// The file that is to blame, or the program.
    pub file: Option<String>,
    /// The line of the file, from 1.
    pub line: Option<u32>,
    /// The column in characters, from 1.
    pub column: Option<u32>,
    /// A place in an object, such as `(a.o .text+0x1)` or ``in `main': (.text+0x4)``.
    pub site: Option<String>,
    /// What is wrong.
    pub sentence: String,
    /// What else is known.
    pub notes: Vec<String>,
    /// What to do.
    pub advice: Option<String>,
    /// The line of the file that is meant.
    pub excerpt: Option<Excerpt>,
    /// The line of `ldi` that says it, such as `F5 2`.
    pub rule: Option<String>,
}

impl Diagnostic {
    /// A message without a place.
    #[must_use]
    pub fn new(severity: Severity, sentence: impl Into<String>) -> Diagnostic {
        Diagnostic {
            severity,
            file: None,
            line: None,
            column: None,
            site: None,
            sentence: sentence.into(),
            notes: Vec::new(),
            advice: None,
            excerpt: None,
            rule: None,
        }
    }

    /// An error without a place.
    #[must_use]
    pub fn error(sentence: impl Into<String>) -> Diagnostic {
        Diagnostic::new(Severity::Error, sentence)
    }

    /// The message, about a file.
    #[must_use]
    pub fn of_file(mut self, file: impl AsRef<Path>) -> Diagnostic {
        self.file = Some(plain(&file_bytes(file.as_ref())));
        self
    }

    /// The message, about a place in a file.
    #[must_use]
    pub fn at(mut self, place: &Place) -> Diagnostic {
        self.line = Some(place.line);
        self.of_file(&place.path)
    }

    /// The message, with advice what to do.
    #[must_use]
    pub fn with_advice(mut self, advice: impl Into<String>) -> Diagnostic {
        self.advice = Some(advice.into());
        self
    }

    /// The message, with one more fact.
    #[must_use]
    pub fn with_note(mut self, note: impl Into<String>) -> Diagnostic {
        self.notes.push(note.into());
        self
    }

    fn with_excerpt(mut self, line: &[u8], place: &Place, length: usize) -> Diagnostic {
        let before = place.column.saturating_sub(1) as usize;
        let excerpt = Excerpt::new(line, before, length.min(line.len().saturating_sub(before)));
        self.column = u32::try_from(excerpt.column + 1).ok();
        self.excerpt = Some(excerpt);
        self
    }
}

impl From<&ScriptError> for Diagnostic {
    fn from(error: &ScriptError) -> Diagnostic {
        let span = error.span();
        let length = span.end.saturating_sub(span.start) as usize;
        let mut diagnostic = Diagnostic::error(error.kind().to_string());
        diagnostic.advice = error.hint().map(str::to_owned);
        diagnostic.at(error.place()).with_excerpt(error.line(), error.place(), length)
    }
}

impl From<&Warning> for Diagnostic {
    fn from(warning: &Warning) -> Diagnostic {
        Diagnostic::new(Severity::Warning, warning.kind.to_string()).at(&warning.place)
    }
}

fn file_bytes(path: &Path) -> Vec<u8> {
    use std::os::unix::ffi::OsStrExt;
    path.as_os_str().as_bytes().to_vec()
}
