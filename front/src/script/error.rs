//! Why a text is refused as a script, and where.

use bstr::{BStr, BString, ByteSlice};

use super::source::Place;
use super::tree::Span;

/// Why a text is no script.
#[derive(Clone, PartialEq, Eq, Debug, thiserror::Error)]
pub enum ErrorKind {
    /// A token that the language does not have there.
    #[error("{expected} is expected, not {found}")]
    Unexpected {
        /// What the language has there, as "`;`" or "an expression".
        expected: String,
        /// The token in its quotes, or "the end".
        found: String,
    },
    /// A word or name that begins no statement.
    #[error("{0} begins no statement here")]
    NoStatement(String),
    /// A brace that stays open.
    #[error("this `{{` of {of} has no `}}`")]
    Open {
        /// The word or name that it belongs to.
        of: String,
    },
    /// A comment that stays open.
    #[error("this comment has no end")]
    OpenComment,
    /// A character that begins nothing.
    #[error("{} begins nothing of the language here", shown(*.0))]
    Invalid(u8),
    /// A sort that files have not, or sorts that do not go together.
    #[error("these sorts do not go together here")]
    Sorts,
    /// An expression that is too deep.
    #[error("this expression nests hundreds of signs, more than can be read")]
    ExpressionDepth,
    /// Statements that are too deep.
    #[error("statements are nested too deeply")]
    StatementDepth,
    /// INCLUDE of too many files in one another.
    #[error("INCLUDE is nested too deeply")]
    IncludeDepth,
    /// A file of INCLUDE that is nowhere: its name.
    #[error("INCLUDE {0}: no such file here or in the folders of -L")]
    MissingInclude(String),
    /// A file that INCLUDE names and that is a script of `-T`, or is one twice.
    #[error("linker script file '{0}' appears multiple times")]
    Repeated(String),
    /// A text of 4 GiB or more with what it includes.
    #[error("the script and what it includes are too long")]
    TooLong,
    /// A word of PHDRS that is none.
    #[error("{0} is no word of a program header")]
    HeaderWord(String),
    /// A name that is no type of program headers.
    #[error("{0} is no type of program headers; a number can be one")]
    HeaderType(String),
    /// A letter that is no attribute of regions.
    #[error("`{0}` is no attribute of a memory region")]
    Attribute(char),
    /// A script of the command line that is nowhere, and why it cannot be opened.
    #[error("cannot open linker script file {0}: {1}")]
    MissingScript(String, String),
}

/// A text that is no script: why, and where.
#[derive(Clone, PartialEq, Eq, Debug, thiserror::Error)]
#[error("{}: {}", .0.place, .0.kind)]
pub struct ScriptError(Box<Details>);

#[derive(Clone, PartialEq, Eq, Debug)]
struct Details {
    kind: ErrorKind,
    span: Span,
    place: Place,
    line: BString,
    hint: Option<String>,
}

impl ScriptError {
    pub(super) fn new(kind: ErrorKind, span: Span, place: Place, line: BString) -> ScriptError {
        ScriptError(Box::new(Details { kind, span, place, line, hint: None }))
    }

    pub(super) fn with_hint(mut self, hint: Option<String>) -> ScriptError {
        self.0.hint = hint;
        self
    }

    /// Why the text is refused.
    #[must_use]
    pub fn kind(&self) -> &ErrorKind {
        &self.0.kind
    }

    /// The token that is wrong, in the text as it was read so far.
    #[must_use]
    pub fn span(&self) -> Span {
        self.0.span
    }

    /// The file and line.
    #[must_use]
    pub fn place(&self) -> &Place {
        &self.0.place
    }

    /// The text of that line.
    #[must_use]
    pub fn line(&self) -> &BStr {
        self.0.line.as_bstr()
    }

    /// A sentence on what may be meant.
    #[must_use]
    pub fn hint(&self) -> Option<&str> {
        self.0.hint.as_deref()
    }
}

/// What was passed over in a script.
#[derive(Clone, Copy, PartialEq, Eq, Debug, thiserror::Error)]
pub enum WarningKind {
    /// A character that begins nothing of the language: GNU ld passes it over too.
    #[error("ignoring invalid character {}", shown(*.0))]
    Invalid(u8),
    /// A `;` between statements of SECTIONS: a syntax error for GNU ld, and none for others.
    #[error("ignoring `;`, which GNU ld does not have here")]
    Separator,
}

/// A text that was passed over, and where.
#[derive(Clone, PartialEq, Eq, Debug, thiserror::Error)]
#[error("{place}: {kind}")]
pub struct Warning {
    /// What it is.
    pub kind: WarningKind,
    /// Where it stands in the text.
    pub span: Span,
    /// The file and line.
    pub place: Place,
}

/// A byte as messages show it.
fn shown(byte: u8) -> String {
    if byte.is_ascii_graphic() || byte == b' ' {
        format!("`{}`", char::from(byte))
    } else {
        format!("`\\{byte:03o}`")
    }
}

/// A token's text for people, in quotes; long ones are cut.
pub(super) fn quoted(text: &[u8]) -> String {
    const LONGEST: usize = 60;
    let short: String = text.to_str_lossy().chars().take(LONGEST).collect();
    let plain = short.replace(|letter: char| letter.is_control(), " ");
    if text.len() > LONGEST {
        format!("`{plain} ..`")
    } else {
        format!("`{plain}`")
    }
}
