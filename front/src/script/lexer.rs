//! The tokens of GNU ld's scripts. What a token is depends on where the parser stands, so each is read in a state that
//! the parser names, as by `ldlex.l` of GNU ld: the longest match counts, and among equals the first rule.

use std::path::PathBuf;

use bstr::{BString, ByteSlice};

use super::dialect::{self, Dialect};
use super::error::{ErrorKind, ScriptError, Warning, WarningKind};
use super::keywords::word;
use super::source::Source;
use super::tree::Span;

/// A state of the lexer.
#[derive(Clone, Copy, PartialEq, Eq, Debug)]
pub(super) enum State {
    /// Outside of output sections.
    Script,
    /// In an expression.
    Expression,
    /// Between the braces of an output section.
    Wild,
    /// In the parentheses of INPUT and GROUP.
    InputList,
    /// After the word VERSION.
    VersionStart,
    /// Between version nodes.
    VersionScript,
    /// Within the braces of a version node.
    VersionNode,
}

/// What a token is.
#[derive(Clone, Copy, PartialEq, Eq, Debug)]
pub(super) enum Kind {
    /// A name without quotes.
    Name,
    /// A name in quotes.
    Quoted,
    /// `-lname`
    Library,
    /// A number.
    Number(u64),
    /// A word of the language.
    Word(&'static str),
    /// A mark of punctuation or an operator.
    Mark(&'static str),
    /// The end of the file.
    End,
}

/// A token and its place.
#[derive(Clone, Copy, Debug)]
pub(super) struct Token {
    pub kind: Kind,
    pub span: Span,
    file: usize,
    at: usize,
}

impl Token {
    /// Whether it is this mark or word.
    pub fn is(&self, text: &str) -> bool {
        matches!(self.kind, Kind::Mark(own) | Kind::Word(own) if own == text)
    }

    /// Whether it is a name, in quotes or not.
    pub fn is_name(&self) -> bool {
        matches!(self.kind, Kind::Name | Kind::Quoted)
    }
}

/// A file that is being read.
struct Frame {
    file: usize,
    /// The offset of the next byte.
    at: usize,
    /// Up to where the file's text is in the whole text.
    copied: usize,
    /// What is added (modulo 2^32) to an offset in the file for the one in the whole text.
    base: u32,
}

/// How deep files can include one another, the script itself counted (MAX_INCLUDE_DEPTH of GNU ld).
const MAX_OPEN_FILES: usize = 10;

/// The line ends that a file of INCLUDE gets, at most.
const BREAKS: usize = 2;

/// After how many characters that begin nothing a text is no script.
const MAX_INVALID: usize = 1000;

/// Reads texts token by token; the files of INCLUDE are pushed by the parser.
#[derive(Default)]
pub(super) struct Lexer {
    pub source: Source,
    pub warnings: Vec<Warning>,
    /// Whether a character that begins nothing is an error: the text may be no script at all.
    pub is_strict: bool,
    /// How names are told from marks.
    pub dialect: Dialect,
    frames: Vec<Frame>,
    seen: Option<(State, Token)>,
    /// The length of the text with all of the files that are open.
    planned: usize,
    /// The end of the last token that was taken.
    last: u32,
    /// The last token that was taken.
    previous: Option<Token>,
}

impl Lexer {
    /// Begins to read a file.
    pub fn push(&mut self, path: PathBuf, text: Vec<u8>) -> Result<(), ScriptError> {
        self.planned = self.planned.saturating_add(text.len() + BREAKS);
        if u32::try_from(self.planned).is_err() {
            return Err(self.error_here(ErrorKind::TooLong));
        }
        if self.frames.len() >= MAX_OPEN_FILES {
            return Err(self.error_here(ErrorKind::IncludeDepth));
        }
        let file = self.source.add_file(path, text);
        self.seen = None;
        self.frames.push(Frame { file, at: 0, copied: 0, base: self.source.end() });
        Ok(())
    }

    /// Goes on with a file that the statement names which began with a word and ended with the last token: in the whole
    /// text the file stands in its place, on lines of its own.
    pub fn include(&mut self, word: Token, path: PathBuf, text: Vec<u8>) -> Result<(), ScriptError> {
        if let Some(outer) = self.frames.last_mut() {
            self.source.append(outer.file, outer.copied, word.at);
            self.source.add_include(path.clone());
            outer.copied = outer.at;
        }
        self.push(path, text)
    }

    /// Ends the file that was begun last, and goes on with the one around it.
    pub fn pop(&mut self) {
        let frame = match self.frames.pop() {
            Some(frame) => frame,
            None => return,
        };
        let length = self.source.file(frame.file).map_or(0, |file| file.text.len());
        self.source.append(frame.file, frame.copied, length);
        self.seen = None;
        self.previous = None;
        if let Some(outer) = self.frames.last_mut() {
            self.source.break_line();
            outer.base = self.source.end().wrapping_sub(offset(outer.at));
        }
        self.last = self.source.end();
    }

    /// Leaves all files: after an error.
    pub fn abandon(&mut self) {
        while !self.frames.is_empty() {
            self.pop();
        }
    }

    /// The next token in a state.
    pub fn peek(&mut self, state: State) -> Result<Token, ScriptError> {
        if let Some((seen, token)) = self.seen {
            if seen == state {
                return Ok(token);
            }
        }
        let token = self.read(state)?;
        self.seen = Some((state, token));
        Ok(token)
    }

    /// The next token in a state, taken.
    pub fn take_token(&mut self, state: State) -> Result<Token, ScriptError> {
        let token = self.peek(state)?;
        self.seen = None;
        if let Some(frame) = self.frames.last_mut() {
            frame.at = token.at + (token.span.end - token.span.start) as usize;
        }
        self.last = token.span.end;
        self.previous = Some(token);
        Ok(token)
    }

    /// The token after the next one.
    pub fn peek_second(&mut self, state: State) -> Result<Token, ScriptError> {
        let (at, last, previous) = (self.frames.last().map(|frame| frame.at), self.last, self.previous);
        self.take_token(state)?;
        let second = self.peek(state)?;
        if let (Some(frame), Some(at)) = (self.frames.last_mut(), at) {
            frame.at = at;
        }
        (self.last, self.previous, self.seen) = (last, previous, None);
        Ok(second)
    }

    /// The last token that was taken, for what is said of the one after it.
    pub fn previous(&self) -> Option<Token> {
        self.previous
    }

    /// The span from a token to the last one that was taken.
    pub fn since(&self, first: Span) -> Span {
        Span { start: first.start, end: self.last.max(first.end) }
    }

    /// The text of a token as it is written.
    pub fn text(&self, token: Token) -> &[u8] {
        let length = (token.span.end - token.span.start) as usize;
        self.source.file(token.file).and_then(|file| file.text.get(token.at..token.at + length)).unwrap_or_default()
    }

    /// The name that a token is, without quotes and without `-l`.
    pub fn name(&self, token: Token) -> BString {
        let text = self.text(token);
        let inner = match token.kind {
            Kind::Quoted => text.get(1..text.len().saturating_sub(1)).unwrap_or_default(),
            Kind::Library => text.get(2..).unwrap_or_default(),
            _ => text,
        };
        BString::from(inner)
    }

    /// Notes that a token is passed over.
    pub fn warn(&mut self, token: Token, kind: WarningKind) {
        let place = self.source.file(token.file).map(|file| file.place(token.at)).unwrap_or_default();
        self.warnings.push(Warning { kind, span: token.span, place });
    }

    /// The error of a token.
    pub fn error(&self, token: Token, kind: ErrorKind) -> ScriptError {
        self.error_at(token.file, token.at, token.span, kind)
    }

    /// An error where the lexer stands.
    pub fn error_here(&self, kind: ErrorKind) -> ScriptError {
        let (file, at) = self.frames.last().map_or((0, 0), |frame| (frame.file, frame.at));
        self.error_at(file, at, Span { start: self.last, end: self.last }, kind)
    }

    fn error_at(&self, file: usize, at: usize, span: Span, kind: ErrorKind) -> ScriptError {
        match self.source.file(file) {
            Some(file) => ScriptError::new(kind, span, file.place(at), file.line(at).into()),
            None => ScriptError::new(kind, span, super::source::Place::default(), BString::default()),
        }
    }

    /// Reads a token from where the lexer stands. What begins nothing is passed over, as by GNU ld, with a warning.
    fn read(&mut self, state: State) -> Result<Token, ScriptError> {
        loop {
            let (file, at, base) = match self.frames.last() {
                Some(frame) => (frame.file, frame.at, frame.base),
                None => return Ok(self.end_of_nothing()),
            };
            let text = self.source.file(file).map_or(&[][..], |file| &file.text);
            let start = match skip(state, text, at) {
                Ok(start) => start,
                Err(open) => return Err(self.error_in(file, base, open, ErrorKind::OpenComment)),
            };
            let rest = text.get(start..).unwrap_or_default();
            let found = match self.dialect {
                _ if rest.is_empty() => Some((Kind::End, 0)),
                Dialect::Gnu => scan(state, rest),
                Dialect::Profile => dialect::scan(state, rest),
            };
            let invalid = rest.first().copied().unwrap_or(0);
            match found {
                Some((kind, length)) => {
                    let span = span_of(base, start, length);
                    return Ok(Token { kind, span, file, at: start });
                }
                None => self.pass_over(file, base, start, invalid)?,
            }
        }
    }

    fn end_of_nothing(&self) -> Token {
        Token { kind: Kind::End, span: Span { start: self.last, end: self.last }, file: 0, at: 0 }
    }

    /// An error at a byte of a file.
    fn error_in(&self, file: usize, base: u32, at: usize, kind: ErrorKind) -> ScriptError {
        self.error_at(file, at, span_of(base, at, 1), kind)
    }

    /// Notes a character that begins nothing, and goes on after it.
    fn pass_over(&mut self, file: usize, base: u32, at: usize, byte: u8) -> Result<(), ScriptError> {
        let error = self.error_in(file, base, at, ErrorKind::Invalid(byte));
        if self.is_strict || self.warnings.len() >= MAX_INVALID {
            return Err(error);
        }
        let kind = WarningKind::Invalid(byte);
        self.warnings.push(Warning { kind, span: error.span(), place: error.place().clone() });
        if let Some(frame) = self.frames.last_mut() {
            frame.at = at + 1;
        }
        Ok(())
    }
}

/// The span in the whole text of a stretch of a file.
fn span_of(base: u32, at: usize, length: usize) -> Span {
    let start = base.wrapping_add(offset(at));
    Span { start, end: start.wrapping_add(offset(length)) }
}

fn offset(at: usize) -> u32 {
    u32::try_from(at).unwrap_or(u32::MAX)
}

/// The first byte from an offset on that is neither space nor in a comment; the offset of a comment without an end.
fn skip(state: State, text: &[u8], mut at: usize) -> Result<usize, usize> {
    loop {
        let rest = text.get(at..).unwrap_or_default();
        match rest {
            [b' ' | b'\t' | b'\r' | b'\n', ..] => at += 1,
            [b'/', b'*', inner @ ..] => at += 4 + inner.find("*/").ok_or(at)?,
            [b'#', ..] if state != State::InputList => at += memchr::memchr(b'\n', rest).unwrap_or(rest.len()),
            _ => return Ok(at),
        }
    }
}

/// The token that a text begins with, and its length; None if none begins so.
pub(super) fn scan(state: State, rest: &[u8]) -> Option<(Kind, usize)> {
    let mut best: Option<(Kind, usize)> = None;
    for rule in [number, mark, name, library, quoted] {
        match (rule(state, rest), best) {
            (Some((_, length)), Some((_, longest))) if length <= longest => {}
            (Some(found), _) => best = Some(found),
            (None, _) => {}
        }
    }
    best
}

pub(super) fn run(text: &[u8], is_in: impl Fn(u8) -> bool) -> usize {
    text.iter().position(|byte| !is_in(*byte)).unwrap_or(text.len())
}

fn is_symbol_byte(byte: u8) -> bool {
    matches!(byte, b'_' | b'a'..=b'z' | b'A'..=b'Z' | b'0'..=b'9' | b'/' | b'.' | b'\\' | b'$' | b'~')
}

pub(super) fn is_file_byte(byte: u8) -> bool {
    is_symbol_byte(byte) || matches!(byte, b'-' | b'+' | b':' | b'[' | b']' | b',' | b'=')
}

pub(super) fn is_wild_byte(byte: u8) -> bool {
    is_file_byte(byte) || matches!(byte, b'?' | b'*' | b'^' | b'!')
}

pub(super) fn is_file_start(byte: u8) -> bool {
    is_symbol_byte(byte) && !byte.is_ascii_digit()
}

fn is_symbol_start(byte: u8) -> bool {
    is_file_start(byte) && !matches!(byte, b'/' | b'~')
}

fn is_version_start(byte: u8) -> bool {
    byte.is_ascii_alphabetic() || b"*?.$_[]-!^\\".contains(&byte)
}

/// A name or a word of a state.
fn name(state: State, rest: &[u8]) -> Option<(Kind, usize)> {
    let first = *rest.first()?;
    let length = match state {
        State::Script if is_file_start(first) => run(rest, is_file_byte),
        State::InputList if is_file_start(first) => run(rest, is_file_byte),
        State::InputList if first == b'=' && rest.get(1).map_or(false, |byte| is_file_start(*byte)) => {
            run(rest, is_file_byte)
        }
        State::Expression if is_symbol_start(first) => run(rest, is_symbol_byte),
        State::Expression if rest.starts_with(b"/DISCARD/") => b"/DISCARD/".len(),
        State::Wild => run(rest, is_wild_byte),
        State::VersionNode if is_version_start(first) => version_identifier(rest),
        State::VersionScript if first.is_ascii_alphabetic() || b".$_".contains(&first) => {
            1 + run(&rest[1..], |byte| byte.is_ascii_alphanumeric() || b"._".contains(&byte))
        }
        _ => 0,
    };
    let spelling = rest.get(..length).filter(|spelling| !spelling.is_empty())?;
    Some((word(state, spelling).map_or(Kind::Name, Kind::Word), length))
}

/// The length of a pattern of a version node, which can have `::` in it.
fn version_identifier(rest: &[u8]) -> usize {
    let mut at = 1;
    loop {
        match rest.get(at..) {
            Some([b':', b':', ..]) => at += 2,
            Some([byte, ..]) if is_version_start(*byte) || byte.is_ascii_digit() => at += 1,
            _ => return at,
        }
    }
}

fn library(state: State, rest: &[u8]) -> Option<(Kind, usize)> {
    let name = rest.strip_prefix(b"-l").filter(|_| state == State::InputList)?;
    let length = run(name, is_file_byte);
    (length > 0).then_some((Kind::Library, 2 + length))
}

pub(super) fn quoted(state: State, rest: &[u8]) -> Option<(Kind, usize)> {
    if matches!(state, State::VersionStart | State::VersionScript) {
        return None;
    }
    let inner = rest.strip_prefix(b"\"")?;
    memchr::memchr(b'"', inner).map(|length| (Kind::Quoted, length + 2))
}

/// The marks of the states, longer ones before their beginnings.
const SCRIPT_MARKS: &[&str] = &[
    "<<=", ">>=", "+=", "-=", "*=", "/=", "&=", "|=", ">", ",", "~", "!", "+", "-", "=", "}", "{", ")", "(", ":", ";",
];
const EXPRESSION_MARKS: &[&str] = &[
    "<<=", ">>=", "||", "==", "!=", ">=", "<=", "<<", ">>", "+=", "-=", "*=", "/=", "&=", "|=", "&&", ">", ",", "&",
    "|", "~", "!", "?", "*", "+", "-", "/", "%", "<", "=", "}", "{", ")", "(", ":", ";", "^",
];
const WILD_MARKS: &[&str] =
    &["<<=", ">>=", "+=", "-=", "*=", "/=", "&=", "|=", "]", "[", "&", "=", "}", "{", ")", "(", ";"];

pub(super) fn mark(state: State, rest: &[u8]) -> Option<(Kind, usize)> {
    let marks: &[&str] = match state {
        State::Script => SCRIPT_MARKS,
        State::Expression => EXPRESSION_MARKS,
        State::Wild => WILD_MARKS,
        State::InputList => &[",", ")", "("],
        State::VersionStart => &["{"],
        State::VersionScript | State::VersionNode => &[":", ",", ";", "{", "}"],
    };
    let found = marks.iter().find(|mark| rest.starts_with(mark.as_bytes()))?;
    Some((Kind::Mark(found), found.len()))
}

/// A number, as the state spells them.
fn number(state: State, rest: &[u8]) -> Option<(Kind, usize)> {
    let (value, length) = match state {
        State::Script => scaled(rest)?,
        State::Expression => match (based(rest), scaled(rest)) {
            (Some(based), Some(scaled)) => {
                if scaled.1 > based.1 {
                    scaled
                } else {
                    based
                }
            }
            (based, scaled) => based.or(scaled)?,
        },
        _ => return None,
    };
    Some((Kind::Number(value), length))
}

/// Digits in bases 8, 10 and 16, or `$` and hexadecimal ones, perhaps with a suffix K or M.
fn scaled(rest: &[u8]) -> Option<(u64, usize)> {
    let hex = |digits: &[u8]| run(digits, |byte| byte.is_ascii_hexdigit());
    let (skipped, base, length) = match rest {
        [b'$', digits @ ..] if hex(digits) > 0 => (1, Some(16), hex(digits)),
        [b'0', b'x' | b'X', digits @ ..] if hex(digits) > 0 => (2, Some(16), hex(digits)),
        _ => (0, None, run(rest, |byte| byte.is_ascii_digit())),
    };
    let digits = rest.get(skipped..skipped + length).filter(|digits| !digits.is_empty())?;
    let base = base.unwrap_or(if digits.starts_with(b"0") { 8 } else { 10 });
    let value = value_of(digits, base);
    let end = skipped + length;
    Some(match rest.get(end) {
        Some(b'K' | b'k') => (value.wrapping_mul(1 << 10), end + 1),
        Some(b'M' | b'm') => (value.wrapping_mul(1 << 20), end + 1),
        _ => (value, end),
    })
}

/// Hexadecimal digits and a last letter that says the base: H or X, O, B, D. So `add` is a number in an expression.
fn based(rest: &[u8]) -> Option<(u64, usize)> {
    let digits = run(rest, |byte| byte.is_ascii_hexdigit());
    let is_letter_after = matches!(rest.get(digits), Some(b'h' | b'H' | b'x' | b'X' | b'o' | b'O'));
    let length = if digits > 0 && is_letter_after {
        digits + 1
    } else {
        let run = rest.get(..digits)?;
        1 + run.iter().rposition(|byte| matches!(byte, b'b' | b'B' | b'd' | b'D')).filter(|at| *at > 0)?
    };
    let base = match rest.get(length - 1)? {
        b'h' | b'H' | b'x' | b'X' => 16,
        b'o' | b'O' => 8,
        b'b' | b'B' => 2,
        _ => 10,
    };
    Some((value_of(rest.get(..length)?, base), length))
}

/// The value of the digits that a text begins with, as `strtoul` gives it: at most 2^64 - 1.
fn value_of(text: &[u8], base: u32) -> u64 {
    let digits = text.iter().map_while(|byte| char::from(*byte).to_digit(base));
    digits.fold(0u64, |value, digit| value.saturating_mul(u64::from(base)).saturating_add(u64::from(digit)))
}
