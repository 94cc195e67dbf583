//! Reads the texts of scripts into a tree, by the grammar of GNU ld (`ldgram.y`) and in the lexer's states that it
//! sets. A token after an expression is read in the state of expressions, as there.

mod expressions;
mod inputs;
mod memory;
mod sections;
mod statements;
mod version;

use std::ffi::OsStr;
use std::io;
use std::os::unix::ffi::OsStrExt;
use std::path::{Path, PathBuf};

use bstr::{BString, ByteSlice};

use super::dialect::Dialect;
use super::error::{quoted, ErrorKind, ScriptError};
use super::lexer::{Kind, Lexer, State, Token};
use super::source::ScriptFiles;
use super::tree::{Name, Span, Spanned};

/// The result of reading a part of a script.
pub(super) type Parsed<T> = Result<T, ScriptError>;

/// How deep statements, parentheses and operators can nest in the text.
const MAX_NESTING: usize = 200;

/// After how many errors no more are looked for.
const MAX_ERRORS: usize = 20;

/// A parser over texts, one after the other.
pub(super) struct Parser<'a> {
    pub lexer: Lexer,
    pub files: &'a mut dyn ScriptFiles,
    /// Where files of INCLUDE are looked for, after the current folder: those of -L and of SEARCH_DIR.
    pub folders: Vec<PathBuf>,
    /// The scripts that were named for themselves; INCLUDE cannot name them again.
    pub scripts: Vec<Name>,
    /// The errors after which it went on.
    pub errors: Vec<ScriptError>,
    nesting: usize,
    /// The last number as it was written.
    last_number: BString,
}

impl<'a> Parser<'a> {
    pub fn new(files: &'a mut dyn ScriptFiles, folders: Vec<PathBuf>) -> Parser<'a> {
        let (lexer, last_number) = (Lexer::default(), BString::default());
        Parser { lexer, files, folders, scripts: Vec::new(), errors: Vec::new(), nesting: 0, last_number }
    }

    fn peek(&mut self, state: State) -> Parsed<Token> {
        self.lexer.peek(state)
    }

    fn take_token(&mut self, state: State) -> Parsed<Token> {
        self.lexer.take_token(state)
    }

    /// Takes the next token if it is this mark or word.
    fn accept(&mut self, state: State, text: &str) -> Parsed<Option<Token>> {
        if self.peek(state)?.is(text) {
            return self.take_token(state).map(Some);
        }
        Ok(None)
    }

    /// Takes the next token, which must be this mark or word.
    fn demand(&mut self, state: State, text: &str) -> Parsed<Token> {
        let token = self.peek(state)?;
        if token.is(text) {
            return self.take_token(state);
        }
        Err(self.unexpected(token, format!("`{text}`")))
    }

    /// Takes the next token, which must be a name.
    fn name(&mut self, state: State, expected: &str) -> Parsed<Spanned<Name>> {
        let token = self.peek(state)?;
        if !token.is_name() {
            return Err(self.unexpected(token, expected.to_owned()));
        }
        self.take_token(state)?;
        Ok(Spanned::new(self.lexer.name(token), token.span))
    }

    /// `( name )`
    fn name_in_parentheses(&mut self, state: State, expected: &str) -> Parsed<Name> {
        self.demand(state, "(")?;
        let name = self.name(state, expected)?;
        self.demand(state, ")")?;
        Ok(name.node)
    }

    /// The error for a token that stands where something else is wanted.
    fn unexpected(&self, found: Token, expected: String) -> ScriptError {
        let hint = self.hint(found);
        let kind = ErrorKind::Unexpected { expected, found: self.shown(found) };
        self.lexer.error(found, kind).with_hint(hint)
    }

    /// What may be meant, if a name has a mark in it: GNU ld takes `x=1` as one name.
    fn hint(&self, found: Token) -> Option<String> {
        let tokens = [self.lexer.previous(), Some(found)];
        let names = tokens.into_iter().flatten().filter(|token| token.kind == Kind::Name);
        let with_mark = names.map(|token| self.lexer.text(token)).find(|text| text.find_byteset(":,=").is_some())?;
        let marks = ["=", ":", ","].into_iter().filter(|mark| with_mark.contains_str(mark));
        let marks: Vec<String> = marks.map(|mark| format!("`{mark}`")).collect();
        Some(format!("{} is one name for GNU ld: write spaces around {}", quoted(with_mark), marks.join(" and ")))
    }

    /// A token in quotes for people.
    fn shown(&self, token: Token) -> String {
        match token.kind {
            Kind::End => "the end".to_owned(),
            _ => quoted(self.lexer.text(token)),
        }
    }

    /// The error for an opening mark that nothing closes.
    fn open(&self, opening: Token, of: &[u8]) -> ScriptError {
        let of = of.to_str_lossy().into_owned();
        self.lexer.error(opening, ErrorKind::Open { of })
    }

    /// Goes on after the statement that has an error, if a text is only looked at: to a `;`, past the braces that it
    /// opens, or to one that closes what is around it.
    fn recover(&mut self, state: State, error: ScriptError) -> Parsed<()> {
        if self.lexer.dialect == Dialect::Gnu || self.errors.len() >= MAX_ERRORS {
            return Err(error);
        }
        let mut depth = 0_usize;
        loop {
            let token = self.peek(state)?;
            match token.kind {
                Kind::End => return Err(error),
                Kind::Mark("}") if depth == 0 => break,
                Kind::Mark("{") => depth += 1,
                Kind::Mark("}") => depth -= 1,
                _ => {}
            }
            self.take_token(state)?;
            if depth == 0 && (token.is(";") || token.is("}")) {
                break;
            }
        }
        self.errors.push(error);
        Ok(())
    }

    /// Goes one level deeper into what nests.
    fn nested<T>(&mut self, too_deep: ErrorKind, read: impl FnOnce(&mut Self) -> Parsed<T>) -> Parsed<T> {
        if self.nesting >= MAX_NESTING {
            return Err(self.lexer.error_here(too_deep));
        }
        self.nesting += 1;
        let result = read(self);
        self.nesting -= 1;
        result
    }

    /// `INCLUDE file`: what the file has, by the given reader of statements, which stops at what it does not know.
    fn include(&mut self, state: State, read: impl FnOnce(&mut Self) -> Parsed<()>) -> Parsed<()> {
        let word = self.take_token(state)?;
        let name = self.name(state, "the name of a file")?.node;
        if self.scripts.contains(&name) {
            return Err(self.lexer.error(word, ErrorKind::Repeated(name.to_string())));
        }
        let (path, text) = match self.find(&name) {
            Ok(found) => found,
            // A text that is only looked at says enough by the statement itself.
            Err(_) if self.lexer.dialect == Dialect::Profile => (name.to_string().into(), Vec::new()),
            Err(_) => return Err(self.lexer.error(word, ErrorKind::MissingInclude(name.to_string()))),
        };
        self.lexer.include(word, path, text)?;
        read(self)?;
        let end = self.peek(state)?;
        if end.kind != Kind::End {
            return Err(self.unexpected(end, "the end of the file".to_owned()));
        }
        self.lexer.pop();
        Ok(())
    }

    /// The file of a name: here, or in a folder of the search. The error is that of the name as it stands.
    pub fn find(&mut self, name: &Name) -> io::Result<(PathBuf, Vec<u8>)> {
        let name = Path::new(OsStr::from_bytes(name));
        let error = match self.files.read(name) {
            Ok(text) => return Ok((name.to_owned(), text)),
            Err(error) => error,
        };
        for folder in &self.folders {
            let mut path = folder.clone().into_os_string();
            path.push("/");
            path.push(name);
            if let Ok(text) = self.files.read(Path::new(&path)) {
                return Ok((PathBuf::from(path), text));
            }
        }
        Err(error)
    }

    /// Reads a text from its begin to its end.
    pub fn within<T>(&mut self, path: &Path, text: Vec<u8>, read: impl FnOnce(&mut Self) -> Parsed<T>) -> Parsed<T> {
        self.nesting = 0;
        self.lexer.push(path.to_owned(), text)?;
        let result = read(self);
        self.lexer.abandon();
        result
    }

    fn since(&self, first: Span) -> Span {
        self.lexer.since(first)
    }
}
