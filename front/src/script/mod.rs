//! GNU ld's linker scripts: one lexer, one parser, one tree of the whole language, with places in the text.
//!
//! A `Reader` reads the scripts of a command line in their order, with what they include; a `Reading` is their tree,
//! the text with its places, and what was passed over. Texts that stand alone are read by `parse` and `expression`.

mod dialect;
mod error;
mod keywords;
mod lexer;
mod parser;
pub mod source;
pub mod tree;

use std::ffi::OsStr;
use std::io;
use std::ops::Range;
use std::os::unix::ffi::OsStrExt;
use std::path::{Path, PathBuf};

pub use error::{ErrorKind, ScriptError, Warning, WarningKind};
pub use source::{Place, ScriptFiles, Source};

use crate::report::os_message;
use dialect::Dialect;
use lexer::State;
use parser::Parser;
use tree::{Expr, Name, Script, VersionNode};

/// What scripts say, in their order.
#[derive(Debug, Default)]
pub struct Reading {
    /// The statements of all of them.
    pub script: Script,
    /// Their texts, to which the spans of the tree belong.
    pub source: Source,
    /// What was passed over.
    pub warnings: Vec<Warning>,
}

/// Reads scripts one after the other, as a command line has them.
pub struct Reader<'a> {
    parser: Parser<'a>,
    script: Script,
}

impl<'a> Reader<'a> {
    /// A reader that opens files through `files`, and looks for those of INCLUDE in the current folder and then in
    /// `folders` (those of -L).
    pub fn new(files: &'a mut dyn ScriptFiles, folders: Vec<PathBuf>) -> Reader<'a> {
        Reader { parser: Parser::new(files, folders), script: Script::default() }
    }

    /// Tells names from marks as `ldi` does, takes what its profile has and GNU ld has not, and goes on after errors:
    /// to look at a text that `ldi` refuses.
    #[must_use]
    pub fn in_profile(mut self) -> Reader<'a> {
        self.parser.lexer.dialect = Dialect::Profile;
        self
    }

    /// Reads a script that an option names (`-T`), as it stands or in a folder of the search. Gives the indices of its
    /// statements.
    ///
    /// # Errors
    /// If no file of that name can be read, it was read before, or it is no script of GNU ld's.
    pub fn open(&mut self, name: &OsStr) -> Result<Range<usize>, ScriptError> {
        let own = Name::from(name.as_bytes());
        if self.parser.scripts.contains(&own) {
            return Err(self.parser.lexer.error_here(ErrorKind::Repeated(own.to_string())));
        }
        match self.parser.find(&own) {
            Ok((path, text)) => {
                self.parser.scripts.push(own);
                self.text(&path, text)
            }
            Err(error) => {
                let reason = ErrorKind::MissingScript(own.to_string(), os_message(&error));
                Err(self.parser.lexer.error_here(reason))
            }
        }
    }

    /// Reads the text of a script.
    ///
    /// # Errors
    /// If the text is no script of GNU ld's, or a file that it includes cannot be read.
    pub fn text(&mut self, path: &Path, text: Vec<u8>) -> Result<Range<usize>, ScriptError> {
        self.read(path, text, |parser, script| parser.statements(&mut script.statements))
    }

    /// Reads a text that stands in the place of an object, and may be no script at all: a character that begins nothing
    /// is an error.
    ///
    /// # Errors
    /// If the text is no script of GNU ld's, or a file that it includes cannot be read.
    pub fn implicit(&mut self, path: &Path, text: Vec<u8>) -> Result<Range<usize>, ScriptError> {
        self.parser.lexer.is_strict = true;
        let result = self.text(path, text);
        self.parser.lexer.is_strict = false;
        result
    }

    /// Reads the value of --defsym, `NAME=EXPRESSION`.
    ///
    /// # Errors
    /// If the text is no assignment.
    pub fn defsym(&mut self, text: &[u8]) -> Result<Range<usize>, ScriptError> {
        let name = text.split(|byte| *byte == b'=').next().unwrap_or_default();
        let path = PathBuf::from(format!("--defsym {}", String::from_utf8_lossy(name).trim()));
        self.read(&path, text.to_vec(), |parser, script| {
            script.statements.push(parser.defsym()?);
            Ok(())
        })
    }

    /// The errors after which it went on.
    pub(crate) fn take_errors(&mut self) -> Vec<ScriptError> {
        std::mem::take(&mut self.parser.errors)
    }

    /// Whether a part of the statements has INSERT.
    #[must_use]
    pub fn has_insert(&self, part: &Range<usize>) -> bool {
        let statements = self.script.statements.get(part.clone()).unwrap_or_default();
        statements.iter().any(|statement| matches!(statement.node, tree::Statement::Insert(..)))
    }

    /// The script of all that was read.
    #[must_use]
    pub fn finish(mut self) -> Reading {
        self.parser.lexer.abandon();
        let lexer::Lexer { mut source, warnings, .. } = self.parser.lexer;
        warnings.iter().for_each(|warning| source.blank(warning.span));
        Reading { script: self.script, source, warnings }
    }

    fn read(
        &mut self,
        path: &Path,
        text: Vec<u8>,
        read: impl FnOnce(&mut Parser<'a>, &mut Script) -> Result<(), ScriptError>,
    ) -> Result<Range<usize>, ScriptError> {
        let first = self.script.statements.len();
        let result = self.parser.within(path, text, |parser| read(parser, &mut self.script));
        match result {
            Ok(()) => Ok(first..self.script.statements.len()),
            Err(error) => {
                if self.parser.lexer.dialect == Dialect::Gnu {
                    self.script.statements.truncate(first);
                }
                Err(error)
            }
        }
    }
}

/// The file system as it is, for a `Reader`.
#[derive(Clone, Copy, Debug, Default)]
pub struct Disk;

impl ScriptFiles for Disk {
    fn read(&mut self, path: &Path) -> io::Result<Vec<u8>> {
        std::fs::read(path)
    }
}

/// A source of no files, for texts that include none.
#[derive(Clone, Copy, Debug, Default)]
pub struct NoFiles;

impl ScriptFiles for NoFiles {
    fn read(&mut self, _: &Path) -> io::Result<Vec<u8>> {
        Err(io::ErrorKind::NotFound.into())
    }
}

/// Reads one script that includes nothing.
///
/// # Errors
/// If the text is no script of GNU ld's, or has an INCLUDE.
pub fn parse(path: &Path, text: &[u8]) -> Result<Reading, ScriptError> {
    let mut files = NoFiles;
    let mut reader = Reader::new(&mut files, Vec::new());
    reader.text(path, text.to_vec())?;
    Ok(reader.finish())
}

/// Reads an expression that stands alone; `path` is named in errors.
///
/// # Errors
/// If the text is no expression of GNU ld's.
pub fn expression(path: &Path, text: &[u8]) -> Result<Expr, ScriptError> {
    let mut files = NoFiles;
    let mut parser = Parser::new(&mut files, Vec::new());
    parser.within(path, text.to_vec(), |parser| {
        let expr = parser.expression()?;
        parser.end(State::Expression)?;
        Ok(expr)
    })
}

/// Reads a version script, as of `--version-script`.
///
/// # Errors
/// If the text is no version script.
pub fn version_script(path: &Path, text: &[u8]) -> Result<Vec<VersionNode>, ScriptError> {
    let mut files = NoFiles;
    let mut parser = Parser::new(&mut files, Vec::new());
    parser.within(path, text.to_vec(), |parser| parser.version_script())
}

#[cfg(test)]
mod tests;
