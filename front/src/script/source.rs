//! The text of a script with the files that INCLUDE names, each in the place of the statement that names it, and the
//! file and line of an offset.

use std::fmt;
use std::io;
use std::path::{Path, PathBuf};

use bstr::{BStr, ByteSlice};

use super::tree::Span;

/// Gives the bytes of files: of those that INCLUDE may name, in the order in which GNU ld looks for them.
pub trait ScriptFiles {
    /// The bytes of a file.
    ///
    /// # Errors
    /// If the file is not there, or cannot be read.
    fn read(&mut self, path: &Path) -> io::Result<Vec<u8>>;
}

impl<F: FnMut(&Path) -> io::Result<Vec<u8>>> ScriptFiles for F {
    fn read(&mut self, path: &Path) -> io::Result<Vec<u8>> {
        self(path)
    }
}

/// A place for people: the file and its line.
#[derive(Clone, PartialEq, Eq, PartialOrd, Ord, Hash, Debug, Default)]
pub struct Place {
    /// The file, as it was named, or a word such as `--defsym`.
    pub path: PathBuf,
    /// The line, from 1.
    pub line: u32,
    /// The column in bytes, from 1.
    pub column: u32,
}

impl fmt::Display for Place {
    fn fmt(&self, f: &mut fmt::Formatter<'_>) -> fmt::Result {
        write!(f, "{}:{}", self.path.display(), self.line)
    }
}

/// A file that was read for a script.
#[derive(Debug)]
pub struct ScriptFile {
    /// Its path as it was opened.
    pub path: PathBuf,
    /// Its bytes.
    pub text: Vec<u8>,
    line_starts: Vec<u32>,
}

impl ScriptFile {
    pub(super) fn new(path: PathBuf, text: Vec<u8>) -> ScriptFile {
        let after = memchr::memchr_iter(b'\n', &text).filter_map(|at| u32::try_from(at + 1).ok());
        let line_starts = std::iter::once(0).chain(after).collect();
        ScriptFile { path, text, line_starts }
    }

    /// The index of the line of an offset in the file.
    fn line_index(&self, at: usize) -> usize {
        self.line_starts.partition_point(|start| *start as usize <= at).saturating_sub(1)
    }

    pub(super) fn place(&self, at: usize) -> Place {
        let index = self.line_index(at);
        let start = self.line_starts.get(index).copied().unwrap_or(0) as usize;
        let number = |value: usize| u32::try_from(value).unwrap_or(u32::MAX);
        Place { path: self.path.clone(), line: number(index + 1), column: number(at.saturating_sub(start) + 1) }
    }

    /// The line of an offset, without its end.
    pub(super) fn line(&self, at: usize) -> &BStr {
        let start = self.line_starts.get(self.line_index(at)).copied().unwrap_or(0) as usize;
        let rest = self.text.get(start..).unwrap_or_default();
        let line = rest.get(..memchr::memchr(b'\n', rest).unwrap_or(rest.len())).unwrap_or_default();
        line.strip_suffix(b"\r").unwrap_or(line).as_bstr()
    }
}

/// A stretch of the whole text that came from one file without a break.
#[derive(Clone, Copy, Debug)]
struct Stretch {
    /// Its first offset in the text.
    start: u32,
    file: usize,
    /// The offset in the file.
    at: u32,
}

/// The texts that a tree was read from, as one: offsets of its spans are offsets here.
#[derive(Debug, Default)]
pub struct Source {
    text: Vec<u8>,
    files: Vec<ScriptFile>,
    stretches: Vec<Stretch>,
    includes: Vec<(Span, PathBuf)>,
}

impl Source {
    /// The whole text; what was passed over with a warning is spaces.
    #[must_use]
    pub fn text(&self) -> &[u8] {
        &self.text
    }

    /// The text of a span; empty if there is no such.
    #[must_use]
    pub fn slice(&self, span: Span) -> &BStr {
        self.text.get(span.start as usize..span.end as usize).unwrap_or_default().as_bstr()
    }

    /// The files that were read, in their order: scripts, what they include, and words of the command line.
    #[must_use]
    pub fn files(&self) -> &[ScriptFile] {
        &self.files
    }

    /// The INCLUDEs: for each the line end that stands in its place, before the text of the file, and the file's path.
    #[must_use]
    pub fn includes(&self) -> &[(Span, PathBuf)] {
        &self.includes
    }

    /// Notes an INCLUDE, and puts a line end in its place.
    pub(super) fn add_include(&mut self, path: PathBuf) {
        let start = self.end();
        self.break_line();
        self.includes.push((Span { start, end: self.end() }, path));
    }

    /// The file, line and column of an offset; of one after the end, those of the end.
    #[must_use]
    pub fn place(&self, offset: u32) -> Place {
        match self.locate(offset) {
            Some((file, at)) => file.place(at),
            None => Place { path: PathBuf::new(), line: 1, column: 1 },
        }
    }

    /// The whole line of the file that an offset is in, without its end.
    #[must_use]
    pub fn line(&self, offset: u32) -> &BStr {
        self.locate(offset).map_or(b"".as_bstr(), |(file, at)| file.line(at))
    }

    /// The file of an offset, and the offset in the file.
    fn locate(&self, offset: u32) -> Option<(&ScriptFile, usize)> {
        let index = self.stretches.partition_point(|stretch| stretch.start <= offset).checked_sub(1)?;
        let stretch = self.stretches.get(index)?;
        let file = self.files.get(stretch.file)?;
        let at = (offset - stretch.start) as usize + stretch.at as usize;
        Some((file, at.min(file.text.len())))
    }

    /// Takes a file; gives its index.
    pub(super) fn add_file(&mut self, path: PathBuf, text: Vec<u8>) -> usize {
        self.files.push(ScriptFile::new(path, text));
        self.files.len() - 1
    }

    pub(super) fn file(&self, index: usize) -> Option<&ScriptFile> {
        self.files.get(index)
    }

    /// The length of the text.
    pub(super) fn end(&self) -> u32 {
        u32::try_from(self.text.len()).unwrap_or(u32::MAX)
    }

    /// Puts spaces in the place of what was passed over.
    pub(super) fn blank(&mut self, span: Span) {
        if let Some(part) = self.text.get_mut(span.start as usize..span.end as usize) {
            part.fill(b' ');
        }
    }

    /// Ends a line of the text, which no file has so.
    pub(super) fn break_line(&mut self) {
        self.text.push(b'\n');
    }

    /// Appends a part of a file to the text.
    pub(super) fn append(&mut self, file: usize, from: usize, to: usize) {
        let start = self.end();
        let part = self.files.get(file).and_then(|file| file.text.get(from..to)).unwrap_or_default();
        self.text.extend_from_slice(part);
        self.stretches.push(Stretch { start, file, at: u32::try_from(from).unwrap_or(u32::MAX) });
    }
}

#[cfg(test)]
mod tests {
    use super::*;

    #[test]
    fn place_counts_lines_and_columns_of_each_file() {
        let mut source = Source::default();
        let outer = source.add_file("a.ld".into(), b"x\nINCLUDE b\r\nyy".to_vec());
        let inner = source.add_file("b".into(), b"\nz".to_vec());
        source.append(outer, 0, 11);
        source.append(inner, 0, 2);
        source.append(outer, 11, 15);
        assert_eq!(source.text(), b"x\nINCLUDE b\nz\r\nyy");
        let place = |offset: u32| (source.place(offset).to_string(), source.place(offset).column);
        assert_eq!(place(2), ("a.ld:2".into(), 1));
        assert_eq!(place(12), ("b:2".into(), 1));
        assert_eq!(place(13), ("a.ld:2".into(), 10));
        assert_eq!(place(16), ("a.ld:3".into(), 2));
        assert_eq!(place(999), ("a.ld:3".into(), 3));
        assert_eq!(source.line(2), "INCLUDE b");
        assert_eq!(source.line(12), "z");
        assert_eq!(source.slice(Span { start: 2, end: 9 }), "INCLUDE");
        assert_eq!(source.slice(Span { start: 9, end: 2 }), "");
    }

    #[test]
    fn an_empty_source_has_a_place() {
        let source = Source::default();
        assert_eq!(source.place(7).line, 1);
        assert_eq!(source.line(7), "");
    }
}
