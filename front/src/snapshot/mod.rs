//! What was read, looked for and missing: bytes, device, inode, size and times; what has changed since.
//!
//! The rule is that of docs/watch.md: a file is unchanged if its device, inode, size and times are those that it had
//! when it was read; if it had changed shortly before it was read, its bytes are compared.

mod bytes;
mod file;
mod lasting;
mod looks;
#[cfg(test)]
mod tests;

pub use bytes::Bytes;
pub use file::{open_regular, read_any, read_open, read_regular, stat, FileId, ReadFault, Seen, Stamp};

use lasting::is_link;
pub use lasting::{are_lasting, is_by_process};

use crate::script::ScriptFiles;
use indexmap::IndexMap;
use looks::Looks;
use rustix::fs::{FileType, Stat};
use std::collections::{HashMap, HashSet};
use std::io;
use std::path::{Path, PathBuf};

/// What is asked of a path without reading it.
#[derive(Clone, Copy, PartialEq, Eq, Hash, Debug)]
pub enum Question {
    /// Whether there is something of this name.
    Exists,
    /// Whether there is a regular file of this name.
    IsFile,
}

impl Question {
    /// The answer to the question at this moment.
    fn ask(self, path: &Path) -> bool {
        let found = stat(path);
        match self {
            Question::Exists => found.is_ok(),
            Question::IsFile => found.map_or(false, |found| is_file(&found)),
        }
    }
}

fn is_file(found: &Stat) -> bool {
    file::kind_of(found) == FileType::RegularFile
}

/// Whether a path leads to what is neither a regular file nor a folder.
fn is_stream(path: &Path) -> bool {
    let kind = stat(path).ok().map(|found| file::kind_of(&found));
    kind.map_or(false, |kind| !matches!(kind, FileType::RegularFile | FileType::Directory))
}

/// What is not as it was looked at.
#[derive(Clone, PartialEq, Eq, Debug, Default)]
pub struct Changes {
    /// The files that are not what was read of them.
    pub files: Vec<PathBuf>,
    /// Whether a file came that could not be read, or a question has another answer: other files may be inputs now.
    pub has_other_inputs: bool,
}

impl Changes {
    /// Whether all is as it was.
    pub fn is_empty(&self) -> bool {
        self.files.is_empty() && !self.has_other_inputs
    }
}

/// What a link looked at. Paths are as they were given: those that are relative go by the working folder.
#[derive(Debug, Default)]
pub struct Snapshot {
    /// The files that were read; `None` for those that could not be.
    files: IndexMap<PathBuf, Option<Seen>>,
    questions: IndexMap<(Question, PathBuf), bool>,
    before: HashMap<PathBuf, Seen>,
    /// The files of which it is not known yet that each process finds them; symbolic links, which may lead elsewhere,
    /// stay.
    unproved: HashSet<PathBuf>,
    looks: Option<Looks>,
    is_of_regular_files: bool,
    shared: Option<Shared>,
}

/// What a snapshot of a server goes by: it reads what is the same for the calls.
#[derive(Debug, Default)]
struct Shared {
    /// By folder: whether each process may find another one.
    folders: HashMap<PathBuf, bool>,
    /// The first path that was not read, as each process may find something else there.
    refused: Option<PathBuf>,
}

impl Shared {
    /// Whether a path may be looked at.
    fn allows(&mut self, path: &Path) -> bool {
        let folder = path.parent().map(Path::to_owned).unwrap_or_default();
        let is_private = *self.folders.entry(folder).or_insert_with_key(|folder| is_by_process(folder));
        let is_refused = match std::fs::symlink_metadata(path).map(|found| found.file_type()) {
            Ok(kind) if kind.is_file() || kind.is_dir() => is_private,
            Ok(kind) if kind.is_symlink() => is_private || is_stream(path) || is_by_process(path),
            Ok(_) => true,
            Err(_) => is_private,
        };
        if is_refused && self.refused.is_none() {
            self.refused = Some(path.to_owned());
        }
        !is_refused
    }
}

impl Snapshot {
    /// A snapshot for which nothing was read yet.
    pub fn new() -> Snapshot {
        Snapshot::default()
    }

    /// A snapshot that reads regular files alone: a pipe would be waited for.
    pub fn of_regular_files() -> Snapshot {
        Snapshot { is_of_regular_files: true, ..Snapshot::default() }
    }

    /// A snapshot of a server: what is another file to each process, or can be read only once, is not read.
    pub fn shared() -> Snapshot {
        Snapshot { shared: Some(Shared::default()), ..Snapshot::default() }
    }

    /// The next one: what this one read is not read again if it is still the same.
    #[must_use]
    pub fn next(self) -> Snapshot {
        let shared = self.shared.map(|_| Shared::default());
        let before = self.files.into_iter().filter_map(|(path, seen)| Some((path, seen?))).collect();
        Snapshot { before, shared, is_of_regular_files: self.is_of_regular_files, ..Snapshot::default() }
    }

    /// The first path that a server did not read.
    pub fn refused(&self) -> Option<&Path> {
        self.shared.as_ref()?.refused.as_deref()
    }

    fn allows(&mut self, path: &Path) -> bool {
        self.shared.as_mut().map_or(true, |shared| shared.allows(path))
    }

    /// The bytes of a regular file. If it has the bytes that it had, they are the same in memory.
    ///
    /// # Errors
    /// If the file is not there, is no regular one, or cannot be read.
    pub fn read(&mut self, path: &Path) -> Result<Bytes, ReadFault> {
        self.read_by(path, read_regular)
    }

    /// The same of a file of any kind: a pipe that somebody writes is waited for.
    ///
    /// # Errors
    /// If the file is not there or cannot be read, or is a folder, or a pipe that nobody writes.
    pub fn read_any(&mut self, path: &Path) -> Result<Bytes, ReadFault> {
        let is_regular = self.is_of_regular_files || self.shared.is_some();
        self.read_by(path, if is_regular { read_regular } else { read_any })
    }

    fn read_by(&mut self, path: &Path, read: fn(&Path) -> Result<Seen, ReadFault>) -> Result<Bytes, ReadFault> {
        self.looks = None;
        if !self.allows(path) {
            self.files.insert(path.to_owned(), None);
            return Err(ReadFault::NotRegular);
        }
        let old = self.files.get(path).cloned().flatten().or_else(|| self.before.remove(path));
        let found = match old {
            Some(old) if looks::is_same_stamp(path, &old) && old.is_settled => Ok(old),
            Some(old) => read(path).map(|found| with_old_bytes(found, &old)),
            None => read(path),
        };
        self.files.insert(path.to_owned(), found.as_ref().ok().cloned());
        self.unproved.insert(path.to_owned());
        found.map(|seen| seen.data)
    }

    /// Whether there is something of this name.
    pub fn exists(&mut self, path: &Path) -> bool {
        self.ask(Question::Exists, path)
    }

    /// Whether there is a regular file of this name.
    pub fn is_file(&mut self, path: &Path) -> bool {
        self.ask(Question::IsFile, path)
    }

    fn ask(&mut self, question: Question, path: &Path) -> bool {
        let answer = self.allows(path) && question.ask(path);
        self.questions.insert((question, path.to_owned()), answer);
        answer
    }

    /// The paths that were read, in the order of the first time, with those that could not be.
    pub fn paths(&self) -> impl Iterator<Item = &Path> {
        self.files.keys().map(PathBuf::as_path)
    }

    /// The file that was read at a path.
    pub fn seen(&self, path: &Path) -> Option<&Seen> {
        self.files.get(path)?.as_ref()
    }

    /// The questions that were asked, with their answers.
    pub fn questions(&self) -> impl Iterator<Item = (Question, &Path, bool)> {
        self.questions.iter().map(|((question, path), answer)| (*question, path.as_path(), *answer))
    }

    /// Whether a later look, also of another process, can tell of each file whether it is the same: all are regular,
    /// none changed while it was read, and none is in `/dev` or `/proc`.
    pub fn is_provable(&mut self) -> bool {
        let is_stamped = self.files.values().flatten().all(|seen| seen.stamp.is_some());
        let files = &self.files;
        self.unproved.retain(|path| matches!(files.get(path), Some(Some(_))));
        if !is_stamped || !are_lasting(self.unproved.iter().map(PathBuf::as_path)) {
            return false;
        }
        self.unproved.retain(|path| is_link(path));
        true
    }

    /// What has changed since. It is quicker the second time. A file with the bytes that it had is none that changed.
    pub fn changed(&mut self) -> Changes {
        let looks = self.looks.take().unwrap_or_else(|| Looks::at(self.files.iter()));
        let files = looks.changed(&mut self.files);
        self.looks = Some(looks);
        let came = self.files.iter().any(|(path, seen)| seen.is_none() && Question::Exists.ask(path));
        let has_other_inputs = came || self.questions.iter().any(|((ask, path), answer)| ask.ask(path) != *answer);
        Changes { files, has_other_inputs }
    }

    /// The name under which the file at a path was read, if it was: no file that is read may be written.
    pub fn read_as(&self, path: &Path) -> Option<&Path> {
        let id = Stamp::of(&stat(path).ok()?).id;
        let stamps = self.files.iter().filter_map(|(path, seen)| Some((path, seen.as_ref()?.stamp?)));
        stamps.into_iter().find(|(_, stamp)| stamp.id == id).map(|(path, _)| path.as_path())
    }
}

/// What scripts include is read by the snapshot of their link.
impl ScriptFiles for Snapshot {
    fn read(&mut self, path: &Path) -> io::Result<Vec<u8>> {
        Ok(self.read_any(path)?.to_vec())
    }
}

/// A file that was read, with the bytes of before if they are equal.
fn with_old_bytes(mut found: Seen, old: &Seen) -> Seen {
    if found.data == old.data {
        found.data = old.data.clone();
    }
    found
}
