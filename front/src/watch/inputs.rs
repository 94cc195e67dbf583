//! The inputs of a watch: what was read of them, who is writing them, and whether they have changed since.

use std::collections::{HashMap, HashSet};
use std::path::{Path, PathBuf};
use std::time::{Duration, Instant};

use indexmap::{IndexMap, IndexSet};

use super::events::{file_id, has_writer, Event, Kind, NotWatched, Watcher};
use super::places::Places;
use crate::report::os_message;
use crate::snapshot::{read_regular, Changes, FileId, ReadFault, Snapshot};

/// How long nothing is heard of a writer who has not closed his file before it is read as it is.
pub(super) const MAX_WRITING: Duration = Duration::from_secs(5);

/// What changed since the last search.
#[derive(Clone, PartialEq, Eq, Debug)]
pub(super) enum Changed {
    /// These files have other bytes, and nothing else.
    Bytes(Vec<PathBuf>),
    /// More than bytes: all is to be found anew.
    All,
}

/// The inputs, as a snapshot has them.
#[derive(Debug)]
pub(super) struct Inputs {
    pub(super) snapshot: Snapshot,
    pub(super) places: Places,
    pub(super) watcher: Watcher,
    /// The names of the inputs that were read since the last state that was said.
    pub(super) after: IndexSet<PathBuf>,
    /// The inputs that are being written, and when their writers were last heard of.
    writers: IndexMap<PathBuf, Instant>,
    /// The files of which it was asked whether somebody writes them.
    asked: HashMap<PathBuf, FileId>,
    dirty: HashSet<PathBuf>,
    /// The files that were inputs before the last search that found others, and may be again.
    spare: HashSet<PathBuf>,
    /// The files that could not be read.
    failing: HashSet<PathBuf>,
    /// What changed since the last search that came to an end.
    changed: IndexSet<PathBuf>,
    /// Whether more than bytes may be other than at the last search.
    is_other: bool,
    /// Whether memory ran out when an input was read.
    pub(super) is_out_of_memory: bool,
    /// Whether the last search was one for all inputs.
    pub(super) is_anew: bool,
}

impl Inputs {
    pub(super) fn new() -> Inputs {
        Inputs {
            snapshot: Snapshot::of_regular_files(),
            places: Places::default(),
            watcher: Watcher::default(),
            after: IndexSet::new(),
            writers: IndexMap::new(),
            asked: HashMap::new(),
            dirty: HashSet::new(),
            spare: HashSet::new(),
            failing: HashSet::new(),
            changed: IndexSet::new(),
            is_other: true,
            is_out_of_memory: false,
            is_anew: true,
        }
    }

    // a search

    /// Reads the inputs that are to be read again; says what changed. Those that are being written wait.
    ///
    /// # Errors
    /// If a folder cannot be watched.
    pub(super) fn read(&mut self) -> Result<Changed, NotWatched> {
        let dirty: Vec<PathBuf> = self.dirty.iter().filter(|path| !self.writers.contains_key(*path)).cloned().collect();
        for path in dirty {
            self.dirty.remove(&path);
            self.places.put(&path, &mut self.watcher)?;
            let old = self.snapshot.seen(&path).map(|seen| seen.data.clone());
            match self.snapshot.read(&path) {
                Ok(new) => {
                    let is_same = old.as_ref().map_or(false, |old| old.is_identical(&new));
                    self.is_other |= old.is_none();
                    self.after.insert(path.clone());
                    self.ask_for_writer(&path);
                    if !is_same {
                        self.changed.insert(path);
                    }
                }
                Err(_) => self.is_other = true,
            }
        }
        Ok(match self.is_other {
            true => Changed::All,
            false => Changed::Bytes(self.changed.iter().cloned().collect()),
        })
    }

    /// Begins to find all inputs anew: what is still the same is not read again.
    pub(super) fn begin_anew(&mut self) {
        self.snapshot = std::mem::take(&mut self.snapshot).next();
        self.dirty.clear();
    }

    /// All inputs were read: their folders are watched from now on. `is_found` says whether that is all of a link.
    ///
    /// # Errors
    /// If a folder cannot be watched.
    pub(super) fn end_search(&mut self, is_found: bool) -> Result<(), NotWatched> {
        if self.is_anew {
            self.take_over()?;
        }
        self.is_other = !is_found;
        if is_found {
            self.changed.clear();
        }
        Ok(())
    }

    /// Makes the inputs those that the snapshot has.
    fn take_over(&mut self) -> Result<(), NotWatched> {
        let paths: Vec<PathBuf> = self.snapshot.paths().map(Path::to_owned).collect();
        let mut is_new = false;
        for path in &paths {
            let is_known = self.places.has(path);
            is_new |= self.places.put(path, &mut self.watcher)?;
            if self.snapshot.seen(path).is_some() {
                let is_new = !is_known && !self.spare.contains(path);
                if self.failing.remove(path) || is_new {
                    self.after.insert(path.clone());
                }
                self.ask_for_writer(path);
            } else {
                self.failing.insert(path.clone());
            }
        }
        let now: HashSet<&PathBuf> = paths.iter().collect();
        let gone: Vec<PathBuf> = self.places.all().filter(|path| !now.contains(path)).cloned().collect();
        for path in &gone {
            self.places.forget(path);
            self.writers.remove(path);
            self.asked.remove(path);
            self.after.remove(path);
            self.failing.remove(path);
        }
        if !gone.is_empty() {
            self.spare = gone.into_iter().collect();
        }
        if is_new {
            self.look_again(); // there were no events of what happened before the folder was watched
        }
        Ok(())
    }

    /// Asks whether somebody writes a file that was read for the first time, perhaps since long.
    fn ask_for_writer(&mut self, path: &Path) {
        let id = match file_id(path) {
            Some(id) if self.asked.get(path) != Some(&id) => id,
            _ => return,
        };
        if has_writer(path) == Some(true) {
            self.note_writer(path.to_owned(), Instant::now());
        } else {
            self.asked.insert(path.to_owned(), id);
        }
    }

    /// The inputs that are missing, cannot be read or are being written, each with its message.
    pub(super) fn waiting(&mut self) -> Vec<(String, String)> {
        let name = |path: &Path| path.display().to_string();
        let mut reasons: Vec<(String, String)> =
            self.writers.keys().map(|path| (name(path), "it is being written".into())).collect();
        let failed = self.snapshot.paths().filter(|path| self.snapshot.seen(path).is_none());
        let failed: Vec<PathBuf> =
            failed.filter(|path| !self.writers.contains_key(*path)).map(Path::to_owned).collect();
        for path in &failed {
            let why = match read_regular(path) {
                Ok(_) => continue,
                Err(ReadFault::Missing) => "it is not there".to_owned(),
                Err(ReadFault::System(fault)) => {
                    self.is_out_of_memory |= fault.raw_os_error() == Some(libc::ENOMEM);
                    format!("it cannot be read: {}", os_message(&fault))
                }
                Err(ReadFault::Folder) => "it cannot be read: it is no regular file".to_owned(),
                Err(fault) => format!("it cannot be read: {fault}"),
            };
            reasons.push((name(path), why));
        }
        reasons
    }

    /// Whether some input could not be read.
    fn failed(&self) -> Vec<PathBuf> {
        self.snapshot.paths().filter(|path| self.snapshot.seen(path).is_none()).map(Path::to_owned).collect()
    }

    pub(super) fn has_writers(&self) -> bool {
        !self.writers.is_empty()
    }

    /// The next search begins from nothing.
    pub(super) fn search_anew(&mut self) {
        self.is_other = true;
    }

    /// Whether there is something to search for.
    pub(super) fn are_dirty(&self) -> bool {
        self.is_other || self.has_writers() || !self.dirty.is_empty()
    }

    // what the system says

    /// Notes what an event says of inputs; says whether it is about one.
    pub(super) fn note_event(&mut self, event: &Event, now: Instant) -> bool {
        let concerned = self.places.at(&event.path).to_vec();
        for path in &concerned {
            self.dirty.insert(path.clone());
            match event.kind {
                Kind::Writing => self.note_writer(path.clone(), now),
                Kind::Touched => {}
                Kind::Whole | Kind::Gone => {
                    self.writers.remove(path);
                }
            }
        }
        !concerned.is_empty()
    }

    /// Notes that somebody writes a file.
    fn note_writer(&mut self, path: PathBuf, now: Instant) {
        self.dirty.insert(path.clone());
        self.writers.insert(path, now);
    }

    /// When the first writer of whom nothing is heard is given up.
    pub(super) fn silent_from(&self) -> Option<Instant> {
        self.writers.values().min().map(|heard| *heard + MAX_WRITING)
    }

    /// Takes files as they are whose writers do not close them; gives these.
    pub(super) fn give_up(&mut self, now: Instant) -> Vec<PathBuf> {
        let is_silent = |heard: &Instant| now >= *heard + MAX_WRITING;
        let silent: Vec<PathBuf> =
            self.writers.iter().filter(|(_, heard)| is_silent(heard)).map(|(path, _)| path.clone()).collect();
        for path in &silent {
            self.writers.remove(path);
            if let Some(id) = file_id(path) {
                self.asked.insert(path.clone(), id);
            }
        }
        silent
    }

    /// Asks whether the writers of files are still there: no event says so of who wrote through another name. Gives
    /// whether one is not.
    fn ask_writers(&mut self) -> bool {
        let closed: Vec<PathBuf> =
            self.writers.keys().filter(|path| has_writer(path) == Some(false)).cloned().collect();
        for path in &closed {
            self.writers.remove(path);
        }
        !closed.is_empty()
    }

    /// Does something, and meanwhile marks the inputs whose files are not what was last read of them.
    pub(super) fn look_beside<T>(&mut self, act: impl FnOnce() -> T) -> T {
        let snapshot = &mut self.snapshot;
        let (changes, done) = std::thread::scope(|scope| {
            let look = std::thread::Builder::new().spawn_scoped(scope, || snapshot.changed());
            let done = act();
            (look.ok().and_then(|look| look.join().ok()), done)
        });
        match changes {
            Some(changes) => self.mark(changes),
            None => self.look_again(), // there was no thread
        }
        done
    }

    fn mark(&mut self, changes: Changes) {
        self.is_other |= changes.has_other_inputs;
        self.dirty.extend(changes.files);
    }

    /// Marks the inputs whose files are not what was last read of them; looks for the files that were not there, too.
    pub(super) fn look_again(&mut self) {
        let changes = self.snapshot.changed();
        self.mark(changes);
    }

    /// Looks at all inputs, for events that the system lost; says whether there is something to do.
    ///
    /// # Errors
    /// If a folder cannot be watched.
    pub(super) fn look_at_all(&mut self) -> Result<bool, NotWatched> {
        self.places.find_folders(&mut self.watcher)?;
        let failed = self.failed();
        self.is_other |= !failed.is_empty();
        let before = self.dirty.len();
        self.look_again();
        let has_changed = self.dirty.len() != before || self.is_other;
        Ok(self.ask_writers() || has_changed)
    }
}

#[cfg(test)]
mod tests {
    use super::{Changed, Inputs};
    use crate::watch::events::{Event, Kind};
    use std::fs;
    use std::path::{Path, PathBuf};
    use std::time::Instant;

    /// Inputs over a file that was read.
    fn read(name: &str) -> (PathBuf, Inputs) {
        let folder = std::env::temp_dir().canonicalize().unwrap();
        let path = folder.join(format!("ldi-inputs-{name}-{}", std::process::id()));
        fs::write(&path, "one").unwrap();
        let mut inputs = Inputs::new();
        assert_eq!(inputs.read().unwrap(), Changed::All);
        inputs.begin_anew();
        inputs.snapshot.read(&path).unwrap();
        inputs.end_search(true).unwrap();
        (path, inputs)
    }

    fn event(path: &Path, kind: Kind) -> Event {
        Event { path: path.to_owned(), kind, is_folder: false }
    }

    #[test]
    fn other_bytes_are_read_when_their_writer_has_closed_the_file() {
        let (path, mut inputs) = read("bytes");
        assert_eq!(inputs.after.iter().collect::<Vec<_>>(), [&path]);
        assert!(inputs.note_event(&event(&path, Kind::Writing), Instant::now()));
        assert_eq!(inputs.waiting(), [(path.display().to_string(), "it is being written".to_owned())]);
        fs::write(&path, "two").unwrap();
        assert_eq!(inputs.read().unwrap(), Changed::Bytes(Vec::new()));
        inputs.note_event(&event(&path, Kind::Whole), Instant::now());
        assert_eq!(inputs.read().unwrap(), Changed::Bytes(vec![path.clone()]));
        assert!(inputs.waiting().is_empty());
        fs::remove_file(path).unwrap();
    }

    #[test]
    fn a_file_that_goes_is_waited_for_and_all_is_found_anew() {
        let (path, mut inputs) = read("gone");
        fs::remove_file(&path).unwrap();
        inputs.note_event(&event(&path, Kind::Gone), Instant::now());
        assert_eq!(inputs.read().unwrap(), Changed::All);
        assert_eq!(inputs.waiting(), [(path.display().to_string(), "it is not there".to_owned())]);
        assert!(!inputs.note_event(&event(&path.with_extension("other"), Kind::Whole), Instant::now()));
    }
}
