//! When the command that makes the objects is run: at the start, and after a source changed.

use std::collections::hash_map::DefaultHasher;
use std::collections::{BTreeSet, HashMap, HashSet};
use std::fs;
use std::hash::{Hash, Hasher};
use std::io;
use std::path::{Path, PathBuf};
use std::process::ExitStatus;
use std::time::{Duration, Instant};

use super::commands::Command;
use super::events::{NotWatched, Watcher};
use super::sources::Sources;

/// The runs, one right after the other, that a file's changes within the one before may cause without a pause.
const QUICK: u32 = 3;
/// The pause before the next such run, which doubles each time.
const PAUSE: Duration = Duration::from_secs(2);
/// The longest pause.
const MAX_PAUSE: Duration = Duration::from_secs(60);

/// Runs a command, once at a time, when it is wanted.
///
/// inotify does not say who wrote a file. A source whose bytes differ from those that it had when the command began is
/// made once more, however often: it may be a save. If it changes in one run after the other, the command may write
/// it: then there are pauses between the runs. What came for the first time in a run is the command's own, and there is
/// a pause as soon as it changes in another run. What has the same bytes as before is no change.
#[derive(Debug)]
pub(super) struct Making {
    pub(super) command: Command,
    pub(super) sources: Sources,
    /// Whether it is to be run.
    pub(super) is_wanted: bool,
    /// From when on it may be run for what changed within a run.
    pub(super) due: Option<Instant>,
    /// The files for which there is a pause before the next run.
    pub(super) paused_for: Vec<PathBuf>,
    /// Whether it runs, or its end was not dealt with yet.
    pub(super) is_running: bool,
    /// How the last run ended, if it failed.
    pub(super) failed: Option<ExitStatus>,
    known: HashMap<PathBuf, Option<u64>>,
    in_run: BTreeSet<PathBuf>,
    /// The sources whose bytes were others at some time of the run.
    differed: HashSet<PathBuf>,
    /// In how many runs, one after the other, a file has changed.
    times: HashMap<PathBuf, u32>,
    /// The files that came for the first time in a run.
    own: HashSet<PathBuf>,
}

impl Making {
    /// Watches the sources from now on.
    ///
    /// # Errors
    /// If the system watches no more folders.
    pub(super) fn new(command: Command, sources: Sources, watcher: &mut Watcher) -> Result<Making, NotWatched> {
        let mut making = Making {
            command,
            sources,
            is_wanted: true,
            due: None,
            paused_for: Vec::new(),
            is_running: false,
            failed: None,
            known: HashMap::new(),
            in_run: BTreeSet::new(),
            differed: HashSet::new(),
            times: HashMap::new(),
            own: HashSet::new(),
        };
        let folder = making.sources.folder.clone();
        making.watch_below(&folder, watcher)?;
        Ok(making)
    }

    /// Whether the last run was good, and no other is to come before an image.
    pub(super) fn is_done(&self) -> bool {
        (!self.is_wanted || self.pauses()) && !self.is_running && self.failed.is_none()
    }

    /// Whether there is a run to come after a pause.
    pub(super) fn pauses(&self) -> bool {
        self.is_wanted && self.due.map_or(false, |due| due > Instant::now())
    }

    /// Notes a change of a file or folder; gives whether it is a source's.
    ///
    /// # Errors
    /// If the system watches no more folders.
    pub(super) fn note_change(&mut self, path: &Path, watcher: &mut Watcher) -> Result<bool, NotWatched> {
        match path.is_dir() {
            true => Ok(self.sources.is_below(path) && self.watch_below(path, watcher)?),
            false => Ok(self.changed_file(path)),
        }
    }

    fn changed_file(&mut self, path: &Path) -> bool {
        if !self.sources.has(path) {
            return false;
        }
        let digest = digest_of(path);
        let known = self.known.get(path).copied();
        if self.is_running {
            self.in_run.insert(path.to_owned());
            if known.map_or(false, |known| known != digest) {
                self.differed.insert(path.to_owned());
            }
            return false;
        }
        if known == Some(digest) {
            return false;
        }
        self.known.insert(path.to_owned(), digest);
        self.times.remove(path);
        self.own.remove(path);
        self.want(None, Vec::new());
        true
    }

    fn want(&mut self, due: Option<Instant>, paused_for: Vec<PathBuf>) {
        self.is_wanted = true;
        self.due = due;
        self.paused_for = paused_for;
    }

    /// Looks at all sources, for events that are missing; says whether there is a change.
    ///
    /// # Errors
    /// If the system watches no more folders.
    pub(super) fn look_at_sources(&mut self, watcher: &mut Watcher) -> Result<bool, NotWatched> {
        let gone: Vec<PathBuf> = self.known.keys().filter(|path| !path.exists()).cloned().collect();
        let folder = self.sources.folder.clone();
        let mut is_changed = self.watch_below(&folder, watcher)?;
        for path in gone {
            is_changed |= self.changed_file(&path);
        }
        Ok(is_changed)
    }

    /// Starts the command.
    ///
    /// # Errors
    /// If the command cannot be started.
    pub(super) fn start(&mut self) -> io::Result<()> {
        self.is_wanted = false;
        self.is_running = true;
        self.in_run.clear();
        self.differed.clear();
        self.command.start()
    }

    /// The command has ended; decides whether what changed meanwhile wants another run.
    pub(super) fn finish(&mut self, status: ExitStatus) {
        self.is_running = false;
        self.failed = (!status.success()).then_some(status);
        let in_run: Vec<PathBuf> = std::mem::take(&mut self.in_run).into_iter().collect();
        let changed: Vec<PathBuf> = in_run.into_iter().filter(|path| self.changed_in_run(path)).collect();
        let before = |path: &PathBuf| {
            let first = if self.own.contains(path) { QUICK } else { 0 };
            self.times.get(path).copied().unwrap_or(first)
        };
        let times: HashMap<PathBuf, u32> = changed.iter().map(|path| (path.clone(), before(path) + 1)).collect();
        self.times = times;
        let least = match self.times.values().min() {
            Some(least) => *least,
            None => return,
        };
        if least > QUICK {
            let pause = PAUSE * 2_u32.pow((least - QUICK - 1).min(10));
            self.want(Some(Instant::now() + pause.min(MAX_PAUSE)), changed);
        } else {
            self.want(None, Vec::new());
        }
    }

    /// Whether a file's bytes are not those that the command began with, as far as it knew the file.
    fn changed_in_run(&mut self, path: &Path) -> bool {
        let digest = digest_of(path);
        let known = self.known.get(path).copied();
        if known == Some(digest) && !self.differed.contains(path) {
            return false;
        }
        self.known.insert(path.to_owned(), digest);
        if known.is_none() {
            self.own.insert(path.to_owned());
        }
        known.is_some()
    }

    /// Watches a folder and those below it; says whether a source there is another than was known.
    fn watch_below(&mut self, top: &Path, watcher: &mut Watcher) -> Result<bool, NotWatched> {
        let mut is_changed = false;
        for path in self.sources.watch_below(top, watcher)? {
            is_changed |= self.changed_file(&path);
        }
        Ok(is_changed)
    }
}

/// A digest of the file's bytes; `None` if it cannot be read.
fn digest_of(path: &Path) -> Option<u64> {
    if !fs::metadata(path).ok()?.is_file() {
        return None;
    }
    let mut hasher = DefaultHasher::new();
    fs::read(path).ok()?.hash(&mut hasher);
    Some(hasher.finish())
}

#[cfg(test)]
mod tests {
    use super::{Command, Making, Sources, Watcher};
    use crate::watch::jobserver::Jobserver;
    use std::fs;
    use std::os::unix::process::ExitStatusExt;
    use std::path::{Path, PathBuf};
    use std::process::ExitStatus;

    /// A folder of its own, which is removed.
    struct Folder(PathBuf);

    impl Folder {
        fn new(name: &str) -> Folder {
            let path = std::env::temp_dir().join(format!("ldi-making-{name}-{}", std::process::id()));
            fs::create_dir_all(&path).unwrap();
            Folder(path.canonicalize().unwrap())
        }

        fn write(&self, name: &str, text: &str) -> PathBuf {
            let path = self.0.join(name);
            fs::write(&path, text).unwrap();
            path
        }
    }

    impl Drop for Folder {
        fn drop(&mut self) {
            let _ = fs::remove_dir_all(&self.0);
        }
    }

    fn making(folder: &Path, watcher: &mut Watcher) -> Making {
        let command = Command::new("true", false, &Jobserver::default());
        Making::new(command, Sources::new(&["*.c".into()], folder), watcher).unwrap()
    }

    fn ends(making: &mut Making) {
        making.finish(ExitStatus::from_raw(0));
    }

    #[test]
    fn a_source_with_other_bytes_wants_a_run() {
        let (folder, mut watcher) = (Folder::new("bytes"), Watcher::default());
        let path = folder.write("a.c", "one");
        let mut making = making(&folder.0, &mut watcher);
        making.is_wanted = false;
        folder.write("a.c", "one");
        assert!(!making.note_change(&path, &mut watcher).unwrap() && making.is_done());
        folder.write("a.c", "two");
        assert!(making.note_change(&path, &mut watcher).unwrap() && !making.is_done());
    }

    #[test]
    fn a_save_within_a_run_leads_to_another_and_there_are_pauses_after_four() {
        let (folder, mut watcher) = (Folder::new("saves"), Watcher::default());
        let path = folder.write("a.c", "0");
        let mut making = making(&folder.0, &mut watcher);
        for run in 1..=4 {
            (making.is_wanted, making.is_running) = (false, true);
            folder.write("a.c", &run.to_string());
            assert!(!making.note_change(&path, &mut watcher).unwrap());
            ends(&mut making);
            assert!(making.is_wanted);
            assert_eq!(making.pauses(), run == 4);
        }
        assert_eq!(making.paused_for, [path]);
    }

    #[test]
    fn a_file_that_first_appears_in_a_run_is_the_command_s_own() {
        let (folder, mut watcher) = (Folder::new("own"), Watcher::default());
        let mut making = making(&folder.0, &mut watcher);
        (making.is_wanted, making.is_running) = (false, true);
        let path = folder.write("gen.c", "1");
        making.note_change(&path, &mut watcher).unwrap();
        ends(&mut making);
        assert!(making.is_done());
        making.is_running = true;
        folder.write("gen.c", "2");
        making.note_change(&path, &mut watcher).unwrap();
        ends(&mut making);
        assert!(making.pauses());
    }
}
