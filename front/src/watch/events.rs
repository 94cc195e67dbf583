//! What the system says about files: inotify(7).

use std::collections::{HashMap, HashSet};
use std::fs::OpenOptions;
use std::io;
use std::os::unix::fs::{MetadataExt, OpenOptionsExt};
use std::os::unix::io::AsRawFd;
use std::path::{Path, PathBuf};

use inotify::{EventMask, Inotify, WatchDescriptor, WatchMask};

use crate::publish;
use crate::report::os_message;
use crate::snapshot::{stat, FileId, Stamp};

/// The bytes that are read of events at once.
const BUFFER: usize = 1 << 16;

/// What happened to a file.
#[derive(Clone, Copy, PartialEq, Eq, Debug)]
pub(super) enum Kind {
    /// Modified, or created to be written, and not yet closed by its writer.
    Writing,
    /// Closed by its writer, or put there by a rename or a link.
    Whole,
    /// Removed or renamed away.
    Gone,
    /// Given another mode or time.
    Touched,
}

/// Something that happened to a file; its path is that of a watched folder, and a name in it.
#[derive(Clone, PartialEq, Eq, Debug)]
pub(super) struct Event {
    pub(super) path: PathBuf,
    pub(super) kind: Kind,
    pub(super) is_folder: bool,
}

/// Why folders are not watched.
#[derive(Debug, thiserror::Error)]
#[error("{}: {}", .folder.display(), os_message(.fault))]
pub(super) struct NotWatched {
    folder: PathBuf,
    fault: io::Error,
}

/// Watches folders.
#[derive(Debug, Default)]
pub(super) struct Watcher {
    /// Whether events may be missing: the system lost some, or a watched folder came, went or moved.
    pub(super) is_disturbed: bool,
    inotify: Option<Inotify>,
    folders: HashMap<PathBuf, Option<FileId>>,
    /// The folders' names by their watches: one for each, unless a folder has several names.
    names: HashMap<WatchDescriptor, Vec<PathBuf>>,
    numbers: HashMap<PathBuf, WatchDescriptor>,
    /// The files, inputs or not, that are being written.
    written: HashSet<PathBuf>,
    /// The numbers of renames of such files.
    moving: HashSet<u32>,
}

fn mask() -> WatchMask {
    WatchMask::MODIFY
        | WatchMask::ATTRIB
        | WatchMask::CREATE
        | WatchMask::CLOSE_WRITE
        | WatchMask::MOVE
        | WatchMask::DELETE
        | WatchMask::DELETE_SELF
        | WatchMask::MOVE_SELF
        | WatchMask::ONLYDIR
        | WatchMask::EXCL_UNLINK // who closes a file that was removed has closed none of this name
}

/// An event as the system gives it.
struct Raw {
    watch: WatchDescriptor,
    mask: EventMask,
    pair: u32,
    name: PathBuf,
}

impl Watcher {
    /// The descriptor to wait on, once something is watched.
    pub(super) fn descriptor(&self) -> Option<&impl AsRawFd> {
        self.inotify.as_ref()
    }

    /// Watches a folder too, if it is there; `watch_renewed` tries those again that are not. Gives whether it is
    /// watched only now.
    ///
    /// # Errors
    /// If the system watches no more folders.
    pub(super) fn watch(&mut self, folder: &Path) -> Result<bool, NotWatched> {
        let known = self.folders.get(folder).copied();
        if known.is_some() && known == Some(file_id(folder)) {
            return Ok(false);
        }
        let is_watched = self.try_folder(folder)?;
        self.is_disturbed |= is_watched && known.is_some();
        Ok(is_watched)
    }

    /// Watches folders that came since, or that others stand in place of; says whether there are such.
    ///
    /// # Errors
    /// If the system watches no more folders.
    pub(super) fn watch_renewed(&mut self) -> Result<bool, NotWatched> {
        let others: Vec<PathBuf> = self
            .folders
            .iter()
            .filter(|(path, known)| file_id(path) != **known)
            .map(|(path, _)| path.clone())
            .collect();
        let mut is_renewed = false;
        for folder in others {
            is_renewed |= self.try_folder(&folder)?;
        }
        Ok(is_renewed)
    }

    fn try_folder(&mut self, folder: &Path) -> Result<bool, NotWatched> {
        let found = file_id(folder);
        self.folders.insert(folder.to_owned(), found);
        if found.is_none() {
            return Ok(false);
        }
        let not_watched = |fault: io::Error| NotWatched { folder: folder.to_owned(), fault: explained(fault) };
        if self.inotify.is_none() {
            self.inotify = Some(Inotify::init().map_err(not_watched)?);
        }
        let added = self.inotify.as_mut().map(|inotify| inotify.add_watch(folder, mask()));
        let watch = match added {
            Some(Ok(watch)) => watch,
            Some(Err(fault)) => match fault.raw_os_error() {
                Some(libc::ENOENT | libc::ENOTDIR | libc::EACCES) => {
                    self.folders.insert(folder.to_owned(), None);
                    return Ok(false);
                }
                _ => return Err(not_watched(fault)),
            },
            None => return Ok(false),
        };
        if let Some(names) = self.numbers.get(folder).and_then(|before| self.names.get_mut(before)) {
            names.retain(|name| name != folder);
        }
        self.numbers.insert(folder.to_owned(), watch.clone());
        self.names.entry(watch).or_default().push(folder.to_owned());
        Ok(true)
    }

    /// What has happened since; `asks` says of which files it is asked whether somebody writes them: in the folders are
    /// others too.
    ///
    /// # Errors
    /// If the events cannot be read.
    pub(super) fn read(&mut self, asks: &dyn Fn(&Path) -> bool) -> io::Result<Vec<Event>> {
        let mut events = Vec::new();
        for raw in self.raw()? {
            if raw.mask.contains(EventMask::Q_OVERFLOW) {
                self.is_disturbed = true;
            } else if raw.mask.contains(EventMask::IGNORED) {
                self.forget(&raw.watch);
            } else if raw.mask.intersects(EventMask::DELETE_SELF | EventMask::MOVE_SELF | EventMask::UNMOUNT) {
                self.forget(&raw.watch);
                // One of a folder that is gone is gone already.
                let _ = self.inotify.as_mut().map(|inotify| inotify.rm_watch(raw.watch));
            } else {
                let is_folder = raw.mask.contains(EventMask::ISDIR);
                for folder in self.names.get(&raw.watch).cloned().unwrap_or_default() {
                    let path = folder.join(&raw.name);
                    self.is_disturbed |= is_folder && self.folders.contains_key(&path);
                    let kind = self.kind(&path, &raw, asks);
                    events.push(Event { path, kind, is_folder });
                }
            }
        }
        Ok(events)
    }

    fn raw(&mut self) -> io::Result<Vec<Raw>> {
        let mut buffer = [0; BUFFER];
        let inotify = match &mut self.inotify {
            Some(inotify) => inotify,
            None => return Ok(Vec::new()),
        };
        let found = match inotify.read_events(&mut buffer) {
            Err(fault) if matches!(fault.kind(), io::ErrorKind::WouldBlock | io::ErrorKind::Interrupted) => {
                return Ok(Vec::new())
            }
            found => found?,
        };
        let raw = found.map(|event| Raw {
            watch: event.wd,
            mask: event.mask,
            pair: event.cookie,
            name: event.name.map(PathBuf::from).unwrap_or_default(),
        });
        Ok(raw.collect())
    }

    /// What an event says of a file; one that is renamed while it is being written is being written still.
    fn kind(&mut self, path: &Path, raw: &Raw, asks: &dyn Fn(&Path) -> bool) -> Kind {
        if raw.mask.contains(EventMask::MODIFY) && self.written.contains(path) {
            return Kind::Writing; // its end comes with the writer's close
        }
        let is_asked = raw.mask.intersects(EventMask::MODIFY | EventMask::CREATE | EventMask::MOVED_TO) && asks(path);
        let asked = if is_asked { has_writer(path) } else { None };
        let mut kind = kind_of(path, raw.mask, asked);
        if raw.mask.contains(EventMask::MOVED_TO) && self.moving.remove(&raw.pair) {
            kind = if asked == Some(false) { Kind::Whole } else { Kind::Writing };
        }
        if kind == Kind::Writing {
            self.written.insert(path.to_owned());
        } else if kind != Kind::Touched && self.written.remove(path) && raw.mask.contains(EventMask::MOVED_FROM) {
            self.moving.insert(raw.pair);
        }
        kind
    }

    /// A watch has no folder any longer that has its names.
    fn forget(&mut self, watch: &WatchDescriptor) {
        for folder in self.names.remove(watch).unwrap_or_default() {
            self.numbers.remove(&folder);
            self.folders.insert(folder, None);
            self.is_disturbed = true;
        }
    }
}

fn explained(fault: io::Error) -> io::Error {
    match fault.raw_os_error() {
        Some(libc::ENOSPC | libc::EMFILE) => {
            io::Error::new(io::ErrorKind::Other, "no more folders can be watched: see fs.inotify of sysctl")
        }
        _ => fault,
    }
}

/// What tells a file or folder from another that had its name before; `None` if there is none.
pub(super) fn file_id(path: &Path) -> Option<FileId> {
    stat(path).ok().map(|found| Stamp::of(&found).id)
}

/// Whether a process has this file open for writing; `None` if that cannot be asked.
pub(super) fn has_writer(path: &Path) -> Option<bool> {
    if !std::fs::metadata(path).ok()?.is_file() {
        return None; // opening it may do something
    }
    let flags = libc::O_NONBLOCK | libc::O_NOCTTY;
    publish::has_writer(&OpenOptions::new().read(true).custom_flags(flags).open(path).ok()?)
}

/// What an event's mask says of a file; `asked` is whether it has a writer, if that is known.
fn kind_of(path: &Path, mask: EventMask, asked: Option<bool>) -> Kind {
    let by = |is_written: bool| if is_written { Kind::Writing } else { Kind::Whole };
    if mask.contains(EventMask::CLOSE_WRITE) {
        Kind::Whole
    } else if mask.contains(EventMask::MOVED_TO) {
        by(asked == Some(true))
    } else if mask.contains(EventMask::CREATE) {
        by(asked.unwrap_or_else(|| is_written(path)))
    } else if mask.contains(EventMask::MODIFY) {
        by(asked != Some(false)) // one who truncates it by its name has no file to close
    } else if mask.intersects(EventMask::DELETE | EventMask::MOVED_FROM) {
        Kind::Gone
    } else {
        Kind::Touched
    }
}

/// Whether a name that came by no rename is that of a file with a writer, who will close it, as far as the file tells:
/// a link's file has another name still, or was last written before it got this one. What has been written to a new
/// file has events that follow.
fn is_written(path: &Path) -> bool {
    match std::fs::symlink_metadata(path) {
        Ok(found) => {
            let times = |seconds: i64, nanoseconds: i64| (seconds, nanoseconds);
            let is_new = found.size() == 0
                || times(found.mtime(), found.mtime_nsec()) == times(found.ctime(), found.ctime_nsec());
            is_new && found.nlink() == 1 && found.is_file()
        }
        Err(_) => false,
    }
}

#[cfg(test)]
mod tests {
    use super::*;

    #[test]
    fn where_the_system_watches_no_more_folders_the_error_says_so() {
        let shown = |number| explained(io::Error::from_raw_os_error(number)).to_string();
        assert!(shown(libc::ENOSPC).starts_with("no more folders can be watched"));
        assert!(shown(libc::EACCES).starts_with("Permission denied"));
    }
    struct Folder(PathBuf);

    impl Folder {
        fn new(name: &str) -> Folder {
            let path = std::env::temp_dir().join(format!("ldi-front-{}-{name}", std::process::id()));
            std::fs::create_dir(&path).unwrap();
            Folder(path)
        }
    }

    impl Drop for Folder {
        fn drop(&mut self) {
            let _ = std::fs::remove_dir_all(&self.0);
        }
    }

    fn kinds(watcher: &mut Watcher) -> Vec<Kind> {
        watcher.read(&|_| false).unwrap().into_iter().map(|event| event.kind).collect()
    }

    #[test]
    fn where_it_cannot_be_asked_a_new_file_is_written_until_it_is_closed() {
        let folder = Folder::new("written");
        let mut watcher = Watcher::default();
        assert!(watcher.watch(&folder.0).unwrap());
        let path = folder.0.join("new");
        let mut file = std::fs::File::create(&path).unwrap();
        assert_eq!(kinds(&mut watcher), [Kind::Writing]);
        io::Write::write_all(&mut file, b"half").unwrap();
        assert_eq!(kinds(&mut watcher), [Kind::Writing]);
        drop(file);
        assert_eq!(kinds(&mut watcher), [Kind::Whole]);
        std::fs::hard_link(&path, folder.0.join("link")).unwrap();
        assert!(!kinds(&mut watcher).contains(&Kind::Writing));
        std::fs::rename(&path, folder.0.join("other")).unwrap();
        assert_eq!(kinds(&mut watcher), [Kind::Gone, Kind::Whole]);
    }

    #[test]
    fn a_folder_that_comes_later_is_watched_from_then_on() {
        let folder = Folder::new("later");
        let later = folder.0.join("later");
        let mut watcher = Watcher::default();
        assert!(!watcher.watch(&later).unwrap());
        assert!(!watcher.watch_renewed().unwrap());
        std::fs::create_dir(&later).unwrap();
        assert!(watcher.watch_renewed().unwrap());
        assert!(!watcher.watch_renewed().unwrap());
        std::fs::write(later.join("file"), "text").unwrap();
        assert!(watcher.read(&|_| false).unwrap().iter().any(|event| event.path == later.join("file")));
    }
}
