//! Tests many files together, by descriptors of their folders.

use super::file::{folder_of, read_regular, Seen, Stamp};
use super::with_old_bytes;
use indexmap::IndexMap;
use rustix::fs::{cwd, AtFlags, Mode, OFlags};
use std::collections::HashMap;
use std::ffi::CString;
use std::os::unix::ffi::OsStrExt;
use std::path::{Path, PathBuf};

/// Whether a path leads to a file with the stamp that it had when it was read.
pub(super) fn is_same_stamp(path: &Path, seen: &Seen) -> bool {
    match (rustix::fs::statat(cwd(), path, AtFlags::empty()), seen.stamp) {
        (Ok(found), Some(stamp)) => Stamp::of(&found) == stamp,
        _ => false,
    }
}

/// The files of a snapshot in their folders.
#[derive(Debug)]
pub(super) struct Looks {
    folders: Vec<Folder>,
}

#[derive(Debug)]
struct Folder {
    path: PathBuf,
    /// The names of its files in it, and their places in the snapshot.
    files: Vec<(CString, usize)>,
}

impl Looks {
    /// Sorts the files that were read by their folders.
    pub(super) fn at<'a>(files: impl Iterator<Item = (&'a PathBuf, &'a Option<Seen>)>) -> Looks {
        let mut numbers: HashMap<PathBuf, usize> = HashMap::new();
        let mut folders: Vec<Folder> = Vec::new();
        for (place, (path, _)) in files.enumerate().filter(|(_, (_, seen))| seen.is_some()) {
            let folder = folder_of(path);
            let name = path.file_name().and_then(|name| CString::new(name.as_bytes()).ok()).unwrap_or_default();
            let number = *numbers.entry(folder.clone()).or_insert_with(|| {
                folders.push(Folder { path: folder, files: Vec::new() });
                folders.len() - 1
            });
            if let Some(found) = folders.get_mut(number) {
                found.files.push((name.clone(), place));
            }
        }
        Looks { folders }
    }

    /// The files that are not what was read of them. Those whose bytes alone can say it are read once more.
    pub(super) fn changed(&self, files: &mut IndexMap<PathBuf, Option<Seen>>) -> Vec<PathBuf> {
        let mut changed = Vec::new();
        for folder in &self.folders {
            folder.changed(files, &mut changed);
        }
        changed.sort_unstable();
        changed.into_iter().filter_map(|place| Some(files.get_index(place)?.0.clone())).collect()
    }
}

impl Folder {
    /// Adds the places of its files that are not what was read of them.
    fn changed(&self, files: &mut IndexMap<PathBuf, Option<Seen>>, changed: &mut Vec<usize>) {
        let flags = OFlags::PATH | OFlags::DIRECTORY | OFlags::CLOEXEC;
        let path = if self.path.as_os_str().is_empty() { Path::new(".") } else { &self.path };
        let folder = rustix::fs::openat(cwd(), path, flags, Mode::empty());
        for (name, place) in &self.files {
            let found = match &folder {
                Ok(folder) => rustix::fs::statat(folder, name.as_c_str(), AtFlags::empty()),
                Err(fault) => Err(*fault),
            };
            let entry = files.get_index_mut(*place).and_then(|(path, seen)| Some((path, seen.as_mut()?)));
            let (path, seen) = match entry {
                Some(entry) => entry,
                None => continue,
            };
            let is_same = match found {
                Ok(found) => seen.stamp == Some(Stamp::of(&found)),
                Err(_) => false,
            };
            if !(is_same && (seen.is_settled || is_read_the_same(path, seen))) {
                changed.push(*place);
            }
        }
    }
}

/// Whether a file is read once more with the bytes and the stamp that it had.
fn is_read_the_same(path: &Path, seen: &mut Seen) -> bool {
    match read_regular(path) {
        Ok(found) if found.data == seen.data && found.stamp == seen.stamp => {
            *seen = with_old_bytes(found, seen);
            true
        }
        _ => false,
    }
}
