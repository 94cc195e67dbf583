//! Which input an event is about: its folder and name, and those of the file that a symbolic link names.

use std::collections::HashMap;
use std::path::{Path, PathBuf};

use super::events::{NotWatched, Watcher};
use super::working_folder::{real, real_folder};

/// The inputs by the paths that events have; their folders are watched.
#[derive(Debug, Default)]
pub(super) struct Places {
    /// The folders of inputs as they are named, and their real paths.
    folders: HashMap<PathBuf, PathBuf>,
    inputs: HashMap<PathBuf, Vec<PathBuf>>,
    known: HashMap<PathBuf, Vec<PathBuf>>,
}

impl Places {
    /// The inputs that an event of this path is about.
    pub(super) fn at(&self, path: &Path) -> &[PathBuf] {
        self.inputs.get(path).map_or(&[], Vec::as_slice)
    }

    pub(super) fn has(&self, input: &Path) -> bool {
        self.known.contains_key(input)
    }

    pub(super) fn all(&self) -> impl Iterator<Item = &PathBuf> {
        self.known.keys()
    }

    /// Watches for events of this input; says whether a folder is watched only now.
    ///
    /// # Errors
    /// If the system watches no more folders.
    pub(super) fn put(&mut self, input: &Path, watcher: &mut Watcher) -> Result<bool, NotWatched> {
        let (folder, name) = match (input.parent(), input.file_name()) {
            (Some(folder), Some(name)) => (folder, name),
            _ => return Ok(false),
        };
        let folder = self.folders.entry(folder.to_owned()).or_insert_with(|| real_folder(folder));
        let mut paths = vec![folder.join(name)];
        if std::fs::symlink_metadata(input).map_or(false, |found| found.file_type().is_symlink()) {
            paths.push(real(input));
        }
        if self.known.get(input) == Some(&paths) {
            return Ok(false);
        }
        self.forget(input);
        let mut is_new = false;
        for path in &paths {
            self.inputs.entry(path.clone()).or_default().push(input.to_owned());
            if let Some(folder) = path.parent() {
                is_new |= watcher.watch(folder)?;
            }
        }
        self.known.insert(input.to_owned(), paths);
        Ok(is_new)
    }

    /// This is no input any longer.
    pub(super) fn forget(&mut self, input: &Path) {
        for path in self.known.remove(input).unwrap_or_default() {
            if let Some(inputs) = self.inputs.get_mut(&path) {
                inputs.retain(|other| other != input);
            }
        }
    }

    /// Finds where the folders are now.
    ///
    /// # Errors
    /// If the system watches no more folders.
    pub(super) fn find_folders(&mut self, watcher: &mut Watcher) -> Result<(), NotWatched> {
        if self.folders.iter().all(|(folder, known)| real_folder(folder) == *known) {
            return Ok(());
        }
        self.folders.clear();
        let inputs: Vec<PathBuf> = self.known.keys().cloned().collect();
        for input in inputs {
            self.put(&input, watcher)?;
        }
        Ok(())
    }
}
