//! The working folder, which may be removed or renamed, and made anew, while names are still relative to it.

use std::path::{Path, PathBuf};

use super::events::file_id;

/// The folder in which the program was started.
#[derive(Debug)]
pub(super) struct WorkingFolder {
    pub(super) path: PathBuf,
}

impl WorkingFolder {
    pub(super) fn new() -> WorkingFolder {
        WorkingFolder { path: real(Path::new(".")) }
    }

    /// Whether another folder has the name now.
    pub(super) fn is_left(&self) -> bool {
        let named = file_id(&self.path);
        named.is_some() && named != file_id(Path::new("."))
    }

    /// Goes into the folder that has the name now, if that is another one; gives whether it did.
    pub(super) fn enter_renewed(&self) -> bool {
        self.is_left() && std::env::set_current_dir(&self.path).is_ok()
    }
}

/// The real path, as far as its folders are there.
pub(super) fn real(path: &Path) -> PathBuf {
    if let Ok(found) = path.canonicalize() {
        return found;
    }
    if let Ok(link) = std::fs::read_link(path) {
        let target = path.parent().unwrap_or_else(|| Path::new("")).join(link);
        if target != path {
            if let (Some(folder), Some(name)) = (target.parent(), target.file_name()) {
                return real_folder(folder).join(name);
            }
        }
    }
    match (path.parent(), path.file_name()) {
        (Some(folder), Some(name)) => real_folder(folder).join(name),
        _ => path.to_owned(),
    }
}

/// The real path of a folder; an empty one is the working folder.
pub(super) fn real_folder(folder: &Path) -> PathBuf {
    let folder = if folder.as_os_str().is_empty() { Path::new(".") } else { folder };
    match folder.canonicalize() {
        Ok(found) => found,
        Err(_) => match (folder.parent(), folder.file_name()) {
            (Some(above), Some(name)) => real_folder(above).join(name),
            _ => folder.to_owned(),
        },
    }
}
