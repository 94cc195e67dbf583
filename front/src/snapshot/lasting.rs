//! Whether a path leads to the same file in another process.

use std::collections::HashMap;
use std::ffi::OsString;
use std::fs;
use std::path::{Component, Path, PathBuf};

/// The symbolic links that are followed, as the system does.
const MAX_LINKS: usize = 40;

/// Whether each of some paths leads to a regular file, outside of `/dev` and `/proc`, where `/dev/stdin` or
/// `/proc/self/fd/3` is another file in another process.
pub fn are_lasting<'a>(paths: impl IntoIterator<Item = &'a Path>) -> bool {
    let mut folders = HashMap::new();
    paths.into_iter().all(|path| is_lasting(path, &mut folders) == Some(true))
}

/// Whether a path is that of a symbolic link.
pub(super) fn is_link(path: &Path) -> bool {
    fs::symlink_metadata(path).map_or(false, |found| found.file_type().is_symlink())
}

/// Whether a path leads to such a file; `folders` has for folders what they are without links.
fn is_lasting(path: &Path, folders: &mut HashMap<PathBuf, Option<PathBuf>>) -> Option<bool> {
    let mut path = path.to_owned();
    for _ in 0..MAX_LINKS {
        let folder = path.parent().filter(|folder| !folder.as_os_str().is_empty()).unwrap_or_else(|| Path::new("."));
        let whole = match folders.get(folder) {
            Some(whole) => whole.clone(),
            None => {
                let whole = fs::canonicalize(folder).ok();
                folders.insert(folder.to_owned(), whole.clone());
                whole
            }
        };
        let whole = whole?.join(path.file_name()?);
        if whole.starts_with("/dev") || whole.starts_with("/proc") {
            return Some(false);
        }
        match fs::read_link(&whole) {
            Ok(link) => path = whole.parent()?.join(link),
            Err(_) => return Some(fs::symlink_metadata(&whole).ok()?.is_file()),
        }
    }
    None
}

/// Whether a path goes by `/dev` or `/proc`, as `/dev/stdin` does, where each process may find something else. The
/// symbolic links on the way are followed, also if nothing is at their end.
pub fn is_by_process(path: &Path) -> bool {
    let whole = std::env::current_dir().unwrap_or_default().join(path);
    let mut names = names_of(&whole);
    names.reverse();
    let (mut place, mut links) = (PathBuf::from("/"), 0);
    while let Some(name) = names.pop() {
        if name == ".." {
            place.pop();
            continue;
        }
        place.push(&name);
        let is_shared = place.starts_with("/dev/shm");
        if !is_shared && place.components().count() > 2 && (place.starts_with("/dev") || place.starts_with("/proc")) {
            return true;
        }
        if let Ok(link) = fs::read_link(&place) {
            links += 1;
            if links > MAX_LINKS {
                return false;
            }
            place.pop();
            if link.is_absolute() {
                place = PathBuf::from("/");
            }
            names.extend(names_of(&link).into_iter().rev());
        }
    }
    false
}

/// The names on a way, from the first to the last.
fn names_of(path: &Path) -> Vec<OsString> {
    path.components()
        .filter_map(|part| match part {
            Component::Normal(name) => Some(name.to_owned()),
            Component::ParentDir => Some("..".into()),
            _ => None,
        })
        .collect()
}
