//! The folder for what this user's programs leave for one another while the machine runs.

use std::ffi::OsStr;
use std::fs::{self, DirBuilder};
use std::io;
use std::os::unix::fs::{DirBuilderExt, MetadataExt};
use std::path::{Path, PathBuf};

/// The folder `ldi` in that of `XDG_RUNTIME_DIR`, else a folder of the user's own under `/tmp`; `None` if neither
/// can be had. Each is this user's and no other's: mode 0700, and no symbolic link.
pub fn runtime_folder(xdg_runtime_dir: Option<&OsStr>) -> Option<PathBuf> {
    let above = xdg_runtime_dir.map(Path::new).filter(|above| above.is_absolute() && is_own(above));
    match above {
        Some(above) => make_folder(above.join("ldi")),
        None => make_folder(PathBuf::from(format!("/tmp/ldi-{}", user()))),
    }
}

fn user() -> u32 {
    rustix::process::getuid().as_raw()
}

/// The folder, made if it is not there.
fn make_folder(path: PathBuf) -> Option<PathBuf> {
    match DirBuilder::new().mode(0o700).create(&path) {
        Err(fault) if fault.kind() != io::ErrorKind::AlreadyExists => None,
        _ => is_own(&path).then_some(path),
    }
}

fn is_own(path: &Path) -> bool {
    fs::symlink_metadata(path)
        .map_or(false, |found| found.is_dir() && found.uid() == user() && found.mode() & 0o077 == 0)
}
