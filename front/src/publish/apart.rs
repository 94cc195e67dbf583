//! A new file in a folder of its own beside its place, which another process puts there.
//!
//! Only this user can enter the folder. So once the file is removed, no other user can put another file in its place
//! for a process that was delayed.

use super::beside::new_name;
use super::writing::write_all;
use rustix::fs::{cwd, renameat, renameat_with, unlinkat, AtFlags, Mode, OFlags, RenameFlags};
use std::fs::{self, DirBuilder, File, OpenOptions};
use std::io;
use std::os::unix::fs::{DirBuilderExt, FileExt, MetadataExt, OpenOptionsExt};
use std::path::{Path, PathBuf};

/// The file's name in its folder.
const NAME: &str = "new";

/// A file that is whole, and not in its place yet.
#[derive(Clone, PartialEq, Eq, Debug)]
pub struct Apart {
    /// The folder of its own.
    pub folder: PathBuf,
    /// Its place.
    pub target: PathBuf,
}

impl Apart {
    /// Writes the pieces of a file whose place is the path, or what that leads to; `mode` is less the umask. `None`
    /// if the place is one of no regular file.
    ///
    /// # Errors
    /// If the file cannot be written. Nothing of it is then left.
    pub fn write(path: &Path, pieces: &[&[u8]], mode: Mode) -> io::Result<Option<Apart>> {
        let target = match Apart::place_of(path)? {
            Some(target) => target,
            None => return Ok(None),
        };
        let folder = new_name(&target)?;
        DirBuilder::new().mode(0o700).create(&folder)?;
        let apart = Apart { folder, target };
        let mut options = OpenOptions::new();
        options.write(true).create_new(true).mode(mode.bits());
        let written = options.open(apart.folder.join(NAME)).and_then(|mut file| write_all(&mut file, pieces));
        match written {
            Ok(()) => Ok(Some(apart)),
            Err(fault) => {
                apart.remove();
                Err(fault)
            }
        }
    }

    /// The place of the file of a path; `None` if it is one of no regular file.
    ///
    /// # Errors
    /// If it cannot be known.
    pub fn place_of(path: &Path) -> io::Result<Option<PathBuf>> {
        let target = super::new_file::resolved(path)?;
        match fs::metadata(&target) {
            Ok(found) if !found.is_file() => return Ok(None),
            Err(fault) if fault.kind() != io::ErrorKind::NotFound => return Err(fault),
            _ => {}
        }
        if path.file_name().is_none() || target.file_name().is_none() {
            return Ok(None);
        }
        Ok(Some(fs::canonicalize(folder_of(&target))?.join(target.file_name().unwrap_or_default())))
    }

    /// Writes other bytes at a place of the file.
    ///
    /// # Errors
    /// If they cannot be written.
    pub fn amend(&self, at: u64, bytes: &[u8]) -> io::Result<()> {
        OpenOptions::new().write(true).open(self.folder.join(NAME))?.write_all_at(bytes, at)
    }

    /// Puts it in place, in one step: the names are exchanged if there is a regular file, which is quicker on ext4.
    ///
    /// # Errors
    /// If the new file is gone, is not this user's, or cannot be put in place.
    pub fn put(&self) -> io::Result<()> {
        let folder = open_folder(&self.folder)?;
        if folder.metadata()?.uid() != rustix::process::getuid().as_raw() {
            return Err(io::Error::from(io::ErrorKind::PermissionDenied));
        }
        let is_regular = fs::symlink_metadata(&self.target).map_or(false, |found| found.is_file());
        if is_regular && renameat_with(&folder, NAME, cwd(), &self.target, RenameFlags::EXCHANGE).is_ok() {
            return Ok(());
        }
        Ok(renameat(&folder, NAME, cwd(), &self.target)?)
    }

    /// Removes the folder, with the new file or with the old one that was exchanged for it.
    pub fn remove(&self) {
        remove_folder(&self.folder);
    }
}

/// A descriptor of a folder, which is no symbolic link to one.
fn open_folder(path: &Path) -> io::Result<File> {
    let flags = OFlags::PATH | OFlags::DIRECTORY | OFlags::NOFOLLOW;
    OpenOptions::new().read(true).custom_flags(flags.bits() as i32).open(path)
}

/// Removes a folder of this kind.
pub(super) fn remove_folder(path: &Path) {
    if let Ok(folder) = open_folder(path) {
        let _ = unlinkat(&folder, NAME, AtFlags::empty());
    }
    let _ = fs::remove_dir(path);
}

fn folder_of(path: &Path) -> &Path {
    path.parent().filter(|folder| !folder.as_os_str().is_empty()).unwrap_or_else(|| Path::new("."))
}
