//! A new file beside its place, until it is whole.

use super::beside::new_name;
use super::writing::{take_length_as_error, write_all};
use rustix::fs::{cwd, flock, linkat, AtFlags, FlockOperation, Mode, OFlags, RenameFlags};
use std::fs::{self, File, OpenOptions};
use std::io;
use std::os::unix::ffi::OsStrExt;
use std::os::unix::fs::{MetadataExt, OpenOptionsExt, PermissionsExt};
use std::os::unix::io::AsRawFd;
use std::path::{Path, PathBuf};

/// The names that are tried: each is random, so that a second one is hardly ever needed.
const MAX_NAMES: usize = 10;
/// The symbolic links that are followed, as the system does.
const MAX_LINKS: usize = 40;

/// Where a new file is written.
#[derive(Debug)]
pub enum Opened {
    /// Beside its place.
    Beside(NewFile),
    /// In place: the path is that of no regular file.
    InPlace(PathBuf),
}

/// A file beside its place, which it has not taken yet. It is removed when it is dropped. If the file system can, it
/// has no name until it is whole (O_TMPFILE), so that a process that is killed leaves nothing.
#[derive(Debug)]
pub struct NewFile {
    target: PathBuf,
    beside: PathBuf,
    is_named: bool,
    file: Option<File>,
    /// Has a lock that tells [`super::remove_left`] that the file is in use.
    reader: File,
    is_in_place: bool,
}

impl NewFile {
    /// Makes the new file. A symbolic link stays one, and the file that it names is replaced. The mode is `mode` less
    /// the umask, or with `keeps_mode` that of the file that is there.
    ///
    /// # Errors
    /// If the file cannot be created. Nothing of it is then left.
    pub fn open(path: &Path, mode: Mode, keeps_mode: bool) -> io::Result<Opened> {
        if path.as_os_str().as_bytes().ends_with(b"/") {
            return Err(io::Error::from_raw_os_error(libc::EISDIR));
        }
        take_length_as_error();
        let target = resolved(path)?;
        let found = match fs::metadata(&target) {
            Ok(found) if !found.is_file() => return Ok(Opened::InPlace(target)),
            Ok(found) => Some(found.permissions()),
            Err(fault) if fault.kind() == io::ErrorKind::NotFound => None,
            Err(fault) => return Err(fault),
        };
        let new = NewFile::make(target, mode)?;
        if let (Some(permissions), Some(file), true) = (found, &new.file, keeps_mode) {
            file.set_permissions(fs::Permissions::from_mode(permissions.mode() & 0o7777))?;
        }
        Ok(Opened::Beside(new))
    }

    /// Makes it without a name; `None` if the file system cannot, or `/proc` is not there.
    fn nameless(target: &Path, mode: Mode) -> Option<NewFile> {
        let folder = target.parent().filter(|folder| !folder.as_os_str().is_empty()).unwrap_or_else(|| Path::new("."));
        let mut options = OpenOptions::new();
        options.write(true).mode(mode.bits()).custom_flags(OFlags::TMPFILE.bits() as i32);
        let file = options.open(folder).ok()?;
        let reader = File::open(path_of(&file)).ok()?;
        flock(&reader, FlockOperation::NonBlockingLockShared).ok(); // a file system may have no locks
        let (target, beside) = (target.to_owned(), new_name(target).ok()?);
        Some(NewFile { target, beside, is_named: false, file: Some(file), reader, is_in_place: false })
    }

    /// Gives it its name beside its place, if it has none yet.
    fn name(&mut self) -> io::Result<()> {
        for _ in 0..MAX_NAMES {
            if self.is_named {
                return Ok(());
            }
            match linkat(cwd(), path_of(&self.reader), cwd(), &self.beside, AtFlags::SYMLINK_FOLLOW) {
                Err(rustix::io::Errno::EXIST) => self.beside = new_name(&self.target)?,
                linked => {
                    linked?;
                    self.is_named = true;
                }
            }
        }
        Ok(())
    }

    fn make(target: PathBuf, mode: Mode) -> io::Result<NewFile> {
        if let Some(new) = NewFile::nameless(&target, mode) {
            return Ok(new);
        }
        for _ in 0..MAX_NAMES {
            let beside = new_name(&target)?;
            let mut options = OpenOptions::new();
            options.write(true).create_new(true).mode(mode.bits()).custom_flags(OFlags::NOFOLLOW.bits() as i32);
            let file = match options.open(&beside) {
                Ok(file) => file,
                Err(fault) if fault.kind() == io::ErrorKind::AlreadyExists => continue,
                Err(fault) => return Err(fault),
            };
            let reader = match reader_of(&beside, &file) {
                Ok(reader) => reader,
                Err(fault) => {
                    fs::remove_file(&beside).ok();
                    return Err(fault);
                }
            };
            let target = target.clone();
            let new = NewFile { target, beside, is_named: true, file: Some(file), reader, is_in_place: false };
            flock(&new.reader, FlockOperation::NonBlockingLockShared).ok(); // a file system may have no locks
            if new.reader.metadata()?.nlink() > 0 {
                return Ok(new);
            } // else it was taken for one that a killed process left, before it had its lock
        }
        Err(io::Error::from(io::ErrorKind::AlreadyExists))
    }

    /// The name that it has beside its place, or gets when it is whole.
    pub fn path(&self) -> &Path {
        &self.beside
    }

    /// The file whose place it takes: a symbolic link's.
    pub fn target(&self) -> &Path {
        &self.target
    }

    /// A descriptor to read it.
    pub fn reader(&self) -> &File {
        &self.reader
    }

    /// Writes the pieces of it.
    ///
    /// # Errors
    /// If the pieces cannot be written, for example because the device is full.
    pub fn write(&mut self, pieces: &[&[u8]]) -> io::Result<()> {
        match &mut self.file {
            Some(file) => write_all(file, pieces),
            None => Err(io::Error::from(io::ErrorKind::BrokenPipe)),
        }
    }

    /// The file to write to; `None` once it is closed.
    pub fn file(&mut self) -> Option<&mut File> {
        self.file.as_mut()
    }

    /// Closes it for writing, which is done before it is in place: who starts it there finds no writer.
    pub fn close(&mut self) {
        self.file = None;
    }

    /// Puts it in place; gives the name that the old file has now, for the caller to remove.
    ///
    /// # Errors
    /// If the file cannot be put in place. Nothing of it is then left.
    pub fn commit(mut self) -> io::Result<Option<PathBuf>> {
        self.close();
        self.name()?;
        let old = put_in_place(&self.beside, &self.target)?;
        self.is_in_place = true;
        Ok(old)
    }

    /// Leaves the whole file beside its place, for another process to put it there; gives its name.
    ///
    /// # Errors
    /// If the file cannot be given a name. Nothing of it is then left.
    pub fn leave(mut self) -> io::Result<PathBuf> {
        self.close();
        self.name()?;
        self.is_in_place = true;
        Ok(self.beside.clone())
    }
}

impl Drop for NewFile {
    fn drop(&mut self) {
        if self.is_named && !self.is_in_place {
            fs::remove_file(&self.beside).ok();
        }
    }
}

/// The path of an open file, by its descriptor.
fn path_of(file: &File) -> PathBuf {
    PathBuf::from(format!("/proc/self/fd/{}", file.as_raw_fd()))
}

/// Opens a new file to read it, and makes sure that it is the one that was made.
fn reader_of(beside: &Path, file: &File) -> io::Result<File> {
    let reader = OpenOptions::new().read(true).custom_flags(OFlags::NOFOLLOW.bits() as i32).open(beside)?;
    let (found, made) = (reader.metadata()?, file.metadata()?);
    if (found.dev(), found.ino()) == (made.dev(), made.ino()) {
        Ok(reader)
    } else {
        Err(io::Error::new(io::ErrorKind::PermissionDenied, "the file beside it was replaced"))
    }
}

/// Puts a file in the place of another in one step. If that is a regular file, the two are exchanged, so that the
/// old one has the first name now, which is given.
///
/// # Errors
/// If the system can neither exchange nor rename the files.
pub fn put_in_place(beside: &Path, target: &Path) -> io::Result<Option<PathBuf>> {
    let is_regular = fs::symlink_metadata(target).map_or(false, |found| found.is_file());
    if is_regular && rustix::fs::renameat_with(cwd(), beside, cwd(), target, RenameFlags::EXCHANGE).is_ok() {
        return Ok(Some(beside.to_owned()));
    }
    fs::rename(beside, target)?;
    Ok(None)
}

/// The path that a path leads to by symbolic links, also if no file is there yet.
pub(super) fn resolved(path: &Path) -> io::Result<PathBuf> {
    let mut path = path.to_owned();
    for _ in 0..MAX_LINKS {
        match fs::read_link(&path) {
            Ok(link) => path = path.parent().unwrap_or_else(|| Path::new("")).join(link),
            Err(_) => return Ok(path),
        }
    }
    Err(io::Error::from_raw_os_error(libc::ELOOP))
}
