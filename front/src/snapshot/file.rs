//! A file as it was read, and whether it has changed since.

use super::Bytes;
use crate::report::os_message;
use rustix::fs::{cwd, AtFlags, FileType, OFlags, Stat};
use std::fs::{File, OpenOptions};
use std::io::{self, Read};
use std::os::unix::fs::OpenOptionsExt;
use std::path::{Path, PathBuf};
use std::time::{SystemTime, UNIX_EPOCH};
use thiserror::Error;

const SECOND: i128 = 1_000_000_000;
/// Nanoseconds: a file's times go by ticks of the system, so that two changes within one may leave the same stamp.
const TICK: i128 = 20_000_000;
/// The tick of file systems whose times are whole seconds, or even ones.
const COARSE_TICK: i128 = 2 * SECOND + TICK;
/// The most bytes that are read of what is no regular file.
const MAX_STREAM: u64 = 1 << 26;

/// Device and inode: what tells a file from another, whatever its names are.
#[derive(Clone, Copy, PartialEq, Eq, PartialOrd, Ord, Hash, Debug)]
pub struct FileId {
    /// `st_dev`
    pub device: u64,
    /// `st_ino`
    pub inode: u64,
}

/// What tells one state of a file from another without reading it.
#[derive(Clone, Copy, PartialEq, Eq, Hash, Debug)]
pub struct Stamp {
    /// Which file it is.
    pub id: FileId,
    /// Its size in bytes.
    pub size: u64,
    /// When it was modified: nanoseconds since 1970.
    pub modified: i128,
    /// When it was changed: nanoseconds since 1970.
    pub changed: i128,
}

impl Stamp {
    /// The stamp of what the system says of a file.
    pub fn of(found: &Stat) -> Stamp {
        let time = |seconds: i64, nanoseconds: u64| i128::from(seconds) * SECOND + i128::from(nanoseconds);
        Stamp {
            id: FileId { device: found.st_dev, inode: found.st_ino },
            size: found.st_size as u64,
            modified: time(found.st_mtime as i64, found.st_mtime_nsec),
            changed: time(found.st_ctime as i64, found.st_ctime_nsec),
        }
    }

    /// Whether a change from a moment on is certain to give another stamp.
    pub fn is_settled(&self, now: i128) -> bool {
        [self.modified, self.changed]
            .iter()
            .all(|&time| time + if time % SECOND == 0 { COARSE_TICK } else { TICK } < now)
    }
}

/// Nanoseconds since 1970.
pub(super) fn now() -> i128 {
    match SystemTime::now().duration_since(UNIX_EPOCH) {
        Ok(since) => since.as_nanos() as i128,
        Err(before) => -(before.duration().as_nanos() as i128),
    }
}

/// Why a file was not read.
#[derive(Debug, Error)]
pub enum ReadFault {
    /// The file is not there.
    #[error("No such file or directory")]
    Missing,
    /// The file is a folder.
    #[error("Is a directory")]
    Folder,
    /// The file is a pipe, a device or a socket.
    #[error("it is no regular file")]
    NotRegular,
    /// The file is a pipe that nobody writes.
    #[error("it is a pipe that nobody writes")]
    NoWriter,
    /// The system says why.
    #[error("{}", os_message(.0))]
    System(#[from] io::Error),
}

impl ReadFault {
    fn of(fault: rustix::io::Errno) -> ReadFault {
        match fault {
            rustix::io::Errno::NOENT | rustix::io::Errno::NOTDIR => ReadFault::Missing,
            fault => ReadFault::System(fault.into()),
        }
    }
}

impl From<ReadFault> for io::Error {
    fn from(fault: ReadFault) -> io::Error {
        match fault {
            ReadFault::Missing => io::Error::from_raw_os_error(libc::ENOENT),
            ReadFault::Folder => io::Error::from_raw_os_error(libc::EISDIR),
            ReadFault::System(fault) => fault,
            fault => io::Error::new(io::ErrorKind::Other, fault.to_string()),
        }
    }
}

/// A file as it was read.
#[derive(Clone, Debug)]
pub struct Seen {
    /// Its bytes.
    pub data: Bytes,
    /// Its stamp; `None` if that is no proof: it is no regular file, or changed while it was read.
    pub stamp: Option<Stamp>,
    /// Whether any change since gives another stamp.
    pub is_settled: bool,
}

/// The system's data on the file at a path, through symbolic links.
pub fn stat(path: &Path) -> Result<Stat, ReadFault> {
    rustix::fs::statat(cwd(), path, AtFlags::empty()).map_err(ReadFault::of)
}

/// The kind of a file.
pub(super) fn kind_of(found: &Stat) -> FileType {
    FileType::from_raw_mode(found.st_mode)
}

fn is_regular(found: &Stat) -> bool {
    kind_of(found) == FileType::RegularFile
}

fn regular(found: Stat) -> Result<Stat, ReadFault> {
    match kind_of(&found) {
        FileType::RegularFile => Ok(found),
        FileType::Directory => Err(ReadFault::Folder),
        _ => Err(ReadFault::NotRegular),
    }
}

/// Opens a regular file to read it. It is looked at before it is opened, and opened so that a pipe does not wait.
///
/// # Errors
/// If the file is not there, is no regular one, or cannot be opened.
pub fn open_regular(path: &Path) -> Result<(File, Stamp), ReadFault> {
    regular(stat(path)?)?;
    let file = open(path)?;
    let found = regular(rustix::fs::fstat(&file).map_err(ReadFault::of)?)?;
    Ok((file, Stamp::of(&found)))
}

fn open(path: &Path) -> Result<File, ReadFault> {
    let flags = OFlags::NONBLOCK | OFlags::NOCTTY;
    OpenOptions::new().read(true).custom_flags(flags.bits() as i32).open(path).map_err(|fault| {
        if fault.kind() == io::ErrorKind::NotFound {
            ReadFault::Missing
        } else {
            ReadFault::System(fault)
        }
    })
}

/// Reads a regular file.
///
/// # Errors
/// If the file is not there, is no regular one, or cannot be read.
pub fn read_regular(path: &Path) -> Result<Seen, ReadFault> {
    let begun = now();
    let (file, stamp) = open_regular(path)?;
    read_open(&file, stamp, begun)
}

/// Reads a file that was opened with this stamp at a moment.
///
/// # Errors
/// If the file cannot be read.
pub fn read_open(file: &File, stamp: Stamp, begun: i128) -> Result<Seen, ReadFault> {
    let mut data = Vec::new();
    let is_there = usize::try_from(stamp.size).map_or(false, |size| data.try_reserve_exact(size).is_ok());
    if !is_there {
        return Err(ReadFault::System(io::Error::from_raw_os_error(libc::ENOMEM)));
    }
    file.take(stamp.size).read_to_end(&mut data)?;
    let is_whole = data.len() as u64 == stamp.size;
    let after = Stamp::of(&rustix::fs::fstat(file).map_err(ReadFault::of)?);
    let stamp = Some(stamp).filter(|stamp| is_whole && after == *stamp);
    let is_settled = stamp.map_or(false, |stamp| stamp.is_settled(begun));
    Ok(Seen { data: data.into(), stamp, is_settled })
}

/// Reads a file of any kind, as a script may be one: also a pipe that somebody writes, which is waited for.
///
/// # Errors
/// If the file is not there or cannot be read, or is a folder, or a pipe that nobody writes.
pub fn read_any(path: &Path) -> Result<Seen, ReadFault> {
    let found = stat(path)?;
    match kind_of(&found) {
        FileType::RegularFile => return read_regular(path),
        FileType::Directory => return Err(ReadFault::Folder),
        _ => {}
    }
    let file = open(path)?;
    if is_regular(&rustix::fs::fstat(&file).map_err(ReadFault::of)?) {
        return read_regular(path);
    }
    let flags = rustix::fs::fcntl_getfl(&file).map_err(ReadFault::of)?;
    rustix::fs::fcntl_setfl(&file, flags - OFlags::NONBLOCK).map_err(ReadFault::of)?;
    let mut data = Vec::new();
    (&file).take(MAX_STREAM).read_to_end(&mut data)?;
    if data.is_empty() && kind_of(&found) == FileType::Fifo {
        return Err(ReadFault::NoWriter);
    }
    Ok(Seen { data: data.into(), stamp: None, is_settled: false })
}

/// The folder of a path; empty for the working folder.
pub(super) fn folder_of(path: &Path) -> PathBuf {
    path.parent().map(Path::to_owned).unwrap_or_default()
}
