//! Files written beside their place and exchanged: whole, or not at all.
//!
//! The step is an exchange of the two names if the system has it and a file is there, else a rename. ext4 writes a
//! new file out to the disk when it is renamed over another (a rename of 12 MB takes some 20 ms), but not when it is
//! exchanged. The old file then has the temporary name, and is removed.

mod apart;
mod beside;
mod lease;
mod new_file;
mod runtime;
#[cfg(test)]
mod tests;
mod writing;

pub use apart::Apart;
pub use beside::{is_beside, remove_apart, remove_left};
pub use lease::has_writer;
pub use new_file::{put_in_place, NewFile, Opened};
pub use runtime::runtime_folder;
pub use writing::{write_all, write_in_place};

use crate::report::os_message;
use rustix::fs::Mode;
use std::io;
use std::path::{Path, PathBuf};
use thiserror::Error;

/// The mode of a new image, less the umask.
pub const PROGRAM: Mode = Mode::from_bits_truncate(0o755);
/// The mode of a new text, less the umask.
pub const TEXT: Mode = Mode::from_bits_truncate(0o644);

/// A file that could not be written; the old one stands as it was.
#[derive(Debug, Error)]
#[error("{}: {}", .path.display(), os_message(.fault))]
pub struct NotWritten {
    /// Its path, as it was given.
    pub path: PathBuf,
    /// What the system says.
    pub fault: io::Error,
}

/// What becomes of a pipe without a reader that is written in place.
#[derive(Clone, Copy, PartialEq, Eq, Hash, Debug)]
pub enum Reader {
    /// The reader of a pipe is waited for.
    IsWaitedFor,
    /// A pipe without a reader is an error.
    IsNeeded,
}

/// Writes the pieces of a file, whole: beside its place, where it is then put in one step. What is no regular file, as
/// `/dev/null` or a pipe, is written in place. `mode` is less the umask.
///
/// # Errors
/// If the file cannot be written. The old one then stays as it was.
pub fn write_file(path: &Path, pieces: &[&[u8]], mode: Mode, reader: Reader) -> Result<(), NotWritten> {
    let not_written = |fault| NotWritten { path: path.to_owned(), fault };
    match NewFile::open(path, mode, false).map_err(not_written)? {
        Opened::InPlace(target) => write_in_place(&target, pieces, reader).map_err(not_written),
        Opened::Beside(mut new) => {
            new.write(pieces).map_err(not_written)?;
            if let Some(old) = new.commit().map_err(not_written)? {
                std::fs::remove_file(old).ok();
            }
            Ok(())
        }
    }
}
