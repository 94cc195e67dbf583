//! Whose link it is: that of this process, or one that a server makes for a call.

use std::ffi::OsString;
use std::path::Path;

use rustix::fs::Mode;

use super::fallback::{hand_over, Reasons};
use super::Status;
use crate::plan::Environment;
use crate::publish::{write_file, NotWritten, Reader};

/// What a link leaves to the process that makes it.
pub(crate) trait Host: Sync {
    /// Writes a file; `mode` is less the umask.
    ///
    /// # Errors
    /// If the file cannot be written. The old one then stays as it was.
    fn write(&self, path: &Path, pieces: &[&[u8]], mode: Mode) -> Result<(), NotWritten>;

    /// Whether files are written beside their places, so that bytes of one may still become others.
    fn writes_beside(&self) -> bool;

    /// Writes other bytes into a file that was written beside its place.
    ///
    /// # Errors
    /// If they cannot be written.
    fn amend(&self, path: &Path, at: u64, bytes: &[u8]) -> Result<(), NotWritten>;

    /// Has another linker link; gives a status if none does.
    fn hand_over(&self, reasons: &Reasons<'_>, link: &Asked<'_>) -> Status;

    /// Whether the session is for other links too.
    fn keeps_session(&self) -> bool;
}

/// What was asked for.
#[derive(Clone, Copy)]
pub(crate) struct Asked<'a> {
    /// The words, as they were given.
    pub(crate) words: &'a [OsString],
    /// The variables.
    pub(crate) environment: &'a Environment,
    /// `--verbose`
    pub(crate) is_verbose: bool,
}

/// The process of one link.
pub(super) struct Alone;

impl Host for Alone {
    fn write(&self, path: &Path, pieces: &[&[u8]], mode: Mode) -> Result<(), NotWritten> {
        write_file(path, pieces, mode, Reader::IsWaitedFor)
    }

    fn writes_beside(&self) -> bool {
        false
    }

    fn amend(&self, path: &Path, _at: u64, _bytes: &[u8]) -> Result<(), NotWritten> {
        Err(NotWritten { path: path.to_owned(), fault: std::io::ErrorKind::Unsupported.into() })
    }

    fn hand_over(&self, reasons: &Reasons<'_>, link: &Asked<'_>) -> Status {
        hand_over(reasons, link.words, link.environment, link.is_verbose)
    }

    fn keeps_session(&self) -> bool {
        false
    }
}
