//! What a link uses of the server: new files beside their places, and reasons for another linker to be kept.

use std::io;
use std::path::Path;
use std::sync::{Arc, Mutex, MutexGuard, PoisonError};

use rustix::fs::Mode;

use crate::once::{Asked, HandedOver, Host, Reasons, Status};
use crate::publish::{Apart, NotWritten};

/// The new files of a call, which the thread that links writes. The other one removes them when the call is done, and
/// when the server ends, after which none is written any more.
#[derive(Clone, Debug, Default)]
pub(super) struct NewFiles(Arc<Mutex<Written>>);

#[derive(Debug, Default)]
struct Written {
    places: Vec<Apart>,
    is_closed: bool,
}

impl NewFiles {
    /// Writes one beside its place; gives whether it can be put there, as where that is no regular file it cannot.
    fn write(&self, path: &Path, pieces: &[&[u8]], mode: Mode) -> io::Result<bool> {
        let mut written = self.written();
        if written.is_closed {
            return Err(io::Error::from(io::ErrorKind::BrokenPipe));
        }
        let apart = match Apart::write(path, pieces, mode)? {
            Some(apart) => apart,
            None => return Ok(false),
        };
        if let Some(old) = written.places.iter_mut().find(|old| old.target == apart.target) {
            std::mem::replace(old, apart).remove();
        } else {
            written.places.push(apart);
        }
        Ok(true)
    }

    /// Writes other bytes into a file that is there.
    fn amend(&self, path: &Path, at: u64, bytes: &[u8]) -> io::Result<()> {
        let (written, target) = (self.written(), Apart::place_of(path)?);
        let own = written.places.iter().find(|apart| Some(&apart.target) == target.as_ref());
        own.map_or(Ok(()), |own| own.amend(at, bytes))
    }

    /// The files that are there now.
    pub(super) fn places(&self) -> Vec<Apart> {
        self.written().places.clone()
    }

    /// Removes new files, or the old ones that were exchanged for them.
    pub(super) fn remove(&self) {
        self.written().remove();
    }

    /// Removes them, and lets no others be written.
    pub(super) fn close(&self) {
        let mut written = self.written();
        written.is_closed = true;
        written.remove();
    }

    fn written(&self) -> MutexGuard<'_, Written> {
        self.0.lock().unwrap_or_else(PoisonError::into_inner)
    }
}

impl Written {
    fn remove(&mut self) {
        self.places.drain(..).for_each(|apart| apart.remove());
    }
}

/// The process of many links of one output, for one of them.
#[derive(Debug)]
pub(super) struct ServerHost {
    files: NewFiles,
    found: Mutex<Found>,
}

/// What a link left, but for new files.
#[derive(Debug, Default)]
pub(super) struct Found {
    /// Why another linker is to link.
    pub(super) handed_over: Option<HandedOver>,
    /// Why the server cannot make this link.
    pub(super) why_not_ours: Option<String>,
}

impl ServerHost {
    /// A link that writes such files.
    pub(super) fn new(files: NewFiles) -> ServerHost {
        ServerHost { files, found: Mutex::default() }
    }

    /// Why another linker is to link, or why the server cannot, if so.
    pub(super) fn found(self) -> Found {
        self.found.into_inner().unwrap_or_else(PoisonError::into_inner)
    }
}

impl ServerHost {
    fn finding(&self) -> MutexGuard<'_, Found> {
        self.found.lock().unwrap_or_else(PoisonError::into_inner)
    }
}

impl Host for ServerHost {
    fn write(&self, path: &Path, pieces: &[&[u8]], mode: Mode) -> Result<(), NotWritten> {
        let written = self.files.write(path, pieces, mode);
        if !written.map_err(|fault| NotWritten { path: path.to_owned(), fault })? {
            self.finding().why_not_ours = Some(format!("{} is no regular file", path.display()));
        }
        Ok(())
    }

    fn writes_beside(&self) -> bool {
        true
    }

    fn amend(&self, path: &Path, at: u64, bytes: &[u8]) -> Result<(), NotWritten> {
        self.files.amend(path, at, bytes).map_err(|fault| NotWritten { path: path.to_owned(), fault })
    }

    fn hand_over(&self, reasons: &Reasons<'_>, link: &Asked<'_>) -> Status {
        if let Some(status) = reasons.faults_without(link.environment) {
            return status;
        }
        let reasons = HandedOver::of(reasons, link.environment, link.is_verbose);
        self.finding().handed_over = Some(reasons);
        Status::Refused
    }

    fn keeps_session(&self) -> bool {
        true
    }
}

#[cfg(test)]
mod tests {
    use super::*;
    use std::fs;

    #[test]
    fn when_the_server_has_ended_nothing_is_left_and_nothing_is_written() {
        let folder = std::env::temp_dir().join(format!("ldi-front-host-{}", std::process::id()));
        fs::create_dir_all(&folder).unwrap();
        let (files, path) = (NewFiles::default(), folder.join("image"));
        let count = || fs::read_dir(&folder).unwrap().count();
        assert!(files.write(&path, &[b"one"], Mode::RUSR).unwrap());
        assert_eq!((count(), files.places().len()), (1, 1));
        files.remove();
        assert_eq!((count(), files.places().len()), (0, 0));
        assert!(files.write(&path, &[b"two"], Mode::RUSR | Mode::WUSR).unwrap());
        files.amend(&path, 1, b"ou").unwrap();
        assert_eq!(fs::read(files.places()[0].folder.join("new")).unwrap(), b"tou");
        assert!(files.write(&path, &[b"two again"], Mode::RUSR).unwrap());
        assert_eq!((count(), files.places().len()), (1, 1), "in place of the one before");
        let by_another_thread = files.clone();
        files.close();
        assert_eq!(count(), 0);
        assert!(by_another_thread.write(&path, &[b"three"], Mode::RUSR).is_err());
        assert_eq!(count(), 0);
        fs::remove_dir(&folder).unwrap();
    }
}
