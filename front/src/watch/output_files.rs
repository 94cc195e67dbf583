//! The files that are written after a link: the image, the map and the script of `--gdb`.

use std::fs::{File, OpenOptions};
use std::io::{self, Read, Seek, SeekFrom, Write};
use std::os::unix::fs::OpenOptionsExt;
use std::os::unix::io::AsRawFd;
use std::path::{Path, PathBuf};

use nix::errno::Errno;
use nix::poll::{poll, PollFd, PollFlags};
use rustix::fs::Mode;

use super::arguments::Words;
use super::linking::Refusals;
use super::stops::Stops;
use super::working_folder::{real, real_folder};
use crate::finish::FileImage;
use crate::once::{pieces_of, zeros_of};
use crate::publish::{remove_left, NewFile, NotWritten, Opened, PROGRAM, TEXT};
use crate::session_client::{SessionClient, SessionError, TakeError};
use crate::snapshot::{stat, Stamp};

/// The bytes of files that are compared at once.
const BLOCK: usize = 1 << 20;

/// Why there is no image in place.
#[derive(Debug, thiserror::Error)]
pub(super) enum ImageFault {
    /// The session gave no answer.
    #[error(transparent)]
    Session(#[from] SessionError),
    /// A file cannot be written.
    #[error(transparent)]
    NotWritten(#[from] NotWritten),
    /// `ld.ldi` would make no such image.
    #[error("there is no such image")]
    Refused(Refusals),
}

/// A file that is written. Its stages are `prepare` or `write_image`, and then `commit` or `drop`.
///
/// A name of something that is no regular file, such as /dev/null, is written in place, by `commit`. A symbolic link
/// stays one, and the file that it names is the one that is written.
#[derive(Debug)]
struct Output {
    path: PathBuf,
    mode: Mode,
    new: Option<Opened>,
    /// What is to be written in place.
    data: Vec<u8>,
    placed: Option<Stamp>,
    /// The file of somebody else that was noticed in its place.
    other: Option<Stamp>,
}

impl Output {
    fn new(path: &Path, mode: Mode) -> Output {
        Output { path: path.to_owned(), mode, new: None, data: Vec::new(), placed: None, other: None }
    }

    fn not_written(&self, fault: io::Error) -> NotWritten {
        NotWritten { path: self.path.clone(), fault }
    }

    fn open(&mut self) -> Result<(), NotWritten> {
        self.drop();
        let opened = NewFile::open(&self.path, self.mode, true).map_err(|fault| self.not_written(fault))?;
        self.new = Some(opened);
        Ok(())
    }

    /// Writes the pieces beside the file; if that cannot be done, nothing is left.
    fn prepare(&mut self, pieces: &[&[u8]]) -> Result<(), NotWritten> {
        self.open()?;
        let written = match &mut self.new {
            Some(Opened::Beside(new)) => new.write(pieces),
            _ => {
                self.data = pieces.concat();
                Ok(())
            }
        };
        written.map_err(|fault| {
            self.drop();
            self.not_written(fault)
        })
    }

    /// Writes the image of a session into the file, without a copy here; gives its length.
    fn write_image(&mut self, client: &mut SessionClient) -> Result<u64, ImageFault> {
        self.open()?;
        let file = match &mut self.new {
            Some(Opened::Beside(new)) => new.file(),
            _ => None,
        };
        match file {
            Some(file) => match client.image_to(file) {
                Ok(length) => Ok(length as u64),
                Err(TakeError::Session(fault)) => Err(fault.into()),
                Err(TakeError::File(fault)) => {
                    self.drop();
                    Err(self.not_written(fault).into())
                }
            },
            None => {
                self.data = client.image()?.into_vec();
                Ok(self.data.len() as u64)
            }
        }
    }

    /// Puts what was prepared in place; gives the name of the old file.
    fn commit(&mut self, stops: &Stops) -> Result<Option<PathBuf>, NotWritten> {
        let done = match self.new.take() {
            None => return Ok(None),
            Some(Opened::InPlace(target)) => {
                let data = std::mem::take(&mut self.data);
                write_in_place(&target, &data, stops).map(|()| None)
            }
            Some(Opened::Beside(new)) => {
                let done = new.commit();
                if done.is_ok() {
                    self.placed = self.stamp();
                }
                done
            }
        };
        done.map_err(|fault| self.not_written(fault))
    }

    fn drop(&mut self) {
        self.new = None;
        self.data = Vec::new();
    }

    /// Whether the file is still what `commit` left, as far as it is a regular one.
    fn is_placed(&self) -> bool {
        self.placed.is_none() || self.placed == self.stamp()
    }

    /// Whether the file was removed that `commit` left.
    fn was_removed(&self) -> bool {
        self.placed.is_some() && self.stamp().is_none()
    }

    /// Notes whether another program has overwritten the file that `commit` left, and gives that: once of the same
    /// file.
    fn note_overwritten(&mut self) -> bool {
        let (now, placed) = match (self.stamp(), self.placed) {
            (Some(now), Some(placed)) if now != placed && self.other != Some(now) => (now, placed),
            _ => return false,
        };
        if (Stamp { changed: placed.changed, ..now }) != placed {
            self.other = Some(now);
            return true;
        }
        self.placed = Some(now); // its mode, its owner or the number of its names
        false
    }

    /// If the file has the bytes that were prepared, takes it for what was put in place; gives whether it does.
    fn adopt_if_same(&mut self) -> bool {
        let new = match &self.new {
            Some(Opened::Beside(new)) => new,
            _ => return false,
        };
        let stamp = self.stamp();
        let is_regular = std::fs::metadata(&self.path).map_or(false, |found| found.is_file());
        let is_same =
            is_regular && File::open(&self.path).and_then(|old| have_same_bytes(old, new.reader())).unwrap_or(false);
        if is_same {
            self.placed = stamp;
        }
        is_same
    }

    fn stamp(&self) -> Option<Stamp> {
        stat(&self.path).ok().map(|found| Stamp::of(&found))
    }
}

/// Writes to something that is no regular file. A pipe that nobody reads is an error; one that is full is waited for,
/// until a signal ends the program.
fn write_in_place(path: &Path, mut data: &[u8], stops: &Stops) -> io::Result<()> {
    let flags = libc::O_NONBLOCK | libc::O_NOCTTY;
    let mut file = OpenOptions::new().write(true).custom_flags(flags).open(path)?;
    while !data.is_empty() {
        match file.write(data) {
            Ok(0) => return Err(io::ErrorKind::WriteZero.into()),
            Ok(count) => data = data.get(count..).unwrap_or_default(),
            Err(fault) if fault.kind() == io::ErrorKind::Interrupted => {}
            Err(fault) if fault.kind() == io::ErrorKind::WouldBlock => {
                let sources = [(file.as_raw_fd(), PollFlags::POLLOUT), (stops.as_raw_fd(), PollFlags::POLLIN)];
                match poll(&mut sources.map(|(source, wanted)| PollFd::new(source, wanted)), -1) {
                    Ok(_) | Err(Errno::EINTR) => stops.drain(),
                    Err(fault) => return Err(fault.into()),
                }
                if stops.ending().is_some() {
                    return Err(io::ErrorKind::Interrupted.into());
                }
            }
            Err(fault) => return Err(fault),
        }
    }
    Ok(())
}

fn have_same_bytes(mut old: File, mut new: &File) -> io::Result<bool> {
    if old.metadata()?.len() != new.metadata()?.len() {
        return Ok(false);
    }
    new.seek(SeekFrom::Start(0))?;
    loop {
        let (mut one, mut other) = (Vec::new(), Vec::new());
        Read::by_ref(&mut old).take(BLOCK as u64).read_to_end(&mut one)?;
        new.take(BLOCK as u64).read_to_end(&mut other)?;
        if one != other {
            return Ok(false);
        }
        if one.is_empty() {
            return Ok(true);
        }
    }
}

/// The image and what goes with it, as they were last put in place.
#[derive(Debug)]
pub(super) struct Image {
    /// Whether the image that was put in place last is that of the session.
    pub(super) is_current: bool,
    /// The bytes of the file.
    pub(super) length: u64,
    image: Output,
    map: Option<Output>,
    gdb: Option<PathBuf>,
    map_text: Vec<u8>,
    /// Whether the next image is that of a new session, and may be the one that is there.
    compares: bool,
    /// Old files that are to be removed.
    old: Vec<PathBuf>,
}

impl Image {
    pub(super) fn new(words: &Words) -> Image {
        for path in [Some(&words.image), words.map.as_ref(), words.gdb.as_ref()].into_iter().flatten() {
            remove_left(path);
        }
        Image {
            is_current: false,
            length: 0,
            image: Output::new(&words.image, PROGRAM),
            map: words.map.as_ref().map(|path| Output::new(path, TEXT)),
            gdb: words.gdb.clone(),
            map_text: Vec::new(),
            compares: false,
            old: Vec::new(),
        }
    }

    /// The map and the image, in the order in which they are put in place.
    fn outputs(&mut self) -> impl Iterator<Item = &mut Output> {
        self.map.iter_mut().chain([&mut self.image])
    }

    /// The paths of all that is written, and the real ones.
    pub(super) fn paths(&self) -> Vec<PathBuf> {
        let maps = self.map.iter().map(|map| map.path.as_path());
        let names: Vec<&Path> = maps.chain([self.image.path.as_path()]).chain(self.gdb.as_deref()).collect();
        let named = names.iter().filter_map(|name| Some(real_folder(name.parent()?).join(name.file_name()?)));
        let mut paths: Vec<PathBuf> = names.iter().map(|name| real(name)).chain(named).collect();
        paths.sort();
        paths.dedup();
        paths
    }

    /// Notes that the next image is that of a new session, and may be the one that is there.
    pub(super) fn compare_next(&mut self) {
        self.is_current = false;
        self.compares = true;
    }

    /// Whether image and map are what was put in place last.
    pub(super) fn are_placed(&mut self) -> bool {
        self.outputs().all(|output| output.is_placed())
    }

    /// Whether one of them was removed.
    pub(super) fn any_removed(&mut self) -> bool {
        self.outputs().any(|output| output.was_removed())
    }

    /// The files that another program has written, each once.
    pub(super) fn overwritten_by_others(&mut self) -> Vec<PathBuf> {
        self.outputs().filter_map(|output| output.note_overwritten().then(|| output.path.clone())).collect()
    }

    /// Whether the map of a link is wanted.
    pub(super) fn wants_map(&self) -> bool {
        self.map.is_some() || self.gdb.is_some()
    }

    /// Writes the image of a session beside its place.
    ///
    /// # Errors
    /// If the session gives no answer, or the file cannot be written.
    pub(super) fn write_image(&mut self, client: &mut SessionClient) -> Result<(), ImageFault> {
        self.length = self.image.write_image(client)?;
        Ok(())
    }

    /// Writes a file beside the image's place.
    ///
    /// # Errors
    /// If the file cannot be written.
    pub(super) fn prepare(&mut self, file: &FileImage) -> Result<(), NotWritten> {
        let zeros = zeros_of(file);
        self.length = file.len();
        self.image.prepare(&pieces_of(file, &zeros))
    }

    /// Writes the map beside its place: one that was asked for already, or the session's.
    ///
    /// # Errors
    /// If the session gives no answer, or the file cannot be written.
    pub(super) fn write_map(&mut self, client: &mut SessionClient, known: Option<Vec<u8>>) -> Result<(), ImageFault> {
        if !self.wants_map() {
            return Ok(());
        }
        self.map_text = match known {
            Some(map) => map,
            None => client.map()?,
        };
        match &mut self.map {
            Some(map) => Ok(map.prepare(&[&self.map_text])?),
            None => Ok(()),
        }
    }

    /// If another session was started, and image and map have the bytes that were prepared, takes them for what was put
    /// in place; gives whether they do.
    pub(super) fn adopt_if_same(&mut self) -> bool {
        self.compares && self.outputs().all(|output| output.adopt_if_same())
    }

    /// Puts map and image in place.
    ///
    /// # Errors
    /// If the map or the image cannot be put in place.
    pub(super) fn commit(&mut self, stops: &Stops) -> Result<(), NotWritten> {
        let mut old = Vec::new();
        let done = self.outputs().try_for_each(|output| output.commit(stops).map(|name| old.extend(name)));
        self.old.append(&mut old);
        done
    }

    /// Notes that image and map are in place.
    pub(super) fn note_published(&mut self) {
        self.is_current = true;
        self.compares = false;
    }

    /// Writes the script of `--gdb` for the image that was put in place.
    ///
    /// # Errors
    /// If the script cannot be written.
    pub(super) fn write_gdb(&mut self, stops: &Stops) -> Result<(), NotWritten> {
        if let Some(path) = &self.gdb {
            let mut output = Output::new(path, TEXT);
            output.prepare(&[&crate::gdb::script_of(&self.map_text).unwrap_or_default()])?;
            let old = output.commit(stops)?;
            self.old.extend(old);
        }
        Ok(())
    }

    /// Removes what was written beside, and the old files.
    pub(super) fn drop_prepared(&mut self) {
        self.outputs().for_each(Output::drop);
        for old in std::mem::take(&mut self.old) {
            std::fs::remove_file(old).ok();
        }
    }
}
