//! Bytes written in pieces, without a copy that has all.

use super::Reader;
use rustix::fs::OFlags;
use signal_hook::consts::SIGXFSZ;
use std::fs::{File, OpenOptions};
use std::io::{self, IoSlice, Write};
use std::os::unix::fs::OpenOptionsExt;
use std::path::Path;
use std::sync::atomic::AtomicBool;
use std::sync::{Arc, Once};

/// The pieces that are written at once; the system takes 1,024.
const MAX_PIECES: usize = 1000;

/// From now on a file that is longer than this process may write (RLIMIT_FSIZE) is an error, and not a signal that ends
/// it.
pub(super) fn take_length_as_error() {
    static TAKEN: Once = Once::new();
    TAKEN.call_once(|| {
        // if it cannot be done, the signal ends the process, which leaves the old file
        let _ = signal_hook::flag::register(SIGXFSZ, Arc::new(AtomicBool::new(false)));
    });
}

/// Writes all bytes of the pieces, one after the other.
///
/// # Errors
/// If a write fails.
pub fn write_all(to: &mut impl Write, pieces: &[&[u8]]) -> io::Result<()> {
    let mut rest: &[&[u8]] = pieces;
    let mut begun = 0;
    loop {
        while rest.first().map_or(false, |piece| piece.len() == begun) {
            rest = rest.get(1..).unwrap_or_default();
            begun = 0;
        }
        if rest.is_empty() {
            return Ok(());
        }
        let slices: Vec<IoSlice<'_>> = rest
            .iter()
            .take(MAX_PIECES)
            .enumerate()
            .map(|(number, piece)| IoSlice::new(piece.get(if number == 0 { begun } else { 0 }..).unwrap_or_default()))
            .collect();
        begun += match to.write_vectored(&slices) {
            Ok(0) => return Err(io::Error::from(io::ErrorKind::WriteZero)),
            Ok(count) => count,
            Err(fault) if fault.kind() == io::ErrorKind::Interrupted => 0,
            Err(fault) => return Err(fault),
        };
        while rest.first().map_or(false, |piece| piece.len() < begun) {
            begun -= rest.first().map_or(0, |piece| piece.len());
            rest = rest.get(1..).unwrap_or_default();
        }
    }
}

/// Writes to something that is no regular file, such as `/dev/null` or a pipe.
///
/// # Errors
/// If the path cannot be opened or written; also if it is a pipe that nobody reads and a reader is needed.
pub fn write_in_place(path: &Path, pieces: &[&[u8]], reader: Reader) -> io::Result<()> {
    let waits = reader == Reader::IsWaitedFor;
    let flags = if waits { OFlags::NOCTTY } else { OFlags::NOCTTY | OFlags::NONBLOCK };
    let mut file: File = OpenOptions::new().write(true).custom_flags(flags.bits() as i32).open(path)?;
    if !waits {
        let flags = rustix::fs::fcntl_getfl(&file)?;
        rustix::fs::fcntl_setfl(&file, flags - OFlags::NONBLOCK)?;
    }
    write_all(&mut file, pieces)
}
