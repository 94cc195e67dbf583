//! The names of files beside others: `.NAME.PID.RANDOM.new`, of which none is used twice.

use rustix::fs::{flock, FlockOperation, OFlags};
use std::ffi::{OsStr, OsString};
use std::fs::OpenOptions;
use std::io;
use std::os::unix::ffi::{OsStrExt, OsStringExt};
use std::os::unix::fs::OpenOptionsExt;
use std::path::{Path, PathBuf};

/// The bytes of a name that are taken into that of a file beside it.
const MAX_FRONT: usize = 100;
/// The random bytes in a name.
const RANDOM: usize = 16;
const END: &str = ".new";

/// A new name beside a path, of this process.
pub(super) fn new_name(path: &Path) -> io::Result<PathBuf> {
    let mut random = [0; RANDOM];
    getrandom::getrandom(&mut random)
        .map_err(|fault| io::Error::from_raw_os_error(fault.raw_os_error().unwrap_or(libc::EIO)))?;
    let digits: String = random.iter().map(|byte| format!("{byte:02x}")).collect();
    let mut name = front(path);
    name.extend_from_slice(format!("{}.{digits}{END}", std::process::id()).as_bytes());
    Ok(path.with_file_name(OsString::from_vec(name)))
}

/// How the names of files beside a path begin.
fn front(path: &Path) -> Vec<u8> {
    let name = path.file_name().unwrap_or_default().as_bytes();
    [b".", name.get(..MAX_FRONT).unwrap_or(name), b"."].concat()
}

/// The process in the name of a file beside another, behind its front, and how many random digits there are.
fn process_of(name: &[u8], front: &[u8]) -> Option<(u32, usize)> {
    let rest = std::str::from_utf8(name.strip_prefix(front)?).ok()?;
    let (process, random) = rest.strip_suffix(END)?.split_once('.')?;
    let is_random = !random.is_empty() && random.bytes().all(|byte| byte.is_ascii_hexdigit());
    Some((process.parse().ok()?, random.len())).filter(|_| is_random)
}

/// Whether a file has the name of one that is written beside another: by this process, or any.
pub fn is_beside(name: &OsStr) -> bool {
    let name = name.as_bytes();
    let dots = name.iter().enumerate().filter(|(_, byte)| **byte == b'.').map(|(at, _)| at).collect::<Vec<_>>();
    let last = dots.len().checked_sub(3).and_then(|number| dots.get(number));
    let front = last.and_then(|&at| name.get(..=at));
    let digits = front.and_then(|front| process_of(name, front)).map(|(_, digits)| digits);
    name.starts_with(b".") && digits == Some(2 * RANDOM)
}

/// Removes the files beside a path that processes left which were killed.
pub fn remove_left(path: &Path) {
    remove_beside(path, false);
}

/// Removes the files beside a path that killed processes left, and also those of a server that runs, but does not
/// answer: else a call that is held up would put them in place later.
pub fn remove_apart(path: &Path) {
    remove_beside(path, true);
}

fn remove_beside(path: &Path, of_running: bool) {
    let folder = match path.parent() {
        Some(folder) if !folder.as_os_str().is_empty() => folder,
        _ => Path::new("."),
    };
    let front = front(path);
    for entry in std::fs::read_dir(folder).into_iter().flatten().flatten() {
        let process = process_of(entry.file_name().as_bytes(), &front).map(|(process, _)| process);
        let is_left = process.map_or(false, |number| !is_running(number));
        let is_folder = process.is_some() && entry.file_type().map_or(false, |kind| kind.is_dir());
        match (is_folder, is_left) {
            (true, _) if is_left || of_running => super::apart::remove_folder(&entry.path()),
            (false, true) => remove_unused(&entry.path()),
            _ => {}
        }
    }
}

/// Whether there is a process of this number, and not one that has ended and was not waited for.
fn is_running(number: u32) -> bool {
    match std::fs::read(format!("/proc/{number}/stat")) {
        Ok(text) => {
            let end = text.iter().rposition(|&byte| byte == b')').map_or(text.len(), |at| at + 1);
            text.get(end..).map_or(true, |rest| !rest.starts_with(b" Z"))
        }
        Err(fault) => fault.kind() != io::ErrorKind::NotFound,
    }
}

/// Removes a file that no process holds, as one in another container may: its number is not known here.
fn remove_unused(path: &Path) {
    let flags = (OFlags::NOFOLLOW | OFlags::NONBLOCK).bits() as i32;
    if let Ok(file) = OpenOptions::new().read(true).custom_flags(flags).open(path) {
        if flock(&file, FlockOperation::NonBlockingLockExclusive).is_ok() {
            std::fs::remove_file(path).ok();
        }
    }
}
