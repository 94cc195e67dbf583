//! Whether somebody has a file open for writing: asked of the system by a lease, which it refuses if one has.
//!
//! A lease to read (`F_SETLEASE`) is refused with EAGAIN while a writer has the file open, through whatever name. It is
//! given back at once. It can be had of one's own files, or as root, and on local file systems alone: what network file
//! systems answer says something else.
#![allow(unsafe_code)] // two calls of fcntl(2), which no crate has in another form

use std::fs::File;
use std::io;
use std::os::unix::io::AsRawFd;

/// The kinds of file systems, as statfs(2) has them, on which the answer is known to be that of this system alone.
const LOCAL: &[u64] = &[
    0xEF53,      // ext2, ext3, ext4
    0x0102_1994, // tmpfs
    0x5846_5342, // XFS
    0x9123_683E, // btrfs
    0x794C_7630, // overlayfs
];

/// fcntl(2): the signal to one who has a lease.
const F_SETSIG: libc::c_int = 10;

/// Whether a process has a file open for writing, which is open here for reading alone; `None` if that cannot be
/// asked.
pub fn has_writer(file: &File) -> Option<bool> {
    let kind = rustix::fs::fstatfs(file).ok()?.f_type as u64 & 0xFFFF_FFFF;
    if !LOCAL.contains(&kind) {
        return None;
    }
    // the signal to one who has a lease: one that does nothing by itself, as a writer may come before it is back
    control(file, F_SETSIG, libc::SIGURG).ok()?;
    match control(file, libc::F_SETLEASE, libc::F_RDLCK) {
        Ok(()) => {
            control(file, libc::F_SETLEASE, libc::F_UNLCK).ok();
            Some(false)
        }
        Err(fault) if fault.raw_os_error() == Some(libc::EAGAIN) => Some(true),
        Err(_) => None,
    }
}

/// fcntl(2) with a number as its argument.
fn control(file: &File, command: libc::c_int, argument: libc::c_int) -> io::Result<()> {
    // SAFETY: the descriptor is open as long as `file` is, and commands with a number read and write no memory.
    match unsafe { libc::fcntl(file.as_raw_fd(), command, argument) } {
        -1 => Err(io::Error::last_os_error()),
        _ => Ok(()),
    }
}
