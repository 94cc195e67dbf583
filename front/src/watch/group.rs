//! Processes of the shell in groups of their own, and signals to them.
#![allow(unsafe_code)] // setpgid(2) between fork and exec, and killpg(3), which no crate has for rustc 1.63

use std::io;
use std::os::unix::process::CommandExt;
use std::process::Command;

/// Has a command run in a process group of its own.
pub(super) fn in_own_group(command: &mut Command) {
    // SAFETY: setpgid(2) is safe to call between fork and exec, and touches no memory.
    unsafe {
        command.pre_exec(|| match libc::setpgid(0, 0) {
            0 => Ok(()),
            _ => Err(io::Error::last_os_error()),
        });
    }
}

/// Sends a signal to a process group, if there is one.
pub(super) fn signal_group(group: u32, signal: libc::c_int) {
    if let Ok(group) = libc::pid_t::try_from(group) {
        // SAFETY: killpg(3) takes numbers alone.
        unsafe { libc::killpg(group, signal) };
    }
}

/// Ends a process of this program that was not waited for yet.
pub(super) fn kill(process: libc::pid_t) {
    if process > 0 {
        // SAFETY: kill(2) takes numbers alone.
        unsafe { libc::kill(process, libc::SIGKILL) };
    }
}
