//! Signals that end the program, and the pipe by which a signal ends a wait.

use std::io::{self, Read, Write};
use std::os::unix::io::{AsRawFd, RawFd};
use std::os::unix::net::UnixStream;
use std::sync::atomic::{AtomicI32, AtomicUsize, Ordering};
use std::sync::Arc;
use std::time::Duration;

use rustix::io::{poll, PollFd, PollFlags};
use signal_hook::consts::{SIGCHLD, SIGHUP, SIGINT, SIGTERM};
use signal_hook::low_level::pipe;

use super::group::kill;

/// How long the program has to end after a signal, when what it waits for is gone.
const GRACE: Duration = Duration::from_secs(8);

/// SIGINT, SIGTERM and SIGHUP are noted; these and SIGCHLD end a wait on its descriptor.
#[derive(Debug)]
pub(super) struct Stops {
    woken: UnixStream,
    came: Arc<AtomicUsize>,
    session: Arc<AtomicI32>,
}

impl Stops {
    /// Takes the signals; `is_once` says with which status the program ends.
    ///
    /// # Errors
    /// If the system does not let this program handle signals.
    pub(super) fn new(is_once: bool) -> io::Result<Stops> {
        let (woken, wake) = UnixStream::pair()?;
        let (stopped, stop) = UnixStream::pair()?;
        woken.set_nonblocking(true)?;
        let came = Arc::new(AtomicUsize::new(0));
        let ignored = ignored();
        for signal in [SIGINT, SIGTERM, SIGHUP] {
            if signal == SIGINT || ignored & (1 << (signal - 1)) == 0 {
                signal_hook::flag::register_usize(signal, Arc::clone(&came), signal as usize)?;
                pipe::register(signal, wake.try_clone()?)?;
                pipe::register(signal, stop.try_clone()?)?;
            }
        }
        // one that came while these were being made may have found no pipe
        if came.load(Ordering::SeqCst) > 0 {
            (&stop).write_all(&[0])?;
            (&wake).write_all(&[0])?;
        }
        pipe::register(SIGCHLD, wake)?;
        let session = Arc::new(AtomicI32::new(0));
        let (number, signal) = (Arc::clone(&session), Arc::clone(&came));
        std::thread::Builder::new()
            .name("signals".into())
            .spawn(move || end_at_signal(stopped, &number, &signal, is_once))?;
        Ok(Stops { woken, came, session })
    }

    /// The signal that ends the program, if one came.
    pub(super) fn ending(&self) -> Option<u8> {
        u8::try_from(self.came.load(Ordering::SeqCst)).ok().filter(|signal| *signal > 0)
    }

    /// The process of the session, which a signal ends, so that nothing waits for it; 0 for none.
    pub(super) fn set_session(&self, process: u32) {
        self.session.store(i32::try_from(process).unwrap_or(0), Ordering::SeqCst);
    }

    /// Reads what signals left.
    pub(super) fn drain(&self) {
        let mut bytes = [0; 256];
        while matches!((&self.woken).read(&mut bytes), Ok(count) if count > 0) {}
    }

    /// Waits for a signal.
    pub(super) fn wait(&self, most: Duration) {
        let _ = poll(&mut [PollFd::new(&self.woken, PollFlags::IN)], most.as_millis() as i32);
        self.drain();
    }
}

impl AsRawFd for Stops {
    fn as_raw_fd(&self) -> RawFd {
        self.woken.as_raw_fd()
    }
}

/// Ends the session at a signal, and the program after a while if it does not end by itself.
fn end_at_signal(mut stopped: UnixStream, session: &AtomicI32, came: &AtomicUsize, is_once: bool) {
    let mut byte = [0];
    while !matches!(stopped.read(&mut byte), Ok(count) if count > 0) {}
    kill(session.load(Ordering::SeqCst));
    std::thread::sleep(GRACE);
    let number = came.load(Ordering::SeqCst) as i32;
    std::process::exit(if is_once { 128 + number } else { 0 });
}

/// The signals that this process ignores, as bits from 0 for the signal 1 (proc(5), `SigIgn`).
fn ignored() -> u64 {
    let text = std::fs::read_to_string("/proc/self/status").unwrap_or_default();
    let line = text.lines().find_map(|line| line.strip_prefix("SigIgn:"));
    line.and_then(|mask| u64::from_str_radix(mask.trim(), 16).ok()).unwrap_or(0)
}
