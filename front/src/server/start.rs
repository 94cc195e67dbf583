//! The start of a server: its socket, and its process, apart from the terminal and the build.

use std::ffi::OsString;
use std::fs::{self, File};
use std::io;
use std::os::unix::io::OwnedFd;
use std::os::unix::net::{UnixListener, UnixStream};
use std::os::unix::process::CommandExt;
use std::path::Path;
use std::process::{Command, Stdio};

use rustix::fs::{flock, FlockOperation};

use super::call::connect;
use super::key::{output_of, value_of};
use crate::once::read_words;
use crate::plan::Environment;
use crate::snapshot::is_by_process;

/// The name by which this program is a server.
pub(super) const NAME: &str = "ldi-server";

/// Why no server may be left, as builds there are not to leave one behind; LDI_SERVER=1 allows it.
pub(super) fn why_not_ours(environment: &Environment) -> Option<&'static str> {
    if value_of(environment, "LDI_SERVER") == "1" {
        return None;
    }
    let ci = value_of(environment, "CI").to_string_lossy().to_lowercase();
    if !matches!(ci.as_str(), "" | "0" | "false") {
        return Some("under CI");
    }
    let marks = ["/.dockerenv", "/run/.containerenv"];
    let is_container = !value_of(environment, "container").is_empty()
        || marks.iter().any(|mark| Path::new(mark).exists())
        || is_first_a_shell();
    is_container.then_some("in a container")
}

/// Whether the first process is a command's shell or builder, for example in the step of a container's build.
fn is_first_a_shell() -> bool {
    let names = ["sh", "bash", "dash", "ash", "busybox", "make", "ninja", "buildkitd"];
    fs::read_to_string("/proc/1/comm").map_or(false, |name| names.contains(&name.trim()))
}

/// Whether a link of these words may be one that a server makes: else none is started for it.
pub(super) fn is_for_server(words: &[OsString]) -> bool {
    if !super::links::are_lasting_words(words) {
        return false;
    }
    let (_, read) = read_words(words);
    let command = match read {
        Ok(command) => command,
        Err(_) => return false,
    };
    let has_inputs = command.has_inputs() || !command.scripts.is_empty() || command.default_script.is_some();
    let is_named = !command.has_output || command.output == output_of(words) || has_files(words);
    let is_file = fs::metadata(&command.output).map_or(true, |found| found.is_file());
    let is_link = has_inputs && command.asks.is_empty() && command.impossible.is_empty();
    is_link && is_named && is_file && !is_by_process(&command.output)
}

fn has_files(words: &[OsString]) -> bool {
    use std::os::unix::ffi::OsStrExt;
    words.iter().any(|word| word.as_bytes().starts_with(b"@"))
}

/// Starts a server, which is asked at its socket then. Does nothing if one answers there, unless it `replaces` that.
///
/// # Errors
/// If there is no folder for the socket, or no process can be started.
pub(super) fn start(path: &Path, replaces: bool) -> io::Result<()> {
    let folder = File::open(path.parent().unwrap_or_else(|| Path::new(".")))?;
    flock(&folder, FlockOperation::LockExclusive)?;
    if fs::symlink_metadata(path).is_ok() {
        if !replaces && connect(path).is_ok() {
            return Ok(());
        }
        fs::remove_file(path)?;
    }
    let listener = UnixListener::bind(path)?;
    let mut process = Command::new("/proc/self/exe");
    process.arg0(NAME).arg(path).stdin(OwnedFd::from(listener)).stdout(Stdio::null()).stderr(Stdio::null());
    let started = process.spawn();
    if started.is_err() {
        fs::remove_file(path).ok();
    }
    started.map(|_| ())
}

/// Removes a socket at which nobody listens, nor is about to.
pub(super) fn remove_left(path: &Path) {
    let folder = File::open(path.parent().unwrap_or_else(|| Path::new(".")));
    let lock = folder.and_then(|folder| Ok(flock(&folder, FlockOperation::LockExclusive).map(|()| folder)?));
    if let Ok(_lock) = lock {
        let is_refused = |fault: &io::Error| fault.kind() == io::ErrorKind::ConnectionRefused;
        if UnixStream::connect(path).err().map_or(false, |fault| is_refused(&fault)) {
            fs::remove_file(path).ok();
        }
    }
}
