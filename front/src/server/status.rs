//! `ld.ldi --server-status` and `--server-stop`: the servers of this user, or that of the output of `-o`.

use std::io;
use std::os::unix::ffi::OsStrExt;
use std::os::unix::net::UnixStream;
use std::path::{Path, PathBuf};
use std::thread;
use std::time::{Duration, Instant};

use super::call::{is_own, Declined};
use super::key::{real_path, sockets, sockets_folder};
use super::wire::{Kind, Message, Reader};
use super::{say, start};
use crate::command::ServerRequest;
use crate::plan::Environment;

/// The time in which a server has to say how it is.
const LIMIT: Duration = Duration::from_secs(5);

/// The time after which a server that ended while it was asked is asked again.
const PAUSE: Duration = Duration::from_millis(50);

/// The state of a server.
#[derive(Clone, PartialEq, Eq, Debug)]
pub(super) struct State {
    /// The output.
    pub(super) output: PathBuf,
    /// The working folder.
    pub(super) folder: PathBuf,
    /// Its process.
    pub(super) process: u32,
    /// The links that it made after the first.
    pub(super) calls: u64,
    /// The bytes that it and its session hold.
    pub(super) memory: u64,
    /// The time since the last call, in microseconds.
    pub(super) idle: u64,
    /// Whether it makes a link.
    pub(super) is_busy: bool,
}

impl State {
    /// The message that has this state.
    pub(super) fn message(&self) -> Message {
        let numbers = [u64::from(self.process), self.calls, self.memory, self.idle, u64::from(self.is_busy)];
        let message =
            Message::of(Kind::Done).with(self.output.as_os_str().as_bytes()).with(self.folder.as_os_str().as_bytes());
        numbers.iter().fold(message, |message, number| message.with(number.to_string()))
    }

    fn of(message: Message) -> Option<State> {
        let mut reader = Reader::of(message);
        let path = |text: Vec<u8>| PathBuf::from(std::ffi::OsStr::from_bytes(&text));
        Some(State {
            output: path(reader.text()?),
            folder: path(reader.text()?),
            process: reader.number()?,
            calls: reader.number()?,
            memory: reader.number()?,
            idle: reader.number()?,
            is_busy: reader.number::<u64>()? != 0,
        })
    }

    fn line(&self, is_stopped: bool) -> String {
        let now = match (is_stopped, self.is_busy) {
            (true, _) => "stopped".into(),
            (_, true) => "busy".into(),
            _ => format!("idle for {:.0} s", self.idle as f64 / 1e6),
        };
        let (output, folder) = (self.output.display(), self.folder.display());
        let megabytes = (self.memory + 500_000) / 1_000_000;
        format!("{output}: process {} in {folder}, {} calls, {megabytes} MB, {now}", self.process, self.calls)
    }
}

/// Asks each server, or that of an output; prints a line for each.
pub(super) fn run(request: ServerRequest, output: Option<&Path>, environment: &Environment) -> u8 {
    let stops = request == ServerRequest::Stop;
    let wanted = output.map(real_path);
    let paths = sockets_folder(environment).map_or_else(Vec::new, |folder| sockets(&folder));
    for path in paths {
        let said = match ask(&path, Kind::Status) {
            Ok(Some(state)) if wanted.as_ref().map_or(true, |wanted| *wanted == state.output) => match stops {
                true => ask(&path, Kind::Stop),
                false => Ok(Some(state)),
            },
            Ok(_) => Ok(None),
            Err(declined) => Err(declined),
        };
        match said {
            Ok(state) => state.iter().for_each(|state| println!("{}", state.line(stops))),
            Err(declined) => say(format!("{}: no answer: {declined}", path.display())),
        }
    }
    0
}

/// What a server says of itself; `None` if there is none: its socket is removed. One that ends while it is asked is
/// asked again, as its socket may take a call until it is gone.
///
/// # Errors
/// If a server is there that gives no answer.
pub(super) fn ask(path: &Path, kind: Kind) -> Result<Option<State>, Declined> {
    let asked = Instant::now();
    match ask_once(path, kind) {
        Err(declined) if declined.is_gone && asked.elapsed() < LIMIT => {
            thread::sleep(PAUSE);
            ask_once(path, kind)
        }
        said => said,
    }
}

fn ask_once(path: &Path, kind: Kind) -> Result<Option<State>, Declined> {
    let stream = match UnixStream::connect(path) {
        Ok(stream) => stream,
        Err(fault) if fault.kind() == io::ErrorKind::ConnectionRefused => {
            start::remove_left(path);
            return Ok(None);
        }
        Err(fault) if fault.kind() == io::ErrorKind::NotFound => return Ok(None),
        Err(fault) => return Err(fault.into()),
    };
    if !is_own(&stream) {
        return Err(io::Error::from(io::ErrorKind::PermissionDenied).into());
    }
    stream.set_read_timeout(Some(LIMIT))?;
    Message::of(kind).send(&stream)?;
    let said = Message::receive(&stream)?;
    State::of(said).map(Some).ok_or_else(|| io::Error::from(io::ErrorKind::InvalidData).into())
}

#[cfg(test)]
mod tests {
    use super::*;

    #[test]
    fn a_state_is_read_as_it_was_sent() {
        let state = State {
            output: "/a/image".into(),
            folder: "/a".into(),
            process: 7,
            calls: 3,
            memory: 12_600_000,
            idle: 4_100_000,
            is_busy: false,
        };
        assert_eq!(State::of(state.message()), Some(state.clone()));
        assert_eq!(state.line(false), "/a/image: process 7 in /a, 3 calls, 13 MB, idle for 4 s");
        assert!(state.line(true).ends_with(", stopped"));
        assert_eq!(State::of(Message::of(Kind::Done).with("x")), None);
    }
}
