//! A call: asks the server of its output to link, and puts the new files in place.
//!
//! The server writes the files beside their places, and says what to print; only the call puts them in place. So a
//! server that was stopped, and continues later, never overwrites newer files.

use std::ffi::OsString;
use std::io::{self, Read};
use std::os::unix::ffi::OsStrExt;
use std::os::unix::io::AsRawFd;
use std::os::unix::net::UnixStream;
use std::path::{Path, PathBuf};
use std::time::Duration;

use nix::sys::socket::{getsockopt, sockopt::PeerCredentials};

use super::key::{value_of, Key};
use super::wire::{Kind, Message, Reader};
use crate::once::{HandedOver, Status};
use crate::plan::Environment;
use crate::publish::Apart;
use crate::report::{os_message, Style};
use crate::stdio;
use crate::stdio::{Printed, Stream};

/// The time in which a server has to answer at all; LDI_SERVER_ANSWER has others, in seconds.
const ANSWER: f64 = 0.1;
/// So many times as long without a sign of a server that works, and the call links by itself.
const SILENCE: u32 = 5;

/// Why no server linked.
#[derive(Debug, thiserror::Error)]
#[error("{why}")]
pub(super) struct Declined {
    why: String,
    /// Whether nobody answers there: another server may take the place.
    pub(super) is_gone: bool,
}

impl Declined {
    fn because(why: impl Into<String>) -> Declined {
        Declined { why: why.into(), is_gone: false }
    }

    fn gone() -> Declined {
        Declined { why: "the server has ended".into(), is_gone: true }
    }
}

impl From<io::Error> for Declined {
    fn from(fault: io::Error) -> Declined {
        use io::ErrorKind::{
            BrokenPipe, ConnectionAborted, ConnectionRefused, ConnectionReset, NotConnected, TimedOut, UnexpectedEof,
            WouldBlock,
        };
        match fault.kind() {
            WouldBlock | TimedOut => Declined { why: "it gives no answer".into(), is_gone: true },
            BrokenPipe | ConnectionAborted | ConnectionRefused | ConnectionReset | NotConnected | UnexpectedEof => {
                Declined::gone()
            }
            io::ErrorKind::InvalidData => Declined::because("it gives another answer"),
            _ => Declined::because(os_message(&fault)),
        }
    }
}

/// What is asked of a server.
pub(super) struct Call<'a> {
    pub(super) words: &'a [OsString],
    pub(super) environment: &'a Environment,
    pub(super) key: &'a Key,
}

/// The seconds of a variable, if it has a number of them.
pub(super) fn seconds_of(text: &OsString, otherwise: f64) -> Duration {
    let seconds = text.to_str().and_then(|text| text.trim().parse().ok()).filter(|&found| found > 0.0 && found < 1e6);
    Duration::from_secs_f64(seconds.unwrap_or(otherwise))
}

/// The time in which a server has to answer.
pub(super) fn answer_limit(environment: &Environment) -> Duration {
    seconds_of(&value_of(environment, "LDI_SERVER_ANSWER"), ANSWER)
}

/// Connects to a server of this user.
///
/// # Errors
/// If nobody listens at the socket, or it is another user's.
pub(super) fn connect(path: &Path) -> Result<UnixStream, Declined> {
    let stream = UnixStream::connect(path)?;
    if !is_own(&stream) {
        return Err(Declined::because("the server is another user's"));
    }
    Ok(stream)
}

/// Whether this user is at the other end.
pub(super) fn is_own(stream: &UnixStream) -> bool {
    let peer = getsockopt(stream.as_raw_fd(), PeerCredentials);
    peer.map_or(false, |peer| peer.uid() == rustix::process::getuid().as_raw())
}

impl Call<'_> {
    /// Has the server at a path link; its first answer has to come in time. Gives the exit status.
    ///
    /// # Errors
    /// If the server does not make the link.
    pub(super) fn ask(&self, path: &Path, first_answer: Duration) -> Result<u8, Declined> {
        let limit = answer_limit(self.environment);
        let stream = connect(path)?;
        stream.set_read_timeout(Some(first_answer))?;
        stream.set_write_timeout(Some(first_answer))?;
        self.request().send(&stream)?;
        loop {
            let message = Message::receive(&stream)?;
            stream.set_read_timeout(Some(limit * SILENCE))?;
            match message.kind {
                Kind::Working => {}
                Kind::Done => return self.put_files_in_place(&stream, message),
                Kind::HandOver => return self.handed_over(message),
                Kind::Refused => {
                    let why = message.texts.first().map(|why| String::from_utf8_lossy(why).into_owned());
                    return Err(Declined::because(why.unwrap_or_default()));
                }
                _ => return Err(io::Error::from(io::ErrorKind::InvalidData).into()),
            }
        }
    }

    fn request(&self) -> Message {
        let mask = nix::sys::stat::umask(nix::sys::stat::Mode::empty());
        nix::sys::stat::umask(mask);
        let is_coloured = Style::of(&io::stderr()) == Style::Coloured;
        let message = Message::of(Kind::Link).with(self.key.text()).with(mask.bits().to_string());
        let message = message.with(u8::from(is_coloured).to_string());
        self.words.iter().fold(message, |message, word| message.with(word.as_bytes()))
    }

    /// Puts the new files in place while the server still holds this link as the last one, and prints what it said.
    fn put_files_in_place(&self, stream: &UnixStream, message: Message) -> Result<u8, Declined> {
        let answer = Answer::of(message).ok_or_else(|| Declined::because("it gives another answer"))?;
        stream.set_nonblocking(true)?;
        for place in &answer.places {
            if has_ended(stream) {
                return Err(Declined::gone());
            }
            place.put()?;
        }
        if !has_ended(stream) {
            // A server that has gone meanwhile needs no word.
            let _ = Message::of(Kind::Placed).send(stream);
        }
        answer.texts.iter().for_each(|one| stdio::print(one.stream, &one.text));
        Ok(answer.status)
    }

    /// Has another linker link, as the server found out.
    fn handed_over(&self, message: Message) -> Result<u8, Declined> {
        let wrong = || Declined::because("it gives another answer");
        let (texts, handed_over) = handed_over_of(message).ok_or_else(wrong)?;
        texts.iter().for_each(|one| stdio::print(one.stream, &one.text));
        Ok(handed_over.run(self.words, self.environment) as u8)
    }
}

/// Whether the other end has closed; it says nothing more before.
fn has_ended(stream: &UnixStream) -> bool {
    let mut stream = stream;
    !matches!(stream.read(&mut [0]), Err(fault) if fault.kind() == io::ErrorKind::WouldBlock)
}

/// The outcome of a link.
#[derive(Clone, PartialEq, Eq, Debug, Default)]
pub(super) struct Answer {
    /// The exit status.
    pub(super) status: u8,
    /// The new files.
    pub(super) places: Vec<Apart>,
    /// What is to be printed.
    pub(super) texts: Vec<Printed>,
}

impl Answer {
    fn of(message: Message) -> Option<Answer> {
        let mut reader = Reader::of(message);
        let status = reader.number()?;
        let count: usize = reader.number()?;
        let path = |text: Vec<u8>| PathBuf::from(std::ffi::OsStr::from_bytes(&text));
        let mut places = Vec::new();
        for _ in 0..count {
            places.push(Apart { folder: path(reader.text()?), target: path(reader.text()?) });
        }
        Some(Answer { status, places, texts: printed_of(&reader.rest()) })
    }

    /// The message that has this answer.
    pub(super) fn message(&self) -> Message {
        let mut message = Message::of(Kind::Done).with(self.status.to_string()).with(self.places.len().to_string());
        for place in &self.places {
            message = message.with(place.folder.as_os_str().as_bytes()).with(place.target.as_os_str().as_bytes());
        }
        with_printed(message, &self.texts)
    }
}

/// Stands for no status.
const NO_STATUS: u8 = u8::MAX;
const OUTPUT: &[u8] = b"1";
const ERRORS: &[u8] = b"2";

fn with_printed(message: Message, texts: &[Printed]) -> Message {
    texts.iter().fold(message, |message, one| {
        message.with(if one.stream == Stream::Output { OUTPUT } else { ERRORS }).with(&one.text)
    })
}

fn printed_of(texts: &[Vec<u8>]) -> Vec<Printed> {
    let pairs = texts.chunks_exact(2).filter_map(|pair| Some((pair.first()?, pair.get(1)?)));
    let stream = |text: &[u8]| if text == OUTPUT { Stream::Output } else { Stream::Errors };
    pairs.map(|(name, text)| Printed { stream: stream(name), text: text.clone() }).collect()
}

/// The message that another linker is to link, after these texts.
pub(super) fn hand_over_message(texts: &[Printed], handed_over: &HandedOver) -> Message {
    let optional = |message: Message, text: &Option<String>| {
        message.with(u8::from(text.is_some()).to_string()).with(text.as_deref().unwrap_or_default())
    };
    let mut message = Message::of(Kind::HandOver)
        .with(u8::from(handed_over.is_verbose).to_string())
        .with(u8::from(handed_over.is_forbidden).to_string())
        .with(handed_over.status.map_or(NO_STATUS, |status| status as u8).to_string());
    message = optional(message, &handed_over.kind);
    message = optional(message, &handed_over.first);
    message = message.with(handed_over.lines.len().to_string());
    message = handed_over.lines.iter().fold(message, |message, line| message.with(line));
    message = message.with(texts.len().to_string());
    with_printed(with_printed(message, texts), &handed_over.more)
}

fn handed_over_of(message: Message) -> Option<(Vec<Printed>, HandedOver)> {
    let mut reader = Reader::of(message);
    let is = |number: u8| number != 0;
    let (is_verbose, is_forbidden) = (is(reader.number()?), is(reader.number()?));
    let status = Status::of(reader.number()?);
    let mut optional = || {
        let is_some = is(reader.number()?);
        let text = reader.string()?;
        Some(if is_some { Some(text) } else { None })
    };
    let (kind, first) = (optional()?, optional()?);
    let count: usize = reader.number()?;
    let lines = (0..count).map(|_| reader.string()).collect::<Option<Vec<String>>>()?;
    let count: usize = reader.number()?;
    let mut texts = printed_of(&reader.rest());
    let more = texts.split_off(count.min(texts.len()));
    Some((texts, HandedOver { lines, kind, more, first, is_verbose, is_forbidden, status }))
}

#[cfg(test)]
mod tests {
    use super::*;

    fn printed(stream: Stream, text: &str) -> Printed {
        Printed { stream, text: text.into() }
    }

    #[test]
    fn an_answer_is_read_as_it_was_sent() {
        let place = Apart { folder: "/a/.x.new".into(), target: "/a/x".into() };
        let texts = vec![printed(Stream::Output, "one\n"), printed(Stream::Errors, "two")];
        let answer = Answer { status: 1, places: vec![place], texts };
        assert_eq!(Answer::of(answer.message()), Some(answer));
        assert_eq!(Answer::of(Message::of(Kind::Done).with("x")), None);
    }

    #[test]
    fn reasons_are_read_as_they_were_sent() {
        let reasons = HandedOver {
            lines: vec!["a".into(), "b".into()],
            kind: Some("k".into()),
            more: vec![printed(Stream::Errors, "more")],
            first: None,
            is_verbose: true,
            is_forbidden: false,
            status: Some(Status::Faults),
        };
        let texts = vec![printed(Stream::Output, "said")];
        assert_eq!(handed_over_of(hand_over_message(&texts, &reasons)), Some((texts, reasons)));
        assert_eq!(handed_over_of(Message::of(Kind::HandOver).with("1")), None);
    }

    #[test]
    fn seconds_are_those_of_a_variable() {
        assert_eq!(seconds_of(&"2.5".into(), 1.0), Duration::from_millis(2500));
        for text in ["", "x", "-1", "0", "inf", "nan"] {
            assert_eq!(seconds_of(&text.into(), 1.0), Duration::from_secs(1), "{text}");
        }
    }
}
