//! The protocol between a call and a server: each message has a kind and a list of texts.

use std::io::{self, Read, Write};
use std::os::unix::net::UnixStream;

/// The kinds of messages.
#[derive(Clone, Copy, PartialEq, Eq, Hash, Debug)]
pub(super) enum Kind {
    /// A call wants a link.
    Link,
    /// The call wants to know how the server is.
    Status,
    /// The server is to end.
    Stop,
    /// A call has put its files in place.
    Placed,
    /// The server works.
    Working,
    /// The server does not link, and says why.
    Refused,
    /// The server has linked, or says how it is.
    Done,
    /// Another linker is to link.
    HandOver,
}

const KINDS: [(Kind, u8); 8] = [
    (Kind::Link, b'L'),
    (Kind::Status, b'S'),
    (Kind::Stop, b'Q'),
    (Kind::Placed, b'P'),
    (Kind::Working, b'W'),
    (Kind::Refused, b'N'),
    (Kind::Done, b'D'),
    (Kind::HandOver, b'H'),
];

impl Kind {
    fn byte(self) -> u8 {
        KINDS.iter().find(|(kind, _)| *kind == self).map_or(0, |(_, byte)| *byte)
    }

    fn of(byte: u8) -> Option<Kind> {
        KINDS.iter().find(|(_, other)| *other == byte).map(|(kind, _)| *kind)
    }
}

/// The bytes that a message has at most.
const GREATEST: usize = 1 << 28;
/// The bytes before the texts: the kind, and how many bytes follow.
const HEAD: usize = 5;

/// A message.
#[derive(Clone, PartialEq, Eq, Debug)]
pub(super) struct Message {
    /// Its kind.
    pub(super) kind: Kind,
    /// Its texts.
    pub(super) texts: Vec<Vec<u8>>,
}

impl Message {
    /// A message without texts.
    pub(super) fn of(kind: Kind) -> Message {
        Message { kind, texts: Vec::new() }
    }

    /// The message with one text more.
    pub(super) fn with(mut self, text: impl AsRef<[u8]>) -> Message {
        self.texts.push(text.as_ref().to_owned());
        self
    }

    /// Sends it.
    ///
    /// # Errors
    /// If the other end is gone, or does not read.
    pub(super) fn send(&self, stream: &UnixStream) -> io::Result<()> {
        let count = |bytes: usize| u32::try_from(bytes).unwrap_or(u32::MAX).to_le_bytes();
        let mut bytes = vec![self.kind.byte()];
        bytes.extend(count(self.texts.iter().map(|text| text.len() + 4).sum()));
        for text in &self.texts {
            bytes.extend(count(text.len()));
            bytes.extend(text);
        }
        let mut stream = stream;
        stream.write_all(&bytes)
    }

    /// The next message.
    ///
    /// # Errors
    /// If the other end is gone, is silent, or sends something that is no message.
    pub(super) fn receive(stream: &UnixStream) -> io::Result<Message> {
        let mut stream = stream;
        let mut head = [0; HEAD];
        stream.read_exact(&mut head)?;
        let [kind, length @ ..] = head;
        let length = u32::from_le_bytes(length) as usize;
        let kind = Kind::of(kind).filter(|_| length <= GREATEST).ok_or(io::ErrorKind::InvalidData)?;
        let mut bytes = Vec::new();
        stream.take(length as u64).read_to_end(&mut bytes)?;
        if bytes.len() < length {
            return Err(io::ErrorKind::UnexpectedEof.into());
        }
        Ok(Message { kind, texts: texts_of(&bytes).ok_or(io::ErrorKind::InvalidData)? })
    }
}

/// The texts of a message.
fn texts_of(mut bytes: &[u8]) -> Option<Vec<Vec<u8>>> {
    let mut texts = Vec::new();
    while !bytes.is_empty() {
        let (count, rest) = (bytes.get(..4)?, bytes.get(4..)?);
        let count = u32::from_le_bytes(count.try_into().ok()?) as usize;
        texts.push(rest.get(..count)?.to_owned());
        bytes = rest.get(count..)?;
    }
    Some(texts)
}

/// The texts of a message, one after the other.
pub(super) struct Reader {
    texts: std::vec::IntoIter<Vec<u8>>,
}

impl Reader {
    /// The texts of a message.
    pub(super) fn of(message: Message) -> Reader {
        Reader { texts: message.texts.into_iter() }
    }

    /// The next text.
    pub(super) fn text(&mut self) -> Option<Vec<u8>> {
        self.texts.next()
    }

    /// The next text, which is a number.
    pub(super) fn number<N: std::str::FromStr>(&mut self) -> Option<N> {
        std::str::from_utf8(&self.text()?).ok()?.parse().ok()
    }

    /// The next text, which is UTF-8.
    pub(super) fn string(&mut self) -> Option<String> {
        String::from_utf8(self.text()?).ok()
    }

    /// The texts that are left.
    pub(super) fn rest(self) -> Vec<Vec<u8>> {
        self.texts.collect()
    }
}

#[cfg(test)]
mod tests {
    use super::*;

    #[test]
    fn a_message_is_received_as_it_was_sent() {
        let (here, there) = UnixStream::pair().unwrap();
        for (kind, _) in KINDS {
            let sent = Message::of(kind).with("one").with(b"").with(7.to_string());
            sent.send(&here).unwrap();
            assert_eq!(Message::receive(&there).unwrap(), sent);
        }
    }

    #[test]
    fn what_is_no_message_is_an_error() {
        for bytes in [&b"L"[..], b"X\0\0\0\0", b"L\x05\0\0\0\x02\0\0\0a", b"L\xFF\xFF\xFF\xFFa", b"L\x02\0\0\0ab"] {
            let (here, there) = UnixStream::pair().unwrap();
            (&here).write_all(bytes).unwrap();
            drop(here);
            assert!(Message::receive(&there).is_err(), "{bytes:?}");
        }
    }
}
