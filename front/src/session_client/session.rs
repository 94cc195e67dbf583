//! A running `ldi session --deferred`, and its protocol (docs/manual.md, 'Commands', 'Answers', 'A deferred session').

use std::ffi::{OsStr, OsString};
use std::fs::File;
use std::io::{self, IoSlice, Read, Write};
use std::ops::Range;
use std::os::unix::io::{AsFd, AsRawFd};
use std::process::{Child, ChildStdin, ChildStdout, Command, ExitStatus, Stdio};
use std::time::{Duration, Instant};

use bstr::BStr;
use rustix::io::{poll, PollFd, PollFlags};

use crate::profile::limits::MAX_OBJECT_NAME;

/// The bytes that a pipe is asked to hold; with the system's 64 KiB an image takes longer.
const PIPE_BYTES: i32 = 1 << 20;
/// The pieces that are written by one call of the system.
const PIECES_AT_ONCE: usize = 64;

/// What a session does with sections that no statement takes (`--orphan-handling`).
#[derive(Clone, Copy, PartialEq, Eq, Debug)]
pub enum Orphans {
    /// Orphans are faults.
    Error,
    /// Orphans are discarded.
    Discard,
}

/// The options of a session, by the words of `ldi session`.
#[derive(Clone, PartialEq, Eq, Debug, Default)]
pub struct Options {
    /// Whether sections that the program cannot reach are left out.
    pub collects_sections: bool,
    /// The entry symbol, if the script cannot name it.
    pub entry: Option<OsString>,
    /// What becomes of orphans; without it they are faults.
    pub orphans: Option<Orphans>,
}

impl Options {
    /// The options as words of a command line.
    pub fn words(&self) -> Vec<OsString> {
        let mut words = Vec::new();
        if self.collects_sections {
            words.push("--gc-sections".into());
        }
        if let Some(entry) = &self.entry {
            let mut word = OsString::from("-e=");
            word.push(entry);
            words.push(word);
        }
        match self.orphans {
            Some(Orphans::Error) => words.push("--orphan-handling=error".into()),
            Some(Orphans::Discard) => words.push("--orphan-handling=discard".into()),
            None => {}
        }
        words
    }
}

/// An edit of what a session holds. A position counts from 0.
#[derive(Clone, Copy, PartialEq, Eq, Debug)]
pub enum Edit<'a> {
    /// Adds an object before a position.
    Add(&'a BStr, usize, &'a [u8]),
    /// The object of that name becomes another, in its place.
    Replace(&'a BStr, &'a [u8]),
    /// Takes the object out, and puts it before a position of the others.
    Move(&'a BStr, usize),
    /// Takes the object out.
    Remove(&'a BStr),
    /// Sets the script.
    Script(&'a [u8]),
}

impl<'a> Edit<'a> {
    /// The line of the command.
    fn line(&self) -> Vec<u8> {
        let mut line = Vec::with_capacity(64);
        let mut put = |parts: &[&[u8]]| {
            for part in parts {
                line.extend_from_slice(part);
            }
        };
        match self {
            Edit::Add(name, position, data) => {
                put(&[b"add ", name, format!(" {position} {}\n", data.len()).as_bytes()]);
            }
            Edit::Replace(name, data) => put(&[b"replace ", name, format!(" {}\n", data.len()).as_bytes()]),
            Edit::Move(name, position) => put(&[b"move ", name, format!(" {position}\n").as_bytes()]),
            Edit::Remove(name) => put(&[b"remove ", name, b"\n"]),
            Edit::Script(data) => put(&[format!("script {}\n", data.len()).as_bytes()]),
        }
        line
    }

    /// The bytes that follow the line.
    pub fn payload(&self) -> &'a [u8] {
        match self {
            Edit::Add(_, _, data) | Edit::Replace(_, data) | Edit::Script(data) => data,
            Edit::Move(..) | Edit::Remove(..) => &[],
        }
    }
}

/// A refusal of an edit, which then changed nothing: its number and that within (docs/manual.md, 'Refusals').
#[derive(Clone, Copy, PartialEq, Eq, Hash, Debug)]
pub struct Refusal {
    /// 1 to 7.
    pub number: u32,
    /// The number within: of an object 1 to 13, of a script 1 to 5; else 0.
    pub inner: u32,
}

impl Refusal {
    /// What `ldi link` says of a file that is too long to be sent.
    pub const TOO_LONG: Refusal = Refusal { number: 6, inner: 0 };

    /// Whether memory ran out.
    pub fn is_memory(self) -> bool {
        self.number == 7
    }
}

/// The answer to an edit.
#[derive(Clone, Copy, PartialEq, Eq, Debug)]
pub enum Answer {
    /// The edit was accepted; the next link has it.
    Accepted,
    /// The edit was refused.
    Refused(Refusal),
}

/// A link that a session made.
#[derive(Clone, Copy, PartialEq, Eq, Debug, Default)]
pub struct Linked {
    /// Whether it has no faults.
    pub is_good: bool,
    /// The bytes of its image.
    pub length: u64,
}

/// What a session is asked for.
#[derive(Clone, Copy, PartialEq, Eq, Debug)]
pub enum Query {
    /// The image of the last link; empty if that has faults.
    Image,
    /// The map of the last link; empty if that has faults.
    Map,
    /// The fault lines of the last link; empty if that has none.
    Faults,
}

impl Query {
    fn line(self) -> &'static [u8] {
        match self {
            Query::Image => b"image\n",
            Query::Map => b"map\n",
            Query::Faults => b"faults\n",
        }
    }
}

/// Why a session gives no answer. It is of no use then.
#[derive(Debug, thiserror::Error)]
pub enum SessionError {
    /// The program cannot be started.
    #[error("{}: {error}", program.to_string_lossy())]
    NotStarted {
        /// Its path.
        program: OsString,
        /// Why.
        error: io::Error,
    },
    /// The session ended.
    #[error("the session ended")]
    Ended,
    /// The session ended in the middle of an answer.
    #[error("the session ended in an answer")]
    EndedInAnswer,
    /// The session gave no answer in time.
    #[error("the session gave no answer for {} s", .0.as_secs())]
    TooLate(Duration),
    /// The session wrote something that is no answer.
    #[error("not an answer: {0}")]
    NoAnswer(String),
    /// A pipe cannot be read or written.
    #[error("{0}")]
    Pipe(io::Error),
}

impl From<io::Error> for SessionError {
    fn from(error: io::Error) -> SessionError {
        match error.kind() {
            io::ErrorKind::BrokenPipe => SessionError::Ended,
            _ => SessionError::Pipe(error),
        }
    }
}

impl From<rustix::io::Errno> for SessionError {
    fn from(error: rustix::io::Errno) -> SessionError {
        SessionError::Pipe(error.into())
    }
}

/// Why an image was not written to a file.
#[derive(Debug, thiserror::Error)]
pub enum TakeError {
    /// The session gave no answer.
    #[error(transparent)]
    Session(#[from] SessionError),
    /// The file cannot be written; the session goes on.
    #[error("{0}")]
    File(io::Error),
}

/// A running `ldi session`. It ends when its input ends, so also when this process does.
#[derive(Debug)]
pub struct Session {
    child: Child,
    /// Its standard input; `None` once it is closed.
    to: Option<ChildStdin>,
    from: ChildStdout,
    /// What was read of answers and not used yet.
    read: Buffer,
    /// The longest time without anything to read or to write.
    patience: Option<Duration>,
}

/// Bytes that were read.
#[derive(Debug, Default)]
struct Buffer {
    bytes: Vec<u8>,
    at: usize,
}

impl Buffer {
    /// The bytes that were read and not used yet.
    fn rest(&self) -> &[u8] {
        self.bytes.get(self.at..).unwrap_or_default()
    }

    /// Takes a whole line off, without its end.
    fn take_line(&mut self) -> Option<Vec<u8>> {
        let length = memchr::memchr(b'\n', self.rest())?;
        let line = self.rest().get(..length)?.to_vec();
        self.consume(length + 1);
        Some(line)
    }

    /// Goes on behind this number of bytes.
    fn consume(&mut self, count: usize) {
        self.at += count;
        if self.at >= self.bytes.len() {
            self.bytes.clear();
            self.at = 0;
        }
    }
}

/// Pieces that are being written.
struct Outgoing<'a> {
    pieces: Vec<&'a [u8]>,
    /// The piece that is next, and how much of it is written.
    piece: usize,
    within: usize,
}

impl<'a> Outgoing<'a> {
    fn new(pieces: Vec<&'a [u8]>) -> Outgoing<'a> {
        Outgoing { pieces, piece: 0, within: 0 }
    }

    fn is_done(&self) -> bool {
        self.pieces.get(self.piece..).unwrap_or_default().iter().all(|piece| piece.is_empty())
    }

    /// Writes what the pipe takes at once.
    fn write(&mut self, to: &mut ChildStdin) -> io::Result<()> {
        let rest = self.pieces.get(self.piece..).unwrap_or_default();
        let mut slices = Vec::with_capacity(PIECES_AT_ONCE);
        for (index, piece) in rest.iter().take(PIECES_AT_ONCE).enumerate() {
            let skipped = if index == 0 { self.within } else { 0 };
            slices.push(IoSlice::new(piece.get(skipped..).unwrap_or_default()));
        }
        match to.write_vectored(&slices) {
            Ok(count) => self.advance(count),
            Err(error) if matches!(error.kind(), io::ErrorKind::WouldBlock | io::ErrorKind::Interrupted) => {}
            Err(error) => return Err(error),
        }
        Ok(())
    }

    fn advance(&mut self, count: usize) {
        let mut left = count;
        while let Some(piece) = self.pieces.get(self.piece) {
            let here = piece.len() - self.within;
            if left < here {
                self.within += left;
                return;
            }
            left -= here;
            self.piece += 1;
            self.within = 0;
        }
    }
}

impl Session {
    /// Starts a session with these options. An answer that does not come for `patience` ends the wait for it.
    pub fn start(program: &OsStr, options: &Options, patience: Option<Duration>) -> Result<Session, SessionError> {
        Session::start_with_errors(program, options, patience, Stdio::inherit())
    }

    /// Starts a session with another standard error than that of this process.
    pub fn start_with_errors(
        program: &OsStr,
        options: &Options,
        patience: Option<Duration>,
        errors: Stdio,
    ) -> Result<Session, SessionError> {
        let not_started = |error| SessionError::NotStarted { program: program.to_owned(), error };
        let mut child = Command::new(program)
            .args(["session", "--deferred"])
            .args(options.words())
            .stdin(Stdio::piped())
            .stdout(Stdio::piped())
            .stderr(errors)
            .spawn()
            .map_err(not_started)?;
        let (to, from) = match (child.stdin.take(), child.stdout.take()) {
            (Some(to), Some(from)) => (to, from),
            _ => return Err(not_started(io::ErrorKind::BrokenPipe.into())),
        };
        for pipe in [to.as_raw_fd(), from.as_raw_fd()] {
            // A system that refuses larger pipes has smaller ones.
            let _ = nix::fcntl::fcntl(pipe, nix::fcntl::FcntlArg::F_SETPIPE_SZ(PIPE_BYTES));
        }
        rustix::fs::fcntl_setfl(&to, rustix::fs::OFlags::NONBLOCK)?;
        rustix::fs::fcntl_setfl(&from, rustix::fs::OFlags::NONBLOCK)?;
        Ok(Session { child, to: Some(to), from, read: Buffer::default(), patience })
    }

    /// Sends edits, and gives the answers in their order. Answers are read while edits are still being sent.
    pub fn edit(&mut self, edits: &[Edit<'_>]) -> Result<Vec<Answer>, SessionError> {
        let lines: Vec<Vec<u8>> = edits.iter().map(Edit::line).collect();
        let pieces = lines.iter().zip(edits).flat_map(|(line, edit)| [&line[..], edit.payload()]).collect();
        let mut out = Outgoing::new(pieces);
        let mut answers = Vec::with_capacity(edits.len());
        while answers.len() < edits.len() {
            match self.read.take_line() {
                Some(line) => answers.push(edit_answer(&line)?),
                None => self.step(&mut out)?,
            }
        }
        Ok(answers)
    }

    /// Sends one edit.
    pub fn edit_one(&mut self, edit: Edit<'_>) -> Result<Answer, SessionError> {
        self.edit(&[edit])?.pop().ok_or(SessionError::Ended)
    }

    /// Has the session link what was accepted since its last link; gives why it does not, which is memory.
    pub fn link(&mut self) -> Result<Result<Linked, Refusal>, SessionError> {
        link_answer(&self.exchange(b"link\n")?)
    }

    /// Sends a query, and gives all bytes of the answer.
    pub fn query(&mut self, query: Query) -> Result<Vec<u8>, SessionError> {
        self.query_into(query, Vec::new())
    }

    /// Sends a query, and reads the answer into memory that is used again.
    pub fn query_into(&mut self, query: Query, mut data: Vec<u8>) -> Result<Vec<u8>, SessionError> {
        let length = self.ask(query)?;
        data.clear();
        data.reserve_exact(length);
        let here = self.read.rest().len().min(length);
        data.extend_from_slice(self.read.rest().get(..here).unwrap_or_default());
        self.read.consume(here);
        while data.len() < length {
            let wanted = length - data.len();
            match (&mut self.from).take(wanted as u64).read_to_end(&mut data) {
                Ok(0) => return Err(SessionError::EndedInAnswer),
                Ok(_) => {}
                Err(error) if error.kind() == io::ErrorKind::WouldBlock => self.wait_to_read()?,
                Err(error) => return Err(error.into()),
            }
        }
        Ok(data)
    }

    /// Asks what has changed in the image since it was answered last, and writes it over the bytes of that answer;
    /// gives the image, and the ranges that may differ.
    pub fn changes(&mut self, mut image: Vec<u8>) -> Result<(Vec<u8>, Vec<Range<usize>>), SessionError> {
        let (length, count) = changes(&self.exchange(b"changes\n")?)?;
        let mut ranges = Vec::new();
        for _ in 0..count {
            let line = self.line()?;
            let range = range(&line).filter(|range| range.end <= length).ok_or_else(|| no_answer(&line))?;
            ranges.push(range);
        }
        image.resize(length, 0);
        for range in &ranges {
            self.read_exactly(image.get_mut(range.clone()).unwrap_or_default())?;
        }
        Ok((image, ranges))
    }

    /// Asks for the image, and moves it to a file without a copy here; gives its length.
    pub fn image_to(&mut self, file: &mut File) -> Result<usize, TakeError> {
        let length = self.ask(Query::Image)?;
        let here = self.read.rest().len().min(length);
        let written = file.write_all(self.read.rest().get(..here).unwrap_or_default());
        self.read.consume(here);
        let mut left = length - here;
        if let Err(error) = written {
            self.pass_over(left)?;
            return Err(TakeError::File(error));
        }
        while left > 0 {
            match self.splice(file, left) {
                Ok(0) => return Err(SessionError::EndedInAnswer.into()),
                Ok(count) => left -= count,
                Err(error) if error.kind() == io::ErrorKind::WouldBlock => self.wait_to_read()?,
                Err(error) if error.kind() == io::ErrorKind::InvalidInput => return self.copy(file, left, length),
                Err(error) => {
                    self.pass_over(left)?;
                    return Err(TakeError::File(error));
                }
            }
        }
        Ok(length)
    }

    /// Ends the session once it has answered all, and gives its status; `None` if a signal ended it.
    pub fn close(mut self) -> Option<i32> {
        self.to = None;
        self.child.wait().ok()?.code()
    }

    /// Has the session end, whatever it does, without a wait for that.
    pub fn ask_to_end(&mut self) {
        self.to = None;
        let _ = self.child.kill(); // it may have ended
    }

    /// Ends the session, whatever it does; gives how it ended, which may have been before.
    pub fn kill(mut self) -> Option<ExitStatus> {
        self.to = None;
        if matches!(self.child.try_wait(), Ok(None)) {
            let _ = self.child.kill();
        }
        self.child.wait().ok()
    }

    /// The number of its process.
    pub fn process(&self) -> u32 {
        self.child.id()
    }

    /// Whether the process has ended.
    pub fn has_ended(&mut self) -> bool {
        !matches!(self.child.try_wait(), Ok(None))
    }

    /// Moves bytes from the pipe to a file.
    fn splice(&self, file: &File, most: usize) -> io::Result<usize> {
        let most = most.min(PIPE_BYTES as usize);
        let flags = nix::fcntl::SpliceFFlags::SPLICE_F_MOVE;
        let done = nix::fcntl::splice(self.from.as_raw_fd(), None, file.as_raw_fd(), None, most, flags);
        done.map_err(|error| io::Error::from_raw_os_error(error as i32))
    }

    /// What is left of an image, to a file of a system that has no splice for it.
    fn copy(&mut self, file: &mut File, left: usize, length: usize) -> Result<usize, TakeError> {
        let mut rest = vec![0; left];
        self.read_exactly(&mut rest)?;
        file.write_all(&rest).map_err(TakeError::File)?;
        Ok(length)
    }

    /// Reads what is left of an answer, so that the next one is the next to be read.
    fn pass_over(&mut self, left: usize) -> Result<(), SessionError> {
        self.read_exactly(&mut vec![0; left])
    }

    fn read_exactly(&mut self, into: &mut [u8]) -> Result<(), SessionError> {
        let mut at = self.read.rest().len().min(into.len());
        if let (Some(to), Some(from)) = (into.get_mut(..at), self.read.rest().get(..at)) {
            to.copy_from_slice(from);
        }
        self.read.consume(at);
        while let Some(rest) = into.get_mut(at..).filter(|rest| !rest.is_empty()) {
            match self.from.read(rest) {
                Ok(0) => return Err(SessionError::EndedInAnswer),
                Ok(count) => at += count,
                Err(error) if error.kind() == io::ErrorKind::WouldBlock => self.wait_to_read()?,
                Err(error) if error.kind() == io::ErrorKind::Interrupted => {}
                Err(error) => return Err(error.into()),
            }
        }
        Ok(())
    }

    /// Sends a query; gives the length of what follows.
    fn ask(&mut self, query: Query) -> Result<usize, SessionError> {
        answer_length(&self.exchange(query.line())?)
    }

    /// Sends a line; gives the line that answers it.
    fn exchange(&mut self, line: &[u8]) -> Result<Vec<u8>, SessionError> {
        self.line_while(Outgoing::new(vec![line]))
    }

    /// The next line.
    fn line(&mut self) -> Result<Vec<u8>, SessionError> {
        self.line_while(Outgoing::new(Vec::new()))
    }

    fn line_while(&mut self, mut out: Outgoing<'_>) -> Result<Vec<u8>, SessionError> {
        loop {
            if let Some(line) = self.read.take_line() {
                return Ok(line);
            }
            self.step(&mut out)?;
        }
    }

    /// Waits until something can be read or written, and does that.
    fn step(&mut self, out: &mut Outgoing<'_>) -> Result<(), SessionError> {
        let to = self.to.as_ref().ok_or(SessionError::Ended)?;
        let wants_to_write = !out.is_done();
        let mut pipes = vec![PollFd::new(&self.from, PollFlags::IN)];
        if wants_to_write {
            pipes.push(PollFd::new(to, PollFlags::OUT));
        }
        wait(&mut pipes, self.patience)?;
        let can_read = !pipes.first().map_or(true, |pipe| pipe.revents().is_empty());
        let can_write = !pipes.get(1).map_or(true, |pipe| pipe.revents().is_empty());
        drop(pipes);
        if can_read {
            return self.read_some();
        }
        if let (true, Some(to)) = (can_write, self.to.as_mut()) {
            match out.write(to) {
                // What it said before it closed its input is read first.
                Err(error) if error.kind() == io::ErrorKind::BrokenPipe => self.read_last()?,
                done => done?,
            }
        }
        Ok(())
    }

    /// Reads what is there.
    fn read_some(&mut self) -> Result<(), SessionError> {
        let mut chunk = [0; 1 << 16];
        match self.from.read(&mut chunk) {
            Ok(0) => Err(SessionError::Ended),
            Ok(count) => {
                self.read.bytes.extend_from_slice(chunk.get(..count).unwrap_or_default());
                Ok(())
            }
            Err(error) if matches!(error.kind(), io::ErrorKind::WouldBlock | io::ErrorKind::Interrupted) => Ok(()),
            Err(error) => Err(error.into()),
        }
    }

    /// Reads after its input was closed: an end if nothing more comes.
    fn read_last(&mut self) -> Result<(), SessionError> {
        self.wait_to_read()?;
        self.read_some()
    }

    fn wait_to_read(&self) -> Result<(), SessionError> {
        wait(&mut [PollFd::new(&self.from, PollFlags::IN)], self.patience)
    }
}

impl AsFd for Session {
    /// A descriptor that has something to read, between two commands, only if the session has ended.
    fn as_fd(&self) -> std::os::unix::io::BorrowedFd<'_> {
        self.from.as_fd()
    }
}

impl Drop for Session {
    fn drop(&mut self) {
        self.to = None;
        if matches!(self.child.try_wait(), Ok(None)) {
            let _ = self.child.kill();
            let _ = self.child.wait();
        }
    }
}

/// Waits until a pipe is ready.
fn wait(pipes: &mut [PollFd<'_>], patience: Option<Duration>) -> Result<(), SessionError> {
    let until = patience.map(|patience| Instant::now() + patience);
    loop {
        let left = until.map(|until| until.saturating_duration_since(Instant::now()));
        let milliseconds = left.map_or(-1, |left| i32::try_from(left.as_millis()).unwrap_or(i32::MAX));
        match poll(pipes, milliseconds) {
            Ok(0) => return Err(SessionError::TooLate(patience.unwrap_or_default())),
            Ok(_) => return Ok(()),
            Err(rustix::io::Errno::INTR) => {}
            Err(error) => return Err(error.into()),
        }
    }
}

/// The words of an answer.
fn words(line: &[u8]) -> Option<Vec<&str>> {
    Some(std::str::from_utf8(line).ok()?.split(' ').collect())
}

fn no_answer(line: &[u8]) -> SessionError {
    SessionError::NoAnswer(String::from_utf8_lossy(line).into_owned())
}

/// The answer to an edit.
fn edit_answer(line: &[u8]) -> Result<Answer, SessionError> {
    let read = || match words(line)?.as_slice() {
        ["accepted"] => Some(Answer::Accepted),
        words => refused(words).map(Answer::Refused),
    };
    read().ok_or_else(|| no_answer(line))
}

/// The answer to `link`.
fn link_answer(line: &[u8]) -> Result<Result<Linked, Refusal>, SessionError> {
    let read = || match words(line)?.as_slice() {
        ["linked", status, length] => {
            Some(Ok(Linked { is_good: status.parse::<u32>().ok()? == 0, length: length.parse().ok()? }))
        }
        words => refused(words).map(Err),
    };
    read().ok_or_else(|| no_answer(line))
}

fn refused(words: &[&str]) -> Option<Refusal> {
    match words {
        ["refused", number, inner] => Some(Refusal { number: number.parse().ok()?, inner: inner.parse().ok()? }),
        _ => None,
    }
}

/// How many bytes follow the answer to a query.
fn answer_length(line: &[u8]) -> Result<usize, SessionError> {
    let read = || match words(line)?.as_slice() {
        ["bytes", length] => length.parse().ok(),
        _ => None,
    };
    read().ok_or_else(|| no_answer(line))
}

/// The length of an image that may have changed, and the number of the ranges that have.
fn changes(line: &[u8]) -> Result<(usize, usize), SessionError> {
    let read = || match words(line)?.as_slice() {
        ["changes", length, count] => Some((length.parse().ok()?, count.parse().ok()?)),
        _ => None,
    };
    read().ok_or_else(|| no_answer(line))
}

/// A range of an image.
fn range(line: &[u8]) -> Option<Range<usize>> {
    match words(line)?.as_slice() {
        [start, count] => {
            let start: usize = start.parse().ok()?;
            Some(start..start.checked_add(count.parse().ok()?)?)
        }
        _ => None,
    }
}

/// Whether a session takes this as an object's name.
pub fn is_name(name: &[u8]) -> bool {
    (1..=MAX_OBJECT_NAME).contains(&name.len()) && name.iter().all(|byte| (0x21..=0x7E).contains(byte))
}
