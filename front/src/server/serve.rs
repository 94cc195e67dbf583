//! The loop of a server: takes calls one at a time, shows that it works, and ends when it is no longer wanted.
//!
//! The first thread only waits and answers; another one makes the links. So a second call is told at once that the
//! server is busy, and a call that hears nothing knows that the server is stopped.

use std::ffi::OsString;
use std::fs;
use std::io::{self, Read, Write};
use std::os::unix::ffi::OsStrExt;
use std::os::unix::io::{AsFd, AsRawFd};
use std::os::unix::net::{UnixListener, UnixStream};
use std::path::{Path, PathBuf};
use std::sync::atomic::{AtomicU32, Ordering};
use std::sync::mpsc::{channel, Receiver, Sender};
use std::sync::Arc;
use std::time::{Duration, Instant};

use rustix::io::{poll, PollFd, PollFlags};
use signal_hook::consts::{SIGHUP, SIGINT, SIGTERM};

use super::call::{is_own, seconds_of};
use super::host::NewFiles;
use super::key::{mounts, output_of, program_marks, real_path, sockets, value_of};
use super::links::{LinkRequest, Links, Outcome};
use super::status::{ask, State};
use super::usage::{memory_limit, resident, work_of};
use super::wire::{Kind, Message, Reader};
use crate::once::Status;
use crate::plan::Environment;
use crate::publish::remove_left;
use crate::report::Style;
use crate::snapshot::{stat, FileId, Stamp};

/// Seconds without a call, after which a server ends; LDI_SERVER_IDLE has others.
const IDLE: f64 = 600.0;
/// The time after which it looks whether it is still wanted.
const PERIOD: Duration = Duration::from_secs(1);
/// The time after which a call hears again that its link is being made.
const HEARTBEAT: Duration = Duration::from_millis(30);
/// The time that a call has to put its files in place.
const PUBLISH_TIMEOUT: Duration = Duration::from_secs(10);
/// The time in which neither a link's threads nor its session have worked, after which it is given up, and the server.
const STALL_TIMEOUT: Duration = Duration::from_secs(5);
/// The time that a call has to say what it wants. Nobody waits for it, and on a busy machine it may not run for a
/// while.
const REQUEST_TIMEOUT: Duration = Duration::from_secs(10);
/// The time in which a message goes on that has begun, and in which a call takes what came of its link.
const READ_TIMEOUT: Duration = Duration::from_secs(1);
/// The time in which a call takes a sign.
const WRITE_TIMEOUT: Duration = Duration::from_millis(100);
/// The bytes of the stack of the thread that links, as the system's first thread has at least.
const STACK: usize = 16 << 20;

/// The program that a call starts: the listening socket is its standard input, the word is the path of that.
pub fn main(words: &[OsString]) -> u8 {
    let path = match words {
        [path] => PathBuf::from(path),
        _ => return Status::Refused as u8,
    };
    let environment: Environment = std::env::vars_os().collect();
    // A server that cannot start has ended; the call that started it links by itself.
    match detached().and_then(|listener| Server::new(path, listener, environment)) {
        Ok(mut server) => {
            server.run();
            server.end();
            Status::Good as u8
        }
        Err(_) => Status::Device as u8,
    }
}

/// The socket; the standard streams lead nowhere, and nothing else is open that the build may wait for.
fn detached() -> io::Result<UnixListener> {
    let listener = std::io::stdin().as_fd().try_clone_to_owned()?;
    let nowhere = fs::OpenOptions::new().read(true).write(true).open("/dev/null")?;
    nix::unistd::dup2(nowhere.as_raw_fd(), 0)?;
    let own = [listener.as_raw_fd(), nowhere.as_raw_fd()];
    let names = fs::read_dir("/proc/self/fd")?.flatten().map(|entry| entry.file_name());
    let numbers: Vec<i32> = names.filter_map(|name| name.to_str()?.parse().ok()).collect();
    for number in numbers.into_iter().filter(|number| *number > 2 && !own.contains(number)) {
        let _ = nix::unistd::close(number); // that of the list itself is closed
    }
    // It is none if the call has set it apart already.
    let _ = rustix::process::setsid();
    let listener = UnixListener::from(listener);
    listener.set_nonblocking(true)?;
    Ok(listener)
}

/// A call that has not said what it wants, and until when it has to.
struct Asking {
    connection: UnixStream,
    until: Instant,
}

/// A call that is being served.
struct Job {
    connection: UnixStream,
    /// Until when its new files have to be in place.
    placing: Option<Instant>,
    /// What was done for it when that was last another number, and when.
    work: Vec<String>,
    last_progress: Instant,
    /// When the server last looked for that.
    last_poll: Instant,
}

impl Job {
    fn new(connection: UnixStream) -> Job {
        let now = Instant::now();
        Job { connection, placing: None, work: Vec::new(), last_progress: now, last_poll: now }
    }
}

/// A server, from its start to its end.
struct Server {
    path: PathBuf,
    own: Option<FileId>,
    listener: UnixListener,
    wake: UnixStream,
    /// A signal came where something can be read.
    signals: UnixStream,
    requests: Sender<LinkRequest>,
    outcomes: Receiver<Outcome>,
    files: NewFiles,
    session: Arc<AtomicU32>,
    environment: Environment,
    /// The key of its calls, and the output.
    key: Option<(Vec<u8>, PathBuf, Option<FileId>)>,
    mounts: Vec<Vec<u8>>,
    programs: Vec<(PathBuf, Option<Stamp>)>,
    asking: Vec<Asking>,
    job: Option<Job>,
    /// The links that were made.
    made: u64,
    last_call: Instant,
    /// The bytes that it held when it last looked at all servers together.
    held: u64,
    is_ending: bool,
}

impl Server {
    fn new(path: PathBuf, listener: UnixListener, environment: Environment) -> io::Result<Server> {
        let (signals, raised) = UnixStream::pair()?;
        for signal in [SIGTERM, SIGINT, SIGHUP] {
            signal_hook::low_level::pipe::register(signal, raised.try_clone()?)?;
        }
        let (wake, waker) = UnixStream::pair()?;
        wake.set_nonblocking(true)?;
        let (requests, incoming) = channel();
        let (made, outcomes) = channel();
        let links = Links::new(environment.clone());
        let (session, files) = (links.session(), links.files());
        let work = move || links_of(links, &incoming, &made, &waker);
        std::thread::Builder::new().stack_size(STACK).spawn(work)?;
        Ok(Server {
            own: file_id(&path),
            path,
            listener,
            wake,
            signals,
            requests,
            outcomes,
            files,
            session,
            programs: program_marks(&environment),
            environment,
            key: None,
            mounts: mounts()?,
            asking: Vec::new(),
            job: None,
            made: 0,
            last_call: Instant::now(),
            held: 0,
            is_ending: false,
        })
    }

    fn run(&mut self) {
        while !self.is_ending {
            if self.turn().is_err() {
                self.is_ending = true;
            }
        }
    }

    /// Waits for a call, the end of a link, or time to look.
    fn turn(&mut self) -> io::Result<()> {
        let is_working = self.job.as_ref().map_or(false, |job| job.placing.is_none());
        let mut waited = vec![
            PollFd::new(&self.listener, PollFlags::IN),
            PollFd::new(&self.wake, PollFlags::IN),
            PollFd::new(&self.signals, PollFlags::IN),
        ];
        let placing = self.job.iter().filter(|job| job.placing.is_some()).map(|job| &job.connection);
        let is_placing = placing.clone().next().is_some();
        let asking = self.asking.iter().map(|call| &call.connection);
        waited.extend(placing.chain(asking).map(|connection| PollFd::new(connection, PollFlags::IN)));
        let limit = if is_working { HEARTBEAT } else { PERIOD };
        match poll(&mut waited, limit.as_millis() as i32) {
            Err(rustix::io::Errno::INTR) => return Ok(()),
            done => done?,
        };
        let ready: Vec<bool> = waited.iter().map(|one| !one.revents().is_empty()).collect();
        drop(waited);
        let is_ready = |number: usize| ready.get(number).copied().unwrap_or(false);
        if is_ready(2) {
            self.is_ending = true;
            return Ok(());
        }
        if is_ready(1) {
            let mut bytes = [0; 64];
            while matches!(self.wake.read(&mut bytes), Ok(count) if count > 0) {}
        }
        self.advance_job(is_placing && is_ready(3));
        if is_ready(0) {
            self.accept();
        }
        if !self.is_ending {
            self.read_requests();
        }
        if self.job.is_none() && !self.is_ending {
            self.look_for_end();
        }
        Ok(())
    }

    // a call

    /// Takes a connection, which may say later what it wants.
    fn accept(&mut self) {
        if let Ok((connection, _)) = self.listener.accept() {
            let until = Instant::now() + REQUEST_TIMEOUT;
            self.asking.extend(is_own(&connection).then_some(Asking { connection, until }));
        }
    }

    /// Takes the calls that say now what they want; those are given up that say nothing.
    fn read_requests(&mut self) {
        let now = Instant::now();
        for call in std::mem::take(&mut self.asking) {
            if is_readable(&call.connection) {
                // What is wrong with a call is its own business.
                let _ = self.serve_call(call.connection);
            } else if now <= call.until {
                self.asking.push(call);
            }
        }
    }

    fn serve_call(&mut self, connection: UnixStream) -> io::Result<()> {
        connection.set_nonblocking(false)?;
        connection.set_read_timeout(Some(READ_TIMEOUT))?;
        connection.set_write_timeout(Some(WRITE_TIMEOUT))?;
        let message = Message::receive(&connection)?;
        match message.kind {
            Kind::Status => self.state().message().send(&connection),
            Kind::Stop => {
                self.is_ending = true;
                self.state().message().send(&connection)
            }
            Kind::Link => self.begin(connection, message),
            _ => Ok(()),
        }
    }

    /// Begins the link of a call.
    fn begin(&mut self, connection: UnixStream, message: Message) -> io::Result<()> {
        if self.job.as_ref().map_or(false, |job| job.placing.is_some()) {
            self.finish(); // what is not in place by now never is: that call links by itself
        }
        let mut reader = Reader::of(message);
        let parts = (|| Some((reader.text()?, reader.number()?, reader.number::<u8>()?)))();
        let (key, mask, is_coloured) = parts.ok_or(io::ErrorKind::InvalidData)?;
        let words: Vec<OsString> = reader.rest().iter().map(|word| std::ffi::OsStr::from_bytes(word).into()).collect();
        if self.job.is_some() {
            return Message::of(Kind::Refused).with("it is busy with another call").send(&connection);
        }
        if let Some(why) = self.why_not_ours(&key) {
            return Message::of(Kind::Refused).with(why).send(&connection);
        }
        if self.key.is_none() {
            let output = real_path(&output_of(&words));
            remove_left(&output);
            let folder = output.parent().and_then(file_id);
            self.key = Some((key, output, folder));
        }
        let style = if is_coloured == 0 { Style::Line } else { Style::Coloured };
        Message::of(Kind::Working).send(&connection)?;
        self.job = Some(Job::new(connection));
        self.requests.send(LinkRequest { words, mask, style }).map_err(|_| io::ErrorKind::BrokenPipe.into())
    }

    /// Why a call is not this server's.
    fn why_not_ours(&mut self, key: &[u8]) -> Option<&'static str> {
        let is_own_key = self.key.as_ref().map_or(true, |(own, ..)| own == key);
        if program_marks(&self.environment) != self.programs {
            self.is_ending = is_own_key;
            return Some("it is of another version");
        }
        let is_here = mounts().map_or(false, |now| now == self.mounts);
        (!is_own_key || !is_here).then_some("it serves another folder")
    }

    /// Shows that the link is being made, or hands over what came of it, or clears up after the call.
    fn advance_job(&mut self, is_ready: bool) {
        let now = Instant::now();
        let job = match &mut self.job {
            Some(job) => job,
            None => return,
        };
        if let Some(until) = job.placing {
            if is_ready || now > until {
                self.finish();
            }
            return;
        }
        match self.outcomes.try_recv() {
            Ok(outcome) => self.hand_over(outcome),
            Err(_) if rests(job, self.session.load(Ordering::SeqCst), now) => {
                self.is_ending = true;
                let _ = Message::of(Kind::Refused).with("its link hangs").send(&job.connection);
            }
            // If the call has gone, its link goes on all the same.
            Err(_) => drop(Message::of(Kind::Working).send(&job.connection)),
        }
    }

    fn hand_over(&mut self, outcome: Outcome) {
        self.made += u64::from(outcome.is_made);
        if self.made == 0 {
            // Without a link that it could keep there is no server; its socket is gone before the call is.
            self.is_ending = true;
            self.remove_socket();
        }
        if let Some(job) = &mut self.job {
            let is_patient = job.connection.set_write_timeout(Some(READ_TIMEOUT)).is_ok();
            let is_sent = is_patient && outcome.message.send(&job.connection).is_ok();
            let is_placed = outcome.is_made && is_sent;
            job.placing = Some(Instant::now() + PUBLISH_TIMEOUT);
            if !is_placed {
                self.finish();
            }
        }
    }

    fn finish(&mut self) {
        self.job = None;
        self.files.remove();
        self.last_call = Instant::now();
        let limit = memory_limit(&value_of(&self.environment, "LDI_SERVER_MEMORY"));
        if self.made > 1 && self.memory() > limit {
            self.is_ending = true;
        }
        self.share();
    }

    // whether it is wanted

    /// Ends if the socket or the folder is gone or another's, other programs are there, or no call comes.
    fn look_for_end(&mut self) {
        let idle = seconds_of(&value_of(&self.environment, "LDI_SERVER_IDLE"), IDLE);
        let folder = self.key.as_ref().map_or(true, |(_, output, id)| output.parent().and_then(file_id) == *id);
        let is_wanted = self.last_call.elapsed() <= idle
            && file_id(&self.path) == self.own
            && folder
            && program_marks(&self.environment) == self.programs;
        self.is_ending = !is_wanted;
    }

    /// Has the oldest servers end if all hold too much together; looks again when it holds an eighth more.
    fn share(&mut self) {
        let held = self.memory();
        if held <= self.held + (self.held >> 3) {
            return;
        }
        self.held = held;
        let limit = memory_limit(&value_of(&self.environment, "LDI_SERVER_MEMORY"));
        let (path, left) = (self.path.clone(), limit.saturating_sub(held));
        // Without a thread the others stay as they are.
        let _ = std::thread::Builder::new().spawn(move || end_oldest(&path, left));
    }

    fn state(&self) -> State {
        State {
            output: self.key.as_ref().map_or_else(PathBuf::new, |(_, output, _)| output.clone()),
            folder: std::env::current_dir().unwrap_or_default(),
            process: std::process::id(),
            calls: self.made.saturating_sub(1),
            memory: self.memory(),
            idle: u64::try_from(self.last_call.elapsed().as_micros()).unwrap_or(u64::MAX),
            is_busy: self.job.is_some(),
        }
    }

    /// The bytes that the server and its session hold.
    fn memory(&self) -> u64 {
        resident(std::process::id()) + resident(self.session.load(Ordering::SeqCst))
    }

    // the end

    fn remove_socket(&self) {
        if self.own.is_some() && file_id(&self.path) == self.own {
            let _ = fs::remove_file(&self.path);
        }
    }

    /// Removes the socket and files that were not put in place, and ends the session and this process.
    fn end(&mut self) {
        self.remove_socket();
        self.files.close();
        let session = self.session.load(Ordering::SeqCst);
        if let Some(session) = i32::try_from(session).ok().filter(|number| *number > 0) {
            // One that is stopped does not see the end of its input.
            let _ = nix::sys::signal::kill(nix::unistd::Pid::from_raw(session), nix::sys::signal::Signal::SIGKILL);
        }
        std::process::exit(0)
    }
}

/// Makes links as they are wished.
fn links_of(mut links: Links, incoming: &Receiver<LinkRequest>, made: &Sender<Outcome>, mut waker: &UnixStream) {
    for request in incoming {
        let is_sent = made.send(links.make(&request)).is_ok();
        if !is_sent || waker.write_all(b"w").is_err() {
            return;
        }
    }
}

/// Whether nothing has worked on a link for long, for example if its session was stopped. The time in which the server
/// itself was stopped does not count.
fn rests(job: &mut Job, session: u32, now: Instant) -> bool {
    let work = work_of(session);
    let was_stopped = now.duration_since(std::mem::replace(&mut job.last_poll, now)) > PERIOD;
    if was_stopped || work != job.work {
        job.work = work;
        job.last_progress = now;
    }
    now.duration_since(job.last_progress) > STALL_TIMEOUT
}

/// Whether something can be read from a connection, or its end, at once.
fn is_readable(connection: &UnixStream) -> bool {
    poll(&mut [PollFd::new(connection, PollFlags::IN)], 0).map_or(false, |count| count > 0)
}

fn file_id(path: &Path) -> Option<FileId> {
    stat(path).ok().map(|found| Stamp::of(&found).id)
}

/// Leaves so many bytes to the other servers: those that were not called for longest end.
fn end_oldest(own: &Path, mut left: u64) {
    let folder = own.parent().unwrap_or_else(|| Path::new("."));
    let others = sockets(folder).into_iter().filter(|path| path != own);
    let mut found: Vec<(u64, u64, PathBuf)> = others
        .filter_map(|path| {
            let state = ask(&path, Kind::Status).ok()??;
            (!state.is_busy).then_some((state.idle, state.memory, path))
        })
        .collect();
    found.sort();
    for (_, memory, path) in found {
        match left.checked_sub(memory) {
            Some(rest) => left = rest,
            None => {
                left = 0;
                // One that gives no answer ends for another reason.
                let _ = ask(&path, Kind::Stop);
            }
        }
    }
}

#[cfg(test)]
mod tests {
    use super::*;

    /// A server at a socket, which is asked by the test; both are removed after it.
    struct Asked {
        server: Server,
        path: PathBuf,
    }

    impl Asked {
        fn new(name: &str) -> Asked {
            let path = std::env::temp_dir().join(format!("ldi-front-serve-{}-{name}", std::process::id()));
            let listener = UnixListener::bind(&path).unwrap();
            listener.set_nonblocking(true).unwrap();
            let environment = Environment::from([("LDI".into(), "/nowhere/ldi".into())]);
            Asked { server: Server::new(path.clone(), listener, environment).unwrap(), path }
        }

        /// Sends a message, and has the server take it.
        fn send(&mut self, message: Message) -> UnixStream {
            let stream = UnixStream::connect(&self.path).unwrap();
            message.send(&stream).unwrap();
            self.server.turn().unwrap();
            stream.set_read_timeout(Some(Duration::from_secs(20))).unwrap();
            stream
        }

        /// A wish for a link of no inputs.
        fn request(&mut self, key: &str) -> UnixStream {
            self.send(Message::of(Kind::Link).with(key).with("18").with("0").with("-o").with("/nowhere/image"))
        }

        /// Has the server work until it ends; gives whether it did in time.
        fn ends(&mut self) -> bool {
            let until = Instant::now() + Duration::from_secs(60);
            while !self.server.is_ending && Instant::now() < until {
                self.server.turn().unwrap();
            }
            self.server.is_ending
        }
    }

    impl Drop for Asked {
        fn drop(&mut self) {
            let _ = fs::remove_file(&self.path);
        }
    }

    #[test]
    fn it_says_how_it_is() {
        let mut asked = Asked::new("status");
        let stream = asked.send(Message::of(Kind::Status));
        let texts = Message::receive(&stream).unwrap().texts;
        let process = std::process::id().to_string();
        assert!(texts.iter().any(|text| *text == process.as_bytes()), "{texts:?}");
        assert!(!asked.server.is_ending && asked.server.job.is_none());
    }

    #[test]
    fn it_ends_when_it_is_asked_to_or_its_socket_is_gone() {
        let mut asked = Asked::new("stop");
        let stream = asked.send(Message::of(Kind::Stop));
        assert!(Message::receive(&stream).is_ok());
        assert!(asked.server.is_ending);
        let mut asked = Asked::new("gone");
        asked.server.look_for_end();
        assert!(!asked.server.is_ending);
        fs::remove_file(&asked.path).unwrap();
        asked.server.look_for_end();
        assert!(asked.server.is_ending);
    }

    #[test]
    fn a_second_call_is_told_that_it_is_busy() {
        let mut asked = Asked::new("busy");
        let (here, _there) = UnixStream::pair().unwrap();
        asked.server.job = Some(Job::new(here));
        let stream = asked.request("key");
        assert_eq!(Message::receive(&stream).unwrap().kind, Kind::Refused);
        assert!(asked.server.job.is_some());
    }

    #[test]
    fn a_call_of_another_key_is_not_its_own() {
        let mut asked = Asked::new("key");
        asked.server.key = Some((b"key".to_vec(), "/nowhere/image".into(), None));
        let stream = asked.request("other");
        assert_eq!(Message::receive(&stream).unwrap().kind, Kind::Refused);
        assert!(asked.server.job.is_none() && !asked.server.is_ending);
    }

    #[test]
    fn a_call_that_speaks_late_is_heard_and_nobody_waits_for_it() {
        let mut asked = Asked::new("late");
        let late = UnixStream::connect(&asked.path).unwrap();
        asked.server.turn().unwrap();
        let stream = asked.send(Message::of(Kind::Status));
        assert!(Message::receive(&stream).is_ok());
        std::thread::sleep(Duration::from_millis(300));
        Message::of(Kind::Status).send(&late).unwrap();
        asked.server.turn().unwrap();
        late.set_read_timeout(Some(Duration::from_secs(20))).unwrap();
        assert!(Message::receive(&late).is_ok());
        assert!(asked.server.asking.is_empty());
    }

    #[test]
    fn a_call_that_says_nothing_is_given_up() {
        let mut asked = Asked::new("silent");
        let silent = UnixStream::connect(&asked.path).unwrap();
        asked.server.turn().unwrap();
        assert_eq!(asked.server.asking.len(), 1);
        asked.server.asking.iter_mut().for_each(|call| call.until = Instant::now() - Duration::from_millis(1));
        asked.server.read_requests();
        assert!(asked.server.asking.is_empty() && !asked.server.is_ending);
        assert!(Message::receive(&silent).is_err());
    }

    #[test]
    fn without_a_link_that_it_could_keep_it_ends() {
        let mut asked = Asked::new("nothing");
        let stream = asked.request("key");
        assert_eq!(Message::receive(&stream).unwrap().kind, Kind::Working);
        assert!(asked.ends());
        let last = std::iter::repeat_with(|| Message::receive(&stream).unwrap()).find(|one| one.kind != Kind::Working);
        assert_eq!(last.map(|message| message.kind), Some(Kind::Refused));
        assert!(!asked.path.exists(), "its socket is gone before the call is");
    }

    #[test]
    fn what_is_no_message_is_passed_over() {
        let mut asked = Asked::new("bytes");
        let stream = UnixStream::connect(&asked.path).unwrap();
        (&stream).write_all(b"GET / HTTP/1.0\r\n\r\n").unwrap();
        asked.server.turn().unwrap();
        let stream = asked.send(Message::of(Kind::Link).with("key"));
        assert!(Message::receive(&stream).is_err(), "it has too few parts");
        assert!(!asked.server.is_ending);
    }

    #[test]
    fn a_link_goes_on_as_long_as_something_works_on_it() {
        let (here, _there) = UnixStream::pair().unwrap();
        let now = Instant::now();
        let later = now + STALL_TIMEOUT + Duration::from_millis(1);
        let mut job = Job { work: vec!["of before".into()], last_progress: now, last_poll: later, ..Job::new(here) };
        assert!(!rests(&mut job, 0, later));
        assert_eq!(job.last_progress, later);
        assert_ne!(job.work, ["of before"]);
    }

    #[test]
    fn a_server_that_was_stopped_lets_its_link_go_on() {
        let (here, _there) = UnixStream::pair().unwrap();
        let mut job = Job::new(here);
        let later = job.last_poll + 2 * STALL_TIMEOUT;
        assert!(!rests(&mut job, 0, later));
        assert_eq!((job.last_progress, job.last_poll), (later, later));
    }
}
