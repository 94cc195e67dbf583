//! The loop: waits for events, brings the session in step with the files, and puts the image in place.
//!
//! The rule of truth: the image is put in place only if the session's link has no fault, no input is refused,
//! missing or being written, and each input's file is still what was last read of it. `place` alone does so.

use std::io;
use std::os::unix::io::{AsFd, AsRawFd};
use std::path::PathBuf;
use std::time::{Duration, Instant};

use nix::errno::Errno;
use nix::poll::{poll, PollFd, PollFlags};

use super::arguments::Words;
use super::commands::how_ended;
use super::event_timer::EventTimer;
use super::events::NotWatched;
use super::inputs::{Inputs, MAX_WRITING};
use super::jobserver::Jobserver;
use super::linking::{Found, Linking, Outcome, Refusals};
use super::output_files::{Image, ImageFault};
use super::reported::{Reported, BEFORE_SAID};
use super::reporter::{Good, NoOutput, Reporter, State};
use super::running::{Commands, StartFault};
use super::stops::Stops;
use super::working_folder::WorkingFolder;
use crate::once::Status;
use crate::publish::NotWritten;
use crate::report::os_message;
use crate::session_client::SessionError;

/// How often a step begins anew as a file changed meanwhile, before it waits for rest.
const MAX_ROUNDS: usize = 3;

/// What ends a watch.
#[derive(Debug, thiserror::Error)]
pub(super) enum WatchFault {
    #[error(transparent)]
    NotWatched(#[from] NotWatched),
    #[error(transparent)]
    NoOutput(#[from] NoOutput),
    #[error(transparent)]
    NotStarted(#[from] StartFault),
    #[error("the linker `{program}` cannot be started: {}; LDI=PATH names another", os_message(.fault))]
    NoSession { program: String, fault: io::Error },
    #[error("{}", os_message(.0))]
    System(#[from] io::Error),
    #[error("out of memory")]
    Memory,
}

impl WatchFault {
    pub(super) fn status(&self) -> Status {
        match self {
            WatchFault::Memory => Status::Memory,
            _ => Status::Device,
        }
    }
}

/// A session over files, and the image that it keeps up to date.
pub(super) struct Watch<'a> {
    words: &'a Words,
    stops: &'a Stops,
    reporter: Reporter,
    folder: WorkingFolder,
    inputs: Inputs,
    linking: Linking,
    image: Image,
    written: Vec<PathBuf>,
    commands: Commands,
    timer: EventTimer,
    reported: Reported,
    is_out_of_memory: bool,
}

impl<'a> Watch<'a> {
    /// Begins to watch the folders of sources and outputs.
    ///
    /// # Errors
    /// If a folder cannot be watched.
    pub(super) fn new(words: &'a Words, stops: &'a Stops, jobserver: &Jobserver) -> Result<Watch<'a>, WatchFault> {
        let folder = WorkingFolder::new();
        let mut inputs = Inputs::new();
        let image = Image::new(words);
        let written = image.paths();
        let commands = Commands::new(words, jobserver, &mut inputs.watcher, &folder)?;
        for folder in written.iter().filter_map(|path| path.parent()) {
            inputs.watcher.watch(folder)?;
        }
        Ok(Watch {
            words,
            stops,
            reporter: Reporter::new(words.is_json, &words.image),
            folder,
            inputs,
            linking: Linking::new(words),
            image,
            written,
            commands,
            timer: EventTimer::new(Instant::now()),
            reported: Reported::new(),
            is_out_of_memory: false,
        })
    }

    /// Runs until a signal, or with `--once` until there is something to end with; gives the exit status.
    ///
    /// # Errors
    /// If a folder cannot be watched, the session or a command cannot be started, standard output cannot be written, or
    /// memory runs out.
    pub(super) fn run(&mut self) -> Result<u8, WatchFault> {
        loop {
            if let Some(status) = self.by_signal() {
                return Ok(status);
            }
            self.wait()?;
            if let Some(status) = self.by_signal() {
                return Ok(status);
            }
            self.turn()?;
            if self.words.is_once && self.by_signal().is_none() && self.is_finished() {
                let status = self.status_of_once() as u8;
                return Ok(self.by_signal().unwrap_or(status));
            }
        }
    }

    /// The status after a signal that ends the program.
    fn by_signal(&self) -> Option<u8> {
        self.stops.ending().map(|signal| if self.words.is_once { 128 + signal } else { 0 })
    }

    /// Ends all that was started, and removes what is half written.
    pub(super) fn end(&mut self) {
        self.image.drop_prepared();
        self.commands.end();
        self.stops.set_session(0);
        self.linking.client.end();
    }

    fn turn(&mut self) -> Result<(), WatchFault> {
        let now = Instant::now();
        self.commands.say_ended(&self.reporter)?;
        if let Some(status) = self.commands.make_ended() {
            self.drain()?;
            self.commands.finish(status);
            self.timer.note_urgent(now);
        }
        if self.commands.is_due(now) {
            self.timer.note_urgent(now);
        }
        for path in self.inputs.give_up(now) {
            self.timer.note(now);
            let why = format!("its writer has not closed it for {} s: read as it is", MAX_WRITING.as_secs());
            self.reporter.note(&path.display().to_string(), &why)?;
        }
        let is_free = self.timer.first.is_none() || self.inputs.watcher.is_disturbed;
        if now >= self.timer.next_look && is_free {
            self.look_at_all(now)?;
        }
        if self.timer.due().map_or(false, |due| now >= due) {
            self.timer.begin();
            let done = self.step();
            self.image.drop_prepared();
            self.timer.end();
            match done {
                Ok(()) => {}
                Err(StepFault::Session(fault)) => self.restart(fault)?,
                Err(StepFault::Watch(fault)) => return Err(fault),
            }
        }
        if self.timer.first.is_none() {
            // else what was gathered may make it another state
            self.reported.say_in_time(Instant::now(), &mut self.reporter)?;
        }
        Ok(())
    }

    // waiting

    /// Waits for events, signals, the session's end, or the next thing to do.
    fn wait(&mut self) -> Result<(), WatchFault> {
        let mut times: Vec<Instant> = self.inputs.silent_from().into_iter().collect();
        match self.timer.due() {
            Some(due) => times.push(due),
            None => {
                times.push(self.timer.next_look);
                times.extend(self.reported.time());
                times.extend(self.commands.time());
            }
        }
        let now = Instant::now();
        let next = times.into_iter().min().map_or(Duration::ZERO, |next| next.saturating_duration_since(now));
        let timeout = if self.inputs.watcher.is_disturbed { 0 } else { (next.as_micros() as i32 + 999) / 1000 };
        // A descriptor of -1 is passed over (poll(2)).
        let events = self.inputs.watcher.descriptor().map_or(-1, AsRawFd::as_raw_fd);
        let session = self.linking.client.session().map_or(-1, |session| session.as_fd().as_raw_fd());
        let mut sources =
            [self.stops.as_raw_fd(), events, session].map(|source| PollFd::new(source, PollFlags::POLLIN));
        match poll(&mut sources, timeout) {
            Ok(_) | Err(Errno::EINTR) => {}
            Err(fault) => return Err(WatchFault::System(fault.into())),
        }
        let [_, has_events, has_ended] = sources.map(|source| source.revents().map_or(true, |found| !found.is_empty()));
        self.stops.drain();
        if has_events {
            self.drain()?;
        }
        if has_ended && self.by_signal().is_none() {
            self.restart(SessionError::Ended)?;
        }
        Ok(())
    }

    /// Takes the events that are there; if some may be missing, all is looked at next.
    fn drain(&mut self) -> Result<(), WatchFault> {
        loop {
            let (places, commands) = (&self.inputs.places, &self.commands);
            let asks = |path: &std::path::Path| !places.at(path).is_empty() || commands.has_source(path);
            let events = self.inputs.watcher.read(&asks)?;
            let now = Instant::now();
            if self.inputs.watcher.is_disturbed {
                self.timer.next_look = now;
            }
            if events.is_empty() {
                return Ok(());
            }
            for event in events {
                let is_of_input = self.inputs.note_event(&event, now);
                if is_of_input || self.commands.note_event(&event, &self.written, &mut self.inputs.watcher)? {
                    self.timer.note_event(now);
                } else if self.written.contains(&event.path) {
                    self.timer.look_by(now + BEFORE_SAID);
                }
            }
        }
    }

    /// Looks at all inputs, folders and outputs, for events that the system lost.
    fn look_at_all(&mut self, now: Instant) -> Result<(), WatchFault> {
        self.timer.note_look(now);
        let is_renewed = self.folder.enter_renewed();
        if is_renewed {
            let name = self.folder.path.display().to_string();
            self.reporter.note(&name, "another folder has this name now: the watch goes on in that one")?;
        }
        self.written = self.image.paths();
        let is_disturbed = self.inputs.watcher.watch_renewed()? | self.inputs.watcher.is_disturbed | is_renewed;
        self.inputs.watcher.is_disturbed = false;
        let mut has_changed = is_disturbed && self.commands.look_at_sources(&mut self.inputs.watcher)?;
        has_changed |= self.inputs.look_at_all()?;
        has_changed |= self.look_at_outputs()?;
        if has_changed {
            self.timer.note(now);
        }
        Ok(())
    }

    /// Looks at image and map; gives whether they are to be written: as they could not be, or one was removed. One that
    /// another program has overwritten stays until the next change, which is reported.
    fn look_at_outputs(&mut self) -> Result<bool, WatchFault> {
        match self.reported.state {
            Some(State::Good(_)) => {}
            Some(State::Waiting(_)) => return Ok(true),
            _ => return Ok(false),
        }
        for path in self.image.overwritten_by_others() {
            let why = "another program has written it; it stays so until the next change";
            self.reporter.note(&path.display().to_string(), why)?;
        }
        Ok(self.image.any_removed())
    }

    // one step

    fn set(&mut self, state: State, is_at_once: bool) -> Result<(), WatchFault> {
        Ok(self.reported.set(state, is_at_once, &mut self.reporter)?)
    }

    /// Reads what has changed, sends it, and puts the image in place, as far as the rule of truth allows.
    fn step(&mut self) -> Result<(), StepFault> {
        if self.folder.is_left() {
            self.look_at_all(Instant::now())?;
        }
        if let Some(reason) = self.commands.start(&self.reporter)? {
            self.set(State::Waiting(vec![reason]), true)?;
        }
        if !self.commands.is_made() {
            return Ok(());
        }
        for _ in 0..MAX_ROUNDS {
            match self.round()? {
                Round::Done => return Ok(()),
                Round::Changed if self.inputs.watcher.is_disturbed => self.look_at_all(Instant::now())?,
                Round::Changed => {}
                Round::Again => self.inputs.search_anew(),
            }
        }
        self.timer.note(Instant::now());
        Ok(())
    }

    fn round(&mut self) -> Result<Round, StepFault> {
        let changed = self.inputs.read()?;
        let found = self.linking.find(self.words, &mut self.inputs, &changed, self.stops)?;
        self.inputs.end_search(!matches!(found, Found::NotThere(_)))?;
        let mut waiting = self.inputs.waiting();
        self.is_out_of_memory |= self.inputs.is_out_of_memory;
        if self.inputs.is_out_of_memory {
            return Err(WatchFault::Memory.into());
        }
        let refused = match found {
            Found::Ready => None,
            Found::Refused(refusals) => Some(refusals),
            Found::NotThere(reason) => {
                waiting.extend(reason.filter(|_| waiting.is_empty()));
                None
            }
        };
        if !waiting.is_empty() {
            self.set(State::Waiting(waiting), false)?;
            return Ok(Round::Done);
        }
        if let Some(refusals) = refused {
            return self.set_refused(refusals);
        }
        let edits = self.linking.edits;
        let (linking, words, stops) = (&mut self.linking, self.words, self.stops);
        let outcome = self.inputs.look_beside(|| linking.sync(words, stops))?;
        if self.linking.edits != edits {
            self.image.is_current = false;
        }
        match outcome {
            Outcome::Again => Ok(Round::Again),
            Outcome::Refused(refusals) => self.set_refused(refusals),
            _ if self.find_changes()? => Ok(Round::Changed),
            Outcome::Faults(faults) => {
                self.image.is_current = false;
                let after = self.inputs.after.iter().cloned().collect();
                self.set(State::Faulty(faults, after), !self.timer.is_eager)?;
                self.inputs.after.clear();
                Ok(Round::Done)
            }
            Outcome::Image => self.publish(),
        }
    }

    fn set_refused(&mut self, refusals: Refusals) -> Result<Round, StepFault> {
        self.set(State::Refused(refusals), false)?;
        Ok(Round::Done)
    }

    // the image

    /// Puts the image in place if it is the truth of all files; begins anew if something changed meanwhile.
    fn publish(&mut self) -> Result<Round, StepFault> {
        if self.image.is_current && self.image.are_placed() {
            if !matches!(self.reported.state, Some(State::Good(_))) {
                let good = self.good_state(false);
                self.set(good, true)?;
            }
            self.inputs.after.clear();
            return Ok(Round::Done);
        }
        match self.try_publish() {
            Ok(round) => Ok(round),
            Err(PublishFault::Image(ImageFault::Session(fault))) => Err(fault.into()),
            Err(PublishFault::Image(ImageFault::Refused(refusals))) => self.set_refused(refusals),
            Err(PublishFault::Image(ImageFault::NotWritten(NotWritten { path, fault }))) => {
                let why = format!("it cannot be written: {}", os_message(&fault));
                self.set(State::Waiting(vec![(path.display().to_string(), why)]), false)?;
                Ok(Round::Done)
            }
            Err(PublishFault::Watch(fault)) => Err(fault.into()),
        }
    }

    fn try_publish(&mut self) -> Result<Round, PublishFault> {
        let (linking, image, words) = (&mut self.linking, &mut self.image, self.words);
        let report = self.inputs.look_beside(|| linking.write_image(words, image))?;
        if self.find_changes()? {
            return Ok(Round::Changed);
        }
        if self.stops.ending().is_some() {
            return Ok(Round::Done);
        }
        let is_written = !self.image.adopt_if_same();
        let is_new = !self.image.is_current;
        if is_written {
            self.image.commit(self.stops)?;
        }
        let good = self.good_state(is_written);
        if is_written {
            if let Err(fault) = self.image.write_gdb(self.stops) {
                let why = format!("it cannot be written: {}", os_message(&fault.fault));
                self.reporter.note(&fault.path.display().to_string(), &why).map_err(WatchFault::from)?;
            }
        }
        self.image.note_published();
        self.linking.note_published();
        if let Some(report) = report {
            self.reporter.report_adapted(report).map_err(WatchFault::from)?;
        }
        self.set(good, true)?;
        if is_written && is_new {
            // else it was put back
            self.commands.run().map_err(|fault| WatchFault::from(StartFault::from(fault)))?;
        }
        Ok(Round::Done)
    }

    /// Takes the events; gives whether a file is not what was last read of it, and is to be read again.
    fn find_changes(&mut self) -> Result<bool, WatchFault> {
        self.drain()?;
        if self.inputs.watcher.is_disturbed {
            self.timer.next_look = Instant::now();
            return Ok(true);
        }
        Ok(self.inputs.are_dirty())
    }

    /// The state after a good link; the names of changed inputs are taken for it.
    fn good_state(&mut self, is_written: bool) -> State {
        let milliseconds = self.timer.last.elapsed().as_secs_f64() * 1000.0;
        let after = std::mem::take(&mut self.inputs.after).into_iter().collect();
        let usage = self.linking.usage();
        State::Good(Good { after, milliseconds, length: self.image.length, is_written, usage })
    }

    // the session's end

    /// The session has ended: the next step starts another, and compares its first image with the one on disk.
    fn restart(&mut self, fault: SessionError) -> Result<(), WatchFault> {
        if self.by_signal().is_some() {
            return Ok(());
        }
        if let SessionError::NotStarted { program, error } = fault {
            return Err(WatchFault::NoSession { program: program.to_string_lossy().into_owned(), fault: error });
        }
        let status = self.linking.ended(self.stops);
        self.image.compare_next();
        if self.linking.ends_always() {
            return self.set(State::Waiting(vec![("the session".into(), "it ends again and again".into())]), true);
        }
        let how = status.map_or_else(|| "ended".to_owned(), how_ended);
        self.reporter.report_restart(&format!("the session {how}"))?;
        self.timer.note_urgent(Instant::now());
        Ok(())
    }

    // --once

    fn is_finished(&self) -> bool {
        let is_still = !self.inputs.has_writers() && self.timer.first.is_none();
        self.linking.ends_always() || is_still && self.reported.is_said
    }

    /// The exit status, by the state that stands.
    fn status_of_once(&mut self) -> Status {
        match self.reported.state {
            Some(State::Good(_)) => {
                self.commands.wait(self.stops);
                return Status::Good;
            }
            Some(State::Faulty(..)) => return Status::Faults,
            Some(State::Refused(_)) if self.linking.is_out_of_memory => return Status::Memory,
            Some(State::Refused(_)) => return Status::Refused,
            _ => {}
        }
        let status = self.linking.status.and_then(|status| Status::of(u8::try_from(status.code()?).ok()?));
        match status {
            _ if self.commands.has_failed() => Status::Faults,
            Some(status @ (Status::Refused | Status::Memory)) => status,
            _ => Status::Device,
        }
    }
}

/// The outcome of a round of a step.
enum Round {
    /// The state is set.
    Done,
    /// A file changed meanwhile.
    Changed,
    /// All inputs are to be found anew.
    Again,
}

/// What ends a step.
#[derive(Debug, thiserror::Error)]
enum StepFault {
    #[error(transparent)]
    Session(#[from] SessionError),
    #[error(transparent)]
    Watch(WatchFault),
}

impl<F: Into<WatchFault>> From<F> for StepFault {
    fn from(fault: F) -> StepFault {
        StepFault::Watch(fault.into())
    }
}

/// What ends the placing of an image.
enum PublishFault {
    Image(ImageFault),
    Watch(WatchFault),
}

impl From<ImageFault> for PublishFault {
    fn from(fault: ImageFault) -> PublishFault {
        PublishFault::Image(fault)
    }
}

impl From<NotWritten> for PublishFault {
    fn from(fault: NotWritten) -> PublishFault {
        PublishFault::Image(fault.into())
    }
}

impl From<WatchFault> for PublishFault {
    fn from(fault: WatchFault) -> PublishFault {
        PublishFault::Watch(fault)
    }
}
