//! The commands of a watch: that of `--make`, which runs when sources change, and that of `--run`, which runs after
//! each image.

use std::io;
use std::path::{Path, PathBuf};
use std::time::{Duration, Instant};

use super::arguments::Words;
use super::commands::{how_ended, Command};
use super::events::{Event, Kind, NotWatched, Watcher};
use super::jobserver::Jobserver;
use super::making::Making;
use super::reporter::{NoOutput, Reporter};
use super::sources::Sources;
use super::stops::Stops;
use super::working_folder::WorkingFolder;
use crate::publish::is_beside;

/// How long `--make`'s command runs before that is said.
const LONG_RUN: Duration = Duration::from_secs(10);

/// Starts and ends the commands.
#[derive(Debug)]
pub(super) struct Commands {
    making: Option<Making>,
    runner: Option<Command>,
    /// When the run was started of which it is said that it is long.
    long: Option<Instant>,
}

impl Commands {
    /// Begins to watch the sources, if there is a command for them.
    ///
    /// # Errors
    /// If the system watches no more folders.
    pub(super) fn new(
        words: &Words,
        jobserver: &Jobserver,
        watcher: &mut Watcher,
        folder: &WorkingFolder,
    ) -> Result<Commands, NotWatched> {
        let command = |text: &String| Command::new(text, words.is_json, jobserver);
        let making = match &words.make {
            Some(text) => Some(Making::new(command(text), Sources::new(&words.sources, &folder.path), watcher)?),
            None => None,
        };
        Ok(Commands { making, runner: words.run.as_ref().map(command), long: None })
    }

    /// Notes an event; gives whether `--make`'s command is to run for it. `written` are the paths of what is written
    /// here.
    ///
    /// # Errors
    /// If the system watches no more folders.
    pub(super) fn note_event(
        &mut self,
        event: &Event,
        written: &[PathBuf],
        watcher: &mut Watcher,
    ) -> Result<bool, NotWatched> {
        let is_own = event.path.file_name().map_or(false, is_beside) || written.contains(&event.path);
        let is_none = match event.kind {
            Kind::Touched => true,
            Kind::Writing => !event.is_folder,
            Kind::Whole | Kind::Gone => false,
        };
        match &mut self.making {
            Some(making) if !is_own && !is_none => making.note_change(&event.path, watcher),
            _ => Ok(false),
        }
    }

    /// Whether a file is a source of `--make`'s command.
    pub(super) fn has_source(&self, path: &Path) -> bool {
        self.making.as_ref().map_or(false, |making| making.sources.has(path))
    }

    /// Looks at all sources; says whether one has changed.
    ///
    /// # Errors
    /// If the system watches no more folders.
    pub(super) fn look_at_sources(&mut self, watcher: &mut Watcher) -> Result<bool, NotWatched> {
        self.making.as_mut().map_or(Ok(false), |making| making.look_at_sources(watcher))
    }

    /// Says how `--run`'s command ended, if it has failed by now.
    ///
    /// # Errors
    /// If standard output cannot be written.
    pub(super) fn say_ended(&mut self, reporter: &Reporter) -> Result<(), NoOutput> {
        if let Some(runner) = &mut self.runner {
            if let Some(status) = runner.ended().filter(|status| !status.success()) {
                reporter.report_command_end(&runner.text, status)?;
            }
        }
        Ok(())
    }

    /// How `--make`'s command ended, if it has by now; `finish` is called when the events are taken that are there.
    pub(super) fn make_ended(&mut self) -> Option<std::process::ExitStatus> {
        self.making.as_mut()?.command.ended()
    }

    /// Deals with the end of `--make`'s command.
    pub(super) fn finish(&mut self, status: std::process::ExitStatus) {
        if let Some(making) = &mut self.making {
            making.finish(status);
        }
    }

    /// Says why the command is run though nothing seems to have changed.
    fn say_why(making: &Making, reporter: &Reporter) -> Result<(), NoOutput> {
        for path in &making.paused_for {
            let name = making.sources.name(path);
            let text = format!(
                "it has changed in each of the last runs of `{}`, which is run once more; --sources '!{name}' leaves \
                 it out, if the command writes it",
                making.command.text
            );
            reporter.note(&name, &text)?;
        }
        Ok(())
    }

    /// When there is something to do, though nothing happens.
    pub(super) fn time(&self) -> Option<Instant> {
        let making = self.making.as_ref()?;
        if making.is_running {
            return making.command.started.filter(|_| making.command.started != self.long).map(|at| at + LONG_RUN);
        }
        making.due.filter(|_| making.is_wanted)
    }

    /// Whether a pause has ended, or the command runs for long.
    pub(super) fn is_due(&self, now: Instant) -> bool {
        self.time().map_or(false, |when| when <= now)
    }

    /// Starts `--make`'s command if it is wanted; gives the message of one that has failed, or takes long.
    ///
    /// # Errors
    /// If the command cannot be started, or standard output cannot be written.
    pub(super) fn start(&mut self, reporter: &Reporter) -> Result<Option<(String, String)>, StartFault> {
        let making = match &mut self.making {
            Some(making) => making,
            None => return Ok(None),
        };
        if making.is_wanted && !making.is_running && !making.pauses() {
            Commands::say_why(making, reporter)?;
            making.start()?;
        }
        let name = format!("`{}`", making.command.text);
        if making.is_running {
            let started = making.command.started.filter(|started| Instant::now() >= *started + LONG_RUN);
            self.long = started.or(self.long);
            return Ok(started.map(|_| (name, format!("it still runs after {} s", LONG_RUN.as_secs()))));
        }
        Ok(making.failed.map(|status| (name, how_ended(status))))
    }

    /// Whether the objects are made, as far as `--make`'s command does that.
    pub(super) fn is_made(&self) -> bool {
        self.making.as_ref().map_or(true, Making::is_done)
    }

    /// Whether the last run of `--make`'s command failed.
    pub(super) fn has_failed(&self) -> bool {
        self.making.as_ref().map_or(false, |making| making.failed.is_some())
    }

    /// Starts `--run`'s command for a new image; what ran before is ended.
    ///
    /// # Errors
    /// If the command cannot be started.
    pub(super) fn run(&mut self) -> io::Result<()> {
        match &mut self.runner {
            Some(runner) => {
                runner.end();
                runner.start()
            }
            None => Ok(()),
        }
    }

    /// Waits for the end of `--run`'s command.
    pub(super) fn wait(&mut self, stops: &Stops) {
        if let Some(runner) = &mut self.runner {
            runner.wait(stops);
        }
    }

    /// Ends all that was started.
    pub(super) fn end(&mut self) {
        self.runner.iter_mut().for_each(Command::end);
        self.making.iter_mut().for_each(|making| making.command.end());
    }
}

/// Why a command was not started.
#[derive(Debug, thiserror::Error)]
pub(super) enum StartFault {
    /// The system cannot start it.
    #[error("/bin/sh: {}", crate::report::os_message(.0))]
    System(#[from] io::Error),
    /// What there is to say cannot be printed.
    #[error(transparent)]
    NoOutput(#[from] NoOutput),
}
