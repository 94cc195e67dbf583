//! Commands that people give: the one that makes the objects, and the one that runs after each new image.

use std::io;
use std::os::unix::io::AsFd;
use std::os::unix::process::ExitStatusExt;
use std::process::{Child, Command as Process, ExitStatus, Stdio};
use std::time::{Duration, Instant};

use super::group::{in_own_group, signal_group};
use super::jobserver::Jobserver;
use super::stops::Stops;

/// How long a command has to end after SIGTERM.
const GRACE: Duration = Duration::from_secs(2);
/// How often it is looked whether a command has ended, if no signal says so.
const LOOK: Duration = Duration::from_millis(20);

/// A command of the shell in a process group of its own. Its standard output may be sent to standard error.
#[derive(Debug)]
pub(super) struct Command {
    pub(super) text: String,
    /// When it was started last.
    pub(super) started: Option<Instant>,
    goes_to_errors: bool,
    jobserver: Jobserver,
    process: Option<Child>,
}

impl Command {
    pub(super) fn new(text: &str, goes_to_errors: bool, jobserver: &Jobserver) -> Command {
        Command { text: text.into(), started: None, goes_to_errors, jobserver: jobserver.clone(), process: None }
    }

    /// Starts the command.
    pub(super) fn start(&mut self) -> io::Result<()> {
        self.started = Some(Instant::now());
        let mut process = Process::new("/bin/sh");
        process.arg("-c").arg(&self.text).stdin(Stdio::null());
        if self.goes_to_errors {
            process.stdout(Stdio::from(io::stderr().as_fd().try_clone_to_owned()?));
        }
        process.envs(self.jobserver.variables.iter().map(|(name, value)| (name, value)));
        in_own_group(&mut process);
        self.process = Some(process.spawn()?);
        Ok(())
    }

    /// The command's status, once, if it has ended by now.
    pub(super) fn ended(&mut self) -> Option<ExitStatus> {
        let status = self.process.as_mut()?.try_wait().ok().flatten()?;
        self.process = None;
        Some(status)
    }

    /// Waits for its end, or that of this program.
    pub(super) fn wait(&mut self, stops: &Stops) {
        while self.process.is_some() && stops.ending().is_none() {
            if self.ended().is_none() {
                stops.wait(LOOK);
            }
        }
    }

    /// Ends it and what it started: SIGTERM, and SIGKILL after a while.
    pub(super) fn end(&mut self) {
        let process = match &mut self.process {
            Some(process) => process,
            None => return,
        };
        signal_group(process.id(), libc::SIGTERM);
        let until = Instant::now() + GRACE;
        while matches!(process.try_wait(), Ok(None)) && Instant::now() < until {
            std::thread::sleep(Duration::from_millis(2));
        }
        signal_group(process.id(), libc::SIGKILL);
        let _ = process.wait();
        self.process = None;
    }
}

/// How a process ended.
pub(super) fn how_ended(status: ExitStatus) -> String {
    match (status.code(), status.signal()) {
        (Some(code), _) => format!("ended with status {code}"),
        (None, Some(signal)) => format!("ended by signal {signal}"),
        (None, None) => "ended".into(),
    }
}
