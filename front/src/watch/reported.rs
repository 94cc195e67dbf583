//! The state that a watch is in, and since when: a state that may pass is reported only if it lasts.

use std::time::{Duration, Instant};

use super::reporter::{NoOutput, Reporter, State};

/// How long an input stays refused or away before it is said.
pub(super) const BEFORE_SAID: Duration = Duration::from_millis(300);

/// The state, and whether it was said.
#[derive(Debug)]
pub(super) struct Reported {
    pub(super) state: Option<State>,
    pub(super) is_said: bool,
    since: Instant,
}

impl Reported {
    pub(super) fn new() -> Reported {
        Reported { state: None, is_said: false, since: Instant::now() }
    }

    /// Makes this the state; it is said now, or if it stays.
    ///
    /// # Errors
    /// If standard output cannot be written.
    pub(super) fn set(&mut self, state: State, is_at_once: bool, reporter: &mut Reporter) -> Result<(), NoOutput> {
        if self.state.as_ref() != Some(&state) || matches!(state, State::Good(_)) {
            self.state = Some(state);
            self.since = Instant::now();
            self.is_said = false;
        }
        match is_at_once && !self.is_said {
            true => self.say(reporter),
            false => Ok(()),
        }
    }

    /// When the state is to be said, if it is not yet.
    pub(super) fn time(&self) -> Option<Instant> {
        self.state.as_ref().filter(|_| !self.is_said).map(|_| self.since + BEFORE_SAID)
    }

    /// Says the state if it stood for long enough.
    ///
    /// # Errors
    /// If standard output cannot be written.
    pub(super) fn say_in_time(&mut self, now: Instant, reporter: &mut Reporter) -> Result<(), NoOutput> {
        match self.time().map_or(false, |time| now >= time) {
            true => self.say(reporter),
            false => Ok(()),
        }
    }

    fn say(&mut self, reporter: &mut Reporter) -> Result<(), NoOutput> {
        if let Some(state) = &self.state {
            reporter.say(state)?;
        }
        self.is_said = true;
        Ok(())
    }
}
