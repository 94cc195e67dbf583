//! When events came, and when they are handled.

use std::time::{Duration, Instant};

/// How long there is no event in a burst before those before are dealt with.
const QUIET: Duration = Duration::from_millis(15);
/// After so much rest an event is dealt with at once.
const REST: Duration = Duration::from_millis(200);
/// How long events are gathered though others still come.
const MAX_GATHERING: Duration = Duration::from_millis(200);
/// How often all inputs are looked at, for events that the system lost.
const PERIOD: Duration = Duration::from_secs(1);

/// When the events that are gathered are dealt with, and when all inputs are looked at.
#[derive(Debug)]
pub(super) struct EventTimer {
    /// When the first of them came; `None` if there is nothing to deal with.
    pub(super) first: Option<Instant>,
    /// When the last event came.
    pub(super) last: Instant,
    /// When all is looked at.
    pub(super) next_look: Instant,
    /// Whether they are dealt with at once, as there was rest before.
    is_urgent: bool,
    /// Whether the step that is made now was for an event after rest, of which others may follow.
    pub(super) is_eager: bool,
}

impl EventTimer {
    pub(super) fn new(now: Instant) -> EventTimer {
        EventTimer { first: Some(now), last: now, next_look: now + PERIOD, is_urgent: true, is_eager: false }
    }

    /// Notes an event of a file.
    pub(super) fn note_event(&mut self, now: Instant) {
        if self.first.is_none() && now.saturating_duration_since(self.last) >= REST {
            self.is_urgent = true;
            self.is_eager = true;
        } else if self.first.is_some() {
            self.is_urgent &= self.is_eager;
        }
        self.last = now;
        self.note(now);
    }

    /// Notes that there is something to deal with, from now on if there was nothing before.
    pub(super) fn note(&mut self, now: Instant) {
        self.first = self.first.or(Some(now));
    }

    /// Notes that there is something to deal with at once.
    pub(super) fn note_urgent(&mut self, now: Instant) {
        self.is_urgent = true;
        self.note(now);
    }

    /// When the events that were gathered are dealt with.
    pub(super) fn due(&self) -> Option<Instant> {
        let first = self.first?;
        Some(if self.is_urgent { first } else { (self.last + QUIET).min(first + MAX_GATHERING) })
    }

    /// Notes that the events are dealt with now.
    pub(super) fn begin(&mut self) {
        self.first = None;
        self.is_urgent = false;
    }

    /// Notes that the step has ended.
    pub(super) fn end(&mut self) {
        self.is_eager = false;
    }

    /// Notes that all inputs were looked at.
    pub(super) fn note_look(&mut self, now: Instant) {
        self.next_look = now + PERIOD;
    }

    /// Sets the time by which all inputs are looked at.
    pub(super) fn look_by(&mut self, when: Instant) {
        self.next_look = self.next_look.min(when);
    }
}

#[cfg(test)]
mod tests {
    use super::{EventTimer, MAX_GATHERING, QUIET, REST};
    use std::time::{Duration, Instant};

    fn after_rest() -> (EventTimer, Instant) {
        let now = Instant::now();
        let mut timer = EventTimer::new(now);
        timer.begin();
        (timer, now + REST)
    }

    #[test]
    fn an_event_after_rest_is_dealt_with_at_once_and_a_burst_is_gathered() {
        let (mut timer, now) = after_rest();
        timer.note_event(now);
        assert_eq!((timer.due(), timer.is_eager), (Some(now), true));
        timer.begin();
        timer.end();
        let next = now + Duration::from_millis(3);
        timer.note_event(next);
        assert_eq!((timer.due(), timer.is_eager), (Some(next + QUIET), false));
        for _ in 0..30 {
            timer.note_event(timer.last + Duration::from_millis(10));
        }
        assert_eq!(timer.due(), Some(next + MAX_GATHERING));
    }

    #[test]
    fn the_end_of_a_command_is_dealt_with_at_once() {
        let (mut timer, now) = after_rest();
        timer.note_urgent(now);
        assert_eq!(timer.due(), Some(now));
    }
}
