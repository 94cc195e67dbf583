//! The state of the session of `ldi` (order, bytes and script), and the fewest edits that bring it to that of a link.

mod answered;
mod edits;
mod session;

use std::ffi::OsString;
use std::fs::File;
use std::process::ExitStatus;
use std::sync::atomic::{AtomicU32, Ordering};
use std::sync::Arc;
use std::time::Duration;

use bstr::BString;

use crate::fast_map::FastMap;
use crate::profile::limits::MAX_PAYLOAD;
use crate::snapshot::Bytes;
pub use answered::SessionImage;
pub use session::{is_name, Answer, Edit, Linked, Options, Orphans, Query, Refusal, Session, SessionError, TakeError};

/// The most rounds of edits before it gives up.
const MAX_ROUNDS: usize = 4;

/// An object as a session has it.
#[derive(Clone, PartialEq, Eq, Debug)]
pub struct SessionObject {
    /// Its name in the session; no two of a link are equal.
    pub name: BString,
    /// Its bytes.
    pub data: Bytes,
}

/// What a session is to hold.
#[derive(Clone, Copy, Debug)]
pub struct Target<'a> {
    /// The options that it is started with.
    pub options: &'a Options,
    /// The objects in the order of the link.
    pub objects: &'a [SessionObject],
    /// The script.
    pub script: &'a [u8],
}

/// The outcome of bringing a session to what is wanted.
#[derive(Clone, PartialEq, Eq, Debug, Default)]
pub struct SyncOutcome {
    /// Whether the link is good, that is without faults.
    pub is_good: bool,
    /// The bytes of its image.
    pub length: u64,
    /// The objects that are refused, by their place in the link, in its order.
    pub refused: Vec<(usize, Refusal)>,
    /// Why the script is refused, if it is, which is not sent if objects are refused; or that memory ran out as
    /// all was linked.
    pub script_refused: Option<Refusal>,
    /// How many edits were sent.
    pub edits: usize,
    /// How many were accepted since the last link, after which the session has another one.
    pub accepted: usize,
    /// Edits of other objects or of the order that were refused, by the names of the objects: the session is not what
    /// is wanted, and the link is not good.
    pub not_removed: Vec<(BString, Refusal)>,
}

/// A session, started if one is needed, and what it holds.
#[derive(Debug)]
pub struct SessionClient {
    program: OsString,
    patience: Option<Duration>,
    session: Option<Session>,
    options: Options,
    state: State,
    last_status: Option<ExitStatus>,
    process: Arc<AtomicU32>,
    /// An earlier image: what is the same in the next one is not asked for.
    buffer: SessionImage,
    /// How many images were answered; the session that runs has answered the last one, or none.
    answers: u64,
}

/// What a session holds.
#[derive(Clone, Debug, Default)]
pub(crate) struct State {
    /// The names in their order.
    order: Vec<BString>,
    held: FastMap<BString, Bytes>,
    script: Option<Bytes>,
    /// The last link.
    last: Linked,
    /// Objects that it refused, and why: these bytes under this name are not sent again.
    refused: FastMap<BString, (Bytes, Refusal)>,
    /// Edits that were refused and say nothing of bytes, as of the last round.
    not_removed: Vec<(BString, Refusal)>,
    /// How many edits were accepted since the last link.
    accepted: usize,
}

impl SessionClient {
    /// A client of a session of this program, which is started by `sync`. A session that gives no answer for
    /// `patience` is taken for one that has ended.
    pub fn new(program: OsString, patience: Option<Duration>) -> SessionClient {
        SessionClient {
            program,
            patience,
            session: None,
            options: Options::default(),
            state: State::default(),
            last_status: None,
            process: Arc::default(),
            buffer: SessionImage::default(),
            answers: 0,
        }
    }

    /// Starts the session with these options, if it does not run with them already. It takes a while to get ready,
    /// which the caller may use.
    pub fn start(&mut self, options: &Options) -> Result<(), SessionError> {
        if self.session.is_none() || self.options != *options {
            self.end();
            let session = Session::start(&self.program, options, self.patience)?;
            self.process.store(session.process(), Ordering::SeqCst);
            self.session = Some(session);
            self.options = options.clone();
        }
        Ok(())
    }

    /// Brings the objects alone, and links nothing; a `sync` with the same ones follows.
    pub fn prepare(&mut self, options: &Options, objects: &[SessionObject]) -> Result<(), SessionError> {
        self.start(options)?;
        self.with_session(|session, state| send_objects(session, state, objects).map(|_| ()))
    }

    /// Sends what the session does not hold yet, has it linked, and gives what its last link came to. The session is
    /// started anew if the options are others. After an error it is ended, and the next call starts another one.
    pub fn sync(&mut self, wanted: Target<'_>) -> Result<SyncOutcome, SessionError> {
        self.start(wanted.options)?;
        self.with_session(|session, state| {
            let edits = send_objects(session, state, wanted.objects)?;
            let (refused, not_removed) = (refused_of(state, wanted.objects), state.not_removed.clone());
            let mut brought = SyncOutcome { edits, refused, not_removed, ..SyncOutcome::default() };
            let is_in_step = brought.refused.is_empty() && brought.not_removed.is_empty();
            if is_in_step && state.script.as_deref() != Some(wanted.script) {
                brought.script_refused = send_script(session, state, wanted.script)?;
                brought.edits += 1;
            }
            brought.accepted = state.accepted;
            let link_refused = link(session, state)?;
            let is_good = state.last.is_good && brought.not_removed.is_empty() && link_refused.is_none();
            let script_refused = brought.script_refused.or(link_refused);
            Ok(SyncOutcome { is_good, length: state.last.length, script_refused, ..brought })
        })
    }

    /// The image of the last link; empty if it has faults. If the image given back by [`SessionClient::reuse`] is the
    /// last answered one, only the changes are asked for.
    pub fn image(&mut self) -> Result<SessionImage, SessionError> {
        let buffer = std::mem::take(&mut self.buffer);
        let is_last = buffer.number != 0 && buffer.number == self.answers;
        self.answers += 1;
        let number = self.answers;
        self.with_session(|session, _| {
            let buffer = buffer.into_answer();
            if is_last {
                let (bytes, changed) = session.changes(buffer)?;
                return Ok(SessionImage::new(bytes, Some(changed), number));
            }
            Ok(SessionImage::new(session.query_into(Query::Image, buffer)?, None, number))
        })
    }

    /// Gives an image back, whose memory the next one has: what is the same in both stays there.
    pub fn reuse(&mut self, image: SessionImage) {
        self.buffer = image;
    }

    /// The map of the last link; empty if it has faults.
    pub fn map(&mut self) -> Result<Vec<u8>, SessionError> {
        self.query(Query::Map)
    }

    /// The fault lines of the last link; empty if it has none.
    pub fn faults(&mut self) -> Result<Vec<u8>, SessionError> {
        self.query(Query::Faults)
    }

    /// Moves the image of the last link to a file, without a copy here; gives its length.
    pub fn image_to(&mut self, file: &mut File) -> Result<usize, TakeError> {
        self.answers += 1;
        let session = self.session.as_mut().ok_or(SessionError::Ended)?;
        match session.image_to(file) {
            Err(TakeError::Session(error)) => {
                self.end();
                Err(error.into())
            }
            done => done,
        }
    }

    /// Has the session end, which is waited for when the client is dropped.
    pub fn ask_to_end(&mut self) {
        if let Some(session) = &mut self.session {
            session.ask_to_end();
        }
    }

    /// Ends the session.
    pub fn end(&mut self) {
        if let Some(session) = self.session.take() {
            self.last_status = session.kill();
        }
        self.process.store(0, Ordering::SeqCst);
        self.state = State::default();
        self.answers += 1; // the next session has answered nothing
    }

    /// Whether the session has ended by itself, for example if it was killed.
    pub fn has_ended(&mut self) -> bool {
        self.session.as_mut().map_or(false, Session::has_ended)
    }

    /// How the last session ended, which may have ended by itself.
    pub fn last_status(&self) -> Option<ExitStatus> {
        self.last_status
    }

    /// The session that runs, as for its memory.
    pub fn session(&self) -> Option<&Session> {
        self.session.as_ref()
    }

    /// Whether the session holds objects, as those of an earlier link.
    pub fn has_objects(&self) -> bool {
        !self.state.order.is_empty()
    }

    /// The number of the session's process, for other threads; 0 if there is none.
    pub fn process(&self) -> Arc<AtomicU32> {
        Arc::clone(&self.process)
    }

    /// The script that the session has.
    pub fn script(&self) -> Option<&[u8]> {
        self.state.script.as_deref()
    }

    fn query(&mut self, query: Query) -> Result<Vec<u8>, SessionError> {
        self.with_session(|session, _| session.query(query))
    }

    /// Does something with the session, and ends it if that fails.
    fn with_session<T>(
        &mut self,
        act: impl FnOnce(&mut Session, &mut State) -> Result<T, SessionError>,
    ) -> Result<T, SessionError> {
        let session = self.session.as_mut().ok_or(SessionError::Ended)?;
        let done = act(session, &mut self.state);
        if done.is_err() {
            self.end();
        }
        done
    }
}

/// Sets the script; gives why it is refused, if it is.
fn send_script(session: &mut Session, state: &mut State, script: &[u8]) -> Result<Option<Refusal>, SessionError> {
    if script.len() > MAX_PAYLOAD {
        return Ok(Some(Refusal::TOO_LONG));
    }
    match session.edit_one(Edit::Script(script))? {
        Answer::Accepted => {
            state.script = Some(Bytes::from(script.to_vec()));
            state.accepted += 1;
            Ok(None)
        }
        Answer::Refused(refusal) => Ok(Some(refusal)),
    }
}

/// Links what was accepted since the last link. `Some` if memory ran out; the next [`SessionClient::sync`] tries again.
fn link(session: &mut Session, state: &mut State) -> Result<Option<Refusal>, SessionError> {
    if state.accepted == 0 {
        return Ok(None);
    }
    match session.link()? {
        Ok(linked) => {
            state.last = linked;
            state.accepted = 0;
            Ok(None)
        }
        Err(refusal) => Ok(Some(refusal)),
    }
}

/// Sends the edits of objects; gives how many. If some are refused, the places of others may be wrong, and further
/// edits follow.
fn send_objects(session: &mut Session, state: &mut State, objects: &[SessionObject]) -> Result<usize, SessionError> {
    state.refused.retain(|name, (data, _)| objects.iter().any(|held| held.name == *name && held.data == *data));
    let mut count = 0;
    for _ in 0..MAX_ROUNDS {
        let changes = edits::between(state, objects);
        state.not_removed.clear();
        if changes.is_empty() {
            break;
        }
        count += changes.len();
        let sent: Vec<Edit<'_>> = changes.iter().filter_map(edits::Change::edit).collect();
        let answers = session.edit(&sent)?;
        edits::apply(state, &changes, &answers);
    }
    if edits::between(state, objects).is_empty() {
        state.not_removed.clear();
    }
    Ok(count)
}

/// The objects that are refused, in the order of the link.
fn refused_of(state: &State, objects: &[SessionObject]) -> Vec<(usize, Refusal)> {
    if state.refused.is_empty() {
        return Vec::new();
    }
    let refusal = |held: &SessionObject| state.refused.get(&held.name).map(|(_, refusal)| *refusal);
    objects.iter().enumerate().filter_map(|(index, held)| Some((index, refusal(held)?))).collect()
}

#[cfg(test)]
mod tests;
