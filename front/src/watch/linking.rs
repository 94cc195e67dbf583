//! How a watch links: as `ldi link`, or as `ld.ldi` if the arguments or the inputs need that. This depends on arguments
//! and files alone, so that a watch that is started anew makes the same image.

use std::path::PathBuf;
use std::process::ExitStatus;
use std::time::Duration;

use bstr::{BString, ByteSlice};

use super::arguments::Words;
use super::as_ld::{listed, AsLd, Made, Said};
use super::inputs::{Changed, Inputs};
use super::output_files::{Image, ImageFault};
use super::plain::Plain;
use super::stops::Stops;
use super::usage::{Sizes, Usage};
use crate::plan::{find_program, Environment};
use crate::report::{refusals_of_object, Diagnostic, RefusedInput};
use crate::session_client::{Refusal, SessionClient, SessionError, Target};
use crate::snapshot::Bytes;

/// How long a session may give no answer before it is taken for one that has ended.
const PATIENCE: Duration = Duration::from_secs(600);
/// Sessions that ended one after the other, without an image between, after which the next waits for a period.
const MAX_ENDS: usize = 3;
/// The refusal of a script that is none of the profile (docs/manual.md, 'Refusals').
const NOT_A_SCRIPT: u32 = 5;

/// Inputs that are refused: the name of each, and its message.
pub(super) type Refusals = Vec<(String, Diagnostic)>;

/// The outcome of a search.
#[derive(Debug)]
pub(super) enum Found {
    /// All inputs that are needed are there.
    Ready,
    /// An input is missing: its name, and why, if it is none of the inputs.
    NotThere(Option<(String, String)>),
    /// The inputs make no link.
    Refused(Refusals),
}

/// What the session says of the link.
#[derive(Debug)]
pub(super) enum Outcome {
    /// The link has an image.
    Image,
    /// The link has faults.
    Faults(Vec<Diagnostic>),
    /// Inputs are refused.
    Refused(Refusals),
    /// Another search would find another script.
    Again,
}

#[derive(Clone, Copy, PartialEq, Eq, Debug)]
enum Mode {
    Plain,
    AsLd,
}

/// A session, and what it is to hold.
#[derive(Debug)]
pub(super) struct Linking {
    pub(super) client: SessionClient,
    /// Whether memory was refused.
    pub(super) is_out_of_memory: bool,
    /// The status with which the session ended last.
    pub(super) status: Option<ExitStatus>,
    /// How many edits were accepted so far.
    pub(super) edits: usize,
    environment: Environment,
    mode: Mode,
    plain: Plain,
    as_ld: AsLd,
    /// The script that the session refused, which is not of the profile.
    outside: Option<Bytes>,
    /// Whether it is none of GNU ld either.
    is_none: bool,
    ends: usize,
    /// The sizes of the image that was put in place last.
    sizes: Option<Sizes>,
}

impl Linking {
    pub(super) fn new(words: &Words) -> Linking {
        let environment: Environment = std::env::vars_os().collect();
        Linking {
            client: SessionClient::new(find_program("ldi", &environment), Some(PATIENCE)),
            is_out_of_memory: false,
            status: None,
            edits: 0,
            environment,
            mode: if words.is_ld { Mode::AsLd } else { Mode::Plain },
            plain: Plain::default(),
            as_ld: AsLd::default(),
            outside: None,
            is_none: false,
            ends: 0,
            sizes: None,
        }
    }

    /// Finds what the link is made of now.
    ///
    /// # Errors
    /// If the session gives no answer.
    pub(super) fn find(
        &mut self,
        words: &Words,
        inputs: &mut Inputs,
        changed: &Changed,
        stops: &Stops,
    ) -> Result<Found, SessionError> {
        if let Changed::Bytes(paths) = changed {
            if self.take_bytes(words, inputs, paths) {
                inputs.is_anew = false;
                return Ok(Found::Ready);
            }
        }
        inputs.is_anew = true;
        self.find_anew(words, inputs, stops)
    }

    /// Takes other bytes of inputs; `false` if all is to be found anew.
    fn take_bytes(&mut self, words: &Words, inputs: &mut Inputs, paths: &[PathBuf]) -> bool {
        match self.mode {
            Mode::Plain => self.plain.take_bytes(words, &inputs.snapshot, paths) && !self.plain.has_archives,
            Mode::AsLd => {
                let is_script = !words.is_ld && paths.contains(&words.script);
                !is_script && self.as_ld.take_bytes(inputs, paths)
            }
        }
    }

    fn find_anew(&mut self, words: &Words, inputs: &mut Inputs, stops: &Stops) -> Result<Found, SessionError> {
        inputs.begin_anew();
        if !words.is_ld {
            let script = inputs.snapshot.read(&words.script).ok();
            if script != self.outside {
                self.outside = None;
                self.is_none = false;
            }
            if self.outside.is_none() || self.is_none {
                self.mode = Mode::Plain;
                let found = self.plain.find(words, inputs);
                if !self.plain.has_archives {
                    return Ok(found);
                }
            }
            inputs.begin_anew();
        }
        self.mode = Mode::AsLd;
        let found = self.as_ld.find(words, &self.environment, inputs, &mut self.client);
        self.note_session(stops);
        let found = found?;
        if self.outside.is_some() && self.as_ld.is_no_script {
            self.is_none = true;
            self.mode = Mode::Plain;
            inputs.begin_anew();
            return Ok(self.plain.find(words, inputs));
        }
        Ok(found)
    }

    fn note_session(&self, stops: &Stops) {
        stops.set_session(self.client.session().map_or(0, |session| session.process()));
    }

    /// Brings the session in step with what was found.
    ///
    /// # Errors
    /// If the session gives no answer.
    pub(super) fn sync(&mut self, words: &Words, stops: &Stops) -> Result<Outcome, SessionError> {
        let outcome = match self.mode {
            Mode::Plain => self.bring_plain(words, stops)?,
            Mode::AsLd => {
                let (said, edits) = self.as_ld.sync(words, &self.environment, &mut self.client)?;
                self.edits += edits;
                self.is_out_of_memory = self.as_ld.is_out_of_memory;
                match said {
                    Said::Image => Outcome::Image,
                    Said::Refused(refusals) => Outcome::Refused(refusals),
                    Said::Faults => Outcome::Faults(self.as_ld.faults(&self.client.faults()?)),
                }
            }
        };
        self.note_session(stops);
        if matches!(outcome, Outcome::Faults(_)) {
            self.ends = 0;
        }
        Ok(outcome)
    }

    fn bring_plain(&mut self, words: &Words, stops: &Stops) -> Result<Outcome, SessionError> {
        let plain = &self.plain;
        self.client.start(&plain.options)?;
        self.note_session(stops);
        let wanted = Target { options: &plain.options, objects: &plain.held, script: &plain.sent };
        let brought = self.client.sync(wanted)?;
        self.edits += brought.accepted;
        let mut refusals = Refusals::new();
        self.is_out_of_memory = brought.refused.iter().any(|(_, refusal)| refusal.is_memory());
        for (index, refusal) in &brought.refused {
            refusals.extend(plain.refused_object(*index, *refusal, &self.environment));
        }
        for (name, refusal) in &brought.not_removed {
            self.is_out_of_memory |= refusal.is_memory();
            refusals.extend(not_removed(name, *refusal, &self.environment));
        }
        if let Some(refusal) = brought.script_refused {
            self.is_out_of_memory |= refusal.is_memory();
            if refusal.number == NOT_A_SCRIPT && self.outside.is_none() {
                self.outside = Some(plain.script.clone());
                self.is_none = false;
                return Ok(Outcome::Again);
            }
            refusals.extend(plain.refused_script(words, refusal, &self.environment));
        }
        if !refusals.is_empty() {
            return Ok(Outcome::Refused(refusals));
        }
        if brought.is_good {
            return Ok(Outcome::Image);
        }
        let faults = self.client.faults()?;
        Ok(Outcome::Faults(self.plain.faults(words, &faults)))
    }

    /// Writes the image beside its place, and the map likewise; gives the message of the link.
    ///
    /// # Errors
    /// If the session gives no answer, a file cannot be written, or `ld.ldi` would make no such image.
    pub(super) fn write_image(&mut self, words: &Words, image: &mut Image) -> Result<Option<Report>, ImageFault> {
        if self.mode == Mode::Plain {
            image.write_image(&mut self.client)?;
            image.write_map(&mut self.client, None)?;
            return Ok(None);
        }
        let data = self.client.image()?;
        let map = if self.as_ld.wants_map() || image.wants_map() { Some(self.client.map()?) } else { None };
        match self.as_ld.make(words, data, map.as_deref().unwrap_or_default(), &mut self.client)? {
            Made::Refused(lines) => Err(ImageFault::Refused(listed(&words.script, lines))),
            Made::File(file, lines) => {
                image.prepare(&file)?;
                image.write_map(&mut self.client, map)?;
                self.client.reuse(file.into_image());
                Ok(Some(Report { script: self.as_ld.script(), lines }))
            }
        }
    }

    /// The image was put in place: forgets how often the session ended.
    pub(super) fn note_published(&mut self) {
        self.ends = 0;
        self.sizes = self.own_sizes();
    }

    /// How the next image changes sizes.
    pub(super) fn usage(&self) -> Usage {
        self.own_sizes().map_or_else(Usage::default, |sizes| sizes.since(self.sizes.as_ref()))
    }

    fn own_sizes(&self) -> Option<Sizes> {
        match self.mode {
            Mode::Plain => None,
            Mode::AsLd => self.as_ld.sizes(),
        }
    }

    /// The session has ended by itself; gives how.
    pub(super) fn ended(&mut self, stops: &Stops) -> Option<ExitStatus> {
        stops.set_session(0);
        self.ends += 1;
        self.client.end();
        self.status = self.client.last_status();
        self.status
    }

    /// Whether sessions end one after the other.
    pub(super) fn ends_always(&self) -> bool {
        self.ends >= MAX_ENDS
    }
}

/// The messages of an object that is none of the link and that the session did not take out, or move.
pub(super) fn not_removed(name: &BString, refusal: Refusal, environment: &Environment) -> Refusals {
    let ldi = find_program("ldi", environment);
    let input = RefusedInput { name: name.as_bstr(), refusal, data: None, ldi: &ldi };
    refusals_of_object(&input, None).into_iter().map(|one| (name.to_str_lossy().into_owned(), one)).collect()
}

/// What there is to say of a link of `ld.ldi`.
#[derive(Clone, PartialEq, Eq, Debug)]
pub(super) struct Report {
    pub(super) script: PathBuf,
    pub(super) lines: Vec<String>,
}
