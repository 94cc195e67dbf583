//! A link as of `ld.ldi`: archives, libraries, GNU ld's options and scripts, over the session that is kept.

use std::path::{Path, PathBuf};

use bstr::BString;

use super::arguments::Words;
use super::inputs::Inputs;
use super::linking::{not_removed, Found};
use super::listing::names_in;
use super::usage::Sizes;
use crate::adapted::{Note, NoteKind};
use crate::command::{path_of, read_command, Command, Input};
use crate::finish::{FileImage, LaidOut};
use crate::inputs::InputFault;
use crate::once::{
    file_of, messages, notes_of, plan_while_sending, section_outside, verdict, FileFault, LinkFault, DIFFERS,
};
use crate::plan::{self, Environment, LinkPlan, PlanFault, Scripts, ScriptsFault};
use crate::report::link_map::LinkMap;
use crate::report::Diagnostic;
use crate::session_client::{SessionClient, SessionError, SessionImage, SyncOutcome, Target};
use crate::snapshot::Snapshot;

/// A link of `ld.ldi` that is kept.
#[derive(Debug, Default)]
pub(super) struct AsLd {
    command: Command,
    plan: Option<LinkPlan>,
    /// Whether the script is none of GNU ld.
    pub(super) is_no_script: bool,
    /// Whether the image of this plan was compared with what GNU ld makes, and whether it is laid out so.
    is_compared: bool,
    agrees: bool,
    /// Whether memory was refused.
    pub(super) is_out_of_memory: bool,
}

/// The file of an image, or why there is none.
pub(super) enum Made {
    /// The file, and what there is to say of it.
    File(FileImage, Vec<String>),
    /// No file is made, as these lines say.
    Refused(Vec<String>),
}

/// What the kept session says to a plan.
pub(super) enum Said {
    /// The link has an image.
    Image,
    /// The link has faults.
    Faults,
    /// Inputs are refused.
    Refused(Vec<(String, Diagnostic)>),
}

impl AsLd {
    /// Takes other bytes of objects; `false` if all is to be found anew.
    pub(super) fn take_bytes(&mut self, inputs: &mut Inputs, changed: &[PathBuf]) -> bool {
        let mut plan = match self.plan.take() {
            Some(plan) => plan,
            None => return false,
        };
        let changed = &plan.take_lists(&inputs.snapshot, changed);
        if changed.is_empty() || plan.take_alike(&inputs.snapshot, changed) {
            self.plan = Some(plan);
            return true;
        }
        self.is_compared = false;
        self.plan = plan.replan(&self.command, &mut inputs.snapshot, changed);
        self.plan.is_some()
    }

    /// Finds all anew, while the session takes the objects.
    ///
    /// # Errors
    /// If the session gives no answer.
    pub(super) fn find(
        &mut self,
        words: &Words,
        environment: &Environment,
        inputs: &mut Inputs,
        client: &mut SessionClient,
    ) -> Result<Found, SessionError> {
        *self = AsLd::default();
        let loaded = self.load(words, environment, &mut inputs.snapshot);
        let found = match loaded {
            Ok(loaded) => loaded,
            Err(found) => return Ok(found),
        };
        if client.session().is_some() {
            // it has most of the objects already
            self.plan = Some(LinkPlan::new(&self.command, found));
            return Ok(Found::Ready);
        }
        self.plan = Some(plan_while_sending(&self.command, found, client)?);
        Ok(Found::Ready)
    }

    fn load(
        &mut self,
        words: &Words,
        environment: &Environment,
        snapshot: &mut Snapshot,
    ) -> Result<plan::Inputs, Found> {
        let refused = |text: String| refused_of(&words.script, [text]);
        let mut command = read_command(&words.as_ld).map_err(|fault| refused(fault.to_string()))?;
        if !command.impossible.is_empty() {
            return Err(refused(command.impossible.join("; ")));
        }
        with_lists(&mut command, snapshot)?;
        self.command = command;
        let scripts = match Scripts::read(&self.command, environment, snapshot) {
            Ok(scripts) => scripts,
            Err(ScriptsFault::NoScript(error)) => {
                self.is_no_script = true;
                let path = words.script.display().to_string();
                return Err(Found::Refused(vec![(path, Diagnostic::from(&error))]));
            }
            Err(fault @ ScriptsFault::Missing(_)) => return Err(not_there(fault.to_string())),
        };
        let loaded = plan::Inputs::load(&self.command, scripts, snapshot).map_err(|fault| match fault {
            fault @ PlanFault::Input(InputFault::Missing(_)) => not_there(fault.to_string()),
            fault => refused(fault.to_string()),
        })?;
        for path in [Some(&words.image), words.map.as_ref(), words.gdb.as_ref()].into_iter().flatten() {
            if snapshot.read_as(path).is_some() {
                return Err(refused(LinkFault::SameFile(path.display().to_string()).to_string()));
            }
        }
        Ok(loaded)
    }

    /// Brings the session in step.
    ///
    /// # Errors
    /// If the session gives no answer.
    pub(super) fn sync(
        &mut self,
        words: &Words,
        environment: &Environment,
        client: &mut SessionClient,
    ) -> Result<(Said, usize), SessionError> {
        let plan = match &self.plan {
            Some(plan) => plan,
            None => return Ok((Said::Refused(Vec::new()), 0)),
        };
        let is_left = plan.adapted.is_left();
        let script: &[u8] = if is_left { b"" } else { &plan.adapted.text };
        let brought = client.sync(Target { options: &plan.options, objects: plan.held(), script })?;
        let objects = brought.refused.iter().map(|(_, refusal)| refusal);
        let all = objects.chain(brought.not_removed.iter().map(|(_, refusal)| refusal)).chain(&brought.script_refused);
        self.is_out_of_memory = all.into_iter().any(|refusal| refusal.is_memory());
        let said = match refusals(plan, &brought, environment) {
            refused if !refused.is_empty() => Said::Refused(refused),
            _ if is_left => Said::Refused(listed(&words.script, lines_of_left(plan))),
            _ => match brought.script_refused {
                Some(refusal) => {
                    let path = plan.inputs.scripts.path.display().to_string();
                    let said = messages::of_script(plan, refusal, environment);
                    Said::Refused(said.into_iter().map(|one| (path.clone(), one)).collect())
                }
                None if brought.is_good => Said::Image,
                None => Said::Faults,
            },
        };
        Ok((said, brought.accepted))
    }

    /// The messages of faults.
    pub(super) fn faults(&self, faults: &[u8]) -> Vec<Diagnostic> {
        self.plan.as_ref().map_or_else(Vec::new, |plan| messages::of_faults(&self.command, plan, faults, None))
    }

    /// Whether the map is wanted to compare the next image.
    pub(super) fn wants_map(&self) -> bool {
        let collects = self.command.collects_sections;
        let wants = |plan: &LinkPlan| verdict::wants_map(plan, collects) || plan.may_differ();
        self.is_compared && !self.agrees || !self.is_compared && self.plan.as_ref().map_or(false, wants)
    }

    /// The sizes of the image, if they are asked for and known.
    pub(super) fn sizes(&self) -> Option<Sizes> {
        let is_asked = self.command.prints_memory_usage && self.agrees;
        let evaluation = self.plan.as_ref().filter(|_| is_asked)?.evaluation.as_ref().ok()?;
        Some(Sizes::of(evaluation))
    }

    /// The script as people know it.
    pub(super) fn script(&self) -> PathBuf {
        self.plan.as_ref().map_or_else(PathBuf::new, |plan| plan.inputs.scripts.path.clone())
    }

    /// Makes the file of an image that the session gave.
    ///
    /// # Errors
    /// If the session gives no answer.
    pub(super) fn make(
        &mut self,
        words: &Words,
        image: SessionImage,
        map: &[u8],
        client: &mut SessionClient,
    ) -> Result<Made, SessionError> {
        let plan = match &mut self.plan {
            Some(plan) => plan,
            None => return Ok(Made::Refused(Vec::new())),
        };
        let path = plan.inputs.scripts.path.display().to_string();
        let mut lines = Vec::new();
        let is_first = !self.is_compared;
        if is_first {
            lines.extend(messages::warnings(plan).iter().map(ToString::to_string));
            let verdict = match verdict::compare(plan, &image, map, false) {
                Ok(verdict) => verdict,
                Err(fault) => return Ok(Made::Refused(vec![fault.to_string()])),
            };
            self.agrees = verdict.agrees;
            lines.extend(verdict.lines.into_iter().map(|line| line.text));
            lines.extend(notes_of(&self.command, plan).into_iter().map(|note| format!("ld.ldi: {note}")));
            if verdict.differs {
                lines.push(format!("ld.ldi: {path}: {DIFFERS}"));
                return Ok(Made::Refused(lines));
            }
        }
        let pieces = if self.agrees { None } else { LinkMap::read(map).ok() };
        Ok(match file_of(plan, image, LaidOut::of(self.agrees, pieces.as_ref()), client) {
            Ok(finished) => {
                lines.extend(finished.notes.iter().map(|note| format!("ld.ldi: {path}: {note}")));
                let why = "without effect here: a watch writes the image and the map";
                lines.extend(words.without_effect.iter().map(|word| format!("{word}: {why}")));
                self.is_compared = true;
                Made::File(finished.file, if is_first { lines } else { Vec::new() })
            }
            Err(FileFault::Session(fault)) => return Err(fault),
            Err(FileFault::NotMade(fault)) => Made::Refused(vec![format!("ld.ldi: {fault}")]),
            Err(FileFault::Form(fault)) => Made::Refused(vec![format!("{}: {fault}", words.image.display())]),
        })
    }
}

fn not_there(text: String) -> Found {
    Found::NotThere(Some(("the link".into(), text)))
}

/// Lines that say why there is no link, as of the script.
pub(super) fn listed(script: &Path, lines: impl IntoIterator<Item = String>) -> Vec<(String, Diagnostic)> {
    lines.into_iter().map(|line| (script.display().to_string(), Diagnostic::error(line))).collect()
}

fn refused_of(script: &Path, lines: impl IntoIterator<Item = String>) -> Found {
    Found::Refused(listed(script, lines))
}

/// Puts the names of the lists in their places.
fn with_lists(command: &mut Command, snapshot: &mut Snapshot) -> Result<(), Found> {
    let mut inputs = Vec::with_capacity(command.inputs.len());
    for input in std::mem::take(&mut command.inputs) {
        let list = match &input {
            Input::File(path, flags) => {
                path.to_str().and_then(|name| name.strip_prefix('@')).map(|list| (list, *flags))
            }
            _ => None,
        };
        match list {
            Some((list, flags)) => {
                let data = snapshot.read(Path::new(list)).map_err(|_| Found::NotThere(None))?;
                inputs.extend(names_in(&data).map(|name: BString| Input::File(path_of(&name), flags)));
            }
            None => inputs.push(input),
        }
    }
    command.inputs = inputs;
    Ok(())
}

/// The messages of objects that are refused, with the names of their files.
fn refusals(plan: &LinkPlan, brought: &SyncOutcome, environment: &Environment) -> Vec<(String, Diagnostic)> {
    let mut said = Vec::new();
    for (index, refusal) in &brought.refused {
        let object = plan.inputs.objects().get(*index);
        let path = object.map_or_else(String::new, |object| object.origin().path.display().to_string());
        let messages = messages::of_object(plan, *index, *refusal, environment);
        said.extend(messages.into_iter().map(|one| (path.clone(), one)));
    }
    said.extend(brought.not_removed.iter().flat_map(|(name, refusal)| not_removed(name, *refusal, environment)));
    said
}

/// Lines on what is left of the script, which `ldi` does not link.
fn lines_of_left(plan: &LinkPlan) -> Vec<String> {
    let left = plan.adapted.notes.iter().filter(|note| note.kind == NoteKind::Left);
    let mut lines: Vec<String> = left.map(Note::to_string).collect();
    let constructs = if lines.len() == 1 { "1 construct".to_owned() } else { format!("{} constructs", lines.len()) };
    lines.extend(section_outside(plan).map(|line| format!("ld.ldi: {line}")));
    let changed = plan.adapted.changed().filter(|note| verdict::is_said(plan, note));
    lines.extend(changed.map(Note::to_string));
    let path = plan.inputs.scripts.path.display();
    lines.push(format!("ld.ldi: {path}: ldi does not support {constructs} of it (see above)"));
    lines
}
