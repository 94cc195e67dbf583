//! The map of a link in GNU ld's form, and its cross references.

use std::borrow::Cow;

use crate::command::Command;
use crate::gnu_map::{cross_references, map, Request};
use crate::plan::LinkPlan;
use crate::unloaded::Spans;

/// The maps of a link.
#[derive(Debug, Default)]
pub(crate) struct Maps {
    /// The map, if one is wanted and the image is laid out as GNU ld's.
    pub(super) own: Option<Vec<u8>>,
    /// The table of `--cref`.
    pub(super) references: Vec<u8>,
}

/// Whether some are to be made.
pub(super) fn are_wanted(command: &Command) -> bool {
    has_map(command) && !command.has_own_map || command.has_cross_references
}

/// Whether a map is wanted at all.
pub(super) fn has_map(command: &Command) -> bool {
    command.map_file.is_some() || command.prints_map
}

impl Maps {
    /// The maps of an image, if they are those of one that is laid out as was evaluated: a map goes by the layout.
    pub(super) fn of_laid_out(self, agrees: bool) -> Maps {
        Maps { own: self.own.filter(|_| agrees), ..self }
    }
}

/// The maps of a plan whose image is laid out as was evaluated. `spans` are those of what is not loaded; without them
/// they are found here.
pub(super) fn of(command: &Command, plan: &LinkPlan, spans: Option<&Spans>) -> Maps {
    let evaluation = match &plan.evaluation {
        Ok(evaluation) if are_wanted(command) => evaluation,
        _ => return Maps::default(),
    };
    let scripts = &plan.inputs.scripts;
    let objects = plan.inputs.objects();
    let own = || Spans::of(evaluation, objects, plan.form.strips_debugging);
    let spans = spans.map_or_else(|| Cow::Owned(own()), Cow::Borrowed);
    let request = Request {
        command,
        script: &scripts.reading.script,
        has_own_script: scripts.is_own,
        evaluation,
        objects,
        names: plan.named(),
        entry: command.entry.as_ref().or_else(|| scripts.entry()).cloned(),
        files: &plan.inputs.loaded.files,
        spans: &spans,
    };
    let is_wanted = has_map(command) && !command.has_own_map;
    let references = if command.has_cross_references { cross_references(&request) } else { Vec::new() };
    Maps { own: is_wanted.then(|| map(&request)), references }
}
