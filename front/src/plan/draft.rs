//! A plan whose layout is known: the objects can be sent while the script is written.

use super::eh_frame_hdr;
use super::loaded::{self, MadeLoaded};
use super::merged_objects::MergedObjects;
use super::shortened_objects::ShortenedObjects;
use super::Inputs;
use crate::command::Command;
use crate::finish::LinkedNames;
use crate::layout::{Evaluation, Layout, Stop};
use crate::session_client::SessionObject;

/// A layout, and what is to become a plan.
#[derive(Debug)]
pub struct PlanDraft {
    pub(super) inputs: Inputs,
    pub(super) layout: Option<Layout>,
    pub(super) evaluation: Result<Evaluation, Stop>,
    pub(super) made_loaded: MadeLoaded,
    pub(super) merged_objects: MergedObjects,
    pub(super) shortened: ShortenedObjects,
    /// The names of an earlier plan.
    pub(super) names: Option<LinkedNames>,
    pub(super) held: Vec<SessionObject>,
}

impl PlanDraft {
    /// What a layout makes of objects; names and objects of an earlier plan are used again.
    pub(super) fn new(
        command: &Command,
        inputs: Inputs,
        (layout, mut evaluation): (Option<Layout>, Result<Evaluation, Stop>),
        names: Option<LinkedNames>,
        (mut merged_objects, mut shortened): (MergedObjects, ShortenedObjects),
    ) -> PlanDraft {
        let made_loaded = evaluation.as_mut().map_or_else(|_| MadeLoaded::new(), loaded::load);
        let mut held = inputs.held.clone();
        if let Ok(evaluation) = &evaluation {
            merged_objects.put(&mut held, inputs.objects(), evaluation, &made_loaded, command.collects_sections);
            shortened.put(&mut held, evaluation);
        }
        eh_frame_hdr::put(&mut held, inputs.objects(), evaluation.as_ref().ok());
        PlanDraft { inputs, layout, evaluation, made_loaded, merged_objects, shortened, names, held }
    }

    /// The objects as the session is to hold them, but for those that get names or places of the script's.
    pub fn held(&self) -> &[SessionObject] {
        &self.held
    }
}
