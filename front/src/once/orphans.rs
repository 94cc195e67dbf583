//! `--orphan-handling=warn`: a line for each section that no statement of the script takes, as GNU ld has it (ldlang.c,
//! `lang_place_orphans`).

use crate::command::{Command, Orphans};
use crate::layout::evaluation::{Evaluation, InputSection};
use crate::plan::LinkPlan;

/// The lines that `--orphan-handling=warn` prints.
pub(super) fn warnings(command: &Command, plan: &LinkPlan) -> Vec<String> {
    let evaluation = match &plan.evaluation {
        Ok(evaluation) if command.orphans == Some(Orphans::Warn) => evaluation,
        _ => return Vec::new(),
    };
    let placed = evaluation.orphans.iter().filter_map(|id| evaluation.section(*id)).filter(|one| one.is_linked());
    placed.filter_map(|section| line(plan, evaluation, section)).collect()
}

fn line(plan: &LinkPlan, evaluation: &Evaluation, section: &InputSection) -> Option<String> {
    let name = evaluation.section_name(section);
    let object = plan.inputs.objects().get(section.object.0 as usize)?.origin().full_name();
    let output = &evaluation.output(section.output()?)?.name;
    Some(format!("warning: orphan section `{name}' from `{object}' being placed in section `{output}'"))
}
