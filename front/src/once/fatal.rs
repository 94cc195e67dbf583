//! `--fatal-warnings`: what GNU ld warns of, by which it then makes no file.

use crate::command::{Command, Leniency, Warning};
use crate::finish::FileImage;
use crate::plan::{is_stack_executed, LinkPlan};

use super::orphans;

/// What GNU ld warns of in a link with this file, if a warning is a fault; as far as that is known here.
pub(super) fn warning(command: &Command, plan: &LinkPlan, file: &FileImage) -> Option<String> {
    let is_said = |warning| !command.unwarned.contains(&warning);
    if !command.has_fatal_warnings || command.lenient.contains(&Leniency::NoInhibitExec) || !is_said(Warning::Anything)
    {
        return None;
    }
    let stack = || {
        let is_executed = is_said(Warning::Stack) && is_stack_executed(command, &plan.inputs.loaded.objects);
        is_executed.then(|| "the stack is executed".to_owned())
    };
    let segment = || {
        let is_there = is_said(Warning::Segments) && file.has_writable_code();
        is_there.then(|| "a segment is written and executed".to_owned())
    };
    let found = missing_entry(command, plan).or_else(stack).or_else(segment);
    let found = found.or_else(|| orphans::warnings(command, plan).into_iter().next());
    found.map(|found| format!("--fatal-warnings: {found}"))
}

/// The entry that options or script name, if nothing defines it (ldlang.c, `lang_end`).
fn missing_entry(command: &Command, plan: &LinkPlan) -> Option<String> {
    let entry = &plan.evaluation.as_ref().ok()?.entry;
    let is_named = command.entry.is_some() || plan.inputs.scripts.entry().is_some();
    let is_number = entry.name.first().map_or(true, u8::is_ascii_digit);
    (is_named && !is_number && !entry.is_by_name).then(|| format!("nothing defines {}", entry.name))
}
