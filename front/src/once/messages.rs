//! Messages about refused inputs, faults and scripts.

use std::ffi::OsStr;
use std::os::unix::ffi::OsStrExt;

use bstr::ByteSlice;

use crate::command::Command;
use crate::plan::{find_program, Environment, LinkPlan};
use crate::report::{fault_diagnostics, refusals_of_object, refusals_of_script, Diagnostic, Inputs, RefusedInput};
use crate::script::{Place, ScriptError};
use crate::session_client::Refusal;

/// The faults of a link that are said.
const MAX_FAULTS: usize = 1000;

fn say_all(diagnostics: &[Diagnostic]) {
    let style = crate::stdio::error_style();
    diagnostics.iter().for_each(|diagnostic| eprintln!("{}", diagnostic.render(style)));
}

/// Where a line of the script that was sent came from.
fn origin(plan: &LinkPlan, line: u32) -> Option<Place> {
    plan.adapted.lines.get((line as usize).checked_sub(1)?).cloned()
}

/// The messages of an object that is refused.
pub(crate) fn of_object(plan: &LinkPlan, index: usize, refusal: Refusal, environment: &Environment) -> Vec<Diagnostic> {
    let ldi = find_program("ldi", environment);
    match plan.held().get(index) {
        Some(held) => {
            let input = RefusedInput { name: held.name.as_bstr(), refusal, data: Some(&held.data), ldi: &ldi };
            refusals_of_object(&input, plan.inputs.objects().get(index))
        }
        None => Vec::new(),
    }
}

/// Prints the message of an object that is refused.
pub(super) fn say_refused_object(plan: &LinkPlan, index: usize, refusal: Refusal, environment: &Environment) {
    say_all(&of_object(plan, index, refusal, environment));
}

/// The first message of objects that are refused, and how many others there are.
pub(super) fn detail(plan: &LinkPlan, refused: &[(usize, Refusal)], environment: &Environment) -> String {
    let (index, refusal) = refused.first().copied().unwrap_or((0, Refusal { number: 0, inner: 0 }));
    let first = of_object(plan, index, refusal, environment).into_iter().next();
    let first = first.map_or_else(String::new, |first| first.message());
    match refused.len().saturating_sub(1) {
        0 => first,
        1 => format!("{first}; 1 other object"),
        count => format!("{first}; {count} other objects"),
    }
}

/// The script, if it is refused.
pub(super) fn say_refused_script(plan: &LinkPlan, refusal: Refusal, environment: &Environment) {
    say_all(&of_script(plan, refusal, environment));
}

/// The messages of a script that is refused.
pub(crate) fn of_script(plan: &LinkPlan, refusal: Refusal, environment: &Environment) -> Vec<Diagnostic> {
    let ldi = find_program("ldi", environment);
    let name = plan.inputs.scripts.path.as_os_str().as_bytes().as_bstr();
    let input = RefusedInput { name, refusal, data: Some(&plan.adapted.text), ldi: &ldi };
    refusals_of_script(&input, &|line| origin(plan, line))
}

/// Prints the faults of a link.
pub(super) fn say_faults(command: &Command, plan: &LinkPlan, faults: &[u8]) {
    say_all(&of_faults(command, plan, faults, Some(MAX_FAULTS)));
}

/// The messages of the faults of a link, so many at most.
pub(crate) fn of_faults(command: &Command, plan: &LinkPlan, faults: &[u8], limit: Option<usize>) -> Vec<Diagnostic> {
    let inputs = Inputs {
        script_path: &plan.inputs.scripts.path,
        script: &plan.adapted.text,
        origin: &|line| origin(plan, line),
        objects: plan.inputs.objects(),
        entry: command.entry.as_ref().map(|entry| OsStr::from_bytes(entry.as_ref())),
    };
    fault_diagnostics(faults, &inputs, limit)
}

/// A text that is no script.
pub(super) fn say_no_script(error: &ScriptError) {
    say_all(&[Diagnostic::from(error)]);
}

/// Prints warnings of what was passed over in the scripts.
pub(super) fn say_warnings(plan: &LinkPlan) {
    say_all(&warnings(plan));
}

/// The messages of what was passed over in the scripts.
pub(crate) fn warnings(plan: &LinkPlan) -> Vec<Diagnostic> {
    plan.inputs.scripts.reading.warnings.iter().map(Diagnostic::from).collect()
}
