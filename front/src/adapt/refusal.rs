//! Where a given or an adapted script is refused, as `readscript` says if it is installed.

use std::os::unix::ffi::OsStrExt;
use std::path::Path;
use std::process::{Command, Stdio};

use bstr::ByteSlice;

use super::arguments::AdaptArguments;
use crate::adapted::AdaptedScript;
use crate::plan::{find_program, Environment};
use crate::profile::{objections, refused_for};
use crate::report::rules::{NOT_A_SCRIPT, SCRIPTS};
use crate::report::{refusals_of_script, RefusedInput};
use crate::script::Disk;
use crate::session_client::Refusal;

/// The places and sentences of what is refused, in the words of the script that was adapted.
pub(super) fn lines(script: &Path, result: &AdaptedScript, environment: &Environment) -> Vec<String> {
    let inner = match judged(&result.text, environment) {
        Some(Judgement::Refused(inner)) => inner,
        _ => return Vec::new(),
    };
    let ldi = find_program("ldi", environment);
    let input = RefusedInput {
        name: script.as_os_str().as_bytes().as_bstr(),
        refusal: Refusal { number: NOT_A_SCRIPT, inner },
        data: Some(&result.text),
        ldi: &ldi,
    };
    let origin = |line: u32| result.lines.get(line.checked_sub(1)? as usize).cloned();
    let found = refusals_of_script(&input, &origin);
    let at = |line: Option<u32>| format!("{}:{}", script.display(), line.unwrap_or(1));
    found.into_iter().map(|one| format!("{}: {}", at(one.line), one.sentence)).collect()
}

/// The places and sentences for which a given script is refused; none if it is not. If `readscript` cannot be
/// had, all that the profile has not counts.
pub(super) fn of_given(call: &AdaptArguments, text: &[u8], environment: &Environment) -> Vec<String> {
    let judgement = judged(text, environment);
    if judgement == Some(Judgement::Accepted) {
        return Vec::new();
    }
    let mut found = objections(&call.script, text, &mut Disk, call.all_folders());
    let mut lines = Vec::new();
    if let Some(Judgement::Refused(number)) = judgement {
        found = refused_for(found, number);
        let sentence = SCRIPTS.iter().find(|(own, _)| *own == number).map_or("", |(_, sentence)| *sentence);
        lines.push(format!("{}: refused 5 {number}: {sentence}", call.script.display()));
    }
    lines.extend(found.into_iter().map(|one| format!("{}: refused: {}", one.place, one.sentence)));
    lines
}

/// What `readscript` says of a text.
#[derive(Clone, Copy, PartialEq, Eq, Debug)]
enum Judgement {
    Accepted,
    Refused(u32),
}

fn judged(text: &[u8], environment: &Environment) -> Option<Judgement> {
    let path = std::env::temp_dir().join(format!("ldi-adapt-{}", std::process::id()));
    std::fs::write(&path, text).ok()?;
    let done = Command::new(find_program("readscript", environment)).arg(&path).stdin(Stdio::null()).output();
    // The file is in a folder that the system clears if it cannot be removed.
    let _ = std::fs::remove_file(&path);
    let done = done.ok()?;
    match done.status.code()? {
        0 => return Some(Judgement::Accepted),
        1 => {}
        _ => return None,
    }
    let said = done.stdout.find(b": refused 5 ").and_then(|at| done.stdout.get(at + b": refused 5 ".len()..))?;
    let digits: String = said.iter().map(|byte| char::from(*byte)).take_while(char::is_ascii_digit).collect();
    digits.parse().ok().map(Judgement::Refused)
}
