//! Which symbols a command asks for.

use std::collections::HashSet;
use std::os::unix::ffi::OsStrExt;

use bstr::BString;

use crate::command::{self, Command};
use crate::finish::{Strip, SymbolOptions};
use crate::inputs::{InputFault, MissingInput};
use crate::objects::Visibility;
use crate::snapshot::Snapshot;

/// The symbols that a command asks for; `retained` are the names of `--retain-symbols-file`.
pub(super) fn options_of(command: &Command, retained: &HashSet<BString>) -> SymbolOptions {
    let strip = match command.strip {
        command::Strip::None | command::Strip::Debug => Strip::None,
        command::Strip::All => Strip::All,
        command::Strip::AllExcept => Strip::AllExcept(retained.clone()),
    };
    SymbolOptions {
        strip,
        discard: command.discard,
        is_unique: command.has_unique_names,
        of_bounds: of_bounds(command),
        emits_relocations: command.emits_relocations,
    }
}

/// Whether debug information is left out.
pub(super) fn strips_debugging(command: &Command) -> bool {
    matches!(command.strip, command::Strip::Debug | command::Strip::All)
}

/// `-z start-stop-visibility`
fn of_bounds(command: &Command) -> Visibility {
    let named = |word: &BString| match word.strip_prefix(b"start-stop-visibility=")? {
        b"default" => Some(Visibility::Default),
        b"internal" => Some(Visibility::Internal),
        b"hidden" => Some(Visibility::Hidden),
        b"protected" => Some(Visibility::Protected),
        _ => None,
    };
    command.keywords.iter().rev().find_map(named).unwrap_or(Visibility::Protected)
}

/// The names in the file of `--retain-symbols-file`, separated by white space (ldmain.c, `add_keepsyms_file`).
///
/// # Errors
/// If the file cannot be read.
pub(super) fn retained(command: &Command, snapshot: &mut Snapshot) -> Result<HashSet<BString>, InputFault> {
    let path = match &command.retained {
        Some(path) => path,
        None => return Ok(HashSet::new()),
    };
    let missing = |fault| MissingInput::File { path: path.as_os_str().as_bytes().into(), fault };
    let text = snapshot.read(path).map_err(missing)?;
    let words = text.split(|byte| byte.is_ascii_whitespace() || *byte == 0x0B);
    Ok(words.filter(|word| !word.is_empty()).map(BString::from).collect())
}

#[cfg(test)]
mod tests {
    use super::*;

    /// ld.texi, `-z start-stop-visibility`: the last one counts.
    #[test]
    fn visibility_of_bounds() {
        let of = |words: &[&str]| {
            let keywords = words.iter().map(|word| BString::from(*word)).collect();
            of_bounds(&Command { keywords, ..Command::default() })
        };
        assert_eq!(of(&[]), Visibility::Protected);
        assert_eq!(of(&["start-stop-visibility=hidden", "now"]), Visibility::Hidden);
        assert_eq!(of(&["start-stop-visibility=hidden", "start-stop-visibility=default"]), Visibility::Default);
    }
}
