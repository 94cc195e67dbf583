//! References by a global offset table.

use bstr::ByteSlice;

use crate::command::Command;
use crate::inputs::InputFault;
use crate::objects::Object;

/// The word of `-z` that gives direct calls another form.
const CALL_NOP: &[u8] = b"call-nop=";
/// The form that it has without.
const PREFIX_ADDR: &[u8] = b"call-nop=prefix-addr";

/// Checks that the command lets references by a global offset table become others: with `--no-relax` they stay, and
/// with `-z call-nop` calls get another form.
///
/// # Errors
/// If it does not, and the objects have such references.
pub(super) fn check(command: &Command, objects: &[Object]) -> Result<(), InputFault> {
    let is_other = |word: &&bstr::BString| word.starts_with(CALL_NOP) && word.as_bytes() != PREFIX_ADDR;
    let form = command.keywords.iter().rev().find(|word| word.starts_with(CALL_NOP)).filter(is_other);
    let why = match form {
        _ if !command.relaxes => "--no-relax".to_owned(),
        Some(form) => format!("-z {form}"),
        None if command.emits_relocations => return of_table(objects),
        None => return Ok(()),
    };
    match objects.iter().find(|object| object.has_relaxed()) {
        Some(object) => {
            let name = object.origin().full_name();
            Err(InputFault::OfOtherLinkers(format!("{name}: references by a global offset table with {why}")))
        }
        None => Ok(()),
    }
}

/// Relocations of the file are those of the objects: none may need a table.
fn of_table(objects: &[Object]) -> Result<(), InputFault> {
    match objects.iter().find(|object| !object.got_references().is_empty()) {
        Some(object) => {
            let name = object.origin().full_name();
            let what = "references by a global offset table with --emit-relocs";
            Err(InputFault::OfOtherLinkers(format!("{name}: {what}")))
        }
        None => Ok(()),
    }
}

#[cfg(test)]
mod tests {
    use super::*;
    use crate::objects::tests::got_object;

    fn is_refused(command: &Command) -> bool {
        check(command, &[got_object("a.o")]).is_err()
    }

    /// GNU ld manual, 'Options specific to x86': `-z call-nop`; `--no-relax`.
    #[test]
    fn a_command_may_want_them_as_they_are() {
        let with = |words: &[&str]| Command {
            keywords: words.iter().map(|word| (*word).into()).collect(),
            ..Command::default()
        };
        assert!(!is_refused(&Command::default()));
        assert!(is_refused(&Command { relaxes: false, ..Command::default() }));
        assert!(is_refused(&with(&["call-nop=suffix-nop"])));
        assert!(!is_refused(&with(&["call-nop=suffix-nop", "call-nop=prefix-addr", "now"])));
        assert!(check(&Command { relaxes: false, ..Command::default() }, &[]).is_ok());
    }
}
