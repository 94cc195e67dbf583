//! `--wrap` if a script speaks of such a name: GNU ld reads it in expressions as in references (ldexp.c,
//! `fold_name`).

use bstr::{BStr, ByteSlice};

use super::Scripts;
use crate::command::Command;
use crate::inputs::InputFault;
use crate::objects::wrapped_name;

/// Tests that no script speaks of a wrapped name: another linker makes such a link.
pub(super) fn check(command: &Command, scripts: &Scripts) -> Result<(), InputFault> {
    if command.wraps.is_empty() {
        return Ok(());
    }
    let files = scripts.reading.source.files().iter();
    let found = files.flat_map(|file| words(&file.text)).find(|word| wrapped_name(word, &command.wraps).is_some());
    found.map_or(Ok(()), |word| Err(InputFault::OfOtherLinkers(format!("--wrap: the script has the name {word}"))))
}

/// The words of a text that may be names.
fn words(text: &[u8]) -> impl Iterator<Item = &BStr> {
    let is_in_name = |byte: &u8| byte.is_ascii_alphanumeric() || b"_.$".contains(byte);
    text.split(move |byte| !is_in_name(byte)).filter(|word| !word.is_empty()).map(ByteSlice::as_bstr)
}

#[cfg(test)]
mod tests {
    use super::words;

    #[test]
    fn parts_of_names_are_none() {
        assert_eq!(words(b"*(.text.f) x = f+g;").collect::<Vec<_>>(), [".text.f", "x", "f", "g"]);
    }
}
