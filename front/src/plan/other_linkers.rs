//! What a command asks of objects that `ldi` does not make: another note of properties, and a flat image of what only
//! GNU ld's linker for ELF files changes.

use bstr::{BString, ByteSlice};

use super::gnu_property::leaves_out;
use super::{is_flat, Scripts};
use crate::command::Command;
use crate::inputs::InputFault;
use crate::objects::{Object, PROPERTIES};

/// The words of `-z` that set bits of properties, and those of an instruction set.
const WORDS: [&[u8]; 5] = [b"ibt", b"shstk", b"lam-u48", b"lam-u57", b"indirect-extern-access"];

/// Checks that neither a word of `-z` adds to the note of properties, nor a flat image has what GNU ld leaves as it is
/// in an object, since its output is no ELF file (ldlang.c, `open_output`: the output's own table of names).
///
/// # Errors
/// If another linker makes such a link.
pub(super) fn check(command: &Command, scripts: &Scripts, objects: &[Object]) -> Result<(), InputFault> {
    let why = if is_flat(command, scripts) {
        flat(command, objects)
    } else {
        word_of_properties(command).filter(|_| !leaves_out(&scripts.reading.script, PROPERTIES.as_bytes()))
    };
    why.map_or(Ok(()), |why| Err(InputFault::OfOtherLinkers(why)))
}

/// The last word by which GNU ld writes a note of properties (elfxx-x86.c, `_bfd_x86_elf_link_setup_gnu_properties`).
fn word_of_properties(command: &Command) -> Option<String> {
    let counts = |word: &&BString| {
        let name = word.split_str("=").next().unwrap_or_default();
        WORDS.contains(&name) || name.starts_with(b"x86-64-")
    };
    let word = command.keywords.iter().rev().find(counts)?;
    Some(format!("-z {word}: a note of properties"))
}

/// What GNU ld does not do to a flat image, or does otherwise.
fn flat(command: &Command, objects: &[Object]) -> Option<String> {
    if command.collects_sections {
        return Some("a flat image with --gc-sections".to_owned());
    }
    objects.iter().find_map(|object| {
        let what = match object {
            _ if object.has_relaxed() || !object.got_references().is_empty() => "references by a global offset table",
            _ if object.has_groups() => "a group of sections",
            _ if object.property_notes().next().is_some() => "a note of properties",
            _ => return None,
        };
        Some(format!("{}: {what} in a flat image", object.origin().full_name()))
    })
}

#[cfg(test)]
mod tests {
    use super::*;
    use crate::objects::tests::got_object;

    /// GNU ld manual, 'Options specific to x86'.
    #[test]
    fn words_of_properties() {
        let of = |words: &[&str]| {
            let keywords = words.iter().map(|word| BString::from(*word)).collect();
            word_of_properties(&Command { keywords, ..Command::default() })
        };
        assert_eq!(of(&["now", "ibt"]).as_deref(), Some("-z ibt: a note of properties"));
        assert_eq!(of(&["x86-64-v3"]).as_deref(), Some("-z x86-64-v3: a note of properties"));
        assert_eq!(of(&["ibtplt", "lam-report=error", "lam-u57-report=none", "cet-report=error"]), None);
        assert_eq!(of(&["stack-size=4096"]), None);
    }

    #[test]
    fn what_a_flat_image_has_as_it_is() {
        assert!(flat(&Command::default(), &[got_object("a.o")]).is_some());
        assert_eq!(flat(&Command::default(), &[]), None);
        assert!(flat(&Command { collects_sections: true, ..Command::default() }, &[]).is_some());
    }
}
