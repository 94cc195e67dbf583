//! Objects of slim LTO in messages: gcc's, with the compiler's inner form of the program and no code. What such an
//! object defines stands in a table of gcc's own (`lto-symtab`: `gcc/lto-streamer-out.cc`, `write_symbol`).

use std::collections::HashSet;

use bstr::BString;
use object::elf::FileHeader64;
use object::read::elf::{FileHeader, SectionHeader};
use object::LittleEndian as Little;

use crate::objects::{Object, ObjectFault};

/// What is said of such an object.
pub(super) const SLIM: &str = "is an object of slim LTO and has no code: compile it with -fno-lto";

const TABLES: &[u8] = b".gnu.lto_.symtab.";
/// Definitions, weak ones and common ones; 2 and 3 are undefined (`enum gcc_plugin_symbol_kind`).
const DEFINED: [u8; 3] = [0, 1, 4];
/// The bytes of an entry after its name and the name of its group: kind, visibility, size, slot.
const TAIL: usize = 14;

/// Whether an object is of slim LTO.
pub(super) fn is_slim(object: &Object) -> bool {
    matches!(object.fault(), Some(ObjectFault::SlimLto))
}

/// The names that an object of slim LTO defines; none if its tables cannot be read.
pub(super) fn definitions(object: &Object) -> HashSet<BString> {
    let data: &[u8] = object.data();
    let header = match FileHeader64::<Little>::parse(data) {
        Ok(header) if is_slim(object) => header,
        _ => return HashSet::new(),
    };
    let sections = match header.sections(Little, data) {
        Ok(sections) => sections,
        Err(_) => return HashSet::new(),
    };
    let is_table = |name: object::Result<&[u8]>| name.map_or(false, |name| name.starts_with(TABLES));
    let tables = sections.iter().filter(|section| is_table(sections.section_name(Little, section)));
    tables.filter_map(|section| section.data(Little, data).ok()).flat_map(defined).collect()
}

/// The names that a table defines.
fn defined(table: &[u8]) -> Vec<BString> {
    let mut found = Vec::new();
    let mut rest = table;
    while let Some((name, kind, next)) = entry(rest) {
        if DEFINED.contains(&kind) {
            found.push(name.into());
        }
        rest = next;
    }
    found
}

/// The name and the kind of the first entry of a table, and what follows it.
fn entry(table: &[u8]) -> Option<(&[u8], u8, &[u8])> {
    let mut parts = table.splitn(3, |byte| *byte == 0);
    let (name, _, rest) = (parts.next()?, parts.next()?, parts.next()?);
    Some((name, *rest.first()?, rest.get(TAIL..)?))
}

#[cfg(test)]
mod tests {
    use super::*;

    #[test]
    fn a_table_has_names_with_their_kinds() {
        let entry = |name: &str, kind: u8| [name.as_bytes(), b"\0\0", &[kind], &[0; TAIL - 1]].concat();
        let kinds = ["f", "weak", "undefined", "weak_undefined", "common"];
        let mut table: Vec<u8> = kinds.iter().zip(0..).flat_map(|(name, kind)| entry(name, kind)).collect();
        assert_eq!(defined(&table), ["f", "weak", "common"]);
        table.truncate(table.len() - 1);
        assert_eq!(defined(&table), ["f", "weak"]);
        assert_eq!(defined(b"name"), [""; 0]);
    }
}
