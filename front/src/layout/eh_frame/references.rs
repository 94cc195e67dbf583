//! The entries of `.eh_frame` (Linux Standard Base, 'Exception Frames'), as far as references depend on them.

use super::parse::entries_of;
use crate::objects::{Home, Object, SectionIndex, SymbolIndex};
use std::collections::BTreeMap;

/// What an object's entries of `.eh_frame` refer to.
#[derive(Clone, Debug, Default)]
pub(crate) struct Unwinding {
    /// The section, if it is one of entries as compilers write them.
    pub section: Option<SectionIndex>,
    /// By section of code: the symbols of its entries, and of the CIEs that these name.
    pub references: BTreeMap<SectionIndex, Vec<SymbolIndex>>,
}

/// Reads the entries of an object (elf-eh-frame.c, `_bfd_elf_parse_eh_frame`).
pub(crate) fn unwinding_of(object: &Object) -> Unwinding {
    let is_entries = |section: &crate::objects::Section<'_>| section.name == ".eh_frame" && section.kind.is_linked();
    let mut found = Unwinding::default();
    for section in object.sections().filter(is_entries) {
        if let Some(references) = references_of(object, section.index) {
            found.section = Some(section.index);
            for (code, symbols) in references {
                found.references.entry(code).or_default().extend(symbols);
            }
        }
    }
    found
}

/// By section of code what its entries refer to; `None` if GNU ld does not understand these, and goes by none of them.
fn references_of(object: &Object, section: SectionIndex) -> Option<Vec<(SectionIndex, Vec<SymbolIndex>)>> {
    entries_of(object, section, &|_| false)?;
    let data = object.contents(section);
    let relocations: BTreeMap<u64, SymbolIndex> =
        object.relocations(section).map(|relocation| (relocation.offset, relocation.symbol)).collect();
    let mut common: BTreeMap<u64, Vec<SymbolIndex>> = BTreeMap::new();
    let mut found = Vec::new();
    let mut at: u64 = 0;
    while (at as usize) < data.len() {
        let length = word_at(data, at)?;
        if length == 0 {
            at += 4;
            continue;
        }
        let end = at.checked_add(4)?.checked_add(u64::from(length))?;
        let link = u64::from(word_at(data, at + 4)?);
        if length == u32::MAX || end > data.len() as u64 || link > at + 4 {
            return None;
        }
        let inside: Vec<SymbolIndex> = relocations.range(at + 8..end.max(at + 8)).map(|(_, symbol)| *symbol).collect();
        if link == 0 {
            common.insert(at, inside);
        } else if let Some(code) = relocations.get(&(at + 8)) {
            if let Some(Home::Section(code)) = object.symbol(*code).map(|symbol| symbol.home) {
                let of_common = common.get(&(at + 4 - link)).cloned().unwrap_or_default();
                found.push((code, inside.into_iter().chain(of_common).collect()));
            }
        }
        at = end;
    }
    Some(found)
}

fn word_at(data: &[u8], at: u64) -> Option<u32> {
    let at = usize::try_from(at).ok()?;
    Some(u32::from_le_bytes(data.get(at..at.checked_add(4)?)?.try_into().ok()?))
}
