//! Sections of groups that are left out, and their counterparts in the group that is kept: what debug information says
//! of the former holds for the latter, if both have one size (bfd/elflink.c, `_bfd_elf_check_kept_section`).

use std::collections::HashMap;

use crate::objects::{once_of, Home, Object, ObjectIndex, OnceKey, SectionIndex, SectionKind, SymbolIndex};
use bstr::BString;

/// The groups of a link that are kept.
pub(crate) struct KeptGroups<'a> {
    objects: &'a [Object],
    groups: HashMap<BString, (ObjectIndex, Vec<SectionIndex>)>,
}

impl<'a> KeptGroups<'a> {
    /// The groups that are kept of those of some objects.
    pub(crate) fn of(objects: &'a [Object]) -> KeptGroups<'a> {
        let mut groups = HashMap::new();
        for (number, object) in objects.iter().enumerate().filter(|(_, object)| object.has_groups()) {
            for once in once_of(object.elf()) {
                if let OnceKey::Group(signature) = once.key {
                    groups.entry(signature).or_insert((ObjectIndex(number as u32), once.sections));
                }
            }
        }
        KeptGroups { objects, groups }
    }

    /// The section that is kept in place of one of an object; `None` if there is none of its name and size.
    pub(crate) fn in_place_of(&self, object: ObjectIndex, number: SectionIndex) -> Option<(ObjectIndex, SectionIndex)> {
        let dropped = self.objects.get(object.0 as usize)?;
        let section = dropped.section(number)?;
        let (other, members) = self.groups.get(&signature_of(dropped, number)?)?;
        let kept = self.objects.get(other.0 as usize)?;
        let is_same = |one: &&SectionIndex| {
            let one = kept.section(**one);
            one.map_or(false, |one| one.kind.is_linked() && one.name == section.name && one.size == section.size)
        };
        members.iter().find(is_same).map(|one| (*other, *one))
    }
}

/// The signature of the group of a section that is left out, whose header says no more that it is one.
fn signature_of(object: &Object, number: SectionIndex) -> Option<BString> {
    let is_group = |bytes: &[u8]| {
        let mut words = bytes.chunks_exact(4).filter_map(|word| word.try_into().ok().map(u32::from_le_bytes)).skip(1);
        words.any(|word| word == number.0)
    };
    let mut dropped = object.sections().filter(|one| one.kind == SectionKind::NULL && one.name == ".group");
    let group = dropped.find(|one| is_group(object.contents(one.index)))?;
    let symbol = object.symbol(SymbolIndex(group.info))?;
    Some(match symbol.home {
        Home::Section(section) if symbol.name.is_empty() => object.section(section)?.name.to_owned(),
        _ => symbol.name.to_owned(),
    })
}
