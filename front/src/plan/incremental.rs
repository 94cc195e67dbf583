//! Repeats a plan with other bytes of code and data.

use std::path::PathBuf;

use super::LinkPlan;
use crate::inputs::Archive;
use crate::objects::{Elf, Object, Section, SectionFlags, SectionKind};
use crate::snapshot::Snapshot;

/// How the names of sections begin whose contents decide about a layout, though they are data: unwinding and stabs.
const DECIDING: [&[u8]; 2] = [b".eh_frame", b".stab"];

impl LinkPlan {
    /// Of the files that were written anew, those by which this may be another link: not a thin archive that lists the
    /// same members as before, which are looked at by themselves.
    pub fn take_lists(&mut self, snapshot: &Snapshot, changed: &[PathBuf]) -> Vec<PathBuf> {
        let loaded = &mut self.inputs.loaded;
        let mut is_list = |path: &PathBuf| snapshot.seen(path).map_or(false, |seen| loaded.take_list(path, &seen.data));
        changed.iter().filter(|path| !is_list(path)).cloned().collect()
    }

    /// Takes other bytes of files that are objects and say the same of names, sections and relocations as before: with
    /// these the plan is the same but for what the session holds. Nothing is taken if one is another.
    pub fn take_alike(&mut self, snapshot: &Snapshot, changed: &[PathBuf]) -> bool {
        let mut taken: Vec<(usize, Object)> = Vec::new();
        for path in changed {
            let data = match snapshot.seen(path) {
                Some(seen) if !Archive::is_one(&seen.data) => &seen.data,
                _ => return false,
            };
            let places = self.inputs.loaded.places_of(path);
            for &place in places {
                let old = match self.inputs.loaded.objects.get(place) {
                    Some(old) => old,
                    None => return false,
                };
                let new = self.inputs.loaded.object_of(old, data.clone());
                let new = match self.inputs.loaded.in_its_place(place, new) {
                    Some(new) => new,
                    None => return false,
                };
                let is_alike = new.fault().is_none() && old.fault().is_none() && new.retained() == old.retained();
                if !is_alike || !are_alike(old.elf(), new.elf()) {
                    return false;
                }
                taken.push((place, new));
            }
            if places.is_empty() {
                return false;
            }
        }
        for (place, new) in taken {
            self.put(place, new);
        }
        self.kept.tables.want();
        self.update_session_objects();
        true
    }
}

/// Whether two objects differ in nothing but what their sections of code and data hold.
fn are_alike(old: &Elf, new: &Elf) -> bool {
    let is_same = |(one, other): (Section<'_>, Section<'_>)| {
        (Section { offset: 0, ..one }) == (Section { offset: 0, ..other })
            && (!decides(&one) || old.contents(one.index) == new.contents(other.index))
    };
    old.section_count() == new.section_count() && old.sections().zip(new.sections()).all(is_same)
}

/// Whether the contents of a section say more than its bytes in the image.
fn decides(section: &Section<'_>) -> bool {
    let is_data = matches!(section.kind, SectionKind::PROGBITS | SectionKind::NOBITS);
    let decides = DECIDING.iter().any(|front| section.name.starts_with(front));
    !is_data || decides || section.flags.has(SectionFlags::MERGE)
}

#[cfg(test)]
mod tests {
    use super::decides;
    use crate::objects::{Section, SectionFlags, SectionIndex, SectionKind};
    use bstr::ByteSlice;

    fn section(name: &str, kind: SectionKind, flags: SectionFlags) -> Section<'_> {
        let index = SectionIndex(1);
        Section {
            index,
            name: name.as_bytes().as_bstr(),
            kind,
            flags,
            size: 0,
            align: 1,
            offset: 0,
            link: 0,
            info: 0,
            entry_size: 0,
        }
    }

    #[test]
    fn tables_notes_and_what_is_merged_decide() {
        let plain = SectionFlags::default();
        assert!(!decides(&section(".text", SectionKind::PROGBITS, plain)));
        assert!(decides(&section(".symtab", SectionKind::SYMTAB, plain)));
        assert!(decides(&section(".eh_frame", SectionKind::PROGBITS, plain)));
        assert!(decides(&section(".stab", SectionKind::PROGBITS, plain)));
        assert!(decides(&section(".rodata.str1.1", SectionKind::PROGBITS, SectionFlags::MERGE)));
    }
}
