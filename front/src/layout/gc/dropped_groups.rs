//! Sections of groups that are left out, since another object has the group. Under KEEP they are roots nevertheless,
//! and what they refer to stays (elflink.c, `bfd_elf_gc_sections`: nothing tests `kept_section`).

use crate::layout::evaluation::InputSection;
use crate::layout::flags::Flags;
use crate::layout::link::Link;
use crate::layout::matching::matches_of;
use crate::layout::program::Taking;
use crate::layout::rows::of_object;
use crate::objects::{Object, ObjectIndex, Section, SectionIndex, SectionKind};

/// A section that is left out of an object: its header says no more that it is one.
pub(crate) fn is_left_out(section: &Section<'_>) -> bool {
    section.kind == SectionKind::NULL && !section.name.is_empty()
}

impl Link<'_> {
    /// The sections that statements under KEEP match, of those that are left out of objects (ldlang.c,
    /// `gc_section_callback`).
    pub fn kept_of_left_out(&mut self, objects: &[Object]) -> Vec<(ObjectIndex, SectionIndex)> {
        let kept: Vec<Taking> = self.program.takings.iter().filter(|taking| taking.node.is_kept).cloned().collect();
        let mut sections: Vec<InputSection> = Vec::new();
        for (number, object) in objects.iter().enumerate().filter(|_| !kept.is_empty()) {
            for section in object.sections().filter(is_left_out) {
                let name = self.program.names.enter(section.name);
                sections.push(of_object(ObjectIndex(number as u32), object, &section, name));
            }
        }
        if sections.is_empty() {
            return Vec::new();
        }
        let matches = matches_of(&kept, &sections, &self.program.names, objects);
        let found = matches.into_iter().flatten().filter_map(|one| sections.get(one.section.index()));
        let found = found.filter(|section| !section.flags.has(Flags::EXCLUDE));
        found.filter_map(|section| Some((section.object, section.number()?))).collect()
    }
}
