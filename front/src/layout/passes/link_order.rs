//! Sections with SHF_LINK_ORDER in the order of the sections that they belong to (ld/ldelfgen.c, `fixup_link_order`).

use crate::layout::evaluation::InputSection;
use crate::layout::ids::SectionId;
use crate::layout::interned_names::FastMap;
use crate::layout::link::Link;
use crate::layout::program::StepKind;
use crate::layout::rows::Rows;
use crate::objects::{Object, SectionIndex};
use object::elf;
use std::cmp::Ordering;

/// The place in memory of the section that one belongs to: its load address, its size, its address.
type Place = (u64, u64, u64);

impl Link<'_> {
    /// Finds the sections with SHF_LINK_ORDER, and those that they belong to.
    pub fn find_linked(&mut self, objects: &[Object], rows: &Rows) {
        let is_ordered = |section: &InputSection| section.bits & u64::from(elf::SHF_LINK_ORDER) != 0;
        let mut found = FastMap::default();
        for (index, section) in self.sections.iter().enumerate().filter(|(_, section)| is_ordered(section)) {
            let number = section.number().and_then(|number| {
                objects.get(section.object.0 as usize)?.section(number).map(|section| SectionIndex(section.link))
            });
            if let Some(linked) = number.and_then(|number| rows.find(section.object, number)) {
                found.insert(SectionId::new(index), linked);
            }
        }
        self.linked = found;
    }

    /// Puts such sections into their order, among those that one statement takes; says whether anything changed.
    pub fn order_linked(&mut self) -> bool {
        if self.linked.is_empty() {
            return false;
        }
        let mut is_changed = false;
        for number in 0..self.program.takings.len() {
            let sorted = self.program.takings.get(number).and_then(|taking| self.in_order(&taking.sections));
            if let (Some(sorted), Some(taking)) = (sorted, self.program.takings.get_mut(number)) {
                taking.sections = sorted;
                taking.shape = None;
                is_changed = true;
            }
        }
        if is_changed {
            self.put_inputs();
        }
        is_changed
    }

    /// The sections of a statement in their order; `None` if they are in it.
    fn in_order(&self, sections: &[SectionId]) -> Option<Vec<SectionId>> {
        if sections.len() < 2 || !sections.iter().any(|id| self.linked.contains_key(id)) {
            return None;
        }
        let mut sorted = sections.to_vec();
        sorted.sort_by(|one, other| order(self.place_of_linked(*one), self.place_of_linked(*other)));
        (sorted != sections).then_some(sorted)
    }

    fn place_of_linked(&self, id: SectionId) -> Option<Place> {
        let linked = self.section(*self.linked.get(&id)?)?;
        let output = linked.output().and_then(|output| self.place(output));
        let (load, address) = output.map_or((0, 0), |place| (place.load, place.address));
        Some((load.wrapping_add(linked.offset), linked.size, address.wrapping_add(linked.offset)))
    }

    /// Lists the sections of each output section in the order of its statements.
    fn put_inputs(&mut self) {
        for number in 0..self.program.outputs.len() {
            let body = self.program.outputs.get(number).map_or(&[][..], |output| output.body.as_slice());
            let inputs: Vec<SectionId> = body
                .iter()
                .filter_map(|id| match self.step(*id)?.kind {
                    StepKind::Input(taking) => self.program.takings.get(taking),
                    _ => None,
                })
                .flat_map(|taking| taking.sections.iter().copied())
                .collect();
            let place = self.program.outputs.get_mut(number).and_then(|output| output.place.as_mut());
            if let Some(place) = place.filter(|place| place.inputs.len() == inputs.len()) {
                place.inputs = inputs;
            }
        }
    }
}

/// Unordered sections stand before ordered ones (ld/ldelfgen.c, `compare_link_order`).
fn order(one: Option<Place>, other: Option<Place>) -> Ordering {
    match (one, other) {
        (Some(one), Some(other)) => one.cmp(&other),
        (one, other) => one.is_some().cmp(&other.is_some()),
    }
}
