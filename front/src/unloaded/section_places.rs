//! Where the sections of objects are in the image.

use std::collections::HashMap;

use bstr::{BStr, ByteSlice};

use super::image_sections::ImageSections;
use crate::layout::evaluation::{Evaluation, InputSection};
use crate::layout::ids::SectionId;
use crate::objects::{Object, ObjectIndex, SectionFlags, SectionIndex};
use crate::report::link_map::LinkMap;

/// The places of input sections: as GNU ld lays them out if the image has its output sections there, else as the map
/// has them.
pub(super) struct SectionPlaces<'a> {
    evaluation: &'a Evaluation,
    by_map: Option<HashMap<(ObjectIndex, SectionIndex), u64>>,
}

impl<'a> SectionPlaces<'a> {
    pub(super) fn new(evaluation: &'a Evaluation) -> SectionPlaces<'a> {
        SectionPlaces { evaluation, by_map: None }
    }

    /// Whether the output sections are in an image where the layout has them.
    pub(super) fn are_in(&self, image: &ImageSections<'_>) -> bool {
        let mut loaded = self.evaluation.in_image().filter(|(_, place)| place.is_allocated() && place.size > 0);
        loaded.all(|(_, place)| image.has_section(place.address, place.size))
    }

    /// The places with those that a map says.
    pub(super) fn with_map(self, map: &LinkMap, objects: &[Object]) -> SectionPlaces<'a> {
        // By object, name and size: the addresses, in the order of the map.
        let mut pieces: HashMap<_, Vec<u64>> = HashMap::new();
        for piece in map.pieces() {
            pieces
                .entry((piece.object.as_bstr(), piece.section.as_bstr(), piece.size))
                .or_default()
                .push(piece.address);
        }
        let mut found = HashMap::new();
        for (number, object) in objects.iter().enumerate() {
            let loaded = object.sections().filter(|one| one.flags.has(SectionFlags::ALLOC) && one.kind.is_linked());
            let mut taken: HashMap<(&BStr, u64), usize> = HashMap::new();
            for section in loaded {
                let known = self.find(ObjectIndex(number as u32), section.index);
                let size = known.map_or(section.size, |(_, known)| known.size);
                let count = taken.entry((section.name, size)).or_default();
                let own = pieces.get(&(object.name(), section.name, size));
                if let Some(address) = own.and_then(|own| own.get(*count)) {
                    found.insert((ObjectIndex(number as u32), section.index), *address);
                }
                *count += 1;
            }
        }
        SectionPlaces { by_map: Some(found), ..self }
    }

    /// The section of an object by the number of its header.
    pub(super) fn find(&self, object: ObjectIndex, number: SectionIndex) -> Option<(SectionId, &'a InputSection)> {
        let id = self.evaluation.section_of(object, number)?;
        Some((id, self.evaluation.section(id)?))
    }

    /// The address of a section that is loaded.
    pub(super) fn address(&self, section: &InputSection) -> Option<u64> {
        match (&self.by_map, section.number()) {
            (Some(by_map), Some(number)) => by_map.get(&(section.object, number)).copied(),
            _ => self.evaluation.section_address(section),
        }
    }
}
