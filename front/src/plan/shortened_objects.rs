//! Objects with what an evaluation leaves of their loaded sections of which rows or entries go.

use std::collections::BTreeMap;
use std::sync::Arc;

use crate::layout::Evaluation;
use crate::objects::{with_shortened, SectionIndex, Shortened};
use crate::session_client::SessionObject;
use crate::snapshot::Bytes;

/// The objects with shortened sections, by place: what stays is not made again.
#[derive(Clone, Debug, Default)]
pub(super) struct ShortenedObjects {
    objects: BTreeMap<usize, Made>,
}

/// The shortened sections of an object, by their numbers, ascending.
type Sections = Vec<(SectionIndex, Arc<Shortened>)>;

/// An object with shortened sections.
#[derive(Clone, Debug)]
struct Made {
    /// What it was made of.
    data: Bytes,
    sections: Sections,
    /// What is sent.
    made: Option<Bytes>,
}

impl ShortenedObjects {
    /// Puts the objects whose loaded sections are shortened in the place of those that are held.
    pub(super) fn put(&mut self, held: &mut [SessionObject], evaluation: &Evaluation) {
        let mut before = std::mem::take(&mut self.objects);
        for (place, sections) in sections_of(evaluation) {
            let held = match held.get_mut(place) {
                Some(held) => held,
                None => continue,
            };
            let is_made = |old: &Made| old.data == held.data && old.sections == sections;
            let made = before.remove(&place).filter(is_made).unwrap_or_else(|| Made {
                data: held.data.clone(),
                made: with_shortened(&held.data, &sections),
                sections,
            });
            if let Some(data) = &made.made {
                held.data = data.clone();
            }
            self.objects.insert(place, made);
        }
    }
}

/// The sections that are shortened and loaded, by the places of their objects, ascending.
fn sections_of(evaluation: &Evaluation) -> BTreeMap<usize, Sections> {
    let mut found: BTreeMap<usize, Sections> = BTreeMap::new();
    for (id, shortened) in &evaluation.shortened {
        let section = evaluation.section(*id);
        let output = section.and_then(|section| evaluation.output(section.output()?)?.in_image());
        if let (Some(section), true) = (section, output.map_or(false, |place| place.is_allocated())) {
            let own = found.entry(section.object.0 as usize).or_default();
            own.extend(section.number().map(|number| (number, Arc::clone(shortened))));
        }
    }
    found.values_mut().for_each(|own| own.sort_unstable_by_key(|(number, _)| *number));
    found
}
