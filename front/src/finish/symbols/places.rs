//! Where input sections are in an image: by the layout, or by the map if the image is laid out differently.

use std::collections::HashMap;
use std::sync::Arc;

use bstr::{BStr, ByteSlice};
use object::elf;

use super::linked_names::is_own_object;
use super::outputs::Outputs;
use super::Symbols;
use crate::fast_map::FastMap;
use crate::layout::evaluation::{InputSection, OutputSection, StatementKind};
use crate::layout::ids::SectionId;
use crate::layout::{Evaluation, Flags, Merges};
use crate::objects::{Object, ObjectIndex, Section, SectionFlags, SectionIndex, Shortened};
use crate::report::link_map::{LinkMap, Piece};
use crate::unloaded::Spans;

/// The place of an input section.
#[derive(Clone, Copy, PartialEq, Eq, Debug)]
pub(super) struct Place {
    /// The number of the output section's header, and the address at which it starts.
    pub(super) output: u16,
    pub(super) start: u64,
    /// Its address.
    pub(super) address: u64,
    /// Whether it is one of merged constants.
    pub(super) is_merged: bool,
    /// Whether it is loaded.
    pub(super) is_loaded: bool,
}

/// The places of the input sections.
pub(super) struct InputPlaces {
    /// By object: where its sections begin in `sections`.
    first: Vec<usize>,
    /// By the number of the header in its object.
    sections: Vec<Option<Place>>,
    /// Likewise: whether what it has is among that of others, which it is merged with.
    is_merged: Vec<bool>,
    /// The objects in the order in which their local symbols are written.
    order: Vec<usize>,
    /// What is merged, of sections that are loaded and of others.
    merges: [Arc<Merges>; 2],
    /// By object and section: what stays of a section.
    shortened: FastMap<(usize, SectionIndex), Arc<Shortened>>,
    /// Whether the map does not say where some section is.
    has_lost: bool,
}

impl InputPlaces {
    /// Finds the places.
    pub(super) fn of(symbols: &Symbols<'_>, outputs: &Outputs) -> InputPlaces {
        let mut places = InputPlaces {
            first: Vec::with_capacity(symbols.objects.len()),
            sections: Vec::new(),
            is_merged: Vec::new(),
            order: Vec::new(),
            merges: [Arc::clone(&symbols.evaluation.merges), Arc::clone(&symbols.evaluation.merges_beside)],
            shortened: shortened_of(symbols.evaluation),
            has_lost: false,
        };
        let mut count = 0;
        for object in symbols.objects {
            places.first.push(count);
            count += object.section_count();
        }
        places.sections = vec![None; count];
        places.is_merged = vec![false; count];
        let merges = places.merges.clone();
        for source in merges.iter().flat_map(|merges| merges.sources()) {
            let at = places.at(source.object.0 as usize, source.section);
            at.and_then(|at| places.is_merged.get_mut(at)).into_iter().for_each(|one| *one = true);
        }
        for section in &symbols.evaluation.sections {
            places.put(section, symbols.evaluation, outputs);
        }
        if let Some(map) = symbols.map {
            places.move_by(map, symbols.objects);
        }
        places.order = order_of(symbols);
        places
    }

    /// The place of a section of an object.
    pub(super) fn get(&self, object: usize, section: SectionIndex) -> Option<Place> {
        self.sections.get(self.at(object, section)?).copied().flatten()
    }

    /// The number of a section of an object among those of all.
    fn at(&self, object: usize, section: SectionIndex) -> Option<usize> {
        self.first.get(object)?.checked_add(section.0 as usize)
    }

    /// Whether what a section of an object has is among that of others.
    pub(super) fn is_merged(&self, object: usize, section: SectionIndex) -> bool {
        self.at(object, section).and_then(|at| self.is_merged.get(at)) == Some(&true)
    }

    /// The section in which what was at a place of a section of an object is, and the place in it.
    pub(super) fn get_at(&self, object: usize, section: SectionIndex, offset: u64) -> Option<(Place, u64)> {
        if self.is_merged(object, section) {
            let mut merges = self.merges.iter();
            let (now, offset) = merges.find_map(|merges| merges.place(ObjectIndex(object as u32), section, offset))?;
            return Some((self.get(now.object.0 as usize, now.section)?, offset));
        }
        let offset = self.shortened(object, section).map_or(offset, |now| now.named(offset));
        Some((self.get(object, section)?, offset))
    }

    /// What stays of a section of an object, where that is not all.
    pub(super) fn shortened(&self, object: usize, section: SectionIndex) -> Option<&Shortened> {
        self.shortened.get(&(object, section)).map(Arc::as_ref)
    }

    /// The objects in the order in which their local symbols are written.
    pub(super) fn order(&self) -> &[usize] {
        &self.order
    }

    /// The most local symbols that may be written.
    pub(super) fn count(&self, objects: &[Object]) -> usize {
        let of = |object: &usize| objects.get(*object).map_or(0, |object| object.first_global().0 as usize + 1);
        self.order.iter().map(of).sum()
    }

    fn slot(&mut self, object: usize, section: SectionIndex) -> Option<&mut Option<Place>> {
        let at = self.at(object, section)?;
        self.sections.get_mut(at)
    }

    /// Puts a section where the layout has it.
    fn put(&mut self, section: &InputSection, evaluation: &Evaluation, outputs: &Outputs) -> Option<()> {
        let number = section.number()?;
        let keeps_names = || self.shortened(section.object.0 as usize, number).is_some();
        let id = section.output().filter(|_| !section.flags.has(Flags::EXCLUDE) || keeps_names())?;
        evaluation.output(id)?.in_image()?;
        let output = outputs.get(id)?;
        let is_merged = section.flags.has(Flags::MERGE);
        // Compressed strings are merged where they are written.
        self.has_lost |= is_merged && section.bits & u64::from(elf::SHF_COMPRESSED) != 0;
        let address = output.address.wrapping_add(section.offset);
        *self.slot(section.object.0 as usize, number)? = Some(Place {
            output: output.number,
            start: output.address,
            address,
            is_merged,
            is_loaded: output.is_loaded,
        });
        Some(())
    }

    /// Moves the sections to where the map has them; what is not known by the map has no place.
    fn move_by(&mut self, map: &LinkMap, objects: &[Object]) {
        let mut pieces: HashMap<&BStr, Vec<Moved<'_>>> = HashMap::new();
        for (output, section) in (1..).zip(&map.sections) {
            for piece in section.pieces.iter().filter(|piece| piece.section != "COMMON") {
                let moved = Moved { output, start: section.start, piece };
                pieces.entry(piece.object.as_bstr()).or_default().push(moved);
            }
        }
        for (number, object) in objects.iter().enumerate() {
            let own = pieces.remove(object.name()).unwrap_or_default();
            let size_of = |section: &Section<'_>| {
                let mut merges = self.merges.iter();
                let merged = merges.find_map(|merges| merges.size(ObjectIndex(number as u32), section.index));
                let shortened = || self.shortened(number, section.index).map(|now| now.contents.len() as u64);
                self.get(number, section.index).map(|_| merged.or_else(shortened).unwrap_or(section.size))
            };
            let found = found_in(object, &own, &size_of);
            for section in object.sections() {
                let moved = found.get(&section.index);
                let place = |old: Place| {
                    moved.map(|Moved { output, start, piece }| Place {
                        output: *output,
                        start: *start,
                        address: piece.address,
                        ..old
                    })
                };
                let before = self.get(number, section.index);
                let after = before.and_then(place);
                self.has_lost |= before.is_some() && after.is_none() && section.size > 0;
                self.slot(number, section.index).into_iter().for_each(|slot| *slot = after);
            }
        }
    }

    /// Whether all input sections of the image have a place.
    pub(super) fn is_whole(&self) -> bool {
        !self.has_lost
    }
}

/// What stays of sections, by object and section.
fn shortened_of(evaluation: &Evaluation) -> FastMap<(usize, SectionIndex), Arc<Shortened>> {
    let of = |(id, now): (&SectionId, &Arc<Shortened>)| {
        let section = evaluation.section(*id)?;
        Some(((section.object.0 as usize, section.number()?), Arc::clone(now)))
    };
    evaluation.shortened.iter().filter_map(of).collect()
}

/// A piece of the map, with the number of its output section and its start.
#[derive(Clone, Copy)]
struct Moved<'a> {
    output: u16,
    start: u64,
    piece: &'a Piece,
}

/// The pieces of an object's sections, by name and size, which `size_of` gives of those in the image: these have their
/// order.
fn found_in<'a>(
    object: &Object,
    pieces: &[Moved<'a>],
    size_of: &dyn Fn(&Section<'_>) -> Option<u64>,
) -> HashMap<SectionIndex, Moved<'a>> {
    let mut waiting: HashMap<(&BStr, u64), Vec<SectionIndex>> = HashMap::new();
    for (section, size) in object.sections().filter_map(|section| Some((section, size_of(&section)?))) {
        waiting.entry((section.name, size)).or_default().push(section.index);
    }
    let mut named: HashMap<(&BStr, u64), Vec<Moved<'a>>> = HashMap::new();
    for moved in pieces {
        named.entry((moved.piece.section.as_bstr(), moved.piece.size)).or_default().push(*moved);
    }
    let whole = |(key, sections): (&(&BStr, u64), &Vec<SectionIndex>)| {
        let places = named.get(key).filter(|places| places.len() == sections.len())?;
        Some(sections.iter().copied().zip(places.iter().copied()).collect::<Vec<_>>())
    };
    waiting.iter().filter_map(whole).flatten().collect()
}

/// The objects in the order in which GNU ld copies their sections into the file, each at its first one. Strings that
/// are not loaded are merged, by which a section may be left out; that is looked up if it matters.
fn order_of(symbols: &Symbols<'_>) -> Vec<usize> {
    let (evaluation, objects) = (symbols.evaluation, symbols.objects);
    let (order, has_open) = order_with(evaluation, objects, &|_| false);
    if !has_open {
        return order;
    }
    let of = |spans: &Spans| order_with(evaluation, objects, &|id| spans.is_left_out(id)).0;
    symbols.spans.map_or_else(|| of(&Spans::of(evaluation, objects, false)), of)
}

/// The objects in the order in which GNU ld copies their sections into the file, if some sections are left out; and
/// whether an object comes by a section of strings first.
fn order_with(
    evaluation: &Evaluation,
    objects: &[Object],
    is_left_out: &dyn Fn(SectionId) -> bool,
) -> (Vec<usize>, bool) {
    let mut has_open = false;
    let instead: Vec<usize> = (0..objects.len()).map(|number| stands_for(number, objects)).collect();
    let mut seen = vec![false; objects.len()];
    let mut order = Vec::with_capacity(objects.len());
    let copied = evaluation
        .listed
        .iter()
        .filter_map(|id| evaluation.output(*id))
        .flat_map(|output| copied_in(evaluation, output));
    for id in copied {
        let section = evaluation.section(id);
        let object = section.and_then(|section| instead.get(section.object.0 as usize)).copied();
        let (section, object, seen) = match (section, object, object.and_then(|object| seen.get_mut(object))) {
            (Some(section), Some(object), Some(seen)) if !*seen => (section, object, seen),
            _ => continue,
        };
        if is_copied(section) && !is_left_out(id) {
            *seen = true;
            has_open |= has_strings_that_are_not_loaded(section);
            order.push(object);
        }
    }
    (order, has_open)
}

fn has_strings_that_are_not_loaded(section: &InputSection) -> bool {
    let flags = SectionFlags(section.bits);
    flags.has(SectionFlags::STRINGS) && !flags.has(SectionFlags::ALLOC)
}

/// The object in which GNU ld makes what is in an object here: that is one before those of this program.
fn stands_for(number: usize, objects: &[Object]) -> usize {
    let others = objects.iter().enumerate().take(number + 1).rev();
    others.into_iter().find(|(_, object)| !is_own_object(object)).map_or(number, |(number, _)| number)
}

/// The input sections of an output section with contents, in the order of its statements (ldwrite.c,
/// `build_link_order`).
fn copied_in<'a>(evaluation: &'a Evaluation, output: &'a OutputSection) -> impl Iterator<Item = SectionId> + 'a {
    let body = output.in_image().filter(|place| place.flags.has(Flags::CONTENTS)).map(|_| output.body.iter());
    body.into_iter()
        .flatten()
        .filter_map(move |id| match &evaluation.statement(*id)?.kind {
            StatementKind::Input { sections, .. } => Some(sections.iter().copied()),
            _ => None,
        })
        .flatten()
}

fn is_copied(section: &InputSection) -> bool {
    let is_left_out = section.flags.has(Flags::EXCLUDE) || section.output().is_none();
    let is_never_loaded = section.flags.has(Flags::NEVER_LOAD) && !section.flags.has(Flags::DEBUGGING);
    let is_stripped = section.flags.has(Flags::CREATED) && section.size == 0;
    !is_left_out && !is_never_loaded && !is_stripped
}
