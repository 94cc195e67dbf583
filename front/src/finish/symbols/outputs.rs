//! Finds the output sections of a layout among the section headers of an image.

use std::collections::HashMap;

use bstr::{BStr, BString, ByteSlice};

use super::super::image_headers::{Image, NotAnImage, Section};
use super::super::unloaded::Unloaded;
use super::{OtherSections, RelocationTable, Symbols};
use crate::layout::evaluation::{OutputSection, Placed};
use crate::layout::ids::OutputId;
use crate::layout::Evaluation;

/// By output section: its number and its address in the image; `None` if the image has none for it.
pub(super) struct Outputs {
    numbers: Vec<Option<Output>>,
    /// The numbers of empty sections that GNU ld takes out, with those of the sections that take their symbols.
    instead: HashMap<u16, u16>,
    /// The sections of GNU ld's file that the image does not have.
    missing: Vec<EmptySection>,
    /// The numbers of those of the image that GNU ld's file has not.
    dropped: Vec<usize>,
    /// The numbers of those without bytes of both that GNU ld's file has with another header, with that header.
    empty: Vec<(u16, Section)>,
    /// By place: the number of the section that stands there in GNU ld's file.
    order: Vec<usize>,
    /// Numbers of sections, with those of the sections that their headers refer to.
    links: Vec<(u16, u16)>,
}

/// An output section without bytes that GNU ld's file has and the image has not.
#[derive(Clone, PartialEq, Eq, Debug)]
pub(in crate::finish) struct EmptySection {
    /// The number of the section of the image after which it stands.
    pub(in crate::finish) after: usize,
    /// The number by which symbols refer to it: one that no section has.
    pub(in crate::finish) number: u16,
    /// Its name.
    pub(in crate::finish) name: BString,
    /// Its header, without name, link and info.
    pub(in crate::finish) header: Section,
}

/// An output section in the image.
#[derive(Clone, Copy, PartialEq, Eq, Debug)]
pub(super) struct Output {
    /// The number of its header.
    pub(super) number: u16,
    /// Its address.
    pub(super) address: u64,
    /// Whether it is loaded.
    pub(super) is_loaded: bool,
}

impl Outputs {
    /// Finds the sections: those of an address and a size, then those of a name; and those that are not loaded.
    pub(super) fn of(
        image: &Image<'_>,
        symbols: &Symbols<'_>,
        renamed: &[(BString, BString)],
        unloaded: &[Unloaded],
    ) -> Result<Outputs, NotAnImage> {
        let mut headers: Vec<Header<'_>> = Vec::with_capacity(image.sections.len());
        for (number, section) in image.sections.iter().enumerate().filter(|(_, section)| section.is_allocated()) {
            let own = image.name(section)?;
            let name = renamed.iter().find(|(old, _)| old == own).map_or(own, |(_, new)| new.as_bstr());
            let number = u16::try_from(number).unwrap_or(0);
            let output = Output { number, address: section.address, is_loaded: true };
            headers.push(Header { name, size: section.size, output });
        }
        let mut outputs = Outputs {
            numbers: vec![None; symbols.evaluation.outputs.len()],
            instead: HashMap::new(),
            missing: Vec::new(),
            dropped: Vec::new(),
            empty: Vec::new(),
            order: Vec::new(),
            links: Vec::new(),
        };
        let mut wanted: Vec<Wanted<'_>> = Vec::new();
        for id in &symbols.evaluation.order {
            let output = symbols.evaluation.output(*id);
            wanted.extend(output.and_then(|output| Some((*id, output, output.in_image()?))));
        }
        let (mut wanted, others): (Vec<_>, Vec<_>) = wanted.into_iter().partition(|(_, _, place)| place.is_allocated());
        let is_there = |one: &Header<'_>, name: &BStr, place: &Placed| {
            one.name == name && one.size == place.size && one.output.address == place.address
        };
        let is_at = |one: &Header<'_>, _: &BStr, place: &Placed| {
            one.size == place.size && one.output.address == place.address && place.size != 0
        };
        let is_named = |one: &Header<'_>, name: &BStr, _: &Placed| one.name == name;
        outputs.assign_headers(&mut wanted, &mut headers, &is_there);
        outputs.assign_headers(&mut wanted, &mut headers, &is_at);
        outputs.assign_headers(&mut wanted, &mut headers, &is_named);
        outputs.take_unloaded(&others, unloaded, first_unloaded(image));
        let count = image.sections.len() + unloaded.len();
        outputs.make_missing(symbols.evaluation, count);
        outputs.find_instead(&headers, symbols);
        outputs.find_links(symbols.evaluation);
        if symbols.map.is_none() {
            let empty = headers.iter().filter(|header| header.size == 0);
            outputs.dropped = empty.map(|header| usize::from(header.output.number)).collect();
            outputs.empty = outputs.other_headers(image, symbols.evaluation);
            outputs.order = outputs.listed(symbols.evaluation, count);
        }
        Ok(outputs)
    }

    /// Finds what stands for the empty sections that GNU ld has not.
    fn find_instead(&mut self, headers: &[Header<'_>], symbols: &Symbols<'_>) {
        for header in headers.iter().filter(|header| header.size == 0) {
            let mut own = symbols.evaluation.outputs.iter().filter(|output| output.name == *header.name);
            let nearby = own.find_map(|output| self.get(output.nearby?));
            if let Some(nearby) = nearby {
                self.instead.insert(header.output.number, nearby.number);
            }
        }
    }

    /// Finds the sections that headers refer to.
    fn find_links(&mut self, evaluation: &Evaluation) {
        for (id, place) in evaluation.places() {
            let found = self.get(id).zip(place.link.and_then(|link| self.get(link)));
            self.links.extend(found.map(|(own, link)| (own.number, link.number)));
        }
    }

    /// Gives sections without bytes that the image has not numbers from one on that no section has.
    fn make_missing(&mut self, evaluation: &Evaluation, first: usize) {
        let mut after = 0;
        for id in &evaluation.listed {
            if let Some(output) = self.get(*id) {
                after = if output.is_loaded { output.number.into() } else { after };
                continue;
            }
            let found = evaluation.output(*id).and_then(|output| Some((output, output.in_image()?)));
            let (output, place) = match found.filter(|(_, place)| place.size == 0) {
                Some(found) => found,
                None => continue,
            };
            let count = self.missing.len();
            let (number, slot) = match (u16::try_from(first + count), self.numbers.get_mut(id.index())) {
                (Ok(number), Some(slot)) => (number, slot),
                _ => continue,
            };
            *slot = Some(Output { number, address: place.address, is_loaded: true });
            self.missing.push(EmptySection { after, number, name: output.name.clone(), header: header_of(place) });
        }
    }

    /// The numbers of the sections without bytes of both that GNU ld's file has with another header, with that header.
    fn other_headers(&self, image: &Image<'_>, evaluation: &Evaluation) -> Vec<(u16, Section)> {
        let of = |(id, place): (OutputId, &Placed)| {
            let number = self.get(id)?.number;
            let own = image.sections.get(usize::from(number)).filter(|own| own.is_allocated() && own.size == 0)?;
            let Section { name, offset, link, info, .. } = *own;
            let header = Section { name, offset, link, info, ..header_of(place) };
            (header != *own).then_some((number, header))
        };
        evaluation.places().filter(|(_, place)| place.size == 0).filter_map(of).collect()
    }

    /// By place: the number of the section that stands there in GNU ld's file, of `count`; nothing if all stand where
    /// they do in the image. What it does not list stays (bfd/section.c: a section is listed once it is made).
    fn listed(&self, evaluation: &Evaluation, count: usize) -> Vec<usize> {
        let numbers = evaluation.listed.iter().filter_map(|id| self.get(*id)).map(|output| usize::from(output.number));
        let listed: Vec<usize> = numbers.filter(|number| *number < count).collect();
        let mut places = listed.clone();
        places.sort_unstable();
        if places == listed {
            return Vec::new();
        }
        let mut order: Vec<usize> = (0..count).collect();
        for (place, number) in places.into_iter().zip(listed) {
            order.get_mut(place).into_iter().for_each(|at| *at = number);
        }
        order
    }

    /// How the sections of the file differ from those of the image (ldlang.c, `strip_excluded_output_sections`).
    pub(super) fn into_sections(self, relocations: Vec<RelocationTable>) -> OtherSections {
        let Outputs { missing, dropped, empty, order, links, .. } = self;
        OtherSections { relocations, missing, dropped, empty, order, links }
    }

    /// Gives sections that are not loaded their numbers, from the first one on: those that are not empty, in their
    /// order.
    fn take_unloaded(&mut self, wanted: &[Wanted<'_>], unloaded: &[Unloaded], first: usize) {
        let mut rest = wanted.iter();
        for (number, one) in (first..).zip(unloaded) {
            let found = rest.find(|(_, output, place)| output.name == one.name && place.size != 0);
            let number = u16::try_from(number).ok();
            if let Some((slot, number)) = found.and_then(|(id, ..)| self.numbers.get_mut(id.index())).zip(number) {
                *slot = Some(Output { number, address: one.address, is_loaded: false });
            }
        }
    }

    /// Whether the image has a section that GNU ld takes out.
    pub(super) fn is_taken_out(&self, number: u16) -> bool {
        self.instead.contains_key(&number)
    }

    /// The number of the section that a symbol of a section is in.
    pub(super) fn stands_for(&self, number: u16) -> u16 {
        self.instead.get(&number).copied().unwrap_or(number)
    }

    /// Gives sections that are wanted the headers that fit.
    fn assign_headers(
        &mut self,
        wanted: &mut Vec<Wanted<'_>>,
        headers: &mut Vec<Header<'_>>,
        fits: &dyn Fn(&Header<'_>, &BStr, &Placed) -> bool,
    ) {
        wanted.retain(|(id, output, place)| {
            let found = headers.iter().position(|one| fits(one, output.name.as_bstr(), place));
            let header = found.map(|at| headers.remove(at));
            if let (Some(header), Some(number)) = (header, self.numbers.get_mut(id.index())) {
                *number = Some(header.output);
            }
            found.is_none()
        });
    }

    /// One more than the greatest number of a section.
    pub(super) fn count(&self) -> usize {
        self.numbers.iter().flatten().map(|output| usize::from(output.number) + 1).max().unwrap_or(0)
    }

    /// An output section in the image.
    pub(super) fn get(&self, id: OutputId) -> Option<Output> {
        self.numbers.get(id.index()).copied().flatten()
    }
}

/// An output section of the layout.
type Wanted<'a> = (OutputId, &'a OutputSection, &'a Placed);

/// The header of an output section without bytes.
fn header_of(place: &Placed) -> Section {
    let Placed { kind, bits: flags, address, entry_size, .. } = *place;
    Section { kind, flags, address, align: place.header_align(), entry_size, ..Section::NONE }
}

/// The number of the first section that is not loaded: those of the link stand before those of the file itself.
fn first_unloaded(image: &Image<'_>) -> usize {
    let is_apart = |section: &Section| section.kind != 0 && !section.is_allocated();
    image.sections.iter().position(is_apart).unwrap_or(image.sections.len())
}

/// A section header of the image.
struct Header<'a> {
    name: &'a BStr,
    size: u64,
    output: Output,
}
