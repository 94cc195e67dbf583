//! The comparison of an image with the layout.

use super::difference::{Difference, DifferenceKind};
use super::eh_frame_hdr;
use super::loaded_image::{Image, Loaded, NoImage, Values};
use crate::layout::evaluation::{Definer, Evaluation, Gap, Origin, OutputSection, Placed, StatementKind, Symbol};
use crate::layout::ids::StatementId;
use crate::layout::interned_names::FastMap;
use crate::layout::Flags;
use crate::objects::Object;
use crate::report::link_map::LinkMap;
use crate::script::tree::{Name, Span};
use bstr::{BStr, ByteSlice};
use object::elf::SHF_ALLOC;

/// The differences that are looked for.
const MAX_DIFFERENCES: usize = 10;

/// An input section at its place: address, size, object, name.
type Piece<'a> = (u64, u64, &'a BStr, &'a BStr);

/// Compares one image.
pub(super) struct Comparison<'a> {
    evaluation: &'a Evaluation,
    objects: &'a [Object],
    image: Image<'a>,
    found: Vec<Difference>,
}

impl<'a> Comparison<'a> {
    pub fn new(evaluation: &'a Evaluation, objects: &'a [Object], image: &'a [u8]) -> Result<Comparison<'a>, NoImage> {
        Ok(Comparison { evaluation, objects, image: Image::read(image)?, found: Vec::new() })
    }

    /// The differences. Addresses of input sections are compared only with a map.
    pub fn run(mut self, map: Option<&'a LinkMap>) -> Result<Vec<Difference>, NoImage> {
        let mut rest = self.image.loaded()?;
        let is_wanted = |(_, place): &(&OutputSection, &Placed)| place.is_allocated() && place.size != 0;
        let outputs: Vec<(&OutputSection, &'a Placed)> = self.evaluation.in_image().filter(is_wanted).collect();
        for (output, place) in &outputs {
            if let Some(section) = self.section(output, place, &mut rest) {
                self.contents(output, place, &section);
            }
        }
        for section in rest {
            let named = self.evaluation.in_image().find(|(output, _)| output.name == section.name);
            let name = section.name.into();
            let kind = DifferenceKind::OtherSection { name, found: (section.size, section.address) };
            self.add(kind, named.and_then(|(output, _)| output.span));
        }
        if let Some(map) = map {
            self.pieces(&outputs, map);
        }
        self.symbols();
        self.eh_frame_hdr()?;
        let (found, wanted) = (self.image.entry(), self.evaluation.entry.address.unwrap_or(0));
        if found != wanted {
            self.add(DifferenceKind::Entry { found, wanted }, None);
        }
        Ok(self.found)
    }

    fn add(&mut self, kind: DifferenceKind, span: Option<Span>) {
        if self.found.len() < MAX_DIFFERENCES {
            self.found.push(Difference { kind, span });
        }
    }

    /// The section of the image for an output section.
    fn section(&mut self, output: &OutputSection, place: &Placed, rest: &mut Vec<Loaded<'a>>) -> Option<Loaded<'a>> {
        let (name, span) = (output.name.clone(), output.span);
        let at = rest.iter().position(|section| section.address == place.address && section.size == place.size);
        let section = match at {
            Some(at) => rest.remove(at),
            None => {
                let own = rest.iter().position(|section| section.name == output.name).map(|at| rest.remove(at));
                let found = own.map(|own| (own.size, own.address));
                self.add(DifferenceKind::Section { name, found, wanted: (place.size, place.address) }, span);
                return None;
            }
        };
        if section.load != place.load {
            let (found, wanted) = (section.load, place.load);
            self.add(DifferenceKind::LoadAddress { name: name.clone(), found, wanted }, span);
        }
        if section.has_bytes != place.has_bytes() {
            self.add(DifferenceKind::FileBytes { name, found: section.has_bytes }, span);
        }
        Some(section)
    }

    // --- contents ---

    /// The data of the script, and what fills gaps: without a fill zeros, in code too (docs/layout.md).
    fn contents(&mut self, output: &OutputSection, place: &Placed, section: &Loaded<'_>) {
        if !section.has_bytes || !place.has_bytes() {
            return;
        }
        for id in &output.body {
            let statement = match self.evaluation.statement(*id) {
                None => continue,
                Some(statement) => statement,
            };
            match &statement.kind {
                StatementKind::Data { offset, size, value } => {
                    let bytes = value.to_le_bytes();
                    let wanted = bytes.get(..usize::from(*size)).unwrap_or(&bytes);
                    if at(section.contents, *offset, u64::from(*size)) != Some(wanted) {
                        let (offset, wanted) = (*offset, *value);
                        self.add(DifferenceKind::Data { section: output.name.clone(), offset, wanted }, statement.span);
                    }
                }
                StatementKind::Dot { gap: Some(gap), .. } => self.gap(output, section, gap, statement.span),
                StatementKind::Input { gaps, .. } => {
                    for gap in gaps {
                        self.gap(output, section, gap, statement.span);
                    }
                }
                _ => {}
            }
        }
    }

    fn gap(&mut self, output: &OutputSection, section: &Loaded<'_>, gap: &Gap, span: Option<Span>) {
        let own = at(section.contents, gap.offset, gap.size);
        if !own.map_or(false, |own| is_filled(own, gap.fill.as_deref())) {
            self.add(DifferenceKind::Gap { section: output.name.clone(), offset: gap.offset }, span);
        }
    }

    // --- input sections ---

    /// The order and the places of input sections.
    fn pieces(&mut self, outputs: &[(&OutputSection, &'a Placed)], map: &'a LinkMap) {
        let wanted = self.wanted_pieces(outputs);
        let mut found: Vec<Piece<'a>> = map
            .pieces()
            .filter(|piece| piece.size != 0 && piece.section != "COMMON")
            .map(|piece| (piece.address, piece.size, piece.object.as_bstr(), piece.section.as_bstr()))
            .collect();
        found.sort_unstable();
        let mut sorted = wanted.clone();
        sorted.sort_unstable();
        if sorted == found {
            return;
        }
        let mut own: FastMap<(&BStr, &BStr, u64), Vec<u64>> = FastMap::default();
        for (address, size, object, name) in found {
            own.entry((object, name, size)).or_default().push(address);
        }
        for (address, size, object, name) in wanted {
            let here = own.entry((object, name, size)).or_default();
            match here.iter().position(|other| *other == address) {
                Some(place) => {
                    here.remove(place);
                }
                None => {
                    let found = here.first().copied();
                    let span = self.taking(object, name);
                    let (section, object) = (name.into(), object.into());
                    self.add(DifferenceKind::Input { section, object, found, wanted: address }, span);
                }
            }
            if self.found.len() >= MAX_DIFFERENCES {
                return;
            }
        }
    }

    fn wanted_pieces(&self, outputs: &[(&OutputSection, &'a Placed)]) -> Vec<Piece<'a>> {
        let (evaluation, objects) = (self.evaluation, self.objects);
        let of = |(_, place): &(&OutputSection, &'a Placed)| {
            let place = *place;
            place.inputs.iter().filter_map(move |id| {
                let section = evaluation.section(*id)?;
                let is_listed = section.size != 0
                    && matches!(section.origin, Origin::Header(_))
                    && !section.flags.has(Flags::EXCLUDE | Flags::CREATED);
                let object = objects.get(section.object.0 as usize)?.name();
                let address = place.address.wrapping_add(section.offset);
                is_listed.then(|| (address, section.size, object, evaluation.section_name(section)))
            })
        };
        outputs.iter().flat_map(of).collect()
    }

    /// The statement that takes an input section.
    fn taking(&self, object: &BStr, name: &BStr) -> Option<Span> {
        let is_it = |id: &crate::layout::ids::SectionId| {
            self.evaluation.section(*id).map_or(false, |section| {
                let owner = self.objects.get(section.object.0 as usize);
                self.evaluation.section_name(section) == name && owner.map(|owner| owner.name()) == Some(object)
            })
        };
        let takes = |kind: &StatementKind| match kind {
            StatementKind::Input { sections, .. } => sections.iter().any(is_it),
            _ => false,
        };
        self.evaluation.statements.iter().find(|statement| takes(&statement.kind)).and_then(|statement| statement.span)
    }

    /// The table of the entries of `.eh_frame`, which is to be right wherever its section is.
    fn eh_frame_hdr(&mut self) -> Result<(), NoImage> {
        let evaluation = self.evaluation;
        let known = evaluation.eh_frame_hdr.as_ref().and_then(|table| {
            let section = evaluation.section(table.section)?;
            let output = evaluation.output(section.output()?)?;
            Some((output, output.in_image()?.address, section.offset, table.rows.as_ref()?.len()))
        });
        if let Some((output, address, offset, count)) = known {
            let sections = self.image.loaded()?;
            let own = sections.iter().find(|one| one.address == address);
            let own = own.or_else(|| sections.iter().find(|one| one.name == output.name));
            let start = own.map_or(address, |own| own.address);
            if let Some(number) = eh_frame_hdr::wrong_row(&sections, start.wrapping_add(offset), start, count) {
                self.add(DifferenceKind::FrameRow { number }, output.span);
            }
        }
        Ok(())
    }

    // --- symbols ---

    /// The values of the script's symbols, of common blocks, and of bounds of sections.
    fn symbols(&mut self) {
        let evaluation = self.evaluation;
        let wanted: Vec<(&Symbol, u64)> = evaluation
            .symbols
            .iter()
            .filter(|symbol| is_compared(evaluation, symbol))
            .filter_map(|symbol| Some((symbol, symbol.value?.address)))
            .collect();
        let values: Values = wanted.iter().map(|(_, value)| *value).collect();
        let few = self.image.symbols(Some(&values));
        if wanted.iter().all(|(symbol, value)| few.get(symbol.name.as_bstr()) == Some(value)) {
            return;
        }
        let all = self.image.symbols(None);
        for (symbol, wanted) in wanted {
            let found = all.get(symbol.name.as_bstr()).copied();
            if found == Some(wanted) {
                continue;
            }
            let name = symbol.name.clone();
            match (symbol.definer, found) {
                (Definer::Script(statement), _) => {
                    self.add(DifferenceKind::Symbol { name, found, wanted }, self.span_of(statement));
                }
                (Definer::Linker, _) => self.add(DifferenceKind::Bound { name, wanted }, None),
                (_, Some(found)) => self.add(DifferenceKind::Common { name, found, wanted }, None),
                (_, None) => {}
            }
        }
    }

    fn span_of(&self, statement: StatementId) -> Option<Span> {
        self.evaluation.statement(statement).and_then(|statement| statement.span)
    }
}

/// Whether a symbol's value is compared: the others are relative to input sections, which are.
fn is_compared(evaluation: &Evaluation, symbol: &Symbol) -> bool {
    match symbol.definer {
        Definer::Script(_) | Definer::Linker => true,
        Definer::Object(Some(section)) => evaluation.section(section).map_or(false, |section| section.is_common()),
        Definer::Object(None) | Definer::None => false,
    }
}

/// Some bytes of a section.
fn at(contents: &[u8], offset: u64, size: u64) -> Option<&[u8]> {
    let start = usize::try_from(offset).ok()?;
    contents.get(start..start.checked_add(usize::try_from(size).ok()?)?)
}

/// Whether a gap has the fill from its front.
pub(super) fn is_filled(own: &[u8], fill: Option<&[u8]>) -> bool {
    match fill.filter(|fill| !fill.is_empty()) {
        None => own.iter().all(|byte| *byte == 0),
        Some(fill) => own.chunks(fill.len()).all(|part| Some(part) == fill.get(..part.len())),
    }
}

/// A section with bytes that are not in the image, as it is not loaded; GNU ld's file has them.
#[derive(Clone, PartialEq, Eq, Debug)]
pub struct NotLoaded {
    /// Its name.
    pub name: Name,
    /// Its bytes.
    pub size: u64,
    /// Where it stands.
    pub span: Option<Span>,
    /// Whether its header says that it takes memory, as its name does (`.bss`): GNU ld's segments have its addresses.
    pub is_memory_by_name: bool,
}

/// The sections of the script that are not loaded and not empty.
pub(super) fn not_loaded(evaluation: &Evaluation) -> Vec<NotLoaded> {
    let is_out =
        |(output, place): &(&OutputSection, &Placed)| !place.is_allocated() && place.size != 0 && !output.is_orphan;
    let of = |(output, place): (&OutputSection, &Placed)| NotLoaded {
        name: output.name.clone(),
        size: place.size,
        span: output.span,
        is_memory_by_name: place.bits & u64::from(SHF_ALLOC) != 0,
    };
    evaluation.in_image().filter(is_out).map(of).collect()
}

#[cfg(test)]
mod tests {
    use super::*;

    /// GNU ld manual, 'Output Section Fill'.
    #[test]
    fn gaps() {
        assert!(is_filled(&[1, 2, 3, 1, 2], Some(&[1, 2, 3])));
        assert!(!is_filled(&[1, 2, 3, 2], Some(&[1, 2, 3])));
        assert!(is_filled(&[0, 0], None) && !is_filled(&[0, 1], None) && is_filled(&[], Some(&[9])));
    }
}
