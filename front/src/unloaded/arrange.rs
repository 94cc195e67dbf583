//! The order and places of what is in the sections that are not loaded.

use std::borrow::Cow;
use std::sync::Arc;

use object::elf;

use super::compressed::inflated;
use super::strings::{KeptStrings, Strings};
use super::NotMade;
use crate::fast_map::FastMap;
use crate::finish::Unloaded;
use crate::layout::evaluation::{common_align, Evaluation, Gap, InputSection, OutputSection, Placed, StatementKind};
use crate::layout::ids::SectionId;
use crate::layout::Flags;
use crate::objects::{MergedPart, Object, SectionFlags, Shortened};
use crate::snapshot::Bytes;

/// Names of sections of debug information begin so (bfd/elf.c, `_bfd_elf_make_section_from_shdr`).
const DEBUGGING: [&[u8]; 7] =
    [b".debug", b".gnu.debuglto_.debug_", b".gnu.linkonce.wi.", b".zdebug", b".line", b".stab", b".gdb_index"];

/// The most zeros that a section without bytes may have in the file.
const MAX_ZEROS: usize = 1 << 30;

/// The bytes of an output section.
pub(super) struct Arranged<'a> {
    pub(super) output: &'a OutputSection,
    pub(super) place: &'a Placed,
    pub(super) size: u64,
    pub(super) align: u64,
    pub(super) pieces: Vec<Piece<'a>>,
}

/// Bytes at a place of an output section.
pub(super) struct Piece<'a> {
    pub(super) at: u64,
    pub(super) bytes: Cow<'a, [u8]>,
    /// The input section, whose relocations apply.
    pub(super) section: Option<SectionId>,
    /// What stays of the section, if it is not all.
    pub(super) shortened: Option<&'a Shortened>,
}

impl Piece<'_> {
    /// Its bytes in the file.
    pub(super) fn size(&self) -> usize {
        self.bytes.len()
    }
}

/// Where an input section is.
#[derive(Clone, Copy, Debug)]
pub(super) struct Spot {
    /// The address of the output section, and the place there.
    pub(super) address: u64,
    /// The strings of the section: the number of those that were merged together, and its number among them.
    pub(super) strings: Option<(usize, usize)>,
}

/// The sections that are not loaded, arranged for the file, with strings merged.
#[derive(Default)]
pub struct Arrangement<'a> {
    pub(super) outputs: Vec<Arranged<'a>>,
    spots: FastMap<usize, Spot>,
    /// Strings that were merged together, and the sections that have them.
    strings: Vec<(Arc<Strings>, Vec<SectionId>)>,
}

impl<'a> Arrangement<'a> {
    /// Arranges the output sections of a layout that are not loaded; those of debug information are left out if they
    /// are stripped. `kept` has the strings of the last link.
    ///
    /// # Errors
    /// If something cannot stand in such a section.
    pub fn of(
        evaluation: &'a Evaluation,
        objects: &'a [Object],
        strips_debugging: bool,
        kept: &mut KeptStrings,
    ) -> Result<Arrangement<'a>, NotMade> {
        let mut arrangement = Arrangement::default();
        let makings: Vec<Making<'a>> = evaluation
            .in_image()
            .filter(|(_, place)| !place.is_allocated())
            .map(|(output, place)| Making { evaluation, objects, strips_debugging, output, place })
            .collect();
        for one in makings {
            if let Some(arranged) = one.arranged(&mut arrangement, kept)? {
                arrangement.outputs.push(arranged);
            }
        }
        Ok(arrangement)
    }

    /// The sections, without their bytes.
    pub fn outlines(&self) -> Vec<Unloaded> {
        let outline = |one: &Arranged<'_>| Unloaded {
            name: one.output.name.clone(),
            kind: one.place.kind,
            flags: one.place.bits,
            address: one.place.address,
            align: common_align(one.align, one.place.address),
            entry_size: one.place.entry_size,
            size: one.size,
            content: Bytes::default(),
        };
        self.outputs.iter().map(outline).collect()
    }

    /// Where an input section is.
    pub(super) fn spot(&self, section: SectionId) -> Option<Spot> {
        self.spots.get(&section.index()).copied()
    }

    /// Whether a section is left out, as its strings are in others.
    pub(super) fn is_left_out(&self, section: SectionId) -> bool {
        let part = self.spot(section).and_then(|spot| spot.strings);
        let strings = part.and_then(|(together, part)| Some((self.strings.get(together)?, part)));
        strings.map_or(false, |((strings, _), part)| strings.is_left_out(part))
    }

    /// The address of an offset of a section whose strings were merged.
    pub(super) fn address_of_string(&self, (together, section): (usize, usize), offset: u64) -> u64 {
        let found = self.strings.get(together).and_then(|(strings, sections)| {
            let (section, at) = strings.place_of(section, offset);
            let spot = self.spot(*sections.get(section)?)?;
            Some(spot.address.wrapping_add(at))
        });
        found.unwrap_or(0)
    }
}

/// The bytes of a section, and their alignment.
struct Content<'a> {
    bytes: Cow<'a, [u8]>,
    align: u64,
}

/// An output section that is arranged.
struct Making<'a> {
    evaluation: &'a Evaluation,
    objects: &'a [Object],
    strips_debugging: bool,
    output: &'a OutputSection,
    place: &'a Placed,
}

impl<'a> Making<'a> {
    fn arranged(&self, into: &mut Arrangement<'a>, kept: &mut KeptStrings) -> Result<Option<Arranged<'a>>, NotMade> {
        let taken = self.taken();
        let has_more = self.has_more() || self.is_filled(&taken);
        if self.place.size == 0 || taken.is_empty() && !has_more {
            return Ok(None);
        }
        let (output, place) = (self.output, self.place);
        let mut arranged = Arranged { output, place, size: 0, align: place.align, pieces: Vec::new() };
        if has_more || place.kind == elf::SHT_NOBITS {
            if taken.iter().any(|id| self.section(*id).map_or(false, is_compressed)) {
                return Err(NotMade::Compressed(output.name.clone()));
            }
            self.keep_places(into, &taken, &mut arranged);
        } else {
            self.pack(into, &taken, &mut arranged, kept)?;
        }
        Ok((arranged.size > 0).then_some(arranged))
    }

    fn section(&self, id: SectionId) -> Option<&'a InputSection> {
        self.evaluation.section(id)
    }

    /// The input sections, in their order.
    fn taken(&self) -> Vec<SectionId> {
        let statements = self.output.body.iter().filter_map(|id| self.evaluation.statement(*id));
        let sections = statements.flat_map(|statement| match &statement.kind {
            StatementKind::Input { sections, .. } => sections.as_slice(),
            _ => &[],
        });
        let is_left_out = |section: &InputSection| {
            let name = self.evaluation.section_name(section);
            self.strips_debugging && DEBUGGING.iter().any(|front| name.starts_with(front))
        };
        let is_here = |id: &SectionId| {
            let has_bytes = |section: &&InputSection| section.size > 0 || self.part(section).is_some();
            let section = self.section(*id).filter(|section| has_bytes(section) && section.number().is_some());
            section.map_or(false, |section| section.output().is_some() && !is_left_out(section))
        };
        sections.copied().filter(is_here).collect()
    }

    /// Whether there is more in it than input sections.
    fn has_more(&self) -> bool {
        let statements = self.output.body.iter().filter_map(|id| self.evaluation.statement(*id));
        let mut kinds = statements.map(|statement| &statement.kind);
        kinds.any(|kind| matches!(kind, StatementKind::Data { .. } | StatementKind::Dot { gap: Some(_), .. }))
    }

    /// Whether something fills gaps between input sections, each as large as the layout has it.
    fn is_filled(&self, taken: &[SectionId]) -> bool {
        let is_laid_out = |section: &InputSection| {
            !is_compressed(section) && (!is_mergeable(section) || self.part(section).is_some())
        };
        let mut statements = self.output.body.iter().filter_map(|id| self.evaluation.statement(*id));
        let is_gap_filled = |kind: &StatementKind| match kind {
            StatementKind::Input { gaps, .. } => gaps.iter().any(|gap| filled(gap).is_some()),
            _ => false,
        };
        statements.any(|statement| is_gap_filled(&statement.kind))
            && taken.iter().all(|id| self.section(*id).map_or(true, is_laid_out))
    }

    /// A section as the layout has merged it.
    fn part(&self, section: &InputSection) -> Option<&'a MergedPart> {
        self.evaluation.merges_beside.part(section.object, section.number()?)
    }

    fn bytes(&self, id: SectionId, section: &InputSection) -> &'a [u8] {
        if let Some(shortened) = self.evaluation.shortened.get(&id) {
            return &shortened.contents;
        }
        if let Some(part) = self.part(section) {
            return &part.contents;
        }
        let object = self.objects.get(section.object.0 as usize);
        object.zip(section.number()).map_or(&[], |(object, number)| object.contents(number))
    }

    /// The bytes of a section of an object, shared if they are as they were read.
    fn shared(&self, id: SectionId, content: &Content<'a>) -> Bytes {
        let of_object = || {
            let section = self.section(id)?;
            Some(self.objects.get(section.object.0 as usize)?.shared_contents(section.number()?))
        };
        match &content.bytes {
            Cow::Borrowed(bytes) => {
                let is_it = |own: &Bytes| std::ptr::eq::<[u8]>(&**own, *bytes);
                of_object().filter(is_it).unwrap_or_else(|| bytes.to_vec().into())
            }
            Cow::Owned(bytes) => bytes.clone().into(),
        }
    }

    /// The bytes of a section and its alignment, as they were before they were compressed; zeros of one that has none,
    /// as a `.bss` in a section of type INFO.
    fn content(&self, id: SectionId, section: &InputSection) -> Result<Content<'a>, NotMade> {
        let align = section.align.max(1);
        if section.kind == elf::SHT_NOBITS {
            let size = usize::try_from(section.size).ok().filter(|size| *size <= MAX_ZEROS).ok_or(NotMade::TooLarge)?;
            return Ok(Content { bytes: Cow::Owned(vec![0; size]), align });
        }
        if !is_compressed(section) {
            return Ok(Content { bytes: Cow::Borrowed(self.bytes(id, section)), align });
        }
        let name = || self.evaluation.section_name(section).to_owned();
        let (bytes, align) = inflated(self.bytes(id, section)).ok_or_else(|| NotMade::Compressed(name()))?;
        Ok(Content { bytes: Cow::Owned(bytes), align })
    }

    /// merge.c, `_bfd_add_merge_section`; of other alignments and sizes of characters than 1 no compiler has any.
    fn is_merged(&self, section: &InputSection, content: &Content<'_>) -> bool {
        let object = self.objects.get(section.object.0 as usize);
        let has_relocations =
            object.zip(section.number()).map_or(true, |(object, number)| object.has_relocations(number));
        is_mergeable(section)
            && section.entry_size == 1
            && content.align == 1
            && !has_relocations
            && self.part(section).is_none()
    }

    /// Input sections one after the other, as large as they are now: strings are merged, in the order of objects.
    fn pack(
        &self,
        into: &mut Arrangement<'a>,
        taken: &[SectionId],
        arranged: &mut Arranged<'a>,
        kept: &mut KeptStrings,
    ) -> Result<(), NotMade> {
        let mut contents: Vec<(SectionId, Content<'a>, bool)> = Vec::with_capacity(taken.len());
        for id in taken {
            if let Some(section) = self.section(*id) {
                let content = self.content(*id, section)?;
                let is_merged = self.is_merged(section, &content);
                contents.push((*id, content, is_merged));
            }
        }
        if taken.iter().any(|id| self.section(*id).map_or(false, is_compressed)) {
            arranged.align = contents.iter().map(|(_, content, _)| content.align).max().unwrap_or(1);
        }
        let mut merged: Vec<(SectionId, Bytes)> =
            contents.iter().filter(|one| one.2).map(|(id, content, _)| (*id, self.shared(*id, content))).collect();
        merged.sort_by_key(|(id, _)| *id);
        let together = into.strings.len();
        let strings = kept.merged(together, merged.iter().map(|(_, bytes)| bytes.clone()).collect());
        let parts: FastMap<SectionId, usize> = merged.iter().enumerate().map(|(at, (id, _))| (*id, at)).collect();
        let mut at = 0u64;
        for (id, content, _) in contents {
            let part = parts.get(&id).copied();
            let Content { bytes, align } = match part.and_then(|part| strings.kept.get(part)) {
                Some(kept) => Content { bytes: Cow::Owned(kept.clone()), align: 1 },
                None => content,
            };
            at = at.checked_add(at.wrapping_neg() & (align - 1)).ok_or(NotMade::TooLarge)?;
            let address = self.place.address.wrapping_add(at);
            into.spots.insert(id.index(), Spot { address, strings: part.map(|part| (together, part)) });
            let piece =
                Piece { at, bytes, section: Some(id), shortened: self.evaluation.shortened.get(&id).map(Arc::as_ref) };
            let next = at.checked_add(piece.size() as u64).ok_or(NotMade::TooLarge)?;
            arranged.pieces.push(piece);
            at = next;
        }
        let mut sections: Vec<(usize, SectionId)> = parts.into_iter().map(|(id, part)| (part, id)).collect();
        sections.sort_unstable();
        into.strings.push((strings, sections.into_iter().map(|(_, id)| id).collect()));
        arranged.size = at;
        Ok(())
    }

    /// Arranges input sections, data and what fills gaps where the layout has them; a section of gaps alone has zeros
    /// (ldwrite.c, `build_link_order`).
    fn keep_places(&self, into: &mut Arrangement<'a>, taken: &[SectionId], arranged: &mut Arranged<'a>) {
        arranged.size = self.place.size;
        for id in taken {
            if let Some(section) = self.section(*id) {
                let address = self.place.address.wrapping_add(section.offset);
                into.spots.insert(id.index(), Spot { address, strings: None });
                let bytes = Cow::Borrowed(self.bytes(*id, section));
                let shortened = self.evaluation.shortened.get(id).map(Arc::as_ref);
                arranged.pieces.push(Piece { at: section.offset, bytes, section: Some(*id), shortened });
            }
        }
        let filled = |gap| if self.place.flags.has(Flags::CONTENTS) { filled(gap) } else { None };
        for statement in self.output.body.iter().filter_map(|id| self.evaluation.statement(*id)) {
            match &statement.kind {
                StatementKind::Data { offset, size, value } => {
                    let bytes = value.to_le_bytes();
                    let bytes = bytes.get(..usize::from(*size)).unwrap_or_default().to_vec();
                    arranged.pieces.push(Piece {
                        at: *offset,
                        bytes: Cow::Owned(bytes),
                        section: None,
                        shortened: None,
                    });
                }
                StatementKind::Dot { gap: Some(gap), .. } => arranged.pieces.extend(filled(gap)),
                StatementKind::Input { gaps, .. } => arranged.pieces.extend(gaps.iter().filter_map(filled)),
                _ => {}
            }
        }
        arranged.pieces.sort_by_key(|piece| piece.at);
    }
}

/// Whether a section has strings that are merged with those of others.
fn is_mergeable(section: &InputSection) -> bool {
    let flags = SectionFlags(section.bits);
    flags.has(SectionFlags::MERGE) && flags.has(SectionFlags::STRINGS)
}

fn is_compressed(section: &InputSection) -> bool {
    SectionFlags(section.bits).has(SectionFlags::COMPRESSED)
}

/// What fills a gap; `None` for zeros.
fn filled<'a>(gap: &Gap) -> Option<Piece<'a>> {
    let fill = gap.fill.as_ref().filter(|fill| fill.iter().any(|byte| *byte != 0))?;
    let size = usize::try_from(gap.size).ok()?;
    let bytes: Vec<u8> = fill.iter().copied().cycle().take(size).collect();
    Some(Piece { at: gap.offset, bytes: Cow::Owned(bytes), section: None, shortened: None })
}
