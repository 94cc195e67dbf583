//! What GNU ld leaves of `.eh_frame` (elf-eh-frame.c, `_bfd_elf_discard_section_eh_frame`): entries for code that is in
//! the image, each CIE once, one end. The entries of a section have no room between them, and the last one of each but
//! the last section is filled up.

use super::hdr::{EhFrameHdrProblem, FrameRow, Targets};
use super::parse::{entries_of, Common, Entry, EntryKind, Field, Frame};
use crate::fast_map::FastMap;
use crate::layout::evaluation::FramesLeft;
use crate::layout::flags::Flags;
use crate::layout::gc::deleted_symbols::DeletedSymbols;
use crate::layout::ids::{OutputId, SectionId};
use crate::layout::link::Link;
use crate::layout::make_evaluation::first_made;
use crate::objects::{Binding, Home, Object, ObjectIndex, SectionIndex, Shortened, SymbolIndex};
use std::sync::Arc;

/// The bytes of an end, and of the length that an entry begins with.
const WORD: u64 = 4;
/// What the ends of sections are aligned to.
const ALIGN: u64 = 4;
/// The most instructions of a CIE that is merged.
const MAX_INSTRUCTIONS: usize = 50;

/// What stays of the output section.
#[derive(Default)]
pub(crate) struct Frames {
    sections: Vec<Section>,
    /// The sections whose entries are not understood.
    unknown: Vec<SectionId>,
    /// A section with an entry that does not move as a whole.
    mixed: Option<SectionId>,
}

/// What stays of an input section.
struct Section {
    id: SectionId,
    object: ObjectIndex,
    number: SectionIndex,
    entries: Vec<Edited>,
}

/// An entry, and what becomes of it.
struct Edited {
    entry: Entry,
    /// Its place in the section, if it stays.
    now: Option<u64>,
    /// Of the entry of a function, and of a CIE that is merged: the CIE, by section and number.
    common: Option<(usize, usize)>,
    /// Where fields were that GNU ld leaves empty, and their bytes.
    empty: Vec<(u64, usize)>,
}

/// What tells a CIE from others.
#[derive(Clone, PartialEq, Eq, Hash, Debug)]
struct Key {
    common: Common,
    personality: Option<Personality>,
}

/// The function that handles exceptions, of a CIE.
#[derive(Clone, PartialEq, Eq, Hash, Debug)]
enum Personality {
    Name(Vec<u8>),
    Local(ObjectIndex, SymbolIndex),
}

impl Link<'_> {
    /// Leaves out what GNU ld does, and gives whether a section has another size.
    pub fn discard_frames(&mut self, objects: &[Object]) -> bool {
        let (is_other, rows) = self.choose_frames(objects);
        self.size_eh_frame_hdr(rows) || is_other
    }

    /// Leaves out entries, and gives whether a section has another size, and how many functions have one, if all
    /// entries are understood.
    fn choose_frames(&mut self, objects: &[Object]) -> (bool, Option<usize>) {
        if self.settings.is_traditional {
            self.frames_left = FramesLeft::AsInGnu;
            return (false, None);
        }
        let output = match first_made(self, b".eh_frame").filter(|_| self.settings.merges) {
            Some(output) => output,
            None => return (false, None),
        };
        self.frames_left = FramesLeft::AsInGnu;
        let inputs = self.place(output).map_or_else(Vec::new, |place| place.inputs.clone());
        let mut frames = self.frames_of(&inputs, objects);
        frames.choose(self, objects, inputs.last().copied());
        let before: Vec<Option<u64>> = inputs.iter().map(|id| self.section(*id).map(|one| one.size)).collect();
        frames.place(self);
        self.fill_up(output, &inputs, &frames);
        let rows = frames.unknown.is_empty().then(|| frames.staying().count());
        self.frames = frames;
        let after = inputs.iter().map(|id| self.section(*id).map(|one| one.size));
        (after.zip(before).any(|(after, before)| after != before), rows)
    }

    /// The sections whose entries are understood.
    fn frames_of(&self, inputs: &[SectionId], objects: &[Object]) -> Frames {
        let own = |id: &SectionId| {
            let section = self.section(*id).filter(|section| section.size > 0)?;
            Some((*id, section.object, section.number()?))
        };
        let own: Vec<_> = inputs.iter().filter_map(own).collect();
        let deleted = DeletedSymbols::of(self, objects, own.iter().map(|(_, object, number)| (*object, *number)));
        let understood = |(id, index, number): (SectionId, ObjectIndex, SectionIndex)| {
            let object = objects.get(index.0 as usize)?;
            let entries = entries_of(object, number, &|symbol| deleted.is_elsewhere(index, symbol))?;
            let edited = |entry| Edited { entry, now: None, common: None, empty: Vec::new() };
            Some(Section { id, object: index, number, entries: entries.into_iter().map(edited).collect() })
        };
        let mut frames = Frames::default();
        for one in own {
            match understood(one) {
                Some(section) => frames.sections.push(section),
                None => frames.unknown.push(one.0),
            }
        }
        frames
    }

    /// All sections but the last of entries end where the output section is aligned, and those behind it that are empty
    /// are left out (elflink.c, `bfd_elf_discard_info`).
    fn fill_up(&mut self, output: OutputId, inputs: &[SectionId], frames: &Frames) {
        let align = self.place(output).map_or(1, |place| place.align.max(1));
        let mut is_behind = true;
        for id in inputs.iter().rev().copied() {
            let is_understood = frames.sections.iter().any(|section| section.id == id);
            let section = match self.section_mut(id) {
                Some(section) => section,
                None => continue,
            };
            if is_behind {
                section.flags |= if section.size == 0 { Flags::EXCLUDE } else { Flags::NONE };
                is_behind = section.size <= WORD;
                continue;
            }
            let size = section.size.wrapping_add(align - 1) & !(align - 1);
            if size != section.size && !is_understood {
                self.frames_left = FramesLeft::Unknown(id);
            } else {
                section.size = size;
            }
        }
    }

    /// Writes what stays, as its places are known.
    pub(in crate::layout) fn write_frames(&mut self, objects: &[Object]) {
        let mut frames = std::mem::take(&mut self.frames);
        let rows = frames.rows(self, objects);
        self.frames_left = frames.mixed.map_or(self.frames_left, FramesLeft::Unknown);
        self.eh_frame_hdr_made = self.eh_frame_hdr_of(&frames, rows);
        for section in &frames.sections {
            let content = objects.get(section.object.0 as usize).map(|object| object.contents(section.number));
            let own = self.section(section.id).map(|own| (own.size, own.offset, own.flags.has(Flags::EXCLUDE)));
            if let (Some(content), Some((size, offset, is_left_out))) = (content, own) {
                let place = |(section, number): (usize, usize)| {
                    let section = frames.sections.get(section)?;
                    let start = self.section(section.id)?.offset;
                    Some(start.wrapping_add(section.entries.get(number)?.now?))
                };
                let mut shortened = section.shortened(content, (size, offset), &place);
                shortened.is_left_out = is_left_out;
                if shortened.contents != content {
                    self.shortened.insert(section.id, Arc::new(shortened));
                }
            }
        }
    }
}

impl Frames {
    /// The sections whose entries are not understood.
    pub(in crate::layout) fn unknown(&self) -> &[SectionId] {
        &self.unknown
    }

    /// Whether anything stays.
    pub(in crate::layout) fn has_entries(&self) -> bool {
        self.sections.iter().flat_map(|section| &section.entries).any(|one| one.now.is_some())
    }

    /// The entries of functions that stay, each with the object that has it.
    fn staying<'a>(&'a self) -> impl Iterator<Item = (ObjectIndex, &'a Frame)> {
        let of = |section: &'a Section| {
            let object = section.object;
            section.entries.iter().filter_map(move |one| Some((object, one.frame()?)))
        };
        self.sections.iter().flat_map(of)
    }

    /// The rows of the table; marks the fields that GNU ld leaves empty, as they are 0 before the entries move.
    fn rows(&mut self, link: &Link<'_>, objects: &[Object]) -> Result<Vec<FrameRow>, EhFrameHdrProblem> {
        let symbols =
            self.staying().flat_map(|(object, frame)| frame.fields().map(move |one| (object, one.relocation.symbol)));
        let targets = Targets::of(link, objects, symbols);
        let mut rows = Ok(Vec::new());
        for section in &mut self.sections {
            let start = link.section(section.id).and_then(|own| {
                let place = link.place(own.output()?)?;
                Some(place.address.wrapping_add(own.offset))
            });
            for one in &mut section.entries {
                let (start, now, frame) = match (start, one.now, one.frame()) {
                    (Some(start), Some(now), Some(frame)) => (start, now, frame),
                    _ => continue,
                };
                let place = |field: &Field| start.wrapping_add(field.relocation.offset);
                let value = |field: &Field| targets.value(section.object, field, place(field));
                let is_empty = |field: &&Field| field.is_distance() && value(field).map_or(false, |found| found.0 == 0);
                let empty = frame.fields().filter(is_empty).map(|field| (field.relocation.offset, field.width()));
                let empty: Vec<(u64, usize)> = empty.filter(|_| now != one.entry.at).collect();
                let row = value(&frame.start).and_then(|(value, code_in)| {
                    let code = frame.start.address(value, place(&frame.start))?;
                    let (range, entry) = (frame.range?, start.wrapping_add(now));
                    Some(FrameRow { code, range, entry, code_in, entry_in: section.id })
                });
                match (row, &mut rows) {
                    (Some(row), Ok(rows)) => rows.push(row),
                    (None, _) => rows = Err(EhFrameHdrProblem::Unknown),
                    (Some(_), Err(_)) => {}
                }
                if now != one.entry.at && frame.fields().any(Field::is_mixed) {
                    self.mixed = Some(section.id);
                }
                one.empty = empty;
            }
        }
        rows
    }

    /// Chooses what stays; `last` is the last section of all.
    fn choose(&mut self, link: &Link<'_>, objects: &[Object], last: Option<SectionId>) {
        let sections = self.sections.iter().map(|section| (section.object, section.number));
        let deleted = DeletedSymbols::of(link, objects, sections);
        let mut known: FastMap<Key, (usize, usize)> = FastMap::default();
        for at in 0..self.sections.len() {
            let section = match self.sections.get_mut(at) {
                Some(section) => section,
                None => return,
            };
            let (index, is_last) = (section.object, Some(section.id) == last);
            for number in 0..section.entries.len() {
                let code = match section.entries.get_mut(number) {
                    Some(one) => match &one.entry.kind {
                        EntryKind::End => {
                            one.now = is_last.then_some(0);
                            continue;
                        }
                        EntryKind::Frame(Frame { common: Some(common), code, .. }) => (*common, *code),
                        EntryKind::Frame(_) | EntryKind::Common(_) => continue,
                    },
                    None => continue,
                };
                if deleted.has(index, code.1) {
                    continue;
                }
                let common = section.common_of(objects, (at, code.0), &mut known);
                if let Some(one) = section.entries.get_mut(number) {
                    (one.now, one.common) = (Some(0), Some(common));
                }
            }
        }
    }

    /// Gives what stays its places, and the sections their sizes.
    fn place(&mut self, link: &mut Link<'_>) {
        for section in &mut self.sections {
            let mut offset = 0u64;
            for one in section.entries.iter_mut().filter(|one| one.now.is_some()) {
                let align = one.entry.align();
                offset = offset.wrapping_add(align - 1) & !(align - 1);
                one.now = Some(offset);
                offset += one.entry.size;
            }
            if let Some(own) = link.section_mut(section.id) {
                own.size = offset.wrapping_add(ALIGN - 1) & !(ALIGN - 1);
            }
        }
    }
}

impl Edited {
    /// What it says of a function, if it is the entry of one and stays.
    fn frame(&self) -> Option<&Frame> {
        match &self.entry.kind {
            EntryKind::Frame(frame) => self.now.map(|_| frame),
            EntryKind::Common(_) | EntryKind::End => None,
        }
    }
}

impl Section {
    /// The CIE that takes the place of one of this section (`find_merged_cie`).
    fn common_of(
        &mut self,
        objects: &[Object],
        (at, number): (usize, usize),
        known: &mut FastMap<Key, (usize, usize)>,
    ) -> (usize, usize) {
        let object = objects.get(self.object.0 as usize);
        let (index, own) = (self.object, (at, number));
        let one = match self.entries.get_mut(number) {
            Some(one) => one,
            None => return own,
        };
        if one.now.is_some() {
            return own;
        }
        if let Some(merged) = one.common {
            return merged;
        }
        let key = match &one.entry.kind {
            EntryKind::Common(common) => key_of(common, index, object),
            EntryKind::Frame(_) | EntryKind::End => None,
        };
        let kept = key.map_or(own, |key| *known.entry(key).or_insert(own));
        if kept == own {
            one.now = Some(0);
        } else {
            one.common = Some(kept);
        }
        kept
    }

    /// What stays of the section, which has a size and a place in its output section; `place` gives those of CIEs.
    fn shortened(
        &self,
        content: &[u8],
        (size, offset): (u64, u64),
        place: &dyn Fn((usize, usize)) -> Option<u64>,
    ) -> Shortened {
        let mut shortened = Shortened::of(content.len() as u64);
        let staying = || self.entries.iter().filter_map(|one| Some((one, one.now?)));
        let mut nexts = staying().map(|(_, now)| now).skip(1).chain([size]);
        for (one, now) in staying() {
            let (from, next) = (one.entry.at, nexts.next().unwrap_or(size));
            let bytes = usize::try_from(from).ok().and_then(|at| content.get(at..at + one.entry.size as usize));
            shortened.fill(now);
            shortened.keep(from, bytes.unwrap_or_default());
            if matches!(one.entry.kind, EntryKind::End) {
                continue;
            }
            shortened.write(from, &(next.wrapping_sub(now).wrapping_sub(WORD) as u32).to_le_bytes());
            let to = one.common.and_then(place).filter(|_| matches!(one.entry.kind, EntryKind::Frame(_)));
            if let Some(common) = to {
                let back = now.wrapping_add(offset).wrapping_add(WORD).wrapping_sub(common);
                shortened.write(from + WORD, &(back as u32).to_le_bytes());
            }
            one.empty.iter().for_each(|(at, width)| shortened.write(*at, &vec![0; *width]));
        }
        shortened.fill(size);
        let after = |number: usize| {
            let rest = self.entries.get(number..).unwrap_or_default();
            rest.iter().find_map(|one| one.now).unwrap_or(size)
        };
        for (number, one) in self.entries.iter().enumerate() {
            let merged = one.common.filter(|_| one.now.is_none()).and_then(place);
            let to = one.now.or_else(|| merged.map(|at| at.wrapping_sub(offset))).unwrap_or_else(|| after(number));
            shortened.move_names(one.entry.at, to);
        }
        shortened
    }
}

/// What tells a CIE from others; `None` of one that is merged with none (`cie_eq`).
fn key_of(common: &Common, index: ObjectIndex, object: Option<&Object>) -> Option<Key> {
    if common.instructions.len() > MAX_INSTRUCTIONS || common.augmentation == b"eh" {
        return None;
    }
    let personality = match common.personality {
        None => None,
        Some(number) => match object?.symbol(number)? {
            symbol if symbol.binding != Binding::Local => Some(Personality::Name(symbol.name.to_vec())),
            symbol => match symbol.home {
                Home::Section(_) if number.0 != 0 => Some(Personality::Local(index, number)),
                _ => return None,
            },
        },
    };
    Some(Key { common: common.without_personality(), personality })
}
