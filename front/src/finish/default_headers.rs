//! The program headers that GNU ld makes if the script has no PHDRS, and where it puts sections in the file (elf.c,
//! `_bfd_elf_map_sections_to_segments`, `assign_file_positions_for_load_sections`,
//! `assign_file_positions_for_non_load_sections`).
//!
//! A program that finds its program headers in memory finds them by their address there (AT_PHDR).

use std::collections::HashMap;

use bstr::{BString, ByteSlice};
use object::elf;

use super::file_image::{range, FilePlan};
use super::image_headers::{Image, NotAnImage, Section, Segment, ELF_HEADER, PROGRAM_HEADER};
use super::phdrs::NotWritten;
use super::{MAX_FILE, PAGE};
use crate::layout::segments::{is_relro, loads, HeaderPlace, InMemory, Load, Paging};
use crate::layout::Flags;

/// The type of a segment of properties (Linux gABI extensions).
pub const PT_GNU_PROPERTY: u32 = 0x6474_E553;
/// The alignment of a segment without sections.
const WORD: u64 = 8;

/// What program headers are made of.
#[derive(Clone, PartialEq, Eq, Debug)]
pub struct MadeHeaders {
    /// The output sections that take memory, in the order of GNU ld's section headers.
    pub sections: Vec<MadeSection>,
    /// How the file is laid out in pages.
    pub paging: Paging,
    /// Whether `-z max-page-size` is given.
    pub has_own_page: bool,
    /// How many program headers there is room for.
    pub room: u64,
    /// The segments in front of those that are loaded.
    pub before: Vec<MadeSegment>,
    /// The segments behind those that are loaded.
    pub after: Vec<MadeSegment>,
    /// What is read-only after relocation: the start and the end of PT_GNU_RELRO.
    pub relro: Option<(u64, u64)>,
}

impl MadeHeaders {
    /// Whether the headers of the file are in memory.
    pub(super) fn are_in_memory(&self) -> bool {
        loads(&memory_of(&self.sections), &self.paging).first().map_or(false, |load| load.headers.is_some())
    }
}

/// An output section that takes memory.
#[derive(Clone, PartialEq, Eq, Debug)]
pub struct MadeSection {
    /// Its name.
    pub name: BString,
    /// Its flags in the section header.
    pub bits: u64,
    /// Its place.
    pub memory: InMemory,
}

impl MadeSection {
    /// The rights of a segment that has it.
    fn rights(&self) -> u32 {
        let right = |bit: u32, right: u32| if self.bits & u64::from(bit) != 0 { right } else { 0 };
        elf::PF_R | right(elf::SHF_WRITE, elf::PF_W) | right(elf::SHF_EXECINSTR, elf::PF_X)
    }
}

fn memory_of(sections: &[MadeSection]) -> Vec<InMemory> {
    sections.iter().map(|section| section.memory).collect()
}

/// A program header of what is in a PT_LOAD besides, or of nothing.
#[derive(Clone, PartialEq, Eq, Debug, Default)]
pub struct MadeSegment {
    /// Its type.
    pub kind: u32,
    /// Its rights; else those of its sections.
    pub flags: Option<u32>,
    /// Its alignment if it has no sections.
    pub align: u64,
    /// Its bytes in memory if it has no sections.
    pub size: u64,
    /// Its sections, by their places in the list.
    pub sections: Vec<usize>,
}

/// The file with these program headers. If the image is laid out otherwise than GNU ld's they are those that GNU ld
/// would make of the sections of the image.
pub(super) fn write(data: &[u8], made: &MadeHeaders, renamed: &[(BString, BString)]) -> Result<FilePlan, NotWritten> {
    let image = Image::read(data)?;
    let (made, homes) = match homes_of(&image, &made.sections)? {
        Some(homes) => (made.clone(), homes),
        None => of_image(&image, made, renamed)?,
    };
    let mut writer = Writer::new(&made);
    let end = writer.place()?;
    if end > MAX_FILE {
        return Err(NotWritten::TooLarge(end));
    }
    writer.plan(&image, &homes, end)
}

/// By section: the number of its header in the image; `None` if the image has no header of it. Nothing if the
/// image is laid out otherwise.
fn homes_of(image: &Image<'_>, sections: &[MadeSection]) -> Result<Option<Vec<Option<usize>>>, NotAnImage> {
    let is_nonempty = |section: &MadeSection| section.memory.size != 0;
    let mut rest: HashMap<(u64, u64), usize> = HashMap::new();
    for (at, section) in sections.iter().enumerate().filter(|(_, section)| is_nonempty(section)) {
        rest.insert((section.memory.address, section.memory.size), at);
    }
    let mut homes = vec![None; sections.len()];
    let count = rest.len();
    let mut found = 0;
    for (number, header) in loaded(image) {
        let at = rest.remove(&(header.address, header.size));
        let memory = at.and_then(|at| sections.get(at)).map(|section| &section.memory);
        let is_there = memory
            .map_or(false, |memory| memory.load == image.load_of(header) && memory.has_bytes == header.is_in_file());
        if !is_there {
            return Ok(None);
        }
        at.and_then(|at| homes.get_mut(at)).into_iter().for_each(|home| *home = Some(number));
        found += 1;
    }
    Ok((found == count && count == sections.iter().filter(|section| is_nonempty(section)).count()).then_some(homes))
}

/// The headers of the sections that take memory and are not empty, with their numbers.
fn loaded<'a>(image: &'a Image<'_>) -> impl Iterator<Item = (usize, &'a Section)> {
    image.sections.iter().enumerate().filter(|(_, section)| section.is_allocated() && section.size != 0)
}

/// The headers that GNU ld would make of the sections of an image that is laid out otherwise; and for each section the
/// number of its header in the image.
fn of_image(
    image: &Image<'_>,
    made: &MadeHeaders,
    renamed: &[(BString, BString)],
) -> Result<(MadeHeaders, Vec<Option<usize>>), NotAnImage> {
    let (mut sections, mut homes) = (Vec::new(), Vec::new());
    for (number, header) in loaded(image) {
        let own = image.name(header)?;
        let name = renamed.iter().find(|(old, _)| old == own).map_or(own, |(_, new)| new.as_bstr()).to_owned();
        sections.push(MadeSection { name, bits: header.flags, memory: in_memory(image, header) });
        homes.push(Some(number));
    }
    let place = |at: &usize| {
        let name = &made.sections.get(*at)?.name;
        sections.iter().position(|section| section.name == *name)
    };
    let others = |segments: &[MadeSegment]| -> Vec<MadeSegment> {
        let moved = |one: &MadeSegment| MadeSegment {
            sections: one.sections.iter().filter_map(place).collect(),
            ..one.clone()
        };
        let stays = |(one, moved): &(&MadeSegment, MadeSegment)| one.sections.is_empty() || !moved.sections.is_empty();
        segments.iter().map(|one| (one, moved(one))).filter(stays).map(|(_, moved)| moved).collect()
    };
    let (before, mut after) = (others(&made.before), others(&made.after));
    let mut relro = made.relro;
    let count = before.len() + after.len() + loads(&memory_of(&sections), &made.paging).len();
    if made.paging.wants_headers && (count + usize::from(relro.is_some())) as u64 > made.room {
        // Programs need no more than these.
        after.retain(|one| !matches!(one.kind, elf::PT_NOTE | PT_GNU_PROPERTY));
        relro = None;
    }
    Ok((MadeHeaders { sections, before, after, relro, ..*made }, homes))
}

/// A section of the image as one of GNU ld's.
fn in_memory(image: &Image<'_>, header: &Section) -> InMemory {
    let has = |bit: u32| header.flags & u64::from(bit) != 0;
    let mut flags = Flags::ALLOC;
    for (is_set, flag) in [
        (header.is_in_file(), Flags::LOAD | Flags::CONTENTS),
        (!has(elf::SHF_WRITE), Flags::READONLY),
        (has(elf::SHF_EXECINSTR), Flags::CODE),
    ] {
        flags |= if is_set { flag } else { Flags::NONE };
    }
    InMemory {
        address: header.address,
        load: image.load_of(header),
        size: header.size,
        align: header.align,
        flags,
        has_bytes: header.is_in_file(),
        region: 0,
    }
}

/// The program headers while they are written.
struct Writer<'a> {
    made: &'a MadeHeaders,
    loads: Vec<Load>,
    /// The PT_LOADs, as they are written.
    written: Vec<Segment>,
    /// The bytes of all headers of the file.
    header_size: u64,
    /// By section, where it is in the file.
    places: Vec<Option<u64>>,
}

impl<'a> Writer<'a> {
    fn new(made: &'a MadeHeaders) -> Writer<'a> {
        let memory = memory_of(&made.sections);
        let loads = loads(&memory, &made.paging);
        let has_relro = made.relro.map_or(false, |relro| loads.iter().any(|load| is_relro(load, &memory, relro)));
        let count = (made.before.len() + loads.len() + made.after.len() + usize::from(has_relro)) as u64;
        let header_size = ELF_HEADER + PROGRAM_HEADER * count.max(made.room);
        Writer { made, loads, written: Vec::new(), header_size, places: vec![None; made.sections.len()] }
    }

    fn section(&self, at: usize) -> Option<&'a MadeSection> {
        self.made.sections.get(at)
    }

    fn sections<'b>(&'b self, numbers: &'b [usize]) -> impl Iterator<Item = &'a MadeSection> + 'b {
        numbers.iter().filter_map(move |at| self.section(*at))
    }

    /// The bytes of the pages that segments are at in the file.
    fn page(&self) -> u64 {
        if self.made.paging.is_paged {
            self.made.paging.page
        } else {
            1
        }
    }

    /// The alignment of a PT_LOAD by the greatest one of its sections.
    fn align_for(&self, most: u64) -> u64 {
        let page = self.page();
        if self.made.paging.is_paged && !self.made.has_own_page && most <= PAGE && most < page {
            PAGE
        } else {
            page.max(most)
        }
    }

    /// Gives the PT_LOADs and their sections their places in the file; gives the end of the last one.
    fn place(&mut self) -> Result<u64, NotWritten> {
        let mut end = self.header_size;
        for load in std::mem::take(&mut self.loads) {
            let written = self.place_load(&load, &mut end)?;
            self.written.push(written);
            self.loads.push(load);
        }
        Ok(end)
    }

    /// Places one PT_LOAD, the first or behind others that end at a place of the file.
    fn place_load(&mut self, load: &Load, end: &mut u64) -> Result<Segment, NotWritten> {
        let numbers = &load.sections;
        let most = self.sections(numbers).map(|one| one.memory.align).fold(1, u64::max);
        let (page, align) = (self.page(), self.align_for(most));
        let flags = self.sections(numbers).fold(elf::PF_R, |flags, one| flags | one.rights());
        let mut segment = Segment { kind: elf::PT_LOAD, flags, align, ..Segment::default() };
        let first = match self.sections(numbers).next() {
            Some(first) => first,
            None => return Ok(self.headers_alone(load, segment)),
        };
        let start = *end;
        *end = end.saturating_add(first.memory.address.wrapping_sub(*end) & (page.max(most) - 1));
        let is_in_file = self.sections(numbers).any(|one| one.memory.has_bytes);
        (segment.address, segment.load) = (first.memory.address, first.memory.load);
        if load.headers.is_some() {
            self.put_headers_in(&mut segment, first, *end, is_in_file)?;
        } else {
            segment.offset = if is_in_file { *end } else { *end & (page - 1) };
        }
        for at in numbers {
            self.place_section(*at, (&mut segment, end));
        }
        // A segment without bytes takes no room in the file.
        *end = if is_in_file { *end } else { start };
        Ok(segment)
    }

    /// Places a section behind those of its segment that stand before it.
    fn place_section(&mut self, at: usize, (segment, end): (&mut Segment, &mut u64)) -> Option<()> {
        let InMemory { load, size, has_bytes, .. } = self.section(at)?.memory;
        let gap = load.wrapping_sub(segment.load.wrapping_add(segment.memory_size));
        let before = segment.memory_size.wrapping_add(gap);
        segment.memory_size = before.wrapping_add(size);
        if has_bytes {
            // A section without bytes before it is in the file too, as zeros.
            *end = end.saturating_add(gap.max(before.saturating_sub(segment.file_size)));
            segment.file_size = segment.memory_size;
        }
        *self.places.get_mut(at)? = Some(*end);
        *end = end.saturating_add(if has_bytes { size } else { 0 });
        Some(())
    }

    /// The headers of the file in a segment of their own.
    fn headers_alone(&self, load: &Load, segment: Segment) -> Segment {
        let (address, place) = match load.headers {
            Some(HeaderPlace::Apart { address, load }) => (address, load),
            _ => (0, 0),
        };
        let size = self.header_size;
        Segment { address, load: place, file_size: size, memory_size: size, ..segment }
    }

    /// Lets a segment begin with the headers, in front of its first section at a place of the file.
    fn put_headers_in(
        &self,
        segment: &mut Segment,
        first: &MadeSection,
        place: u64,
        is_in_file: bool,
    ) -> Result<(), NotWritten> {
        if segment.address < place || segment.load < place {
            return Err(NotWritten::NoRoom(first.name.clone()));
        }
        segment.address -= place;
        segment.load -= place;
        segment.memory_size = place;
        segment.file_size = if is_in_file { place } else { self.header_size };
        Ok(())
    }

    /// A program header that is no PT_LOAD, after these have their places.
    fn other_segment(&self, made: &MadeSegment) -> Result<Segment, NotWritten> {
        let flags = |sections: &[usize]| self.sections(sections).fold(0, |flags, one| flags | one.rights());
        let flags = made.flags.unwrap_or_else(|| flags(&made.sections));
        let mut segment = Segment { kind: made.kind, flags, align: made.align, ..Segment::default() };
        if made.kind == elf::PT_PHDR {
            return self.table(segment);
        }
        let first = match made.sections.first() {
            Some(first) => *first,
            None => return Ok(Segment { memory_size: made.size, ..segment }),
        };
        segment.offset = self.place_of(first);
        if let Some(section) = self.section(first) {
            (segment.address, segment.load) = (section.memory.address, section.memory.load);
        }
        segment.align = self.sections(&made.sections).map(|one| one.memory.align).fold(1, u64::max);
        segment.memory_size = self.sections(&made.sections).map(|one| one.memory.size).fold(0, u64::wrapping_add);
        let has_bytes = |at: &&usize| self.section(**at).map_or(false, |one| one.memory.has_bytes);
        if let Some((at, section)) =
            made.sections.iter().rev().find(has_bytes).and_then(|at| Some((at, self.section(*at)?)))
        {
            segment.file_size = self.place_of(*at).saturating_add(section.memory.size).saturating_sub(segment.offset);
            if made.kind == elf::PT_NOTE {
                segment.memory_size = segment.file_size;
            }
        }
        Ok(segment)
    }

    fn place_of(&self, at: usize) -> u64 {
        self.places.get(at).copied().flatten().unwrap_or(0)
    }

    /// PT_PHDR: the table itself, in the PT_LOAD that has the headers.
    fn table(&self, segment: Segment) -> Result<Segment, NotWritten> {
        let with_headers = self.loads.iter().zip(&self.written).find(|(load, _)| load.headers.is_some());
        let (_, load) = with_headers.ok_or_else(|| NotWritten::NotLoaded(".interp".into()))?;
        let size = self.header_size - ELF_HEADER;
        Ok(Segment {
            offset: ELF_HEADER,
            address: load.address.wrapping_add(ELF_HEADER),
            load: load.load.wrapping_add(ELF_HEADER),
            file_size: size,
            memory_size: size,
            align: WORD,
            ..segment
        })
    }

    /// PT_GNU_RELRO: from the first section in its range to the end of that.
    fn relro(&self, (low, high): (u64, u64)) -> Option<Segment> {
        let memory = memory_of(&self.made.sections);
        self.loads.iter().find(|load| is_relro(load, &memory, (low, high)))?;
        Some(self.relro_of(&memory, (low, high)).unwrap_or_default())
    }

    fn relro_of(&self, memory: &[InMemory], (low, high): (u64, u64)) -> Option<Segment> {
        let is_around = |(load, _): &(&Load, &Segment)| {
            let (first, last) = (load.sections.first(), load.sections.last());
            let of = |at: Option<&usize>| at.and_then(|at| memory.get(*at));
            of(first).map_or(false, |first| first.address < high) && of(last).map_or(false, |last| last.end() > low)
        };
        let (load, written) = self.loads.iter().zip(&self.written).find(is_around)?;
        let is_in =
            |at: &&usize| memory.get(**at).map_or(false, |one| (low..high).contains(&one.address) && one.size != 0);
        let first = *load.sections.iter().find(is_in)?;
        let InMemory { address, load, .. } = *memory.get(first)?;
        let memory_size = high.wrapping_sub(address);
        let file_size = memory_size.min(written.address.wrapping_add(written.file_size).wrapping_sub(address));
        let (kind, flags, offset) = (elf::PT_GNU_RELRO, elf::PF_R, self.place_of(first));
        Some(Segment { kind, flags, offset, address, load, file_size, memory_size, align: 1 })
    }

    /// The program headers in their order.
    fn segments(&self) -> Result<Vec<Segment>, NotWritten> {
        let others =
            |made: &[MadeSegment]| made.iter().map(|one| self.other_segment(one)).collect::<Result<Vec<_>, _>>();
        let mut all = others(&self.made.before)?;
        all.extend(&self.written);
        all.extend(others(&self.made.after)?);
        all.extend(self.made.relro.and_then(|relro| self.relro(relro)));
        Ok(all)
    }

    /// The file: the headers, the sections at their places, and what is not loaded.
    fn plan(&self, image: &Image<'_>, homes: &[Option<usize>], end: u64) -> Result<FilePlan, NotWritten> {
        let mut sections = image.sections.clone();
        for section in sections.iter_mut().filter(|one| one.is_allocated() && one.size == 0) {
            section.offset = self.place_near(section.address);
        }
        let mut pieces = Vec::with_capacity(homes.len());
        for (at, home) in homes.iter().enumerate() {
            if let Some(section) = home.and_then(|home| sections.get_mut(home)) {
                let old = range(section.offset, section.size);
                section.offset = self.place_of(at);
                pieces.extend(section.is_in_file().then_some((section.offset, old)));
            }
        }
        let segments = self.segments()?;
        Ok(FilePlan { segments, loaded: pieces, end, sections, ..FilePlan::unchanged(image) })
    }

    /// Where an empty section of an address is in the file: by the segment around it.
    fn place_near(&self, address: u64) -> u64 {
        let is_around = |one: &&Segment| (one.address..=one.address.wrapping_add(one.file_size)).contains(&address);
        self.written.iter().find(is_around).map_or(0, |one| one.offset.saturating_add(address - one.address))
    }
}
