//! The program headers that a script's PHDRS ask for, in place of those of `ldi`.
//!
//! GNU ld's manual has the language ('PHDRS Command'). What is loaded, all addresses and the section headers but for
//! `sh_offset` stay as they are; a segment may have the file's own headers besides.

use std::collections::HashMap;

use bstr::{BStr, BString, ByteSlice};
use object::elf;

use super::file_image::{aligned, range, FilePlan};
use super::image_headers::{Image, NotAnImage, Section, Segment, ELF_HEADER, PROGRAM_HEADER};
use super::MAX_FILE;

/// The program headers that a file has at most.
const MAX_COUNT: usize = 0xFFFE;
/// The alignment of a segment without sections.
const WORD: u64 = 8;

/// A program header that PHDRS asks for.
#[derive(Clone, PartialEq, Eq, Debug, Default)]
pub struct WantedSegment {
    /// Its name.
    pub name: BString,
    /// Its type.
    pub kind: u32,
    /// What FLAGS says; else the rights of the segment's sections.
    pub flags: Option<u32>,
    /// What AT says.
    pub load: Option<u64>,
    /// FILEHDR: the segment has the file's header.
    pub has_file_header: bool,
    /// PHDRS: the segment has the program headers.
    pub has_program_headers: bool,
    /// The names of its sections in the image, in their order.
    pub sections: Vec<BString>,
}

/// Why the program headers of PHDRS are not written for an image.
#[derive(Clone, PartialEq, Eq, Debug, thiserror::Error)]
pub enum NotWritten {
    /// The program headers are not known.
    #[error("{0}")]
    Unknown(String),
    /// What is there is no image.
    #[error(transparent)]
    NotAnImage(#[from] NotAnImage),
    /// There are too many program headers.
    #[error("there are {0} program headers")]
    TooMany(usize),
    /// The file would be too large.
    #[error("the image would have {0} bytes")]
    TooLarge(u64),
    /// The sections of a PT_LOAD do not ascend.
    #[error("{section} of {segment} lies before the end of {before}")]
    Descends {
        /// The section.
        section: BString,
        /// The segment.
        segment: BString,
        /// The section before it.
        before: BString,
    },
    /// The sections of a PT_LOAD are not loaded at one distance from their addresses.
    #[error("{before} and {section} of {segment} are loaded at two distances from their addresses")]
    TwoDistances {
        /// The section.
        section: BString,
        /// The segment.
        segment: BString,
        /// The section before it.
        before: BString,
    },
    /// Headers in a later PT_LOAD.
    #[error("{0} has FILEHDR or PHDRS and is not the first PT_LOAD")]
    LateHeaders(BString),
    /// A section in two PT_LOADs.
    #[error("{section} is in {first} and in {second}, both PT_LOAD")]
    Twice {
        /// The section.
        section: BString,
        /// The first segment.
        first: BString,
        /// The second one.
        second: BString,
    },
    /// There is no room for the headers of the file.
    #[error("there is no room for the headers of the file before {0}")]
    NoRoom(BString),
    /// Headers in a segment of another type.
    #[error("{0} has FILEHDR or PHDRS and is neither PT_LOAD nor PT_PHDR with PHDRS")]
    OtherHeaders(BString),
    /// PT_PHDR without a PT_LOAD that has the headers.
    #[error("no PT_LOAD has the PHDRS of {0}")]
    NotLoaded(BString),
    /// Two PT_LOADs at one place.
    #[error("{first} and {second} would share {what}")]
    Shared {
        /// The first segment.
        first: BString,
        /// The second one.
        second: BString,
        /// `addresses` or `load addresses`.
        what: &'static str,
    },
}

/// A section of the image, with the place that it gets in the file.
struct Part<'a> {
    name: &'a BStr,
    /// Its number among the section headers.
    index: usize,
    header: Section,
    load: u64,
    place: Option<u64>,
}

impl Part<'_> {
    /// How far its load address is from its address.
    fn distance(&self) -> u64 {
        self.load.wrapping_sub(self.header.address)
    }
}

/// A program header: what is wanted, its sections by their places in the list of parts, and what is written.
struct Entry<'a> {
    wanted: &'a WantedSegment,
    parts: Vec<usize>,
    written: Segment,
    align: u64,
}

impl Entry<'_> {
    fn is_load(&self) -> bool {
        self.wanted.kind == elf::PT_LOAD
    }

    fn wants_headers(&self) -> bool {
        self.wanted.has_file_header || self.wanted.has_program_headers
    }
}

/// The parts and the entries while they are placed.
struct Writer<'a> {
    parts: Vec<Part<'a>>,
    entries: Vec<Entry<'a>>,
}

/// The file with the program headers of PHDRS, its segments aligned to `page` or more.
pub(super) fn write(data: &[u8], wanted: &[WantedSegment], page: u64) -> Result<FilePlan, NotWritten> {
    let image = Image::read(data)?;
    if wanted.len() > MAX_COUNT {
        return Err(NotWritten::TooMany(wanted.len()));
    }
    let parts = parts_of(&image)?;
    let entries = entries_of(&parts, wanted, page.max(1));
    let mut writer = Writer { parts, entries };
    let end = writer.place_loads()?;
    let end = writer.place_others(end);
    if end > MAX_FILE {
        return Err(NotWritten::TooLarge(end));
    }
    writer.write()?;
    writer.check_apart()?;
    Ok(writer.plan(&image, end))
}

/// A section: its name, its address and its size.
type NamedPlace = (BString, (u64, u64));

/// The sections that are not empty and that PHDRS have in no segment.
pub(super) fn outside(data: &[u8], wanted: &[WantedSegment]) -> Result<Vec<NamedPlace>, NotAnImage> {
    let image = Image::read(data)?;
    let is_inside = |part: &Part<'_>| wanted.iter().any(|one| one.sections.iter().any(|name| name == part.name));
    let parts = parts_of(&image)?;
    let found = parts.iter().filter(|part| part.header.size != 0 && !is_inside(part));
    Ok(found.map(|part| (part.name.to_owned(), (part.header.address, part.header.size))).collect())
}

fn parts_of<'a>(image: &Image<'a>) -> Result<Vec<Part<'a>>, NotAnImage> {
    let sections = image.sections.iter().enumerate().filter(|(_, section)| section.is_allocated());
    sections
        .map(|(index, section)| {
            let (name, load) = (image.name(section)?, image.load_of(section));
            Ok(Part { name, index, header: *section, load, place: None })
        })
        .collect()
}

/// The program headers with their sections that are not empty; what is no PT_LOAD has else its first one.
fn entries_of<'a>(parts: &[Part<'_>], wanted: &'a [WantedSegment], page: u64) -> Vec<Entry<'a>> {
    let by_name: HashMap<&BStr, usize> = parts.iter().enumerate().map(|(at, part)| (part.name, at)).collect();
    let size = |at: &usize| parts.get(*at).map_or(0, |part| part.header.size);
    let align = |at: &usize| parts.get(*at).map_or(1, |part| part.header.align);
    let entry = |wanted: &'a WantedSegment| {
        let found: Vec<usize> =
            wanted.sections.iter().filter_map(|name| by_name.get(name.as_bstr()).copied()).collect();
        let mut mine: Vec<usize> = found.iter().copied().filter(|at| size(at) != 0).collect();
        if mine.is_empty() && wanted.kind != elf::PT_LOAD {
            mine.extend(found.first());
        }
        let mut most = mine.iter().map(align).max().unwrap_or(WORD);
        if wanted.kind == elf::PT_LOAD {
            most = most.max(page);
        }
        let written = Segment { kind: wanted.kind, ..Segment::default() };
        Entry { wanted, parts: mine, written, align: most }
    };
    wanted.iter().map(entry).collect()
}

impl Writer<'_> {
    fn part(&self, at: usize) -> Option<&Part<'_>> {
        self.parts.get(at)
    }

    /// The sections of a PT_LOAD ascend, and are loaded at one distance from their addresses.
    fn check_order(&self, entry: &Entry<'_>) -> Result<(), NotWritten> {
        for pair in entry.parts.windows(2) {
            if let [Some(one), Some(other)] = [0, 1].map(|at| pair.get(at).and_then(|at| self.part(*at))) {
                let (before, section, segment) =
                    (one.name.to_owned(), other.name.to_owned(), entry.wanted.name.clone());
                if other.header.address < one.header.end() {
                    return Err(NotWritten::Descends { section, segment, before });
                }
                if other.distance() != one.distance() {
                    return Err(NotWritten::TwoDistances { section, segment, before });
                }
            }
        }
        Ok(())
    }

    /// Whether the file has bytes of a segment.
    fn is_in_file(&self, entry: &Entry<'_>) -> bool {
        let mut parts = entry.parts.iter().filter_map(|at| self.part(*at));
        entry.wants_headers() || parts.any(|part| part.header.is_in_file())
    }

    /// The PT_LOADs by their numbers, in the order in which they are in the file: with headers first, then by load
    /// addresses (elf.c, `elf_sort_segments`).
    fn in_order(&self) -> Vec<usize> {
        let load = |entry: &Entry<'_>| {
            let first = entry.parts.first().and_then(|at| self.part(*at));
            entry.wanted.load.or_else(|| first.map(|part| part.load)).unwrap_or(0)
        };
        let mut numbers: Vec<usize> = (0..self.entries.len()).collect();
        numbers.retain(|at| self.entries.get(*at).map_or(false, Entry::is_load));
        numbers.sort_by_key(|at| self.entries.get(*at).map(|entry| (!entry.wants_headers(), load(entry))));
        numbers
    }

    /// Gives the sections of each PT_LOAD their places, one segment after the other; gives the end of the last one.
    fn place_loads(&mut self) -> Result<u64, NotWritten> {
        let mut end = ELF_HEADER + PROGRAM_HEADER * self.entries.len() as u64;
        let mut loads = self.entries.iter().filter(|entry| entry.is_load()).skip(1);
        if let Some(late) = loads.find(|entry| entry.wants_headers()) {
            return Err(NotWritten::LateHeaders(late.wanted.name.clone()));
        }
        let mut placed: HashMap<usize, &BStr> = HashMap::new();
        for number in self.in_order() {
            let start = end;
            let places = match self.entries.get(number) {
                Some(entry) => self.places_in(entry, &mut end)?,
                None => continue,
            };
            let entry = match self.entries.get_mut(number) {
                Some(entry) => entry,
                None => continue,
            };
            if places.is_empty() {
                entry.written.offset = start;
            }
            let wanted = entry.wanted;
            for (at, place) in places {
                let part = match self.parts.get_mut(at) {
                    Some(part) => part,
                    None => continue,
                };
                if let Some(other) = placed.insert(at, wanted.name.as_bstr()) {
                    let (section, first, second) = (part.name.to_owned(), other.to_owned(), wanted.name.clone());
                    return Err(NotWritten::Twice { section, first, second });
                }
                part.place = Some(place);
            }
        }
        Ok(end)
    }

    /// The places of the sections of a PT_LOAD behind others that end at a place, which moves.
    fn places_in(&self, entry: &Entry<'_>, end: &mut u64) -> Result<Vec<(usize, u64)>, NotWritten> {
        self.check_order(entry)?;
        let parts = || entry.parts.iter().filter_map(|at| Some((*at, self.part(*at)?)));
        let first = parts().next().map_or(0, |(_, part)| part.header.address);
        let start = end.wrapping_add(first.wrapping_sub(*end) & (entry.align - 1));
        let mut places = Vec::with_capacity(entry.parts.len());
        for (at, part) in parts() {
            let place = start.saturating_add(part.header.address.wrapping_sub(first));
            places.push((at, place));
            if part.header.is_in_file() {
                *end = place.saturating_add(part.header.size);
            }
        }
        Ok(places)
    }

    /// Places the sections that no PT_LOAD has: empty ones by those around them, others at the end.
    fn place_others(&mut self, mut end: u64) -> u64 {
        let loads: Vec<(u64, u64, u64)> =
            self.parts.iter().filter_map(|part| Some((part.header.address, part.header.end(), part.place?))).collect();
        for part in self.parts.iter_mut().filter(|part| part.place.is_none()) {
            let address = part.header.address;
            let near = loads.iter().filter(|(start, ..)| *start <= address).max_by_key(|(start, ..)| *start);
            match near {
                Some((start, after, place)) if part.header.size == 0 && address <= *after => {
                    part.place = Some(place + (address - start));
                }
                _ => {
                    end = aligned(end, part.header.align);
                    part.place = Some(end);
                    if part.header.is_in_file() {
                        end = end.saturating_add(part.header.size);
                    }
                }
            }
        }
        end
    }

    /// The rights of a segment: FLAGS, else those of its sections; headers are read.
    fn rights(&self, entry: &Entry<'_>) -> u32 {
        if let Some(flags) = entry.wanted.flags {
            return flags;
        }
        let mut rights = if entry.parts.is_empty() && !entry.wants_headers() { 0 } else { elf::PF_R };
        for part in entry.parts.iter().filter_map(|at| self.part(*at)) {
            for (flag, right) in [(elf::SHF_WRITE, elf::PF_W), (elf::SHF_EXECINSTR, elf::PF_X)] {
                if part.header.flags & u64::from(flag) != 0 {
                    rights |= right;
                }
            }
        }
        rights
    }

    /// Fills in the program headers, after all sections have their places.
    fn write(&mut self) -> Result<(), NotWritten> {
        let mut written = Vec::with_capacity(self.entries.len());
        for entry in &self.entries {
            let mut segment = self.segment_of(entry);
            let mut align = entry.align;
            if entry.is_load() && entry.wants_headers() {
                self.put_headers_in(entry, &mut segment)?;
            } else if entry.wants_headers() {
                segment = self.table(entry, segment.flags)?;
                align = WORD;
            }
            if let Some(load) = entry.wanted.load {
                segment.load = load;
            }
            written.push((segment, align));
        }
        for (entry, (segment, align)) in self.entries.iter_mut().zip(written) {
            entry.written = Segment { align, ..segment };
        }
        Ok(())
    }

    /// A program header by its sections alone.
    fn segment_of(&self, entry: &Entry<'_>) -> Segment {
        let (kind, offset) = (entry.wanted.kind, entry.written.offset);
        let mut segment = Segment { kind, flags: self.rights(entry), offset, ..Segment::default() };
        let parts = || entry.parts.iter().filter_map(|at| self.part(*at));
        if let Some(first) = parts().next() {
            segment.offset = first.place.unwrap_or(0);
            if entry.is_load() && !self.is_in_file(entry) {
                // elf.c, `assign_file_positions_for_load_sections`: it is to be within the file.
                segment.offset &= entry.align - 1;
            }
            segment.address = first.header.address;
            segment.load = first.load;
            let ends = parts().filter(|part| part.header.is_in_file());
            let last = ends.max_by_key(|part| part.place);
            let end = last.map_or(segment.offset, |part| part.place.unwrap_or(0).saturating_add(part.header.size));
            segment.file_size = end.saturating_sub(segment.offset);
            segment.memory_size =
                parts().map(|part| part.header.end()).max().unwrap_or(0).wrapping_sub(segment.address);
        }
        segment
    }

    /// Lets the first PT_LOAD begin with the headers.
    fn put_headers_in(&self, entry: &Entry<'_>, segment: &mut Segment) -> Result<(), NotWritten> {
        let start = if entry.wanted.has_file_header { 0 } else { ELF_HEADER };
        let more = segment.offset.wrapping_sub(start);
        if entry.parts.is_empty() || segment.address < more || segment.load < more {
            return Err(NotWritten::NoRoom(entry.wanted.name.clone()));
        }
        segment.offset = start;
        segment.address -= more;
        segment.load -= more;
        segment.file_size += more;
        segment.memory_size += more;
        Ok(())
    }

    /// PT_PHDR with PHDRS: the table itself, at its address in the PT_LOAD that has it.
    fn table(&self, entry: &Entry<'_>, flags: u32) -> Result<Segment, NotWritten> {
        let name = || entry.wanted.name.clone();
        let is_table = entry.wanted.kind == elf::PT_PHDR && entry.wanted.has_program_headers;
        if !is_table || entry.wanted.has_file_header {
            return Err(NotWritten::OtherHeaders(name()));
        }
        let mut loads = self.entries.iter().filter(|one| one.is_load() && one.wanted.has_program_headers);
        let load = loads.next().ok_or_else(|| NotWritten::NotLoaded(name()))?;
        let first = load.parts.first().and_then(|at| self.part(*at)).ok_or_else(|| NotWritten::NotLoaded(name()))?;
        let before = first.place.unwrap_or(0).wrapping_sub(ELF_HEADER);
        let (address, load) = (first.header.address.wrapping_sub(before), first.load.wrapping_sub(before));
        let size = PROGRAM_HEADER * self.entries.len() as u64;
        Ok(Segment {
            kind: elf::PT_PHDR,
            flags,
            offset: ELF_HEADER,
            address,
            load,
            file_size: size,
            memory_size: size,
            align: WORD,
        })
    }

    /// Tests that no two PT_LOADs share addresses or load addresses.
    fn check_apart(&self) -> Result<(), NotWritten> {
        let loads = || self.entries.iter().filter(|entry| entry.is_load() && entry.written.memory_size != 0);
        for what in ["addresses", "load addresses"] {
            let start = |one: &Segment| if what == "addresses" { one.address } else { one.load };
            let mut starts: Vec<(u64, u64, &BString)> =
                loads().map(|entry| (start(&entry.written), entry.written.memory_size, &entry.wanted.name)).collect();
            starts.sort();
            for pair in starts.windows(2) {
                if let [(start, size, first), (other, _, second)] = pair {
                    if start.saturating_add(*size) > *other {
                        let (first, second) = ((*first).clone(), (*second).clone());
                        return Err(NotWritten::Shared { first, second, what });
                    }
                }
            }
        }
        Ok(())
    }

    /// The file: the headers, the sections at their places, and what is not loaded.
    fn plan(&self, image: &Image<'_>, end: u64) -> FilePlan {
        let mut sections = image.sections.clone();
        let mut loaded = Vec::with_capacity(self.parts.len());
        for part in &self.parts {
            let place = part.place.unwrap_or(part.header.offset);
            if let Some(section) = sections.get_mut(part.index) {
                section.offset = place;
            }
            if part.header.is_in_file() && part.header.size != 0 {
                loaded.push((place, range(part.header.offset, part.header.size)));
            }
        }
        let segments = self.entries.iter().map(|entry| entry.written).collect();
        FilePlan { segments, loaded, end, sections, ..FilePlan::unchanged(image) }
    }
}
