//! A file in pieces: parts of the image of `ldi` at their new places, and new headers.

use std::collections::BTreeMap;
use std::ops::Range;

use object::elf;

use super::image_headers::{Image, NotAnImage, Section, Segment, ELF_HEADER};
use super::symbols::SymbolTable;
use crate::session_client::SessionImage;
use crate::snapshot::Bytes;

/// Where fields are in the header of a file: EI_OSABI, e_phoff, e_shoff, e_phnum, e_shnum and e_shstrndx.
const SYSTEM_AT: usize = 7;
const SEGMENTS_AT: usize = 32;
const SECTIONS_AT: usize = 40;
const SEGMENT_COUNT_AT: usize = 56;
const SECTION_COUNT_AT: usize = 60;
const NAMES_AT: usize = 62;

/// A file: pieces at ascending places, with zeros between. No byte of the image is copied for it.
#[derive(Debug)]
pub struct FileImage {
    image: SessionImage,
    pieces: Vec<Piece>,
    length: u64,
}

#[derive(Clone, PartialEq, Eq, Debug)]
struct Piece {
    at: u64,
    source: Source,
}

#[derive(Clone, PartialEq, Eq, Debug)]
enum Source {
    /// A stretch of the image.
    Image(Range<usize>),
    /// Other bytes.
    Own(Vec<u8>),
    /// Bytes that others have too.
    Shared(Bytes),
}

impl FileImage {
    /// A file of these bytes.
    pub fn whole(image: impl Into<SessionImage>) -> FileImage {
        let image = image.into();
        let (end, length) = (image.len(), image.len() as u64);
        FileImage { image, pieces: vec![Piece { at: 0, source: Source::Image(0..end) }], length }
    }

    /// The bytes of the file.
    pub fn len(&self) -> u64 {
        self.length
    }

    /// Whether the file has no bytes.
    pub fn is_empty(&self) -> bool {
        self.length == 0
    }

    /// The image of `ldi` that it was made from.
    pub fn image(&self) -> &[u8] {
        &self.image
    }

    /// The image of `ldi`, to be given back.
    pub fn into_image(self) -> SessionImage {
        self.image
    }

    /// Takes the image of `ldi` out, to be given back; another one is put in its place.
    pub fn take_image(&mut self) -> SessionImage {
        self.replace_image(SessionImage::default())
    }

    pub(super) fn replace_image(&mut self, image: SessionImage) -> SessionImage {
        std::mem::replace(&mut self.image, image)
    }

    /// The pieces with their places, which ascend; between them are zeros.
    pub fn pieces(&self) -> impl Iterator<Item = (u64, &[u8])> {
        self.pieces.iter().map(move |piece| {
            let bytes = match &piece.source {
                Source::Image(range) => self.image.get(range.clone()).unwrap_or_default(),
                Source::Own(bytes) => bytes,
                Source::Shared(bytes) => bytes,
            };
            (piece.at, bytes)
        })
    }

    /// The pieces from the one on that a place is in, or the last before it.
    pub(super) fn pieces_from(&self, place: u64) -> impl Iterator<Item = (u64, &[u8])> {
        let after = self.pieces.partition_point(|piece| piece.at <= place);
        self.pieces().skip(after.saturating_sub(1))
    }

    /// Where a byte of the image of `ldi` is in the file; `None` if it is not there.
    pub fn place_of(&self, offset: usize) -> Option<u64> {
        self.pieces.iter().find_map(|piece| match &piece.source {
            Source::Image(range) if range.contains(&offset) => Some(piece.at + (offset - range.start) as u64),
            _ => None,
        })
    }

    /// Whether the file has these bytes at a place.
    pub(super) fn has_bytes(&self, at: u64, bytes: &[u8]) -> bool {
        let mut rest = bytes;
        let mut place = at;
        while !rest.is_empty() {
            let (start, piece) = match self.piece_at(place) {
                Some(found) => found,
                None => return false,
            };
            let within = usize::try_from(place - start).unwrap_or(usize::MAX);
            let here = piece.get(within..).unwrap_or_default();
            let count = here.len().min(rest.len());
            let (one, other) = (here.get(..count).unwrap_or_default(), rest.get(..count).unwrap_or_default());
            if count == 0 || !(std::ptr::eq(one, other) || one == other) {
                // Between pieces are zeros.
                return count == 0 && rest.iter().all(|byte| *byte == 0) && self.has_zeros(place, rest.len() as u64);
            }
            rest = rest.get(count..).unwrap_or_default();
            place += count as u64;
        }
        true
    }

    /// Whether the file has zeros in a stretch.
    pub(super) fn has_zeros(&self, at: u64, size: u64) -> bool {
        let end = at.saturating_add(size);
        size == 0
            || end <= self.length
                && self.pieces().filter(|(start, bytes)| *start < end && at < start + bytes.len() as u64).all(
                    |(start, bytes)| {
                        let from = usize::try_from(at.saturating_sub(start)).unwrap_or(usize::MAX);
                        let to = usize::try_from(end - start).unwrap_or(usize::MAX).min(bytes.len());
                        bytes.get(from..to).unwrap_or_default().iter().all(|byte| *byte == 0)
                    },
                )
    }

    /// The last piece that begins at a place or before it.
    fn piece_at(&self, place: u64) -> Option<(u64, &[u8])> {
        let after = self.pieces.partition_point(|piece| piece.at <= place);
        self.pieces().nth(after.checked_sub(1)?)
    }

    /// Whether a segment that is loaded is written and executed.
    pub fn has_writable_code(&self) -> bool {
        let front = self.piece_at(0).map_or(&b""[..], |(_, bytes)| bytes);
        let rights = elf::PF_R | elf::PF_W | elf::PF_X;
        program_headers(front).any(|(kind, flags)| kind == elf::PT_LOAD && flags & rights == rights)
    }

    /// The file's bytes, in one vector.
    pub fn to_vec(&self) -> Vec<u8> {
        let mut all = Vec::with_capacity(usize::try_from(self.length).unwrap_or(0));
        for (at, bytes) in self.pieces() {
            all.resize(usize::try_from(at).unwrap_or(all.len()), 0);
            all.extend_from_slice(bytes);
        }
        all
    }

    /// The file's bytes, in one vector: without a copy if the file is the image unchanged.
    pub fn into_vec(self) -> Vec<u8> {
        match self.pieces.as_slice() {
            [Piece { at: 0, source: Source::Image(range) }] if *range == (0..self.image.len()) => self.image.into_vec(),
            _ => self.to_vec(),
        }
    }
}

/// Types and flags of the program headers, which are at the front of the file.
fn program_headers(front: &[u8]) -> impl Iterator<Item = (u32, u32)> + '_ {
    let count = front.get(SEGMENT_COUNT_AT..SEGMENT_COUNT_AT + 2).and_then(|bytes| bytes.try_into().ok());
    let headers = front.get(ELF_HEADER as usize..).unwrap_or_default();
    let each = headers.chunks_exact(super::image_headers::PROGRAM_HEADER as usize);
    each.take(count.map_or(0, u16::from_le_bytes).into()).map(|header| {
        let word =
            |at: usize| header.get(at..at + 4).and_then(|bytes| bytes.try_into().ok()).map_or(0, u32::from_le_bytes);
        (word(0), word(4))
    })
}

/// What a file is to be: program headers, the places of what is loaded and of the sections, names.
#[derive(Clone, Debug)]
pub(super) struct FilePlan {
    /// The program headers.
    pub(super) segments: Vec<Segment>,
    /// Stretches of the image that are loaded: the new place, and the old stretch.
    pub(super) loaded: Vec<(u64, Range<usize>)>,
    /// Where what is loaded ends in the file.
    pub(super) end: u64,
    /// The section headers, those of what is loaded with their new places.
    pub(super) sections: Vec<Section>,
    /// The names of sections, if they are others.
    pub(super) names: Option<Vec<u8>>,
    /// The number of the section with the names.
    pub(super) names_in: usize,
    /// The table of symbols, if it is another, or there is to be none.
    pub(super) symbols: Option<Option<SymbolTable>>,
    /// The bytes of the sections that the image does not have, by their numbers, in parts.
    pub(super) contents: BTreeMap<usize, Vec<Bytes>>,
}

impl FilePlan {
    /// A plan by which all stays where it is.
    pub(super) fn unchanged(image: &Image<'_>) -> FilePlan {
        let mut loaded = Vec::with_capacity(image.segments.len());
        let mut end = ELF_HEADER + super::image_headers::PROGRAM_HEADER * image.segments.len() as u64;
        for one in image.segments.iter().filter(|one| one.file_size != 0) {
            loaded.push((one.offset, range(one.offset, one.file_size)));
            end = end.max(one.offset + one.file_size);
        }
        FilePlan {
            segments: image.segments.clone(),
            loaded,
            end,
            sections: image.sections.clone(),
            names: None,
            names_in: image.names_in,
            symbols: None,
            contents: BTreeMap::new(),
        }
    }

    /// The bytes of sections that are not those of the image, by their numbers. A table of symbols that is not wanted
    /// goes.
    fn own_bytes(&mut self) -> BTreeMap<usize, Vec<u8>> {
        let mut own = BTreeMap::new();
        let table = self.sections.iter().position(|section| section.kind == elf::SHT_SYMTAB);
        let strings = table.and_then(|table| self.sections.get(table)).map(|table| table.link as usize);
        match (self.symbols.take(), table, strings) {
            (Some(Some(symbols)), Some(table), Some(strings)) => {
                if let Some(header) = self.sections.get_mut(table) {
                    header.info = symbols.first_global;
                }
                own.insert(table, symbols.entries);
                own.insert(strings, symbols.names);
            }
            (Some(None), Some(table), Some(strings)) => self.remove(&[table, strings]),
            _ => {}
        }
        own.extend(self.names.take().map(|names| (self.names_in, names)));
        own
    }

    /// Takes sections out that none before them refers to.
    fn remove(&mut self, numbers: &[usize]) {
        self.names_in -= numbers.iter().filter(|number| **number < self.names_in).count();
        self.take_out(numbers);
    }

    /// Takes section headers out; what refers to sections has their new numbers already.
    fn take_out(&mut self, numbers: &[usize]) {
        let mut number = 0;
        self.sections.retain(|_| {
            number += 1;
            !numbers.contains(&(number - 1))
        });
    }

    /// The file: the headers, what is loaded, what is not loaded, and the section headers.
    pub(super) fn file(mut self, image: SessionImage) -> FileImage {
        let mut pieces = Vec::with_capacity(self.loaded.len() + 8);
        for (at, range) in self.loaded.drain(..).filter(|(_, range)| !range.is_empty()) {
            pieces.push(Piece { at, source: Source::Image(range) });
        }
        pieces.sort_by_key(|piece| piece.at);
        let mut end = self.end;
        let is_of_gnu = matches!(&self.symbols, Some(Some(symbols)) if symbols.is_of_gnu);
        let mut own = self.own_bytes();
        for (index, section) in self.sections.iter_mut().enumerate() {
            if section.is_allocated() || section.size == 0 {
                continue;
            }
            if let Some(content) = self.contents.remove(&index) {
                section.offset = aligned(end, section.align);
                end = section.offset;
                for part in content {
                    let size = part.len() as u64;
                    pieces.push(Piece { at: end, source: Source::Shared(part) });
                    end += size;
                }
                continue;
            }
            let old = range(section.offset, section.size);
            end = aligned(end, 8);
            section.offset = end;
            let source = own.remove(&index).map_or(Source::Image(old), Source::Own);
            if let Source::Own(bytes) = &source {
                section.size = bytes.len() as u64;
            }
            pieces.push(Piece { at: end, source });
            end += section.size;
        }
        end = aligned(end, 8);
        let headers: Vec<u8> = self.sections.iter().flat_map(Section::bytes).collect();
        let length = end + headers.len() as u64;
        pieces.push(Piece { at: end, source: Source::Own(headers) });
        pieces.insert(0, Piece { at: 0, source: Source::Own(self.front(&image, end, is_of_gnu)) });
        FileImage { image, pieces, length }
    }

    /// The ELF header with another place of the section headers, and the program headers.
    fn front(&self, image: &[u8], sections_at: u64, is_of_gnu: bool) -> Vec<u8> {
        let mut front = image.get(..ELF_HEADER as usize).unwrap_or_default().to_vec();
        let segments_at = if self.segments.is_empty() { 0 } else { ELF_HEADER };
        let number = |count: usize| u16::try_from(count).unwrap_or(u16::MAX).to_le_bytes().to_vec();
        for (at, bytes) in [
            (SEGMENTS_AT, segments_at.to_le_bytes().to_vec()),
            (SECTIONS_AT, sections_at.to_le_bytes().to_vec()),
            (SEGMENT_COUNT_AT, number(self.segments.len())),
            (SECTION_COUNT_AT, number(self.sections.len())),
            (NAMES_AT, number(self.names_in)),
        ] {
            if let Some(field) = front.get_mut(at..at + bytes.len()) {
                field.copy_from_slice(&bytes);
            }
        }
        if let (true, Some(system)) = (is_of_gnu, front.get_mut(SYSTEM_AT)) {
            *system = elf::ELFOSABI_GNU;
        }
        front.extend(self.segments.iter().flat_map(Segment::bytes));
        front
    }
}

/// The lowest multiple of a power of two at or above a place.
pub(super) fn aligned(at: u64, align: u64) -> u64 {
    at.wrapping_add(at.wrapping_neg() & (align.max(1) - 1))
}

/// A stretch of the image.
pub(super) fn range(offset: u64, size: u64) -> Range<usize> {
    let start = usize::try_from(offset).unwrap_or(usize::MAX);
    start..usize::try_from(offset.saturating_add(size)).unwrap_or(usize::MAX)
}

/// The section headers of an image whose names are other ones.
pub(super) fn plan_or_unchanged(image: &[u8], plan: Option<FilePlan>) -> Result<FilePlan, NotAnImage> {
    match plan {
        Some(plan) => Ok(plan),
        None => Ok(FilePlan::unchanged(&Image::read(image)?)),
    }
}
