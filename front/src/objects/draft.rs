//! Bytes of an object that are changed in place.

use super::SectionIndex;
use crate::snapshot::Bytes;
use object::elf::{self, FileHeader64, Rela64, SectionHeader64, Sym64};
use object::read::elf::{FileHeader, SectionHeader};
use object::LittleEndian as Little;
use std::ops::Range;

const SECTION_HEADER: usize = std::mem::size_of::<SectionHeader64<Little>>();
/// Where fields are in a section header.
const KIND_AT: usize = 4;
const FLAGS_AT: usize = 8;

/// Bytes of a file; they are copied at the first change.
pub(super) struct Draft {
    data: Bytes,
    changed: Option<Vec<u8>>,
}

impl Draft {
    /// Bytes that are not changed yet.
    pub(super) fn new(data: Bytes) -> Draft {
        Draft { data, changed: None }
    }

    /// Puts bytes at a place; what is past the end is left out.
    pub(super) fn put(&mut self, at: usize, bytes: &[u8]) {
        let changed = self.changed.get_or_insert_with(|| self.data.to_vec());
        if let Some(place) = at.checked_add(bytes.len()).and_then(|end| changed.get_mut(at..end)) {
            place.copy_from_slice(bytes);
        }
    }

    /// The bytes: those of before if nothing was changed.
    pub(super) fn finish(self) -> Bytes {
        self.changed.map_or(self.data, Bytes::from)
    }
}

/// The section headers of a relocatable object of x86-64, with the bytes around them.
#[derive(Clone, Copy)]
pub(super) struct Headers<'a> {
    data: &'a [u8],
    headers: &'a [SectionHeader64<Little>],
    begin: usize,
    /// The number of the section of names of sections.
    names_in: usize,
}

impl<'a> Headers<'a> {
    /// The headers; `None` if the file is no such object, or its table is not whole.
    pub(super) fn of(data: &'a [u8]) -> Option<Headers<'a>> {
        if !data.starts_with(b"\x7fELF\x02\x01") {
            return None;
        }
        let header = FileHeader64::<Little>::parse(data).ok()?;
        let is_object = header.e_type.get(Little) == elf::ET_REL && header.e_machine.get(Little) == elf::EM_X86_64;
        let headers = header.section_headers(Little, data).ok().filter(|_| is_object)?;
        let names_in = header.shstrndx(Little, data).ok()? as usize;
        Some(Headers { data, headers, begin: usize::try_from(header.e_shoff(Little)).ok()?, names_in })
    }

    /// The headers with their numbers, from number 1 on.
    pub(super) fn iter(self) -> impl Iterator<Item = (SectionIndex, &'a SectionHeader64<Little>)> {
        self.headers.iter().enumerate().skip(1).map(|(number, header)| (SectionIndex(number as u32), header))
    }

    /// The header of a number; `None` for 0 and past the last one.
    pub(super) fn get(self, number: SectionIndex) -> Option<&'a SectionHeader64<Little>> {
        self.headers.get(number.0 as usize).filter(|_| number.0 > 0)
    }

    /// The bytes of a section, and where they begin; none if they are not all in the file.
    pub(super) fn contents(self, header: &SectionHeader64<Little>) -> (usize, &'a [u8]) {
        let range = range_of(header).filter(|_| header.sh_type(Little) != elf::SHT_NOBITS).unwrap_or(0..0);
        self.data.get(range.clone()).map_or((0, &[]), |bytes| (range.start, bytes))
    }

    /// The symbols of a table, and where the first begins.
    pub(super) fn symbols(self, table: &SectionHeader64<Little>) -> (usize, &'a [Sym64<Little>]) {
        let (at, bytes) = self.contents(table);
        (at, entries(bytes))
    }

    /// The relocations of a table, and where the first begins.
    pub(super) fn relocations(self, table: &SectionHeader64<Little>) -> (usize, &'a [Rela64<Little>]) {
        let (at, bytes) = self.contents(table);
        (at, entries(bytes))
    }

    /// The number of the section of names of sections.
    pub(super) fn names_in(self) -> SectionIndex {
        SectionIndex(self.names_in as u32)
    }

    /// The name of a section; empty if the table of names does not have it.
    pub(super) fn name(self, section: &SectionHeader64<Little>) -> &'a [u8] {
        let names = self.headers.get(self.names_in).map_or(&[][..], |names| self.contents(names).1);
        let name = names.get(section.sh_name(Little) as usize..).unwrap_or_default();
        name.split(|byte| *byte == 0).next().unwrap_or_default()
    }

    /// Whether a section has the entries by which exceptions find their way, which say nothing of what is left out.
    pub(super) fn is_of_exceptions(self, section: &SectionHeader64<Little>) -> bool {
        let name = self.name(section);
        name == b".eh_frame" || name == b".gcc_except_table"
    }

    /// Gives a section other flags.
    pub(super) fn put_flags(self, draft: &mut Draft, number: SectionIndex, flags: u64) {
        draft.put(self.place(number) + FLAGS_AT, &flags.to_le_bytes());
    }

    /// Gives a section another type.
    pub(super) fn put_kind(self, draft: &mut Draft, number: SectionIndex, kind: u32) {
        draft.put(self.place(number) + KIND_AT, &kind.to_le_bytes());
    }

    /// Where a header is in the file.
    pub(super) fn place(self, number: SectionIndex) -> usize {
        self.begin + number.0 as usize * SECTION_HEADER
    }
}

/// Where the bytes of a section are.
fn range_of(header: &SectionHeader64<Little>) -> Option<Range<usize>> {
    let start = usize::try_from(header.sh_offset(Little)).ok()?;
    Some(start..start.checked_add(usize::try_from(header.sh_size(Little)).ok()?)?)
}

/// Whole entries of a table, from its start.
fn entries<T: object::Pod>(bytes: &[u8]) -> &[T] {
    let count = bytes.len() / std::mem::size_of::<T>();
    object::slice_from_bytes(bytes, count).map_or(&[], |(entries, _)| entries)
}
