//! Reads an image of `ldi`: its loaded sections and its global symbols (docs/layout.md, 'Image').

use crate::fast_map::{FastMap, FastSet};
use bstr::{BStr, ByteSlice};
use object::elf::{self, FileHeader64, ProgramHeader64, SectionHeader64, Sym64};
use object::read::elf::FileHeader;
use object::{LittleEndian as Little, Pod};
use thiserror::Error;

/// Bytes that are no image of `ldi`.
#[derive(Clone, Copy, PartialEq, Eq, Debug, Error)]
#[error("no image of ldi: {0}")]
pub struct NoImage(pub &'static str);

/// An output section of an image that takes memory and is not empty.
#[derive(Clone, Copy, PartialEq, Eq, Debug)]
pub(super) struct Loaded<'a> {
    pub name: &'a BStr,
    pub address: u64,
    pub size: u64,
    pub load: u64,
    /// Whether the file has bytes for it.
    pub has_bytes: bool,
    /// The bytes.
    pub contents: &'a [u8],
}

/// A set of values.
pub(super) type Values = FastSet<u64>;

/// An image.
pub(super) struct Image<'a> {
    data: &'a [u8],
    header: &'a FileHeader64<Little>,
    sections: &'a [SectionHeader64<Little>],
}

impl<'a> Image<'a> {
    pub fn read(data: &'a [u8]) -> Result<Image<'a>, NoImage> {
        let header = FileHeader64::<Little>::parse(data).map_err(|_| NoImage("it has no header of ELF-64"))?;
        let sections =
            header.section_headers(Little, data).map_err(|_| NoImage("its section headers are past its end"))?;
        Ok(Image { data, header, sections })
    }

    /// Where the program begins.
    pub fn entry(&self) -> u64 {
        self.header.e_entry.get(Little)
    }

    /// The sections that take memory and are not empty, with their load addresses by the program headers: each is in
    /// one, by its place in the file.
    pub fn loaded(&self) -> Result<Vec<Loaded<'a>>, NoImage> {
        let segments = self
            .header
            .program_headers(Little, self.data)
            .map_err(|_| NoImage("its program headers are past its end"))?;
        let names = self.sections.get(usize::from(self.header.e_shstrndx.get(Little)));
        let names = names.map_or(&[][..], |names| self.bytes_of(names));
        let takes_memory = |section: &&SectionHeader64<Little>| {
            section.sh_flags.get(Little) & u64::from(elf::SHF_ALLOC) != 0 && section.sh_size.get(Little) != 0
        };
        let loaded = |section: &SectionHeader64<Little>| {
            let has_bytes = section.sh_type.get(Little) != elf::SHT_NOBITS;
            let address = section.sh_addr.get(Little);
            Loaded {
                name: name_at(names, section.sh_name.get(Little)),
                address,
                size: section.sh_size.get(Little),
                load: address.wrapping_add(distance(segments, section)),
                has_bytes,
                contents: if has_bytes { self.bytes_of(section) } else { &[] },
            }
        };
        Ok(self.sections.iter().filter(takes_memory).map(loaded).collect())
    }

    /// The values of global symbols by their names: of those that have one of some values, or of all.
    pub fn symbols(&self, some: Option<&Values>) -> FastMap<&'a BStr, u64> {
        let mut found = FastMap::default();
        for table in self.sections.iter().filter(|section| section.sh_type.get(Little) == elf::SHT_SYMTAB) {
            let names =
                self.sections.get(table.sh_link.get(Little) as usize).map_or(&[][..], |names| self.bytes_of(names));
            for symbol in entries::<Sym64<Little>>(self.bytes_of(table)) {
                let value = symbol.st_value.get(Little);
                let is_global = symbol.st_info >> 4 != elf::STB_LOCAL && symbol.st_shndx.get(Little) != elf::SHN_UNDEF;
                if is_global && some.map_or(true, |some| some.contains(&value)) {
                    found.insert(name_at(names, symbol.st_name.get(Little)), value);
                }
            }
        }
        found
    }

    /// The bytes of a section; none if it has none, or they are not all there.
    fn bytes_of(&self, section: &SectionHeader64<Little>) -> &'a [u8] {
        let (start, size) = (section.sh_offset.get(Little), section.sh_size.get(Little));
        let end = start.checked_add(size).and_then(|end| usize::try_from(end).ok());
        let range = usize::try_from(start).ok().zip(end);
        range.and_then(|(start, end)| self.data.get(start..end)).unwrap_or_default()
    }
}

/// How far the load address of a section is from its address.
fn distance(segments: &[ProgramHeader64<Little>], section: &SectionHeader64<Little>) -> u64 {
    let (address, size) = (section.sh_addr.get(Little), section.sh_size.get(Little));
    let offset = section.sh_offset.get(Little);
    let found = segments.iter().find(|segment| {
        let start = segment.p_vaddr.get(Little);
        let end = start.wrapping_add(segment.p_memsz.get(Little));
        start <= address
            && address.wrapping_add(size) <= end
            && offset.wrapping_sub(segment.p_offset.get(Little)) == address.wrapping_sub(start)
    });
    found.map_or(0, |segment| segment.p_paddr.get(Little).wrapping_sub(segment.p_vaddr.get(Little)))
}

fn entries<T: Pod>(bytes: &[u8]) -> &[T] {
    let count = bytes.len() / std::mem::size_of::<T>();
    object::slice_from_bytes(bytes, count).map_or(&[], |(entries, _)| entries)
}

fn name_at(names: &[u8], at: u32) -> &BStr {
    let rest = names.get(at as usize..).unwrap_or_default();
    let end = memchr::memchr(0, rest).unwrap_or(0);
    rest.get(..end).unwrap_or_default().as_bstr()
}
