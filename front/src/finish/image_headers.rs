//! The headers of an image of `ldi` (docs/layout.md, 'Image').

use bstr::{BStr, ByteSlice};
use object::elf::{self, FileHeader64, ProgramHeader64, SectionHeader64};
use object::pod::{from_bytes, slice_from_bytes};
use object::LittleEndian as LE;

/// Bytes that are no image of `ldi`.
#[derive(Clone, Copy, PartialEq, Eq, Debug, thiserror::Error)]
#[error("the session answered no image: {0}")]
pub struct NotAnImage(&'static str);

/// The bytes of an ELF header, of a program header, of a section header.
pub(super) const ELF_HEADER: u64 = 64;
pub(super) const PROGRAM_HEADER: u64 = 56;

/// A program header.
#[derive(Clone, Copy, PartialEq, Eq, Debug, Default)]
pub(super) struct Segment {
    pub(super) kind: u32,
    pub(super) flags: u32,
    pub(super) offset: u64,
    pub(super) address: u64,
    pub(super) load: u64,
    pub(super) file_size: u64,
    pub(super) memory_size: u64,
    pub(super) align: u64,
}

impl Segment {
    /// The bytes of the header.
    pub(super) fn bytes(&self) -> Vec<u8> {
        let mut bytes = Vec::with_capacity(PROGRAM_HEADER as usize);
        bytes.extend_from_slice(&self.kind.to_le_bytes());
        bytes.extend_from_slice(&self.flags.to_le_bytes());
        for word in [self.offset, self.address, self.load, self.file_size, self.memory_size, self.align] {
            bytes.extend_from_slice(&word.to_le_bytes());
        }
        bytes
    }
}

/// A section header.
#[derive(Clone, Copy, PartialEq, Eq, Debug)]
pub(super) struct Section {
    pub(super) name: u32,
    pub(super) kind: u32,
    pub(super) flags: u64,
    pub(super) address: u64,
    pub(super) offset: u64,
    pub(super) size: u64,
    pub(super) link: u32,
    pub(super) info: u32,
    pub(super) align: u64,
    pub(super) entry_size: u64,
}

impl Section {
    /// A header of zeros.
    pub(super) const NONE: Section = Section {
        name: 0,
        kind: 0,
        flags: 0,
        address: 0,
        offset: 0,
        size: 0,
        link: 0,
        info: 0,
        align: 0,
        entry_size: 0,
    };

    /// The address after it.
    pub(super) fn end(&self) -> u64 {
        self.address.wrapping_add(self.size)
    }

    /// Whether it takes memory.
    pub(super) fn is_allocated(&self) -> bool {
        self.flags & u64::from(elf::SHF_ALLOC) != 0
    }

    /// Whether the file has bytes for it.
    pub(super) fn is_in_file(&self) -> bool {
        self.kind != elf::SHT_NOBITS
    }

    /// The bytes of the header.
    pub(super) fn bytes(&self) -> Vec<u8> {
        let mut bytes = Vec::with_capacity(64);
        bytes.extend_from_slice(&self.name.to_le_bytes());
        bytes.extend_from_slice(&self.kind.to_le_bytes());
        for word in [self.flags, self.address, self.offset, self.size] {
            bytes.extend_from_slice(&word.to_le_bytes());
        }
        bytes.extend_from_slice(&self.link.to_le_bytes());
        bytes.extend_from_slice(&self.info.to_le_bytes());
        bytes.extend_from_slice(&self.align.to_le_bytes());
        bytes.extend_from_slice(&self.entry_size.to_le_bytes());
        bytes
    }
}

/// An image with its headers.
#[derive(Clone, Debug)]
pub(super) struct Image<'a> {
    pub(super) data: &'a [u8],
    pub(super) segments: Vec<Segment>,
    pub(super) sections: Vec<Section>,
    /// The number of the section with the names of sections.
    pub(super) names_in: usize,
}

impl<'a> Image<'a> {
    /// Reads the headers.
    pub(super) fn read(data: &'a [u8]) -> Result<Image<'a>, NotAnImage> {
        let (header, _) = from_bytes::<FileHeader64<LE>>(data).map_err(|()| NotAnImage("it has no header"))?;
        if header.e_ident.magic != elf::ELFMAG || header.e_ident.class != elf::ELFCLASS64 {
            return Err(NotAnImage("it has no header of ELF-64"));
        }
        let table = |offset: u64| data.get(usize::try_from(offset).ok()?..);
        let (segment_count, section_count) = (header.e_phnum.get(LE).into(), header.e_shnum.get(LE).into());
        let segments = table(header.e_phoff.get(LE))
            .and_then(|at| slice_from_bytes::<ProgramHeader64<LE>>(at, segment_count).ok())
            .ok_or(NotAnImage("its program headers are past its end"))?;
        let sections = table(header.e_shoff.get(LE))
            .and_then(|at| slice_from_bytes::<SectionHeader64<LE>>(at, section_count).ok())
            .ok_or(NotAnImage("its section headers are past its end"))?;
        Ok(Image {
            data,
            segments: segments.0.iter().map(segment_of).collect(),
            sections: sections.0.iter().map(section_of).collect(),
            names_in: header.e_shstrndx.get(LE).into(),
        })
    }

    /// The bytes at a place of the file.
    pub(super) fn bytes_at(&self, offset: u64, size: u64) -> Result<&'a [u8], NotAnImage> {
        let range = usize::try_from(offset).ok().zip(offset.checked_add(size).and_then(|end| end.try_into().ok()));
        range.and_then(|(start, end)| self.data.get(start..end)).ok_or(NotAnImage("a section is past its end"))
    }

    /// The bytes of a section; empty for one without.
    pub(super) fn content(&self, section: &Section) -> Result<&'a [u8], NotAnImage> {
        if section.is_in_file() {
            self.bytes_at(section.offset, section.size)
        } else {
            Ok(&[])
        }
    }

    /// The name of a section.
    pub(super) fn name(&self, section: &Section) -> Result<&'a BStr, NotAnImage> {
        let table = self.sections.get(self.names_in).ok_or(NotAnImage("it has no names of sections"))?;
        let names = self.content(table)?;
        let rest = names.get(section.name as usize..).ok_or(NotAnImage("a name is past its table"))?;
        let end = memchr::memchr(0, rest).ok_or(NotAnImage("a name is past its table"))?;
        Ok(rest.get(..end).unwrap_or_default().as_bstr())
    }

    /// The load address of a section: at the distance of the segment that has it; without one its address.
    pub(super) fn load_of(&self, section: &Section) -> u64 {
        let distance = |one: &Segment| {
            let within = section.address.checked_sub(one.address)?;
            let room = one.memory_size.checked_sub(section.size)?;
            (within <= room).then(|| one.load.wrapping_sub(one.address))
        };
        section.address.wrapping_add(self.segments.iter().find_map(distance).unwrap_or(0))
    }
}

fn segment_of(header: &ProgramHeader64<LE>) -> Segment {
    Segment {
        kind: header.p_type.get(LE),
        flags: header.p_flags.get(LE),
        offset: header.p_offset.get(LE),
        address: header.p_vaddr.get(LE),
        load: header.p_paddr.get(LE),
        file_size: header.p_filesz.get(LE),
        memory_size: header.p_memsz.get(LE),
        align: header.p_align.get(LE),
    }
}

fn section_of(header: &SectionHeader64<LE>) -> Section {
    Section {
        name: header.sh_name.get(LE),
        kind: header.sh_type.get(LE),
        flags: header.sh_flags.get(LE),
        address: header.sh_addr.get(LE),
        offset: header.sh_offset.get(LE),
        size: header.sh_size.get(LE),
        link: header.sh_link.get(LE),
        info: header.sh_info.get(LE),
        align: header.sh_addralign.get(LE),
        entry_size: header.sh_entsize.get(LE),
    }
}
