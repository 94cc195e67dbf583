//! Gives sections the rights to be written and executed that they have in GNU ld's file: `.text` of writable input
//! sections and sections of data commands alone have others in the image of `ldi`. The loaded bytes stay. Notes, tables
//! of functions or of names and the like, which are SHT_PROGBITS in the image of `ldi`, get their types, by which other
//! programs find them. Other flags, alignments and the sizes of entries are those of GNU ld's file too.

use std::collections::HashMap;

use object::elf;

use super::image_headers::{Image, NotAnImage, Section, Segment, ELF_HEADER, PROGRAM_HEADER};
use crate::session_client::SessionImage;

/// The rights of a section.
const RIGHTS: [(u32, u32); 2] = [(elf::SHF_WRITE, elf::PF_W), (elf::SHF_EXECINSTR, elf::PF_X)];
const MASK: u64 = (elf::SHF_WRITE | elf::SHF_EXECINSTR) as u64;
/// The flags that are written.
const FLAGS: u64 = !(elf::SHF_ALLOC as u64);
/// Where fields of a section header stand, p_flags in a program header, and e_shoff in the header of the file.
const KIND_OF_SECTION: u64 = 4;
const FLAGS_OF_SECTION: u64 = 8;
const ALIGN_OF_SECTION: u64 = 48;
const ENTRY_SIZE_OF_SECTION: u64 = 56;
const FLAGS_OF_SEGMENT: u64 = 4;
const SECTION_HEADER: u64 = 64;
const SECTIONS_AT: usize = 40;

/// The types that are not written in place of SHT_PROGBITS: the sections of these that a file has are its own tables.
const OWN_KINDS: [u32; 5] = [elf::SHT_NULL, elf::SHT_SYMTAB, elf::SHT_REL, elf::SHT_RELA, elf::SHT_NOBITS];

/// What the header of the output section of a place is to say.
#[derive(Clone, Copy, PartialEq, Eq, Debug)]
pub struct Rights {
    /// Its address.
    pub address: u64,
    /// Its bytes, more than 0.
    pub size: u64,
    /// `sh_flags`; SHF_ALLOC is not looked at.
    pub flags: u64,
    /// `sh_type`
    pub kind: u32,
    /// `sh_addralign`
    pub align: u64,
    /// `sh_entsize`
    pub entry_size: u64,
}

/// Writes the rights and types of sections into their headers, and rights into those of the segments that have such a
/// section.
pub(super) fn write(image: &mut SessionImage, wanted: &[Rights]) -> Result<(), NotAnImage> {
    for (at, bytes) in changes(image, wanted)? {
        image.cover(usize::try_from(at).unwrap_or(usize::MAX), &bytes);
    }
    Ok(())
}

/// The bytes that become others, with their places in the file.
fn changes(data: &[u8], wanted: &[Rights]) -> Result<Vec<(u64, Vec<u8>)>, NotAnImage> {
    let wanted: HashMap<(u64, u64), &Rights> = wanted.iter().map(|one| ((one.address, one.size), one)).collect();
    let mut image = Image::read(data)?;
    let headers_at = data.get(SECTIONS_AT..SECTIONS_AT + 8).and_then(|bytes| bytes.try_into().ok());
    let headers_at = headers_at.map_or(0, u64::from_le_bytes);
    let (mut found, mut changed) = (Vec::new(), Vec::new());
    for (number, section) in image.sections.iter_mut().enumerate().filter(|(_, one)| one.is_allocated()) {
        let own = wanted.get(&(section.address, section.size));
        let flags = own.map_or(section.flags, |own| section.flags & !FLAGS | own.flags & FLAGS);
        let header = headers_at.wrapping_add(SECTION_HEADER * number as u64);
        if flags != section.flags {
            changed.extend(((flags ^ section.flags) & MASK != 0).then_some(number));
            section.flags = flags;
            found.push((header.wrapping_add(FLAGS_OF_SECTION), flags.to_le_bytes().to_vec()));
        }
        if let Some(own) = own.filter(|own| section.kind == elf::SHT_PROGBITS && !OWN_KINDS.contains(&own.kind)) {
            found.push((header.wrapping_add(KIND_OF_SECTION), own.kind.to_le_bytes().to_vec()));
        }
        let numbers = own.map_or([None; 2], |own| {
            [
                (own.align != section.align).then_some((ALIGN_OF_SECTION, own.align)),
                (own.entry_size != section.entry_size).then_some((ENTRY_SIZE_OF_SECTION, own.entry_size)),
            ]
        });
        found.extend(
            numbers.into_iter().flatten().map(|(at, new)| (header.wrapping_add(at), new.to_le_bytes().to_vec())),
        );
    }
    let is_changed = |segment: &Segment| {
        changed.iter().any(|number| image.sections.get(*number).map_or(false, |section| is_in(section, segment)))
    };
    for (number, segment) in image.segments.iter().enumerate().filter(|(_, segment)| is_changed(segment)) {
        let at = ELF_HEADER + PROGRAM_HEADER * number as u64 + FLAGS_OF_SEGMENT;
        found.push((at, rights_of(segment, &image.sections).to_le_bytes().to_vec()));
    }
    Ok(found)
}

/// R, with the rights of the sections that are not empty.
fn rights_of(segment: &Segment, sections: &[Section]) -> u32 {
    let inside = sections.iter().filter(|one| one.is_allocated() && one.size != 0 && is_in(one, segment));
    let flags = inside.fold(0, |flags, section| flags | section.flags);
    RIGHTS.iter().filter(|(flag, _)| flags & u64::from(*flag) != 0).fold(elf::PF_R, |rights, (_, right)| rights | right)
}

/// Whether a segment has a section, by its address and by its place in the file.
fn is_in(section: &Section, segment: &Segment) -> bool {
    let within = section.address.checked_sub(segment.address);
    let room = segment.memory_size.checked_sub(section.size);
    within
        .zip(room)
        .map_or(false, |(within, room)| within <= room && section.offset.wrapping_sub(segment.offset) == within)
}
