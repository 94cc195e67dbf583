//! An object whose common blocks are definitions in a section `COMMON` of its own.
//!
//! `ldi` places the blocks of an object one by one, in the order of its symbols. GNU ld's order is that of its table of
//! names, and the blocks of an object are one section to it.

use super::SectionFlags;
use bstr::{BStr, ByteSlice};
use object::elf::{self, FileHeader64, SectionHeader64, Sym64};
use object::read::elf::{FileHeader, SectionHeader};
use object::LittleEndian as Little;
use std::ops::Range;

/// The name of the section.
const NAME: &[u8] = b"COMMON\0";
const FILE_HEADER: usize = std::mem::size_of::<FileHeader64<Little>>();
const SECTION_HEADER: usize = std::mem::size_of::<SectionHeader64<Little>>();
const SYMBOL: usize = std::mem::size_of::<Sym64<Little>>();
/// Where fields are: of the header of a file, of a section header, of a symbol.
const SECTIONS_AT: usize = 40;
const SECTION_COUNT_AT: usize = 60;
const OFFSET_AT: usize = 24;
const SIZE_AT: usize = 32;

/// What becomes of an object's entry for a common block.
#[derive(Clone, Copy, PartialEq, Eq, Debug)]
pub enum BlockPlace {
    /// The object has the block, so many bytes from the start of the section.
    Here(u64),
    /// Another object has the block: the name is undefined here.
    Elsewhere,
}

/// The section of an object's common blocks.
pub struct CommonSection<'a> {
    /// Its bytes.
    pub size: u64,
    /// Its alignment.
    pub align: u64,
    /// What becomes of a block, by its name; `None`: it stays a common block.
    pub place: &'a dyn Fn(&BStr) -> Option<BlockPlace>,
}

/// The bytes of an object with such a section; `None` if nothing changes, or the tables of the object are not whole.
pub fn with_common_section(data: &[u8], section: &CommonSection<'_>) -> Option<Vec<u8>> {
    let header = FileHeader64::<Little>::parse(data).ok()?;
    let headers = header.section_headers(Little, data).ok()?;
    let count = u16::try_from(headers.len()).ok().filter(|count| *count < elf::SHN_LORESERVE - 1)?;
    let changes = changes(data, headers, count, section.place)?;
    if changes.is_empty() || header.e_shnum.get(Little) != count {
        return None;
    }
    let has_block = changes.iter().any(|(_, symbol)| symbol.st_shndx.get(Little) == count);
    let mut changed = data.to_vec();
    for (at, symbol) in changes {
        put(&mut changed, at, object::bytes_of(&symbol));
    }
    if has_block {
        add_section(&mut changed, data, headers, header, section)?;
    }
    Some(changed)
}

/// The entries of the symbol table that become others, with their places.
fn changes(
    data: &[u8],
    headers: &[SectionHeader64<Little>],
    count: u16,
    place: &dyn Fn(&BStr) -> Option<BlockPlace>,
) -> Option<Vec<(usize, Sym64<Little>)>> {
    let table = headers.iter().find(|header| header.sh_type(Little) == elf::SHT_SYMTAB)?;
    let names = data.get(range_of(headers.get(table.sh_link(Little) as usize)?)?)?;
    let entries = range_of(table)?;
    let (symbols, _) =
        object::slice_from_bytes::<Sym64<Little>>(data.get(entries.clone())?, entries.len() / SYMBOL).ok()?;
    let changed = |(index, symbol): (usize, &Sym64<Little>)| {
        let name = names.get(symbol.st_name.get(Little) as usize..)?;
        let name = name.get(..memchr::memchr(0, name)?)?;
        let mut symbol = *symbol;
        match place(name.as_bstr())? {
            BlockPlace::Here(offset) => {
                symbol.st_info = symbol.st_info & 0xF0 | elf::STT_OBJECT;
                symbol.st_shndx.set(Little, count);
                symbol.st_value.set(Little, offset);
            }
            BlockPlace::Elsewhere => {
                symbol.st_shndx.set(Little, elf::SHN_UNDEF);
                symbol.st_value.set(Little, 0);
                symbol.st_info &= 0xF0;
            }
        }
        Some((entries.start + index * SYMBOL, symbol))
    };
    let is_common = |symbol: &Sym64<Little>| symbol.st_shndx.get(Little) == elf::SHN_COMMON;
    Some(symbols.iter().enumerate().filter(|(_, symbol)| is_common(symbol)).filter_map(changed).collect())
}

/// Puts names of sections and section headers with one more at the end.
fn add_section(
    changed: &mut Vec<u8>,
    data: &[u8],
    headers: &[SectionHeader64<Little>],
    header: &FileHeader64<Little>,
    section: &CommonSection<'_>,
) -> Option<()> {
    let names_in = usize::from(header.e_shstrndx.get(Little));
    let names = data.get(range_of(headers.get(names_in)?)?)?;
    let names_at = changed.len() as u64;
    changed.extend([names, NAME].concat());
    changed.resize(changed.len() + (changed.len().wrapping_neg() & 7), 0);
    let headers_at = changed.len();
    changed.extend(headers.iter().flat_map(|one| object::bytes_of(one).to_vec()));
    let own = headers_at + names_in * SECTION_HEADER;
    put(changed, own + OFFSET_AT, &names_at.to_le_bytes());
    put(changed, own + SIZE_AT, &((names.len() + NAME.len()) as u64).to_le_bytes());
    let flags = SectionFlags::ALLOC.0 | SectionFlags::WRITE.0;
    let name = u32::try_from(names.len()).ok()?;
    changed.extend([name.to_le_bytes(), elf::SHT_NOBITS.to_le_bytes()].concat());
    let words = [flags, 0, FILE_HEADER as u64, section.size, 0, section.align, 0];
    changed.extend(words.iter().flat_map(|word| word.to_le_bytes().to_vec()));
    put(changed, SECTIONS_AT, &(headers_at as u64).to_le_bytes());
    put(changed, SECTION_COUNT_AT, &u16::try_from(headers.len() + 1).ok()?.to_le_bytes());
    Some(())
}

/// Where the bytes of a section are.
fn range_of(header: &SectionHeader64<Little>) -> Option<Range<usize>> {
    let start = usize::try_from(header.sh_offset(Little)).ok()?;
    Some(start..start.checked_add(usize::try_from(header.sh_size(Little)).ok()?)?)
}

fn put(data: &mut [u8], at: usize, bytes: &[u8]) {
    if let Some(place) = at.checked_add(bytes.len()).and_then(|end| data.get_mut(at..end)) {
        place.copy_from_slice(bytes);
    }
}

#[cfg(test)]
mod tests {
    use super::super::tests::{object, WrittenSection};
    use super::super::{Elf, Home, SectionIndex, SectionKind};
    use super::*;

    fn written() -> Vec<u8> {
        let text = WrittenSection { name: ".text", kind: 1, flags: 6, data: b"text" };
        let common = elf::SHN_COMMON;
        let symbols =
            [("here", 1, common, 8, 24), ("there", 1, common, 4, 4), ("stays", 1, common, 2, 2), ("f", 1, 1, 0, 4)];
        object(&[text], &symbols, &[])
    }

    fn place(name: &BStr) -> Option<BlockPlace> {
        match name.as_bytes() {
            b"here" => Some(BlockPlace::Here(16)),
            b"there" => Some(BlockPlace::Elsewhere),
            _ => None,
        }
    }

    /// ldlang.c, `lang_one_common`: a block stands in the section of its object.
    #[test]
    fn blocks_stand_in_a_section() {
        let data = with_common_section(&written(), &CommonSection { size: 40, align: 8, place: &place }).unwrap();
        let tables = Elf::parse(data.into()).unwrap();
        let number = SectionIndex(tables.section_count() as u32 - 1);
        let section = tables.section(number).unwrap();
        assert_eq!((section.name.as_bytes(), section.kind), (&b"COMMON"[..], SectionKind::NOBITS));
        assert_eq!((section.flags, section.size, section.align), (SectionFlags(3), 40, 8));
        let found: Vec<_> = tables.globals().map(|one| (one.name.to_string(), one.home, one.value)).collect();
        let wanted = [
            ("here".to_owned(), Home::Section(number), 16),
            ("there".to_owned(), Home::Undefined, 0),
            ("stays".to_owned(), Home::Common, 2),
            ("f".to_owned(), Home::Section(SectionIndex(1)), 0),
        ];
        assert_eq!(found, wanted);
        assert_eq!(tables.section(SectionIndex(1)).unwrap().name, ".text");
    }

    #[test]
    fn an_object_without_such_blocks_stays() {
        let section = CommonSection { size: 0, align: 1, place: &|_| None };
        assert_eq!(with_common_section(&written(), &section), None);
        assert_eq!(with_common_section(b"no object", &section), None);
    }

    #[test]
    fn tables_that_are_not_whole_are_no_panic() {
        let data = written();
        for length in 0..data.len() {
            let section = CommonSection { size: 40, align: 8, place: &place };
            let _ = with_common_section(&data[..length], &section);
        }
    }
}
