//! The object of a table of the entries of `.eh_frame` (LSB, 'Exception Frame Header'; elf-eh-frame.c,
//! `write_dwarf_eh_frame_hdr`), and the names by which it refers to the sections of others.

use super::draft::Headers;
use super::got_entries::Written;
use super::merged_object::Written as Changed;
use super::SectionIndex;
use crate::snapshot::Bytes;
use bstr::BString;
use object::elf::{self, Sym64};
use object::read::elf::SectionHeader;
use object::LittleEndian as Little;

/// The name of its section.
pub const EH_FRAME_HDR: &str = ".eh_frame_hdr";
/// The name that GNU ld gives to its start.
pub const EH_FRAME_HDR_START: &str = "__GNU_EH_FRAME_HDR";
/// How the names begin by which it refers to sections of others.
pub const FRAME_ANCHOR: &str = "ldi.eh-frame-hdr";
/// The number of its section in an object of [`eh_frame_hdr_object`].
pub const EH_FRAME_HDR_SECTION: SectionIndex = SectionIndex(1);
/// The bytes of a table without rows: a head, and the place of `.eh_frame`.
pub const EH_FRAME_HDR_HEAD: u64 = 8;
/// The bytes of the number of rows.
pub const FRAME_COUNT_SIZE: u64 = 4;
/// The bytes of a row.
pub const FRAME_ROW_SIZE: u64 = 8;
const SYMBOL: usize = std::mem::size_of::<Sym64<Little>>();
/// The number of the symbol of the table's start.
const START: u32 = 1;
const ALIGN: u64 = 4;

/// A distance in a table: where it is, and the place that it leads to, by a name (`None`: the table's start) and a
/// distance from it, to which that from the field is added.
#[derive(Clone, PartialEq, Eq, Debug)]
pub struct Distance {
    /// Where the field is, in bytes.
    pub at: u64,
    /// The number of the name.
    pub name: Option<usize>,
    /// What is added to its place, less the field's.
    pub addend: i64,
}

/// An object with a table: its bytes, the names of other objects that it refers to, and its distances.
pub fn eh_frame_hdr_object(table: &[u8], anchors: &[BString], distances: &[Distance]) -> Bytes {
    const NAMES: &[u8] = b"\0.eh_frame_hdr\0.rela.eh_frame_hdr\0.symtab\0.strtab\0.shstrtab\0";
    let (mut strings, mut symbols) = (vec![0], vec![0; SYMBOL]);
    let hidden = |strings: &mut Vec<u8>, name: &[u8], home: u16| symbol(strings, name, home, 0);
    symbols.extend(hidden(&mut strings, EH_FRAME_HDR_START.as_bytes(), 1));
    for name in anchors {
        symbols.extend(hidden(&mut strings, name, elf::SHN_UNDEF));
    }
    let relocation = |one: &Distance| {
        let symbol = one.name.map_or(START, |name| START + 1 + name as u32);
        let info = u64::from(symbol) << 32 | u64::from(elf::R_X86_64_PC32);
        [one.at, info, one.addend as u64]
    };
    let relocations: Vec<u8> = distances.iter().flat_map(relocation).flat_map(u64::to_le_bytes).collect();
    let mut written = Written::default();
    written.aligned_section(1, elf::SHT_PROGBITS, u64::from(elf::SHF_ALLOC), table, ALIGN);
    written.section(15, elf::SHT_RELA, 0, &relocations, [3, 1, 24]);
    written.section(34, elf::SHT_SYMTAB, 0, &symbols, [4, 1, SYMBOL as u64]);
    written.section(42, elf::SHT_STRTAB, 0, &strings, [0, 0, 0]);
    written.section(50, elf::SHT_STRTAB, 0, NAMES, [0, 0, 0]);
    written.finish()
}

/// An object without a table, in the place of one that is left out.
pub fn no_eh_frame_hdr_object() -> Bytes {
    let mut written = Written::default();
    written.section(1, elf::SHT_STRTAB, 0, b"\0.shstrtab\0", [0, 0, 0]);
    written.finish()
}

/// The bytes of an object in which the starts of these sections have global names; `None` if its tables are not whole.
pub fn with_section_names(data: &Bytes, names: &[(SectionIndex, BString)]) -> Option<Bytes> {
    let headers = Headers::of(data)?;
    let (number, table) = headers.iter().find(|(_, header)| header.sh_type(Little) == elf::SHT_SYMTAB)?;
    let strings_in = SectionIndex(table.sh_link(Little));
    let mut symbols = object::bytes_of_slice(headers.symbols(table).1).to_vec();
    let mut strings = headers.contents(headers.get(strings_in)?).1.to_vec();
    for (section, name) in names {
        let home = u16::try_from(section.0).ok().filter(|home| *home < elf::SHN_LORESERVE)?;
        u32::try_from(strings.len()).ok()?;
        symbols.extend(symbol(&mut strings, name, home, 0));
    }
    let mut changed = Changed::of(data, headers)?;
    changed.put_section(number, &symbols)?;
    changed.put_section(strings_in, &strings)?;
    changed.finish()
}

/// A global symbol that is hidden.
fn symbol(strings: &mut Vec<u8>, name: &[u8], home: u16, value: u64) -> Vec<u8> {
    let mut symbol = (strings.len() as u32).to_le_bytes().to_vec();
    symbol.extend([elf::STB_GLOBAL << 4, elf::STV_HIDDEN]);
    symbol.extend(home.to_le_bytes());
    symbol.extend(value.to_le_bytes());
    symbol.extend([0; 8]);
    strings.extend_from_slice(name);
    strings.push(0);
    symbol
}

#[cfg(test)]
mod tests {
    use super::super::tests::{object, WrittenSection};
    use super::super::{Elf, Home, Visibility};
    use super::*;

    /// A table, and an object whose section has a name by which the table refers to it.
    #[test]
    fn a_table_refers_to_sections() {
        let name = BString::from("ldi.eh-frame-hdr.0");
        let distances = [Distance { at: 4, name: Some(0), addend: 9 }, Distance { at: 12, name: None, addend: -2 }];
        let table = Elf::parse(eh_frame_hdr_object(&[0; 16], std::slice::from_ref(&name), &distances)).unwrap();
        let section = table.section(EH_FRAME_HDR_SECTION).unwrap();
        assert_eq!((section.name, section.size, section.align, section.flags.0), (EH_FRAME_HDR.into(), 16, 4, 2));
        let found: Vec<_> = table
            .relocations(EH_FRAME_HDR_SECTION)
            .map(|one| (one.offset, one.kind, one.symbol.0, one.addend))
            .collect();
        assert_eq!(found, [(4, elf::R_X86_64_PC32, 2, 9), (12, elf::R_X86_64_PC32, 1, -2)]);
        let names: Vec<_> = table.globals().map(|one| (one.name.to_string(), one.home)).collect();
        let home = Home::Section(EH_FRAME_HDR_SECTION);
        assert_eq!(names, [(EH_FRAME_HDR_START.into(), home), (name.to_string(), Home::Undefined)]);
        let text = WrittenSection { name: ".text", kind: 1, flags: 6, data: &[0x90] };
        let own = object(&[text], &[("f", 1, 1, 0, 0)], &[]).into();
        let named = Elf::parse(with_section_names(&own, &[(SectionIndex(1), name.clone())]).unwrap()).unwrap();
        let found = named.globals_named(name.as_ref()).next().unwrap();
        assert_eq!((found.home, found.value, found.visibility), (home, 0, Visibility::Hidden));
        assert_eq!(
            Elf::parse(no_eh_frame_hdr_object()).unwrap().sections().filter(|one| one.kind.is_linked()).count(),
            0
        );
    }

    #[test]
    fn tables_that_are_not_whole_are_no_panic() {
        let text = WrittenSection { name: ".text", kind: 1, flags: 6, data: &[0x90] };
        let data = object(&[text], &[("f", 1, 1, 0, 0)], &[]);
        for at in 0..data.len() {
            let mut changed = data.clone();
            changed[at] = 0xFF;
            let _ = with_section_names(&changed.into(), &[(SectionIndex(1), "n".into())]);
        }
    }
}
