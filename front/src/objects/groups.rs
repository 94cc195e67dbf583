//! Groups of sections (gABI, 'Section Groups'), of which the first of a signature is linked, and sections
//! `.gnu.linkonce.*`, of which the first of a name is.

use super::draft::{Draft, Headers};
use super::elf::LINK_ONCE;
use super::{Elf, SectionFlags, SectionIndex, SectionKind, SymbolIndex};
use crate::snapshot::Bytes;
use bstr::BString;
use object::elf;
use object::read::elf::SectionHeader;
use object::LittleEndian as Little;

/// The bytes of a word of a group.
const WORD: usize = 4;
/// Where fields are in a symbol: `st_shndx` and `st_value`; and in a relocation: `r_info`.
const HOME_AT: usize = 6;
const VALUE_AT: usize = 8;
const INFO_AT: usize = 8;
const SYMBOL: usize = std::mem::size_of::<object::elf::Sym64<Little>>();
const RELOCATION: usize = std::mem::size_of::<object::elf::Rela64<Little>>();

/// What is linked once in a link.
#[derive(Clone, PartialEq, Eq, Hash, Debug)]
pub enum OnceKey {
    /// A group of this signature.
    Group(BString),
    /// A section of this name.
    Section(BString),
}

/// Sections that are linked if they are the first of their key.
#[derive(Clone, PartialEq, Eq, Debug)]
pub struct Once {
    /// The key.
    pub key: OnceKey,
    /// The sections: those of a group with the group itself.
    pub sections: Vec<SectionIndex>,
}

/// What an object has that is linked once, in the order of its headers (bfd/elflink.c,
/// `_bfd_elf_section_already_linked`).
pub fn once_of(elf: &Elf) -> Vec<Once> {
    if !elf.has_groups() {
        return Vec::new();
    }
    elf.sections().filter_map(|section| once_at(elf, &section)).collect()
}

fn once_at(elf: &Elf, section: &super::Section<'_>) -> Option<Once> {
    if section.kind == SectionKind::GROUP {
        let words = words_of(elf.contents(section.index));
        if words.first()? & elf::GRP_COMDAT == 0 {
            return None;
        }
        let members = words.iter().skip(1).map(|word| SectionIndex(*word));
        let key = OnceKey::Group(signature(elf, SymbolIndex(section.info)));
        return Some(Once { key, sections: std::iter::once(section.index).chain(members).collect() });
    }
    let is_one = section.name.starts_with(LINK_ONCE) && !section.flags.has(SectionFlags::GROUP);
    let key = OnceKey::Section(section.name.to_owned());
    (is_one && section.kind.is_linked()).then_some(Once { key, sections: vec![section.index] })
}

fn words_of(bytes: &[u8]) -> Vec<u32> {
    bytes.chunks_exact(WORD).filter_map(|word| word.try_into().ok().map(u32::from_le_bytes)).collect()
}

/// The signature of a group: the name of a symbol, and that of its section if it has none.
fn signature(elf: &Elf, symbol: SymbolIndex) -> BString {
    let symbol = match elf.symbol(symbol) {
        Some(symbol) => symbol,
        None => return BString::default(),
    };
    match symbol.home {
        super::Home::Section(section) if symbol.name.is_empty() => {
            elf.section(section).map_or_else(BString::default, |section| section.name.to_owned())
        }
        _ => symbol.name.to_owned(),
    }
}

/// The bytes of an object without some sections: these are null, the names that they define are undefined, and what
/// tables of exceptions say of them is nothing (bfd/elflink.c, `elf_link_add_object_symbols`, `elf_link_input_bfd`,
/// `_bfd_elf_default_action_discarded`). What other sections still say of local symbols there stays, and is a fault.
pub(super) fn without(data: &Bytes, dropped: &[SectionIndex]) -> Option<Bytes> {
    let headers = Headers::of(data)?;
    let is_dropped = |number: u32| dropped.contains(&SectionIndex(number));
    let mut draft = Draft::new(data.clone());
    for (number, header) in headers.iter() {
        match header.sh_type(Little) {
            elf::SHT_RELA if is_dropped(header.sh_info(Little)) => headers.put_kind(&mut draft, number, elf::SHT_NULL),
            elf::SHT_RELA => forget(&mut draft, headers, header, &is_dropped),
            elf::SHT_SYMTAB => undefine(&mut draft, headers, header, &is_dropped),
            _ => {}
        }
        if is_dropped(number.0) {
            headers.put_kind(&mut draft, number, elf::SHT_NULL);
        }
    }
    Some(draft.finish())
}

type Header = object::elf::SectionHeader64<Little>;

/// Makes the names that dropped sections define undefined.
fn undefine(draft: &mut Draft, headers: Headers<'_>, table: &Header, is_dropped: &dyn Fn(u32) -> bool) {
    let (begin, symbols) = headers.symbols(table);
    let is_global = |(index, _): &(usize, &object::elf::Sym64<Little>)| *index >= table.sh_info(Little) as usize;
    for (index, symbol) in symbols.iter().enumerate().filter(is_global) {
        let home = symbol.st_shndx.get(Little);
        if home < elf::SHN_LORESERVE && is_dropped(home.into()) {
            let at = begin + index * SYMBOL;
            draft.put(at + HOME_AT, &elf::SHN_UNDEF.to_le_bytes());
            draft.put(at + VALUE_AT, &0u64.to_le_bytes());
        }
    }
}

/// Takes away what a table of exceptions says of local symbols of dropped sections.
fn forget(draft: &mut Draft, headers: Headers<'_>, table: &Header, is_dropped: &dyn Fn(u32) -> bool) {
    let section = match headers.get(SectionIndex(table.sh_info(Little))) {
        Some(section) if headers.is_of_exceptions(section) => section,
        _ => return,
    };
    let (bytes_at, bytes) = headers.contents(section);
    let (begin, relocations) = headers.relocations(table);
    let symbols = headers.get(SectionIndex(table.sh_link(Little))).map_or(&[][..], |one| headers.symbols(one).1);
    for (index, relocation) in relocations.iter().enumerate() {
        let info = relocation.r_info.get(Little);
        let symbol = match symbols.get((info >> 32) as usize) {
            Some(symbol) if symbol.st_info >> 4 == elf::STB_LOCAL => symbol,
            _ => continue,
        };
        let home = symbol.st_shndx.get(Little);
        if home >= elf::SHN_LORESERVE || !is_dropped(home.into()) {
            continue;
        }
        draft.put(begin + index * RELOCATION + INFO_AT, &u64::from(elf::R_X86_64_NONE).to_le_bytes());
        let width = if matches!(info as u32, elf::R_X86_64_64 | elf::R_X86_64_PC64) { 8 } else { 4 };
        let place = usize::try_from(relocation.r_offset.get(Little)).ok();
        if let Some(place) = place.filter(|at| at.checked_add(width).map_or(false, |end| end <= bytes.len())) {
            draft.put(bytes_at + place, &[0; 8][..width]);
        }
    }
}

#[cfg(test)]
mod tests {
    use super::super::tests::{object, WrittenSection};
    use super::super::{Home, Relocation};
    use super::*;

    /// An object with a group of `.text.f`, whose signature is `f`, and a relocation of `.eh_frame` to it.
    fn written() -> Vec<u8> {
        let group = [1u32, 3].iter().flat_map(|word| word.to_le_bytes()).collect::<Vec<u8>>();
        let sections = [
            WrittenSection { name: ".eh_frame", kind: 1, flags: 2, data: &[0xAA; 16] },
            WrittenSection { name: ".group", kind: 17, flags: 0, data: &group },
            WrittenSection { name: ".text.f", kind: 1, flags: 0x206, data: b"\x90\xc3" },
            WrittenSection { name: ".gnu.linkonce.d.g", kind: 1, flags: 3, data: b"data" },
        ];
        let symbols = [("f", 2, 3, 1, 1), ("g", 1, 4, 0, 4)];
        let to_code = Relocation { offset: 4, kind: 2, symbol: SymbolIndex(1), addend: 0 };
        let mut data = object(&sections, &symbols, &[to_code]);
        let at = u64::from_le_bytes(data[40..48].try_into().unwrap()) as usize;
        data[at + 2 * 64 + 44..at + 2 * 64 + 48].copy_from_slice(&1u32.to_le_bytes());
        data
    }

    fn parsed(data: Vec<u8>) -> Elf {
        let profiled = super::super::profile::Profiled::of(data.into());
        Elf::parse_cleared(profiled.data, profiled.cleared).unwrap()
    }

    /// gABI, 'Section Groups': the signature is the name of a symbol.
    #[test]
    fn a_group_has_signature_and_members() {
        let found = once_of(&parsed(written()));
        let group = Once { key: OnceKey::Group("f".into()), sections: vec![SectionIndex(2), SectionIndex(3)] };
        let section = Once { key: OnceKey::Section(".gnu.linkonce.d.g".into()), sections: vec![SectionIndex(4)] };
        assert_eq!(found, [group, section]);
    }

    #[test]
    fn a_group_that_is_no_comdat_is_as_other_sections() {
        let mut data = written();
        let at = data.windows(8).position(|bytes| bytes == [1, 0, 0, 0, 3, 0, 0, 0]).unwrap();
        data[at] = 0;
        assert_eq!(once_of(&parsed(data)).len(), 1);
    }

    /// elflink.c, `elf_link_add_object_symbols`: symbols from a discarded section are undefined.
    #[test]
    fn names_of_dropped_sections_are_undefined() {
        let data = without(&written().into(), &[SectionIndex(2), SectionIndex(3)]).unwrap();
        let elf = parsed(data.to_vec());
        let found: Vec<_> = elf.globals().map(|one| (one.name.to_string(), one.home, one.value)).collect();
        let wanted = [("f".into(), Home::Undefined, 0), ("g".into(), Home::Section(SectionIndex(4)), 0)];
        assert_eq!(found, wanted);
        assert_eq!(elf.section(SectionIndex(3)).unwrap().kind, SectionKind::NULL);
        assert_eq!(once_of(&elf).len(), 1);
    }

    /// elflink.c, `_bfd_elf_default_action_discarded`: `.eh_frame` says nothing of a local symbol of a dropped section.
    #[test]
    fn tables_of_exceptions_forget_local_symbols() {
        let mut data = written();
        let at = data.windows(6).position(|bytes| bytes == [0x20, 0, 3, 0, 1, 0]).unwrap();
        data[at] = 0;
        let data = without(&data.into(), &[SectionIndex(2), SectionIndex(3)]).unwrap();
        let elf = parsed(data.to_vec());
        assert_eq!(elf.relocations(SectionIndex(1)).map(|one| one.kind).collect::<Vec<_>>(), [Relocation::NONE]);
        assert_eq!(elf.contents(SectionIndex(1))[..9], [0xAA, 0xAA, 0xAA, 0xAA, 0, 0, 0, 0, 0xAA]);
    }

    #[test]
    fn flags_of_groups_are_taken_out_and_count() {
        let elf = parsed(written());
        assert_eq!(elf.section(SectionIndex(3)).unwrap().flags, SectionFlags(0x206));
        let plain = Elf::parse(elf.data().clone()).unwrap();
        assert_eq!(plain.section(SectionIndex(3)).unwrap().flags, SectionFlags(6));
    }

    #[test]
    fn no_beginning_and_no_changed_byte_is_a_panic() {
        let whole = written();
        for at in 0..whole.len() {
            for byte in [0, 0x7F, 0xFF] {
                let mut data = whole.clone();
                data[at] = byte;
                let data = Bytes::from(data);
                if let Ok(elf) = Elf::parse(data.clone()) {
                    once_of(&elf);
                }
                let _ = without(&data, &[SectionIndex(2), SectionIndex(3), SectionIndex(99)]);
            }
        }
    }
}
