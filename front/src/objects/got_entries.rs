//! References by a global offset table that need an entry: they become references to a symbol of the object that has
//! the table.

use super::draft::{Draft, Headers};
use super::{Object, SectionIndex, SymbolIndex};
use crate::snapshot::Bytes;
use bstr::{BStr, BString};
use object::elf::{self, Rela64, Sym64};
use object::read::elf::SectionHeader;
use object::LittleEndian as Little;

/// The name of the start of the table, of GNU ld's `.got`.
pub const GOT_START: &str = "ldi.got";
/// The name of what GNU ld begins `.got.plt` with.
pub const GLOBAL_OFFSET_TABLE: &str = "_GLOBAL_OFFSET_TABLE_";
const SYMBOL: usize = std::mem::size_of::<Sym64<Little>>();
/// Where fields are in a section header: `sh_offset` and `sh_size`; in a relocation: `r_info` and `r_addend`.
const OFFSET_AT: usize = 24;
const SIZE_AT: usize = 32;
const INFO_AT: usize = 8;
const ADDEND_AT: usize = 16;

/// A reference that needs the table.
#[derive(Clone, Copy, PartialEq, Eq, Debug)]
pub struct GotReference {
    /// The section that it is in.
    pub section: SectionIndex,
    /// Its symbol.
    pub symbol: SymbolIndex,
    /// What it wants of the table.
    pub wants: GotUse,
    /// Where the relocation is in the file.
    entry_at: usize,
    addend: i64,
}

/// What a reference wants of the table.
#[derive(Clone, Copy, PartialEq, Eq, Debug)]
pub enum GotUse {
    /// The distance of an entry, in a field of 4 bytes.
    Entry,
    /// The distance of an entry, in a field of 8 bytes.
    LongEntry,
    /// The distance of `_GLOBAL_OFFSET_TABLE_`, in a field of 4 bytes.
    Start,
    /// The distance of `_GLOBAL_OFFSET_TABLE_`, in a field of 8 bytes.
    LongStart,
}

impl GotUse {
    fn of(kind: u32) -> Option<GotUse> {
        match kind {
            elf::R_X86_64_GOTPCREL | elf::R_X86_64_GOTPCRELX | elf::R_X86_64_REX_GOTPCRELX => Some(GotUse::Entry),
            elf::R_X86_64_GOTPCREL64 => Some(GotUse::LongEntry),
            elf::R_X86_64_GOTPC32 => Some(GotUse::Start),
            elf::R_X86_64_GOTPC64 => Some(GotUse::LongStart),
            _ => None,
        }
    }

    /// Whether it is an entry.
    pub fn is_entry(self) -> bool {
        matches!(self, GotUse::Entry | GotUse::LongEntry)
    }

    /// The relocation that says the same of a symbol.
    fn relocation(self) -> u32 {
        match self {
            GotUse::Entry | GotUse::Start => elf::R_X86_64_PC32,
            GotUse::LongEntry | GotUse::LongStart => elf::R_X86_64_PC64,
        }
    }
}

/// Whether a relocation of this type wants something of the table.
pub(super) fn wants_table(kind: u32) -> bool {
    GotUse::of(kind).is_some()
}

/// A reference that is not relaxed; `section` is that of the field, and `entry_at` the place of the relocation.
pub(super) fn got_references(section: SectionIndex, entry_at: usize, entry: &Rela64<Little>) -> Option<GotReference> {
    let info = entry.r_info.get(Little);
    Some(GotReference {
        section,
        symbol: SymbolIndex((info >> 32) as u32),
        wants: GotUse::of(info as u32)?,
        entry_at,
        addend: entry.r_addend.get(Little),
    })
}

/// A local symbol that gets a global name, so that the table can name it.
#[derive(Clone, PartialEq, Eq, Debug)]
pub struct NamedLocal {
    /// The symbol.
    pub symbol: SymbolIndex,
    /// Its name.
    pub name: BString,
}

impl Object {
    /// The same whose references by the table are to its symbols: `place_of` gives the place of an entry in the table,
    /// and `None` for a name that nothing defines; `named` are local symbols that have one. `None` if its tables are
    /// not whole.
    pub fn with_table(&self, place_of: &dyn Fn(SymbolIndex) -> Option<u64>, named: &[NamedLocal]) -> Option<Object> {
        let (data, table) = with_symbols(self.data(), named)?;
        let mut draft = Draft::new(data);
        for reference in self.got_references() {
            let is_start = || self.symbol(reference.symbol).map_or(false, |one| one.name == GLOBAL_OFFSET_TABLE);
            let (symbol, more) = match (reference.wants.is_entry(), place_of(reference.symbol)) {
                (true, Some(place)) => (table, place),
                (true, None) => (reference.symbol.0, 0),
                (false, _) if is_start() => (reference.symbol.0, 0),
                (false, _) => continue,
            };
            let addend = reference.addend.wrapping_add(more as i64);
            let info = u64::from(symbol) << 32 | u64::from(reference.wants.relocation());
            draft.put(reference.entry_at + INFO_AT, &info.to_le_bytes());
            draft.put(reference.entry_at + ADDEND_AT, &addend.to_le_bytes());
        }
        self.with_bytes(draft.finish())
    }
}

/// The bytes of an object with more symbols, and the number of the first: TABLE, which is not defined, and global names
/// of local ones.
fn with_symbols(data: &Bytes, named: &[NamedLocal]) -> Option<(Bytes, u32)> {
    let headers = Headers::of(data)?;
    let (number, table) = headers.iter().find(|(_, header)| header.sh_type(Little) == elf::SHT_SYMTAB)?;
    let names = SectionIndex(table.sh_link(Little));
    let (_, symbols) = headers.symbols(table);
    let (_, strings) = headers.contents(headers.get(names)?);
    let (mut symbols_of, mut strings) = (object::bytes_of_slice(symbols).to_vec(), strings.to_vec());
    let mut add = |name: &BStr, like: Option<&Sym64<Little>>| -> Option<()> {
        let (info, home, value, size) = like.map_or((0, elf::SHN_UNDEF, 0, 0), |like| {
            (like.st_info & 15, like.st_shndx.get(Little), like.st_value.get(Little), like.st_size.get(Little))
        });
        let info = elf::STB_GLOBAL << 4 | if info > elf::STT_FUNC { elf::STT_NOTYPE } else { info };
        symbols_of.extend(u32::try_from(strings.len()).ok()?.to_le_bytes());
        symbols_of.extend([info, elf::STV_HIDDEN]);
        symbols_of.extend(home.to_le_bytes());
        symbols_of.extend(value.to_le_bytes());
        symbols_of.extend(size.to_le_bytes());
        strings.extend_from_slice(name);
        strings.push(0);
        Some(())
    };
    add(GOT_START.into(), None)?;
    for one in named {
        add(one.name.as_ref(), Some(symbols.get(one.symbol.0 as usize)?))?;
    }
    let mut longer = data.to_vec();
    for (section, bytes) in [(number, symbols_of), (names, strings)] {
        longer.resize(longer.len() + (longer.len().wrapping_neg() & 7), 0);
        let (at, header) = (longer.len() as u64, headers.place(section));
        longer.extend_from_slice(&bytes);
        for (field, value) in [(OFFSET_AT, at), (SIZE_AT, bytes.len() as u64)] {
            longer.get_mut(header + field..header + field + 8)?.copy_from_slice(&value.to_le_bytes());
        }
    }
    Some((longer.into(), u32::try_from(symbols.len()).ok()?))
}

/// An entry of the table.
#[derive(Clone, PartialEq, Eq, Debug)]
pub struct GotSlot {
    /// The name of what it has the address of.
    pub name: BString,
    /// Whether the name may be undefined, so that the entry is 0.
    pub is_weak: bool,
}

/// How GNU ld begins `.got.plt`, in bytes: the address of `_DYNAMIC`, of which there is none, and two words of the
/// dynamic linker (bfd/elfxx-x86.h, `GOT_HEADER_SIZE`).
const HEADER_SIZE: usize = 24;
/// The bytes of an entry.
pub const ENTRY_SIZE: usize = 8;
/// The number of the section `.got.plt` of an object of [`got_object`].
pub const HEADER_SECTION: SectionIndex = SectionIndex(3);

/// An object that has the table: `.got` with its entries, and `.got.plt`.
pub fn got_object(table: &[GotSlot]) -> Bytes {
    const NAMES: &[u8] = b"\0.got\0.rela.got\0.got.plt\0.symtab\0.strtab\0.shstrtab\0";
    let mut strings = vec![0];
    let mut symbols = vec![0; SYMBOL];
    let mut relocations = Vec::new();
    let mut symbol = |name: &[u8], info: u8, section: u16| {
        symbols.extend((strings.len() as u32).to_le_bytes());
        symbols.extend([info, elf::STV_HIDDEN]);
        symbols.extend(section.to_le_bytes());
        symbols.extend([0; 16]);
        strings.extend_from_slice(name);
        strings.push(0);
    };
    let object = elf::STB_GLOBAL << 4 | elf::STT_OBJECT;
    symbol(GOT_START.as_bytes(), object, 1);
    symbol(GLOBAL_OFFSET_TABLE.as_bytes(), object, HEADER_SECTION.0 as u16);
    for (number, entry) in table.iter().enumerate() {
        symbol(&entry.name, if entry.is_weak { elf::STB_WEAK << 4 } else { elf::STB_GLOBAL << 4 }, elf::SHN_UNDEF);
        let info = (number as u64 + 3) << 32 | u64::from(elf::R_X86_64_64);
        relocations.extend([(number * ENTRY_SIZE) as u64, info, 0].iter().flat_map(|word| word.to_le_bytes()));
    }
    let mut written = Written::default();
    let flags = u64::from(elf::SHF_ALLOC | elf::SHF_WRITE);
    written.section(1, elf::SHT_PROGBITS, flags, &vec![0; table.len() * ENTRY_SIZE], [0, 0, ENTRY_SIZE as u64]);
    written.section(6, elf::SHT_RELA, 0, &relocations, [4, 1, 24]);
    written.section(16, elf::SHT_PROGBITS, flags, &[0; HEADER_SIZE], [0, 0, ENTRY_SIZE as u64]);
    written.section(25, elf::SHT_SYMTAB, 0, &symbols, [5, 1, SYMBOL as u64]);
    written.section(33, elf::SHT_STRTAB, 0, &strings, [0, 0, 0]);
    written.section(41, elf::SHT_STRTAB, 0, NAMES, [0, 0, 0]);
    written.finish()
}

/// An object that is written; the names of its sections are the last one.
#[derive(Default)]
pub(super) struct Written {
    contents: Vec<u8>,
    headers: Vec<u8>,
}

impl Written {
    const FILE_HEADER: u64 = 64;

    /// Adds a section: the place of its name, its type, its flags and its bytes; `sh_link`, `sh_info` and `sh_entsize`.
    pub(super) fn section(&mut self, name: u32, kind: u32, flags: u64, bytes: &[u8], [link, info, entry]: [u64; 3]) {
        let kind = u64::from(name) | u64::from(kind) << 32;
        self.add([kind, flags, link | info << 32, 8, entry], bytes);
    }

    /// Adds a section of bytes with an alignment.
    pub(super) fn aligned_section(&mut self, name: u32, kind: u32, flags: u64, bytes: &[u8], align: u64) {
        self.add([u64::from(name) | u64::from(kind) << 32, flags, 0, align, 0], bytes);
    }

    fn add(&mut self, [kind, flags, link, align, entry]: [u64; 5], bytes: &[u8]) {
        self.contents.resize(self.contents.len() + (self.contents.len().wrapping_neg() & 7), 0);
        let offset = Written::FILE_HEADER + self.contents.len() as u64;
        let words = [kind, flags, 0, offset, bytes.len() as u64, link, align, entry];
        self.headers.extend(words.iter().flat_map(|word| word.to_le_bytes()));
        self.contents.extend_from_slice(bytes);
    }

    pub(super) fn finish(mut self) -> Bytes {
        self.contents.resize(self.contents.len() + (self.contents.len().wrapping_neg() & 7), 0);
        let count = (self.headers.len() / 64 + 1) as u16;
        let mut file = b"\x7fELF\x02\x01\x01".to_vec();
        file.resize(16, 0);
        file.extend([1, 0, 62, 0, 1, 0, 0, 0]); // ET_REL, EM_X86_64, EV_CURRENT
        file.resize(40, 0);
        file.extend((Written::FILE_HEADER + self.contents.len() as u64).to_le_bytes());
        file.extend([0, 0, 0, 0, 64, 0, 0, 0, 0, 0, 64, 0]);
        file.extend(count.to_le_bytes());
        file.extend((count - 1).to_le_bytes());
        file.extend(self.contents);
        file.extend([0; 64]);
        file.extend(self.headers);
        file.into()
    }
}

#[cfg(test)]
mod tests {
    use super::super::tests::{object, WrittenSection};
    use super::super::{Home, Origin, Relocation, Visibility};
    use super::*;
    use std::path::Path;

    fn named(name: &str, data: Bytes) -> Object {
        Object::new(name.into(), Origin::of_file(Path::new(name)), data)
    }

    /// `cmp $0, weak@GOTPCREL(%rip)`, and a reference to `_GLOBAL_OFFSET_TABLE_`.
    fn written() -> Object {
        let text =
            WrittenSection { name: ".text", kind: 1, flags: 6, data: &[0x48, 0x83, 0x3D, 0, 0, 0, 0, 0, 0, 0, 0, 0] };
        let weak = Relocation { offset: 3, kind: elf::R_X86_64_GOTPCREL, symbol: SymbolIndex(1), addend: -5 };
        let start = Relocation { offset: 8, kind: elf::R_X86_64_GOTPC32, symbol: SymbolIndex(2), addend: 4 };
        let symbols = [("weak", 2, 0, 0, 0), (GLOBAL_OFFSET_TABLE, 1, 0, 0, 0)];
        named("a.o", object(&[text], &symbols, &[weak, start]).into())
    }

    #[test]
    fn references_that_are_not_relaxed_are_known() {
        let found: Vec<_> = written().got_references().iter().map(|one| (one.symbol, one.wants)).collect();
        assert_eq!(found, [(SymbolIndex(1), GotUse::Entry), (SymbolIndex(2), GotUse::Start)]);
    }

    /// psABI, 4.4.1: R_X86_64_GOTPCREL is G + GOT + A - P, R_X86_64_GOTPC32 is GOT + A - P.
    #[test]
    fn they_become_references_to_symbols() {
        let object = written().with_table(&|_| Some(16), &[]).unwrap();
        let found: Vec<_> = object.relocations(SectionIndex(1)).collect();
        let wanted = [(3, 3, 11), (8, 2, 4)].map(|(offset, symbol, addend)| Relocation {
            offset,
            kind: elf::R_X86_64_PC32,
            symbol: SymbolIndex(symbol),
            addend,
        });
        assert_eq!(found, wanted);
        let names: Vec<_> = object.globals().map(|one| one.name.to_string()).collect();
        assert_eq!(names, ["weak", GLOBAL_OFFSET_TABLE, GOT_START]);
        assert!(object.globals().all(|one| one.is_undefined()));
    }

    #[test]
    fn a_local_symbol_gets_a_name() {
        let text = WrittenSection { name: ".text", kind: 1, flags: 6, data: b"\x90\xc3" };
        let own = named("a.o", object(&[text], &[("own", 0, 1, 1, 1)], &[]).into());
        let one = NamedLocal { symbol: SymbolIndex(1), name: "ldi.got.a.o.1".into() };
        let changed = own.with_table(&|_| Some(0), &[one]).unwrap();
        let found: Vec<_> = changed.globals().map(|one| (one.name.to_string(), one.home, one.value)).collect();
        assert_eq!(found[2], ("ldi.got.a.o.1".into(), Home::Section(SectionIndex(1)), 1));
    }

    /// elfxx-x86.c, `_bfd_x86_elf_late_size_sections`: entries of 8 bytes, and a header of 24.
    #[test]
    fn a_table_has_entries_and_a_header() {
        let entries = [("a", false), ("b", true)].map(|(name, is_weak)| GotSlot { name: name.into(), is_weak });
        let object = named("ldi.got", got_object(&entries));
        let sections: Vec<_> = object.sections().map(|one| (one.name.to_string(), one.flags.0, one.size)).collect();
        assert_eq!(sections[0], (".got".into(), 3, 16));
        assert_eq!(sections[2], (".got.plt".into(), 3, 24));
        let found: Vec<_> = object.relocations(SectionIndex(1)).map(|one| (one.offset, one.symbol.0)).collect();
        assert_eq!(found, [(0, 3), (8, 4)]);
        let own: Vec<_> = object.globals().take(2).map(|one| (one.home, one.visibility)).collect();
        let home = |number| Home::Section(SectionIndex(number));
        assert_eq!(own, [(home(1), Visibility::Hidden), (home(3), Visibility::Hidden)]);
        assert_eq!(object.globals_named("b".into()).next().unwrap().binding, super::super::Binding::Weak);
    }

    #[test]
    fn tables_that_are_not_whole_are_no_panic() {
        let data = written().data().to_vec();
        for at in 0..data.len() {
            let mut changed = data.clone();
            changed[at] = 0xFF;
            let object = named("a.o", changed.into());
            let _ = object.with_table(&|_| Some(8), &[NamedLocal { symbol: SymbolIndex(9), name: "n".into() }]);
        }
    }
}
