//! Converts an object into the profile: what `ldi` need not know is removed, and names become those of its session.

use super::draft::{Draft, Headers};
use super::got_entries::{got_references, wants_table, GotReference};
use super::got_relaxing::{relaxed, Reference, Referred};
use super::{SectionFlags, SectionIndex, SymbolIndex};
use crate::profile::limits::MAX_OBJECT_NAME;
use crate::snapshot::Bytes;
use bstr::{BString, ByteVec};
use object::elf::{self, FileHeader64, Rela64, SectionHeader64, Sym64};
use object::read::elf::{FileHeader, SectionHeader};
use object::LittleEndian as Little;
use std::collections::HashSet;

/// The number of `ELFOSABI_GNU` and that of `ELFOSABI_FREEBSD`, under which SHF_GNU_RETAIN and STB_GNU_UNIQUE count.
const SYSTEMS: [u8; 2] = [elf::ELFOSABI_GNU, elf::ELFOSABI_FREEBSD];
/// Where `EI_OSABI` is.
const SYSTEM_AT: usize = 7;
/// Where fields are in a symbol (`st_info`) and in a relocation (`r_info`, `r_addend`).
const INFO_AT: usize = 4;
const TYPE_AT: usize = 8;
const ADDEND_AT: usize = 16;

/// An object's bytes as `ldi` takes them, and what was taken out.
#[derive(Clone, Debug, Default)]
pub(super) struct Profiled {
    /// The bytes.
    pub(super) data: Bytes,
    /// Flags that `ldi` need not know and that layout and image go by: SHF_GROUP, SHF_LINK_ORDER, SHF_GNU_RETAIN and
    /// SHF_X86_64_LARGE; ascending.
    pub(super) cleared: Vec<(SectionIndex, SectionFlags)>,
    /// The sections that had SHF_GNU_RETAIN.
    pub(super) retained: Vec<SectionIndex>,
    /// Where references by a global offset table became others: section and offset, in the order of the tables.
    pub(super) relaxed: Vec<(SectionIndex, u64)>,
    /// The references that need a table.
    pub(super) tabled: Vec<GotReference>,
    /// The symbols that had the binding STB_GNU_UNIQUE, ascending.
    pub(super) unique: Vec<SymbolIndex>,
}

impl Profiled {
    /// Takes out of an object what `ldi` need not know: flags of sections, STB_GNU_UNIQUE (a name is one in an image),
    /// and references by a global offset table if none is needed.
    pub(super) fn of(data: Bytes) -> Profiled {
        let mut found = Profiled { data: data.clone(), ..Profiled::default() };
        let headers = match Headers::of(&data) {
            Some(headers) => headers,
            None => return found,
        };
        let mut draft = Draft::new(data.clone());
        let is_of_system = data.get(SYSTEM_AT).map_or(false, |system| SYSTEMS.contains(system));
        for (number, header) in headers.iter() {
            let flags = SectionFlags(header.sh_flags(Little));
            if flags.has(SectionFlags::ALLOC) {
                found.clear(&mut draft, headers, number, flags, is_of_system);
            }
            match header.sh_type(Little) {
                elf::SHT_RELA => found.relax(&mut draft, headers, header),
                elf::SHT_SYMTAB if is_of_system => found.unique = take_unique(&mut draft, headers, header),
                _ => {}
            }
        }
        found.data = draft.finish();
        found
    }

    /// Takes flags out of a section.
    fn clear(
        &mut self,
        draft: &mut Draft,
        headers: Headers<'_>,
        number: SectionIndex,
        flags: SectionFlags,
        is_of_system: bool,
    ) {
        let retain = if is_of_system { SectionFlags::GNU_RETAIN.0 } else { 0 };
        let others = SectionFlags::GROUP.0 | SectionFlags::LINK_ORDER.0 | SectionFlags::X86_64_LARGE.0;
        let cleared = flags.0 & (retain | others);
        if flags.0 & retain != 0 {
            self.retained.push(number);
        }
        if cleared != 0 {
            self.cleared.push((number, SectionFlags(cleared)));
            headers.put_flags(draft, number, flags.0 & !cleared);
        }
    }

    /// Relaxes what a table of relocations has of a section that is loaded.
    fn relax(&mut self, draft: &mut Draft, headers: Headers<'_>, table: &SectionHeader64<Little>) {
        let number = SectionIndex(table.sh_info(Little));
        let section = match headers.get(number) {
            Some(section) if SectionFlags(section.sh_flags(Little)).has(SectionFlags::ALLOC) => section,
            _ => return,
        };
        let (entries_at, entries) = headers.relocations(table);
        let mut places = entries.iter().enumerate().filter(|(_, entry)| wants_table(kind_of(entry))).peekable();
        if places.peek().is_none() {
            return;
        }
        let (code_at, code) = headers.contents(section);
        let symbols = headers.get(SectionIndex(table.sh_link(Little))).map_or(&[][..], |one| headers.symbols(one).1);
        for (index, entry) in places {
            let reference = Reference {
                offset: entry.r_offset.get(Little),
                kind: kind_of(entry),
                addend: entry.r_addend.get(Little),
                symbol: referred(symbols, entry),
            };
            let at = entries_at + index * std::mem::size_of::<Rela64<Little>>();
            let relaxed = match relaxed(code, reference) {
                Some(relaxed) => relaxed,
                None => {
                    self.tabled.extend(got_references(number, at, entry));
                    continue;
                }
            };
            draft.put(at, &relaxed.offset.to_le_bytes());
            draft.put(at + TYPE_AT, &relaxed.kind.to_le_bytes());
            draft.put(at + ADDEND_AT, &relaxed.addend.to_le_bytes());
            for (place, byte) in relaxed.bytes {
                draft.put(code_at + place as usize, &[byte]);
            }
            self.relaxed.push((number, relaxed.offset));
        }
    }
}

fn kind_of(entry: &Rela64<Little>) -> u32 {
    entry.r_info.get(Little) as u32
}

/// What an object says of the symbol of a relocation.
fn referred(symbols: &[Sym64<Little>], entry: &Rela64<Little>) -> Referred {
    let number = (entry.r_info.get(Little) >> 32) as usize;
    let symbol = match symbols.get(number) {
        Some(symbol) if number > 0 => symbol,
        _ => return Referred::ByTableAlone,
    };
    let is_local = symbol.st_info >> 4 == elf::STB_LOCAL;
    match symbol.st_shndx.get(Little) {
        _ if symbol.st_info & 15 == elf::STT_GNU_IFUNC => Referred::ByTableAlone,
        elf::SHN_UNDEF if is_local => Referred::ByTableAlone,
        elf::SHN_ABS => Referred::Number(symbol.st_value.get(Little)),
        _ => Referred::Other,
    }
}

/// Makes symbols that the dynamic linker is to know as one global; gives them.
fn take_unique(draft: &mut Draft, headers: Headers<'_>, table: &SectionHeader64<Little>) -> Vec<SymbolIndex> {
    let (begin, symbols) = headers.symbols(table);
    let mut unique = Vec::new();
    for (index, symbol) in symbols.iter().enumerate().filter(|(_, one)| one.st_info >> 4 == elf::STB_GNU_UNIQUE) {
        let at = begin + index * std::mem::size_of::<Sym64<Little>>() + INFO_AT;
        draft.put(at, &[elf::STB_GLOBAL << 4 | symbol.st_info & 15]);
        unique.push(SymbolIndex(index as u32));
    }
    unique
}

/// The bytes of an object whose sections of these numbers have the type PROGBITS and SHF_ALLOC, without flags that
/// `ldi` does not link; `None` if its table of sections is not whole.
pub fn with_loaded(data: &[u8], sections: &[SectionIndex]) -> Option<Vec<u8>> {
    const KIND_AT: usize = 4;
    const FLAGS_AT: usize = 8;
    let header = FileHeader64::<Little>::parse(data).ok()?;
    let headers = header.section_headers(Little, data).ok()?;
    let begin = usize::try_from(header.e_shoff(Little)).ok()?;
    let kept = [SectionFlags::WRITE, SectionFlags::EXECINSTR, SectionFlags::MERGE, SectionFlags::STRINGS];
    let kept = kept.iter().fold(0, |kept, flag| kept | flag.0);
    let mut changed = data.to_vec();
    for number in sections {
        let flags = headers.get(number.0 as usize)?.sh_flags(Little) & kept | SectionFlags::ALLOC.0;
        let at = begin + number.0 as usize * std::mem::size_of::<SectionHeader64<Little>>();
        changed.get_mut(at + KIND_AT..at + FLAGS_AT)?.copy_from_slice(&elf::SHT_PROGBITS.to_le_bytes());
        changed.get_mut(at + FLAGS_AT..at + FLAGS_AT + 8)?.copy_from_slice(&flags.to_le_bytes());
    }
    Some(changed)
}

/// A name that the session of `ldi` takes, and none of those in use, to which it is added: bytes outside of `!` to `~`
/// are `_`, long names lose their front, and a name in use gets `#2`, `#3` and so on.
pub fn session_name(name: &[u8], used: &mut HashSet<BString>) -> BString {
    let front = name.len().saturating_sub(MAX_OBJECT_NAME);
    let plain: Vec<u8> =
        name.iter().skip(front).map(|&byte| if byte.is_ascii_graphic() { byte } else { b'_' }).collect();
    let plain = if plain.is_empty() { b"_".to_vec() } else { plain };
    let mut candidate = BString::from(plain.clone());
    let mut count = 1;
    while used.contains(&candidate) {
        count += 1;
        let end = format!("#{count}");
        let kept = plain.len().min(MAX_OBJECT_NAME - end.len());
        candidate = BString::from(plain.get(plain.len() - kept..).unwrap_or_default());
        candidate.push_str(end);
    }
    used.insert(candidate.clone());
    candidate
}

/// The object that GNU ld makes of a file of any bytes (`--format=binary`): `.data` with the bytes, which has section
/// number 1, and the names `_binary_PATH_start`, `_end` and `_size`.
pub fn binary_object(path: &[u8], data: &[u8]) -> Bytes {
    const SECTION_NAMES: &[u8] = b"\0.data\0.symtab\0.strtab\0.shstrtab\0";
    const ABSOLUTE: u16 = 0xFFF1;
    let stem: BString =
        path.iter().map(|&byte| if byte.is_ascii_alphanumeric() { byte } else { b'_' }).collect::<Vec<_>>().into();
    let size = data.len() as u64;
    let mut strings = vec![0];
    let mut symbols = vec![0; 24];
    for (end, section, value) in [("start", 1, 0), ("end", 1, size), ("size", ABSOLUTE, size)] {
        symbols.extend((strings.len() as u32).to_le_bytes());
        symbols.extend([0x10, 0]); // STB_GLOBAL, STT_NOTYPE
        symbols.extend(section.to_le_bytes());
        symbols.extend(value.to_le_bytes());
        symbols.extend(0u64.to_le_bytes());
        strings.extend_from_slice(b"_binary_");
        strings.extend_from_slice(&stem);
        strings.extend_from_slice(format!("_{end}\0").as_bytes());
    }
    let mut bytes = file_header(64 + data.len() + symbols.len() + strings.len() + SECTION_NAMES.len());
    let mut headers = section_header([0; 6], 0);
    let mut place = |name: u32, kind: u32, flags: u64, content: &[u8], link: u64, info: u64, entry: u64| {
        let fields = [
            u64::from(name) | u64::from(kind) << 32,
            flags,
            bytes.len() as u64,
            content.len() as u64,
            link | info << 32,
            entry,
        ];
        headers.extend(section_header(fields, if entry == 0 { 1 } else { 8 }));
        bytes.extend_from_slice(content);
    };
    place(1, 1, 3, data, 0, 0, 0);
    place(7, 2, 0, &symbols, 3, 1, 24);
    place(15, 3, 0, &strings, 0, 0, 0);
    place(23, 3, 0, SECTION_NAMES, 0, 0, 0);
    bytes.extend(headers);
    bytes.into()
}

/// A section header: name and type, flags, offset, size, link and info, entry size; the address is 0.
fn section_header(fields: [u64; 6], align: u64) -> Vec<u8> {
    let [kind, flags, offset, size, link, entry] = fields;
    [kind, flags, 0, offset, size, link, align, entry].iter().flat_map(|word| word.to_le_bytes()).collect()
}

/// The header of an object with five sections, whose headers are at a place.
fn file_header(headers_at: usize) -> Vec<u8> {
    let mut bytes = b"\x7fELF\x02\x01\x01".to_vec();
    bytes.resize(16, 0);
    bytes.extend([1, 0, 62, 0, 1, 0, 0, 0]); // ET_REL, EM_X86_64, EV_CURRENT
    bytes.resize(40, 0);
    bytes.extend((headers_at as u64).to_le_bytes());
    bytes.extend([0, 0, 0, 0, 64, 0, 0, 0, 0, 0, 64, 0, 5, 0, 4, 0]);
    bytes
}
