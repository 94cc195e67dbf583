//! The tables of an object (ELF-64, x86-64, relocatable; System V gABI, 'Object Files').
//!
//! Section headers, symbols and relocations are decoded from the bytes on demand; only the places of the tables, the
//! names of sections, and a hash of each global name are kept. Any bytes are accepted: what is not in the file is
//! empty.

use super::{Binding, Home, ObjectFault, Relocation, Section, SectionFlags, SectionIndex, SectionKind};
use super::{Symbol, SymbolIndex, SymbolKind, Visibility};
use crate::snapshot::Bytes;
use bstr::{BStr, ByteSlice};
use object::elf::{self, FileHeader64, Rela64, SectionHeader64, Sym64};
use object::read::elf::FileHeader;
use object::LittleEndian as Little;
use std::ops::Range;

/// The bytes of an entry of a table of relocations.
const RELOCATION: u64 = std::mem::size_of::<Rela64<Little>>() as u64;
const BITCODE: &[u8] = b"BC\xc0\xde";
const MAGIC: &[u8] = b"\x7fELF";
/// How the name of a section begins of which GNU ld links the first alone.
pub(super) const LINK_ONCE: &[u8] = b".gnu.linkonce";
/// A common symbol that gcc gives an object of slim LTO.
const SLIM_LTO: &[u8] = b"__gnu_lto_slim";

/// The tables of an object.
#[derive(Clone, Debug)]
pub struct Elf {
    data: Bytes,
    headers_at: usize,
    /// The places of the names of sections, by their numbers.
    section_names: Vec<Stretch>,
    /// The section numbers of relocated sections with the places of their tables, ascending.
    relocations: Vec<(SectionIndex, Stretch)>,
    symbols: Table,
    /// The hashes of the global names, by symbol from the first global one.
    hashes: Vec<u32>,
    has_commons: bool,
    has_groups: bool,
    has_unlinked: bool,
    /// Flags that the bytes do not have any more, by section; ascending.
    cleared: Vec<(SectionIndex, SectionFlags)>,
}

/// A stretch of an object's bytes; an object has less than 4 GiB.
#[derive(Clone, Copy, Debug, Default)]
struct Stretch {
    start: u32,
    length: u32,
}

impl Stretch {
    fn of(range: &Range<usize>) -> Option<Stretch> {
        Some(Stretch { start: range.start.try_into().ok()?, length: range.len().try_into().ok()? })
    }

    fn range(self) -> Range<usize> {
        self.start as usize..self.start as usize + self.length as usize
    }
}

/// The symbol table and its names.
#[derive(Clone, Copy, Debug, Default)]
struct Table {
    entries: Stretch,
    names: Stretch,
    first_global: u32,
    /// The section that it is.
    section: SectionIndex,
}

impl Elf {
    /// Reads the tables of an object.
    ///
    /// # Errors
    /// If the file is no relocatable object of ELF-64 for x86-64: what it is instead.
    pub fn parse(data: Bytes) -> Result<Elf, ObjectFault> {
        Elf::parse_cleared(data, Vec::new())
    }

    /// Reads the tables of an object of whose sections some flags were taken out: `cleared`, ascending, says which;
    /// they count as if they were there.
    pub(super) fn parse_cleared(data: Bytes, cleared: Vec<(SectionIndex, SectionFlags)>) -> Result<Elf, ObjectFault> {
        let header = header_of(&data)?;
        let headers = header
            .section_headers(Little, &*data)
            .map_err(|_| ObjectFault::Malformed("its section headers are past its end"))?;
        let names_in = header.shstrndx(Little, &*data).unwrap_or(0);
        let headers_at = header.e_shoff.get(Little) as usize;
        let mut tables = Elf { headers_at, cleared, ..Elf::empty(data.clone()) };
        let strings = headers.get(names_in as usize).map_or(0..0, |names| contents_of(names, &data));
        tables.section_names = headers
            .iter()
            .map(|one| text_at(&data, &strings, one.sh_name.get(Little)))
            .collect::<Option<_>>()
            .unwrap_or_default();
        tables.symbols = symbol_table(headers, &data).unwrap_or_default();
        tables.relocations = relocation_tables(headers, &data);
        tables.has_groups = headers.iter().any(|one| one.sh_type.get(Little) == elf::SHT_GROUP)
            || tables.section_names.iter().any(|name| tables.text(*name).starts_with(LINK_ONCE));
        tables.has_unlinked = headers.iter().skip(1).any(|one| is_unlinked(one.sh_type.get(Little)));
        tables.read_globals();
        if tables.has_commons && tables.globals().any(|symbol| symbol.name == SLIM_LTO) {
            return Err(ObjectFault::SlimLto);
        }
        Ok(tables)
    }

    /// Bytes without any table, such as those of a file that is no object.
    pub fn empty(data: Bytes) -> Elf {
        Elf {
            data,
            headers_at: 0,
            section_names: Vec::new(),
            relocations: Vec::new(),
            symbols: Table::default(),
            hashes: Vec::new(),
            has_commons: false,
            has_groups: false,
            has_unlinked: false,
            cleared: Vec::new(),
        }
    }

    /// The bytes.
    pub fn data(&self) -> &Bytes {
        &self.data
    }

    /// How many section headers there are.
    pub fn section_count(&self) -> usize {
        self.section_names.len()
    }

    /// The section headers in their order, from number 1 on.
    pub fn sections(&self) -> impl DoubleEndedIterator<Item = Section<'_>> + '_ {
        self.headers()
            .iter()
            .zip(&self.section_names)
            .enumerate()
            .skip(1)
            .map(move |(index, (header, name))| self.section_of(index as u32, header, *name))
    }

    /// A section by its number; `None` for 0 and past the last one.
    pub fn section(&self, index: SectionIndex) -> Option<Section<'_>> {
        let at = index.0 as usize;
        let (header, name) = (self.headers().get(at)?, self.section_names.get(at)?);
        (at > 0).then(|| self.section_of(index.0, header, *name))
    }

    /// The size that the header of a section says; `None` for 0 and past the last one.
    pub fn section_size(&self, index: SectionIndex) -> Option<u64> {
        let header = self.headers().get(index.0 as usize)?;
        (index.0 > 0).then(|| header.sh_size.get(Little))
    }

    /// The bytes of a section; none if it has none in the file, or they are not all there.
    pub fn contents(&self, index: SectionIndex) -> &[u8] {
        let header = self.headers().get(index.0 as usize);
        header.and_then(|header| self.data.get(contents_of(header, &self.data))).unwrap_or_default()
    }

    /// The same bytes, shared.
    pub fn shared_contents(&self, index: SectionIndex) -> Bytes {
        let header = self.headers().get(index.0 as usize);
        header.and_then(|header| self.data.slice(contents_of(header, &self.data))).unwrap_or_default()
    }

    /// How many symbols there are, with number 0.
    pub fn symbol_count(&self) -> usize {
        self.entries().len()
    }

    /// The section that is the symbol table; number 0 if there is none.
    pub fn symbol_table(&self) -> SectionIndex {
        self.symbols.section
    }

    /// The number of the first symbol that is not local.
    pub fn first_global(&self) -> SymbolIndex {
        SymbolIndex(self.symbols.first_global)
    }

    /// A symbol by its number; `None` for 0 and past the last one.
    pub fn symbol(&self, index: SymbolIndex) -> Option<Symbol<'_>> {
        let entry = self.entries().get(index.0 as usize)?;
        (index.0 > 0).then(|| self.symbol_of(index.0, entry))
    }

    /// The same without its name, which takes longer to find.
    pub fn nameless_symbol(&self, index: SymbolIndex) -> Option<Symbol<'_>> {
        let entry = self.entries().get(index.0 as usize)?;
        (index.0 > 0).then(|| symbol_with(b"".as_bstr(), index.0, entry))
    }

    /// The symbols from number 1 on, local ones too.
    pub fn symbols(&self) -> impl Iterator<Item = Symbol<'_>> + '_ {
        self.entries().iter().enumerate().skip(1).map(move |(index, entry)| self.symbol_of(index as u32, entry))
    }

    /// The symbols from number 0 on without their names, which take longer to find.
    pub fn nameless_symbols(&self) -> impl Iterator<Item = Symbol<'_>> + '_ {
        self.entries().iter().enumerate().map(|(index, entry)| symbol_with(b"".as_bstr(), index as u32, entry))
    }

    /// The symbols that are not local.
    pub fn globals(&self) -> impl Iterator<Item = Symbol<'_>> + '_ {
        let first = self.first_of_globals();
        self.entries().iter().enumerate().skip(first).map(move |(index, entry)| self.symbol_of(index as u32, entry))
    }

    /// The common blocks.
    pub fn commons(&self) -> impl Iterator<Item = Symbol<'_>> + '_ {
        self.globals().take(if self.has_commons { usize::MAX } else { 0 }).filter(|one| one.home == Home::Common)
    }

    /// Whether there are common blocks.
    pub fn has_commons(&self) -> bool {
        self.has_commons
    }

    /// Whether there are groups of sections, or sections of which the first of a name is linked alone.
    pub fn has_groups(&self) -> bool {
        self.has_groups
    }

    /// Whether there are headers of groups, or without a type, as those of sections that were left out have none.
    pub fn has_unlinked(&self) -> bool {
        self.has_unlinked
    }

    /// The flags of sections that the bytes do not have any more.
    pub(super) fn cleared(&self) -> &[(SectionIndex, SectionFlags)] {
        &self.cleared
    }

    /// The global symbols of a name: none, one, or in odd objects several.
    pub fn globals_named<'a>(&'a self, name: &'a BStr) -> impl Iterator<Item = Symbol<'a>> + 'a {
        let (hash, first) = (hash_of(name), self.first_of_globals());
        let found = self.hashes.iter().enumerate().filter(move |(_, other)| **other == hash);
        found
            .filter_map(move |(index, _)| self.symbol(SymbolIndex((first + index) as u32)))
            .filter(move |symbol| symbol.name == name)
    }

    /// The hashes of the global names with the numbers of their symbols: a quick test before names are compared.
    pub(crate) fn global_hashes(&self) -> impl Iterator<Item = (u32, SymbolIndex)> + '_ {
        let first = self.first_of_globals();
        self.hashes.iter().enumerate().map(move |(index, hash)| (*hash, SymbolIndex((first + index) as u32)))
    }

    /// The sections that have tables of relocations, with the number of relocations, in the order of their headers.
    pub fn relocated_sections(&self) -> impl Iterator<Item = (SectionIndex, usize)> + '_ {
        let mut rest = self.relocations.as_slice();
        std::iter::from_fn(move || {
            let (section, _) = *rest.first()?;
            let (own, others) = rest.split_at(rest.partition_point(|(other, _)| *other == section));
            rest = others;
            let count = own.iter().map(|(_, table)| table.length as usize / RELOCATION as usize).sum();
            Some((section, count))
        })
        .filter(|(section, _)| (1..self.section_count()).contains(&(section.0 as usize)))
    }

    /// Whether a section has relocations.
    pub fn has_relocations(&self, section: SectionIndex) -> bool {
        self.tables_of(section).any(|table| table.length > 0)
    }

    /// Whether a section has a table of relocations, which may be empty.
    pub fn has_relocation_table(&self, section: SectionIndex) -> bool {
        self.tables_of(section).next().is_some()
    }

    /// The relocations of a section, in the order of its tables.
    pub fn relocations(&self, section: SectionIndex) -> impl Iterator<Item = Relocation> + '_ {
        let tables = self.tables_of(section).map(move |table| self.data.get(table.range()).unwrap_or_default());
        tables.flat_map(|bytes| entries::<Rela64<Little>>(bytes).iter().map(relocation_of))
    }

    /// The relocations of a section that is left out, as another object has its group: its table is left out with it.
    pub fn relocations_left_out(&self, section: SectionIndex) -> impl Iterator<Item = Relocation> + '_ {
        let is_table = move |one: &Section<'_>| {
            let is_of_section = one.kind == SectionKind::NULL && one.info == section.0;
            is_of_section && one.link == self.symbols.section.0 && one.entry_size == RELOCATION
        };
        let tables = self.sections().filter(is_table).map(move |one| self.contents(one.index));
        tables.flat_map(|bytes| entries::<Rela64<Little>>(bytes).iter().map(relocation_of))
    }

    fn tables_of(&self, section: SectionIndex) -> impl Iterator<Item = Stretch> + '_ {
        let first = self.relocations.partition_point(|(other, _)| *other < section);
        let tables = self.relocations.get(first..).unwrap_or_default();
        tables.iter().take_while(move |(other, _)| *other == section).map(|(_, table)| *table)
    }

    fn headers(&self) -> &[SectionHeader64<Little>] {
        let bytes = self.data.get(self.headers_at..).unwrap_or_default();
        object::slice_from_bytes(bytes, self.section_names.len()).map_or(&[], |(headers, _)| headers)
    }

    fn entries(&self) -> &[Sym64<Little>] {
        entries(self.data.get(self.symbols.entries.range()).unwrap_or_default())
    }

    fn first_of_globals(&self) -> usize {
        self.symbols.first_global.max(1) as usize
    }

    fn section_of(&self, index: u32, header: &SectionHeader64<Little>, name: Stretch) -> Section<'_> {
        Section {
            index: SectionIndex(index),
            name: self.text(name),
            kind: SectionKind(header.sh_type.get(Little)),
            flags: SectionFlags(header.sh_flags.get(Little) | self.cleared_of(SectionIndex(index)).0),
            size: header.sh_size.get(Little),
            align: header.sh_addralign.get(Little).max(1),
            offset: header.sh_offset.get(Little),
            link: header.sh_link.get(Little),
            info: header.sh_info.get(Little),
            entry_size: header.sh_entsize.get(Little),
        }
    }

    fn cleared_of(&self, index: SectionIndex) -> SectionFlags {
        let found = self.cleared.binary_search_by_key(&index, |(other, _)| *other).ok();
        found.and_then(|at| self.cleared.get(at)).map_or(SectionFlags::default(), |(_, flags)| *flags)
    }

    fn symbol_of(&self, index: u32, entry: &Sym64<Little>) -> Symbol<'_> {
        let name = text_at(&self.data, &self.symbols.names.range(), entry.st_name.get(Little));
        symbol_with(self.text(name.unwrap_or_default()), index, entry)
    }

    fn text(&self, stretch: Stretch) -> &BStr {
        self.data.get(stretch.range()).unwrap_or_default().as_bstr()
    }

    fn read_globals(&mut self) {
        let entries = self.entries().iter().skip(self.first_of_globals());
        let has_commons = entries.clone().any(|entry| entry.st_shndx.get(Little) == elf::SHN_COMMON);
        let hashes = entries.map(|entry| {
            let name = text_at(&self.data, &self.symbols.names.range(), entry.st_name.get(Little));
            hash_of(self.text(name.unwrap_or_default()))
        });
        self.hashes = hashes.collect();
        self.has_commons = has_commons;
    }
}

/// A symbol of a name.
fn symbol_with<'a>(name: &'a BStr, index: u32, entry: &Sym64<Little>) -> Symbol<'a> {
    Symbol {
        index: SymbolIndex(index),
        name,
        binding: Binding::from(entry.st_info >> 4),
        kind: SymbolKind(entry.st_info & 15),
        visibility: Visibility::of(entry.st_other),
        home: Home::from(entry.st_shndx.get(Little)),
        value: entry.st_value.get(Little),
        size: entry.st_size.get(Little),
    }
}

/// The file header of an object; else what the file is.
fn header_of(data: &[u8]) -> Result<&FileHeader64<Little>, ObjectFault> {
    if data.starts_with(BITCODE) {
        return Err(ObjectFault::Bitcode);
    }
    if !data.starts_with(MAGIC) {
        return Err(ObjectFault::NotElf);
    }
    if data.len() > u32::MAX as usize {
        return Err(ObjectFault::Malformed("it has 4 GiB or more"));
    }
    match (data.get(4), data.get(5)) {
        (Some(&elf::ELFCLASS64), Some(&elf::ELFDATA2LSB)) => {}
        (Some(&elf::ELFCLASS64), Some(&elf::ELFDATA2MSB)) => return Err(ObjectFault::BigEndian),
        (Some(&elf::ELFCLASS32), _) => return Err(ObjectFault::Bits32),
        _ => return Err(ObjectFault::Malformed("its class is none of ELF")),
    }
    let header =
        FileHeader64::<Little>::parse(data).map_err(|_| ObjectFault::Malformed("its header is past its end"))?;
    match (header.e_type.get(Little), header.e_machine.get(Little)) {
        (elf::ET_DYN, _) => Err(ObjectFault::SharedObject),
        (_, machine) if machine != elf::EM_X86_64 => Err(ObjectFault::OtherMachine(machine)),
        (elf::ET_REL, _) => Ok(header),
        (kind, _) => Err(ObjectFault::NotRelocatable(kind)),
    }
}

/// Whether a type is that of a group, or none.
fn is_unlinked(kind: u32) -> bool {
    matches!(kind, elf::SHT_NULL | elf::SHT_GROUP)
}

fn relocation_of(entry: &Rela64<Little>) -> Relocation {
    let info = entry.r_info.get(Little);
    Relocation {
        offset: entry.r_offset.get(Little),
        kind: info as u32,
        symbol: SymbolIndex((info >> 32) as u32),
        addend: entry.r_addend.get(Little),
    }
}

/// Whole entries of a table, from its start.
fn entries<T: object::Pod>(bytes: &[u8]) -> &[T] {
    let count = bytes.len() / std::mem::size_of::<T>();
    object::slice_from_bytes(bytes, count).map_or(&[], |(entries, _)| entries)
}

/// Where the bytes of a section are; empty if it has none, or they are not all there.
fn contents_of(header: &SectionHeader64<Little>, data: &[u8]) -> Range<usize> {
    if header.sh_type.get(Little) == elf::SHT_NOBITS {
        return 0..0;
    }
    let (start, size) = (header.sh_offset.get(Little), header.sh_size.get(Little));
    match start.checked_add(size) {
        Some(end) if end <= data.len() as u64 => start as usize..end as usize,
        _ => 0..0,
    }
}

/// The text of a table of names up to its zero byte.
fn text_at(data: &[u8], table: &Range<usize>, at: u32) -> Option<Stretch> {
    let start = table.start.checked_add(at as usize)?;
    let found = data.get(start..table.end).and_then(|rest| memchr::memchr(0, rest));
    Stretch::of(&(start..start + found.unwrap_or(0)))
}

fn symbol_table(headers: &[SectionHeader64<Little>], data: &[u8]) -> Option<Table> {
    let section = headers.iter().position(|header| header.sh_type.get(Little) == elf::SHT_SYMTAB)?;
    let header = headers.get(section)?;
    let names = headers.get(header.sh_link.get(Little) as usize)?;
    Some(Table {
        entries: Stretch::of(&contents_of(header, data))?,
        names: Stretch::of(&contents_of(names, data))?,
        first_global: header.sh_info.get(Little),
        section: SectionIndex(section as u32),
    })
}

fn relocation_tables(headers: &[SectionHeader64<Little>], data: &[u8]) -> Vec<(SectionIndex, Stretch)> {
    let mut tables: Vec<_> = headers
        .iter()
        .filter(|header| header.sh_type.get(Little) == elf::SHT_RELA)
        .filter_map(|header| Some((SectionIndex(header.sh_info.get(Little)), Stretch::of(&contents_of(header, data))?)))
        .collect();
    tables.sort_by_key(|(section, _)| *section);
    tables
}

/// A hash of a name.
pub(super) fn hash_of(name: &[u8]) -> u32 {
    const FACTOR: u64 = 0x9E37_79B9_7F4A_7C15;
    let mut hash = name.len() as u64;
    for chunk in name.chunks(8) {
        let mut word = [0; 8];
        word.iter_mut().zip(chunk).for_each(|(to, from)| *to = *from);
        hash = (hash.rotate_left(5) ^ u64::from_le_bytes(word)).wrapping_mul(FACTOR);
    }
    (hash >> 32) as u32
}
