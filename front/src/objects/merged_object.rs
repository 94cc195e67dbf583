//! An object some of whose sections are merged with those of others: it keeps its own part, and refers by names to what
//! is in other objects.

use super::draft::Headers;
use super::merge_strings::{MergeSource, Merged, MergedPart};
use super::{ObjectIndex, SectionIndex, SymbolIndex};
use crate::snapshot::Bytes;
use bstr::BString;
use object::elf::{self, Rela64, SectionHeader64, Sym64};
use object::read::elf::SectionHeader;
use object::LittleEndian as Little;
use std::collections::{BTreeMap, BTreeSet};

/// How the names begin by which objects refer to sections of others.
pub const MERGED: &str = "ldi.merged";
const SYMBOL: usize = std::mem::size_of::<Sym64<Little>>();
const RELOCATION: usize = std::mem::size_of::<Rela64<Little>>();
const SECTION_HEADER: usize = std::mem::size_of::<SectionHeader64<Little>>();
const FILE_HEADER: usize = 64;
/// Where fields are: in the file header, section headers, symbols and relocations.
const HEADERS_AT: usize = 40;
const HEADER_COUNT_AT: usize = 60;
const OFFSET_AT: usize = 24;
const SIZE_AT: usize = 32;
const ALIGN_AT: usize = 48;
const HOME_AT: usize = 6;
const VALUE_AT: usize = 8;
const INFO_AT: usize = 8;
const ADDEND_AT: usize = 16;
/// The most sections of an object.
const MAX_COUNT: usize = 0xFEFF;

/// A section of an object that is merged.
#[derive(Clone, Copy, Debug)]
pub struct OwnMerged<'a> {
    /// Its number.
    pub section: SectionIndex,
    /// What it is merged with.
    pub merged: &'a Merged,
    /// Its number among those.
    pub part: u32,
    /// Whose sections these are.
    pub sources: &'a [MergeSource],
}

impl OwnMerged<'_> {
    /// Where what was at a place of the section is now: the section and the place in it.
    pub fn place(&self, offset: u64) -> Option<(MergeSource, u64)> {
        let spot = self.merged.spot(self.part, offset);
        Some((*self.sources.get(spot.part as usize)?, spot.offset))
    }

    fn now(&self) -> Option<&MergedPart> {
        self.merged.parts().get(self.part as usize)
    }
}

/// What merging changes in an object.
#[derive(Clone, PartialEq, Eq, Debug, Default)]
pub struct MergeEdits {
    /// The sections that are merged.
    pub sections: Vec<SectionEdit>,
    /// Symbols that have other values.
    pub values: Vec<(SymbolIndex, u64)>,
    /// References to other places, in the order of the tables.
    pub references: Vec<Reference>,
}

/// What others ask of an object.
#[derive(Clone, PartialEq, Eq, Debug, Default)]
pub struct MergeRequests {
    /// Names whose definition is elsewhere.
    pub undefined: Vec<SymbolIndex>,
    /// Names that are defined here now.
    pub defined: Vec<DefinedName>,
    /// By section of this object: the sections of which it has something, that stay where it does.
    pub kept: BTreeMap<SectionIndex, BTreeSet<MergeSource>>,
}

/// What becomes of a section.
#[derive(Clone, PartialEq, Eq, Debug)]
pub struct SectionEdit {
    /// Its number.
    pub section: SectionIndex,
    /// Its bytes.
    pub contents: Vec<u8>,
    /// Whether it is left out.
    pub is_left_out: bool,
}

/// A definition that an object gets from another.
#[derive(Clone, PartialEq, Eq, Debug)]
pub struct DefinedName {
    /// The name.
    pub name: BString,
    /// Its section.
    pub section: SectionIndex,
    /// Its value there.
    pub value: u64,
    /// `st_info`, `st_other` and `st_size`
    pub as_before: (u8, u8, u64),
}

/// A reference that is to another section.
#[derive(Clone, Copy, PartialEq, Eq, Debug)]
pub struct Reference {
    /// Its table.
    table: SectionIndex,
    /// Its number there.
    number: u32,
    /// The section, or that of the symbol as it is.
    target: Option<MergeSource>,
    addend: i64,
}

/// A name whose definition is in a section of another object now.
#[derive(Clone, PartialEq, Eq, Debug)]
pub struct Leaving {
    /// Its symbol.
    pub symbol: SymbolIndex,
    /// Its section.
    pub from: SectionIndex,
    /// Where it is.
    pub to: MergeSource,
    /// The definition.
    pub name: DefinedName,
}

/// What merging changes in an object, with what concerns other objects.
#[derive(Debug, Default)]
pub struct MergeFindings {
    /// The changes.
    pub edits: MergeEdits,
    /// The names whose definitions are elsewhere, if they are those that count.
    pub leaving: Vec<Leaving>,
    /// What references lead to another section than before: which it was, and which it is.
    pub moved: BTreeSet<(SectionIndex, MergeSource)>,
}

/// Where a symbol of a section that is merged is.
#[derive(Clone, Copy, Debug)]
enum Moved {
    /// The symbol is in no section that is merged.
    No,
    /// In another section, with this value.
    Away(SectionIndex, MergeSource, u64),
    /// The symbol is that of the section itself: the section's place among those that are merged, and the symbol's
    /// value.
    Section(usize, u64),
}

impl MergeFindings {
    /// What changes in an object, of whose sections `own` are merged, ascending; `is_loaded` says of a section whether
    /// it is in the image by more than its own flags. `None` if its tables are not whole.
    pub fn of(
        data: &[u8],
        object: ObjectIndex,
        own: &[OwnMerged<'_>],
        is_loaded: &dyn Fn(SectionIndex) -> bool,
    ) -> Option<MergeFindings> {
        let headers = Headers::of(data)?;
        let mut found = MergeFindings::default();
        for one in own {
            let now = one.now()?;
            let (contents, is_left_out) = (now.contents.clone(), now.is_left_out);
            found.edits.sections.push(SectionEdit { section: one.section, contents, is_left_out });
        }
        let (table_number, table) = match headers.iter().find(|(_, header)| header.sh_type(Little) == elf::SHT_SYMTAB) {
            Some(table) => table,
            None => return Some(found),
        };
        let moved = found.symbols(headers, table, object, own);
        for (number, header) in headers.iter().filter(|(_, header)| header.sh_type(Little) == elf::SHT_RELA) {
            let section = SectionIndex(header.sh_info(Little));
            let is_in_image = headers
                .get(section)
                .map_or(false, |one| one.sh_flags(Little) & u64::from(elf::SHF_ALLOC) != 0 || is_loaded(section));
            if is_in_image && header.sh_link(Little) == table_number.0 {
                found.references(headers, (number, header), object, own, &moved);
            }
        }
        Some(found)
    }

    /// Finds where symbols are.
    fn symbols(
        &mut self,
        headers: Headers<'_>,
        table: &SectionHeader64<Little>,
        object: ObjectIndex,
        own: &[OwnMerged<'_>],
    ) -> Vec<Moved> {
        let (_, symbols) = headers.symbols(table);
        let (_, names) =
            headers.get(SectionIndex(table.sh_link(Little))).map_or((0, &[][..]), |one| headers.contents(one));
        let mut moved = vec![Moved::No; symbols.len()];
        for (number, symbol) in symbols.iter().enumerate().skip(1) {
            let section = SectionIndex(symbol.st_shndx.get(Little).into());
            let at = match own.binary_search_by_key(&section, |one| one.section) {
                Ok(at) => at,
                Err(_) => continue,
            };
            let value = symbol.st_value.get(Little);
            let (to, now) = match own.get(at).and_then(|one| one.place(value)) {
                Some(place) => place,
                None => continue,
            };
            let index = SymbolIndex(number as u32);
            let is_here = to == MergeSource { object, section };
            let slot = moved.get_mut(number);
            if symbol.st_info & 15 == elf::STT_SECTION {
                slot.into_iter().for_each(|slot| *slot = Moved::Section(at, value));
            } else if is_here {
                self.edits.values.push((index, now));
            } else if symbol.st_info >> 4 == elf::STB_LOCAL {
                slot.into_iter().for_each(|slot| *slot = Moved::Away(section, to, now));
            } else {
                let name = names.get(symbol.st_name.get(Little) as usize..).unwrap_or_default();
                let name = name.split(|byte| *byte == 0).next().unwrap_or_default().into();
                let as_before = (symbol.st_info, symbol.st_other, symbol.st_size.get(Little));
                let name = DefinedName { name, section: to.section, value: now, as_before };
                self.leaving.push(Leaving { symbol: index, from: section, to, name });
            }
        }
        moved
    }

    /// Finds the references that change (elf.c, `_bfd_elf_rela_local_sym`).
    fn references(
        &mut self,
        headers: Headers<'_>,
        (table, header): (SectionIndex, &SectionHeader64<Little>),
        object: ObjectIndex,
        own: &[OwnMerged<'_>],
        moved: &[Moved],
    ) {
        let (_, entries) = headers.relocations(header);
        for (number, entry) in entries.iter().enumerate() {
            let info = entry.r_info.get(Little);
            let addend = entry.r_addend.get(Little);
            let (from, to, new) = match moved.get((info >> 32) as usize) {
                Some(Moved::Away(from, to, value)) => (*from, *to, addend.wrapping_add(*value as i64)),
                Some(Moved::Section(at, value)) => {
                    let own = own.get(*at);
                    match own.and_then(|own| Some((own.section, own.place(value.wrapping_add(addend as u64))?))) {
                        Some((from, (to, offset))) => (from, to, offset as i64),
                        None => continue,
                    }
                }
                Some(Moved::No) | None => continue,
            };
            if info as u32 == elf::R_X86_64_NONE {
                continue;
            }
            let number = number as u32;
            let is_here = to == MergeSource { object, section: from };
            if is_here {
                let value = match moved.get((info >> 32) as usize) {
                    Some(Moved::Section(_, value)) => *value as i64,
                    _ => 0,
                };
                let now = new.wrapping_sub(value);
                if now != addend {
                    self.edits.references.push(Reference { table, number, target: None, addend: now });
                }
            } else {
                self.moved.insert((from, to));
                self.edits.references.push(Reference { table, number, target: Some(to), addend: new });
            }
        }
    }
}

impl MergeEdits {
    /// The bytes of an object with the changes, and with what others ask; `anchor` gives the name of a section of an
    /// object. `None` if its tables are not whole.
    pub fn applied(
        &self,
        asked: &MergeRequests,
        data: &Bytes,
        object: ObjectIndex,
        anchor: &dyn Fn(MergeSource) -> BString,
    ) -> Option<Bytes> {
        let headers = Headers::of(data)?;
        let (number, table) = headers.iter().find(|(_, header)| header.sh_type(Little) == elf::SHT_SYMTAB)?;
        let mut names = Names::of(headers, table)?;
        names.add_all(self, asked, object, anchor)?;
        let mut written = Written::of(data, headers)?;
        for one in &self.sections {
            written.put_section(one.section, &one.contents)?;
            if one.is_left_out {
                written.leave_out(one.section)?;
            }
        }
        self.put_references(headers, &mut written, &names)?;
        written.put_section(number, &names.changed(self, asked)?)?;
        written.put_section(SectionIndex(table.sh_link(Little)), &names.strings)?;
        for (section, others) in &asked.kept {
            let entries = others.iter().filter_map(|other| names.numbers.get(other)).flat_map(|symbol| {
                let info = u64::from(*symbol) << 32 | u64::from(elf::R_X86_64_NONE);
                [0, info, 0].iter().flat_map(|word| word.to_le_bytes()).collect::<Vec<u8>>()
            });
            written.add_relocations(*section, number, &entries.collect::<Vec<u8>>())?;
        }
        written.finish()
    }

    /// Changes the references, in place if nothing else of the file is there.
    fn put_references(&self, headers: Headers<'_>, written: &mut Written, names: &Names) -> Option<()> {
        let is_apart = !self.references.is_empty() && !has_overlaps(headers);
        let mut tables: BTreeMap<SectionIndex, usize> = BTreeMap::new();
        for one in &self.references {
            let begin = match tables.get(&one.table) {
                Some(begin) => *begin,
                None => {
                    let (at, entries) = headers.relocations(headers.get(one.table)?);
                    if !is_apart {
                        written.put_section(one.table, object::bytes_of_slice(entries))?;
                    }
                    let begin = if is_apart { at } else { written.bytes.len() - entries.len() * RELOCATION };
                    tables.insert(one.table, begin);
                    begin
                }
            };
            let at = begin + one.number as usize * RELOCATION;
            if let Some(target) = one.target {
                let symbol = *names.numbers.get(&target)?;
                written.bytes.get_mut(at + INFO_AT + 4..at + INFO_AT + 8)?.copy_from_slice(&symbol.to_le_bytes());
            }
            written.bytes.get_mut(at + ADDEND_AT..at + ADDEND_AT + 8)?.copy_from_slice(&one.addend.to_le_bytes());
        }
        Some(())
    }
}

/// The symbols and their names, to which some are added.
struct Names {
    symbols: Vec<u8>,
    strings: Vec<u8>,
    /// By section: the number of its symbol.
    numbers: BTreeMap<MergeSource, u32>,
}

impl Names {
    fn of(headers: Headers<'_>, table: &SectionHeader64<Little>) -> Option<Names> {
        let (_, symbols) = headers.symbols(table);
        let (_, strings) = headers.contents(headers.get(SectionIndex(table.sh_link(Little)))?);
        let symbols = object::bytes_of_slice(symbols).to_vec();
        Some(Names { symbols, strings: strings.to_vec(), numbers: BTreeMap::new() })
    }

    /// Adds the names of own sections, and of those of others that are wanted.
    fn add_all(
        &mut self,
        edits: &MergeEdits,
        asked: &MergeRequests,
        object: ObjectIndex,
        anchor: &dyn Fn(MergeSource) -> BString,
    ) -> Option<()> {
        let own = edits.sections.iter().map(|one| MergeSource { object, section: one.section });
        let others = edits.references.iter().filter_map(|one| one.target).chain(asked.kept.values().flatten().copied());
        let wanted: BTreeSet<MergeSource> = own.chain(others).collect();
        for one in wanted {
            let home = if one.object == object { one.section.0 as u16 } else { elf::SHN_UNDEF };
            let number = self.add(&anchor(one), (elf::STB_GLOBAL << 4, elf::STV_HIDDEN, 0), home, 0)?;
            self.numbers.insert(one, number);
        }
        for one in &asked.defined {
            self.add(&one.name, one.as_before, one.section.0 as u16, one.value)?;
        }
        Some(())
    }

    fn add(&mut self, name: &[u8], (info, other, size): (u8, u8, u64), home: u16, value: u64) -> Option<u32> {
        let number = u32::try_from(self.symbols.len() / SYMBOL).ok()?;
        if self.strings.is_empty() {
            self.strings.push(0);
        }
        self.symbols.extend(u32::try_from(self.strings.len()).ok()?.to_le_bytes());
        self.symbols.extend([info, other]);
        self.symbols.extend(home.to_le_bytes());
        self.symbols.extend(value.to_le_bytes());
        self.symbols.extend(size.to_le_bytes());
        self.strings.extend_from_slice(name);
        self.strings.push(0);
        Some(number)
    }

    /// The symbols with their values.
    fn changed(&mut self, edits: &MergeEdits, asked: &MergeRequests) -> Option<Vec<u8>> {
        let mut put = |symbol: SymbolIndex, at: usize, bytes: &[u8]| {
            let from = symbol.0 as usize * SYMBOL + at;
            self.symbols.get_mut(from..from + bytes.len()).map(|place| place.copy_from_slice(bytes))
        };
        for (symbol, value) in &edits.values {
            put(*symbol, VALUE_AT, &value.to_le_bytes())?;
        }
        for symbol in &asked.undefined {
            put(*symbol, HOME_AT, &elf::SHN_UNDEF.to_le_bytes())?;
            put(*symbol, VALUE_AT, &0u64.to_le_bytes())?;
        }
        Some(std::mem::take(&mut self.symbols))
    }
}

/// Whether two sections, or a section and the headers, have bytes of the file in common.
fn has_overlaps(headers: Headers<'_>) -> bool {
    let count = headers.iter().count() + 1;
    let table = (headers.place(SectionIndex(0)) as u64, headers.place(SectionIndex(count as u32)) as u64);
    let of = |header: &SectionHeader64<Little>| {
        (header.sh_offset(Little), header.sh_offset(Little).saturating_add(header.sh_size(Little)))
    };
    let has_bytes =
        |header: &SectionHeader64<Little>| !matches!(header.sh_type(Little), elf::SHT_NOBITS | elf::SHT_NULL);
    let sections = headers.iter().map(|(_, header)| header).filter(|header| has_bytes(header)).map(of);
    let mut ranges: Vec<(u64, u64)> = sections.chain([(0, FILE_HEADER as u64), table]).collect();
    ranges.retain(|(from, to)| from < to);
    ranges.sort_unstable();
    ranges.windows(2).any(|pair| matches!(pair, [(_, end), (start, _)] if start < end))
}

/// The bytes of an object, to which some are added; its section headers are put back last.
pub(super) struct Written {
    bytes: Vec<u8>,
    headers: Vec<u8>,
    /// Where the headers were, and how many.
    headers_at: usize,
    count: usize,
}

impl Written {
    /// The bytes of an object with these headers; `None` where they are not all in it.
    pub(super) fn of(data: &[u8], headers: Headers<'_>) -> Option<Written> {
        let count = headers.iter().count() + 1;
        let headers_at = headers.place(SectionIndex(0));
        let headers = data.get(headers_at..headers.place(SectionIndex(count as u32)))?.to_vec();
        Some(Written { bytes: data.to_vec(), headers, headers_at, count })
    }

    /// Gives a section other bytes.
    pub(super) fn put_section(&mut self, section: SectionIndex, contents: &[u8]) -> Option<()> {
        let at = self.append(contents);
        self.put_field(section, OFFSET_AT, at)?;
        self.put_field(section, SIZE_AT, contents.len() as u64)
    }

    /// Gives a section another name, by its place in the table of names.
    pub(super) fn put_name(&mut self, section: SectionIndex, name: u32) -> Option<()> {
        let at = section.0 as usize * SECTION_HEADER;
        self.headers.get_mut(at..at + 4)?.copy_from_slice(&name.to_le_bytes());
        Some(())
    }

    /// Lets a section that is empty take no room.
    pub(super) fn leave_out(&mut self, section: SectionIndex) -> Option<()> {
        self.put_field(section, ALIGN_AT, 1)
    }

    fn append(&mut self, contents: &[u8]) -> u64 {
        self.bytes.resize(self.bytes.len() + (self.bytes.len().wrapping_neg() & 7), 0);
        let at = self.bytes.len() as u64;
        self.bytes.extend_from_slice(contents);
        at
    }

    fn put_field(&mut self, section: SectionIndex, field: usize, value: u64) -> Option<()> {
        let at = section.0 as usize * SECTION_HEADER + field;
        self.headers.get_mut(at..at + 8)?.copy_from_slice(&value.to_le_bytes());
        Some(())
    }

    /// Adds a table of relocations of a section.
    fn add_relocations(&mut self, section: SectionIndex, symbols: SectionIndex, entries: &[u8]) -> Option<()> {
        let at = self.append(entries);
        let kind = u64::from(elf::SHT_RELA) << 32;
        let link = u64::from(symbols.0) | u64::from(section.0) << 32;
        let words = [kind, 0, 0, at, entries.len() as u64, link, 8, RELOCATION as u64];
        self.headers.extend(words.iter().flat_map(|word| word.to_le_bytes()));
        (self.headers.len() / SECTION_HEADER <= MAX_COUNT).then_some(())
    }

    /// Puts the headers back: in their place, or at the end if there are more.
    pub(super) fn finish(mut self) -> Option<Bytes> {
        let (now, at) = (self.headers.len() / SECTION_HEADER, self.headers_at);
        if now == self.count {
            self.bytes.get_mut(at..at + self.headers.len())?.copy_from_slice(&self.headers);
            return Some(self.bytes.into());
        }
        let headers = std::mem::take(&mut self.headers);
        let at = self.append(&headers);
        self.bytes.get_mut(HEADERS_AT..HEADERS_AT + 8)?.copy_from_slice(&at.to_le_bytes());
        self.bytes.get_mut(HEADER_COUNT_AT..HEADER_COUNT_AT + 2)?.copy_from_slice(&(now as u16).to_le_bytes());
        Some(self.bytes.into())
    }
}

#[cfg(test)]
mod tests {
    use super::super::merge_strings::MergeKind;
    use super::super::tests::{object, WrittenSection};
    use super::super::{Binding, Elf, Home, Relocation};
    use super::*;

    /// `.text` with two fields, and strings: `text` at 0 and `more` at 5; a local symbol at each, and a global one.
    fn written() -> Bytes {
        let sections = [
            WrittenSection { name: ".text", kind: 1, flags: 6, data: &[0; 16] },
            WrittenSection { name: ".rodata", kind: 1, flags: 0x32, data: b"text\0more\0" },
        ];
        // The upper four bits are the type: STT_SECTION is 3.
        let symbols = [("", 0x30, 2, 0, 0), ("one", 0, 2, 5, 0), ("two", 1, 2, 0, 0), ("f", 1, 1, 0, 0)];
        let relocation = |offset, symbol, addend| Relocation { offset, kind: 10, symbol: SymbolIndex(symbol), addend };
        let mut data = object(&sections, &symbols, &[relocation(0, 1, 6), relocation(4, 2, 1), relocation(8, 1, 0)]);
        // The first two are local: `sh_info` of the symbol table, section number 3.
        let at = u64::from_le_bytes(data[40..48].try_into().unwrap()) as usize + 3 * SECTION_HEADER;
        data[at + 44..at + 48].copy_from_slice(&3u32.to_le_bytes());
        data.into()
    }

    const SOURCES: [MergeSource; 2] = [
        MergeSource { object: ObjectIndex(0), section: SectionIndex(7) },
        MergeSource { object: ObjectIndex(4), section: SectionIndex(2) },
    ];

    fn anchor(source: MergeSource) -> BString {
        format!("{MERGED}.{}.{}", source.object.0, source.section.0).into()
    }

    /// What becomes of the object, whose number is 4, behind one that has some strings.
    fn merged_with(before: &[u8]) -> (MergeFindings, Elf) {
        let kind = MergeKind { is_strings: true, entry_size: 1, align: 1 };
        let data = written();
        let merged = Merged::of(kind, &[before, b"text\0more\0"]);
        let own = OwnMerged { section: SectionIndex(2), merged: &merged, part: 1, sources: &SOURCES };
        let found = MergeFindings::of(&data, ObjectIndex(4), &[own], &|_| false).unwrap();
        let kept = MergeRequests {
            kept: [(SectionIndex(2), [SOURCES[0]].into_iter().collect())].into_iter().collect(),
            ..MergeRequests::default()
        };
        let made = found.edits.applied(&kept, &data, ObjectIndex(4), &anchor).unwrap();
        (found, Elf::parse(made).unwrap())
    }

    fn references(elf: &Elf) -> Vec<(u32, i64)> {
        elf.relocations(SectionIndex(1)).map(|one| (one.symbol.0, one.addend)).collect()
    }

    /// elf.c, `_bfd_elf_rela_local_sym`: by the symbol of a section what is at the addend, else what is at the symbol.
    #[test]
    fn references_lead_to_other_sections() {
        let (found, elf) = merged_with(b"some text\0");
        assert_eq!(elf.contents(SectionIndex(2)), b"more\0");
        let anchors: Vec<_> = elf.globals().skip(2).map(|one| (one.name.to_string(), one.home)).collect();
        let here = Home::Section(SectionIndex(2));
        assert_eq!(anchors, [("ldi.merged.0.7".into(), Home::Undefined), ("ldi.merged.4.2".into(), here)]);
        assert_eq!(references(&elf), [(1, 1), (2, 1), (5, 5)]);
        assert_eq!(elf.symbol(SymbolIndex(2)).unwrap().value, 0, "a local symbol in its own section");
        assert_eq!(found.moved.into_iter().collect::<Vec<_>>(), [(SectionIndex(2), SOURCES[0])]);
    }

    /// elflink.c, `_bfd_elf_link_sec_merge_syms`: a name goes where its string is.
    #[test]
    fn names_leave() {
        let (found, _) = merged_with(b"some text\0");
        let leaving: Vec<_> =
            found.leaving.iter().map(|one| (one.symbol, one.to, one.name.name.to_string(), one.name.value)).collect();
        assert_eq!(leaving, [(SymbolIndex(3), SOURCES[0], "two".into(), 5)]);
        let asked = MergeRequests {
            undefined: vec![SymbolIndex(3)],
            defined: vec![found.leaving[0].name.clone()],
            ..MergeRequests::default()
        };
        let made = found.edits.applied(&asked, &written(), ObjectIndex(4), &anchor).unwrap();
        let elf = Elf::parse(made).unwrap();
        assert!(elf.symbol(SymbolIndex(3)).unwrap().is_undefined());
        let last = elf.globals().last().unwrap();
        assert_eq!((last.name.to_string(), last.binding, last.value), ("two".into(), Binding::Global, 5));
    }

    /// docs/layout.md, 'Gathering': a relocation of type NONE is a reference.
    #[test]
    fn what_others_have_had_stays() {
        let (_, elf) = merged_with(b"some text\0");
        let kept: Vec<_> = elf.relocations(SectionIndex(2)).map(|one| (one.kind, one.symbol.0)).collect();
        assert_eq!(kept, [(Relocation::NONE, 5)]);
        assert_eq!(elf.symbol(SymbolIndex(4)).unwrap().name, "f");
    }

    #[test]
    fn a_section_of_which_nothing_stays_is_empty() {
        let (_, elf) = merged_with(b"more\0text\0");
        let section = elf.section(SectionIndex(2)).unwrap();
        assert_eq!((section.size, section.align), (0, 1));
        assert_eq!(references(&elf), [(5, 1), (5, 1), (5, 5)]);
    }

    #[test]
    fn a_table_that_is_in_another_section_too_is_copied() {
        let mut data = written().to_vec();
        let headers = u64::from_le_bytes(data[40..48].try_into().unwrap()) as usize;
        let field = |number: usize, at: usize| headers + number * SECTION_HEADER + at;
        // The text begins where the table of relocations is, section number 5.
        let (table, text) = (field(5, OFFSET_AT), field(1, OFFSET_AT));
        data.copy_within(table..table + 8, text);
        let data = Bytes::from(data);
        let merged = Merged::of(MergeKind { is_strings: true, entry_size: 1, align: 1 }, &[b"text\0", b"text\0more\0"]);
        let own = OwnMerged { section: SectionIndex(2), merged: &merged, part: 1, sources: &SOURCES };
        let found = MergeFindings::of(&data, ObjectIndex(4), &[own], &|_| false).unwrap();
        let made = found.edits.applied(&MergeRequests::default(), &data, ObjectIndex(4), &anchor).unwrap();
        let (old, new) = (Elf::parse(data).unwrap(), Elf::parse(made).unwrap());
        assert_eq!(old.contents(SectionIndex(1)), new.contents(SectionIndex(1)));
        assert_ne!(references(&old), references(&new));
    }

    #[test]
    fn no_changed_byte_is_a_panic() {
        let whole = written();
        let merged = Merged::of(MergeKind { is_strings: true, entry_size: 1, align: 1 }, &[b"more\0", b"text\0more\0"]);
        let own = OwnMerged { section: SectionIndex(2), merged: &merged, part: 1, sources: &SOURCES };
        for at in 0..whole.len() {
            for byte in [0, 2, 0x7F, 0xFF] {
                let mut data = whole.to_vec();
                data[at] = byte;
                let data = Bytes::from(data);
                if let Some(found) = MergeFindings::of(&data, ObjectIndex(4), &[own], &|_| true) {
                    let _ = found.edits.applied(&MergeRequests::default(), &data, ObjectIndex(4), &anchor);
                }
            }
        }
    }
}
