//! A symbol table in the making.

use bstr::BString;
use object::elf;

use crate::fast_map::FastMap;

/// The bytes of an entry.
const ENTRY: usize = 24;
/// Where the binding and the section are in an entry.
const SECTION_AT: usize = 6;

/// A symbol table with its names.
#[derive(Clone, PartialEq, Eq, Debug, Default)]
pub(in crate::finish) struct SymbolTable {
    /// The entries.
    pub(in crate::finish) entries: Vec<u8>,
    /// The names.
    pub(in crate::finish) names: Vec<u8>,
    /// The number of the first entry that is not local.
    pub(in crate::finish) first_global: u32,
    /// Whether an entry has the binding STB_GNU_UNIQUE, which counts in files of GNU systems alone.
    pub(in crate::finish) is_of_gnu: bool,
}

impl SymbolTable {
    /// By the number of a section, whether a symbol is in it.
    pub(super) fn homes(&self) -> Vec<bool> {
        let mut homes = vec![false; usize::from(u16::MAX) + 1];
        for entry in self.entries.chunks_exact(ENTRY) {
            if let [_, _, _, _, _, _, low, high, ..] = entry {
                if let Some(home) = homes.get_mut(usize::from(u16::from_le_bytes([*low, *high]))) {
                    *home = true;
                }
            }
        }
        homes
    }
}

/// An entry, but for its name.
#[derive(Clone, Copy, PartialEq, Eq, Debug, Default)]
pub(super) struct SymbolEntry {
    /// `st_info`
    pub(super) info: u8,
    /// `st_other`
    pub(super) other: u8,
    /// `st_shndx`
    pub(super) section: u16,
    /// `st_value`
    pub(super) value: u64,
    /// `st_size`
    pub(super) size: u64,
}

/// Writes entries one after the other.
pub(super) struct Writer {
    table: SymbolTable,
    /// By local name how many there were (`-z unique-symbol`).
    counts: Option<FastMap<BString, u64>>,
}

impl Writer {
    /// A table with entry 0, and room for so many.
    pub(super) fn with_room(count: usize, is_unique: bool) -> Writer {
        let mut entries = Vec::with_capacity((count + 1) * ENTRY);
        entries.resize(ENTRY, 0);
        let mut names = Vec::with_capacity(count * 16 + 1);
        names.push(0);
        let counts = is_unique.then(FastMap::default);
        Writer { table: SymbolTable { entries, names, first_global: 1, is_of_gnu: false }, counts }
    }

    /// A part of a table, which has no entry 0, and counts local names on.
    pub(super) fn part(count: usize, counts: Option<FastMap<BString, u64>>) -> Writer {
        let mut part = Writer::with_room(count, false);
        part.table.entries.clear();
        part.counts = counts;
        part
    }

    /// The counts of local names, for the next part.
    pub(super) fn take_counts(&mut self) -> Option<FastMap<BString, u64>> {
        self.counts.take()
    }

    /// Adds the entries of a part; gives the number of the first.
    pub(super) fn append(&mut self, part: &Writer) -> u32 {
        let first = self.count();
        let more = self.table.names.len() as u32 - 1;
        self.table.names.extend_from_slice(part.table.names.get(1..).unwrap_or_default());
        for entry in part.table.entries.chunks_exact(ENTRY) {
            let (name, rest) = entry.split_at(4);
            let name = name.try_into().map_or(0, u32::from_le_bytes);
            let name = if name == 0 { 0 } else { name + more };
            self.table.entries.extend_from_slice(&name.to_le_bytes());
            self.table.entries.extend_from_slice(rest);
        }
        self.table.is_of_gnu |= part.table.is_of_gnu;
        first
    }

    /// Adds a local symbol that is no file's (elflink.c, `elf_link_output_symstrtab`).
    pub(super) fn add_local(&mut self, name: &[u8], entry: SymbolEntry) {
        let counts = match &mut self.counts {
            Some(counts) if !name.is_empty() => counts,
            _ => return self.add(name, entry),
        };
        let count = counts.entry(name.into()).or_default();
        let name = [name, format!(".{:x}", count).as_bytes()].concat();
        *count += 1;
        self.add(&name, entry);
    }

    /// Adds the name of a source file.
    pub(super) fn add_file(&mut self, name: &[u8]) {
        self.add(name, SymbolEntry { info: elf::STT_FILE, section: elf::SHN_ABS, ..SymbolEntry::default() });
    }

    /// Adds a symbol.
    pub(super) fn add(&mut self, name: &[u8], entry: SymbolEntry) {
        let at = if name.is_empty() { 0 } else { self.table.names.len() as u32 };
        if at > 0 {
            self.table.names.extend_from_slice(name);
            self.table.names.push(0);
        }
        self.table.is_of_gnu |= entry.info >> 4 == elf::STB_GNU_UNIQUE;
        let mut bytes = [0; ENTRY];
        let (front, rest) = bytes.split_at_mut(SECTION_AT + 2);
        front.copy_from_slice(
            &(u64::from(at)
                | u64::from(entry.info) << 32
                | u64::from(entry.other) << 40
                | u64::from(entry.section) << 48)
                .to_le_bytes(),
        );
        let (value, size) = rest.split_at_mut(8);
        value.copy_from_slice(&entry.value.to_le_bytes());
        size.copy_from_slice(&entry.size.to_le_bytes());
        self.table.entries.extend_from_slice(&bytes);
    }

    /// How many entries there are.
    pub(super) fn count(&self) -> u32 {
        (self.table.entries.len() / ENTRY) as u32
    }

    /// Notes that all local symbols are in the table.
    pub(super) fn end_locals(&mut self) {
        self.table.first_global = self.count();
    }

    /// The table.
    pub(super) fn finish(self) -> SymbolTable {
        self.table
    }
}

#[cfg(test)]
mod tests {
    use super::*;

    #[test]
    fn entries_and_names() {
        let mut writer = Writer::with_room(2, false);
        writer.add_file(b"");
        writer.add_local(b"f", SymbolEntry { info: 2, other: 1, section: 3, value: 0x1000, size: 7 });
        writer.end_locals();
        let table = writer.finish();
        assert_eq!((table.first_global, table.names.as_slice()), (3, &b"\0f\0"[..]));
        let entry = &table.entries[48..];
        assert_eq!(entry[..8], [1, 0, 0, 0, 2, 1, 3, 0]);
        assert_eq!((entry[8..16].to_vec(), entry[16]), (0x1000_u64.to_le_bytes().to_vec(), 7));
        let homes = table.homes();
        assert!(homes[3] && !homes[2]);
    }

    #[test]
    fn parts_follow_each_other() {
        let (mut whole, mut parts) = (Writer::with_room(4, false), Writer::with_room(4, false));
        for names in [[&b"a.c"[..], b""], [b"b.c", b"f"]] {
            let mut part = Writer::part(2, None);
            for name in names {
                whole.add_file(name);
                part.add_file(name);
            }
            let first = parts.append(&part);
            assert_eq!(first + 2, parts.count());
        }
        assert_eq!(parts.finish(), whole.finish());
    }

    /// elflink.c, `elf_link_output_symstrtab`: `-z unique-symbol`.
    #[test]
    fn local_names_with_numbers() {
        let mut writer = Writer::with_room(2, true);
        writer.add_file(b"a.c");
        writer.add_local(b"f", SymbolEntry::default());
        writer.add_local(b"f", SymbolEntry::default());
        assert_eq!(writer.finish().names, b"\0a.c\0f.0\0f.1\0");
    }
}
