//! Sections of which GNU ld leaves out rows or entries, as `.stab` and `.eh_frame`: what stays of one, where it is
//! then, and the object that has no more than that.

use super::draft::Headers;
use super::merged_object::Written;
use super::SectionIndex;
use crate::snapshot::Bytes;
use object::elf::{self, Rela64, Sym64};
use object::read::elf::SectionHeader;
use object::LittleEndian as Little;
use std::sync::Arc;

/// Where the value is in a symbol.
const VALUE_AT: usize = 8;

/// What stays of a section.
#[derive(Clone, PartialEq, Eq, Debug, Default)]
pub struct Shortened {
    /// Its bytes, to which relocations are not applied.
    pub contents: Vec<u8>,
    /// Whether it is left out, as it is empty.
    pub is_left_out: bool,
    /// Its bytes before.
    size: u64,
    /// What stays, ascending.
    kept: Vec<Kept>,
    /// Where fields were that have other bytes, and their sizes, ascending: no relocation is applied to these.
    written: Vec<(u64, u64)>,
    /// Where entries began, and where names in them go, ascending.
    names: Vec<(u64, u64)>,
}

/// Bytes that stay.
#[derive(Clone, Copy, PartialEq, Eq, Debug)]
struct Kept {
    from: u64,
    size: u64,
    to: u64,
}

impl Shortened {
    /// A section of so many bytes, of which nothing stays yet.
    pub fn of(size: u64) -> Shortened {
        Shortened { size, ..Shortened::default() }
    }

    /// Other bytes in the place of all of a section.
    pub fn replaced(size: u64, contents: Vec<u8>) -> Shortened {
        Shortened { contents, ..Shortened::of(size) }
    }

    /// Keeps bytes from a place on, which is behind those that were kept before; gives where they are.
    pub fn keep(&mut self, from: u64, bytes: &[u8]) -> usize {
        let to = self.contents.len();
        self.contents.extend_from_slice(bytes);
        match self.kept.last_mut().filter(|last| last.from + last.size == from && last.to + last.size == to as u64) {
            Some(last) => last.size += bytes.len() as u64,
            None => self.kept.push(Kept { from, size: bytes.len() as u64, to: to as u64 }),
        }
        to
    }

    /// Puts zeros behind what stays, up to a place where something goes on.
    pub fn fill(&mut self, to: u64) {
        self.contents.resize(usize::try_from(to).unwrap_or(0).max(self.contents.len()), 0);
    }

    /// Says where names go that are in an entry, which is behind those before.
    pub fn move_names(&mut self, from: u64, to: u64) {
        self.names.push((from, to));
    }

    /// The value of a name that had this one.
    pub fn named(&self, value: u64) -> u64 {
        let at = self.names.partition_point(|(from, _)| *from <= value).checked_sub(1);
        at.and_then(|at| self.names.get(at)).map_or(value, |(from, to)| to.wrapping_add(value - from))
    }

    /// Gives a field other bytes, by where it was; does nothing if it was left out.
    pub fn write(&mut self, from: u64, bytes: &[u8]) {
        let to = self.place(from).and_then(|to| usize::try_from(to).ok());
        if let Some(field) = to.and_then(|to| self.contents.get_mut(to..to.checked_add(bytes.len())?)) {
            field.copy_from_slice(bytes);
            let at = self.written.partition_point(|(before, _)| *before < from);
            self.written.insert(at, (from, bytes.len() as u64));
        }
    }

    /// Where what was at a place is now; `None` if that is left out.
    pub fn place(&self, from: u64) -> Option<u64> {
        if from >= self.size {
            return Some((from - self.size).wrapping_add(self.contents.len() as u64));
        }
        let at = self.kept.partition_point(|kept| kept.from <= from).checked_sub(1)?;
        let kept = self.kept.get(at).filter(|kept| from - kept.from < kept.size)?;
        Some(kept.to + (from - kept.from))
    }

    /// Where the field of a relocation is now; `None` if it is left out, or has other bytes.
    pub fn field(&self, from: u64) -> Option<u64> {
        let before = self.written.partition_point(|(start, _)| *start <= from).checked_sub(1);
        let last = before.and_then(|at| self.written.get(at));
        let is_written = last.map_or(false, |(start, size)| from - start < *size);
        self.place(from).filter(|_| !is_written)
    }
}

/// The bytes of an object whose sections of these numbers are shortened; `None` if its tables are not whole.
pub fn with_shortened(data: &Bytes, shortened: &[(SectionIndex, Arc<Shortened>)]) -> Option<Bytes> {
    let headers = Headers::of(data)?;
    let mut written = Written::of(data, headers)?;
    for (section, now) in shortened {
        written.put_section(*section, &now.contents)?;
        if now.is_left_out {
            written.leave_out(*section)?;
        }
    }
    for (number, header) in headers.iter().filter(|(_, header)| header.sh_type(Little) == elf::SHT_RELA) {
        let of = SectionIndex(header.sh_info(Little));
        if let Some((_, now)) = shortened.iter().find(|(section, _)| *section == of) {
            let (_, entries) = headers.relocations(header);
            let moved = |entry: &Rela64<Little>| {
                let at = now.field(entry.r_offset.get(Little))?;
                Some([at, entry.r_info.get(Little), entry.r_addend.get(Little) as u64])
            };
            let words = entries.iter().filter_map(moved).flatten();
            written.put_section(number, &words.flat_map(u64::to_le_bytes).collect::<Vec<u8>>())?;
        }
    }
    if let Some((number, table)) = headers.iter().find(|(_, header)| header.sh_type(Little) == elf::SHT_SYMTAB) {
        if let Some(symbols) = renamed(headers.symbols(table).1, shortened) {
            written.put_section(number, &symbols)?;
        }
    }
    written.finish()
}

/// The symbols with the values that they have then; `None` if none has another.
fn renamed(symbols: &[Sym64<Little>], shortened: &[(SectionIndex, Arc<Shortened>)]) -> Option<Vec<u8>> {
    let value_of = |symbol: &Sym64<Little>| {
        let section = SectionIndex(symbol.st_shndx.get(Little).into());
        let (_, now) = shortened.iter().find(|(number, _)| *number == section)?;
        let is_moved = symbol.st_info >> 4 != elf::STB_LOCAL || symbol.st_info & 15 <= elf::STT_OBJECT;
        let value = symbol.st_value.get(Little);
        is_moved.then(|| now.named(value)).filter(|now| *now != value)
    };
    let moved: Vec<(usize, u64)> =
        symbols.iter().enumerate().filter_map(|(at, symbol)| Some((at, value_of(symbol)?))).collect();
    let mut bytes = if moved.is_empty() { return None } else { object::bytes_of_slice(symbols).to_vec() };
    for (at, value) in moved {
        let from = at * std::mem::size_of::<Sym64<Little>>() + VALUE_AT;
        bytes.get_mut(from..from + 8)?.copy_from_slice(&value.to_le_bytes());
    }
    Some(bytes)
}

#[cfg(test)]
mod tests {
    use super::super::tests::{object, WrittenSection};
    use super::super::{Elf, Relocation, SymbolIndex};
    use super::*;

    /// Of twelve bytes the first and the last four stay, and of the last a byte is another.
    fn shortened() -> Shortened {
        let mut now = Shortened::of(12);
        assert_eq!((now.keep(0, &[1, 2, 3, 4]), now.keep(8, &[5, 6, 7, 8])), (0, 4));
        now.write(9, &[60]);
        now
    }

    #[test]
    fn places() {
        let now = shortened();
        assert_eq!(now.contents, [1, 2, 3, 4, 5, 60, 7, 8]);
        let places: Vec<Option<u64>> = [0, 3, 4, 7, 8, 11, 12, 14].iter().map(|at| now.place(*at)).collect();
        assert_eq!(places, [Some(0), Some(3), None, None, Some(4), Some(7), Some(8), Some(10)]);
        assert_eq!((now.field(8), now.field(9), now.field(10)), (Some(4), None, Some(6)));
    }

    #[test]
    fn relocations_move_with_their_fields() {
        let text = WrittenSection { name: ".text", kind: 1, flags: 6, data: &[0; 12] };
        let relocation = |offset| Relocation { offset, kind: 10, symbol: SymbolIndex(1), addend: offset as i64 };
        let relocations = [0, 4, 8, 9].map(relocation);
        let data = Bytes::from(object(&[text], &[("f", 1, 1, 0, 0)], &relocations));
        let made = Elf::parse(with_shortened(&data, &[(SectionIndex(1), Arc::new(shortened()))]).unwrap()).unwrap();
        assert_eq!(made.contents(SectionIndex(1)), [1, 2, 3, 4, 5, 60, 7, 8]);
        let found: Vec<(u64, i64)> = made.relocations(SectionIndex(1)).map(|one| (one.offset, one.addend)).collect();
        assert_eq!(found, [(0, 0), (4, 8)]);
        assert_eq!(with_shortened(&b"no object".to_vec().into(), &[]), None);
    }
}
