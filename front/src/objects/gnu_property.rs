//! Notes of properties (`.note.gnu.property`, Linux Extensions to gABI; psABI, 'Program Property'): GNU ld makes one of
//! those of all objects (bfd/elf-properties.c, bfd/elfxx-x86.c).

use super::draft::Headers;
use super::{Object, SectionIndex, SectionKind};
use crate::snapshot::Bytes;
use std::collections::BTreeMap;

/// The name of the section.
pub const PROPERTIES: &str = ".note.gnu.property";
/// NT_GNU_PROPERTY_TYPE_0
const NOTE_KIND: u32 = 5;
/// GNU_PROPERTY_STACK_SIZE
const STACK_SIZE: u32 = 1;
/// The bytes of a note before its properties: three words and its owner's name.
const HEAD: usize = 16;
const OWNER: &[u8] = b"GNU\0";
/// What properties are aligned to, in bytes.
const ALIGN: usize = 8;
/// Where fields are in a section header: `sh_offset` and `sh_size`.
const OFFSET_AT: usize = 24;
const SIZE_AT: usize = 32;

/// How properties of two objects become one.
#[derive(Clone, Copy, PartialEq, Eq, Debug)]
enum Rule {
    /// GNU_PROPERTY_STACK_SIZE: the greater one.
    Greatest,
    /// GNU_PROPERTY_NO_COPY_ON_PROTECTED: it has no value.
    Present,
    /// The bits that any has.
    Or,
    /// The bits that all have.
    And,
    /// The bits that any has, if all have the property.
    OrOfAll,
}

impl Rule {
    /// The rule of a type; `None` of one that GNU ld does not know.
    fn of(kind: u32) -> Option<Rule> {
        match kind {
            STACK_SIZE => Some(Rule::Greatest),
            2 => Some(Rule::Present),
            0xC000_0000 | 0xC001_0000..=0xC001_7FFF => Some(Rule::OrOfAll),
            0xC000_0001 | 0xB000_8000..=0xB000_FFFF | 0xC000_8000..=0xC000_FFFF => Some(Rule::Or),
            0xB000_0000..=0xB000_7FFF | 0xC000_0002..=0xC000_7FFF => Some(Rule::And),
            _ => None,
        }
    }

    /// The bytes of a value.
    fn size(self) -> usize {
        match self {
            Rule::Greatest => 8,
            Rule::Present => 0,
            Rule::Or | Rule::And | Rule::OrOfAll => 4,
        }
    }

    /// The value of two objects, the second of which may not have it; `None`: the property goes.
    fn merged(self, one: u64, other: Option<u64>) -> Option<u64> {
        match (self, other) {
            (Rule::Greatest, other) => Some(one.max(other.unwrap_or(0))),
            (Rule::Present, _) => Some(one),
            (Rule::Or, other) => Some(one | other.unwrap_or(0)).filter(|value| *value != 0),
            (Rule::And, Some(other)) => Some(one & other).filter(|value| *value != 0),
            (Rule::OrOfAll, Some(other)) => Some(one | other),
            (Rule::And | Rule::OrOfAll, None) => None,
        }
    }

    /// Whether a property is taken that the objects before do not have.
    fn is_added(self, value: u64) -> bool {
        match self {
            Rule::Greatest | Rule::Present => true,
            Rule::Or => value != 0,
            Rule::And | Rule::OrOfAll => false,
        }
    }
}

/// Properties by their types.
#[derive(Clone, PartialEq, Eq, Debug, Default)]
pub struct Properties(BTreeMap<u32, u64>);

impl Properties {
    /// The properties of a note; `None` if GNU ld does not know one, or the note is another.
    pub fn parse(note: &[u8]) -> Option<Properties> {
        let mut found = BTreeMap::new();
        let size = word(note, 4)? as usize;
        let is_one = word(note, 0)? as usize == OWNER.len() && word(note, 8)? == NOTE_KIND;
        let mut rest = note.get(HEAD..)?;
        if !is_one || note.get(12..HEAD)? != OWNER || size != rest.len() || size < ALIGN || size % ALIGN != 0 {
            return None;
        }
        while !rest.is_empty() {
            let (kind, size) = (word(rest, 0)?, word(rest, 4)? as usize);
            let rule = Rule::of(kind).filter(|rule| rule.size() == size)?;
            let mut value = [0; 8];
            value.get_mut(..size)?.copy_from_slice(rest.get(8..8 + size)?);
            let value = u64::from_le_bytes(value);
            let known = found.entry(kind).or_insert(0);
            *known = if rule == Rule::Greatest { value } else { *known | value };
            rest = rest.get(aligned(8 + size)..)?;
        }
        Some(Properties(found))
    }

    /// Takes what another object has: nothing, if it has no note (elf-properties.c, `elf_merge_gnu_property_list`).
    pub fn merge(&mut self, other: Option<&Properties>) {
        let empty = Properties::default();
        let other = other.unwrap_or(&empty);
        let mut merged = BTreeMap::new();
        for (kind, value) in &self.0 {
            let value = Rule::of(*kind).and_then(|rule| rule.merged(*value, other.0.get(kind).copied()));
            merged.extend(value.map(|value| (*kind, value)));
        }
        let new = other.0.iter().filter(|(kind, _)| !self.0.contains_key(kind));
        let new = new.filter(|(kind, value)| Rule::of(**kind).map_or(false, |rule| rule.is_added(**value)));
        merged.extend(new.map(|(kind, value)| (*kind, *value)));
        self.0 = merged;
    }

    /// Takes the size of `-z stack-size`, if there is one.
    pub fn merge_stack_size(&mut self, size: u64) {
        if size != 0 {
            let known = self.0.entry(STACK_SIZE).or_insert(0);
            *known = size.max(*known);
        }
    }

    /// The note of the properties; `None` if there are none (elfxx-x86.c, `_bfd_x86_elf_link_fixup_gnu_properties`).
    pub fn note(&self) -> Option<Vec<u8>> {
        let counts = |(kind, value): &(&u32, &u64)| {
            let rule = Rule::of(**kind);
            **value != 0 || !matches!(rule, Some(Rule::Or | Rule::And)) || **kind < 0xC000_0000
        };
        let mut list = Vec::new();
        for (kind, value) in self.0.iter().filter(counts) {
            let size = Rule::of(*kind).map_or(0, Rule::size);
            list.extend(kind.to_le_bytes());
            list.extend((size as u32).to_le_bytes());
            list.extend(value.to_le_bytes().iter().take(size));
            list.resize(aligned(list.len()), 0);
        }
        if list.is_empty() {
            return None;
        }
        let words = [OWNER.len() as u32, list.len() as u32, NOTE_KIND];
        let mut note: Vec<u8> = words.iter().flat_map(|word| word.to_le_bytes()).collect();
        note.extend(OWNER);
        note.extend(list);
        Some(note)
    }
}

fn word(bytes: &[u8], at: usize) -> Option<u32> {
    Some(u32::from_le_bytes(bytes.get(at..at + 4)?.try_into().ok()?))
}

fn aligned(size: usize) -> usize {
    size + (size.wrapping_neg() & (ALIGN - 1))
}

impl Object {
    /// The sections of notes of properties.
    pub fn property_notes(&self) -> impl Iterator<Item = SectionIndex> + '_ {
        let is_one = |section: &super::Section<'_>| section.kind == SectionKind::NOTE && section.name == PROPERTIES;
        self.sections().filter(is_one).map(|section| section.index)
    }

    /// The object with another note, which has the properties of the whole link; `None` if its tables are not whole.
    pub fn with_note(&self, section: SectionIndex, note: &[u8]) -> Option<Object> {
        let mut object = self.with_bytes(with_contents(self.data(), section, note)?)?;
        object.set_note_of_link();
        Some(object)
    }
}

fn with_contents(data: &Bytes, section: SectionIndex, contents: &[u8]) -> Option<Bytes> {
    let headers = Headers::of(data)?;
    headers.get(section)?;
    let header = headers.place(section);
    let mut longer = data.to_vec();
    longer.resize(aligned(longer.len()), 0);
    let fields = [(OFFSET_AT, longer.len() as u64), (SIZE_AT, contents.len() as u64)];
    longer.extend_from_slice(contents);
    for (field, value) in fields {
        longer.get_mut(header + field..header + field + 8)?.copy_from_slice(&value.to_le_bytes());
    }
    Some(longer.into())
}

#[cfg(test)]
mod tests {
    use super::*;

    const FEATURES: u32 = 0xC000_0002;
    const NEEDED: u32 = 0xC000_8002;
    const USED: u32 = 0xC001_0002;

    fn properties(list: &[(u32, u64)]) -> Properties {
        Properties(list.iter().copied().collect())
    }

    fn merged(one: &[(u32, u64)], other: Option<&[(u32, u64)]>) -> Properties {
        let mut found = properties(one);
        found.merge(other.map(properties).as_ref());
        found
    }

    /// What `gcc -fcf-protection` writes.
    #[test]
    fn a_note_is_read_and_written() {
        let note = b"\x04\0\0\0\x10\0\0\0\x05\0\0\0GNU\0\x02\0\0\xc0\x04\0\0\0\x03\0\0\0\0\0\0\0";
        let found = Properties::parse(note).unwrap();
        assert_eq!(found, properties(&[(FEATURES, 3)]));
        assert_eq!(found.note().unwrap(), note);
        assert_eq!(properties(&[(1, 0x1000), (2, 0)]).note().unwrap().len(), 16 + 16 + 8);
    }

    #[test]
    fn other_notes_are_none() {
        let note = b"\x04\0\0\0\x10\0\0\0\x05\0\0\0GNU\0\x02\0\0\xc0\x04\0\0\0\x03\0\0\0\0\0\0\0";
        for end in 0..note.len() {
            assert_eq!(Properties::parse(&note[..end]), None);
        }
        for (at, byte) in [(0, 5), (4, 8), (8, 1), (12, b'X'), (19, 0xE0), (20, 8)] {
            let mut other = note.to_vec();
            other[at] = byte;
            assert_eq!(Properties::parse(&other), None, "{at}");
        }
    }

    /// elfxx-x86.c, `_bfd_x86_elf_merge_gnu_properties`: GNU_PROPERTY_X86_FEATURE_1_AND.
    #[test]
    fn features_are_those_of_all() {
        assert_eq!(merged(&[(FEATURES, 3)], Some(&[(FEATURES, 2)])), properties(&[(FEATURES, 2)]));
        assert_eq!(merged(&[(FEATURES, 1)], Some(&[(FEATURES, 2)])), properties(&[]));
        assert_eq!(merged(&[(FEATURES, 3)], None), properties(&[]));
        assert_eq!(merged(&[], Some(&[(FEATURES, 3)])), properties(&[]));
    }

    /// The same of GNU_PROPERTY_X86_ISA_1_NEEDED and GNU_PROPERTY_X86_ISA_1_USED.
    #[test]
    fn what_is_needed_is_of_any_and_what_is_used_of_all() {
        assert_eq!(merged(&[(NEEDED, 1)], Some(&[(NEEDED, 2)])), properties(&[(NEEDED, 3)]));
        assert_eq!(merged(&[(NEEDED, 1)], None), properties(&[(NEEDED, 1)]));
        assert_eq!(merged(&[], Some(&[(NEEDED, 1)])), properties(&[(NEEDED, 1)]));
        assert_eq!(merged(&[(USED, 1)], Some(&[(USED, 2)])), properties(&[(USED, 3)]));
        assert_eq!(merged(&[(USED, 1)], None), properties(&[]));
        assert_eq!(merged(&[], Some(&[(USED, 1)])), properties(&[]));
    }

    /// elf-properties.c, `elf_merge_gnu_properties`.
    #[test]
    fn a_stack_is_the_greatest() {
        assert_eq!(merged(&[(1, 4)], Some(&[(1, 8)])), properties(&[(1, 8)]));
        assert_eq!(merged(&[(2, 0)], Some(&[(1, 8)])), properties(&[(1, 8), (2, 0)]));
        let mut found = properties(&[(2, 0)]);
        found.merge_stack_size(0);
        assert_eq!(found, properties(&[(2, 0)]));
        found.merge_stack_size(8);
        found.merge_stack_size(4);
        assert_eq!(found, properties(&[(1, 8), (2, 0)]));
        assert_eq!(properties(&[]).note(), None);
        assert_eq!(properties(&[(FEATURES, 0)]).note(), None);
    }
}
