//! Stabs, an older form of debug information: rows of 12 bytes in `.stab`, with names in `.stabstr`. GNU ld makes one
//! table of names of those of all objects, and leaves out rows that describe a header again, or code that is not in the
//! image (bfd/stabs.c of 2.40: `_bfd_link_section_stabs`, `_bfd_discard_section_stabs`, `_bfd_write_section_stabs`).

use super::evaluation::InputSection;
use super::flags::Flags;
use super::gc::deleted_symbols::DeletedSymbols;
use super::ids::{NameId, SectionId};
use super::link::Link;
use crate::objects::{Object, ObjectIndex, SectionFlags, SectionIndex, Shortened};
use bstr::ByteSlice;
use std::collections::HashMap;
use std::sync::Arc;

/// The bytes of a row: the place of its name (4), its type, a byte, its description (2) and its value (4).
const ROW: usize = 12;
const TYPE: usize = 4;
const DESCRIPTION: usize = 6;
const VALUE: usize = 8;
/// Types of rows: the head of those of an object; functions and variables; where the rows of a header begin, end, and
/// in place of such rows.
const HEAD: u8 = 0;
const FUNCTION: u8 = 0x24;
const VARIABLES: [u8; 2] = [0x26, 0x28];
const HEADER: u8 = 0x82;
const HEADER_END: u8 = 0xa2;
const HEADER_AGAIN: u8 = 0xc2;

/// The stabs of a link, whose names are in one table.
#[derive(Default)]
pub(super) struct LinkedStabs {
    sections: Vec<LinkedRows>,
    /// The section that the names of all stand in, and how many bytes they are.
    names: Option<(SectionId, u32)>,
}

/// The rows of a section: each with the place of its name, `None` if it is left out.
struct LinkedRows {
    id: SectionId,
    kept: Vec<Option<u32>>,
    /// Rows that have another type and value.
    changed: HashMap<usize, (u8, u32)>,
}

impl Link<'_> {
    /// Makes one table of names, and leaves out rows that describe a header again.
    pub(super) fn link_stabs(&mut self, objects: &[Object]) -> LinkedStabs {
        let mut linking = Linking::default();
        let settings = self.settings;
        let merges = settings.merges && !settings.strips_debugging && !settings.is_traditional;
        let names = self.program.names.find(b".stabstr").filter(|_| merges);
        for (index, object) in (0..).map(ObjectIndex).zip(objects).filter(|_| names.is_some()) {
            let (first, end) = (self.first_of(index), self.first_of(ObjectIndex(index.0 + 1)));
            self.link_stabs_of((first, end), object, names, &mut linking);
        }
        let Linking { stabs, names, .. } = linking;
        if let Some((first, _)) = stabs.names {
            let size = self.section(first).map_or(0, |one| one.size);
            self.shortened.insert(first, Arc::new(Shortened::replaced(size, names)));
        }
        stabs
    }

    /// Adds the rows of an object; if they are none of stabs, they stay as they are.
    fn link_stabs_of<'a>(
        &mut self,
        (first, end): (usize, usize),
        object: &'a Object,
        name: Option<NameId>,
        linking: &mut Linking<'a>,
    ) {
        let is_plain = |section: &InputSection| !SectionFlags(section.bits).has(SectionFlags::COMPRESSED);
        let own = || self.sections.iter().enumerate().take(end).skip(first).filter(|(_, one)| is_plain(one));
        let names = own().find(|(_, section)| Some(section.name) == name && section.size > 0);
        let (names, number) = match names.and_then(|(at, section)| Some((SectionId::new(at), section.number()?))) {
            Some(found) if !object.has_relocations(found.1) => found,
            _ => return,
        };
        let is_of_rows = |section: &InputSection| {
            is_of_rows(self.program.names.get(section.name)) && !SectionFlags(section.bits).has(SectionFlags::MERGE)
        };
        let rows: Vec<(SectionId, SectionIndex)> = own()
            .filter(|(_, section)| is_of_rows(section))
            .filter_map(|(at, section)| Some((SectionId::new(at), section.number()?)))
            .collect();
        let (table, mut next) = (object.contents(number), 0);
        for (id, number) in rows {
            let content = object.contents(number);
            if content.is_empty() || content.len() % ROW != 0 {
                continue;
            }
            let rows = Rows { content, names: table };
            if let Some(linked) = linking.link(id, rows, &mut next) {
                self.set_stabs_size(id, linked.size());
                let stabs = &mut linking.stabs;
                stabs.sections.push(linked);
                let first = stabs.names.map_or(names, |(first, _)| first);
                stabs.names = Some((first, linking.names.len() as u32));
                self.set_names(names, (first == names).then_some(linking.names.len()));
            }
        }
        if let Some((first, size)) = linking.stabs.names {
            self.set_names(first, Some(size as usize));
        }
    }

    /// The names of an object, which are among those of all, or are these.
    fn set_names(&mut self, id: SectionId, size: Option<usize>) {
        if let Some(section) = self.section_mut(id) {
            section.size = size.unwrap_or(0) as u64;
            (section.align, section.own_align) = (1, 1);
            section.flags = match size {
                Some(_) => section.flags.without(Flags::EXCLUDE),
                None => section.flags | Flags::EXCLUDE,
            };
        }
    }

    fn set_stabs_size(&mut self, id: SectionId, size: usize) {
        if let Some(section) = self.section_mut(id) {
            section.size = size as u64;
            section.flags |= if size == 0 { Flags::EXCLUDE } else { Flags::NONE };
        }
    }

    /// Leaves out the rows of functions and variables that are not in the image, of what is in `.stab`; gives whether
    /// there are such.
    pub(super) fn discard_stabs(&mut self, objects: &[Object], mut stabs: LinkedStabs) -> bool {
        let codes = self.codes_of(objects, &stabs);
        let names = stabs.names.map_or(0, |(_, size)| size);
        let mut is_other = false;
        for (linked, codes) in stabs.sections.iter_mut().zip(codes) {
            let section = self.section(linked.id).and_then(|section| Some((section.object, section.number()?)));
            let content = section.and_then(|(index, number)| Some(objects.get(index.0 as usize)?.contents(number)));
            if let Some(content) = content {
                let before = linked.size();
                linked.discard(content, &codes);
                is_other |= linked.size() != before;
                self.set_stabs_size(linked.id, linked.size());
                self.shortened.insert(linked.id, Arc::new(linked.shortened(content, names)));
            }
        }
        is_other
    }

    /// By section: by the place of a value, whether what it names is not in the image.
    fn codes_of(&self, objects: &[Object], stabs: &LinkedStabs) -> Vec<HashMap<u64, bool>> {
        let own = |linked: &LinkedRows| {
            let section = self.section(linked.id)?;
            let is_in_stabs = section.output().map_or(false, |output| self.output_name(output) == ".stab");
            is_in_stabs.then_some(())?;
            Some((section.object, section.number()?))
        };
        let own: Vec<Option<(ObjectIndex, SectionIndex)>> = stabs.sections.iter().map(own).collect();
        let deleted = DeletedSymbols::of(self, objects, own.iter().flatten().copied());
        let codes = |(index, number): (ObjectIndex, SectionIndex)| {
            let relocations = objects.get(index.0 as usize).map(|object| object.relocations(number));
            let relocations = relocations.into_iter().flatten();
            relocations.map(|one| (one.offset, deleted.has(index, one.symbol))).collect()
        };
        own.into_iter().map(|own| own.map_or_else(HashMap::new, codes)).collect()
    }

    /// The first head says how many rows follow it in its output section.
    pub(super) fn count_stabs(&mut self) {
        let heads = self.shortened.keys().copied().filter(|id| {
            let section = self.section(*id);
            section.map_or(false, |section| is_of_rows(self.program.names.get(section.name)))
        });
        for id in heads.collect::<Vec<_>>() {
            let output = self.section(id).and_then(InputSection::output);
            let size = output.and_then(|output| self.place(output)).map_or(0, |place| place.size);
            let rows = (size / ROW as u64).wrapping_sub(1) as u16;
            let shortened = self.shortened.get_mut(&id).and_then(Arc::get_mut);
            if let Some(bytes) =
                shortened.map(|shortened| &mut shortened.contents).filter(|bytes| bytes.get(TYPE) == Some(&HEAD))
            {
                bytes.iter_mut().skip(DESCRIPTION).zip(rows.to_le_bytes()).for_each(|(to, byte)| *to = byte);
            }
        }
    }
}

/// `.stab`, and `.stab.0` and the like.
fn is_of_rows(name: &[u8]) -> bool {
    name == b".stab" || name.strip_prefix(b".stab.").and_then(<[u8]>::first).map_or(false, u8::is_ascii_digit)
}

/// A header's rows: the sum of the characters of their names, and these.
type Described = (u32, Vec<u8>);

/// The stabs of objects so far.
struct Linking<'a> {
    stabs: LinkedStabs,
    /// Whether a head was read.
    has_head: bool,
    names: Vec<u8>,
    places: HashMap<&'a [u8], u32>,
    headers: HashMap<&'a [u8], Vec<Described>>,
}

impl Default for Linking<'_> {
    fn default() -> Self {
        Linking {
            stabs: LinkedStabs::default(),
            has_head: false,
            names: vec![0],
            places: HashMap::from([(&b""[..], 0)]),
            headers: HashMap::new(),
        }
    }
}

/// The rows of a section, and their names.
#[derive(Clone, Copy)]
struct Rows<'a> {
    content: &'a [u8],
    names: &'a [u8],
}

impl<'a> Linking<'a> {
    /// Gives each row the place of its name; `None` if a name is past the end.
    fn link(&mut self, id: SectionId, rows: Rows<'a>, next: &mut usize) -> Option<LinkedRows> {
        let (count, mut begin) = (rows.count(), 0);
        let mut linked = LinkedRows { id, kept: vec![None; count], changed: HashMap::new() };
        let mut left_out = vec![false; count];
        for row in 0..count {
            if left_out.get(row) == Some(&true) {
                continue;
            }
            let kind = rows.kind(row);
            if kind == HEAD {
                begin = *next;
                *next = next.checked_add(rows.word(row, VALUE) as usize)?;
                if self.has_head {
                    continue;
                }
                self.has_head = true;
            }
            let name = rows.name(begin, row)?;
            *linked.kept.get_mut(row)? = Some(self.place_of(name));
            if kind == HEADER {
                self.header(rows, (begin, row), &mut linked, &mut left_out)?;
            }
        }
        Some(linked)
    }

    /// The place of a name among those of all.
    fn place_of(&mut self, name: &'a [u8]) -> u32 {
        if let Some(place) = self.places.get(name) {
            return *place;
        }
        let place = self.names.len() as u32;
        self.names.extend_from_slice(name);
        self.names.push(0);
        self.places.insert(name, place);
        place
    }

    /// Leaves out the rows of a header that others describe in the same way.
    fn header(
        &mut self,
        rows: Rows<'a>,
        (begin, row): (usize, usize),
        linked: &mut LinkedRows,
        left_out: &mut [bool],
    ) -> Option<()> {
        let described = rows.described(begin, row)?;
        let known = self.headers.entry(rows.name(begin, row)?).or_default();
        let is_known = known.contains(&described);
        linked.changed.insert(row, (if is_known { HEADER_AGAIN } else { HEADER }, described.0));
        if !is_known {
            known.push(described);
            return Some(());
        }
        let mut nested = 0usize;
        for inside in row + 1..rows.count() {
            let kind = rows.kind(inside);
            let is_own = nested == 0 && kind != HEADER && kind != HEADER_AGAIN;
            if is_own {
                *left_out.get_mut(inside)? = true;
            }
            match kind {
                HEADER_END if nested == 0 => break,
                HEADER_END => nested -= 1,
                HEADER => nested += 1,
                _ => {}
            }
        }
        Some(())
    }
}

impl LinkedRows {
    /// The bytes of the rows that stay.
    fn size(&self) -> usize {
        self.kept.iter().flatten().count() * ROW
    }

    /// Leaves out the rows of functions and variables that are not in the image, as `codes` says by places of values.
    fn discard(&mut self, content: &[u8], codes: &HashMap<u64, bool>) {
        if codes.is_empty() {
            return;
        }
        let rows = Rows { content, names: &[] };
        // Of a function that is not in the image, of one that is, or outside of both.
        let mut of_gone: Option<bool> = None;
        for (row, kept) in self.kept.iter_mut().enumerate().filter(|(_, kept)| kept.is_some()) {
            let kind = rows.kind(row);
            let is_gone = codes.get(&((row * ROW + VALUE) as u64)).copied().unwrap_or(false);
            let is_end = kind == FUNCTION && rows.word(row, 0) == 0;
            let leaves = if is_end {
                of_gone != Some(false)
            } else {
                if kind == FUNCTION {
                    of_gone = Some(is_gone);
                }
                of_gone.unwrap_or_else(|| VARIABLES.contains(&kind) && is_gone)
            };
            if is_end {
                of_gone = None;
            }
            if leaves {
                *kept = None;
            }
        }
    }

    /// What stays of a section; `names` is how long the names of all are, as the first head says.
    fn shortened(&self, content: &[u8], names: u32) -> Shortened {
        let mut shortened = Shortened::of(content.len() as u64);
        shortened.is_left_out = self.size() == 0;
        for (row, place) in self.kept.iter().enumerate().filter_map(|(row, place)| Some((row, (*place)?))) {
            let from = (row * ROW) as u64;
            let bytes = content.get(row * ROW..(row + 1) * ROW).unwrap_or_default();
            shortened.keep(from, bytes);
            shortened.write(from, &place.to_le_bytes());
            if bytes.get(TYPE) == Some(&HEAD) {
                shortened.write(from + VALUE as u64, &names.to_le_bytes());
            } else if let Some((kind, sum)) = self.changed.get(&row) {
                shortened.write(from + TYPE as u64, &[*kind]);
                shortened.write(from + VALUE as u64, &sum.to_le_bytes());
            }
        }
        shortened
    }
}

impl<'a> Rows<'a> {
    fn count(self) -> usize {
        self.content.len() / ROW
    }

    /// A word of a row; 0 past the end.
    fn word(self, row: usize, at: usize) -> u32 {
        let at = row * ROW + at;
        let word = self.content.get(at..at + 4).and_then(|word| word.try_into().ok());
        word.map_or(0, u32::from_le_bytes)
    }

    fn kind(self, row: usize) -> u8 {
        self.content.get(row * ROW + TYPE).copied().unwrap_or(HEAD)
    }

    /// The name of a row; `None` if it is past the end.
    fn name(self, begin: usize, row: usize) -> Option<&'a [u8]> {
        let rest = self.names.get(begin.checked_add(self.word(row, 0) as usize)?..)?;
        rest.get(..rest.find_byte(0)?)
    }

    /// What describes the header that begins at a row, without the numbers of files.
    fn described(self, begin: usize, row: usize) -> Option<Described> {
        let (mut sum, mut characters, mut nested) = (0u32, Vec::new(), 0usize);
        for inside in row + 1..self.count() {
            match self.kind(inside) {
                HEAD => break,
                HEADER_AGAIN => {}
                HEADER_END if nested == 0 => break,
                HEADER_END => nested -= 1,
                HEADER => nested += 1,
                _ if nested == 0 => {
                    let mut name = self.name(begin, inside)?;
                    while let Some((character, rest)) = name.split_first() {
                        characters.push(*character);
                        sum = sum.wrapping_add(*character as i8 as u32);
                        let skipped = if *character == b'(' { digits(rest) } else { 0 };
                        name = rest.get(skipped..).unwrap_or_default();
                    }
                }
                _ => {}
            }
        }
        Some((sum, characters))
    }
}

fn digits(text: &[u8]) -> usize {
    text.iter().take_while(|character| character.is_ascii_digit()).count()
}
