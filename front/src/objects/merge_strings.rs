//! Merges equal strings and constants of sections with SHF_MERGE (bfd/merge.c of GNU ld 2.40).
//!
//! Each section keeps what no earlier section has; a string that is the end of another one is stored in that one. So a
//! section gets shorter or empty, and its contents move, some of them to other sections.

use super::{ObjectIndex, Section, SectionFlags, SectionIndex};
use crate::fast_map::FastMap;
use std::cmp::Ordering;

/// Greater alignments GNU ld does not merge.
const MAX_ALIGN: u64 = 1 << 31;
/// The bytes of a string that are compared at once.
const WORD: usize = 8;

/// What sections of one kind are merged with each other.
#[derive(Clone, Copy, PartialEq, Eq, Hash, Debug)]
pub struct MergeKind {
    /// Whether they have strings, which end with a zero (SHF_STRINGS); else constants.
    pub is_strings: bool,
    /// The bytes of a character or a constant.
    pub entry_size: u64,
    /// The alignment of the sections.
    pub align: u64,
}

impl MergeKind {
    /// The kind of a section; `None` if GNU ld leaves it as it is (merge.c, `_bfd_add_merge_section`).
    pub fn of(section: &Section<'_>) -> Option<MergeKind> {
        let is_strings = section.flags.has(SectionFlags::STRINGS);
        let (entry, align) = (section.entry_size, section.align);
        let is_whole = section.size != 0 && entry != 0 && section.size % entry == 0;
        if !section.flags.has(SectionFlags::MERGE) || !is_whole || !align.is_power_of_two() || align > MAX_ALIGN {
            return None;
        }
        let is_odd = match entry.cmp(&align) {
            Ordering::Less => !entry.is_power_of_two() || !is_strings,
            Ordering::Equal => false,
            Ordering::Greater => entry & (align - 1) != 0,
        };
        (!is_odd).then_some(MergeKind { is_strings, entry_size: entry, align })
    }
}

/// A section of an object.
#[derive(Clone, Copy, PartialEq, Eq, PartialOrd, Ord, Hash, Debug)]
pub struct MergeSource {
    /// The object.
    pub object: ObjectIndex,
    /// The section.
    pub section: SectionIndex,
}

/// The sections of one kind, merged.
#[derive(Clone, PartialEq, Eq, Debug, Default)]
pub struct Merged {
    kind: Option<MergeKind>,
    parts: Vec<MergedPart>,
    /// Where the empty string is.
    empty: Option<Spot>,
    /// The first entry, and its bytes.
    first: (Spot, u64),
}

/// A section after merging.
#[derive(Clone, PartialEq, Eq, Debug, Default)]
pub struct MergedPart {
    /// Its bytes now; none if it is left out.
    pub contents: Vec<u8>,
    /// Whether it is left out, as all that it has is elsewhere.
    pub is_left_out: bool,
    /// Its bytes before.
    size: u64,
    /// Its entries before, by their places.
    pieces: Vec<Piece>,
}

/// An entry of a section before, and where it is now.
#[derive(Clone, Copy, PartialEq, Eq, Debug)]
struct Piece {
    start: u32,
    size: u32,
    now: Spot,
}

/// A place in a section, which is one of those that are merged.
#[derive(Clone, Copy, PartialEq, Eq, Debug, Default)]
pub struct Spot {
    /// The number of the section among those that are merged.
    pub part: u32,
    /// The place in it.
    pub offset: u64,
}

impl Merged {
    /// Merges sections of one kind; their bytes are as many as `MergeKind::of` allows.
    pub fn of(kind: MergeKind, sections: &[&[u8]]) -> Merged {
        let mut table = Table::new(kind, sections);
        for (part, bytes) in sections.iter().enumerate() {
            table.record(part as u32, bytes);
        }
        if kind.is_strings {
            table.merge_ends();
        }
        table.finish(sections)
    }

    /// The sections.
    pub fn parts(&self) -> &[MergedPart] {
        &self.parts
    }

    /// Where what was at a place of a section is now (merge.c, `_bfd_merged_section_offset`).
    pub fn spot(&self, part: u32, offset: u64) -> Spot {
        let own = match self.parts.get(part as usize) {
            Some(own) => own,
            None => return Spot { part, offset },
        };
        if offset >= own.size {
            return Spot { part, offset: own.contents.len() as u64 };
        }
        let at = own.pieces.partition_point(|piece| u64::from(piece.start) <= offset);
        let piece = at.checked_sub(1).and_then(|at| own.pieces.get(at));
        if let Some(piece) = piece.filter(|piece| offset - u64::from(piece.start) < u64::from(piece.size)) {
            let more = offset - u64::from(piece.start);
            return Spot { offset: piece.now.offset.wrapping_add(more), ..piece.now };
        }
        let entry = self.kind.map_or(1, |kind| kind.entry_size).max(1);
        match self.empty {
            Some(empty) => Spot { offset: empty.offset.wrapping_add(offset % entry), ..empty },
            // What is between strings counts from the end of the first one.
            None => {
                let (first, size) = self.first;
                let more = size.wrapping_sub(entry).wrapping_add(offset % entry);
                Spot { offset: first.offset.wrapping_add(more), ..first }
            }
        }
    }
}

/// An entry: a string without its end, or a constant.
#[derive(Clone, Copy, Debug)]
struct Entry<'a> {
    content: &'a [u8],
    /// 0: it is not in the image by itself.
    align: u32,
    part: u32,
    offset: u64,
    /// The longer entry that ends with this one.
    whole: Option<u32>,
}

/// The entries while they are found.
struct Table<'a> {
    kind: MergeKind,
    /// By content: its slot.
    slots: FastMap<&'a [u8], u32>,
    /// By slot: its entry, the last of those with its content.
    current: Vec<u32>,
    /// In the order in which they were found.
    entries: Vec<Entry<'a>>,
    /// By section: places, sizes and slots.
    found: Vec<Vec<(u32, u32, u32)>>,
}

impl<'a> Table<'a> {
    fn new(kind: MergeKind, sections: &[&[u8]]) -> Table<'a> {
        let size: usize = sections.iter().map(|bytes| bytes.len()).sum();
        let count = size / if kind.is_strings { 32 } else { 2 * kind.entry_size as usize } + 16;
        let mut slots = FastMap::default();
        slots.reserve(count);
        Table { kind, slots, current: Vec::new(), entries: Vec::new(), found: vec![Vec::new(); sections.len()] }
    }

    /// The slot of an entry, which is added if no section before has it with this alignment (merge.c,
    /// `sec_merge_add`).
    fn add(&mut self, content: &'a [u8], align: u32, part: u32) -> u32 {
        let next = self.entries.len() as u32;
        let slot = *self.slots.entry(content).or_insert(self.current.len() as u32);
        match self.current.get_mut(slot as usize) {
            None => self.current.push(next),
            Some(current) => match self.entries.get_mut(*current as usize) {
                Some(old) if old.align < align => {
                    old.align = 0;
                    *current = next;
                }
                _ => return slot,
            },
        }
        self.entries.push(Entry { content, align, part, offset: 0, whole: None });
        slot
    }

    /// Finds the entries of a section (merge.c, `record_section`).
    fn record(&mut self, part: u32, bytes: &'a [u8]) {
        match self.kind.is_strings {
            true => self.record_strings(part, bytes),
            false => {
                let size = self.kind.entry_size as usize;
                for (number, content) in bytes.chunks_exact(size).enumerate() {
                    let slot = self.add(content, 1, part);
                    self.note(part, number * size, size, slot);
                }
            }
        }
    }

    fn note(&mut self, part: u32, start: usize, size: usize, slot: u32) {
        if let Some(found) = self.found.get_mut(part as usize) {
            found.push((start as u32, size as u32, slot));
        }
    }

    fn record_strings(&mut self, part: u32, bytes: &'a [u8]) {
        let (entry, align) = (self.kind.entry_size as usize, self.kind.align as usize);
        let mut has_empty = false;
        let mut at = 0;
        while at < bytes.len() {
            let own = if at == 0 { align } else { (at & at.wrapping_neg()).min(align) };
            let content = string_at(bytes, at, entry);
            let slot = self.add(content, own as u32, part);
            self.note(part, at, content.len() + entry, slot);
            at += content.len() + entry;
            while at < bytes.len() && is_zero(bytes, at, entry) {
                if !has_empty && at & (align - 1) == 0 {
                    has_empty = true;
                    self.add(b"", align as u32, part);
                }
                at += entry;
            }
        }
    }

    /// Makes strings ends of others (merge.c, `merge_strings`).
    fn merge_ends(&mut self) {
        let mut order: Vec<u32> = self
            .entries
            .iter()
            .enumerate()
            .filter(|(_, one)| one.align != 0)
            .map(|(number, _)| number as u32)
            .collect();
        self.sort(&mut order);
        let mut last: Option<u32> = None;
        for number in order.into_iter().rev() {
            let whole = last.and_then(|last| Some((last, *self.entries.get(last as usize)?)));
            let one = match self.entries.get_mut(number as usize) {
                Some(one) => one,
                None => continue,
            };
            match whole {
                Some((whole, other)) if is_end(one, &other) => {
                    one.whole = Some(whole);
                    one.align = 0;
                }
                _ => last = Some(number),
            }
        }
    }

    /// Sorts strings by their ends (merge.c, `strrevcmp`); if all have one alignment that is greater than a
    /// character, first by what is past it (`strrevcmp_align`).
    fn sort(&self, order: &mut [u32]) {
        let entries = &self.entries;
        let content = |number: u32| entries.get(number as usize).map_or(&[][..], |one| one.content);
        let aligns = || order.iter().filter_map(|number| entries.get(*number as usize)).map(|one| one.align);
        let first = aligns().next().unwrap_or(1);
        let is_aligned = u64::from(first) > self.kind.entry_size && aligns().all(|align| align == first);
        let mask = if is_aligned { first as usize - 1 } else { 0 };
        if self.kind.entry_size != 1 {
            return order.sort_unstable_by(|one, other| {
                let (one, other) = (content(*one), content(*other));
                (one.len() & mask).cmp(&(other.len() & mask)).then_with(|| one.iter().rev().cmp(other.iter().rev()))
            });
        }
        let mut keyed: Vec<(u64, u32)> = order.iter().map(|number| (0, *number)).collect();
        if mask != 0 {
            keyed.iter_mut().for_each(|(key, number)| *key = (content(*number).len() & mask) as u64);
            keyed.sort_unstable();
        }
        let mut waiting: Vec<(usize, usize, usize)> = runs(&keyed, 0).map(|(from, to)| (from, to, 0)).collect();
        while let Some((from, to, depth)) = waiting.pop() {
            let run = match keyed.get_mut(from..to) {
                Some(run) => run,
                None => continue,
            };
            run.iter_mut().for_each(|(key, number)| *key = word_before(content(*number), depth));
            run.sort_unstable();
            // One that ends here is before the others with these ends, as no two strings are equal.
            waiting.extend(runs(run, from).map(|(from, to)| (from, to, depth + WORD)));
        }
        order.iter_mut().zip(keyed).for_each(|(number, (_, sorted))| *number = sorted);
    }

    /// Gives places, and what each section has.
    fn finish(mut self, sections: &[&[u8]]) -> Merged {
        let sizes = self.place(sections);
        let spots: Vec<Spot> = (0..self.entries.len()).map(|number| self.spot(number)).collect();
        let spot = |slot: u32| {
            let number = self.current.get(slot as usize).copied().unwrap_or(0);
            spots.get(number as usize).copied().unwrap_or_default()
        };
        let end = if self.kind.is_strings { self.kind.entry_size as usize } else { 0 };
        let mut parts: Vec<MergedPart> = sections
            .iter()
            .zip(&self.found)
            .zip(sizes)
            .map(|((bytes, found), size)| MergedPart {
                contents: vec![0; size.unwrap_or(0) as usize],
                is_left_out: size.is_none(),
                size: bytes.len() as u64,
                pieces: found.iter().map(|&(start, size, slot)| Piece { start, size, now: spot(slot) }).collect(),
            })
            .collect();
        let kept = self.entries.iter().filter(|one| one.align != 0);
        for one in kept.clone() {
            let own = parts.get_mut(one.part as usize);
            let from = one.offset as usize;
            if let Some(place) = own.and_then(|own| own.contents.get_mut(from..from + one.content.len())) {
                place.copy_from_slice(one.content);
            }
        }
        let empty = self.slots.get(&b""[..]).filter(|_| self.kind.is_strings).map(|slot| spot(*slot));
        let first = kept.clone().next().map_or((Spot::default(), 0), |one| {
            (Spot { part: one.part, offset: one.offset }, (one.content.len() + end) as u64)
        });
        Merged { kind: Some(self.kind), parts, empty, first }
    }

    /// Places the entries that stay, each in its section; gives the sections' sizes, `None` of those that keep nothing
    /// (merge.c, `merge_strings`, `_bfd_merge_sections`).
    fn place(&mut self, sections: &[&[u8]]) -> Vec<Option<u64>> {
        let end = if self.kind.is_strings { self.kind.entry_size } else { 0 };
        let mut sizes: Vec<Option<u64>> = vec![None; sections.len()];
        let mut last = None;
        for one in &mut self.entries {
            last = Some(one.part as usize);
            if let Some(size) = sizes.get_mut(one.part as usize).filter(|_| one.align != 0) {
                let mask = u64::from(one.align) - 1;
                one.offset = size.unwrap_or(0).wrapping_add(mask) & !mask;
                *size = Some(one.offset + one.content.len() as u64 + end);
            }
        }
        // The last section is filled up if all sections were.
        let mask = self.kind.align - 1;
        let is_filled = sections.iter().all(|bytes| bytes.len() as u64 & mask == 0);
        if let Some(Some(size)) = last.and_then(|last| sizes.get_mut(last)).filter(|_| is_filled) {
            *size = size.wrapping_add(mask) & !mask;
        }
        sizes
    }

    /// Where an entry is.
    fn spot(&self, number: usize) -> Spot {
        let one = match self.entries.get(number) {
            Some(one) => one,
            None => return Spot::default(),
        };
        match one.whole.and_then(|whole| self.entries.get(whole as usize)) {
            Some(whole) => {
                let more = whole.content.len().saturating_sub(one.content.len()) as u64;
                Spot { part: whole.part, offset: whole.offset + more }
            }
            None => Spot { part: one.part, offset: one.offset },
        }
    }
}

/// The string at a place, without its end; the last one may have none.
fn string_at(bytes: &[u8], at: usize, entry: usize) -> &[u8] {
    let rest = bytes.get(at..).unwrap_or_default();
    let size = match entry {
        1 => memchr::memchr(0, rest),
        _ => rest.chunks(entry).position(|one| one.iter().all(|byte| *byte == 0)).map(|count| count * entry),
    };
    rest.get(..size.unwrap_or(rest.len())).unwrap_or_default()
}

/// Whether a character is zero.
fn is_zero(bytes: &[u8], at: usize, entry: usize) -> bool {
    bytes.iter().skip(at).take(entry).all(|byte| *byte == 0)
}

/// Whether a string is the end of another one, and aligned as it must be there.
fn is_end(one: &Entry<'_>, whole: &Entry<'_>) -> bool {
    let mask = (one.align as usize).wrapping_sub(1);
    whole.align >= one.align
        && whole.content.len() > one.content.len()
        && (whole.content.len() - one.content.len()) & mask == 0
        && whole.content.ends_with(one.content)
}

/// The bytes of a string before the last ones, the last of them first; zeros before its start.
fn word_before(content: &[u8], depth: usize) -> u64 {
    let end = content.len().saturating_sub(depth);
    match content.get(end.saturating_sub(WORD)..end).map(<[u8; WORD]>::try_from) {
        Some(Ok(word)) => u64::from_le_bytes(word),
        _ => content.iter().take(end).fold(0, |word, byte| word >> 8 | u64::from(*byte) << 56),
    }
}

/// Where more than one number have one key, which is that of more than a string's start.
fn runs(keyed: &[(u64, u32)], from: usize) -> impl Iterator<Item = (usize, usize)> + '_ {
    let mut start = 0;
    std::iter::from_fn(move || {
        while start < keyed.len() {
            let key = keyed.get(start)?.0;
            let count = keyed.get(start..)?.iter().take_while(|(other, _)| *other == key).count();
            let run = (from + start, from + start + count);
            start += count;
            if count > 1 {
                return Some(run);
            }
        }
        None
    })
}

#[cfg(test)]
mod tests {
    use super::*;

    fn strings(align: u64) -> MergeKind {
        MergeKind { is_strings: true, entry_size: 1, align }
    }

    fn merged(kind: MergeKind, sections: &[&[u8]]) -> Merged {
        Merged::of(kind, sections)
    }

    fn contents(merged: &Merged) -> Vec<&[u8]> {
        merged.parts().iter().map(|part| &*part.contents).collect()
    }

    fn at(merged: &Merged, part: u32, offset: u64) -> (u32, u64) {
        let spot = merged.spot(part, offset);
        (spot.part, spot.offset)
    }

    /// merge.c, `_bfd_add_merge_section`: what is merged at all.
    #[test]
    fn kinds() {
        let section = |flags: u64, size, entry_size, align| Section {
            index: SectionIndex(1),
            name: ".rodata".into(),
            kind: super::super::SectionKind::PROGBITS,
            flags: SectionFlags(flags),
            size,
            align,
            offset: 0,
            link: 0,
            info: 0,
            entry_size,
        };
        let kind = |flags, size, entry, align| MergeKind::of(&section(flags, size, entry, align)).is_some();
        assert!(kind(0x32, 4, 1, 1) && kind(0x32, 4, 1, 8) && kind(0x12, 16, 8, 8) && kind(0x12, 24, 12, 4));
        assert!(!kind(2, 4, 1, 1), "no SHF_MERGE");
        assert!(!kind(0x12, 0, 4, 4) && !kind(0x12, 4, 0, 1) && !kind(0x12, 6, 4, 4), "sizes");
        assert!(!kind(0x12, 4, 2, 4), "constants that are aligned more than they are long");
        assert!(!kind(0x32, 6, 3, 8) && !kind(0x32, 6, 6, 4), "characters of odd sizes");
        assert!(!kind(0x32, 4, 1, 1 << 32) && !kind(0x32, 4, 1, 6), "odd alignments");
    }

    /// merge.c, `sec_merge_add`: each section keeps what no section before it has.
    #[test]
    fn equal_strings_are_one() {
        let found = merged(strings(1), &[b"one\0two\0", b"two\0three\0", b"one\0two\0"]);
        assert_eq!(contents(&found), [&b"one\0two\0"[..], b"three\0", b""]);
        assert!(found.parts()[2].is_left_out && !found.parts()[1].is_left_out);
        assert_eq!((at(&found, 1, 0), at(&found, 1, 2), at(&found, 1, 5)), ((0, 4), (0, 6), (1, 1)));
        assert_eq!((at(&found, 2, 1), at(&found, 2, 7)), ((0, 1), (0, 7)));
    }

    /// merge.c, `merge_strings`: a string is the end of another one, which may be in a later section.
    #[test]
    fn ends_are_in_longer_strings() {
        let found = merged(strings(1), &[b"world\0x\0", b"hello world\0d\0", b"o world\0"]);
        assert_eq!(contents(&found), [&b"x\0"[..], b"hello world\0", b""]);
        assert_eq!((at(&found, 0, 0), at(&found, 0, 6)), ((1, 6), (0, 0)));
        assert_eq!((at(&found, 1, 12), at(&found, 2, 3)), ((1, 10), (1, 7)));
    }

    /// merge.c, `sec_merge_hash_lookup`: a copy that is aligned more takes the place of one that is less.
    #[test]
    fn a_copy_that_is_aligned_more_counts() {
        let found = merged(strings(8), &[b"1234567\0abc\0xyz\0", b"xyz\0\0\0\0\0abc\0"]);
        assert_eq!(contents(&found), [&b"1234567\0abc\0"[..], b"xyz\0"]);
        assert_eq!((at(&found, 0, 12), at(&found, 1, 8)), ((1, 0), (0, 8)));
        assert_eq!(at(&found, 1, 5), (0, 7), "what fills up is the end of the first string");
    }

    /// merge.c, `merge_strings`: an end must be aligned as the string that it is in.
    #[test]
    fn ends_that_are_not_aligned_stay() {
        let found = merged(strings(4), &[b"xxabcd\0\0abcd\0\0\0\0bcd\0"]);
        assert_eq!(contents(&found), [&b"xxabcd\0\0abcd\0\0\0\0bcd\0"[..]]);
        let found = merged(strings(4), &[b"xxxxabcd\0\0\0\0abcd\0\0\0\0"]);
        assert_eq!(contents(&found), [&b"xxxxabcd\0\0\0\0"[..]]);
    }

    /// merge.c, `record_section`: of the zeros after a string the first that is aligned is an empty string.
    #[test]
    fn zeros_after_a_string() {
        let found = merged(strings(1), &[b"a\0\0\0b\0", b"\0c\0"]);
        assert_eq!(contents(&found), [&b"a\0b\0"[..], b"c\0"]);
        let empty = at(&found, 0, 2);
        assert_eq!((at(&found, 0, 3), at(&found, 1, 0)), (empty, empty));
        let bytes = &found.parts()[empty.0 as usize].contents;
        assert_eq!(bytes[empty.1 as usize], 0);
    }

    /// merge.c, `_bfd_merged_section_offset`: past the end is the end.
    #[test]
    fn past_the_end() {
        let found = merged(strings(1), &[b"abc\0", b"abc\0"]);
        assert_eq!((at(&found, 0, 4), at(&found, 0, 9), at(&found, 0, u64::MAX)), ((0, 4), (0, 4), (0, 4)));
        assert_eq!((at(&found, 1, 4), at(&found, 7, 4)), ((1, 0), (7, 4)));
    }

    /// merge.c, `_bfd_add_merge_section`: the last string may have no end.
    #[test]
    fn a_string_without_an_end_gets_one() {
        let found = merged(strings(1), &[b"abc\0de", b"bc\0"]);
        assert_eq!(contents(&found), [&b"abc\0de\0"[..], b""]);
        assert_eq!(at(&found, 1, 0), (0, 1));
    }

    /// merge.c, `_bfd_merge_sections`: if all sections are filled up, the last one is.
    #[test]
    fn the_last_section_is_filled_up() {
        let found = merged(strings(4), &[b"abc\0", b"defg\0\0\0\0h\0\0\0"]);
        assert_eq!(contents(&found), [&b"abc\0"[..], b"defg\0\0\0\0h\0\0\0"]);
        let found = merged(strings(4), &[b"abc\0", b"defg\0\0\0\0h\0"]);
        assert_eq!(contents(&found), [&b"abc\0"[..], b"defg\0\0\0\0h\0"]);
    }

    #[test]
    fn wide_strings() {
        let kind = MergeKind { is_strings: true, entry_size: 4, align: 4 };
        let wide = |text: &str| text.chars().flat_map(|one| u32::from(one).to_le_bytes()).collect::<Vec<u8>>();
        let (one, other) = (wide("hi\0there\0"), wide("re\0Āi\0"));
        let found = merged(kind, &[&one, &other]);
        assert_eq!(contents(&found), [&one[..], &wide("Āi\0")[..]]);
        assert_eq!((at(&found, 1, 0), at(&found, 1, 12)), ((0, 24), (1, 0)));
    }

    #[test]
    fn constants() {
        let kind = MergeKind { is_strings: false, entry_size: 4, align: 4 };
        let found = merged(kind, &[&[1, 0, 0, 0, 2, 0, 0, 0, 1, 0, 0, 0], &[3, 0, 0, 0, 2, 0, 0, 0], &[2, 0, 0, 0]]);
        assert_eq!(contents(&found), [&[1, 0, 0, 0, 2, 0, 0, 0][..], &[3, 0, 0, 0], &[]]);
        assert_eq!((at(&found, 0, 9), at(&found, 1, 0), at(&found, 1, 6)), ((0, 1), (1, 0), (0, 6)));
    }

    /// A few of all orders of `strrevcmp` and `strrevcmp_align`, compared byte by byte.
    #[test]
    fn the_order_is_that_of_whole_comparisons() {
        let mut seed = 5_u64;
        let mut next = |below: u64| {
            seed ^= seed << 13;
            seed ^= seed >> 7;
            seed ^= seed << 17;
            seed % below
        };
        for round in 0..200 {
            let texts: Vec<Vec<u8>> = (0..30).map(|_| (0..next(20)).map(|_| b'a' + next(2) as u8).collect()).collect();
            let align = if round % 2 == 0 { 1 } else { 8 };
            let mut table = Table::new(strings(align), &[]);
            for text in &texts {
                table.add(text, align as u32, 0);
            }
            let mut order: Vec<u32> = (0..table.entries.len() as u32).collect();
            let mut wanted = order.clone();
            table.sort(&mut order);
            let key = |number: &u32| {
                let text = table.entries[*number as usize].content;
                (text.len() & (align as usize - 1), text.iter().rev().copied().collect::<Vec<u8>>())
            };
            wanted.sort_by_key(key);
            assert_eq!(order, wanted);
        }
    }

    /// Whatever is at a place is at the place that it has then, up to the end of a string.
    #[test]
    fn nothing_is_lost() {
        let mut seed = 9_u64;
        let mut next = |below: u64| {
            seed ^= seed << 13;
            seed ^= seed >> 7;
            seed ^= seed << 17;
            seed % below
        };
        for _ in 0..500 {
            let align = 1 << next(4);
            let sections: Vec<Vec<u8>> = (0..3)
                .map(|_| (0..1 + next(40)).map(|_| [0, b'a', b'b', b'a'][next(4) as usize]).chain([0]).collect())
                .collect();
            let parts: Vec<&[u8]> = sections.iter().map(|bytes| &**bytes).collect();
            let found = merged(strings(align), &parts);
            for (part, bytes) in sections.iter().enumerate() {
                for offset in 0..bytes.len() {
                    let (now, place) = at(&found, part as u32, offset as u64);
                    let own = string_at(&found.parts()[now as usize].contents, place as usize, 1);
                    assert_eq!(own, string_at(bytes, offset, 1), "{sections:?} {part} {offset}");
                }
            }
        }
    }
}
