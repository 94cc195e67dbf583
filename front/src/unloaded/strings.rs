//! Merges strings of sections with SHF_MERGE and SHF_STRINGS: each is stored once, and not at all if another one ends
//! with it (bfd/merge.c of GNU ld 2.40: `record_section`, `merge_strings`, `_bfd_merged_section_offset`).

use std::sync::Arc;

use crate::fast_map::FastMap;
use crate::snapshot::Bytes;

/// A string.
#[derive(Clone, Copy, Debug)]
struct Entry<'a> {
    /// Without its zero byte.
    text: &'a [u8],
    /// The section that has it first, and where it is among what stays of that one.
    section: usize,
    at: u64,
    /// The string that ends with it.
    whole: Option<usize>,
}

/// Sections whose strings are merged.
#[derive(Debug)]
pub(super) struct Strings {
    /// What stays of each section.
    pub(super) kept: Vec<Vec<u8>>,
    /// By section: where strings begin in it, and where each is now, as a section and a place there.
    starts: Vec<Vec<(usize, usize, u64)>>,
    sizes: Vec<usize>,
    /// By section: whether no string is first in it, so that it is left out.
    left_out: Vec<bool>,
}

impl Strings {
    /// Merges the strings of some sections.
    pub(super) fn of(sections: &[&[u8]]) -> Strings {
        let mut table = Table::default();
        let starts: Vec<Vec<(usize, usize)>> =
            sections.iter().enumerate().map(|(number, bytes)| table.record(number, bytes)).collect();
        let mut left_out = vec![true; sections.len()];
        for entry in &table.entries {
            if let Some(is_out) = left_out.get_mut(entry.section) {
                *is_out = false;
            }
        }
        table.join();
        let kept = table.place(sections.len());
        let of_start = |(start, entry): &(usize, usize)| {
            let (section, at) = table.entries.get(*entry).map_or((0, 0), |entry| (entry.section, entry.at));
            (*start, section, at)
        };
        Strings {
            kept,
            starts: starts.iter().map(|own| own.iter().map(of_start).collect()).collect(),
            sizes: sections.iter().map(|bytes| bytes.len()).collect(),
            left_out,
        }
    }

    /// Whether a section is left out, as all of its strings are in those before it.
    pub(super) fn is_left_out(&self, section: usize) -> bool {
        self.left_out.get(section).copied().unwrap_or(false)
    }

    /// Where an offset of a section is now: the section that has it, and the place among what stays of that one.
    pub(super) fn place_of(&self, section: usize, offset: u64) -> (usize, u64) {
        let size = self.sizes.get(section).copied().unwrap_or(0);
        let offset = usize::try_from(offset).unwrap_or(usize::MAX);
        if offset >= size {
            return (section, self.kept.get(section).map_or(0, |kept| kept.len() as u64));
        }
        let starts = self.starts.get(section).map_or(&[][..], Vec::as_slice);
        let after = starts.partition_point(|(start, ..)| *start <= offset);
        match after.checked_sub(1).and_then(|at| starts.get(at)) {
            Some((start, section, at)) => (*section, at + (offset - start) as u64),
            None => (section, 0),
        }
    }
}

/// Strings that were merged, for the next link: they stay if all sections have the bytes that they had.
#[derive(Clone, Debug, Default)]
pub struct KeptStrings(Vec<(Vec<Bytes>, Arc<Strings>)>);

impl KeptStrings {
    /// The strings of some sections, the ones of this number that a link merges together.
    pub(super) fn merged(&mut self, number: usize, sections: Vec<Bytes>) -> Arc<Strings> {
        if let Some((_, strings)) = self.0.get(number).filter(|(own, _)| *own == sections) {
            return Arc::clone(strings);
        }
        let strings = Arc::new(Strings::of(&sections.iter().map(|bytes| &**bytes).collect::<Vec<_>>()));
        let made = (sections, Arc::clone(&strings));
        match self.0.get_mut(number) {
            Some(old) => *old = made,
            None => self.0.push(made),
        }
        strings
    }
}

#[derive(Default)]
struct Table<'a> {
    entries: Vec<Entry<'a>>,
    known: FastMap<&'a [u8], usize>,
}

impl<'a> Table<'a> {
    /// Takes the strings of a section; gives where they begin. Of zero bytes between strings each is the empty one.
    fn record(&mut self, section: usize, bytes: &'a [u8]) -> Vec<(usize, usize)> {
        let mut starts = Vec::new();
        let mut at = 0;
        while let Some(rest) = bytes.get(at..).filter(|rest| !rest.is_empty()) {
            let length = memchr::memchr(0, rest).unwrap_or(rest.len());
            starts.push((at, self.enter(section, rest.get(..length).unwrap_or_default())));
            at += length + 1;
            while bytes.get(at) == Some(&0) {
                starts.push((at, self.enter(section, b"")));
                at += 1;
            }
        }
        starts
    }

    fn enter(&mut self, section: usize, text: &'a [u8]) -> usize {
        let entries = &mut self.entries;
        *self.known.entry(text).or_insert_with(|| {
            entries.push(Entry { text, section, at: 0, whole: None });
            entries.len() - 1
        })
    }

    /// Finds the strings that others end with: in the order of their bytes from the end on, these are behind them.
    fn join(&mut self) {
        let mut order: Vec<usize> = (0..self.entries.len()).collect();
        let text = |number: usize| self.entries.get(number).map_or(&b""[..], |entry| entry.text);
        order.sort_unstable_by(|one, other| text(*one).iter().rev().cmp(text(*other).iter().rev()));
        let mut wholes = Vec::new();
        let mut whole = order.pop();
        while let (Some(longer), Some(number)) = (whole, order.pop()) {
            if text(longer).ends_with(text(number)) {
                wholes.push((number, longer));
            } else {
                whole = Some(number);
            }
        }
        for (number, longer) in wholes {
            if let Some(entry) = self.entries.get_mut(number) {
                entry.whole = Some(longer);
            }
        }
    }

    /// Gives strings their places, in the order in which they came; gives what stays of each section.
    fn place(&mut self, count: usize) -> Vec<Vec<u8>> {
        let mut kept = vec![Vec::new(); count];
        for entry in self.entries.iter_mut().filter(|entry| entry.whole.is_none()) {
            if let Some(kept) = kept.get_mut(entry.section) {
                entry.at = kept.len() as u64;
                kept.extend_from_slice(entry.text);
                kept.push(0);
            }
        }
        for number in 0..self.entries.len() {
            let entry = self.entries.get(number).copied();
            let whole = entry.and_then(|entry| self.entries.get(entry.whole?).copied());
            if let (Some(entry), Some(whole)) = (self.entries.get_mut(number), whole) {
                entry.section = whole.section;
                entry.at = whole.at + (whole.text.len() - entry.text.len()) as u64;
            }
        }
        kept
    }
}

#[cfg(test)]
mod tests {
    use super::*;

    /// merge.c, `merge_strings`: what stays, in the order of first places; suffixes are in longer ones.
    #[test]
    fn strings_are_once_and_suffixes_are_in_others() {
        let strings = Strings::of(&[b"bc\0x\0", b"abc\0x\0y", b"\0\0c\0"]);
        let kept: Vec<&[u8]> = strings.kept.iter().map(Vec::as_slice).collect();
        assert_eq!(kept, [&b"x\0"[..], b"abc\0y\0", b""]);
        let places = |section, offsets: &[u64]| {
            offsets.iter().map(|offset| strings.place_of(section, *offset)).collect::<Vec<_>>()
        };
        assert_eq!(places(0, &[0, 1, 3, 5]), [(1, 1), (1, 2), (0, 0), (0, 2)]);
        assert_eq!(places(1, &[0, 2, 4, 6]), [(1, 0), (1, 2), (0, 0), (1, 4)]);
        let (section, at) = strings.place_of(2, 1);
        assert_eq!(strings.kept[section][at as usize], 0, "the empty string");
        assert_eq!(places(2, &[2, 4]), [(1, 2), (2, 0)]);
    }

    #[test]
    fn strings_stay_if_no_section_has_other_bytes() {
        let sections = |texts: &[&str]| texts.iter().map(|text| Bytes::from(text.as_bytes().to_vec())).collect();
        let mut kept = KeptStrings::default();
        let first = kept.merged(0, sections(&["a\0", "b\0"]));
        let beside = kept.merged(1, sections(&["c\0"]));
        assert!(Arc::ptr_eq(&first, &kept.merged(0, sections(&["a\0", "b\0"]))));
        assert!(Arc::ptr_eq(&beside, &kept.merged(1, sections(&["c\0"]))));
        let other = kept.merged(0, sections(&["a\0", "a\0"]));
        assert_eq!(other.kept, [b"a\0".to_vec(), Vec::new()]);
        assert_eq!(kept.merged(1, sections(&["d\0"])).kept, [b"d\0"]);
    }

    #[test]
    fn nothing_to_merge() {
        assert!(Strings::of(&[]).kept.is_empty());
        assert_eq!(Strings::of(&[b""]).place_of(0, 0), (0, 0));
        assert_eq!(Strings::of(&[b"a\0"]).place_of(7, 3), (7, 0));
    }
}
