//! Groups of sections, and sections of one name, that a link takes only once: from the first object that has them.

use super::Loaded;
use crate::objects::{once_of, Home, Object, OnceKey, SectionIndex, Symbol};
use bstr::{BStr, BString};
use std::collections::{HashMap, HashSet};

/// What is linked once, and which objects have it.
#[derive(Clone, Debug, Default)]
pub(super) struct OnceLinked {
    /// By key: the place of the object that has it.
    first: HashMap<OnceKey, usize>,
    /// By the place of an object: the keys that it has, in its order.
    keys: HashMap<usize, Vec<OnceKey>>,
    /// The names that sections define which are left out: if no other defines them, no member of an archive is taken
    /// for them (bfd/elflink.c, `elf_link_add_archive_symbols`).
    dropped: HashSet<BString>,
}

impl OnceLinked {
    /// Takes an object at a place; gives it without the sections that an earlier object has (bfd/elflink.c,
    /// `_bfd_elf_section_already_linked`).
    pub(super) fn without_repeated(&mut self, place: usize, object: Object) -> Object {
        if !object.has_groups() {
            return object;
        }
        let mut dropped: Vec<SectionIndex> = Vec::new();
        let mut keys = Vec::new();
        for once in once_of(&object) {
            if self.first.contains_key(&once.key) {
                dropped.extend(&once.sections);
            } else {
                self.first.insert(once.key.clone(), place);
            }
            keys.push(once.key);
        }
        self.keys.insert(place, keys);
        if dropped.is_empty() {
            return object;
        }
        let is_dropped =
            |symbol: &Symbol<'_>| matches!(symbol.home, Home::Section(number) if dropped.contains(&number));
        self.dropped.extend(object.globals().filter(is_dropped).map(|symbol| symbol.name.to_owned()));
        object.without(&dropped)
    }

    /// Whether a section that is left out defines a name.
    pub(super) fn is_dropped(&self, name: &BStr) -> bool {
        self.dropped.contains(name)
    }

    /// The object with other bytes at its place, without what an earlier object has: `None` if it has other keys than
    /// before, so that other objects may change with it.
    fn take_again(&self, place: usize, object: Object) -> Option<Object> {
        let own = self.keys.get(&place).map_or(&[][..], Vec::as_slice);
        let found = once_of(&object);
        if !found.iter().map(|once| &once.key).eq(own) {
            return None;
        }
        let mut dropped: Vec<SectionIndex> = Vec::new();
        for (at, once) in found.iter().enumerate() {
            let is_repeated = found.iter().take(at).any(|earlier| earlier.key == once.key);
            if is_repeated || self.first.get(&once.key) != Some(&place) {
                dropped.extend(&once.sections);
            }
        }
        Some(if dropped.is_empty() { object } else { object.without(&dropped) })
    }

    /// Whether a section of one name and a group of that signature are both there: which of them GNU ld takes goes by
    /// the symbols in them.
    pub(super) fn mixed(&self) -> Option<&OnceKey> {
        self.first.keys().find(|key| match key {
            OnceKey::Group(_) => false,
            OnceKey::Section(name) => {
                signature_of(name).map_or(false, |signature| self.first.contains_key(&OnceKey::Group(signature.into())))
            }
        })
    }
}

/// The signature of the group that a section `.gnu.linkonce.T.SIGNATURE` stands for.
fn signature_of(name: &[u8]) -> Option<&[u8]> {
    let rest = name.strip_prefix(b".gnu.linkonce.")?;
    let dot = rest.iter().position(|byte| *byte == b'.')?;
    rest.get(dot + 1..)
}

impl Loaded {
    /// An object with other bytes as it is in the link at its place; `None` if other objects may change with it.
    pub fn in_its_place(&self, place: usize, object: Object) -> Option<Object> {
        self.once.take_again(place, object)
    }
}
