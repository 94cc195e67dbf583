//! Repeats a link with other bytes of some objects.

use super::name_states::NameState;
use super::{Archive, Loaded};
use crate::command::Command;
use crate::objects::{with_wraps, Object};
use crate::snapshot::{Bytes, Snapshot};
use bstr::BStr;
use std::collections::HashMap;
use std::path::{Path, PathBuf};
use std::sync::Arc;

/// An object that takes the place of another.
struct Replaced {
    place: usize,
    /// The bytes of its file.
    data: Bytes,
    /// With all of its sections.
    whole: Object,
    /// The object as it is in this link.
    new: Object,
}

impl Loaded {
    /// An object with other bytes of its file.
    pub fn object_of(&self, old: &Object, data: Bytes) -> Object {
        Object::new(old.name().to_owned(), old.origin().clone(), with_wraps(data, &self.wraps))
    }

    /// The places of the objects that a file is, if it is no archive.
    pub fn places_of(&self, path: &Path) -> &[usize] {
        self.plain.get(path).map_or(&[], Vec::as_slice)
    }

    /// Puts an object in the place of one that has the same names and sections.
    pub fn put(&mut self, place: usize, new: Object) {
        if let Some(old) = self.objects.get_mut(place) {
            *old = new.clone();
        }
    }

    /// Takes other bytes of some files, which are read; says whether that is the same link but for them. Else nothing
    /// is taken, and it must be loaded anew: a file is not an object of its own, is none any more, or has another part
    /// in the choice of members of archives.
    pub fn take_changed(&mut self, command: &Command, snapshot: &mut Snapshot, changed: &[PathBuf]) -> bool {
        let found: Option<Vec<_>> = changed.iter().map(|path| self.objects_of(command, snapshot, path)).collect();
        let is_same = found.is_some();
        for Replaced { place, data, whole, new } in found.into_iter().flatten().flatten() {
            self.known.replace(data, whole);
            self.names.replace(place, &new);
            if let Some(old) = self.objects.get_mut(place) {
                *old = new.clone();
            }
        }
        is_same
    }

    /// Takes a thin archive that was written anew and lists the members that it listed, as `ar` does after one of them
    /// was made. Says whether the file is one; its members are files of their own.
    pub fn take_list(&mut self, path: &Path, data: &Bytes) -> bool {
        let is_read_once = self.files.iter().filter(|file| *file == path).count() == 1;
        let old = match self.archives.get_mut(path).filter(|old| is_read_once && old.is_thin()) {
            Some(old) => old,
            None => return false,
        };
        match Archive::parse(path, data.clone()) {
            Ok(new) if new.lists_the_same(old) => {
                *old = Arc::new(new);
                true
            }
            _ => false,
        }
    }

    /// The objects that a file is now; `None` if the link would be another.
    fn objects_of(&self, command: &Command, snapshot: &mut Snapshot, path: &Path) -> Option<Vec<Replaced>> {
        let places = self.plain.get(path)?;
        let data = snapshot.read(path).ok().filter(|data| !Archive::is_one(data))?;
        let objects = places.iter().map(|&place| {
            let old = self.objects.get(place)?;
            let whole = self.object_of(old, data.clone());
            let new = self.in_its_place(place, whole.clone())?;
            let is_alike = new.fault() == old.fault() && new.retained() == old.retained();
            let chooses = |name: &&BStr| self.is_choosing(command, name);
            let is_same = is_alike && !differing(old, &new).iter().any(chooses);
            is_same.then(|| Replaced { place, data: data.clone(), whole, new })
        });
        objects.collect()
    }

    /// Whether what objects have of a name decides about members of archives, or about a refusal.
    fn is_choosing(&self, command: &Command, name: &BStr) -> bool {
        let is_required = command.required.iter().any(|required| required == name);
        is_required || self.choosing.iter().flat_map(|symbols| symbols.iter()).any(|(other, _)| other == name)
    }
}

/// The names of which two objects have something else.
fn differing<'a>(one: &'a Object, other: &'a Object) -> Vec<&'a BStr> {
    let states = |object: &'a Object| -> HashMap<&'a BStr, NameState> {
        object.globals().map(|symbol| (symbol.name, NameState::of(&symbol))).collect()
    };
    let (old, new) = (states(one), states(other));
    let gone_or_other = old.iter().filter(|(name, state)| new.get(*name) != Some(state));
    let came = new.iter().filter(|(name, _)| !old.contains_key(*name));
    gone_or_other.chain(came).map(|(name, _)| *name).collect()
}
