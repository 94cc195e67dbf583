//! The state of each name at a point of the command line, as GNU ld keeps it: it decides which archive members are
//! taken.

use crate::fast_map::FastMap;
use crate::objects::{Binding, Home, NameFilter, Object, Symbol};
use bstr::{BStr, BString};

/// What is known of a name, or what an object has of it.
#[derive(Clone, Copy, PartialEq, Eq, PartialOrd, Ord, Hash, Debug)]
pub enum NameState {
    /// The name is undefined.
    Undefined,
    /// The name is undefined, by weak references alone.
    UndefinedWeak,
    /// The name is a common block.
    Common,
    /// The name has a weak definition.
    Weak,
    /// The name is defined.
    Defined,
}

impl NameState {
    /// The state that an object's symbol gives its name.
    pub fn of(symbol: &Symbol<'_>) -> NameState {
        match (symbol.home, symbol.binding) {
            (Home::Undefined, Binding::Weak) => NameState::UndefinedWeak,
            (Home::Undefined, _) => NameState::Undefined,
            (Home::Common, _) => NameState::Common,
            (_, Binding::Weak) => NameState::Weak,
            _ => NameState::Defined,
        }
    }

    /// The state of a name after a further object, which gives it the state `found`.
    pub(super) fn after(old: Option<NameState>, found: NameState) -> NameState {
        use NameState::{Common, Defined, Undefined, UndefinedWeak, Weak};
        match (found, old) {
            (_, None) | (Defined, _) | (Undefined, Some(UndefinedWeak)) => found,
            (Common, Some(old)) if old != Defined => found,
            (Weak, Some(Undefined | UndefinedWeak)) => found,
            (_, Some(old)) => old,
        }
    }
}

/// What is known of names: of those that are asked for alone, since a kernel's objects have 100,000 and its libraries
/// 1,000.
#[derive(Clone, Debug, Default)]
pub struct NameStates {
    known: FastMap<BString, Option<NameState>>,
    filter: NameFilter,
    taken: Vec<Object>,
}

impl NameStates {
    /// From now on it is known what is known of these names.
    pub fn ask<'a>(&mut self, names: impl IntoIterator<Item = &'a BString>) {
        let new: FastMap<BString, Option<NameState>> =
            names.into_iter().filter(|name| !self.known.contains_key(*name)).map(|name| (name.clone(), None)).collect();
        if new.is_empty() {
            return;
        }
        let mut found = NameStates { filter: NameFilter::of(new.keys()), known: new, taken: Vec::new() };
        self.taken.iter().for_each(|object| found.enter(object));
        self.known.extend(found.known);
        self.filter = NameFilter::of(self.known.keys());
    }

    /// The name is undefined, as by `-u`, before any object.
    pub fn want(&mut self, name: &BString) {
        self.ask([name]);
        self.known.entry(name.clone()).and_modify(|state| {
            *state = Some(NameState::after(*state, NameState::Undefined));
        });
    }

    /// The name is defined, as by `--defsym`, before any object.
    pub fn define(&mut self, name: &BString) {
        self.ask([name]);
        self.known.insert(name.clone(), Some(NameState::Defined));
    }

    /// Adds an object that is taken.
    pub fn add(&mut self, object: &Object) {
        self.enter(object);
        self.taken.push(object.clone());
    }

    /// Puts another object in the place of one that was taken, which has the same of the names that count.
    pub(super) fn replace(&mut self, place: usize, object: &Object) {
        if let Some(old) = self.taken.get_mut(place) {
            *old = object.clone();
        }
    }

    fn enter(&mut self, object: &Object) {
        for (_, index) in object.global_hashes().filter(|(hash, _)| self.filter.may_have(*hash)) {
            if let Some(symbol) = object.symbol(index) {
                if let Some(state) = self.known.get_mut(symbol.name) {
                    *state = Some(NameState::after(*state, NameState::of(&symbol)));
                }
            }
        }
    }

    /// The names that are known, with what is known of them.
    pub(super) fn states(&self) -> impl Iterator<Item = (&BString, NameState)> {
        self.known.iter().filter_map(|(name, state)| Some((name, (*state)?)))
    }

    /// The state of a name that was asked for.
    pub fn state(&self, name: &BStr) -> Option<NameState> {
        self.known.get(name).copied().flatten()
    }
}

#[cfg(test)]
mod tests {
    use super::NameState::{Common, Defined, Undefined, UndefinedWeak, Weak};
    use super::*;

    /// The row of what was known, for each kind of symbol: GNU ld's `link_action` (bfd/linker.c).
    #[test]
    fn what_is_known_changes_as_gnu_ld_says() {
        let old = [None, Some(Undefined), Some(UndefinedWeak), Some(Common), Some(Weak), Some(Defined)];
        let rows = [
            (Undefined, [Undefined, Undefined, Undefined, Common, Weak, Defined]),
            (UndefinedWeak, [UndefinedWeak, Undefined, UndefinedWeak, Common, Weak, Defined]),
            (Common, [Common, Common, Common, Common, Common, Defined]),
            (Weak, [Weak, Weak, Weak, Common, Weak, Defined]),
            (Defined, [Defined; 6]),
        ];
        for (found, after) in rows {
            assert_eq!(old.map(|old| NameState::after(old, found)), after, "{found:?}");
        }
    }
}
