//! GNU ld's list of undefined names: if an object adds one, the archives are searched again.

use super::name_states::{NameState, NameStates};
use crate::fast_map::FastMap;
use crate::objects::Object;
use bstr::BString;

/// What is known of every name, and how many names were added to the list: an undefined name, or a common block of a
/// name that was not known (bfd/linker.c, `bfd_link_add_undef`).
#[derive(Debug)]
pub(super) struct UndefinedNames {
    states: FastMap<BString, NameState>,
    /// By object: how many names were added up to it.
    counts: Vec<usize>,
}

impl UndefinedNames {
    /// Before the first object this is known.
    pub(super) fn new(first: &NameStates) -> UndefinedNames {
        let states = first.states().map(|(name, state)| (name.clone(), state)).collect();
        UndefinedNames { states, counts: Vec::new() }
    }

    /// Enters the objects that are new; gives whether those from a place on add a name.
    pub(super) fn add_objects(&mut self, objects: &[Object], begin: usize) -> bool {
        for object in objects.iter().skip(self.counts.len()) {
            let count = self.counts.last().copied().unwrap_or(0) + self.enter(object);
            self.counts.push(count);
        }
        let before = begin.checked_sub(1).and_then(|last| self.counts.get(last)).copied().unwrap_or(0);
        self.counts.last().map_or(false, |count| *count > before)
    }

    /// Takes an object; gives how many names it adds.
    fn enter(&mut self, object: &Object) -> usize {
        let mut added = 0;
        for symbol in object.globals() {
            let found = NameState::of(&symbol);
            match self.states.get_mut(symbol.name) {
                None => {
                    added += usize::from(matches!(found, NameState::Undefined | NameState::Common));
                    self.states.insert(symbol.name.to_owned(), found);
                }
                Some(state) => {
                    added += usize::from(*state == NameState::UndefinedWeak && found == NameState::Undefined);
                    *state = NameState::after(Some(*state), found);
                }
            }
        }
        added
    }
}
