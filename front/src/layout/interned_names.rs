//! Names, each kept once.

use super::ids::NameId;
pub use crate::fast_map::FastMap;
use bstr::{BStr, BString, ByteSlice};

/// Names of sections.
#[derive(Clone, Default, Debug)]
pub struct InternedNames {
    all: Vec<BString>,
    ids: FastMap<BString, NameId>,
}

impl InternedNames {
    /// The index of a name, which is entered if it is new.
    pub(crate) fn enter(&mut self, name: &[u8]) -> NameId {
        if let Some(id) = self.ids.get(name.as_bstr()) {
            return *id;
        }
        let id = NameId::new(self.all.len());
        self.all.push(name.into());
        self.ids.insert(name.into(), id);
        id
    }

    /// The index of a name that was entered.
    pub fn find(&self, name: &[u8]) -> Option<NameId> {
        self.ids.get(name.as_bstr()).copied()
    }

    /// The name of an index; empty for one that is none.
    pub fn get(&self, id: NameId) -> &BStr {
        self.all.get(id.index()).map_or_else(|| b"".as_bstr(), |name| name.as_bstr())
    }

    /// The names, by their indices.
    pub fn iter(&self) -> impl Iterator<Item = &BStr> {
        self.all.iter().map(|name| name.as_bstr())
    }

    /// How many names there are.
    pub fn len(&self) -> usize {
        self.all.len()
    }

    /// Whether there is no name.
    pub fn is_empty(&self) -> bool {
        self.all.is_empty()
    }
}

#[cfg(test)]
mod tests {
    use super::*;

    #[test]
    fn a_name_has_one_index() {
        let mut names = InternedNames::default();
        let (one, other) = (names.enter(b".text"), names.enter(b".data"));
        assert_ne!(one, other);
        assert_eq!(names.enter(b".text"), one);
        assert_eq!((names.find(b".data"), names.find(b".bss")), (Some(other), None));
        assert_eq!((names.get(one), names.len()), (b".text".as_bstr(), 2));
    }
}
