//! The definitions and references of names in the objects of a link.

use super::{Home, NameFilter, Object, ObjectIndex, Rank, SymbolIndex};
use crate::fast_map::FastMap;
use bstr::{BStr, BString, ByteSlice};

/// The definition of a name: the first of the best ones (a strong one, a common block, a weak one).
#[derive(Clone, Copy, PartialEq, Eq, Debug)]
pub struct Definition {
    /// The object that has it.
    pub object: ObjectIndex,
    /// Its symbol there.
    pub symbol: SymbolIndex,
    /// Where it is.
    pub home: Home,
    /// Its value: in its section, a number, or the alignment of a common block.
    pub value: u64,
    /// Its size; of common blocks of one name that of the greatest one.
    pub size: u64,
    /// How good it is.
    pub rank: Rank,
}

/// What is known of a name.
#[derive(Clone, Copy, Debug, Default)]
struct Known {
    definition: Option<Definition>,
    is_undefined: bool,
    is_hidden: bool,
}

/// What the objects of a link have of some names: of those that are asked for, since a kernel's objects have 100,000
/// and its scripts name 1,000.
#[derive(Clone, Debug, Default)]
pub struct LinkNames {
    known: FastMap<BString, Known>,
}

impl LinkNames {
    /// Looks names up in all objects at once.
    pub fn look_up<N: AsRef<[u8]>>(objects: &[Object], names: impl IntoIterator<Item = N>) -> LinkNames {
        let mut found = LinkNames::default();
        found.ask(objects, names);
        found
    }

    /// Looks up further names.
    pub fn ask<N: AsRef<[u8]>>(&mut self, objects: &[Object], names: impl IntoIterator<Item = N>) {
        let new: FastMap<BString, Known> = names
            .into_iter()
            .filter(|name| !self.known.contains_key(name.as_ref().as_bstr()))
            .map(|name| (BString::from(name.as_ref()), Known::default()))
            .collect();
        if new.is_empty() {
            return;
        }
        let filter = NameFilter::of(new.keys());
        self.known.extend(new);
        for (number, object) in objects.iter().enumerate() {
            for (_, symbol) in object.global_hashes().filter(|(hash, _)| filter.may_have(*hash)) {
                self.enter(ObjectIndex(number as u32), object, symbol);
            }
        }
    }

    /// The definition of a name that was asked for.
    pub fn definition(&self, name: &BStr) -> Option<&Definition> {
        self.known.get(name)?.definition.as_ref()
    }

    /// Whether an object has the name, which was asked for, undefined.
    pub fn is_referred(&self, name: &BStr) -> bool {
        self.known.get(name).map_or(false, |known| known.is_undefined)
    }

    /// Whether an object says that the name, which was asked for, is not exported.
    pub fn is_hidden(&self, name: &BStr) -> bool {
        self.known.get(name).map_or(false, |known| known.is_hidden)
    }

    fn enter(&mut self, number: ObjectIndex, object: &Object, index: SymbolIndex) -> Option<()> {
        let symbol = object.symbol(index)?;
        let known = self.known.get_mut(symbol.name)?;
        known.is_hidden |= symbol.visibility.is_hidden();
        known.is_undefined |= symbol.is_undefined();
        let rank = symbol.rank()?;
        let better = |old: &Definition| {
            rank > old.rank || rank == Rank::Common && old.rank == Rank::Common && symbol.size > old.size
        };
        if known.definition.as_ref().map_or(true, better) {
            let (home, value, size) = (symbol.home, symbol.value, symbol.size);
            known.definition = Some(Definition { object: number, symbol: index, home, value, size, rank });
        }
        Some(())
    }
}
