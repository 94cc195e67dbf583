//! The symbols of a layout: the global names that the link has mentioned so far.

use super::evaluation::Base;
use super::ids::{OutputId, SectionId, StatementId, SymbolId};
use super::interned_names::FastMap;
use crate::script::tree::Name;
use bstr::ByteSlice;

/// What a symbol is so far (bfdlink.h, `bfd_link_hash_type`).
#[derive(Clone, Copy, PartialEq, Eq, Debug)]
pub(crate) enum SymbolKind {
    New,
    Undefined,
    Defined,
    DefinedWeak,
    Common,
}

/// A symbol.
#[derive(Clone, Debug)]
pub(crate) struct SymbolState {
    pub name: Name,
    /// Whether something has named it so far: GNU ld's table has it.
    pub is_known: bool,
    pub kind: SymbolKind,
    pub value: u64,
    pub base: Base,
    /// The input section that it is in, of an object's symbol.
    pub section: Option<SectionId>,
    pub of_script: bool,
    /// Whether an object had it before the script.
    pub by_object: bool,
    /// Its value before sections have places, if the script assigns it.
    pub first_value: Option<u64>,
    /// The last pass that assigned it.
    pub pass: u32,
    /// The last assignment.
    pub statement: Option<StatementId>,
    pub is_in_objects: bool,
    pub is_hidden: bool,
    pub by_linker: bool,
    /// Whether the command or the script asks for it (`-u`, `-e`, EXTERN, ENTRY).
    pub is_asked_for: bool,
    /// Whether the symbol is in a section that is not linked.
    pub is_unlinked: bool,
    /// The output section that an address of the script becomes one of at the end.
    pub final_section: Option<OutputId>,
    /// The symbols that assignments name alone, the last one last.
    pub likes: Vec<SymbolId>,
}

impl SymbolState {
    /// Whether it has a value.
    pub fn is_defined(&self) -> bool {
        matches!(self.kind, SymbolKind::Defined | SymbolKind::DefinedWeak)
    }

    /// Whether PROVIDE gives it a value: it is named and nothing defines it.
    pub fn is_wanted(&self) -> bool {
        matches!(self.kind, SymbolKind::New | SymbolKind::Undefined)
    }
}

/// All symbols.
#[derive(Clone, Default, Debug)]
pub(crate) struct Symbols {
    all: Vec<SymbolState>,
    ids: FastMap<Name, SymbolId>,
    /// The symbols that something has named, in the order in which it did, each with the number of objects that were
    /// read before.
    named: Vec<(usize, SymbolId)>,
    /// How many objects are read.
    read: usize,
}

impl Symbols {
    /// The index of a name, which is entered if it is new, as one that nothing has named.
    pub fn enter(&mut self, name: &[u8]) -> SymbolId {
        if let Some(id) = self.find(name) {
            return id;
        }
        let id = SymbolId::new(self.all.len());
        self.ids.insert(name.into(), id);
        self.all.push(SymbolState {
            name: name.into(),
            is_known: false,
            kind: SymbolKind::New,
            value: 0,
            base: Base::Absolute,
            section: None,
            of_script: false,
            by_object: false,
            first_value: None,
            pass: u32::MAX,
            statement: None,
            is_in_objects: false,
            is_hidden: false,
            by_linker: false,
            is_asked_for: false,
            is_unlinked: false,
            final_section: None,
            likes: Vec::new(),
        });
        id
    }

    /// The index of a name.
    pub fn find(&self, name: &[u8]) -> Option<SymbolId> {
        self.ids.get(name.as_bstr()).copied()
    }

    /// The symbol of an index.
    pub fn get(&self, id: SymbolId) -> Option<&SymbolState> {
        self.all.get(id.index())
    }

    /// The symbol of an index, to be changed.
    pub fn get_mut(&mut self, id: SymbolId) -> Option<&mut SymbolState> {
        self.all.get_mut(id.index())
    }

    /// Makes a symbol one that something has named.
    pub fn know(&mut self, id: SymbolId) -> Option<&mut SymbolState> {
        let symbol = self.all.get_mut(id.index())?;
        if !symbol.is_known {
            symbol.is_known = true;
            self.named.push((self.read, id));
        }
        Some(symbol)
    }

    /// Notes how many objects are read now.
    pub fn objects_are_read(&mut self, count: usize) {
        self.read = self.read.max(count);
    }

    /// How many objects are read.
    pub fn read(&self) -> usize {
        self.read
    }

    /// The names that something has named, in the order in which it did, each with the number of objects read before.
    pub fn named(&self) -> impl Iterator<Item = (usize, &Name)> {
        self.named.iter().filter_map(|(read, id)| Some((*read, &self.get(*id)?.name)))
    }

    /// The values that those of the script have now are their first ones (ldlang.c, `lang_check_relocs` is next).
    pub fn keep_first_values(&mut self) {
        for symbol in self.all.iter_mut().filter(|symbol| symbol.of_script && symbol.kind == SymbolKind::Defined) {
            symbol.first_value = Some(symbol.value);
        }
    }

    /// The symbols, by their indices.
    pub fn iter(&self) -> impl Iterator<Item = &SymbolState> {
        self.all.iter()
    }
}
