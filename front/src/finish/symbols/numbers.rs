//! The numbers that symbols have in the file, for its relocations.

use super::linked_names::LinkedNames;
use crate::objects::{Object, SymbolIndex};

/// The numbers of symbols; 0 of those that the file does not have.
pub(super) struct Numbers<'a> {
    /// By the number of a section header in the image.
    sections: Vec<u32>,
    /// By object: where its local symbols begin in `locals`.
    first: Vec<usize>,
    locals: Vec<u32>,
    /// By name.
    names: Vec<u32>,
    linked: &'a LinkedNames,
}

impl<'a> Numbers<'a> {
    /// A numbering in which no symbol has a number yet.
    pub(super) fn new(objects: &[Object], linked: &'a LinkedNames, sections: usize) -> Numbers<'a> {
        let mut first = Vec::with_capacity(objects.len());
        let mut count = 0;
        for object in objects {
            first.push(count);
            count += object.first_global().0 as usize;
        }
        let names = vec![0; linked.iter().count()];
        Numbers { sections: vec![0; sections], first, locals: vec![0; count], names, linked }
    }

    /// The number of the symbol of a section.
    pub(super) fn of_section(&self, section: u16) -> u32 {
        self.sections.get(usize::from(section)).copied().unwrap_or(0)
    }

    /// The number of a local symbol.
    pub(super) fn of_local(&self, object: usize, symbol: SymbolIndex) -> u32 {
        self.place(object, symbol).and_then(|at| self.locals.get(at)).copied().unwrap_or(0)
    }

    /// The number of a name.
    pub(super) fn of_name(&self, object: usize, symbol: SymbolIndex) -> u32 {
        let name = self.linked.name_of(object, symbol);
        name.and_then(|name| self.names.get(name)).copied().unwrap_or(0)
    }

    /// Keeps the number of the symbol of a section.
    pub(super) fn set_section(&mut self, section: usize, number: u32) {
        if let Some(own) = self.sections.get_mut(section) {
            *own = number;
        }
    }

    /// Keeps the numbers of an object's local symbols, which count from a number on; of those that the file does not
    /// have there is none.
    pub(super) fn set_locals(&mut self, object: usize, own: &[Option<u32>], from: u32) {
        let start = self.first.get(object).copied().unwrap_or(usize::MAX);
        for (number, own) in self.locals.iter_mut().skip(start).zip(own) {
            *number = own.map_or(0, |own| from + own);
        }
    }

    /// Keeps the number of a name.
    pub(super) fn set_name(&mut self, name: usize, number: u32) {
        if let Some(own) = self.names.get_mut(name) {
            *own = number;
        }
    }

    fn place(&self, object: usize, symbol: SymbolIndex) -> Option<usize> {
        self.first.get(object)?.checked_add(symbol.0 as usize)
    }
}
