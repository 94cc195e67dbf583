//! Which symbols stand for something that is not in the image (elflink.c, `bfd_elf_reloc_symbol_deleted_p`).

use crate::layout::evaluation::{Fate, InputSection};
use crate::layout::link::Link;
use crate::objects::{Binding, Home, LinkNames, Object, ObjectIndex, SectionIndex, SymbolIndex};

/// What relocations of some sections refer to.
pub(in crate::layout) struct DeletedSymbols<'a> {
    link: &'a Link<'a>,
    objects: &'a [Object],
    /// The definitions of the names among them.
    names: LinkNames,
}

impl<'a> DeletedSymbols<'a> {
    /// For the relocations of these sections.
    pub(in crate::layout) fn of(
        link: &'a Link<'a>,
        objects: &'a [Object],
        sections: impl Iterator<Item = (ObjectIndex, SectionIndex)>,
    ) -> DeletedSymbols<'a> {
        let mut found = Vec::new();
        for (object, section) in sections.filter_map(|(index, section)| Some((objects.get(index.0 as usize)?, section)))
        {
            let symbols = object.relocations(section).filter_map(|one| object.symbol(one.symbol));
            found
                .extend(symbols.filter(|symbol| symbol.binding != Binding::Local).map(|symbol| symbol.name.to_owned()));
        }
        found.sort_unstable();
        found.dedup();
        DeletedSymbols { link, objects, names: LinkNames::look_up(objects, found) }
    }

    /// Whether a symbol of an object stands for nothing in the image.
    pub(in crate::layout) fn has(&self, index: ObjectIndex, symbol: SymbolIndex) -> bool {
        if symbol.0 == 0 {
            return true;
        }
        let found = self.objects.get(index.0 as usize).and_then(|object| object.symbol(symbol));
        match found {
            Some(symbol) if symbol.binding == Binding::Local => match symbol.home {
                Home::Section(number) => self.is_left_out(index, number),
                _ => false,
            },
            Some(symbol) => match self.names.definition(symbol.name).map(|known| (known.object, known.home)) {
                Some((owner, Home::Section(number))) => owner != index || self.is_left_out(index, number),
                Some((_, Home::Absolute)) => true,
                _ => false,
            },
            None => false,
        }
    }

    /// Whether a symbol of an object is defined elsewhere, by a section of another or as a number.
    pub(in crate::layout) fn is_elsewhere(&self, index: ObjectIndex, symbol: SymbolIndex) -> bool {
        let found = self.objects.get(index.0 as usize).and_then(|object| object.symbol(symbol));
        let name = found.filter(|symbol| symbol.binding != Binding::Local).map(|symbol| symbol.name);
        match name.and_then(|name| self.names.definition(name)).map(|known| (known.object, known.home)) {
            Some((owner, Home::Section(_))) => owner != index,
            Some((_, Home::Absolute)) => true,
            _ => false,
        }
    }

    fn is_left_out(&self, index: ObjectIndex, number: SectionIndex) -> bool {
        let own = self.link.sections.get(self.link.first_of(index)..).unwrap_or_default();
        let is_before = |one: &InputSection| one.object == index && one.number().map_or(false, |own| own < number);
        let at = own.partition_point(is_before);
        let found = own.get(at).filter(|one| one.object == index && one.number() == Some(number));
        found.map_or(true, |one| !matches!(one.fate, Fate::Output(_)))
    }
}

impl Link<'_> {
    /// The first section of an object.
    pub(in crate::layout) fn first_of(&self, object: ObjectIndex) -> usize {
        self.sections.partition_point(|one| one.object < object)
    }
}
