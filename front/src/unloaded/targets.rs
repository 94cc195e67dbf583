//! The addresses that the symbols of relocations stand for.

use bstr::BStr;

use super::arrange::Arrangement;
use super::image_sections::ImageSections;
use super::kept_groups::KeptGroups;
use super::section_places::SectionPlaces;
use crate::finish::NameValues;
use crate::layout::evaluation::Fate;
use crate::layout::Evaluation;
use crate::objects::{
    Binding, Home, LinkNames, Object, ObjectIndex, SectionFlags, SectionIndex, SectionKind, Symbol, SymbolIndex,
    SymbolKind,
};

/// What a symbol with an addend stands for.
#[derive(Clone, Copy, PartialEq, Eq, Debug)]
pub(super) enum Target {
    /// An address.
    Address(u64),
    /// A section that is not in the output.
    Gone,
}

/// What is known of a link.
pub(super) struct Targets<'a> {
    pub(super) evaluation: &'a Evaluation,
    pub(super) objects: &'a [Object],
    pub(super) arrangement: &'a Arrangement<'a>,
    pub(super) places: SectionPlaces<'a>,
    /// The values of names in the image, by the objects' symbols, and of those that have none by them.
    pub(super) values: Option<&'a NameValues<'a>>,
    pub(super) image: &'a ImageSections<'a>,
    /// The definitions of the names that the image does not have.
    pub(super) names: LinkNames,
    pub(super) kept: KeptGroups<'a>,
}

impl Targets<'_> {
    /// The target of a symbol of an object, with an addend.
    pub(super) fn of(&self, object: ObjectIndex, number: SymbolIndex, addend: u64) -> Target {
        let own = self.objects.get(object.0 as usize);
        let nameless = match own.and_then(|own| own.nameless_symbol(number)) {
            Some(symbol) => symbol,
            None => return Target::Address(addend),
        };
        if nameless.binding == Binding::Local {
            return self.of_home(object, &nameless, addend);
        }
        if let Some(value) = self.values.and_then(|values| values.of_symbol(object, number)) {
            return Target::Address(value.wrapping_add(addend));
        }
        let symbol = own.and_then(|own| own.symbol(number)).unwrap_or(nameless);
        if let Some(value) = self.image.value(symbol.name) {
            return Target::Address(value.wrapping_add(addend));
        }
        match self.definition(symbol.name) {
            Some((object, symbol)) => self.of_home(object, &symbol, addend),
            None => Target::Address(addend),
        }
    }

    fn definition(&self, name: &BStr) -> Option<(ObjectIndex, Symbol<'_>)> {
        let definition = self.names.definition(name)?;
        let object = self.objects.get(definition.object.0 as usize)?;
        Some((definition.object, object.symbol(definition.symbol)?))
    }

    fn of_home(&self, object: ObjectIndex, symbol: &Symbol<'_>, addend: u64) -> Target {
        match symbol.home {
            Home::Section(section) => self.of_section(object, section, symbol, addend),
            Home::Absolute => Target::Address(symbol.value.wrapping_add(addend)),
            _ => Target::Address(addend),
        }
    }

    /// elflink.c, `_bfd_elf_rela_local_sym`: of the symbol of a section whose strings were merged the addend says which
    /// string it is.
    fn of_section(&self, object: ObjectIndex, number: SectionIndex, symbol: &Symbol<'_>, addend: u64) -> Target {
        let (object, number) = match self.kind(object, number) {
            Some(SectionKind::NULL) => match self.kept.in_place_of(object, number) {
                Some(kept) => kept,
                None => return Target::Gone,
            },
            _ => (object, number),
        };
        let (id, section) = match self.places.find(object, number) {
            Some(found) => found,
            None => return Target::Gone,
        };
        let may_be_merged = SectionFlags(section.bits).has(SectionFlags::MERGE);
        let merged = if may_be_merged { self.of_merged(object, number, symbol, addend) } else { None };
        if let Some(address) = merged {
            return Target::Address(address);
        }
        if let Some(spot) = self.arrangement.spot(id) {
            return Target::Address(match (spot.strings, symbol.kind) {
                (Some(strings), SymbolKind::SECTION) => {
                    self.arrangement.address_of_string(strings, symbol.value.wrapping_add(addend))
                }
                (Some(strings), _) => self.arrangement.address_of_string(strings, symbol.value).wrapping_add(addend),
                (None, _) => spot.address.wrapping_add(symbol.value).wrapping_add(addend),
            });
        }
        match section.fate {
            Fate::Output(_) => self.places.address(section).map_or(Target::Gone, |address| {
                Target::Address(address.wrapping_add(symbol.value).wrapping_add(addend))
            }),
            Fate::Open | Fate::Discarded => Target::Gone,
        }
    }

    /// The address of something in a section that the layout has merged.
    fn of_merged(&self, object: ObjectIndex, number: SectionIndex, symbol: &Symbol<'_>, addend: u64) -> Option<u64> {
        let is_section = symbol.kind == SymbolKind::SECTION;
        let offset = if is_section { symbol.value.wrapping_add(addend) } else { symbol.value };
        let (source, at) = self.evaluation.merged_place(object, number, offset)?;
        let (id, section) = self.places.find(source.object, source.section)?;
        let start = self.arrangement.spot(id).map(|spot| spot.address).or_else(|| self.places.address(section))?;
        let address = start.wrapping_add(at);
        Some(if is_section { address } else { address.wrapping_add(addend) })
    }

    fn kind(&self, object: ObjectIndex, number: SectionIndex) -> Option<SectionKind> {
        self.objects.get(object.0 as usize)?.section(number).map(|section| section.kind)
    }
}
