//! Local symbols, object by object (elflink.c, `elf_link_input_bfd`).

use bstr::{BString, ByteSlice};
use object::elf;

use super::labels::is_label;
use super::numbers::Numbers;
use super::places::InputPlaces;
use super::relocations::{relocated, Referred};
use super::table::{SymbolEntry, Writer};
use super::{SymbolOptions, Symbols};
use crate::command::Discard;
use crate::fast_map::FastMap;
use crate::objects::{Binding, Home, Object, Symbol, SymbolIndex, SymbolKind};
use crate::parallel::map_all;

/// What local symbols are written of.
pub(super) struct Locals<'a> {
    pub(super) symbols: &'a Symbols<'a>,
    pub(super) places: &'a InputPlaces,
    pub(super) options: &'a SymbolOptions,
    /// The symbols that relocations in the file refer to, if it has any.
    pub(super) referred: Option<&'a Referred>,
}

impl Locals<'_> {
    /// Writes the local symbols, and keeps their numbers; gives whether there is one of a source file.
    pub(super) fn write(&self, writer: &mut Writer, mut numbers: Option<&mut Numbers<'_>>) -> bool {
        let mut has_files = false;
        let mut append = |writer: &mut Writer, part: &OwnLocals<'_>| {
            has_files |= part.has_file;
            let first = writer.append(&part.writer);
            numbers.iter_mut().for_each(|numbers| numbers.set_locals(part.number, &part.numbers, first));
        };
        if self.options.is_unique {
            let mut counts = writer.take_counts();
            for number in self.places.order() {
                if let Some(mut part) = self.of_object(*number, counts.take()) {
                    append(writer, &part);
                    counts = part.writer.take_counts();
                }
            }
            return has_files;
        }
        let parts = map_all(self.places.order(), &|number| self.of_object(*number, None));
        parts.iter().flatten().for_each(|part| append(writer, part));
        has_files
    }

    /// The local symbols of an object; `counts` are those of the names that were written already.
    fn of_object(&self, number: usize, counts: Option<FastMap<BString, u64>>) -> Option<OwnLocals<'_>> {
        let object = self.symbols.objects.get(number)?;
        let count = object.first_global().0 as usize;
        let mut own = OwnLocals {
            number,
            object,
            places: self.places,
            options: self.options,
            writer: Writer::part(count, counts),
            numbers: vec![None; count],
            has_file: false,
        };
        if self.options.discard != Discard::All {
            own.write();
        }
        if let Some(referred) = self.referred {
            own.write_more(referred.in_object(number));
        }
        Some(own)
    }
}

/// The local symbols of an object.
struct OwnLocals<'a> {
    number: usize,
    object: &'a Object,
    places: &'a InputPlaces,
    options: &'a SymbolOptions,
    writer: Writer,
    /// By symbol its number among these.
    numbers: Vec<Option<u32>>,
    /// Whether there is one of a source file.
    has_file: bool,
}

impl OwnLocals<'_> {
    /// Writes those that are not left out.
    fn write(&mut self) {
        let object = self.object;
        let locals = object.symbols().take_while(|symbol| symbol.index < object.first_global());
        for symbol in locals.filter(|symbol| symbol.kind != SymbolKind::SECTION) {
            let entry = match entry_of(&symbol, self.number, self.places) {
                Some((entry, is_merged)) if !self.leaves_out(&symbol, is_merged) => entry,
                _ => continue,
            };
            if symbol.kind != SymbolKind::FILE && !self.has_file {
                self.writer.add_file(file_name(object));
            }
            self.has_file = true;
            self.add(&symbol, entry);
        }
    }

    /// Writes those that were left out and that relocations in the file refer to, in the order of these.
    fn write_more(&mut self, referred: &[bool]) {
        let object = self.object;
        let is_wanted = |(index, (number, is_referred)): (u32, (&Option<u32>, &bool))| {
            let symbol = || object.symbol(SymbolIndex(index)).filter(|symbol| symbol.kind != SymbolKind::SECTION);
            *is_referred && number.is_none() && symbol().is_some()
        };
        if !(0..).zip(self.numbers.iter().zip(referred)).any(is_wanted) {
            return;
        }
        for (_, relocation) in relocated(self.number, object, self.places) {
            let symbol = match object.symbol(relocation.symbol) {
                Some(symbol) if symbol.binding == Binding::Local && symbol.kind != SymbolKind::SECTION => symbol,
                _ => continue,
            };
            let is_there = self.numbers.get(symbol.index.0 as usize).map_or(true, Option::is_some);
            if let Some((entry, _)) = entry_of(&symbol, self.number, self.places).filter(|_| !is_there) {
                self.add(&symbol, entry);
            }
        }
    }

    fn leaves_out(&self, symbol: &Symbol<'_>, is_merged: bool) -> bool {
        let is_discarded = match self.options.discard {
            Discard::MergedLabels => is_merged && is_label(symbol.name),
            Discard::Labels => is_label(symbol.name),
            Discard::None | Discard::All => false,
        };
        is_discarded || self.options.strips(symbol.name)
    }

    fn add(&mut self, symbol: &Symbol<'_>, entry: SymbolEntry) {
        if let Some(number) = self.numbers.get_mut(symbol.index.0 as usize) {
            *number = Some(self.writer.count());
        }
        match symbol.kind {
            SymbolKind::FILE => self.writer.add_file(symbol.name),
            _ => self.writer.add_local(symbol.name, entry),
        }
    }
}

/// The entry of a local symbol, and whether it is in a section of merged constants; `None` if its section is not in
/// the image.
fn entry_of(symbol: &Symbol<'_>, object: usize, places: &InputPlaces) -> Option<(SymbolEntry, bool)> {
    let (section, value, is_merged) = match symbol.home {
        Home::Absolute => (elf::SHN_ABS, symbol.value, false),
        Home::Section(number) => {
            let (place, offset) = places.get_at(object, number, symbol.value)?;
            (place.output, place.address.wrapping_add(offset), place.is_merged)
        }
        Home::Undefined | Home::Common | Home::Reserved(_) => return None,
    };
    let (info, other) = (symbol.kind.0, symbol.visibility.number());
    Some((SymbolEntry { info, other, section, value, size: symbol.size }, is_merged))
}

/// The name that stands for a source file if an object does not say one: that of its own file.
fn file_name(object: &Object) -> &[u8] {
    let name = object.origin().name.as_bstr();
    name.rfind_byte(b'/').and_then(|at| name.get(at + 1..)).unwrap_or(name)
}
