//! Looks up in the objects the names that the layout knows so far.

use super::evaluation::Base;
use super::ids::{SectionId, SymbolId};
use super::link::Link;
use super::make_evaluation::first_made;
use super::rows::{is_identifier, Rows};
use super::symbols::SymbolKind;
use crate::objects::{Definition, Home, LinkNames, Object, Rank};
use bstr::ByteSlice;

const BOUNDS: [&[u8]; 2] = [b"__start_", b"__stop_"];

impl Link<'_> {
    /// Reads objects, the first ones of all: names that are known so far, and those of bounds, get what these say of
    /// them.
    pub fn read_objects(&mut self, objects: &[Object], rows: &Rows) {
        let bounds = self
            .program
            .names
            .iter()
            .filter(|name| is_identifier(name))
            .flat_map(|name| BOUNDS.iter().map(move |front| [*front, name.as_bytes()].concat()));
        let own = self.program.symbols.iter().map(|symbol| symbol.name.to_vec());
        let asked: Vec<Vec<u8>> = own.chain(bounds).collect();
        let found = LinkNames::look_up(objects, &asked);
        self.program.symbols.objects_are_read(objects.len());
        for name in &asked {
            let name = name.as_bstr();
            if found.definition(name).is_some() || found.is_referred(name) {
                let id = self.program.symbols.enter(name);
                self.take_found(id, found.definition(name), found.is_hidden(name), rows);
            }
        }
    }

    fn take_found(&mut self, id: SymbolId, found: Option<&Definition>, is_hidden: bool, rows: &Rows) {
        let symbol = match self.program.symbols.know(id) {
            None => return,
            Some(symbol) => symbol,
        };
        symbol.is_in_objects = true;
        symbol.is_hidden |= is_hidden;
        let rank = found.map(|found| found.rank);
        if symbol.of_script && rank != Some(Rank::Strong) {
            return;
        }
        symbol.of_script = false;
        symbol.base = Base::Absolute;
        symbol.section = None;
        symbol.value = 0;
        symbol.kind = match rank {
            None => SymbolKind::Undefined,
            Some(Rank::Weak) => SymbolKind::DefinedWeak,
            Some(Rank::Common) => SymbolKind::Common,
            Some(Rank::Strong) => SymbolKind::Defined,
        };
        match found.map(|found| (found.home, found)) {
            Some((Home::Section(number), found)) => {
                symbol.value = found.value;
                symbol.section = rows.find(found.object, number);
                symbol.is_unlinked = symbol.section.is_none();
            }
            Some((Home::Absolute | Home::Reserved(_), found)) => symbol.value = found.value,
            Some((Home::Common | Home::Undefined, _)) | None => {}
        }
    }

    // --- __start_NAME and __stop_NAME ---

    /// Gives bounds of sections that objects or script ask for a first value (ldlang.c, `lang_init_start_stop`).
    pub fn start_bounds(&mut self) {
        let asked: Vec<(SymbolId, Vec<u8>, bool)> = self
            .program
            .symbols
            .iter()
            .enumerate()
            .filter(|(_, symbol)| symbol.is_known && symbol.kind == SymbolKind::Undefined)
            .filter_map(|(number, symbol)| {
                let is_end = symbol.name.starts_with(b"__stop_");
                let section = symbol.name.strip_prefix(if is_end { BOUNDS[1] } else { BOUNDS[0] })?;
                is_identifier(section).then(|| (SymbolId::new(number), section.to_vec(), is_end))
            })
            .collect();
        for (id, section, is_end) in asked {
            let name = match self.program.names.find(&section) {
                None => continue,
                Some(name) => name,
            };
            let first = self.sections.iter().position(|section| section.name == name);
            if let (Some(first), Some(symbol)) = (first, self.symbol_mut(id)) {
                symbol.kind = SymbolKind::Defined;
                symbol.value = 0;
                symbol.section = Some(SectionId::new(first));
                symbol.by_linker = true;
                self.bounds.push((id, name, is_end));
            }
        }
    }

    /// Takes back the bounds of sections that are in no output section of their name (ldlang.c,
    /// `lang_undef_start_stop`).
    pub fn undo_bounds(&mut self) {
        for (id, name, _) in self.bounds.clone() {
            let section = match self.symbol(id) {
                Some(symbol) if !symbol.of_script => symbol.section,
                _ => continue,
            };
            let output = section.and_then(|section| self.section(section)?.output());
            if output.and_then(|output| self.output(output)).map_or(false, |output| output.name == name) {
                continue;
            }
            let first = first_made(self, self.program.names.get(name));
            let other = first.and_then(|output| self.place(output)).and_then(|place| {
                let is_own = |id: &SectionId| self.section(*id).map_or(false, |section| section.name == name);
                place.inputs.iter().copied().find(is_own)
            });
            if let Some(symbol) = self.symbol_mut(id) {
                symbol.section = other;
                if other.is_none() {
                    symbol.kind = SymbolKind::Undefined;
                    symbol.by_linker = false;
                }
            }
        }
    }

    /// Gives bounds their values (ldlang.c, `lang_finalize_start_stop`).
    pub fn end_bounds(&mut self) {
        for (id, _, is_end) in self.bounds.clone() {
            let section = match self.symbol(id) {
                Some(symbol) if !symbol.of_script && symbol.kind == SymbolKind::Defined => symbol.section,
                _ => continue,
            };
            let output = match section.and_then(|section| self.section(section)?.output()) {
                None => continue,
                Some(output) => output,
            };
            let size = self.place(output).map_or(0, |place| place.size);
            if let Some(symbol) = self.symbol_mut(id) {
                symbol.section = None;
                symbol.base = Base::Output(output);
                symbol.value = if is_end { size } else { 0 };
            }
        }
    }
}
