//! The symbol table that GNU ld writes: local symbols object by object, then names in the order of its table
//! (bfd/elflink.c, `bfd_elf_final_link`, `elf_link_input_bfd`, `elf_link_output_extsym`).
//!
//! The values of names are those of the image of `ldi`; a local symbol is at the place of its input section there.

mod globals;
mod labels;
mod linked_names;
mod locals;
mod numbers;
mod outputs;
mod places;
mod relocations;
mod sections;
mod table;

use std::collections::HashSet;

use bstr::{BString, ByteSlice};

use super::image_headers::{Image, NotAnImage, Section};
use super::unloaded::Unloaded;
use crate::command::Discard;
use crate::layout::Evaluation;
use crate::objects::{Object, Visibility};
use crate::report::link_map::LinkMap;
use crate::unloaded::Spans;
pub use globals::NameValues;
use globals::Names;
pub use linked_names::LinkedNames;
use locals::Locals;
use numbers::Numbers;
pub(super) use outputs::EmptySection;
use outputs::Outputs;
use places::InputPlaces;
use relocations::Referred;
pub(super) use relocations::RelocationTable;
pub(super) use table::SymbolTable;
use table::Writer;

/// Which symbols the file has.
#[derive(Clone, PartialEq, Eq, Debug)]
pub struct SymbolOptions {
    /// Which symbols are left out.
    pub strip: Strip,
    /// Which local symbols are left out (bfdlink.h, `bfd_link_discard`).
    pub discard: Discard,
    /// `-z unique-symbol`: a local name has a number at its end.
    pub is_unique: bool,
    /// The visibility of `__start_NAME` and `__stop_NAME` (`-z start-stop-visibility`).
    pub of_bounds: Visibility,
    /// `--emit-relocs`: the file has the relocations of its sections.
    pub emits_relocations: bool,
}

impl Default for SymbolOptions {
    fn default() -> SymbolOptions {
        SymbolOptions {
            strip: Strip::None,
            discard: Discard::MergedLabels,
            is_unique: false,
            of_bounds: Visibility::Protected,
            emits_relocations: false,
        }
    }
}

/// Which symbols are left out (bfdlink.h, `bfd_link_strip`).
#[derive(Clone, PartialEq, Eq, Debug)]
pub enum Strip {
    /// None.
    None,
    /// `-s`: all, and the file has no symbol table.
    All,
    /// `--retain-symbols-file`: all but these.
    AllExcept(HashSet<BString>),
}

/// Why there is no table.
#[derive(Clone, Copy, PartialEq, Eq, Debug, thiserror::Error)]
pub enum NoTable {
    /// What is there is no image of `ldi`.
    #[error(transparent)]
    NotAnImage(#[from] NotAnImage),
    /// The relocations of some input sections cannot be written.
    #[error("--emit-relocs: the places of some input sections are not known")]
    InputPlaces,
    /// The relocations of all input sections cannot be written.
    #[error("--emit-relocs: the layout of the script is not known")]
    Layout,
}

/// What a symbol table is made of.
#[derive(Clone, Copy, Debug)]
pub struct Symbols<'a> {
    /// The objects.
    pub objects: &'a [Object],
    /// The layout.
    pub evaluation: &'a Evaluation,
    /// The names of the objects and of the script.
    pub names: &'a LinkedNames,
    /// The map of the image, if this is not laid out as the evaluation has it.
    pub map: Option<&'a LinkMap>,
    /// Where what is not loaded is, with debug information.
    pub spans: Option<&'a Spans>,
}

/// How an image is laid out.
#[derive(Clone, Copy, Debug)]
pub enum LaidOut<'a> {
    /// The image is laid out as the evaluation has it.
    AsEvaluated,
    /// The image is laid out as its map has it.
    ByMap(&'a LinkMap),
    /// It is not known how the image is laid out.
    Unknown,
}

impl<'a> LaidOut<'a> {
    /// By whether the image agrees with the evaluation, and its map.
    pub fn of(agrees: bool, map: Option<&'a LinkMap>) -> LaidOut<'a> {
        match map {
            _ if agrees => LaidOut::AsEvaluated,
            Some(map) => LaidOut::ByMap(map),
            None => LaidOut::Unknown,
        }
    }
}

impl SymbolOptions {
    /// Whether the file has a symbol table.
    pub(super) fn has_table(&self) -> bool {
        self.strip != Strip::All
    }

    /// Whether a name is left out.
    fn strips(&self, name: &[u8]) -> bool {
        match &self.strip {
            Strip::None => false,
            Strip::All => true,
            Strip::AllExcept(kept) => !kept.contains(name.as_bstr()),
        }
    }
}

/// The symbol table of a link, and the sections that go with it.
#[derive(Clone, Debug)]
pub struct Tables {
    /// The symbol table.
    pub(super) symbols: SymbolTable,
    /// The sections that go with it.
    pub(super) sections: OtherSections,
}

/// How the sections of a file differ from those of the image of `ldi`, but for what is not loaded.
#[derive(Clone, Debug, Default)]
pub struct OtherSections {
    /// The relocations, sections of their own.
    pub(super) relocations: Vec<RelocationTable>,
    /// The sections without bytes that GNU ld's file has and the image has not.
    pub(super) missing: Vec<EmptySection>,
    /// The numbers, ascending, of the sections without bytes that the image has and GNU ld's file has not.
    pub(super) dropped: Vec<usize>,
    /// The numbers of the sections without bytes of both whose headers are others in GNU ld's file, with those headers.
    pub(super) empty: Vec<(u16, Section)>,
    /// By place: the number of the section that stands there in GNU ld's file; that of the place, past its end.
    pub(super) order: Vec<usize>,
    /// Numbers of sections, with those of the sections that their headers refer to.
    pub(super) links: Vec<(u16, u16)>,
}

impl OtherSections {
    /// Whether the sections are those of the image.
    pub(super) fn is_empty(&self) -> bool {
        self.has_their_numbers() && self.empty.is_empty() && self.links.is_empty()
    }

    /// Whether the sections have the numbers that they have in the image.
    pub(super) fn has_their_numbers(&self) -> bool {
        self.relocations.is_empty() && self.missing.is_empty() && self.dropped.is_empty() && self.order.is_empty()
    }
}

/// The symbol table for an image, and relocations if these are asked for.
pub(super) fn table_of(
    image: &Image<'_>,
    symbols: &Symbols<'_>,
    options: &SymbolOptions,
    renamed: &[(BString, BString)],
    unloaded: &[Unloaded],
) -> Result<Tables, NoTable> {
    let outputs = Outputs::of(image, symbols, renamed, unloaded)?;
    let places = InputPlaces::of(symbols, &outputs);
    let own = globals::ImageNames::read(image, symbols.names)?;
    let mut writer = Writer::with_room(places.count(symbols.objects) + own.len(), options.is_unique);
    let mut numbers = None;
    if options.emits_relocations {
        if !places.is_whole() {
            return Err(NoTable::InputPlaces);
        }
        let numbers = numbers.insert(Numbers::new(symbols.objects, symbols.names, outputs.count()));
        sections::write(&mut writer, symbols.evaluation, &outputs, numbers);
    }
    let referred = numbers.as_ref().map(|_| Referred::of(symbols, &places));
    let used = referred.as_ref().map(|referred| referred.names(symbols));
    let locals = Locals { symbols, places: &places, options, referred: referred.as_ref() };
    let has_files = locals.write(&mut writer, numbers.as_mut());
    let names = Names::of(symbols, (&outputs, &places), &own, options);
    globals::write(&mut writer, &names, used.as_deref(), has_files, numbers.as_mut());
    let relocations = numbers.map_or_else(Vec::new, |numbers| relocations::tables(symbols, &places, &numbers));
    let table = writer.finish();
    let mut sections = outputs.into_sections(relocations);
    if !sections.dropped.is_empty() {
        let homes = table.homes();
        sections.dropped.retain(|number| homes.get(*number) == Some(&false));
    }
    Ok(Tables { symbols: table, sections })
}

/// The sections of the file of an image, if it has no symbol table.
pub(super) fn sections_of(
    image: &Image<'_>,
    symbols: &Symbols<'_>,
    renamed: &[(BString, BString)],
    unloaded: &[Unloaded],
) -> Result<OtherSections, NotAnImage> {
    Ok(Outputs::of(image, symbols, renamed, unloaded)?.into_sections(Vec::new()))
}
