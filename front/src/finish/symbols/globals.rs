//! Names that are not local in objects, in GNU ld's order, with the values of the image (elflink.c,
//! `elf_link_output_extsym`).

use std::sync::Arc;

use bstr::ByteSlice;
use object::elf::{self, Sym64};
use object::LittleEndian as LE;

use super::super::image_headers::{Image, NotAnImage};
use super::linked_names::{LinkedName, LinkedNames};
use super::numbers::Numbers;
use super::outputs::Outputs;
use super::places::InputPlaces;
use super::table::{SymbolEntry, Writer};
use super::{SymbolOptions, Symbols};
use crate::fast_map::FastMap;
use crate::layout::evaluation::{Base, Definer, Evaluation, Symbol};
use crate::layout::ids::SymbolId;
use crate::objects::{Home, ObjectIndex, SymbolIndex, EH_FRAME_HDR_START, GLOBAL_OFFSET_TABLE};
use crate::parallel::map_all;

/// How many assignments are followed from one symbol to the next.
const DEEPEST: u32 = 16;

/// The names of an image.
pub(super) struct ImageNames<'a> {
    entries: &'a [Sym64<LE>],
    names: &'a [u8],
    /// By linked name: the number of its entry.
    numbers: Arc<[u32]>,
}

impl<'a> ImageNames<'a> {
    /// Reads the symbol table of an image, and finds the linked names in it.
    pub(super) fn read(image: &Image<'a>, linked: &LinkedNames) -> Result<ImageNames<'a>, NotAnImage> {
        let table = image.sections.iter().find(|section| section.kind == elf::SHT_SYMTAB);
        let (bytes, names) = match table {
            Some(table) => {
                let names = image.sections.get(table.link as usize).map(|names| image.content(names)).transpose()?;
                (image.content(table)?, names.unwrap_or_default())
            }
            None => (&[][..], &[][..]),
        };
        let count = bytes.len() / std::mem::size_of::<Sym64<LE>>();
        let entries = object::slice_from_bytes(bytes, count).map_or(&[][..], |(entries, _)| entries);
        let mut own = ImageNames { entries, names, numbers: Vec::new().into() };
        // The names stand in the order of the entries, so that these are the same if the names are.
        own.numbers = linked.numbers_in(names, || own.find(linked));
        Ok(own)
    }

    /// How many there are.
    pub(super) fn len(&self) -> usize {
        self.entries.len()
    }

    /// The numbers of the entries of linked names; `NONE` of those that the image has not.
    fn find(&self, linked: &LinkedNames) -> Vec<u32> {
        let named = self.entries.iter().enumerate().filter_map(|(at, entry)| Some((self.name(entry)?, at as u32)));
        let mut places: FastMap<&[u8], u32> = FastMap::default();
        places.reserve(self.entries.len());
        places.extend(named.filter(|(name, _)| !name.is_empty()));
        linked.iter().map(|one| places.get(one.name.as_slice()).copied().unwrap_or(NONE)).collect()
    }

    fn name(&self, entry: &Sym64<LE>) -> Option<&'a [u8]> {
        let rest = self.names.get(entry.st_name.get(LE) as usize..)?;
        rest.get(..memchr::memchr(0, rest)?)
    }

    /// The entry of a linked name.
    fn get(&self, number: usize) -> Option<&Sym64<LE>> {
        self.entries.get(*self.numbers.get(number)? as usize)
    }
}

/// Stands for no entry.
const NONE: u32 = u32::MAX;

/// The values that an image gives to the names of objects.
pub struct NameValues<'a> {
    linked: &'a LinkedNames,
    own: ImageNames<'a>,
}

impl<'a> NameValues<'a> {
    /// Those of an image; `None` if it is none of `ldi`.
    pub fn read(image: &'a [u8], linked: &'a LinkedNames) -> Option<NameValues<'a>> {
        let own = ImageNames::read(&Image::read(image).ok()?, linked).ok()?;
        Some(NameValues { linked, own })
    }

    /// The value of the name of an object's symbol; `None` if the image has none.
    pub fn of_symbol(&self, object: ObjectIndex, symbol: SymbolIndex) -> Option<u64> {
        let entry = self.own.get(self.linked.name_of(object.0 as usize, symbol)?)?;
        (entry.st_shndx.get(LE) != elf::SHN_UNDEF).then(|| entry.st_value.get(LE))
    }
}

/// The names that are written together.
const AT_ONCE: usize = 256;

/// Some of the names, as they are written.
struct Part {
    /// Those that are local in the image, by their numbers.
    locals: Vec<(usize, SymbolEntry)>,
    /// The others, and their numbers.
    writer: Writer,
    numbers: Vec<usize>,
}

/// Writes the names: first those that are local in the image, after a file without a name if there is one with.
/// Those in use by relocations are written in any case.
pub(super) fn write(
    writer: &mut Writer,
    names: &Names<'_>,
    used: Option<&[bool]>,
    has_files: bool,
    mut numbers: Option<&mut Numbers<'_>>,
) {
    let linked = names.linked.as_slice();
    let firsts: Vec<usize> = (0..linked.len()).step_by(AT_ONCE).collect();
    let parts = map_all(&firsts, &|first| part_of(names, used, *first));
    if has_files && parts.iter().any(|part| !part.locals.is_empty()) {
        writer.add_file(b"");
    }
    let mut set = |name: usize, number: u32| numbers.iter_mut().for_each(|numbers| numbers.set_name(name, number));
    for (name, entry) in parts.iter().flat_map(|part| &part.locals) {
        set(*name, writer.count());
        writer.add(linked.get(*name).map_or(&[], |one| &one.name), *entry);
    }
    writer.end_locals();
    for part in &parts {
        let first = writer.append(&part.writer);
        (first..).zip(&part.numbers).for_each(|(number, name)| set(*name, number));
    }
}

/// The names from a number on.
fn part_of(names: &Names<'_>, used: Option<&[bool]>, first: usize) -> Part {
    let linked = names.linked.as_slice().get(first..).unwrap_or_default();
    let mut part =
        Part { locals: Vec::new(), writer: Writer::part(AT_ONCE, None), numbers: Vec::with_capacity(AT_ONCE) };
    for (number, one) in (first..).zip(linked).take(AT_ONCE) {
        let is_used = used.and_then(|used| used.get(number)) == Some(&true);
        let is_undefined = is_used || names.is_asked_for(one);
        let found = names.entry_of(number, one, is_used);
        let found = found.or_else(|| is_undefined.then(|| (names.undefined(one), false)));
        match found.filter(|_| is_used || !names.options.strips(&one.name)) {
            Some((entry, true)) => part.locals.push((number, entry)),
            Some((entry, false)) => {
                part.numbers.push(number);
                part.writer.add(&one.name, entry);
            }
            None => {}
        }
    }
    part
}

/// What is known of names.
pub(super) struct Names<'a> {
    places: &'a InputPlaces,
    linked: &'a LinkedNames,
    evaluation: &'a Evaluation,
    outputs: &'a Outputs,
    own: &'a ImageNames<'a>,
    options: &'a SymbolOptions,
    /// The symbols from which others take theirs: the visibility and the type that objects say.
    sources: FastMap<SymbolId, (u8, Option<u8>)>,
}

impl<'a> Names<'a> {
    pub(super) fn of(
        symbols: &Symbols<'a>,
        (outputs, places): (&'a Outputs, &'a InputPlaces),
        own: &'a ImageNames<'a>,
        options: &'a SymbolOptions,
    ) -> Names<'a> {
        let evaluation = symbols.evaluation;
        let likes = evaluation.symbols.iter().flat_map(|symbol| &symbol.likes);
        let mut sources: FastMap<SymbolId, (u8, Option<u8>)> =
            likes.map(|like| (*like, (elf::STV_DEFAULT, None))).collect();
        for one in symbols.names.iter().filter(|one| one.is_named) {
            let id = evaluation.by_name.get(one.name.as_bstr());
            if let Some(source) = id.and_then(|id| sources.get_mut(id)) {
                *source = (one.visibility, Some(one.kind));
            }
        }
        Names { places, linked: symbols.names, evaluation, outputs, own, options, sources }
    }

    /// The entry of a name, and whether it is local in the image; `None` if it has no value, and no relocation in
    /// the file uses it.
    fn entry_of(&self, number: usize, one: &LinkedName, is_used: bool) -> Option<(SymbolEntry, bool)> {
        let found = match self.own.get(number) {
            Some(found) => found,
            None => return self.unloaded(one).map(|entry| (entry, false)),
        };
        let known = self.known(one);
        if let Some(nowhere) = known.filter(|known| is_nowhere(known)) {
            return self.nowhere(one, nowhere, is_used);
        }
        let is_table = one.name == GLOBAL_OFFSET_TABLE;
        let is_start = one.name == EH_FRAME_HDR_START && self.evaluation.eh_frame_hdr.is_some();
        let is_local = is_table || is_start || known.map_or(false, |known| known.is_local);
        let binding = match found.st_info >> 4 {
            _ if is_local => elf::STB_LOCAL,
            _ if one.is_unique => elf::STB_GNU_UNIQUE,
            own => own,
        };
        let kind = if is_table { elf::STT_OBJECT } else { self.kind_of(one, known) };
        let section = known.filter(|known| is_of_script(known)).map(|known| match known.section {
            Some(section) => self.outputs.get(section).map_or(elf::SHN_ABS, |output| output.number),
            None => elf::SHN_ABS,
        });
        let entry = SymbolEntry {
            info: binding << 4 | kind,
            other: if is_local { elf::STV_DEFAULT } else { self.visibility_of(one, known) },
            section: section.unwrap_or_else(|| self.section_of(one, found.st_shndx.get(LE))),
            value: found.st_value.get(LE),
            size: one.size,
        };
        Some((entry, is_local))
    }

    /// The number of the section that a name of an object is in; of one that GNU ld takes out, which may be one of
    /// several of its name, that which takes its names.
    fn section_of(&self, one: &LinkedName, number: u16) -> u16 {
        let nearby = || {
            let (object, _) = one.defined_by?;
            let home = match one.home {
                Home::Section(section) => self.evaluation.section_of(object, section)?,
                _ => return None,
            };
            let output = self.evaluation.output(self.evaluation.section(home)?.output()?)?;
            self.outputs.get(output.nearby?)
        };
        let found = if self.outputs.is_taken_out(number) { nearby() } else { None };
        found.map_or_else(|| self.outputs.stands_for(number), |output| output.number)
    }

    /// The entry of a symbol that counts from an output section that is never made: undefined, with its value. It is
    /// left out if it is local, if objects refer to it and all do so weakly, and if nothing but that section
    /// assigns it (`elf_link_output_extsym`; `mark` is by `bfd_elf_record_link_assignment`).
    fn nowhere(&self, one: &LinkedName, known: &Symbol, is_used: bool) -> Option<(SymbolEntry, bool)> {
        let binding = match (known.is_local, one.is_referred && !one.is_needed) {
            (true, _) => elf::STB_LOCAL,
            (false, true) => elf::STB_WEAK,
            (false, false) => elf::STB_GLOBAL,
        };
        let entry = SymbolEntry {
            info: binding << 4 | self.kind_of(one, Some(known)),
            other: if known.is_local { elf::STV_DEFAULT } else { self.visibility_of(one, Some(known)) },
            section: elf::SHN_UNDEF,
            value: known.value.map_or(0, |value| value.address),
            size: one.size,
        };
        (is_used || binding == elf::STB_GLOBAL && known.is_recorded).then_some((entry, known.is_local))
    }

    /// The entry of a name that nothing defines.
    fn undefined(&self, one: &LinkedName) -> SymbolEntry {
        let is_needed = one.is_needed || self.is_asked_for(one);
        let binding = if is_needed { elf::STB_GLOBAL } else { elf::STB_WEAK };
        let other = self.visibility_of(one, self.known(one));
        SymbolEntry { info: binding << 4 | one.kind, other, ..SymbolEntry::default() }
    }

    /// Whether the command or the script asks for a name that nothing defines (ldlang.c, `ldlang_add_undef`); not, if
    /// all objects that refer to it do so weakly.
    fn is_asked_for(&self, one: &LinkedName) -> bool {
        let is_weak = one.is_referred && !one.is_needed;
        let is_free = |known: &Symbol| known.is_asked_for && known.definer == Definer::None;
        one.defined_by.is_none() && !is_weak && self.known(one).map_or(false, is_free)
    }

    /// What the layout says of a name.
    fn known(&self, one: &LinkedName) -> Option<&'a Symbol> {
        if one.is_named {
            self.evaluation.symbol(&one.name)
        } else {
            None
        }
    }

    /// The entry of a name that is in a section that is not loaded, which the image does not have.
    fn unloaded(&self, one: &LinkedName) -> Option<SymbolEntry> {
        let (section, value) = self.block_not_loaded(one).or_else(|| self.place_not_loaded(one))?;
        let binding = if one.is_weak() { elf::STB_WEAK } else { elf::STB_GLOBAL };
        Some(SymbolEntry { info: binding << 4 | one.kind, other: one.visibility, section, value, size: one.size })
    }

    /// The section and the address of a common block that is not loaded.
    fn block_not_loaded(&self, one: &LinkedName) -> Option<(u16, u64)> {
        let known = self.known(one)?;
        let output = self.outputs.get(known.section?).filter(|output| !output.is_loaded)?;
        Some((output.number, known.value?.address))
    }

    /// The section and the address of what is defined in a section that is not loaded.
    fn place_not_loaded(&self, one: &LinkedName) -> Option<(u16, u64)> {
        let (object, _) = one.defined_by?;
        let (place, offset) = match one.home {
            Home::Section(section) => self.places.get_at(object.0 as usize, section, one.value)?,
            _ => return None,
        };
        (!place.is_loaded).then(|| (place.output, place.address.wrapping_add(offset)))
    }

    /// The visibility of a name: starts and ends of sections that GNU ld gives itself have one of their own (elflink.c,
    /// `bfd_elf_define_start_stop`), which stays if it takes them back (ldlang.c, `undef_start_stop`).
    fn visibility_of(&self, one: &LinkedName, known: Option<&Symbol>) -> u8 {
        let is_bound = known.map_or(false, |known| known.is_bound);
        let of_sources = known.map_or(elf::STV_DEFAULT, |known| self.visibility_of_sources(known, 0));
        match constrained(one.visibility, of_sources) {
            elf::STV_DEFAULT if is_bound => self.options.of_bounds.number(),
            other => other,
        }
    }

    /// The visibility that a symbol takes from those that its assignments name.
    fn visibility_of_sources(&self, symbol: &Symbol, depth: u32) -> u8 {
        let of_source = |like: &SymbolId| {
            let source = self.evaluation.symbols.get(like.index())?;
            let said = self.sources.get(like).map_or(elf::STV_DEFAULT, |(visibility, _)| *visibility);
            let hidden = if source.is_local { elf::STV_HIDDEN } else { elf::STV_DEFAULT };
            let more = if depth < DEEPEST { self.visibility_of_sources(source, depth + 1) } else { elf::STV_DEFAULT };
            Some(constrained(said, constrained(hidden, more)))
        };
        symbol.likes.iter().filter_map(of_source).fold(elf::STV_DEFAULT, constrained)
    }

    /// The type of a name: a symbol of the script has that of the one that its last assignment names alone.
    fn kind_of(&self, one: &LinkedName, known: Option<&Symbol>) -> u8 {
        let mut next = known.filter(|known| is_of_script(known)).and_then(|known| known.likes.last());
        let mut kind = None;
        for _ in 0..DEEPEST {
            let id = match next {
                Some(id) => id,
                None => break,
            };
            kind = self.sources.get(id).and_then(|(_, kind)| *kind);
            let source = self.evaluation.symbols.get(id.index()).filter(|source| is_of_script(source));
            next = source.and_then(|source| source.likes.last());
        }
        kind.unwrap_or(one.kind)
    }
}

/// The more constraining one of two visibilities (elflink.c, `elf_merge_st_other`).
fn constrained(one: u8, other: u8) -> u8 {
    one.wrapping_sub(1).min(other.wrapping_sub(1)).wrapping_add(1)
}

/// Whether a symbol counts from an output section that is never made.
fn is_nowhere(symbol: &Symbol) -> bool {
    is_of_script(symbol) && symbol.value.map_or(false, |value| value.base == Base::Nowhere)
}

/// Whether the script or GNU ld itself gives a symbol its value.
fn is_of_script(symbol: &Symbol) -> bool {
    matches!(symbol.definer, Definer::Script(_) | Definer::Linker)
}
