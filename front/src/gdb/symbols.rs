//! A copy of an image whose symbol table has the local names of its objects too: static functions, for perf and nm.
//!
//! The loaded bytes and the program headers are those of the image; the symbol table after them is written anew.

use std::collections::HashMap;

use bstr::{BStr, BString, ByteSlice};
use object::elf::{self, FileHeader64, SectionHeader64, Sym64};
use object::read::elf::{FileHeader, SectionHeader, SectionTable, Sym, SymbolTable};
use object::LittleEndian as Little;

use super::objects::{MissingObject, Objects};
use crate::objects::{Elf, Home, ObjectFault, SectionFlags, SectionIndex, SymbolKind};
use crate::report::link_map::{LinkMap, Piece};

/// Why no copy is made: the image, the map and the objects are not of one link.
#[derive(Debug, thiserror::Error)]
pub(super) enum CannotAdd {
    #[error("the image: {0}")]
    Image(#[from] object::Error),
    #[error("the image: its last sections are not a symbol table and two tables of names")]
    NoTable,
    #[error("the map is not that of the image: their output sections differ")]
    OtherMap,
    #[error("{0}: {1}")]
    NoObject(BString, ObjectFault),
    #[error("{0}: its {1} is not that of the link; it has changed since")]
    Changed(BString, BString),
    #[error(transparent)]
    Missing(#[from] MissingObject),
}

/// The kinds of local symbols that the copy has.
const KEPT: [SymbolKind; 3] = [SymbolKind::NOTYPE, SymbolKind::OBJECT, SymbolKind::FUNCTION];
/// The sections at the end of an image: the symbol table, its names and the names of sections.
const ADDED_SECTIONS: usize = 3;
/// The bytes of a section header.
const HEADER: usize = 64;

/// A piece of the map and the number of its output section.
#[derive(Clone, Copy)]
struct PlacedPiece<'a> {
    piece: &'a Piece,
    output: u16,
}

/// The pieces of the objects of a map, in the order in which these come there.
fn by_object(map: &LinkMap) -> indexmap::IndexMap<&BStr, Vec<PlacedPiece<'_>>> {
    let mut result: indexmap::IndexMap<&BStr, Vec<PlacedPiece<'_>>> = indexmap::IndexMap::new();
    for (output, section) in (1..).zip(&map.sections) {
        for piece in &section.pieces {
            result.entry(piece.object.as_bstr()).or_default().push(PlacedPiece { piece, output });
        }
    }
    result
}

/// For the sections of an object where they lie. If several have one name and not all of them are in the output,
/// those of a size that is not unique are left out.
fn places_of<'a>(
    name: &BStr,
    elf: &Elf,
    placed: &[PlacedPiece<'a>],
) -> Result<HashMap<SectionIndex, PlacedPiece<'a>>, CannotAdd> {
    let mut named: HashMap<&BStr, Vec<(SectionIndex, u64)>> = HashMap::new();
    for section in elf.sections().filter(|section| section.flags.has(SectionFlags::ALLOC)) {
        named.entry(section.name).or_default().push((section.index, section.size));
    }
    let mut pieces: indexmap::IndexMap<&BStr, Vec<PlacedPiece<'a>>> = indexmap::IndexMap::new();
    for place in placed.iter().filter(|place| place.piece.section != "COMMON") {
        pieces.entry(place.piece.section.as_bstr()).or_default().push(*place);
    }
    let mut result = HashMap::new();
    for (section, places) in pieces {
        let sections = named.get(section).map(Vec::as_slice).unwrap_or_default();
        let is_whole = sections.len() == places.len()
            && sections.iter().zip(&places).all(|((_, size), place)| *size == place.piece.size);
        if is_whole {
            result.extend(sections.iter().map(|(index, _)| *index).zip(places));
            continue;
        }
        let mut by_size: HashMap<u64, (SectionIndex, usize)> = HashMap::new();
        for (index, size) in sections {
            by_size.entry(*size).or_insert((*index, 0)).1 += 1;
        }
        for place in places {
            match by_size.get(&place.piece.size) {
                None => return Err(CannotAdd::Changed(name.to_owned(), section.to_owned())),
                Some((index, 1)) => {
                    result.insert(*index, place);
                }
                Some(_) => {}
            }
        }
    }
    Ok(result)
}

/// A symbol table in the making, with its names.
struct Table {
    entries: Vec<u8>,
    names: Vec<u8>,
    places: HashMap<Vec<u8>, u32>,
}

/// An entry of it, but for its name.
#[derive(Clone, Copy)]
struct Entry {
    info: u8,
    other: u8,
    section: u16,
    value: u64,
    size: u64,
}

impl Table {
    fn new() -> Table {
        Table { entries: vec![0; std::mem::size_of::<Sym64<Little>>()], names: vec![0], places: HashMap::new() }
    }

    fn add(&mut self, name: &[u8], entry: Entry) {
        let names = &mut self.names;
        let place = *self.places.entry(name.to_vec()).or_insert_with(|| {
            let place = u32::try_from(names.len()).unwrap_or(u32::MAX);
            names.extend_from_slice(name);
            names.push(0);
            place
        });
        self.entries.extend_from_slice(&place.to_le_bytes());
        self.entries.extend_from_slice(&[entry.info, entry.other]);
        self.entries.extend_from_slice(&entry.section.to_le_bytes());
        self.entries.extend_from_slice(&entry.value.to_le_bytes());
        self.entries.extend_from_slice(&entry.size.to_le_bytes());
    }

    fn count(&self) -> usize {
        self.entries.len() / std::mem::size_of::<Sym64<Little>>()
    }

    /// Adds the local names of an object that GNU ld would keep, with the name of its source before them.
    fn add_locals(&mut self, name: &BStr, elf: &Elf, placed: &[PlacedPiece<'_>]) -> Result<(), CannotAdd> {
        let places = places_of(name, elf, placed)?;
        let mut source: Option<&BStr> = None;
        for symbol in elf.symbols().take_while(|symbol| symbol.index < elf.first_global()) {
            if symbol.kind == SymbolKind::FILE {
                source = Some(symbol.name);
            }
            let place = match symbol.home {
                Home::Section(section) if KEPT.contains(&symbol.kind) => places.get(&section),
                _ => None,
            };
            let place = match place {
                Some(place) if !symbol.name.is_empty() && !symbol.name.starts_with(b".L") => place,
                _ => continue,
            };
            if let Some(source) = source.take() {
                let section = elf::SHN_ABS;
                self.add(source, Entry { info: SymbolKind::FILE.0, other: 0, section, value: 0, size: 0 });
            }
            let value = place.piece.address.wrapping_add(symbol.value);
            let (section, size) = (place.output, symbol.size);
            self.add(symbol.name, Entry { info: symbol.kind.0, other: 0, section, value, size });
        }
        Ok(())
    }
}

/// The copy of an image with local names, and how many were added.
pub(super) fn with_local_names(
    image: &[u8],
    map: &LinkMap,
    objects: &Objects<'_>,
) -> Result<(Vec<u8>, usize), CannotAdd> {
    let header = FileHeader64::<Little>::parse(image)?;
    let sections = header.sections(Little, image)?;
    let count = sections.len();
    let own = count.checked_sub(ADDED_SECTIONS).filter(|own| *own > 0).ok_or(CannotAdd::NoTable)?;
    let mut outputs = Vec::with_capacity(own);
    for section in sections.iter().take(own).skip(1) {
        outputs.push(sections.section_name(Little, section)?.as_bstr());
    }
    if !outputs.iter().copied().eq(map.sections.iter().map(|section| section.name.as_bstr())) {
        return Err(CannotAdd::OtherMap);
    }
    let mut table = Table::new();
    for (name, placed) in by_object(map) {
        let elf = Elf::parse(objects.read(name)?).map_err(|fault| CannotAdd::NoObject(name.to_owned(), fault))?;
        table.add_locals(name, &elf, &placed)?;
    }
    let first_global = table.count();
    let symbols = sections.symbols(Little, image, elf::SHT_SYMTAB)?;
    add_globals(&mut table, &symbols)?;
    Ok((with_table(image, header, &sections, &table, first_global)?, first_global - 1))
}

/// Adds the names of the image itself.
fn add_globals(table: &mut Table, symbols: &SymbolTable<'_, FileHeader64<Little>>) -> Result<(), CannotAdd> {
    for symbol in symbols.iter().skip(1) {
        let (info, other, section) = (symbol.st_info(), symbol.st_other(), symbol.st_shndx(Little));
        let (value, size) = (symbol.st_value(Little), symbol.st_size(Little));
        table.add(symbol.name(Little, symbols.strings())?, Entry { info, other, section, value, size });
    }
    Ok(())
}

/// The image with this symbol table in place of its own.
fn with_table(
    image: &[u8],
    header: &FileHeader64<Little>,
    sections: &SectionTable<'_, FileHeader64<Little>>,
    table: &Table,
    first_global: usize,
) -> Result<Vec<u8>, CannotAdd> {
    let own = sections.len() - ADDED_SECTIONS;
    let last: Vec<&SectionHeader64<Little>> = sections.iter().skip(own).collect();
    let (symbols, section_names) = match *last.as_slice() {
        [symbols, names, section_names]
            if symbols.sh_type(Little) == elf::SHT_SYMTAB
                && names.sh_type(Little) == elf::SHT_STRTAB
                && usize::from(header.e_shstrndx(Little)) == own + 2 =>
        {
            (symbols, section_names.data(Little, image)?)
        }
        _ => return Err(CannotAdd::NoTable),
    };
    let start = usize::try_from(symbols.sh_offset(Little)).map_err(|_| CannotAdd::NoTable)?;
    let headers_at = usize::try_from(header.e_shoff(Little)).map_err(|_| CannotAdd::NoTable)?;
    let old_headers = image.get(headers_at..headers_at + sections.len() * HEADER).ok_or(CannotAdd::NoTable)?;
    let mut copy = image.get(..start).ok_or(CannotAdd::NoTable)?.to_vec();
    let mut headers = old_headers.to_vec();
    for (index, bytes) in (own..).zip([table.entries.as_slice(), table.names.as_slice(), section_names]) {
        put(&mut headers, index * HEADER + 24, &(copy.len() as u64).to_le_bytes());
        put(&mut headers, index * HEADER + 32, &(bytes.len() as u64).to_le_bytes());
        copy.extend_from_slice(bytes);
    }
    let info = u32::try_from(first_global).unwrap_or(u32::MAX);
    put(&mut headers, own * HEADER + 44, &info.to_le_bytes());
    copy.resize((copy.len() + 7) / 8 * 8, 0);
    let at = copy.len() as u64;
    put(&mut copy, 40, &at.to_le_bytes());
    copy.extend_from_slice(&headers);
    Ok(copy)
}

/// Writes bytes over others.
fn put(data: &mut [u8], at: usize, bytes: &[u8]) {
    if let Some(place) = data.get_mut(at..at + bytes.len()) {
        place.copy_from_slice(bytes);
    }
}
