//! Source lines of an object, by its debug information (DWARF 2 to 5): of code by `.debug_line`, of variables by
//! `.debug_info`. Malformed debug information is no error; it gives no lines.

use std::collections::HashMap;

use bstr::{BString, ByteSlice, ByteVec};
use gimli::{
    AttributeValue, DebugLineOffset, Dwarf, EndianSlice, LineProgramHeader, LittleEndian, Operation, Section as _,
    SectionId,
};

use super::plain;
use crate::objects::{Elf, Home, Object, Relocation, SectionFlags, SectionIndex, SectionKind};

/// An object with more bytes of line programs, or of debug information, has no lines of these: they would take seconds.
const MAX_BYTES: usize = 1 << 24;
/// The entries of debug information of an object that are looked at.
const MAX_ENTRIES: usize = 200_000;
/// A compressed section that would be longer is left out.
const MAX_SECTION: usize = 1 << 28;

type Slice<'a> = EndianSlice<'a, LittleEndian>;

/// A place in a source file.
#[derive(Clone, PartialEq, Eq, Hash, Debug)]
pub struct SourceLine {
    /// The path: from the working folder if the file lies there, else as the compiler had it.
    pub path: String,
    /// The line, from 1.
    pub line: u32,
}

/// The source lines of an object's sections and variables; each kind is read when it is first asked for.
pub struct SourceLines {
    object: Object,
    code: Option<CodeLines>,
    variables: Option<HashMap<u64, SourceLine>>,
}

impl SourceLines {
    /// The lines of an object.
    #[must_use]
    pub fn new(object: &Object) -> SourceLines {
        SourceLines { object: object.clone(), code: None, variables: None }
    }

    /// The source line of the instruction at an offset of a section.
    pub fn of_code(&mut self, section: SectionIndex, offset: u64) -> Option<SourceLine> {
        self.code().at(address_of(section, offset), false)
    }

    /// The source line of the function that begins at an offset of a section.
    pub fn of_function(&mut self, section: SectionIndex, offset: u64) -> Option<SourceLine> {
        self.code().at(address_of(section, offset), true)
    }

    /// The source line of the variable that begins at an offset of a section.
    pub fn of_variable(&mut self, section: SectionIndex, offset: u64) -> Option<SourceLine> {
        let object = &self.object;
        let variables = self.variables.get_or_insert_with(|| variables_of(object).unwrap_or_default());
        variables.get(&address_of(section, offset)).cloned()
    }

    fn code(&mut self) -> &CodeLines {
        let object = &self.object;
        self.code.get_or_insert_with(|| CodeLines::read(object).unwrap_or_default())
    }
}

/// An address that stands for an offset in a section: the sections of an object have no addresses yet, and these do not
/// meet.
fn address_of(section: SectionIndex, offset: u64) -> u64 {
    (u64::from(section.0) + 1) << 32 | offset & 0xffff_ffff
}

/// A file and a line of a line program: the path's number.
#[derive(Clone, Copy, PartialEq, Eq)]
struct FileLine {
    path: u32,
    line: u32,
}

/// Instructions from an address on: the first line that the program has there, and the last, which counts.
struct Row {
    address: u64,
    first: FileLine,
    last: FileLine,
}

/// Rows without a gap, by ascending addresses, and their end.
struct Sequence {
    rows: Vec<Row>,
    end: u64,
}

/// The lines of all code of an object.
#[derive(Default)]
struct CodeLines {
    /// By ascending starts.
    sequences: Vec<Sequence>,
    paths: Vec<String>,
}

impl CodeLines {
    fn read(object: &Object) -> Option<CodeLines> {
        let owned = load(object)?;
        let dwarf = owned.borrow(|section| EndianSlice::new(section, LittleEndian));
        if dwarf.debug_line.reader().len() > MAX_BYTES {
            return None;
        }
        let folders = unit_folders(&dwarf);
        let mut lines = CodeLines::default();
        let mut offset = 0;
        while let Some(program) = program_at(&dwarf, offset, &folders) {
            let header = program.header();
            let length = header.unit_length() + usize::from(header.encoding().format.initial_length_size());
            lines.add_rows(&dwarf, program);
            offset += length;
        }
        lines.sequences.sort_by_key(|sequence| sequence.rows.first().map_or(0, |row| row.address));
        Some(lines)
    }

    /// Adds the rows of a program, up to what is odd.
    fn add_rows(&mut self, dwarf: &Dwarf<Slice<'_>>, program: gimli::IncompleteLineProgram<Slice<'_>>) {
        let mut numbers: HashMap<u64, u32> = HashMap::new();
        let mut rows = program.rows();
        let mut open: Vec<Row> = Vec::new();
        while let Ok(Some((header, row))) = rows.next_row() {
            if row.end_sequence() {
                let sequence = Sequence { rows: std::mem::take(&mut open), end: row.address() };
                if !sequence.rows.is_empty() {
                    self.sequences.push(sequence);
                }
                continue;
            }
            let path = *numbers.entry(row.file_index()).or_insert_with(|| {
                self.paths.push(path_of(dwarf, header, row.file_index()).unwrap_or_default());
                u32::try_from(self.paths.len() - 1).unwrap_or(u32::MAX)
            });
            let line = row.line().and_then(|line| u32::try_from(line.get()).ok()).unwrap_or(0);
            let place = FileLine { path, line };
            match open.last_mut() {
                Some(last) if last.address == row.address() => last.last = place,
                _ => open.push(Row { address: row.address(), first: place, last: place }),
            }
        }
    }

    fn at(&self, address: u64, is_first: bool) -> Option<SourceLine> {
        let begins = |sequence: &Sequence| sequence.rows.first().map_or(0, |row| row.address) <= address;
        let sequence = self.sequences.get(self.sequences.partition_point(begins).checked_sub(1)?)?;
        if address >= sequence.end {
            return None;
        }
        let row = sequence.rows.get(sequence.rows.partition_point(|row| row.address <= address).checked_sub(1)?)?;
        let place = if is_first { row.first } else { row.last };
        let path = self.paths.get(place.path as usize).filter(|path| !path.is_empty() && place.line > 0)?;
        Some(SourceLine { path: path.clone(), line: place.line })
    }
}

/// The line program at an offset of `.debug_line`.
fn program_at<'a>(
    dwarf: &Dwarf<Slice<'a>>,
    offset: usize,
    folders: &HashMap<usize, Slice<'a>>,
) -> Option<gimli::IncompleteLineProgram<Slice<'a>>> {
    const ADDRESS_BYTES: u8 = 8;
    let folder = folders.get(&offset).copied();
    dwarf.debug_line.program(DebugLineOffset(offset), ADDRESS_BYTES, folder, None).ok()
}

/// The folders of compilations, by the offsets of their line programs.
fn unit_folders<'a>(dwarf: &Dwarf<Slice<'a>>) -> HashMap<usize, Slice<'a>> {
    let mut folders = HashMap::new();
    if dwarf.debug_info.reader().len() > MAX_BYTES {
        return folders;
    }
    let mut units = dwarf.units();
    while let Ok(Some(header)) = units.next() {
        if let Ok(unit) = dwarf.unit(header) {
            if let (Some(program), Some(folder)) = (&unit.line_program, unit.comp_dir) {
                folders.insert(program.header().offset().0, folder);
            }
        }
    }
    folders
}

/// The source lines of variables whose place is an address and nothing else, by that address.
fn variables_of(object: &Object) -> Option<HashMap<u64, SourceLine>> {
    let owned = load(object)?;
    let dwarf = owned.borrow(|section| EndianSlice::new(section, LittleEndian));
    if dwarf.debug_info.reader().len() > MAX_BYTES {
        return None;
    }
    let mut found = HashMap::new();
    let mut count = 0;
    let mut units = dwarf.units();
    while let Ok(Some(header)) = units.next() {
        let unit = match dwarf.unit(header) {
            Ok(unit) => unit,
            Err(_) => continue,
        };
        let mut entries = unit.entries();
        while let Ok(Some((_, entry))) = entries.next_dfs() {
            count += 1;
            if count > MAX_ENTRIES {
                return Some(found);
            }
            if entry.tag() == gimli::DW_TAG_variable {
                if let Some(address) = variable_address(&dwarf, &unit, entry) {
                    if let Some(line) = declared(&dwarf, &unit, entry) {
                        found.entry(address).or_insert(line);
                    }
                }
            }
        }
    }
    Some(found)
}

type Unit<'a> = gimli::Unit<Slice<'a>>;
type Entry<'a, 'u> = gimli::DebuggingInformationEntry<'a, 'u, Slice<'a>>;

fn variable_address<'a>(dwarf: &Dwarf<Slice<'a>>, unit: &Unit<'a>, entry: &Entry<'_, '_>) -> Option<u64> {
    let expression = match entry.attr_value(gimli::DW_AT_location).ok()?? {
        AttributeValue::Exprloc(expression) => expression,
        AttributeValue::Block(block) => gimli::Expression(block),
        _ => return None,
    };
    let mut operations = expression.operations(unit.encoding());
    let address = match operations.next().ok()?? {
        Operation::Address { address } => address,
        Operation::AddressIndex { index } => dwarf.address(unit, index).ok()?,
        _ => return None,
    };
    operations.next().ok()?.is_none().then_some(address)
}

/// Where an entry of the debug information says that it is declared.
fn declared<'a>(dwarf: &Dwarf<Slice<'a>>, unit: &Unit<'a>, entry: &Entry<'_, '_>) -> Option<SourceLine> {
    let other = match entry.attr_value(gimli::DW_AT_specification).ok()? {
        Some(AttributeValue::UnitRef(offset)) => unit.entry(offset).ok(),
        _ => None,
    };
    let value = |name| {
        let own = entry.attr_value(name).ok().flatten().and_then(|value| value.udata_value().or(file_index(&value)));
        let others = other.as_ref().and_then(|other| other.attr_value(name).ok().flatten());
        own.or_else(|| others.and_then(|value| value.udata_value().or(file_index(&value))))
    };
    let (file, line) = (value(gimli::DW_AT_decl_file)?, value(gimli::DW_AT_decl_line)?);
    let header = unit.line_program.as_ref()?.header();
    let path = path_of(dwarf, header, file).filter(|path| !path.is_empty())?;
    Some(SourceLine { path, line: u32::try_from(line).ok()? })
}

fn file_index(value: &AttributeValue<Slice<'_>>) -> Option<u64> {
    match value {
        AttributeValue::FileIndex(index) => Some(*index),
        _ => None,
    }
}

/// The path of a file of a line program; none if it is not known.
fn path_of<'a>(dwarf: &Dwarf<Slice<'a>>, header: &LineProgramHeader<Slice<'a>>, index: u64) -> Option<String> {
    let file = header.file(index)?;
    let text = |value| text_of(dwarf, value).unwrap_or_default();
    let name = text(file.path_name());
    if name.is_empty() {
        return None;
    }
    let base = header.directory(0).map(text).unwrap_or_default();
    let folder = header.directory(file.directory_index()).map(text).unwrap_or_default();
    Some(shown_path(base, folder, name))
}

fn text_of<'a>(dwarf: &Dwarf<Slice<'a>>, value: AttributeValue<Slice<'a>>) -> Option<&'a [u8]> {
    let slice = match value {
        AttributeValue::String(text) => text,
        AttributeValue::DebugStrRef(offset) => dwarf.debug_str.get_str(offset).ok()?,
        AttributeValue::DebugLineStrRef(offset) => dwarf.debug_line_str.get_str(offset).ok()?,
        _ => return None,
    };
    Some(slice.slice())
}

/// The path of a file of a folder, which is one of a base folder: from the working folder if it lies there.
fn shown_path(base: &[u8], folder: &[u8], name: &[u8]) -> String {
    let mut whole = BString::default();
    for part in [base, folder, name] {
        if part.starts_with(b"/") {
            whole.clear();
        } else if !whole.is_empty() && !part.is_empty() {
            whole.push_byte(b'/');
        }
        whole.push_str(part);
    }
    let path = normal(&whole);
    let here = std::env::current_dir().map(|here| here.into_os_string()).unwrap_or_default();
    let mut here = Vec::from_os_string(here).unwrap_or_default();
    here.push(b'/');
    let shown = path.strip_prefix(here.as_slice()).filter(|_| here != b"/" && here != b"//");
    plain(shown.unwrap_or(&path))
}

/// A path without `.`, `..` and empty parts.
fn normal(path: &[u8]) -> Vec<u8> {
    let is_absolute = path.starts_with(b"/");
    let mut parts: Vec<&[u8]> = Vec::new();
    for part in path.split(|byte| *byte == b'/') {
        match part {
            b"" | b"." => {}
            b".." if parts.last().map_or(false, |last| *last != b"..") => drop(parts.pop()),
            b".." if is_absolute => {}
            _ => parts.push(part),
        }
    }
    let joined = parts.join(&b'/');
    match (is_absolute, joined.is_empty()) {
        (true, _) => [b"/", joined.as_slice()].concat(),
        (false, true) => b".".to_vec(),
        (false, false) => joined,
    }
}

/// The debug sections with their relocations applied; none if the object has no debug information.
fn load(object: &Object) -> Option<Dwarf<Vec<u8>>> {
    let mut sections: HashMap<&[u8], SectionIndex> = HashMap::new();
    for section in object.sections().filter(|section| section.name.starts_with(b".debug_")) {
        sections.entry(section.name.as_bytes()).or_insert(section.index);
    }
    if sections.is_empty() {
        return None;
    }
    let read = |id: SectionId| -> Result<Vec<u8>, gimli::Error> {
        let index = sections.get(id.name().as_bytes());
        Ok(index.map(|index| relocated(object, *index)).unwrap_or_default())
    };
    Dwarf::load(read).ok()
}

/// A debug section with its relocations applied: those to other debug sections, and those to linked ones by addresses
/// that stand for them.
fn relocated(elf: &Elf, index: SectionIndex) -> Vec<u8> {
    let mut data = contents(elf, index).unwrap_or_default();
    for relocation in elf.relocations(index) {
        let width = match relocation.kind {
            Relocation::ABSOLUTE_64 => 8,
            Relocation::ABSOLUTE_32 => 4,
            _ => continue,
        };
        if let Some(value) = value_of(elf, relocation) {
            let place = usize::try_from(relocation.offset).ok();
            let field = place.and_then(|at| data.get_mut(at..at.checked_add(width)?));
            if let Some(field) = field {
                field.copy_from_slice(value.to_le_bytes().get(..width).unwrap_or_default());
            }
        }
    }
    data
}

fn value_of(elf: &Elf, relocation: Relocation) -> Option<u64> {
    let symbol = elf.symbol(relocation.symbol)?;
    let section = match symbol.home {
        Home::Section(index) => elf.section(index)?,
        _ => return None,
    };
    let offset = symbol.value.wrapping_add(relocation.addend as u64);
    Some(if section.flags.has(SectionFlags::ALLOC) { address_of(section.index, offset) } else { offset })
}

/// The bytes of a section, out of their compression (gABI, 'Section Compression': zlib).
fn contents(elf: &Elf, index: SectionIndex) -> Option<Vec<u8>> {
    const HEADER_BYTES: usize = 24;
    const ZLIB: &[u8] = &[1, 0, 0, 0];
    let section = elf.section(index).filter(|section| section.kind != SectionKind::NOBITS)?;
    let bytes = elf.contents(index);
    if !section.flags.has(SectionFlags::COMPRESSED) {
        return Some(bytes.to_vec());
    }
    let packed = bytes.get(HEADER_BYTES..).filter(|_| bytes.starts_with(ZLIB))?;
    miniz_oxide::inflate::decompress_to_vec_zlib_with_limit(packed, MAX_SECTION).ok()
}

#[cfg(test)]
mod tests {
    use super::*;

    #[test]
    fn paths_are_shown_from_the_working_folder() {
        let here = std::env::current_dir().unwrap_or_default();
        let here = here.to_string_lossy();
        let here = here.as_bytes();
        assert_eq!(shown_path(here, b"", b"a.c"), "a.c");
        assert_eq!(shown_path(here, b"src/../inc", b"./a.h"), "inc/a.h");
        assert_eq!(shown_path(b"/elsewhere", b"", b"a.c"), "/elsewhere/a.c");
        assert_eq!(shown_path(b"/elsewhere", b"/usr/include", b"a.h"), "/usr/include/a.h");
        assert_eq!(shown_path(b"", b"", b"a.c"), "a.c");
        let beside = [here, b"x"].concat();
        assert_eq!(shown_path(&beside, b"", b"a.c").as_bytes(), [beside.as_slice(), b"/a.c"].concat());
        assert_eq!(shown_path(b"a/..", b"../b", b"c"), "../b/c");
    }
}
