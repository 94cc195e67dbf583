//! The input sections of a link, and which statements match them. This stays the same if only sizes in objects change.

use super::commons;
use super::evaluation::{Fate, InputSection, Origin};
use super::flags::Flags;
use super::ids::{NameId, SectionId};
use super::interned_names::{FastMap, InternedNames};
use super::matching::{matches_of, Match};
use super::program::Taking;
use super::settings::Settings;
use crate::objects::{Object, ObjectIndex, Section, SectionIndex, SectionKind};
use bstr::ByteSlice;
use object::elf;

/// The input sections and their matches.
#[derive(Clone, Debug)]
pub(crate) struct Rows {
    pub sections: Vec<InputSection>,
    /// By input statement.
    pub matches: Vec<Vec<Match>>,
    /// By object: its first section.
    first: Vec<usize>,
    /// By object: the section of its common blocks.
    commons: FastMap<ObjectIndex, SectionId>,
}

/// A section that no header has.
struct Made {
    name: &'static [u8],
    kind: u32,
    flags: Flags,
    size: u64,
    align: u64,
    origin: Origin,
}

/// What GNU ld makes in every link (elf64-x86-64.c, elflink.c), empty in a static one.
fn own_sections() -> [Made; 6] {
    let made = |name: &'static [u8], kind, flags| Made {
        name,
        kind,
        flags: flags | Flags::ALLOC | Flags::LOAD | Flags::CONTENTS | Flags::CREATED,
        size: 0,
        align: if name == b".iplt" { 1 } else { 8 },
        origin: Origin::Linker,
    };
    [
        made(b".rela.got", elf::SHT_RELA, Flags::READONLY),
        made(b".got", elf::SHT_PROGBITS, Flags::DATA),
        made(b".got.plt", elf::SHT_NULL, Flags::DATA),
        made(b".iplt", elf::SHT_NULL, Flags::READONLY | Flags::CODE),
        made(b".rela.iplt", elf::SHT_RELA, Flags::READONLY),
        made(b".igot.plt", elf::SHT_NULL, Flags::DATA),
    ]
}

/// The section of the common blocks of an object.
fn common_section() -> Made {
    Made { name: b"COMMON", kind: elf::SHT_NULL, flags: Flags::ALLOC, size: 0, align: 1, origin: Origin::Common }
}

/// The note of `--build-id`, with as many bytes (ldelf.c, `ldelf_after_open`).
fn build_id_section(size: u64) -> Made {
    Made {
        name: b".note.gnu.build-id",
        kind: elf::SHT_NOTE,
        flags: Flags::ALLOC | Flags::LOAD | Flags::READONLY | Flags::DATA,
        size: size.wrapping_add(16),
        align: 4,
        origin: Origin::Linker,
    }
}

impl Rows {
    /// The rows of objects; names are entered into `names`.
    pub fn new(takings: &[Taking], names: &mut InternedNames, objects: &[Object], settings: &Settings) -> Rows {
        let owners = commons::owners(objects);
        let count = objects.iter().map(|object| object.section_count()).sum::<usize>() + 16;
        let mut rows = Rows {
            sections: Vec::with_capacity(count),
            matches: Vec::new(),
            first: Vec::with_capacity(objects.len()),
            commons: FastMap::default(),
        };
        let is_properties = |section: Section<'_>| section.name == ".note.gnu.property";
        let own = objects.iter().position(|object| linked(object).any(is_properties)).unwrap_or(0);
        for (number, object) in objects.iter().enumerate() {
            let id = ObjectIndex(number as u32);
            rows.first.push(rows.sections.len());
            for section in linked(object) {
                let name = names.enter(section.name);
                rows.sections.push(of_object(id, object, &section, name));
            }
            if owners.contains(&id) {
                rows.commons.insert(id, SectionId::new(rows.sections.len()));
                rows.add(id, names, &common_section());
            }
            if let (0, Some(size)) = (number, settings.build_id) {
                rows.add(id, names, &build_id_section(size));
            }
            if number == own {
                own_sections().iter().for_each(|made| rows.add(id, names, made));
            }
        }
        rows.matches = matches_of(takings, &rows.sections, names, objects);
        rows
    }

    /// Adds a section that no header has.
    fn add(&mut self, object: ObjectIndex, names: &mut InternedNames, made: &Made) {
        self.sections.push(InputSection {
            object,
            origin: made.origin,
            name: names.enter(made.name),
            flags: made.flags,
            kind: made.kind,
            bits: 0,
            entry_size: 0,
            size: made.size,
            own_size: made.size,
            own_align: made.align,
            align: made.align,
            fate: Fate::Open,
            offset: 0,
        });
    }

    /// The section of an object by the number of its header.
    pub fn find(&self, object: ObjectIndex, number: SectionIndex) -> Option<SectionId> {
        let first = *self.first.get(object.0 as usize)?;
        let end = self.first.get(object.0 as usize + 1).copied().unwrap_or(self.sections.len());
        let own = self.sections.get(first..end)?;
        let count = own.iter().take_while(|section| section.number().is_some()).count();
        let at = own.get(..count)?.binary_search_by_key(&Some(number), InputSection::number).ok()?;
        Some(SectionId::new(first + at))
    }

    /// The section of an object's common blocks.
    pub fn common(&self, object: ObjectIndex) -> Option<SectionId> {
        self.commons.get(&object).copied()
    }

    /// Takes the sizes of objects that changed; gives whether the rows stay: names, types, flags, alignments and the
    /// objects with common blocks are as they were.
    pub fn update(&mut self, names: &InternedNames, objects: &[Object], changed: &[ObjectIndex]) -> bool {
        if objects.len() != self.first.len() || commons::owners(objects).len() != self.commons.len() {
            return false;
        }
        for id in changed {
            let (object, first) = match (objects.get(id.0 as usize), self.first.get(id.0 as usize)) {
                (Some(object), Some(first)) => (object, *first),
                _ => return false,
            };
            let end = first + linked(object).count();
            let ends = self.sections.get(end).map_or(true, |next| next.object != *id || next.number().is_none());
            let own = match self.sections.get_mut(first..end) {
                Some(own) if ends => own,
                _ => return false,
            };
            for (old, section) in own.iter_mut().zip(linked(object)) {
                let new = match names.find(section.name) {
                    Some(name) => of_object(*id, object, &section, name),
                    None => return false,
                };
                if new != (InputSection { size: new.size, own_size: new.size, ..old.clone() }) {
                    return false;
                }
                (old.size, old.own_size) = (new.size, new.size);
            }
        }
        commons::owners(objects).iter().all(|id| self.commons.contains_key(id))
    }
}

/// The sections of an object that are linked; the names of stabs are in a table that is none of the file's own (elf.c,
/// `bfd_section_from_shdr`).
fn linked(object: &Object) -> impl Iterator<Item = Section<'_>> + '_ {
    let has_names_of_stabs = |section: &Section<'_>| section.kind == SectionKind::STRTAB && section.name == ".stabstr";
    object.sections().filter(move |section| section.kind.is_linked() || has_names_of_stabs(section))
}

pub(crate) fn of_object(number: ObjectIndex, object: &Object, section: &Section<'_>, name: NameId) -> InputSection {
    let flags = Flags::of_section(section.name, section.kind.0, section.flags.0);
    // ldelf.c, `ldelf_setup_build_id`: the note's section has no SEC_HAS_CONTENTS, by which an orphan finds its place.
    let flags = if object.is_build_note() { flags.without(Flags::CONTENTS) } else { flags };
    // ldelf.c, `ldelf_after_open`: the table of `.eh_frame` is none of SEC_DATA, and has no type until it is written.
    let (flags, kind) = match object.is_eh_frame_hdr() {
        true => (flags.without(Flags::DATA), elf::SHT_NULL),
        false => (flags, section.kind.0),
    };
    let align = 1u64.checked_shl(section.align.trailing_zeros()).unwrap_or(1);
    let is_out = flags.has(Flags::EXCLUDE);
    InputSection {
        object: number,
        origin: Origin::Header(section.index),
        name,
        flags,
        kind,
        bits: section.flags.0,
        entry_size: section.entry_size,
        size: section.size,
        own_size: section.size,
        own_align: align,
        align,
        fate: if is_out { Fate::Discarded } else { Fate::Open },
        offset: 0,
    }
}

/// Whether a name is one of C's, so that `__start_NAME` can be asked for.
pub(crate) fn is_identifier(name: &[u8]) -> bool {
    !name.is_empty() && name.bytes().all(|byte| byte.is_ascii_alphanumeric() || byte == b'_')
}
