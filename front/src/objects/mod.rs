//! Objects: their sections, symbols and relocations, and their conversion into the profile.

mod aliases;
mod build_note;
mod common_definitions;
mod draft;
mod eh_frame_hdr;
mod elf;
mod filter;
mod gnu_property;
mod got_entries;
mod got_relaxing;
mod groups;
mod just_symbols;
mod link_names;
mod merge_strings;
mod merged_object;
mod overridden;
mod profile;
mod section;
mod shortened;
mod symbol;
#[cfg(test)]
pub(crate) mod tests;
mod unpacked;
mod wrapping;

pub use aliases::with_aliases;
pub use build_note::{build_note, build_note_object, BUILD_ID_SECTION, NOTE_HEAD};
pub use common_definitions::{with_common_section, BlockPlace, CommonSection};
pub use eh_frame_hdr::{
    eh_frame_hdr_object, no_eh_frame_hdr_object, with_section_names, Distance, EH_FRAME_HDR, EH_FRAME_HDR_HEAD,
    EH_FRAME_HDR_SECTION, EH_FRAME_HDR_START, FRAME_ANCHOR, FRAME_COUNT_SIZE, FRAME_ROW_SIZE,
};
pub use elf::Elf;
pub(crate) use filter::NameFilter;
pub use gnu_property::{Properties, PROPERTIES};
pub use got_entries::{
    got_object, GotReference, GotSlot, GotUse, NamedLocal, ENTRY_SIZE, GLOBAL_OFFSET_TABLE, GOT_START, HEADER_SECTION,
};
pub use groups::{once_of, Once, OnceKey};
pub use just_symbols::just_symbols;
pub use link_names::{Definition, LinkNames};
pub use merge_strings::{MergeKind, MergeSource, Merged, MergedPart};
pub use merged_object::{Leaving, MergeFindings, MergeRequests, OwnMerged, MERGED};
pub use overridden::without_names;
pub use profile::{binary_object, session_name, with_loaded};
pub use section::{Relocation, Section, SectionFlags, SectionIndex, SectionKind};
pub use shortened::{with_shortened, Shortened};
pub use symbol::{Binding, Home, Rank, Symbol, SymbolIndex, SymbolKind, Visibility};
pub use wrapping::{with_wraps, wrapped_name};

use crate::snapshot::Bytes;
use bstr::{BStr, BString, ByteSlice};
use profile::Profiled;
use std::ops::Deref;
use std::os::unix::ffi::OsStrExt;
use std::path::{Path, PathBuf};
use std::sync::Arc;
use thiserror::Error;

/// The place of an object among those of a link.
#[derive(Clone, Copy, PartialEq, Eq, PartialOrd, Ord, Hash, Debug, Default)]
pub struct ObjectIndex(pub u32);

/// Why a file is no object that `ldi` links.
#[derive(Clone, PartialEq, Eq, Debug, Error)]
pub enum ObjectFault {
    /// The file is no ELF file.
    #[error("no ELF file")]
    NotElf,
    /// LLVM's bitcode.
    #[error("bitcode of LLVM, no object")]
    Bitcode,
    /// A 32-bit file.
    #[error("a 32-bit object")]
    Bits32,
    /// A big-endian file.
    #[error("a big-endian object")]
    BigEndian,
    /// An object for another machine (`e_machine`).
    #[error("an object for another machine (e_machine {0})")]
    OtherMachine(u16),
    /// A shared library.
    #[error("a shared library")]
    SharedObject,
    /// An executable or another file that is not relocatable (`e_type`).
    #[error("no relocatable object (e_type {0})")]
    NotRelocatable(u16),
    /// An object of gcc's slim LTO.
    #[error("an object of slim LTO, which has no code (-ffat-lto-objects gives it code)")]
    SlimLto,
    /// An ELF file whose tables cannot be read; says what is wrong.
    #[error("{0}")]
    Malformed(&'static str),
}

impl ObjectFault {
    /// Whether GNU ld may link the file: it is sound, and only `ldi` cannot.
    pub fn is_of_other_linkers(&self) -> bool {
        !matches!(self, ObjectFault::NotElf | ObjectFault::Malformed(_))
    }
}

/// Where an object is from, as GNU ld knows it.
#[derive(Clone, PartialEq, Eq, Debug)]
pub struct Origin {
    /// The file that has its bytes: the archive of a member, and of one of a thin archive the member's own.
    pub path: PathBuf,
    /// The archive that it is a member of, as it was named or found; none for a thin one, whose members are files.
    pub archive: Option<BString>,
    /// The member's name, else the file as it was named or found.
    pub name: BString,
}

impl Origin {
    /// A file of its own.
    pub fn of_file(path: &Path) -> Origin {
        Origin { path: path.to_owned(), archive: None, name: BString::from(path.as_os_str().as_bytes()) }
    }

    /// `lib.a(member.o)`, or the name of the file.
    pub fn full_name(&self) -> BString {
        match &self.archive {
            Some(archive) => [archive.as_bytes(), b"(", &self.name, b")"].concat().into(),
            None => self.name.clone(),
        }
    }
}

/// An object of a link. A copy shares all of it.
#[derive(Clone, Debug)]
pub struct Object(Arc<Inner>);

/// What an object is.
#[derive(Clone, Debug)]
struct Inner {
    name: BString,
    origin: Origin,
    elf: Arc<Elf>,
    fault: Option<ObjectFault>,
    retained: Vec<SectionIndex>,
    relaxed: Vec<(SectionIndex, u64)>,
    unique: Vec<SymbolIndex>,
    tabled: Vec<GotReference>,
    has_note_of_link: bool,
    is_build_note: bool,
    is_eh_frame_hdr: bool,
}

impl Object {
    /// An object: its name in the session of `ldi`, where it is from, and its bytes as its file has them.
    ///
    /// Its bytes become those of the profile of `ldi`: without flags that `ldi` need not know, and without references
    /// by a global offset table if none is needed. Sections with SHF_GNU_RETAIN are in [`Object::retained`]. Bytes
    /// that are no object have no sections and no symbols, and [`Object::fault`] says why.
    pub fn new(name: BString, origin: Origin, data: Bytes) -> Object {
        let data = unpacked::unpacked(&data).unwrap_or(data);
        let Profiled { data, cleared, retained, relaxed, tabled, unique } = Profiled::of(data);
        let (elf, fault) = match Elf::parse_cleared(data.clone(), cleared) {
            Ok(elf) => (elf, None),
            Err(fault) => (Elf::empty(data), Some(fault)),
        };
        Object(Arc::new(Inner {
            name,
            origin,
            elf: Arc::new(elf),
            fault,
            retained,
            relaxed,
            unique,
            tabled,
            has_note_of_link: false,
            is_build_note: false,
            is_eh_frame_hdr: false,
        }))
    }

    /// The object without some sections: names that they define are undefined.
    #[must_use]
    pub fn without(self, dropped: &[SectionIndex]) -> Object {
        groups::without(self.data(), dropped).and_then(|data| self.with_bytes(data)).unwrap_or(self)
    }

    /// The object with other bytes, which are in the profile; `None` if these are no object.
    fn with_bytes(&self, data: Bytes) -> Option<Object> {
        let elf = Elf::parse_cleared(data, self.elf().cleared().to_vec()).ok()?;
        let mut changed = self.clone();
        Arc::make_mut(&mut changed.0).elf = Arc::new(elf);
        Some(changed)
    }

    /// The references that need a global offset table.
    pub fn got_references(&self) -> &[GotReference] {
        &self.0.tabled
    }

    /// The object with further sections that `--gc-sections` keeps whatever names them.
    #[must_use]
    pub fn with_retained(mut self, sections: &[SectionIndex]) -> Object {
        if !sections.is_empty() {
            Arc::make_mut(&mut self.0).retained.extend_from_slice(sections);
        }
        self
    }

    /// The object under another name and from another place.
    #[must_use]
    pub fn renamed(mut self, name: BString, origin: Origin) -> Object {
        if self.name() != name || *self.origin() != origin {
            let inner = Arc::make_mut(&mut self.0);
            inner.name = name;
            inner.origin = origin;
        }
        self
    }

    /// Whether another one has the same name, place and bytes, and the same is said of it.
    pub fn is_same(&self, other: &Object) -> bool {
        let (one, two) = (&self.0, &other.0);
        one.name == two.name
            && one.origin == two.origin
            && one.retained == two.retained
            && one.fault == two.fault
            && self.elf().cleared() == other.elf().cleared()
            && self.data() == other.data()
    }

    /// Its name in the session of `ldi`: 1 to 255 bytes from `!` to `~`, no other object's.
    pub fn name(&self) -> &BStr {
        self.0.name.as_bstr()
    }

    /// Where it is from.
    pub fn origin(&self) -> &Origin {
        &self.0.origin
    }

    /// The bytes that `ldi` gets.
    pub fn data(&self) -> &Bytes {
        self.0.elf.data()
    }

    /// Its tables; also `object.sections()` and its like, as an object stands for them.
    pub fn elf(&self) -> &Elf {
        &self.0.elf
    }

    /// Why it is no object that `ldi` links.
    pub fn fault(&self) -> Option<&ObjectFault> {
        self.0.fault.as_ref()
    }

    /// An object of the linker's own, with the note of a build ID in its section number 1.
    pub fn build_note(name: BString, origin: Origin, id: &[u8]) -> Object {
        let mut object = Object::new(name, origin, build_note_object(id)).with_retained(&[SectionIndex(1)]);
        Arc::make_mut(&mut object.0).is_build_note = true;
        object
    }

    /// Whether it is the linker's own, with the note of a build ID.
    pub fn is_build_note(&self) -> bool {
        self.0.is_build_note
    }

    /// An object of the linker's own, with a table of the entries of `.eh_frame` in its section number 1, which has no
    /// rows yet.
    pub fn eh_frame_hdr(name: BString, origin: Origin) -> Object {
        let data = eh_frame_hdr_object(&[0; EH_FRAME_HDR_HEAD as usize], &[], &[]);
        let mut object = Object::new(name, origin, data).with_retained(&[EH_FRAME_HDR_SECTION]);
        Arc::make_mut(&mut object.0).is_eh_frame_hdr = true;
        object
    }

    /// Whether it is the linker's own, with a table of the entries of `.eh_frame`.
    pub fn is_eh_frame_hdr(&self) -> bool {
        self.0.is_eh_frame_hdr
    }

    /// Whether its note of properties is that of the whole link.
    pub fn has_note_of_link(&self) -> bool {
        self.0.has_note_of_link
    }

    fn set_note_of_link(&mut self) {
        Arc::make_mut(&mut self.0).has_note_of_link = true;
    }

    /// The symbols that had the binding STB_GNU_UNIQUE, ascending.
    pub fn unique(&self) -> &[SymbolIndex] {
        &self.0.unique
    }

    /// Whether the field at an offset of a section is a reference that went by a global offset table.
    pub fn is_relaxed(&self, section: SectionIndex, offset: u64) -> bool {
        self.0.relaxed.contains(&(section, offset))
    }

    /// Whether there are references that went by a global offset table.
    pub fn has_relaxed(&self) -> bool {
        !self.0.relaxed.is_empty()
    }

    /// The sections that `--gc-sections` keeps whatever names them.
    pub fn retained(&self) -> &[SectionIndex] {
        &self.0.retained
    }
}

impl Deref for Object {
    type Target = Elf;

    fn deref(&self) -> &Elf {
        &self.0.elf
    }
}
