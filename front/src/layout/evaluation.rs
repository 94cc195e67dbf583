//! The result of a layout as plain data, from which a script of the profile is written, and with which an image is
//! compared.

use super::eh_frame::hdr::EhFrameHdr;
use super::flags::Flags;
use super::ids::{NameId, OutputId, RegionId, SectionId, StatementId, SymbolId};
use super::interned_names::{FastMap, InternedNames};
use super::merging::Merges;
use super::segments::{InMemory, Paging};
use crate::objects::{MergeSource, ObjectIndex, SectionIndex, Shortened};
use crate::script::tree::{Name, Span};
use bstr::{BStr, ByteSlice};
use object::elf;
use std::sync::Arc;

/// Stands for no section.
const NOWHERE: u32 = u32::MAX;

/// What a value counts from.
#[derive(Clone, Copy, PartialEq, Eq, Hash, Debug)]
pub enum Base {
    /// Nothing: a number (GNU ld manual, 'The Section of an Expression').
    Number,
    /// The absolute section.
    Absolute,
    /// The undefined section, of what is assigned in a section that is never made.
    Nowhere,
    /// The start of an input section, before it has a place.
    Section(SectionId),
    /// The start of an output section.
    Output(OutputId),
}

/// A value of an expression.
#[derive(Clone, Copy, PartialEq, Eq, Hash, Debug)]
pub struct Value {
    /// The value, as counted from its base.
    pub offset: u64,
    /// What it counts from.
    pub base: Base,
    /// The value as an address.
    pub address: u64,
}

/// What GNU ld makes of a script over objects.
#[derive(Clone, Debug, Default)]
pub struct Evaluation {
    /// The statements, by their index: those of the script in the order of the text.
    pub statements: Vec<Statement>,
    /// The output sections, by their index.
    pub outputs: Vec<OutputSection>,
    /// The output sections in their order, those of orphans among them.
    pub order: Vec<OutputId>,
    /// The output sections that are made, as GNU ld lists them.
    pub listed: Vec<OutputId>,
    /// The statements outside of output sections in their order; each output section is one.
    pub top: Vec<StatementId>,
    /// The input sections, by their index: in the order of objects and headers.
    pub sections: Vec<InputSection>,
    /// By object: the index of its first section, or of the first after it; at the end how many there are.
    pub(crate) first_sections: Vec<u32>,
    /// By object: where its headers begin in `by_header`, which has the indices of their sections.
    pub(crate) first_headers: Vec<u32>,
    pub(crate) by_header: Vec<u32>,
    /// The names of sections.
    pub names: InternedNames,
    /// The symbols that script, command line or GNU ld itself speak of, and common blocks.
    pub symbols: Vec<Symbol>,
    /// The regions of MEMORY, and `*default*`.
    pub regions: Vec<Region>,
    /// Where the program begins.
    pub entry: Entry,
    /// How many program headers SIZEOF_HEADERS counts; the image may have fewer.
    pub header_count: u64,
    /// Whether the script asks for SIZEOF_HEADERS.
    pub wants_headers: bool,
    /// How the file is laid out in pages, if PHDRS do not say it.
    pub paging: Option<Paging>,
    /// The output sections that take memory, in the order of the file's headers.
    pub memory: Vec<(OutputId, InMemory)>,
    /// What is read-only after relocation: from DATA_SEGMENT_ALIGN to DATA_SEGMENT_RELRO_END.
    pub relro: Option<(u64, u64)>,
    /// The input sections that no statement takes and that are not empty, in the order in which they were placed.
    pub orphans: Vec<SectionId>,
    /// What is merged of sections that are loaded.
    pub merges: Arc<Merges>,
    /// What is merged of sections that are not loaded, as far as anything goes by their sizes and places.
    pub merges_beside: Arc<Merges>,
    /// The sections of which GNU ld leaves out rows, and what stays of them.
    pub shortened: FastMap<SectionId, Arc<Shortened>>,
    /// What is known of `.eh_frame`.
    pub frames_left: FramesLeft,
    /// What `.eh_frame_hdr` has, if there is one.
    pub eh_frame_hdr: Option<EhFrameHdr>,
    /// The values that expressions had last, by their spans.
    pub values: FastMap<Span, Value>,
    /// The statement of a span.
    pub by_span: FastMap<Span, StatementId>,
    /// The symbol of a name.
    pub by_name: FastMap<Name, SymbolId>,
    /// The names that something has named, in that order, each with the number of objects that were read before.
    pub named: Vec<(usize, Name)>,
}

/// What is left of the entries of the output section `.eh_frame`.
#[derive(Clone, Copy, PartialEq, Eq, Debug, Default)]
pub enum FramesLeft {
    /// All.
    #[default]
    All,
    /// Those that GNU ld leaves.
    AsInGnu,
    /// Those, but it is not known of this section what GNU ld makes of it.
    Unknown(SectionId),
}

/// Where the program begins.
#[derive(Clone, PartialEq, Eq, Debug, Default)]
pub struct Entry {
    /// The name that `-e` or ENTRY gives, or `_start`'s stand-in of the format (`start`).
    pub name: Name,
    /// Its address; 0 is in the file if there is none.
    pub address: Option<u64>,
    /// Whether the address is the name's: GNU ld warns if it is not.
    pub is_by_name: bool,
}

/// A statement, with what the passes found.
#[derive(Clone, PartialEq, Eq, Debug)]
pub struct Statement {
    /// Where it stands; `None` of what is not in the script.
    pub span: Option<Span>,
    /// The output section that it stands in.
    pub output: Option<OutputId>,
    /// The location counter in front of it in the last pass.
    pub dot: u64,
    /// What it is.
    pub kind: StatementKind,
}

impl Statement {
    /// Whether it is an input statement that takes this section.
    #[must_use]
    pub fn takes(&self, section: SectionId) -> bool {
        matches!(&self.kind, StatementKind::Input { sections, .. } if sections.contains(&section))
    }
}

/// What a statement is, with what the passes found.
#[derive(Clone, PartialEq, Eq, Debug)]
pub enum StatementKind {
    /// An output section, `/DISCARD/`, or an orphan's.
    Output(OutputId),
    /// An assignment to a symbol.
    Assign {
        /// The symbol.
        symbol: SymbolId,
        /// Its value at the end of this statement; `None` if it does not count (PROVIDE of what is not wanted).
        value: Option<Value>,
    },
    /// An assignment to the location counter.
    Dot {
        /// Where it moves it.
        after: u64,
        /// Within an output section: the bytes that it goes on, where they begin, what fills them.
        gap: Option<Gap>,
    },
    /// An ASSERT.
    Assert,
    /// BYTE and its like.
    Data {
        /// The distance from the section's start.
        offset: u64,
        /// Its bytes: 1, 2, 4 or 8.
        size: u8,
        /// The value; the low bytes of it are written, the least significant first.
        value: u64,
    },
    /// Input sections.
    Input {
        /// Those that it takes, in their order.
        sections: Vec<SectionId>,
        /// What is between them.
        gaps: Vec<Gap>,
    },
    /// FILL.
    Fill,
    /// A statement that has no effect on the layout.
    Other,
}

/// Bytes that nothing is in.
#[derive(Clone, PartialEq, Eq, Debug)]
pub struct Gap {
    /// The distance from the section's start.
    pub offset: u64,
    /// Its bytes.
    pub size: u64,
    /// What fills it, from its front again and again; `None`: zeros, or in code what does nothing.
    pub fill: Option<Vec<u8>>,
}

/// An output section.
#[derive(Clone, PartialEq, Eq, Debug)]
pub struct OutputSection {
    /// Its name.
    pub name: Name,
    /// Where it stands; `None` of an orphan's.
    pub span: Option<Span>,
    /// Whether it is an orphan's.
    pub is_orphan: bool,
    /// Its statements.
    pub body: Vec<StatementId>,
    /// Its place; `None` if GNU ld makes no section of it.
    pub place: Option<Placed>,
    /// Its region.
    pub region: RegionId,
    /// The region of its load address.
    pub load_region: Option<RegionId>,
    /// The segments of PHDRS that it is in, those of sections before if it names none.
    pub segments: Vec<Name>,
    /// The address in front of the colon is given.
    pub has_own_address: bool,
    /// The section that takes its symbols, of one that is taken out of the image.
    pub nearby: Option<OutputId>,
}

impl OutputSection {
    /// The section's place, if it is in the image.
    pub fn in_image(&self) -> Option<&Placed> {
        self.place.as_ref().filter(|place| !place.is_gone)
    }
}

/// An output section that is made.
#[derive(Clone, PartialEq, Eq, Debug)]
pub struct Placed {
    /// Its address.
    pub address: u64,
    /// Its load address.
    pub load: u64,
    /// Its bytes.
    pub size: u64,
    /// Its alignment.
    pub align: u64,
    /// Its flags.
    pub flags: Flags,
    /// Its type (`sh_type`).
    pub kind: u32,
    /// Its flags in the section header (`sh_flags`).
    pub bits: u64,
    /// The size of its entries (`sh_entsize`).
    pub entry_size: u64,
    /// The output section that its header refers to (`sh_link`).
    pub link: Option<OutputId>,
    /// Whether it is taken out of the image, as it is empty.
    pub is_gone: bool,
    /// Its input sections in their order.
    pub inputs: Vec<SectionId>,
}

impl Placed {
    /// Whether it takes memory.
    pub fn is_allocated(&self) -> bool {
        self.flags.has(Flags::ALLOC)
    }

    /// Its alignment in the section header, which its address has too (`sh_addralign`).
    pub fn header_align(&self) -> u64 {
        common_align(self.align, self.address)
    }

    /// Whether GNU ld's file has bytes for it.
    pub fn has_bytes(&self) -> bool {
        self.flags.has(Flags::LOAD | Flags::CONTENTS) && !self.flags.has(Flags::NEVER_LOAD)
    }
}

/// The greatest power of two that an alignment and an address have in common (elf.c, `elf_fake_sections`).
pub(crate) fn common_align(align: u64, address: u64) -> u64 {
    let bits = align.max(1) | address;
    bits & bits.wrapping_neg()
}

/// An input section.
#[derive(Clone, PartialEq, Eq, Debug)]
pub struct InputSection {
    /// Its object; of what GNU ld makes itself, the object that it is made in.
    pub object: ObjectIndex,
    /// Where it comes from.
    pub origin: Origin,
    /// Its name.
    pub name: NameId,
    /// Its flags.
    pub flags: Flags,
    /// Its type (`sh_type`).
    pub kind: u32,
    /// Its flags in the section header (`sh_flags`).
    pub bits: u64,
    /// The size of its entries (`sh_entsize`).
    pub entry_size: u64,
    /// Its bytes.
    pub size: u64,
    /// The bytes that its header says, if it has one.
    pub own_size: u64,
    /// Its own alignment.
    pub own_align: u64,
    /// Its alignment in the output section (SUBALIGN).
    pub align: u64,
    /// Where it goes.
    pub fate: Fate,
    /// Its distance from the start of the output section.
    pub offset: u64,
}

/// Where an input section comes from.
#[derive(Clone, Copy, PartialEq, Eq, Debug)]
pub enum Origin {
    /// An object's section, by the number of its header.
    Header(SectionIndex),
    /// The common blocks of an object.
    Common,
    /// GNU ld makes it.
    Linker,
}

/// Where an input section goes.
#[derive(Clone, Copy, PartialEq, Eq, Debug)]
pub enum Fate {
    /// Nowhere yet.
    Open,
    /// The section is left out.
    Discarded,
    /// Into an output section.
    Output(OutputId),
}

impl InputSection {
    /// Whether it is the section of an object's common blocks.
    pub fn is_common(&self) -> bool {
        self.origin == Origin::Common
    }

    /// Whether `ldi` links it: it has ALLOC, and is no section of GNU ld's own.
    pub fn is_linked(&self) -> bool {
        let is_loaded = self.bits & u64::from(elf::SHF_ALLOC) != 0 || self.is_common();
        is_loaded && !self.flags.has(Flags::CREATED | Flags::EXCLUDE)
    }

    /// The number of its header; `None` of common blocks and of what GNU ld makes itself.
    pub fn number(&self) -> Option<SectionIndex> {
        match self.origin {
            Origin::Header(number) => Some(number),
            Origin::Common | Origin::Linker => None,
        }
    }

    /// The output section that it is in.
    pub fn output(&self) -> Option<OutputId> {
        match self.fate {
            Fate::Output(output) => Some(output),
            Fate::Open | Fate::Discarded => None,
        }
    }
}

/// A region of MEMORY.
#[derive(Clone, PartialEq, Eq, Debug)]
pub struct Region {
    /// Its name.
    pub name: Name,
    /// ORIGIN.
    pub origin: u64,
    /// LENGTH.
    pub length: u64,
    /// Where its sections end.
    pub current: u64,
    /// Where it stands; `None` of one that MEMORY does not have.
    pub span: Option<Span>,
}

/// Who gives a symbol its value.
#[derive(Clone, Copy, PartialEq, Eq, Debug)]
pub enum Definer {
    /// Nobody.
    None,
    /// The script, at last in this statement.
    Script(StatementId),
    /// An object, in an input section, or as an absolute one.
    Object(Option<SectionId>),
    /// GNU ld: the start or end of a section of that name.
    Linker,
}

/// A symbol that is not local.
#[derive(Clone, PartialEq, Eq, Debug)]
pub struct Symbol {
    /// Its name.
    pub name: Name,
    /// Who gives it its value.
    pub definer: Definer,
    /// Its value at the end; `None` if it is undefined.
    pub value: Option<Value>,
    /// Whether the script gives a value to what an object defines.
    pub is_overridden: bool,
    /// Whether it is weak.
    pub is_weak: bool,
    /// Whether an object has it undefined, or defines it.
    pub is_in_objects: bool,
    /// Whether it is HIDDEN.
    pub is_hidden: bool,
    /// The output section that GNU ld's table of symbols has it in; `None` of an absolute one.
    pub section: Option<OutputId>,
    /// Whether the script hides it, by which it is local in the image.
    pub is_local: bool,
    /// Whether an assignment of it stands in an output section that counts, or outside of all: GNU ld's table of
    /// symbols has it then, even if it is undefined.
    pub is_recorded: bool,
    /// Whether ENTRY, EXTERN, `-e` or `-u` name it: GNU ld's table of symbols has it, even if nothing defines it.
    pub is_asked_for: bool,
    /// Whether GNU ld has given it a value as the start or end of a section, which may not stay.
    pub is_bound: bool,
    /// Its value when GNU ld looks at relocations, before sections have places, of a symbol that the script assigns.
    pub first_value: Option<u64>,
    /// The symbols that its assignments name alone: it takes the type of the last one, and the visibilities of all
    /// (elflink.c, `_bfd_elf_copy_link_hash_symbol_type`).
    pub likes: Vec<SymbolId>,
}

impl Evaluation {
    /// The output section of an index.
    pub fn output(&self, id: OutputId) -> Option<&OutputSection> {
        self.outputs.get(id.index())
    }

    /// The input section of an index.
    pub fn section(&self, id: SectionId) -> Option<&InputSection> {
        self.sections.get(id.index())
    }

    /// The statement of an index.
    pub fn statement(&self, id: StatementId) -> Option<&Statement> {
        self.statements.get(id.index())
    }

    /// The statement that stands at a place in the text.
    pub fn statement_at(&self, span: Span) -> Option<&Statement> {
        self.statement(*self.by_span.get(&span)?)
    }

    /// The output section whose statement stands at a place in the text.
    pub fn output_at(&self, span: Span) -> Option<&OutputSection> {
        match self.statement_at(span)?.kind {
            StatementKind::Output(id) => self.output(id),
            _ => None,
        }
    }

    /// The value that an expression had last, by its place in the text; `None` if it was never known.
    pub fn value_at(&self, span: Span) -> Option<Value> {
        self.values.get(&span).copied()
    }

    /// A symbol that script, command line or GNU ld itself speak of, by its name.
    pub fn symbol(&self, name: &[u8]) -> Option<&Symbol> {
        self.by_name.get(name.as_bstr()).and_then(|id| self.symbols.get(id.index()))
    }

    /// Where what was at a place of a section of an object is, if the section is merged.
    pub fn merged_place(&self, object: ObjectIndex, section: SectionIndex, offset: u64) -> Option<(MergeSource, u64)> {
        let beside = || self.merges_beside.place(object, section, offset);
        self.merges.place(object, section, offset).or_else(beside)
    }

    /// The section of an object by the number of its header.
    pub fn section_of(&self, object: ObjectIndex, number: SectionIndex) -> Option<SectionId> {
        let first = *self.first_headers.get(object.0 as usize)?;
        let end = self.first_headers.get(object.0 as usize + 1)?;
        let at = first.checked_add(number.0).filter(|at| at < end)?;
        let index = *self.by_header.get(at as usize)?;
        (index != NOWHERE).then(|| SectionId::new(index as usize))
    }

    /// The sections of an object, in the order of its headers.
    pub fn sections_of(&self, object: ObjectIndex) -> &[InputSection] {
        let bound = |at: usize| self.first_sections.get(at).map(|first| *first as usize);
        let bounds = bound(object.0 as usize).zip(bound(object.0 as usize + 1));
        bounds.and_then(|(first, end)| self.sections.get(first..end)).unwrap_or_default()
    }

    /// Counts the sections of each object, by which they are found: they are in the order of objects, and of headers.
    pub(crate) fn count_sections(&mut self) {
        (self.first_sections, self.first_headers, self.by_header) = Default::default();
        for (index, section) in self.sections.iter().enumerate() {
            let count = (section.object.0 as usize + 1).max(self.first_sections.len());
            self.first_sections.resize(count, index as u32);
            self.first_headers.resize(count, self.by_header.len() as u32);
            let first = self.first_headers.last().copied().unwrap_or(0);
            if let Some(number) = section.number() {
                self.by_header.resize(first as usize + number.0 as usize, NOWHERE);
                self.by_header.push(index as u32);
            }
        }
        self.first_sections.push(self.sections.len() as u32);
        self.first_headers.push(self.by_header.len() as u32);
    }

    /// The name of an input section.
    pub fn section_name(&self, section: &InputSection) -> &BStr {
        self.names.get(section.name)
    }

    /// The address of an input section; `None` if it is in no output section.
    pub fn section_address(&self, section: &InputSection) -> Option<u64> {
        let place = self.output(section.output()?)?.place.as_ref()?;
        Some(place.address.wrapping_add(section.offset))
    }

    /// The places of the output sections that are in the image, in their order.
    pub fn places(&self) -> impl Iterator<Item = (OutputId, &Placed)> {
        self.order.iter().filter_map(move |id| Some((*id, self.output(*id)?.in_image()?)))
    }

    /// The output sections that are in the image, in their order.
    pub fn in_image(&self) -> impl Iterator<Item = (&OutputSection, &Placed)> {
        self.order.iter().filter_map(move |id| {
            let output = self.output(*id)?;
            Some((output, output.in_image()?))
        })
    }
}
