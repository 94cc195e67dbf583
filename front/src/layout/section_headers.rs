//! What the headers of the output sections say (elf.c, `elf_fake_sections`, `assign_section_numbers`).

use super::evaluation::{InputSection, Placed};
use super::flags::Flags;
use super::ids::OutputId;
use super::interned_names::FastMap;
use super::link::Link;
use super::make_evaluation::first_made;
use super::program::Place;
use object::elf;

/// The bytes of a row of stabs.
const ROW_OF_STABS: u64 = 12;

/// The output sections that headers refer to.
#[derive(Debug, Default)]
pub(super) struct HeaderLinks {
    /// By output section with SHF_LINK_ORDER: where the section is that its first input section belongs to; and by one
    /// of a type that says so: that of a name.
    others: FastMap<OutputId, OutputId>,
    /// By output section of stabs: that of their names.
    stabs: FastMap<OutputId, OutputId>,
}

impl HeaderLinks {
    fn get(&self, id: OutputId) -> Option<OutputId> {
        self.stabs.get(&id).or_else(|| self.others.get(&id)).copied()
    }
}

impl Link<'_> {
    /// The output sections that headers refer to.
    pub(super) fn header_links(&self) -> HeaderLinks {
        let mut links = HeaderLinks::default();
        for (id, place) in self.places() {
            if place.bits & u64::from(elf::SHF_LINK_ORDER) != 0 {
                links.others.extend(self.linked_output(place).map(|linked| (id, linked)));
            }
            let kind = kind_of(place, false);
            if kind == elf::SHT_STRTAB {
                links.stabs.extend(self.rows_of_stabs(id).map(|rows| (rows, id)));
            }
            links.others.extend(self.named_link(kind).map(|named| (id, named)));
        }
        links
    }

    /// The output section in the image of the name to which sections of a type refer.
    fn named_link(&self, kind: u32) -> Option<OutputId> {
        let name = match kind {
            elf::SHT_DYNAMIC | elf::SHT_DYNSYM | elf::SHT_GNU_VERNEED | elf::SHT_GNU_VERDEF => &b".dynstr"[..],
            elf::SHT_HASH | elf::SHT_GNU_HASH | elf::SHT_GNU_VERSYM => b".dynsym",
            _ => return None,
        };
        first_made(self, name).filter(|id| self.place(*id).map_or(false, |place| !place.is_gone))
    }

    /// The output section in the image that the first input section of another one refers to.
    fn linked_output(&self, place: &Place) -> Option<OutputId> {
        let linked = self.section(*self.linked.get(&place.first?)?)?.output()?;
        self.place(linked).filter(|place| !place.is_gone).map(|_| linked)
    }

    /// The output section of the stabs whose names one has, by its own name.
    fn rows_of_stabs(&self, names: OutputId) -> Option<OutputId> {
        let name = self.output(names).map(|output| self.program.names.get(output.name))?;
        name.strip_suffix(b"str").filter(|rows| rows.starts_with(b".stab")).and_then(|rows| first_made(self, rows))
    }

    /// An output section with what its header says.
    pub(super) fn placed(&self, id: OutputId, is_in_segment: bool, links: &HeaderLinks) -> Option<Placed> {
        let place = self.place(id)?;
        let merging = |section: &InputSection| section.flags.has(Flags::MERGE);
        let merges =
            place.flags.has(Flags::MERGE) && place.inputs.iter().filter_map(|id| self.section(*id)).any(merging);
        let entry_size = match links.stabs.contains_key(&id) {
            true => ROW_OF_STABS,
            false if merges => place.entry_size,
            false => entry_size_of(kind_of(place, false)),
        };
        Some(Placed {
            address: place.address,
            load: place.load,
            size: place.size,
            align: place.align,
            flags: place.flags,
            kind: kind_of(place, is_in_segment),
            bits: place.bits | bits_of(place.flags),
            entry_size,
            link: links.get(id),
            is_gone: place.is_gone,
            inputs: place.inputs.clone(),
        })
    }
}

/// The type in the section header (elf.c, `elf_fake_sections`).
pub(super) fn kind_of(place: &Place, is_in_segment: bool) -> u32 {
    // elf.c, `assign_file_positions_for_load_sections`: what has no bytes in a PT_LOAD is SHT_NOBITS.
    if is_in_segment && place.flags.has(Flags::ALLOC) && !place.flags.has(Flags::LOAD | Flags::CONTENTS) {
        return elf::SHT_NOBITS;
    }
    let by_flags = match place.own_kind {
        elf::SHT_NULL if place.flags.has(Flags::ALLOC) && !place.flags.has(Flags::LOAD | Flags::CONTENTS) => {
            elf::SHT_NOBITS
        }
        elf::SHT_NULL => elf::SHT_PROGBITS,
        own => own,
    };
    match place.kind {
        elf::SHT_NULL => by_flags,
        elf::SHT_NOBITS if by_flags == elf::SHT_PROGBITS && place.flags.has(Flags::ALLOC) => by_flags,
        kind => kind,
    }
}

/// The size of the entries of a section of a type, if no strings or constants are merged in it (elf.c,
/// `elf_fake_sections`).
fn entry_size_of(kind: u32) -> u64 {
    match kind {
        elf::SHT_INIT_ARRAY | elf::SHT_FINI_ARRAY | elf::SHT_PREINIT_ARRAY => 8,
        elf::SHT_HASH => 4,
        elf::SHT_DYNSYM => 24,
        elf::SHT_DYNAMIC => 16,
        elf::SHT_GNU_VERSYM => 2,
        _ => 0,
    }
}

/// The flags in the section header (elf.c, `elf_fake_sections`).
fn bits_of(flags: Flags) -> u64 {
    let mut bits = 0;
    for (flag, bit) in [
        (Flags::ALLOC, elf::SHF_ALLOC),
        (Flags::CODE, elf::SHF_EXECINSTR),
        (Flags::MERGE, elf::SHF_MERGE),
        (Flags::STRINGS, elf::SHF_STRINGS),
        (Flags::TLS, elf::SHF_TLS),
    ] {
        if flags.has(flag) {
            bits |= u64::from(bit);
        }
    }
    if flags.has(Flags::READONLY) {
        bits
    } else {
        bits | u64::from(elf::SHF_WRITE)
    }
}
