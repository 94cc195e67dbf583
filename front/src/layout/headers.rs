//! How many program headers GNU ld's image has, for SIZEOF_HEADERS: guessed before the first layout, found after each.

use super::flags::Flags;
use super::ids::{OutputId, SectionId};
use super::link::Link;
use super::program::Place;
use super::section_headers::kind_of;
use super::segments::{is_relro, loads, InMemory, Paging};
use object::elf;

const ELF_HEADER: u64 = 64;
const PROGRAM_HEADER: u64 = 56;

/// What is known of the program headers.
#[derive(Clone, Debug)]
pub(crate) struct Headers {
    /// Whether an object says of its stack.
    pub has_stack: bool,
    /// The section of the table of `.eh_frame`, for PT_GNU_EH_FRAME.
    pub eh_frame_hdr: Option<SectionId>,
    /// Whether there is anything for PT_GNU_RELRO.
    pub has_relro: bool,
    /// From DATA_SEGMENT_ALIGN to DATA_SEGMENT_RELRO_END.
    pub relro: Option<(u64, u64)>,
    /// How many there are, once it is known.
    pub count: Option<u64>,
    /// Whether the script has SIZEOF_HEADERS.
    pub is_wanted: bool,
}

impl Headers {
    pub fn new(has_relro: bool) -> Headers {
        Headers { has_stack: false, eh_frame_hdr: None, has_relro, relro: None, count: None, is_wanted: false }
    }
}

/// Whether a section is of thread-local data without contents, which takes no room (ldlang.c, `IS_TBSS`).
pub(crate) fn is_tbss(place: &Place) -> bool {
    !place.flags.has(Flags::LOAD) && place.flags.has(Flags::TLS)
}

/// Its bytes in memory.
pub(crate) fn room(place: &Place) -> u64 {
    if is_tbss(place) {
        0
    } else {
        place.size
    }
}

impl Link<'_> {
    /// The value of SIZEOF_HEADERS now; a flat image has no headers.
    pub fn headers_size(&mut self) -> u64 {
        if self.settings.flat {
            return 0;
        }
        let count = match self.headers.count {
            Some(count) => count,
            None => self.program.phdrs.filter(|count| *count > 0).unwrap_or_else(|| self.guess_headers()),
        };
        self.headers.count = Some(count);
        PROGRAM_HEADER.wrapping_mul(count).wrapping_add(ELF_HEADER)
    }

    /// How many GNU ld counts with before it knows (elf.c, `get_program_header_size`).
    fn guess_headers(&self) -> u64 {
        let has_tls = self.places().any(|(_, place)| place.flags.has(Flags::TLS));
        2 + 2 * u64::from(self.has_interpreter())
            + u64::from(self.headers.has_relro)
            + u64::from(self.headers.eh_frame_hdr.is_some())
            + u64::from(self.headers.has_stack)
            + u64::from(self.has_properties())
            + self.note_headers(false)
            + self.large_headers()
            + u64::from(has_tls)
            + u64::from(self.has_dynamic(false))
    }

    /// How many it counts for the large model (elf64-x86-64.c, `elf_x86_64_additional_program_headers`).
    fn large_headers(&self) -> u64 {
        let is_loaded = |name: &&&[u8]| {
            let place = super::make_evaluation::first_made(self, name).and_then(|output| self.place(output));
            place.map_or(false, |place| !place.is_gone && place.flags.has(Flags::LOAD))
        };
        [&b".lrodata"[..], b".ldata"].iter().filter(is_loaded).count() as u64
    }

    /// Whether there is something for PT_DYNAMIC.
    fn has_dynamic(&self, must_be_loaded: bool) -> bool {
        self.places().any(|(id, place)| {
            (!must_be_loaded || place.flags.has(Flags::LOAD))
                && self.output(id).map_or(false, |output| self.program.names.get(output.name) == ".dynamic")
        })
    }

    /// Whether there is something for PT_INTERP, with which there is PT_PHDR too.
    fn has_interpreter(&self) -> bool {
        self.places().any(|(id, place)| {
            let is_it = |output: &super::program::Output| self.program.names.get(output.name) == ".interp";
            place.size != 0 && place.flags.has(Flags::LOAD) && self.output(id).map_or(false, is_it)
        })
    }

    /// Whether there is a table of `.eh_frame` that is loaded.
    fn has_loaded_eh_frame_hdr(&self) -> bool {
        let output = self.headers.eh_frame_hdr.and_then(|id| self.section(id)?.output());
        output.and_then(|output| self.place(output)).map_or(false, |place| place.flags.has(Flags::LOAD))
    }

    fn has_properties(&self) -> bool {
        self.places().any(|(id, place)| {
            place.size != 0
                && self.output(id).map_or(false, |output| self.program.names.get(output.name) == ".note.gnu.property")
        })
    }

    /// How many PT_NOTEs there are: one for notes of one alignment that follow one another.
    fn note_headers(&self, must_touch: bool) -> u64 {
        let mut count = 0;
        let mut before: Option<&Place> = None;
        for (_, place) in self.places() {
            if !place.flags.has(Flags::LOAD) || place.kind != elf::SHT_NOTE {
                before = None;
                continue;
            }
            let is_joined = before.map_or(false, |before| {
                let end = before.load.wrapping_add(before.size);
                let next = super::expr::compiled::align_up(end, place.align);
                before.align == place.align && (!must_touch || next == place.load)
            });
            count += u64::from(!is_joined);
            before = Some(place);
        }
        count
    }

    /// How the file is laid out in pages, if PHDRS do not say it.
    pub fn paging(&self) -> Option<Paging> {
        let count = self.headers.count.unwrap_or_else(|| self.guess_headers());
        let settings = self.settings;
        self.program.phdrs.is_none().then(|| Paging {
            page: settings.max_page.max(1),
            is_paged: settings.paged,
            separates_code: settings.separate_code,
            wants_headers: self.headers.is_wanted || self.has_interpreter(),
            header_size: PROGRAM_HEADER.wrapping_mul(count).wrapping_add(ELF_HEADER),
        })
    }

    /// The output sections that take memory, in the order of the file's headers.
    pub fn in_memory(&self) -> impl Iterator<Item = (OutputId, InMemory)> + '_ {
        let allocated = self.places().filter(|(_, place)| place.flags.has(Flags::ALLOC));
        allocated.map(move |(id, place)| {
            let Place { address, load, size, align, flags, .. } = *place;
            let has_bytes = kind_of(place, true) != elf::SHT_NOBITS;
            (id, InMemory { address, load, size, align, flags, has_bytes, region: self.region_of(id) })
        })
    }

    /// The region of the first section of a section's name (ldlang.c, `ldlang_override_segment_assignment`).
    fn region_of(&self, id: OutputId) -> usize {
        let first = self.output(id).and_then(|output| self.program.find(output.name)).unwrap_or(id);
        self.output(first).map_or(0, |output| output.region.index())
    }

    /// How many program headers the image has (elf.c, `_bfd_elf_map_sections_to_segments`).
    pub fn found_headers(&self) -> u64 {
        if let Some(count) = self.program.phdrs {
            return count;
        }
        let sections: Vec<InMemory> = self.in_memory().map(|(_, one)| one).collect();
        let loads = self.paging().map_or_else(Vec::new, |paging| loads(&sections, &paging));
        let mut count = loads.len() as u64 + 2 * u64::from(self.has_interpreter()) + self.note_headers(true);
        count += u64::from(self.places().any(|(_, place)| place.flags.has(Flags::TLS)));
        count += u64::from(self.has_properties()) + u64::from(self.headers.has_stack);
        count += u64::from(self.has_dynamic(true)) + u64::from(self.has_loaded_eh_frame_hdr());
        if let (true, Some((low, high))) = (self.headers.has_relro, self.headers.relro) {
            count += u64::from(loads.iter().any(|load| is_relro(load, &sections, (low, high))));
        }
        count
    }
}
