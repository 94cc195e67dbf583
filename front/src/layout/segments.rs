//! Which output sections GNU ld loads together if the script has no PHDRS (elf.c,
//! `_bfd_elf_map_sections_to_segments`).

use super::flags::Flags;

/// An output section that takes memory.
#[derive(Clone, Copy, PartialEq, Eq, Debug)]
pub struct InMemory {
    /// Its address.
    pub address: u64,
    /// Its load address.
    pub load: u64,
    /// Its bytes.
    pub size: u64,
    /// Its alignment.
    pub align: u64,
    /// Its flags.
    pub flags: Flags,
    /// Whether it has bytes in the file: its type is not SHT_NOBITS.
    pub has_bytes: bool,
    /// The number of its region of MEMORY.
    pub region: usize,
}

impl InMemory {
    /// Where it ends in memory.
    pub fn end(&self) -> u64 {
        self.address.wrapping_add(self.room())
    }

    /// Its bytes in memory; thread-local data without contents take no room (`IS_TBSS`).
    fn room(&self) -> u64 {
        if self.is_tbss() {
            0
        } else {
            self.size
        }
    }

    fn is_tbss(&self) -> bool {
        self.flags.has(Flags::TLS) && !self.flags.has(Flags::LOAD)
    }

    /// What sections are sorted by (`elf_sort_sections`): load address, address, whether they have bytes, and size.
    fn rank(&self) -> (u64, u64, bool, u64) {
        let is_loaded = self.flags.has(Flags::LOAD);
        let goes_last = !self.flags.has(Flags::LOAD | Flags::TLS) && self.size != 0;
        (self.load, self.address, goes_last, if is_loaded { self.size } else { 0 })
    }
}

/// How the file is laid out in pages.
#[derive(Clone, Copy, PartialEq, Eq, Debug)]
pub struct Paging {
    /// The bytes of a page, a power of two: `-z max-page-size`.
    pub page: u64,
    /// Whether segments are at pages in the file: neither `-n` nor `-N`.
    pub is_paged: bool,
    /// `-z separate-code`
    pub separates_code: bool,
    /// Whether the headers are wanted in memory: by SIZEOF_HEADERS, or by a segment of an interpreter.
    pub wants_headers: bool,
    /// The bytes of the headers of the file, as counted before there are segments.
    pub header_size: u64,
}

/// Where the headers of the file are in memory.
#[derive(Clone, Copy, PartialEq, Eq, Debug)]
pub enum HeaderPlace {
    /// In front of the sections of the segment.
    WithFirst,
    /// In a segment without sections.
    Apart {
        /// Where it begins.
        address: u64,
        /// Where it is loaded.
        load: u64,
    },
}

/// A PT_LOAD.
#[derive(Clone, PartialEq, Eq, Debug, Default)]
pub struct Load {
    /// The headers of the file, if it has them.
    pub headers: Option<HeaderPlace>,
    /// Its sections by their places in the list, sorted.
    pub sections: Vec<usize>,
}

/// The PT_LOADs of sections, which are in the order of the file's headers.
pub fn loads(sections: &[InMemory], paging: &Paging) -> Vec<Load> {
    let mut order: Vec<usize> = (0..sections.len()).collect();
    order.sort_by_key(|at| sections.get(*at).map(InMemory::rank));
    let sorted: Vec<(usize, &InMemory)> = order.into_iter().filter_map(|at| Some((at, sections.get(at)?))).collect();
    let mut found: Vec<Load> = Vec::new();
    let mut headers = sorted.first().and_then(|(_, first)| place_of_headers(sections, first, paging));
    if let Some(HeaderPlace::Apart { .. }) = headers {
        found.push(Load { headers: headers.take(), sections: Vec::new() });
    }
    let (mut is_writable, mut is_code) = (false, false);
    let mut last: Option<&InMemory> = None;
    for (at, section) in &sorted {
        if last.map_or(true, |last| is_apart(last, section, (is_writable, is_code), paging)) {
            found.push(Load { headers: headers.take(), sections: Vec::new() });
            (is_writable, is_code) = (false, false);
        }
        found.last_mut().into_iter().for_each(|load| load.sections.push(*at));
        is_writable |= !section.flags.has(Flags::READONLY);
        is_code |= section.flags.has(Flags::CODE);
        last = Some(section);
    }
    let is_tbss_alone =
        last.map_or(false, InMemory::is_tbss) && found.last().map(|load| load.sections.len()) == Some(1);
    found.truncate(found.len() - usize::from(is_tbss_alone));
    found
}

/// Whether a PT_LOAD is one for whose sake PT_GNU_RELRO is made.
pub fn is_relro(load: &Load, sections: &[InMemory], (low, high): (u64, u64)) -> bool {
    let mut own = load.sections.iter().filter_map(|at| sections.get(*at)).peekable();
    let begins_inside = own.peek().map_or(false, |first| (low..high).contains(&first.address));
    begins_inside && own.any(|one| one.size != 0 && one.flags.has_all(Flags::LOAD | Flags::CONTENTS))
}

/// Where the headers are in memory, if they are: with the first section, if there is room.
fn place_of_headers(sections: &[InMemory], first: &InMemory, paging: &Paging) -> Option<HeaderPlace> {
    let (mask, size) = (paging.page.max(1) - 1, paging.header_size);
    let has_room = paging.wants_headers || first.load & mask >= size & mask;
    if !has_room || !paging.is_paged {
        return None;
    }
    let mut load = first.load.wrapping_sub(size) & !mask;
    let mut is_apart = paging.separates_code && first.flags.has(Flags::CODE);
    if is_apart && load.wrapping_add(size).wrapping_sub(1) & !mask == first.load & !mask {
        // On the page before, if there is one.
        is_apart = load > mask;
        load = if is_apart { load - mask - 1 } else { load };
    }
    let wraps = |one: &InMemory| Some(one.load.wrapping_add(one.size)).filter(|end| *end < one.load);
    let wrapped = sections.iter().filter_map(wraps).next_back().unwrap_or(0);
    if first.load < load || first.load < size || load < wrapped {
        return None;
    }
    let address = first.address.wrapping_sub(size) & !mask;
    Some(if is_apart { HeaderPlace::Apart { address, load } } else { HeaderPlace::WithFirst })
}

/// Whether a section begins another segment than the one before.
fn is_apart(last: &InMemory, section: &InMemory, (is_writable, is_code): (bool, bool), paging: &Paging) -> bool {
    let page = paging.page.max(1);
    let mask = page - 1;
    let end = last.load.wrapping_add(last.room());
    let next_page = end.wrapping_add(mask) & !mask;
    let has_moved = last.load.wrapping_sub(last.address) != section.load.wrapping_sub(section.address);
    let is_new = if has_moved || section.load < end || end < last.load {
        true
    } else if paging.is_paged && end.wrapping_sub(1) & !mask == section.load & !mask {
        false
    } else if next_page.wrapping_add(page) > last.load && next_page.wrapping_add(page) <= section.load {
        // A page between them would be skipped.
        true
    } else if !last.flags.has(Flags::LOAD | Flags::TLS) && section.flags.has(Flags::LOAD | Flags::TLS) {
        true
    } else if !paging.is_paged {
        false
    } else if paging.separates_code && is_code != section.flags.has(Flags::CODE) {
        true
    } else {
        !is_writable && !section.flags.has(Flags::READONLY)
    };
    // ldlang.c, `ldlang_override_segment_assignment`
    is_new || last.region != section.region
}

#[cfg(test)]
mod tests {
    use super::*;

    const DATA: Flags = Flags::ALLOC;

    fn section(load: u64, size: u64, flags: Flags) -> InMemory {
        let flags = flags | DATA | if flags.has(Flags::NEVER_LOAD) { Flags::NONE } else { Flags::LOAD };
        let has_bytes = flags.has(Flags::LOAD);
        InMemory { address: load, load, size, align: 1, flags, has_bytes, region: 0 }
    }

    fn grouped(sections: &[InMemory], paging: &Paging) -> Vec<Vec<usize>> {
        loads(sections, paging).into_iter().map(|load| load.sections).collect()
    }

    const PAGED: Paging =
        Paging { page: 0x1000, is_paged: true, separates_code: true, wants_headers: false, header_size: 64 + 3 * 56 };
    const CODE: Flags = Flags::CODE;

    fn read(flags: Flags) -> Flags {
        flags | Flags::READONLY
    }

    /// What shares a page is loaded together, whatever its rights are; without pages only gaps divide.
    #[test]
    fn rights_divide_pages() {
        let (code, constant, data) = (read(CODE), read(Flags::NONE), Flags::NONE);
        let apart = [section(0x1000, 4, code), section(0x2000, 4, constant), section(0x3000, 4, data)];
        assert_eq!(grouped(&apart, &PAGED), [vec![0], vec![1], vec![2]]);
        let joined = Paging { separates_code: false, ..PAGED };
        assert_eq!(grouped(&apart, &joined), [vec![0, 1], vec![2]]);
        assert_eq!(grouped(&apart, &Paging { is_paged: false, ..PAGED }), [vec![0, 1, 2]]);
        let near = [section(0x1000, 4, code), section(0x1010, 4, constant), section(0x1020, 4, data)];
        assert_eq!(grouped(&near, &PAGED), [vec![0, 1, 2]]);
        let far = [section(0x1000, 4, constant), section(0x3000, 4, constant)];
        assert_eq!(grouped(&far, &PAGED), [vec![0], vec![1]]);
    }

    /// Bytes behind memory without bytes, another distance from the load address, and another region.
    #[test]
    fn other_reasons_to_divide() {
        let room = section(0x2ff0, 0x20, Flags::NEVER_LOAD);
        let unpaged = Paging { is_paged: false, ..PAGED };
        assert_eq!(grouped(&[room, section(0x3010, 4, Flags::NONE)], &unpaged), [vec![0], vec![1]]);
        assert_eq!(grouped(&[room, section(0x3010, 4, Flags::NONE)], &PAGED), [vec![0, 1]]);
        let (one, other) = (section(0x1000, 4, Flags::NONE), section(0x1010, 4, Flags::NONE));
        assert_eq!(grouped(&[one, InMemory { address: 0x9010, ..other }], &PAGED), [vec![0], vec![1]]);
        assert_eq!(grouped(&[one, InMemory { region: 1, ..other }], &PAGED), [vec![0], vec![1]]);
    }

    /// In front of the first section if there is room; in front of code in a segment of their own.
    #[test]
    fn headers() {
        let of = |load, flags, paging: &Paging| loads(&[section(load, 4, flags)], paging)[0].headers;
        assert_eq!(of(0x400000, read(CODE), &PAGED), None);
        assert_eq!(of(0x401000, Flags::NONE, &Paging { wants_headers: true, ..PAGED }), Some(HeaderPlace::WithFirst));
        assert_eq!(of(0x400200, Flags::NONE, &PAGED), Some(HeaderPlace::WithFirst));
        let apart = HeaderPlace::Apart { address: 0x400000, load: 0x3ff000 };
        assert_eq!(of(0x400200, read(CODE), &PAGED), Some(apart));
        assert_eq!(of(0x400200, read(CODE), &Paging { is_paged: false, ..PAGED }), None);
    }
}
