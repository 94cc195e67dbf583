//! Files made from small images in the form of docs/layout.md.

use super::image_headers::{Image, Section, Segment, ELF_HEADER};
use super::*;
use crate::layout::segments::{InMemory, Paging};
use crate::layout::Flags;
use object::elf;

/// A section of an image that is made: name, flags, address, load address, bytes (`None` without file bytes), size.
#[derive(Clone, Copy)]
struct Made<'a>(&'a str, u64, u64, u64, Option<&'a [u8]>, u64);

/// An image as `ldi` writes it, with a segment for each section.
fn image(sections: &[Made<'_>]) -> Vec<u8> {
    let mut data = vec![0; 64];
    data[..7].copy_from_slice(b"\x7fELF\x02\x01\x01");
    let mut end = 64 + 56 * sections.len() as u64;
    let mut headers = vec![Section {
        name: 0,
        kind: 0,
        flags: 0,
        address: 0,
        offset: 0,
        size: 0,
        link: 0,
        info: 0,
        align: 0,
        entry_size: 0,
    }];
    let (mut names, mut segments, mut bytes) = (vec![0], Vec::new(), Vec::new());
    for Made(name, flags, address, load, content, size) in sections {
        let offset = end + (address.wrapping_sub(end) & (PAGE - 1));
        let at = names.len() as u32;
        names.extend_from_slice(name.as_bytes());
        names.push(0);
        let file_size = content.map_or(0, |content| content.len() as u64);
        let kind = if content.is_some() { 1 } else { 8 };
        headers.push(Section {
            name: at,
            kind,
            flags: 2 | flags,
            address: *address,
            offset,
            size: *size,
            link: 0,
            info: 0,
            align: 4,
            entry_size: 0,
        });
        let rights = 4 | if flags & 1 != 0 { 2 } else { 0 } | if flags & 4 != 0 { 1 } else { 0 };
        segments.push(Segment {
            kind: 1,
            flags: rights,
            offset,
            address: *address,
            load: *load,
            file_size,
            memory_size: *size,
            align: PAGE,
        });
        if let Some(content) = content {
            bytes.push((offset, content.to_vec()));
            end = offset + file_size;
        }
    }
    let table = names.len() as u64 + 11;
    let name = names.len() as u32;
    names.extend_from_slice(b".shstrtab\0\0");
    let names_at = file_image::aligned(end, 8);
    headers.push(Section {
        name,
        kind: 3,
        flags: 0,
        address: 0,
        offset: names_at,
        size: table,
        link: 0,
        info: 0,
        align: 1,
        entry_size: 0,
    });
    bytes.push((names_at, names));
    let headers_at = file_image::aligned(names_at + table, 8);
    bytes.push((headers_at, headers.iter().flat_map(Section::bytes).collect()));
    data.extend(segments.iter().flat_map(Segment::bytes));
    for (at, part) in bytes {
        data.resize(at as usize, 0);
        data.extend(part);
    }
    data[32..40].copy_from_slice(&64_u64.to_le_bytes());
    data[40..48].copy_from_slice(&headers_at.to_le_bytes());
    data[54..56].copy_from_slice(&56_u16.to_le_bytes());
    data[56..58].copy_from_slice(&(segments.len() as u16).to_le_bytes());
    data[60..62].copy_from_slice(&(headers.len() as u16).to_le_bytes());
    data[62..64].copy_from_slice(&(headers.len() as u16 - 1).to_le_bytes());
    data
}

pub(super) fn text_and_data() -> Vec<u8> {
    image(&[
        Made(".text", 4, 0x401000, 0x1000, Some(b"code"), 4),
        Made(".data", 1, 0x402000, 0x2000, Some(b"data"), 4),
        Made(".bss", 1, 0x402008, 0x2008, None, 16),
    ])
}

fn wanted(name: &str, kind: u32, sections: &[&str]) -> WantedSegment {
    let sections = sections.iter().map(|name| BString::from(*name)).collect();
    WantedSegment { name: name.into(), kind, sections, ..WantedSegment::default() }
}

#[test]
fn an_image_without_a_form_stays() {
    let data = text_and_data();
    let done = finish(data.clone(), &Form::default(), None, Vec::new()).unwrap();
    assert!(done.notes.is_empty());
    assert_eq!(done.file.into_vec(), data);
}

#[test]
fn segments_are_aligned_to_larger_pages() {
    let form = Form { page: 0x20_0000, ..Form::default() };
    let file = finish(text_and_data(), &form, None, Vec::new()).unwrap().file.to_vec();
    let image = Image::read(&file).unwrap();
    for segment in &image.segments {
        assert_eq!(segment.align, 0x20_0000);
        assert_eq!(segment.offset % 0x20_0000, segment.address % 0x20_0000);
    }
    let text = image.sections[1];
    assert_eq!(image.content(&text).unwrap(), b"code");
    assert_eq!(image.name(&text).unwrap(), ".text");
}

#[test]
fn segments_too_far_apart_are_refused() {
    let form = Form { page: 1 << 40, ..Form::default() };
    let descending = image(&[Made(".a", 4, 0x2000, 0, Some(b"a"), 1), Made(".b", 4, 0x1000, 0, Some(b"b"), 1)]);
    assert!(matches!(finish(descending, &form, None, Vec::new()), Err(FinishError::TooFar(_))));
}

#[test]
fn program_headers_are_those_of_phdrs() {
    let all = WantedSegment { flags: Some(7), ..wanted("all", 1, &[".text"]) };
    let form = Form {
        segments: Some(vec![all, wanted("data", 1, &[".data", ".bss"]), wanted("note", 4, &[])]),
        ..Form::default()
    };
    let done = finish(text_and_data(), &form, None, Vec::new()).unwrap();
    assert!(done.notes.is_empty());
    let file = done.file.to_vec();
    let image = Image::read(&file).unwrap();
    assert_eq!(image.segments.iter().map(|one| (one.kind, one.flags)).collect::<Vec<_>>(), [(1, 7), (1, 6), (4, 0)]);
    let data = image.segments[1];
    assert_eq!((data.address, data.load, data.file_size, data.memory_size), (0x402000, 0x2000, 4, 24));
    assert_eq!(image.bytes_at(data.offset, 4).unwrap(), b"data");
}

#[test]
fn the_first_load_may_have_the_headers() {
    let first = WantedSegment { has_file_header: true, has_program_headers: true, ..wanted("text", 1, &[".text"]) };
    let table = WantedSegment { has_program_headers: true, ..wanted("headers", 6, &[]) };
    let form = Form { segments: Some(vec![table, first, wanted("data", 1, &[".data", ".bss"])]), ..Form::default() };
    let file = finish(text_and_data(), &form, None, Vec::new()).unwrap().file.to_vec();
    let segments = Image::read(&file).unwrap().segments;
    assert_eq!((segments[1].offset, segments[1].address, segments[1].file_size), (0, 0x400000, 0x1004));
    assert_eq!((segments[0].offset, segments[0].address, segments[0].file_size), (64, 0x400040, 3 * 56));
}

/// What GNU ld would make of the sections of `text_and_data`.
fn made_headers(is_paged: bool, has_moved: bool) -> MadeHeaders {
    let section = |name: &str, bits: u64, load: u64, size: u64, has_bytes: bool| {
        let mut flags = Flags::ALLOC | if has_bytes { Flags::LOAD | Flags::CONTENTS } else { Flags::NONE };
        flags |= if bits == 4 { Flags::CODE | Flags::READONLY } else { Flags::NONE };
        let address = load + 0x400000 + u64::from(has_moved);
        let memory = InMemory { address, load, size, align: 4, flags, has_bytes, region: 0 };
        MadeSection { name: name.into(), bits, memory }
    };
    let paging =
        Paging { page: PAGE, is_paged, separates_code: true, wants_headers: false, header_size: ELF_HEADER + 2 * 56 };
    MadeHeaders {
        sections: vec![
            section(".text", 4, 0x1000, 4, true),
            section(".data", 1, 0x2000, 4, true),
            section(".bss", 1, 0x2008, 16, false),
        ],
        paging,
        has_own_page: false,
        room: 0,
        before: Vec::new(),
        after: vec![MadeSegment { kind: elf::PT_GNU_STACK, flags: Some(6), align: 16, ..MadeSegment::default() }],
        relro: None,
    }
}

/// elf.c, `_bfd_elf_map_sections_to_segments`: without pages one segment has all rights.
#[test]
fn program_headers_are_those_of_gnu_ld() {
    let segments = |headers: MadeHeaders| {
        let form = Form { headers: Some(headers), ..Form::default() };
        let file = finish(text_and_data(), &form, None, Vec::new()).unwrap().file.into_vec();
        let image = Image::read(&file).unwrap();
        assert_eq!(image.content(&image.sections[2]).unwrap(), b"data");
        let row = |one: &Segment| (one.kind, one.flags, one.offset, one.address, one.memory_size, one.align);
        image.segments.iter().map(row).collect::<Vec<_>>()
    };
    let stack = (elf::PT_GNU_STACK, 6, 0, 0, 0, 16);
    let divided = vec![(1, 5, 0x1000, 0x401000, 4, PAGE), (1, 6, 0x2000, 0x402000, 24, PAGE), stack];
    assert_eq!(segments(made_headers(false, false)), [(1, 7, 232 - 56, 0x401000, 0x1018, 4), stack]);
    assert_eq!(segments(made_headers(true, false)), divided);
    assert_eq!(segments(made_headers(true, true)), divided, "the image is laid out otherwise");
}

#[test]
fn a_section_in_no_segment_is_said() {
    let form = Form { segments: Some(vec![wanted("text", 1, &[".text"])]), ..Form::default() };
    let notes = finish(text_and_data(), &form, None, Vec::new()).unwrap().notes;
    assert_eq!(notes, [FinishNote::Outside(".data".into()), FinishNote::Outside(".bss".into())]);
}

#[test]
fn program_headers_that_cannot_be_are_said() {
    let twice = vec![wanted("a", 1, &[".text"]), wanted("b", 1, &[".text"])];
    let done = finish(text_and_data(), &Form { segments: Some(twice), ..Form::default() }, None, Vec::new()).unwrap();
    assert_eq!(
        done.notes[0].to_string(),
        "PHDRS: .text is in a and in b, both PT_LOAD: segments follow addresses, sizes \
                                           and flags of the output sections"
    );
    assert_eq!(done.file.to_vec(), text_and_data());
    let late = vec![wanted("a", 1, &[".text"]), WantedSegment { has_file_header: true, ..wanted("b", 1, &[".data"]) }];
    let done = finish(text_and_data(), &Form { segments: Some(late), ..Form::default() }, None, Vec::new()).unwrap();
    assert!(matches!(done.notes[0], FinishNote::NotWritten(NotWritten::LateHeaders(_))));
    let unknown = Form { segments: Some(vec![]), segments_problem: Some("why".into()), ..Form::default() };
    let note = finish(text_and_data(), &unknown, None, Vec::new()).unwrap().notes.remove(0);
    assert_eq!(note, FinishNote::NotWritten(NotWritten::Unknown("why".into())));
}

#[test]
fn sections_get_their_names() {
    let form =
        Form { names: vec![(".data".into(), ".text".into()), (".bss".into(), ".b+s".into())], ..Form::default() };
    let file = finish(text_and_data(), &form, None, Vec::new()).unwrap().file.to_vec();
    let image = Image::read(&file).unwrap();
    let names: Vec<&bstr::BStr> = image.sections.iter().map(|one| image.name(one).unwrap()).collect();
    assert_eq!(names, ["", ".text", ".text", ".b+s", ".shstrtab"]);
}

/// ldlang.c, `lang_process`: `.text` is not writable; `lang_add_section`: the flags of what is in a section.
#[test]
fn sections_have_the_rights_of_gnu_ld() {
    let text = Made(".text", 5, 0x1000, 0x1000, Some(b"abcd"), 4);
    let data = Made(".data", 0, 0x2000, 0x2000, Some(b"efgh"), 4);
    let rights = |flags: [u64; 2]| {
        let of = |address, flags| Rights { address, size: 4, flags, kind: 1, align: 4, entry_size: 0 };
        let form = Form { rights: vec![of(0x1000, flags[0]), of(0x2000, flags[1])], ..Form::default() };
        let file = finish(image(&[text, data]), &form, None, Vec::new()).unwrap().file.into_vec();
        let image = Image::read(&file).unwrap();
        let sections: Vec<u64> = image.sections.iter().filter(|one| one.size == 4).map(|one| one.flags).collect();
        (sections, image.segments.iter().map(|one| one.flags).collect::<Vec<u32>>())
    };
    assert_eq!(rights([7, 2]), (vec![7, 2], vec![7, 4]));
    assert_eq!(rights([6, 3]), (vec![6, 3], vec![5, 6]));
}

/// elf.c, `elf_fake_sections`: notes and tables of functions have types of their own.
#[test]
fn sections_have_the_types_of_gnu_ld() {
    let note = Made(".n", 4, 0x1000, 0x1000, Some(b"abcd"), 4);
    let kind = |kind| {
        let own = Rights { address: 0x1000, size: 4, flags: 0, kind, align: 4, entry_size: 0 };
        let form = Form { rights: vec![own], ..Form::default() };
        let file = finish(image(&[note]), &form, None, Vec::new()).unwrap().file.into_vec();
        let sections = Image::read(&file).unwrap().sections;
        sections.iter().filter(|one| one.size == 4).map(|one| one.kind).collect::<Vec<u32>>()
    };
    for (wanted, found) in [
        (elf::SHT_NOTE, elf::SHT_NOTE),
        (elf::SHT_HASH, elf::SHT_HASH),
        (elf::SHT_NOBITS, elf::SHT_PROGBITS),
        (elf::SHT_RELA, elf::SHT_PROGBITS),
    ] {
        assert_eq!(kind(wanted), [found]);
    }
}

/// elf.c, `elf_fake_sections`: entries of one size, whether they are merged, and alignments.
#[test]
fn sections_have_the_entries_of_gnu_ld() {
    let strings = Made(".s", 4, 0x1000, 0x1000, Some(b"abc\0"), 4);
    let own = Rights { address: 0x1000, size: 4, flags: 0x32, kind: 1, align: 64, entry_size: 1 };
    let form = Form { rights: vec![own], ..Form::default() };
    let file = finish(image(&[strings]), &form, None, Vec::new()).unwrap().file.into_vec();
    let sections = Image::read(&file).unwrap().sections;
    let found = sections.iter().filter(|one| one.size == 4).map(|one| (one.flags, one.align, one.entry_size));
    assert_eq!(found.collect::<Vec<_>>(), [(0x32, 64, 1)]);
}

#[test]
fn a_flat_binary_has_the_bytes_by_their_load_addresses() {
    let form = Form { is_flat: true, ..Form::default() };
    let flat = finish(text_and_data(), &form, None, Vec::new()).unwrap().file.into_vec();
    assert_eq!(flat.len(), 0x1004);
    assert_eq!((&flat[..4], &flat[0x1000..]), (&b"code"[..], &b"data"[..]));
    let form = Form { left_out: vec![(0x402000, 4)], ..form };
    let flat = finish(text_and_data(), &form, None, Vec::new()).unwrap().file.into_vec();
    assert_eq!(flat, b"code");
    let far = image(&[Made(".a", 4, 0, 0, Some(b"a"), 1), Made(".b", 4, 1 << 40, 1 << 40, Some(b"b"), 1)]);
    assert!(matches!(finish(far, &form, None, Vec::new()), Err(FinishError::NoFlatImage(_))));
    assert!(finish(image(&[]), &form, None, Vec::new()).unwrap().file.is_empty());
}

#[test]
fn what_is_loaded_is_tested() {
    let data = text_and_data();
    let read = Image::read(&data).unwrap();
    let plan = file_image::FilePlan::unchanged(&read);
    let segments = plan.segments.clone();
    let file = plan.clone().file(data.clone().into());
    loaded::check(&file, &segments, &[]).unwrap();
    let mut other = segments.clone();
    other[1].load += 8;
    let fault = loaded::check(&file, &other, &[]).unwrap_err().to_string();
    assert_eq!(
        fault,
        "the file would not have .data as the session answered it: no segment loads it there; none is \
                       written"
    );
    let mut moved = plan;
    moved.loaded[0].1 = 0..4;
    let fault = loaded::check(&moved.file(data.into()), &segments, &[]).unwrap_err().to_string();
    assert!(fault.contains(".text") && fault.contains("its bytes are others"), "{fault}");
}

#[test]
fn no_bytes_make_it_panic() {
    let data = text_and_data();
    for form in [
        Form { page: 1 << 21, ..Form::default() },
        Form { is_flat: true, ..Form::default() },
        Form { names: vec![(".text".into(), "t".into())], ..Form::default() },
        Form { segments: Some(vec![wanted("a", 1, &[".text", ".data", ".bss"])]), ..Form::default() },
        Form { headers: Some(made_headers(true, false)), ..Form::default() },
    ] {
        for length in 0..data.len().min(900) {
            let _ = finish(data[..length].to_vec(), &form, None, Vec::new());
        }
        for at in 0..data.len() {
            let mut torn = data.clone();
            torn[at] = 0xFF;
            let _ = finish(torn, &form, None, Vec::new());
        }
    }
}
