//! An object that is written by hand after the gABI, and bytes that are no object.

use super::*;
use crate::profile::limits::MAX_OBJECT_NAME;
use std::collections::HashSet;

/// Of an object that is written: a section's name, type, flags and bytes.
pub(crate) struct WrittenSection<'a> {
    pub(crate) name: &'a str,
    pub(crate) kind: u32,
    pub(crate) flags: u64,
    pub(crate) data: &'a [u8],
}

/// Of an object that is written: a symbol's name, binding (with the type in the upper four bits), section number, value
/// and size.
pub(crate) type WrittenSymbol<'a> = (&'a str, u8, u16, u64, u64);

/// An object with sections, from number 1 on, with global symbols, and with relocations of section 1.
pub(crate) fn object(sections: &[WrittenSection], symbols: &[WrittenSymbol], relocations: &[Relocation]) -> Vec<u8> {
    let mut bytes = vec![0; 64];
    let (mut names, mut strings, mut table) = (vec![0], vec![0], vec![0; 24]);
    let mut headers = vec![0; 64];
    let mut place = |bytes: &mut Vec<u8>, name: &str, fields: [u64; 5], data: &[u8]| {
        let [kind, flags, link, info, entry] = fields;
        bytes.resize((bytes.len() + 7) / 8 * 8, 0);
        headers.extend(
            [names.len() as u64 | kind << 32, flags, 0, bytes.len() as u64, data.len() as u64]
                .iter()
                .flat_map(|word| word.to_le_bytes()),
        );
        headers.extend([link | info << 32, 4, entry].iter().flat_map(|word| word.to_le_bytes()));
        names.extend_from_slice(name.as_bytes());
        names.push(0);
        bytes.extend_from_slice(data);
        if name == ".shstrtab" {
            let at = headers.len() - 64;
            let size = names.len() as u64;
            bytes.extend_from_slice(&names);
            headers[at + 32..at + 40].copy_from_slice(&size.to_le_bytes());
        }
        headers.len() / 64
    };
    for section in sections {
        place(&mut bytes, section.name, [section.kind.into(), section.flags, 0, 0, 0], section.data);
    }
    for (name, binding, section, value, size) in symbols {
        table.extend((strings.len() as u32).to_le_bytes());
        table.extend([binding.rotate_left(4), 0]);
        table.extend(section.to_le_bytes());
        table.extend([*value, *size].iter().flat_map(|word| word.to_le_bytes()));
        strings.extend_from_slice(name.as_bytes());
        strings.push(0);
    }
    let number = sections.len() as u64 + 1;
    place(&mut bytes, ".symtab", [2, 0, number + 1, 1, 24], &table);
    place(&mut bytes, ".strtab", [3, 0, 0, 0, 0], &strings);
    let entries: Vec<u8> = relocations
        .iter()
        .flat_map(|one| {
            [one.offset, u64::from(one.kind) | u64::from(one.symbol.0) << 32, one.addend as u64]
                .into_iter()
                .flat_map(|word| word.to_le_bytes())
        })
        .collect();
    place(&mut bytes, ".rela", [4, 0, number, 1, 24], &entries);
    let count = place(&mut bytes, ".shstrtab", [3, 0, 0, 0, 0], b"") as u16;
    let at = bytes.len() as u64;
    bytes.extend_from_slice(&headers);
    bytes[..20].copy_from_slice(b"\x7fELF\x02\x01\x01\0\0\0\0\0\0\0\0\0\x01\0\x3e\0");
    bytes[40..48].copy_from_slice(&at.to_le_bytes());
    bytes[58..60].copy_from_slice(&64u16.to_le_bytes());
    bytes[60..62].copy_from_slice(&count.to_le_bytes());
    bytes[62..64].copy_from_slice(&(count - 1).to_le_bytes());
    bytes
}

/// An object of code with some symbols.
pub(crate) fn code(symbols: &[WrittenSymbol]) -> Vec<u8> {
    object(&[WrittenSection { name: ".text", kind: 1, flags: 6, data: b"\x90\xc3" }], symbols, &[])
}

/// An object that reads a name by a global offset table, by an instruction that needs none.
pub(crate) fn got_object(name: &str) -> Object {
    let text = WrittenSection { name: ".text", kind: 1, flags: 6, data: b"\x48\x8b\x05\0\0\0\0" };
    let reference = Relocation { offset: 3, kind: 42, symbol: SymbolIndex(1), addend: -4 };
    named(name, object(&[text], &[("g", 1, 0, 0, 0)], &[reference]))
}

fn parsed(data: Vec<u8>) -> Elf {
    Elf::parse(data.into()).unwrap()
}

fn named(name: &str, data: Vec<u8>) -> Object {
    Object::new(name.into(), Origin::of_file(Path::new(name)), data.into())
}

fn sample() -> Vec<u8> {
    let sections = [
        WrittenSection { name: ".text", kind: 1, flags: 6, data: b"\x90\x90\xc3" },
        WrittenSection { name: ".note", kind: 7, flags: 0, data: b"note" },
    ];
    let symbols = [("main", 1, 1, 2, 1), ("other", 2, 0, 0, 0), ("block", 1, 0xFFF2, 8, 16), ("five", 1, 0xFFF1, 5, 0)];
    let call = Relocation { offset: 1, kind: 2, symbol: SymbolIndex(2), addend: -4 };
    object(&sections, &symbols, &[call])
}

#[test]
fn sections_have_their_headers_names_and_bytes() {
    let elf = parsed(sample());
    let names: Vec<_> = elf.sections().map(|section| section.name.to_string()).collect();
    assert_eq!(names, [".text", ".note", ".symtab", ".strtab", ".rela", ".shstrtab"]);
    let text = elf.section(SectionIndex(1)).unwrap();
    assert_eq!((text.kind, text.flags, text.size, text.align), (SectionKind::PROGBITS, SectionFlags(6), 3, 4));
    assert_eq!(elf.contents(text.index), b"\x90\x90\xc3");
    assert!(text.is_loaded() && text.has_file_bytes());
    let loaded: Vec<_> = elf.sections().filter(Section::is_loaded).map(|section| section.index).collect();
    assert_eq!(loaded, [SectionIndex(1)]);
    assert_eq!(elf.symbol_table(), SectionIndex(3));
}

#[test]
fn number_0_is_no_section_and_no_symbol() {
    let elf = parsed(sample());
    assert_eq!((elf.section(SectionIndex(0)), elf.section(SectionIndex(7))), (None, None));
    assert_eq!((elf.symbol(SymbolIndex(0)), elf.symbol(SymbolIndex(5))), (None, None));
    assert!(elf.contents(SectionIndex(0)).is_empty() && elf.contents(SectionIndex(99)).is_empty());
}

#[test]
fn symbols_have_their_places() {
    let elf = parsed(sample());
    let found: Vec<_> = elf.globals().map(|one| (one.name.to_string(), one.home, one.rank())).collect();
    let text = Home::Section(SectionIndex(1));
    assert_eq!(
        found,
        [
            ("main".into(), text, Some(Rank::Strong)),
            ("other".into(), Home::Undefined, None),
            ("block".into(), Home::Common, Some(Rank::Common)),
            ("five".into(), Home::Absolute, Some(Rank::Strong)),
        ]
    );
    let main = elf.symbol(SymbolIndex(1)).unwrap();
    assert_eq!((main.binding, main.value, main.size), (Binding::Global, 2, 1));
    assert_eq!(elf.symbol(SymbolIndex(2)).unwrap().binding, Binding::Weak);
    let blocks: Vec<_> = elf.commons().map(|one| (one.value, one.size)).collect();
    assert_eq!(blocks, [(8, 16)]);
}

#[test]
fn a_global_is_found_by_its_name() {
    let elf = parsed(sample());
    let found: Vec<_> = elf.globals_named("other".into()).map(|one| one.index).collect();
    assert_eq!(found, [SymbolIndex(2)]);
    assert_eq!(elf.globals_named("none".into()).count(), 0);
}

#[test]
fn relocations_are_those_of_their_section() {
    let elf = parsed(sample());
    let found: Vec<_> = elf.relocations(SectionIndex(1)).collect();
    assert_eq!(found, [Relocation { offset: 1, kind: 2, symbol: SymbolIndex(2), addend: -4 }]);
    assert!(elf.has_relocations(SectionIndex(1)) && !elf.has_relocations(SectionIndex(2)));
    assert_eq!(elf.relocations(SectionIndex(2)).count(), 0);
}

#[test]
fn an_object_need_not_be_aligned() {
    let whole = Bytes::from([b"x".to_vec(), sample()].concat());
    let elf = Elf::parse(whole.slice(1..whole.len()).unwrap()).unwrap();
    assert_eq!(elf.section_count(), 7);
    assert_eq!(elf.globals().count(), 4);
}

#[test]
fn other_files_are_told() {
    let with = |at: usize, bytes: &[u8]| {
        let mut data = sample();
        data[at..at + bytes.len()].copy_from_slice(bytes);
        Elf::parse(data.into()).unwrap_err()
    };
    assert_eq!(with(4, &[1]), ObjectFault::Bits32);
    assert_eq!(with(5, &[2]), ObjectFault::BigEndian);
    assert_eq!(with(18, &[183, 0]), ObjectFault::OtherMachine(183));
    assert_eq!(with(16, &[3, 0]), ObjectFault::SharedObject);
    assert_eq!(with(16, &[2, 0]), ObjectFault::NotRelocatable(2));
    assert_eq!(with(0, b"BC\xc0\xde"), ObjectFault::Bitcode);
    assert_eq!(with(0, b"!<arch>\n"), ObjectFault::NotElf);
    assert_eq!(Elf::parse(Bytes::default()).unwrap_err(), ObjectFault::NotElf);
    assert!(matches!(with(40, &[0xFF; 8]), ObjectFault::Malformed(_)));
}

#[test]
fn what_gnu_ld_may_link_is_of_other_linkers() {
    assert!(ObjectFault::Bits32.is_of_other_linkers() && ObjectFault::SlimLto.is_of_other_linkers());
    assert!(!ObjectFault::NotElf.is_of_other_linkers() && !ObjectFault::Malformed("").is_of_other_linkers());
}

#[test]
fn slim_lto_is_told_by_its_common_symbol() {
    let slim = code(&[("__gnu_lto_slim", 1, 0xFFF2, 1, 1)]);
    assert_eq!(Elf::parse(slim.into()).unwrap_err(), ObjectFault::SlimLto);
    assert!(Elf::parse(code(&[("__gnu_lto_slim", 1, 0, 0, 0)]).into()).is_ok());
}

/// Goes over all that is in an object.
fn go_over(elf: &Elf) -> usize {
    let sections = elf.sections().map(|section| {
        let relocations = elf.relocations(section.index).filter(|one| elf.symbol(one.symbol).is_some()).count();
        section.name.len() + elf.contents(section.index).len() + relocations
    });
    sections.sum::<usize>() + elf.symbols().map(|symbol| symbol.name.len()).sum::<usize>() + elf.commons().count()
}

#[test]
fn no_beginning_of_an_object_and_no_changed_byte_is_a_panic() {
    let whole = sample();
    for at in 0..whole.len() {
        if let Ok(elf) = Elf::parse(whole[..at].to_vec().into()) {
            go_over(&elf);
        }
        for byte in [0, 0x7F, 0x80, 0xFF] {
            let mut data = whole.clone();
            data[at] = byte;
            let object = named("a.o", data);
            go_over(&object);
            LinkNames::look_up(&[object], ["main", "other"]);
        }
    }
}

#[test]
fn an_object_without_section_headers_is_empty() {
    let mut data = sample();
    data[60..62].copy_from_slice(&[0, 0]);
    data[40..48].copy_from_slice(&[0; 8]);
    let object = named("a.o", data);
    assert_eq!((object.section_count(), object.symbol_count(), object.fault()), (0, 0, None));
}

#[test]
fn a_strong_definition_goes_before_a_block_and_that_before_a_weak_one() {
    let objects = [
        named("a.o", code(&[("x", 2, 1, 0, 0), ("y", 2, 1, 1, 0), ("z", 1, 0, 0, 0)])),
        named("b.o", code(&[("x", 1, 0xFFF2, 4, 8), ("y", 1, 0xFFF2, 4, 8), ("z", 2, 1, 1, 0)])),
        named("c.o", code(&[("x", 1, 1, 1, 0), ("y", 1, 0xFFF2, 8, 16), ("z", 2, 1, 0, 0)])),
    ];
    let names = LinkNames::look_up(&objects, ["x", "y", "z", "none"]);
    let found = |name: &str| names.definition(name.into()).map(|one| (one.object.0, one.rank, one.size));
    assert_eq!(found("x"), Some((2, Rank::Strong, 0)));
    assert_eq!(found("y"), Some((2, Rank::Common, 16)));
    assert_eq!(found("z"), Some((1, Rank::Weak, 0)));
    assert_eq!(found("none"), None);
    assert!(names.is_referred("z".into()) && !names.is_referred("x".into()));
}

#[test]
fn names_that_are_asked_for_later_are_found_too() {
    let objects: Vec<Object> =
        (0..200).map(|number| named("a.o", code(&[(&format!("name{number}"), 1, 1, 0, 0)]))).collect();
    let mut names = LinkNames::look_up(&objects, ["name7"]);
    assert!(names.definition("name8".into()).is_none());
    names.ask(&objects, (0..200).map(|number| format!("name{number}")));
    for number in 0..200 {
        let found = names.definition(format!("name{number}").as_str().into()).unwrap();
        assert_eq!(found.object, ObjectIndex(number));
    }
}

#[test]
fn a_retained_section_loses_its_flag_in_files_of_gnu_alone() {
    let mut data = object(&[WrittenSection { name: ".keep", kind: 1, flags: 0x20_0003, data: b"x" }], &[], &[]);
    let object_of = |data: &[u8]| named("a.o", data.to_vec());
    assert!(object_of(&data).retained().is_empty());
    assert_eq!(object_of(&data).section(SectionIndex(1)).unwrap().flags, SectionFlags(0x20_0003));
    data[7] = 3;
    let changed = object_of(&data);
    assert_eq!(changed.retained(), [SectionIndex(1)]);
    assert_eq!(changed.section(SectionIndex(1)).unwrap().flags, SectionFlags(0x20_0003));
    assert_eq!(changed.data().len(), data.len());
    let sent = object_of(changed.data());
    assert_eq!((sent.section(SectionIndex(1)).unwrap().flags, sent.retained().len()), (SectionFlags(3), 0));
}

/// psABI, B.2: an object is sent as GNU ld would relax it.
#[test]
fn references_by_a_table_are_relaxed() {
    let object = got_object("a.o");
    assert_eq!(object.contents(SectionIndex(1)), b"\x48\xc7\xc0\0\0\0\0");
    let found: Vec<_> = object.relocations(SectionIndex(1)).collect();
    assert_eq!(found, [Relocation { offset: 3, kind: 11, symbol: SymbolIndex(1), addend: 0 }]);
    assert!(object.has_relaxed() && object.is_relaxed(SectionIndex(1), 3) && !object.is_relaxed(SectionIndex(1), 2));
}

/// elflink.c, `elf_link_add_object_symbols`: STB_GNU_UNIQUE, which counts in files of the system GNU.
#[test]
fn a_name_that_is_unique_is_global() {
    let mut data =
        object(&[WrittenSection { name: ".data", kind: 1, flags: 3, data: b"x" }], &[("u", 10, 1, 0, 1)], &[]);
    assert_eq!(named("a.o", data.clone()).globals().next().unwrap().binding, Binding::Other(10));
    data[7] = 3;
    assert_eq!(named("a.o", data).globals().next().unwrap().binding, Binding::Global);
}

#[test]
fn names_of_the_session_are_printable_short_and_used_once() {
    let mut used = HashSet::new();
    let mut name = |bytes: &[u8]| session_name(bytes, &mut used).to_string();
    assert_eq!(name(b"lib.a(a.o)"), "lib.a(a.o)");
    assert_eq!(name(b"lib.a(a.o)"), "lib.a(a.o)#2");
    assert_eq!(name("my file\u{e9}.o".as_bytes()), "my_file__.o");
    assert_eq!(name(b""), "_");
    let long = [b"d/".repeat(200), b"a.o".to_vec()].concat();
    assert_eq!(name(&long).as_bytes(), &long[long.len() - MAX_OBJECT_NAME..]);
    let second = name(&long);
    assert!(second.len() == MAX_OBJECT_NAME && second.ends_with("a.o#2"), "{second}");
}

#[test]
fn a_binary_file_is_data_with_three_names() {
    let object = named("logo.o", binary_object(b"sub/logo-1.bin", b"\x01\x02\x03").to_vec());
    assert_eq!(object.fault(), None);
    let data = object.section(SectionIndex(1)).unwrap();
    assert_eq!((data.name.to_string(), data.flags, data.align), (".data".into(), SectionFlags(3), 1));
    assert_eq!(object.contents(data.index), b"\x01\x02\x03");
    let found: Vec<_> = object.globals().map(|one| (one.name.to_string(), one.home, one.value)).collect();
    let home = Home::Section(SectionIndex(1));
    assert_eq!(
        found,
        [
            ("_binary_sub_logo_1_bin_start".into(), home, 0),
            ("_binary_sub_logo_1_bin_end".into(), home, 3),
            ("_binary_sub_logo_1_bin_size".into(), Home::Absolute, 3),
        ]
    );
}

#[test]
fn the_full_name_of_a_member_has_its_archive() {
    let file = Origin::of_file(Path::new("dir/a.o"));
    assert_eq!(file.full_name(), "dir/a.o");
    let member = Origin { path: "lib.a".into(), archive: Some("lib.a".into()), name: "a.o".into() };
    assert_eq!(member.full_name(), "lib.a(a.o)");
}

/// GNU ld loads all that stands in a section that is loaded.
#[test]
fn sections_become_loaded() {
    let debug = WrittenSection { name: ".reloc", kind: 1, flags: 0x30 | 0x200, data: b"abc\0" };
    let data = with_loaded(&object(&[debug], &[], &[]), &[SectionIndex(1)]).unwrap();
    let tables = Elf::parse(data.into()).unwrap();
    assert_eq!(tables.section(SectionIndex(1)).unwrap().flags, SectionFlags(0x32));
    assert_eq!(with_loaded(b"no object", &[SectionIndex(1)]), None);
}
