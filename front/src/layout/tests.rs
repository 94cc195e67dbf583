//! The rules of GNU ld's layout, each by its name in GNU ld's manual, or by the function of its source that has it.

use super::evaluation::{Base, Definer, Entry, Evaluation, Fate, StatementKind};
use super::ids::SectionId;
use super::settings::{GcSettings, OrphanHandling};
use super::stop::{NotEvaluatedReason, RefusedReason};
use super::{evaluate, Layout, Settings, Stop};
use crate::objects::tests::{object, WrittenSection, WrittenSymbol};
use crate::objects::{Object, ObjectIndex, Origin, Relocation, SectionIndex, SymbolIndex};
use crate::script::parse;
use bstr::ByteSlice;
use object::elf;
use std::path::Path;

const TEXT: u64 = 6;
const DATA: u64 = 3;
const READ_ONLY: u64 = 2;

/// A section of an object: name, flags, bytes.
fn section<'a>(name: &'a str, flags: u64, data: &'a [u8]) -> WrittenSection<'a> {
    WrittenSection { name, kind: elf::SHT_PROGBITS, flags, data }
}

fn zeros<'a>(name: &'a str, data: &'a [u8]) -> WrittenSection<'a> {
    WrittenSection { name, kind: elf::SHT_NOBITS, flags: DATA, data }
}

fn named(name: &str, sections: &[WrittenSection<'_>], symbols: &[WrittenSymbol<'_>]) -> Object {
    let data = object(sections, symbols, &[]);
    Object::new(name.into(), Origin::of_file(Path::new(name)), data.into())
}

/// An object `a.o` with a section each of code, read-only data, data and zeros, all aligned to 4.
fn plain() -> Object {
    let sections = [
        section(".text", TEXT, b"\x90\x90\xc3"),
        section(".rodata", READ_ONLY, b"12345"),
        section(".data", DATA, b"12345678"),
        zeros(".bss", b"123456"),
    ];
    named("a.o", &sections, &[("main", 1, 1, 1, 0), ("datum", 1, 3, 4, 0), ("wanted", 2, 0, 0, 0)])
}

fn laid_with(script: &str, objects: &[Object], settings: &Settings) -> Result<Evaluation, Stop> {
    let reading = parse(Path::new("s.ld"), script.as_bytes()).unwrap();
    evaluate(&reading.script, objects, settings)
}

fn laid(script: &str, objects: &[Object]) -> Evaluation {
    laid_with(script, objects, &Settings::default()).unwrap()
}

fn stopped(script: &str) -> RefusedReason {
    match laid_with(script, &[plain()], &Settings::default()) {
        Err(Stop::Refused(refused)) => refused.reason,
        other => panic!("{:?}", other.map(|_| ())),
    }
}

/// The sections of the image: name, address, size.
fn sections(found: &Evaluation) -> Vec<(String, u64, u64)> {
    found.in_image().map(|(output, place)| (output.name.to_string(), place.address, place.size)).collect()
}

fn names(found: &Evaluation) -> Vec<String> {
    found.in_image().map(|(output, _)| output.name.to_string()).collect()
}

fn value(found: &Evaluation, name: &str) -> Option<u64> {
    found.symbol(name.as_bytes())?.value.map(|value| value.address)
}

/// The input sections of an output section, as object and name.
fn inputs(found: &Evaluation, output: &str) -> Vec<String> {
    let (_, place) = found.in_image().find(|(one, _)| one.name == output).unwrap();
    let of = |id: &super::ids::SectionId| {
        let section = found.section(*id).unwrap();
        format!("{}{}", section.object.0, found.section_name(section))
    };
    place.inputs.iter().map(of).filter(|name| !name.contains(".got") && !name.contains(".iplt")).collect()
}

/// Manual, 'Simple Linker Script Example'.
#[test]
fn sections_follow_one_another() {
    let found = laid(
        "SECTIONS { . = 0x10000; .text : { *(.text) } . = 0x8000000; .data : { *(.data) } .bss : { *(.bss) } }",
        &[plain()],
    );
    let wanted = [(".text", 0x10000, 3), (".rodata", 0x10004, 5), (".data", 0x800_0000, 8), (".bss", 0x800_0008, 6)];
    assert_eq!(sections(&found), wanted.map(|(name, at, size)| (name.to_owned(), at, size)));
}

/// Manual, 'The Location Counter': within a section it counts from its start, outside it is an address.
#[test]
fn dot_within_a_section_counts_from_its_start() {
    let found =
        laid("SECTIONS { . = 0x100; .text : { *(.text) . = ALIGN(16); in = .; . = 0x20; } out = .; }", &[plain()]);
    assert_eq!((value(&found, "in"), value(&found, "out")), (Some(0x110), Some(0x120)));
    let inside = found.symbol(b"in").unwrap().value.unwrap();
    assert!(matches!(inside.base, Base::Output(_)) && inside.offset == 0x10);
}

/// Manual, 'Builtin Functions': SIZEOF, ADDR and LOADADDR of a section that stands later.
#[test]
fn functions_of_later_sections_are_those_of_the_pass_before() {
    let found = laid(
        "SECTIONS { size = SIZEOF(.data); at = ADDR(.data); load = LOADADDR(.data);
          . = 0x100; .text : { *(.text) } .data : AT(0x5000) { *(.data) } }",
        &[plain()],
    );
    let wanted = found.in_image().find(|(output, _)| output.name == ".data").unwrap().1;
    assert_eq!((value(&found, "size"), value(&found, "at")), (Some(8), Some(wanted.address)));
    assert_eq!((value(&found, "load"), wanted.load), (Some(0x5000), 0x5000));
}

/// Manual, 'PROVIDE': only what is referred to and defined by nothing.
#[test]
fn provide_gives_what_is_wanted() {
    let found = laid(
        "PROVIDE(wanted = 1); PROVIDE(other = 2); PROVIDE(main = 3); SECTIONS { .text : { *(.text) } }",
        &[plain()],
    );
    assert_eq!((value(&found, "wanted"), value(&found, "other")), (Some(1), None));
    assert!(matches!(found.symbol(b"main").unwrap().definer, Definer::Object(Some(_))));
}

/// Manual, 'Simple Assignments': an assignment takes the place of a definition.
#[test]
fn an_assignment_takes_the_place_of_a_definition() {
    let found = laid("SECTIONS { .text : { *(.text) } } main = 0x77;", &[plain()]);
    assert_eq!(value(&found, "main"), Some(0x77));
    assert!(matches!(found.symbol(b"main").unwrap().definer, Definer::Script(_)));
}

/// Manual, 'Output Section Discarding': an empty section is left out, unless `.` is assigned something in it.
#[test]
fn empty_sections_are_left_out() {
    let found = laid(
        "SECTIONS { .one : { *(.none) } .two : { here = .; } .three : { . = . + 4; } .four : { . = . + 0; } \
         .text : { *(.text) } }",
        &[plain()],
    );
    let made = names(&found);
    assert!(!made.contains(&".one".into()) && !made.contains(&".two".into()) && !made.contains(&".four".into()));
    assert!(made.contains(&".three".into()) && value(&found, "here") == Some(0));
}

/// Manual, 'Orphan Sections'; ldelf.c, `ldelf_place_orphan`: after the last section of the same flags.
#[test]
fn orphans_go_after_sections_like_them() {
    let more = [section(".text.x", TEXT, b"1"), section(".rodata.x", READ_ONLY, b"1"), section(".data.x", DATA, b"1")];
    let objects = [plain(), named("b.o", &more, &[])];
    let found = laid(
        "SECTIONS { .text : { *(.text) } .rodata : { *(.rodata) } .data : { *(.data) } .bss : { *(.bss) } }",
        &objects,
    );
    let wanted = [".text", ".text.x", ".rodata", ".rodata.x", ".data", ".data.x", ".bss"];
    assert_eq!(names(&found), wanted);
    assert_eq!(found.orphans.len(), 3);
}

/// ldlang.c, `insert_os_after`: assignments to `.` belong to the section after them.
#[test]
fn orphans_go_before_the_assignments_of_the_next_section() {
    let found = laid(
        "SECTIONS { . = 0x1000; .text : { *(.text) } end = .; . = 0x2000; .data : { *(.data) } .bss : { *(.bss) } }",
        &[plain()],
    );
    let wanted = [(".text", 0x1000), (".rodata", 0x1004), (".data", 0x2000), (".bss", 0x2008)];
    let places: Vec<_> = sections(&found).into_iter().map(|(name, at, _)| (name, at)).collect();
    assert_eq!(places, wanted.map(|(name, at)| (name.to_owned(), at)));
    assert_eq!(value(&found, "end"), Some(0x1003), "they stand behind symbols");
}

/// `--orphan-handling=discard`
#[test]
fn orphans_may_be_discarded() {
    let settings = Settings { orphans: OrphanHandling::Discard, ..Settings::default() };
    let found = laid_with("SECTIONS { .text : { *(.text) } }", &[plain()], &settings).unwrap();
    assert_eq!(names(&found), [".text"]);
}

/// Manual, 'Output Section Discarding': /DISCARD/.
#[test]
fn discarded_sections_are_in_no_output_section() {
    let found = laid("SECTIONS { /DISCARD/ : { *(.data) } .text : { *(.text .rodata .bss) } }", &[plain()]);
    let gone = found.sections.iter().find(|one| found.section_name(one) == ".data").unwrap();
    assert_eq!((gone.fate, names(&found)), (Fate::Discarded, vec![".text".to_owned()]));
}

/// ldlang.c, `lang_end`: a number, the symbol, else the start of `.text`; an entry in a discarded section has its
/// distance.
#[test]
fn the_entry() {
    let entry = |script: &str| laid(script, &[plain()]).entry;
    let body = "SECTIONS { . = 0x1000; .text : { *(.text) } }";
    assert_eq!(entry(&format!("ENTRY(main) {body}")).address, Some(0x1001));
    assert_eq!(entry(&format!("ENTRY(nothing) {body}")).address, Some(0x1000));
    assert_eq!(entry("ENTRY(main) SECTIONS { /DISCARD/ : { *(.text) } }").address, Some(1));
    let Entry { address, is_by_name, .. } = entry("SECTIONS { .code : { *(.text) } }");
    assert_eq!((address, is_by_name), (None, false));
    let settings = Settings { entry: Some("0x44".into()), ..Settings::default() };
    assert_eq!(laid_with(body, &[plain()], &settings).unwrap().entry.address, Some(0x44));
}

/// ldlang.c, `lang_process`: `.text` is read-only, whatever is in it; not with -N.
#[test]
fn text_is_read_only() {
    let script = "SECTIONS { .text : { *(.text .data) } .other : { *(.rodata .bss) } }";
    let bits = |settings: &Settings, name: &str| {
        let found = laid_with(script, &[plain()], settings).unwrap();
        let bits = found.in_image().find(|(output, _)| output.name == name).unwrap().1.bits;
        bits
    };
    let settings = Settings::default();
    assert_eq!((bits(&settings, ".text"), bits(&settings, ".other")), (TEXT, DATA));
    let settings = Settings { text_read_only: false, paged: false, ..Settings::default() };
    assert_eq!(bits(&settings, ".text"), TEXT | DATA);
}

/// elf.c, `special_sections`: a name gives flags and a type until there is an input section.
#[test]
fn a_name_gives_flags() {
    let found = laid("SECTIONS { .bss : { LONG(1) } .text : { LONG(1) } .x : { LONG(1) } }", &[]);
    let of = |name: &str| {
        let place = found.in_image().find(|(output, _)| output.name == name).unwrap().1;
        (place.kind, place.bits)
    };
    assert_eq!(of(".bss"), (elf::SHT_PROGBITS, DATA));
    assert_eq!(of(".text"), (elf::SHT_PROGBITS, TEXT));
    assert_eq!(of(".x"), (elf::SHT_PROGBITS, READ_ONLY));
}

/// ldlang.c, `lang_output_section_statement_lookup`: a statement of a name that there is already is a section of its
/// own.
#[test]
fn two_output_sections_of_one_name() {
    let found = laid(
        "SECTIONS { .x : { *(.text) } .y : { *(.rodata .bss) } .x : { *(.data) } size = SIZEOF(.x); }",
        &[plain()],
    );
    assert_eq!((names(&found), value(&found, "size")), (vec![".x".into(), ".y".into(), ".x".into()], Some(3)));
    let bits: Vec<u64> = found.in_image().map(|(_, place)| place.bits).collect();
    assert_eq!(bits, [TEXT, DATA, DATA]);
}

/// Manual, 'Input Section Wildcard Patterns': sorts by name and by alignment, and the first statement that matches
/// takes.
#[test]
fn sorts() {
    let more = [section(".text.c", TEXT, b"1"), section(".text.a", TEXT, b"1"), section(".text.b", TEXT, b"1")];
    let objects = [plain(), named("b.o", &more, &[])];
    let of = |body: &str| inputs(&laid(&format!("SECTIONS {{ .x : {{ {body} }} }}"), &objects), ".x");
    assert_eq!(of("*(SORT(.text.*))"), ["1.text.a", "1.text.b", "1.text.c"]);
    assert_eq!(of("*(.text.b) *(.text.*)"), ["1.text.b", "1.text.c", "1.text.a"]);
    assert_eq!(of("*(.text.* .text)"), ["0.text", "1.text.c", "1.text.a", "1.text.b"]);
    assert_eq!(of("b.o(.text.a) *(EXCLUDE_FILE(*b.o) .text*)"), ["1.text.a", "0.text"]);
    assert_eq!(of("SORT(*)(.text*)"), ["0.text", "1.text.c", "1.text.a", "1.text.b"]);
}

/// Manual, 'Input Section Basics': `archive:file`.
#[test]
fn files_of_archives() {
    let mut member = named("m.o", &[section(".text", TEXT, b"1")], &[]);
    let origin = Origin { path: "lib.a".into(), archive: Some("lib.a".into()), name: "m.o".into() };
    member = member.renamed("lib.a(m.o)".into(), origin);
    let of = |body: &str| {
        let found = laid(&format!("SECTIONS {{ .x : {{ {body} }} }}"), &[plain(), member.clone()]);
        let has = found.in_image().any(|(output, _)| output.name == ".x");
        if has {
            inputs(&found, ".x")
        } else {
            Vec::new()
        }
    };
    assert_eq!(of("lib.a:*(.text)"), ["1.text"]);
    assert_eq!(of("*:m.o(.text)"), ["1.text"]);
    assert_eq!(of(":a.o(.text)"), ["0.text"]);
    assert_eq!(of("*m.o(.text)"), ["1.text"]);
    assert_eq!(of("*(EXCLUDE_FILE(lib.a) .text)"), ["0.text"]);
}

/// ldlang.c, `lookup_name`: a file without a wildcard is opened and linked.
#[test]
fn a_file_that_is_named_is_an_input() {
    let stop = laid_with("SECTIONS { .x : { other.o(.text) } }", &[plain()], &Settings::default()).unwrap_err();
    match stop {
        Stop::NotEvaluated(unknown) => assert_eq!(unknown.reason, NotEvaluatedReason::OpensFile("other.o".into())),
        Stop::Refused(refused) => panic!("{refused}"),
    }
}

/// ldlang.c, `lang_one_common`; linker.c, `bfd_generic_define_common_symbol`: a section of each object's blocks, in the
/// order of GNU ld's table, each aligned.
#[test]
fn common_blocks() {
    let block = |name, size, align| (name, 1, elf::SHN_COMMON, align, size);
    let one = named("a.o", &[section(".text", TEXT, b"1")], &[block("x", 3, 1), block("y", 8, 8)]);
    let other = named("b.o", &[section(".text", TEXT, b"1")], &[block("x", 5, 4), block("z", 1, 1)]);
    let found = laid("SECTIONS { . = 0x100; .bss : { *(COMMON) } }", &[one, other]);
    assert_eq!(inputs(&found, ".bss"), ["0COMMON", "1COMMON"]);
    let at = |name: &str| value(&found, name).unwrap();
    assert_eq!(at("y") % 8, 0);
    assert!(at("x") > at("y") && at("x") % 4 == 0, "the greater block counts, and the object that has it");
    let sizes: Vec<u64> = found.sections.iter().filter(|one| one.is_common()).map(|one| one.size).collect();
    assert_eq!(sizes.first(), Some(&8));
}

/// Manual, 'MEMORY' and 'Output Section LMA': `>region`, `AT>region`, and the first region whose attributes fit.
#[test]
fn regions() {
    let found = laid(
        "MEMORY { rom (rx) : ORIGIN = 0x1000, LENGTH = 0x100 ram (w) : ORIGIN = 0x8000, LENGTH = 0x100 }
         SECTIONS { .text : { *(.text) } .rodata : { *(.rodata) } >rom .data : { *(.data) } >ram AT>rom
           .bss : { *(.bss) } >ram }",
        &[plain()],
    );
    let places: Vec<_> =
        found.in_image().map(|(output, place)| (output.name.to_string(), place.address, place.load)).collect();
    let wanted = [
        (".text", 0x1000, 0x1000),
        (".rodata", 0x1004, 0x1004),
        (".data", 0x8000, 0x1009),
        // ldlang.c, `lang_propagate_lma_regions`
        (".bss", 0x8008, 0x1011),
    ];
    assert_eq!(places, wanted.map(|(name, at, load)| (name.to_owned(), at, load)));
}

/// Manual, 'Output Section LMA': without AT a load address is as far from the address as that of the section before.
#[test]
fn load_addresses_follow() {
    let found = laid("SECTIONS { . = 0x100; .text : AT(0x5000) { *(.text) } .data : { *(.data) } }", &[plain()]);
    let load = found.in_image().find(|(output, _)| output.name == ".data").unwrap().1;
    assert_eq!(load.load, load.address + 0x5000 - 0x100);
}

/// ldlang.c, `lang_size_sections_1`: an assignment and an ASSERT move the default region alike.
#[test]
fn an_assert_moves_the_default_region() {
    let objects = [plain(), named("b.o", &[section("c", 0, b"12345678")], &[])];
    let text_at = |more: &str| {
        let script = format!("SECTIONS {{ . = 0x1000; c 0x5000 : {{ *(c) }} {more} .text : {{ *(.text) }} }}");
        let found = laid(&script, &objects);
        let address = found.in_image().find(|(output, _)| output.name == ".text").unwrap().1.address;
        address
    };
    assert_eq!((text_at(""), text_at("ASSERT(1, \"x\")"), text_at("x = 1;")), (0x1000, 0x5008, 0x5008));
}

/// Manual, 'Output Section Constraint'.
#[test]
fn constraints() {
    let found = laid(
        "SECTIONS { .x : ONLY_IF_RO { *(.rodata .data) } .x : ONLY_IF_RW { *(.rodata .data) } size = SIZEOF(.x); }",
        &[plain()],
    );
    assert_eq!(value(&found, "size"), Some(16));
    assert_eq!(names(&found).iter().filter(|name| *name == ".x").count(), 1);
}

/// Manual, 'Output Section Type': NOLOAD has no bytes, COPY no memory.
#[test]
fn types() {
    let found =
        laid("SECTIONS { .a (NOLOAD) : { *(.data) } .b (COPY) : { *(.rodata) } .c : { *(.text .bss) } }", &[plain()]);
    let of = |name: &str| {
        let place = found.in_image().find(|(output, _)| output.name == name).unwrap().1;
        (place.is_allocated(), place.has_bytes())
    };
    assert_eq!((of(".a"), of(".c")), ((true, false), (true, true)));
    assert!(!of(".b").0);
}

/// Manual, 'Forced Input Alignment' and 'Output Section Fill'.
#[test]
fn gaps_and_fills() {
    let found = laid("SECTIONS { .x : SUBALIGN(16) { *(.rodata) *(.data) . = 0x30; } =0x1122 }", &[plain()]);
    let place = found.in_image().find(|(output, _)| output.name == ".x").unwrap().1;
    assert_eq!((place.size, place.align), (0x30, 16));
    let gaps: Vec<(u64, u64)> = found
        .statements
        .iter()
        .flat_map(|statement| match &statement.kind {
            StatementKind::Input { gaps, .. } => gaps.clone(),
            StatementKind::Dot { gap, .. } => gap.clone().into_iter().collect(),
            _ => Vec::new(),
        })
        .inspect(|gap| assert_eq!(gap.fill.as_deref(), Some(&[0x11, 0x22][..])))
        .map(|gap| (gap.offset, gap.size))
        .collect();
    assert_eq!(gaps, [(5, 11), (24, 24)]);
}

/// Manual, 'Overlay Description'.
#[test]
fn overlays() {
    let found = laid(
        "SECTIONS { . = 0x1000; OVERLAY : AT(0x4000) { .a { *(.text) } .b { *(.data) } } after = .;
           first = __load_start_a; last = __load_stop_b; .c : { *(.rodata .bss) } }",
        &[plain()],
    );
    let places: Vec<_> =
        found.in_image().map(|(output, place)| (output.name.to_string(), place.address, place.load)).collect();
    assert_eq!(places.first(), Some(&(".a".to_owned(), 0x1000, 0x4000)));
    assert_eq!(places.iter().find(|(name, ..)| name == ".b").map(|(_, at, _)| *at), Some(0x1000));
    assert_eq!((value(&found, "after"), value(&found, "first")), (Some(0x1008), Some(0x4000)));
}

/// Manual, 'INSERT'.
#[test]
fn insert() {
    let script = |place: &str| {
        let script = format!(
            "SECTIONS {{ .new : {{ *(.rodata) }} }} INSERT {place} .data;
             SECTIONS {{ .text : {{ *(.text) }} .data : {{ *(.data) }} .bss : {{ *(.bss) }} }}"
        );
        names(&laid(&script, &[plain()]))
    };
    assert_eq!(script("AFTER"), [".text", ".data", ".new", ".bss"]);
    assert_eq!(script("BEFORE"), [".text", ".new", ".data", ".bss"]);
}

/// Manual, 'Builtin Functions': DATA_SEGMENT_ALIGN and DATA_SEGMENT_RELRO_END, after which a page begins.
#[test]
fn data_segments() {
    let found = laid(
        "SECTIONS { . = 0x400000; .text : { *(.text) }
           . = DATA_SEGMENT_ALIGN(CONSTANT(MAXPAGESIZE), CONSTANT(COMMONPAGESIZE));
           .rodata : { *(.rodata) } . = DATA_SEGMENT_RELRO_END(0, .); end = .; .data : { *(.data) } .bss : { *(.bss) }
           . = DATA_SEGMENT_END(.); }",
        &[plain()],
    );
    assert_eq!(value(&found, "end").map(|end| end % 0x1000), Some(0));
    assert_eq!(found.relro.map(|(_, end)| Some(end)), Some(value(&found, "end")));
}

/// Manual, 'Builtin Functions': SEGMENT_START; `-Ttext-segment`, and `-Tdata` as an address of `.data`.
#[test]
fn segment_starts() {
    let script = "SECTIONS { . = SEGMENT_START(\"text-segment\", 0x1000); .text : { *(.text) } .data : { *(.data) } }";
    let given = vec![("text-segment".into(), 0x7000), ("data".into(), 0x9000)];
    let settings = Settings { segment_starts: given, ..Settings::default() };
    let found = laid_with(script, &[plain()], &settings).unwrap();
    let at = |name: &str| found.in_image().find(|(output, _)| output.name == name).map(|(_, place)| place.address);
    assert_eq!((at(".text"), at(".data")), (Some(0x7000), Some(0x9000)));
    assert_eq!(sections(&laid(script, &[plain()])).first(), Some(&(".text".to_owned(), 0x1000, 3)));
}

/// What GNU ld refuses.
#[test]
fn refusals() {
    assert_eq!(stopped("SECTIONS { .a : { *(.text) } } ASSERT(0, \"no\")"), RefusedReason::Assertion("no".into()));
    assert_eq!(stopped("x = 1 / 0;"), RefusedReason::DivisionByZero);
    assert_eq!(stopped("x = y;"), RefusedReason::UndefinedSymbol("y".into()));
    assert_eq!(stopped("SECTIONS { x = SIZEOF(.y); }"), RefusedReason::UndefinedSection(".y".into()));
    assert_eq!(stopped("x = ORIGIN(m);"), RefusedReason::UndefinedRegion("m".into()));
    assert_eq!(stopped("SECTIONS { .a : { *(.text) . = 1; } }"), RefusedReason::DotBackwards);
    assert_eq!(stopped("SECTIONS { /DISCARD/ : { LONG(1) } }"), RefusedReason::Discard);
    assert_eq!(stopped("SECTIONS { .a : { *(.text) } } INSERT AFTER .b;"), RefusedReason::Insert(".b".into()));
    let full = "MEMORY { m : ORIGIN = 0, LENGTH = 2 } SECTIONS { .a : { *(.text) } >m }";
    assert_eq!(stopped(full), RefusedReason::RegionFull { section: ".a".into(), region: "m".into() });
    let none = "MEMORY { m (w) : ORIGIN = 0, LENGTH = 2 } SECTIONS { .a : { *(.text) } }";
    assert_eq!(stopped(none), RefusedReason::NoRegion(".a".into()));
}

/// ldlang.c, `lang_check_section_addresses`: bytes at one load address, or sections at one address that are no
/// overlays.
#[test]
fn overlaps() {
    let one = "SECTIONS { .a 0x100 : { *(.text) } .b 0x101 : { *(.data) } }";
    assert_eq!(stopped(one), RefusedReason::Overlap(".b".into(), ".a".into()));
    let loads = "SECTIONS { .a 0x100 : AT(0x1000) { *(.text) } .b 0x200 : AT(0x1002) { *(.data) } }";
    assert_eq!(stopped(loads), RefusedReason::Overlap(".b".into(), ".a".into()));
    assert_eq!(stopped("SECTIONS { .a 0xfffffffffffffffe : { *(.data) } }"), RefusedReason::Wraps(".a".into()));
    let overlays = "SECTIONS { .a 0x100 : AT(0x1000) { *(.text) } .b 0x100 : AT(0x2000) { *(.data) } }";
    assert!(laid_with(overlays, &[plain()], &Settings::default()).is_ok());
    let settings = Settings { checks_sections: false, ..Settings::default() };
    assert!(laid_with(one, &[plain()], &settings).is_ok());
}

/// elflink.c, `bfd_elf_gc_sections`: what is reached from KEEP, the entry, names that are wanted, notes and bounds.
#[test]
fn collection() {
    let call = Relocation { offset: 0, kind: 2, symbol: SymbolIndex(2), addend: 0 };
    let first = [section(".text", TEXT, b"12345678"), section(".text.unused", TEXT, b"1")];
    let symbols = [("main", 1, 1, 0, 0), ("used", 1, 0, 0, 0), ("__start_set", 1, 0, 0, 0)];
    let bound = Relocation { offset: 4, symbol: SymbolIndex(3), ..call };
    let data = object(&first, &symbols, &[call, bound]);
    let main = Object::new("a.o".into(), Origin::of_file(Path::new("a.o")), data.into());
    let note = WrittenSection { name: ".note.x", kind: elf::SHT_NOTE, flags: READ_ONLY, data: b"1" };
    let others =
        [section(".text.used", TEXT, b"1"), section("set", READ_ONLY, b"1"), section(".kept", READ_ONLY, b"1"), note];
    let other = named("b.o", &others, &[("used", 1, 1, 0, 0)]);
    let settings = Settings { gc: Some(GcSettings::default()), ..Settings::default() };
    let script = "ENTRY(main) SECTIONS { .x : { *(.text*) *(set) KEEP(*(.kept)) *(.note.x) } }";
    let found = laid_with(script, &[main, other], &settings).unwrap();
    assert_eq!(inputs(&found, ".x"), ["0.text", "1.text.used", "1set", "1.kept", "1.note.x"]);
}

/// ldlang.c, `lang_init_start_stop`, `lang_finalize_start_stop`.
#[test]
fn bounds_of_sections() {
    let object =
        named("a.o", &[section("set", READ_ONLY, b"123")], &[("__start_set", 1, 0, 0, 0), ("__stop_set", 1, 0, 0, 0)]);
    let found = laid("SECTIONS { . = 0x100; set : { *(set) LONG(1) } }", std::slice::from_ref(&object));
    assert_eq!((value(&found, "__start_set"), value(&found, "__stop_set")), (Some(0x100), Some(0x107)));
    let found = laid("SECTIONS { . = 0x100; .x : { *(set) } }", &[object]);
    assert_eq!(value(&found, "__start_set"), None);
}

/// Manual, 'Expression Section': numbers are absolute outside of sections, and relative in them.
#[test]
fn numbers_in_sections_are_relative() {
    let found = laid("SECTIONS { . = 0x100; one = 4; .x : { two = 4; three = ABSOLUTE(.) + 4; LONG(1) } }", &[]);
    assert_eq!(
        (value(&found, "one"), value(&found, "two"), value(&found, "three")),
        (Some(4), Some(0x104), Some(0x104))
    );
}

#[test]
fn rows_stay_while_sizes_change_alone() {
    let reading = parse(Path::new("s.ld"), b"SECTIONS { . = 0x100; .x : { *(.text .data) } }").unwrap();
    let settings = Settings::default();
    let of = |text: &[u8], name: &str| named("a.o", &[section(name, TEXT, text), section(".data", DATA, b"12")], &[]);
    let old = [of(b"123", ".text"), plain()];
    let mut layout = Layout::new(&reading.script, &old, &settings).unwrap();
    let new = [of(b"1234567", ".text"), plain()];
    assert!(layout.update(&new, &[ObjectIndex(0)]));
    let found = layout.evaluate(&new).unwrap();
    assert_eq!(sections(&found), sections(&evaluate(&reading.script, &new, &settings).unwrap()));
    assert!(!layout.update(&[of(b"1", ".text.x"), plain()], &[ObjectIndex(0)]));
    assert!(!layout.update(&new[..1], &[ObjectIndex(0)]));
}

#[test]
fn values_of_expressions_are_kept() {
    let text = "SECTIONS { . = 0x100; .x ALIGN(0x80) : { *(.text) } y = SIZEOF(.x) + 1; }";
    let found = laid(text, &[plain()]);
    let span = |word: &str| {
        let start = text.find(word).unwrap() as u32;
        crate::script::tree::Span { start, end: start + word.len() as u32 }
    };
    assert_eq!(found.value_at(span("ALIGN(0x80)")).map(|value| value.address), Some(0x100));
    assert_eq!(found.value_at(span("SIZEOF(.x)")).map(|value| value.address), Some(3));
    let statement = found.output_at(span(".x ALIGN(0x80) : { *(.text) }")).or_else(|| found.outputs.first());
    assert_eq!(statement.map(|output| output.name.as_bstr()), Some(b".x".as_bstr()));
}

#[test]
fn a_load_address_that_asks_for_itself_ends() {
    let script = "SECTIONS { .a : AT(LOADADDR(.b)) { *(.text) } .b : AT(LOADADDR(.a)) { *(.data) } x = LOADADDR(.a); }";
    assert!(laid_with(script, &[plain()], &Settings::default()).is_err());
    let deep = format!("x = {}1{};", "(~".repeat(80), ")".repeat(80));
    assert!(laid_with(&deep, &[], &Settings::default()).is_ok());
}

#[test]
fn nothing_at_all_is_laid_out() {
    assert_eq!(names(&laid("", &[])), Vec::<String>::new());
    let broken = Object::new("x".into(), Origin::of_file(Path::new("x")), b"\x7fELF\x02\x01".to_vec().into());
    assert_eq!(names(&laid("SECTIONS { .x : { *(*) } }", &[broken])), Vec::<String>::new());
}

/// An object with a function and its entry of `.eh_frame`, as gcc writes it, whose CIE has these letters.
fn with_entry(name: &str, function: &str, letters: &[u8; 2]) -> Object {
    let common = [b"\x14\0\0\0\0\0\0\0\x01", &letters[..], b"\0\x01\x78\x10\x01\x1b\x0c\x07\x08\x90\x01\0\0"].concat();
    let frames = [&common[..], b"\x10\0\0\0\x1c\0\0\0\0\0\0\0\x03\0\0\0\0\0\0\0"].concat();
    let sections = [section(".eh_frame", READ_ONLY, &frames), section(".text", TEXT, b"\x90\x90\xc3")];
    let code = Relocation { offset: 32, kind: 2, symbol: SymbolIndex(1), addend: 0 };
    let data = object(&sections, &[(function, 1, 2, 0, 3)], &[code]);
    Object::new(name.into(), Origin::of_file(Path::new(name)), data.into())
}

/// elf-eh-frame.c, `_bfd_elf_discard_section_eh_frame`: a CIE is there once, what does nothing goes, and so do entries
/// of code that is not in the image; a section that is not understood stays.
#[test]
fn entries_of_frames_are_those_of_gnu_ld() {
    let objects = [with_entry("a.o", "f", b"zR"), with_entry("b.o", "g", b"zR"), with_entry("c.o", "h", b"zX")];
    let settings = Settings { merges: true, ..Settings::default() };
    let of = |script: &str, objects: &[Object]| {
        let found = laid_with(script, objects, &settings).unwrap();
        let ids: Vec<_> =
            (0..objects.len() as u32).map(|one| found.section_of(ObjectIndex(one), SectionIndex(1))).collect();
        let sizes: Vec<u64> = ids.iter().map(|id| found.section(id.unwrap()).unwrap().size).collect();
        (sizes, found.shortened.get(&ids[1].unwrap()).map(|one| one.contents[..8].to_vec()))
    };
    let all = "SECTIONS { .text : { *(.text) } .eh_frame : { *(.eh_frame) } }";
    let pointed = vec![0x10, 0, 0, 0, 0x30, 0, 0, 0];
    assert_eq!(of(all, &objects[..2]), (vec![0x2c, 0x14], Some(pointed)));
    assert_eq!(of(all, &objects), (vec![0x2c, 0x14, 0x2c], Some(vec![0x10, 0, 0, 0, 0x30, 0, 0, 0])));
    let without = "SECTIONS { /DISCARD/ : { b.o(.text) } .text : { *(.text) } .eh_frame : { *(.eh_frame) } }";
    assert_eq!(laid_with(without, &objects[..2], &settings).unwrap().section(SectionId::new(2)).unwrap().size, 0);
}

/// elf-eh-frame.c, `write_dwarf_eh_frame_hdr`: a row for each entry, ascending by the code; none if a section is not
/// understood, and no table without entries.
#[test]
fn a_table_of_frames_has_a_row_for_each() {
    let own = Object::eh_frame_hdr("t".into(), Origin::of_file(Path::new("a.o")));
    let objects = [with_entry("a.o", "f", b"zR"), own, with_entry("b.o", "g", b"zR"), with_entry("c.o", "h", b"zX")];
    let settings = Settings { merges: true, ..Settings::default() };
    let frames = "SECTIONS { . = 0x1000; .table : { *(.eh_frame_hdr) } .eh_frame : { *(.eh_frame) }";
    let of = |script: &str, objects: &[Object]| {
        let found = laid_with(&format!("{script} .text : {{ b.o(.text) *(.text) }} }}"), objects, &settings).unwrap();
        let place =
            |name: &str| found.in_image().find(|(output, _)| output.name == name).map(|(_, place)| place.clone());
        let size = place(".table").map(|place| place.size);
        let starts = [".text", ".eh_frame"].map(|name| place(name).map_or(0, |place| place.address));
        (size, starts, found.eh_frame_hdr)
    };
    let (size, [text, entries], table) = of(frames, &objects[..3]);
    let table = table.unwrap();
    let rows: Vec<_> =
        table.rows.unwrap().iter().map(|row| (row.code - text, row.range, row.entry - entries)).collect();
    assert_eq!((size, rows, table.problem), (Some(28), vec![(0, 3, 0x2c), (4, 3, 0x18)], None));
    let (size, _, table) = of(frames, &objects);
    assert_eq!((size, table.map(|table| (table.rows, table.unknown.len()))), (Some(8), Some((None, 1))));
    let without = frames.replace(".eh_frame :", "/DISCARD/ :");
    assert_eq!(of(&without, &objects[..3]), (None, [0x1000, 0], None));
}

/// elf.c, `elf_fake_sections`, `assign_section_numbers`: sizes of entries, alignments that addresses have, and the
/// sections that headers refer to by their types.
#[test]
fn headers_say_what_gnu_ld_says() {
    let script = "SECTIONS { . = 0x1002; .init_array : { *(.bss) } .stab : { LONG(1) } .stabstr : { BYTE(0) }
          .dynstr : { BYTE(0) } .dynamic : { QUAD(0) } .text : SUBALIGN(16) { *(.text) } .data : { *(.data) } }";
    let found = laid(script, &[plain()]);
    let header = |name: &str| {
        let (_, place) = found.in_image().find(|(output, _)| output.name == name).unwrap();
        let link = place.link.and_then(|link| found.output(link)).map(|output| output.name.to_string());
        (place.kind, place.entry_size, place.header_align(), link)
    };
    let to = |name: &str| Some(name.to_owned());
    assert_eq!(header(".init_array"), (elf::SHT_NOBITS, 8, 4, None));
    assert_eq!(header(".stab"), (elf::SHT_PROGBITS, 12, 1, to(".stabstr")));
    assert_eq!(header(".dynamic"), (elf::SHT_DYNAMIC, 16, 1, to(".dynstr")));
    assert_eq!(header(".text"), (elf::SHT_PROGBITS, 0, 16, None));
    assert_eq!(super::evaluation::common_align(64, 0x1004), 4);
}
