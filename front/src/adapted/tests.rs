//! Each rule in a small script, over invented objects: each pattern takes 24 and 32 bytes, aligned to 8.

use std::path::Path;

use bstr::{BStr, ByteSlice};

use super::*;
use crate::adapt::invented;
use crate::layout::{evaluate, Settings};

fn adapted(script: &str) -> AdaptedScript {
    let reading = crate::script::parse(Path::new("t.ld"), script.as_bytes()).unwrap();
    let objects = invented::objects(&reading.script, invented::Kind::Small);
    let evaluation = evaluate(&reading.script, &objects, &Settings::default());
    let names: Vec<&BStr> = objects.iter().map(|object| object.name()).collect();
    adapted_script(Request {
        script: &reading.script,
        source: &reading.source,
        evaluation: evaluation.as_ref().ok(),
        others: None,
        objects: &names,
        is_followed: false,
        entry: None,
        has_default_entry: false,
        defines: &|_| false,
        has_names: &|_| false,
        places_orphans: true,
        sort_section: None,
        leaves_unique: false,
        kept: &[],
        keeps_more: false,
        collects_start_stop: false,
        without_entries: &[],
    })
}

fn text(script: &str) -> String {
    String::from_utf8(adapted(script).text).unwrap()
}

/// What stands in `.t` for statements after 56 bytes of `.text` from 0x1000 on, before `.data`.
fn inside(statements: &str) -> String {
    let front = "SECTIONS { . = 0x1000; .t : { *(.text)";
    let back = "} .d : { *(.data) } }";
    let whole = text(&format!("{front} {statements} {back}"));
    let after = whole.find("*(.text)").map_or(0, |at| at + "*(.text)".len());
    whole[after..].split(back).next().unwrap().trim().to_owned()
}

/// What stands before SECTIONS for statements there.
fn before(statements: &str) -> String {
    let back = "SECTIONS { . = 0x1000; .t : { *(.text) } }";
    text(&format!("{statements} {back}")).split(back).next().unwrap().trim().to_owned()
}

#[test]
fn a_script_of_the_profile_stays() {
    let script = "ENTRY(go) /* c */ x = 4K;\nSECTIONS {\n  . = 0x1000; .t : { *(.text .text.*) KEEP(*(SORT(.x.*))) }\n\
                  .d : AT(0x9000) ALIGN(16) { *(.data) . = ALIGN(32); e = .; BYTE(1) } =0x90\n}\n";
    let done = adapted(script);
    assert_eq!(done.text, script.as_bytes());
    assert_eq!(done.lines.iter().map(|place| place.line).collect::<Vec<_>>(), [1, 2, 3, 4, 5, 6]);
}

#[test]
fn commands_are_dropped() {
    let done = adapted("OUTPUT_FORMAT(elf64-x86-64)\nOUTPUT_ARCH(i386:x86-64)\nSECTIONS { }");
    assert_eq!(done.text, b"\n\nSECTIONS { }");
    assert!(done.notes.iter().all(|note| note.kind == NoteKind::Dropped));
    assert!(adapted("OUTPUT_FORMAT(binary) SECTIONS { }").is_flat);
    assert!(adapted("INPUT(a.o) SECTIONS { }").notes.iter().all(|note| note.kind != NoteKind::Left));
    assert!(adapted("INPUT(other.o) SECTIONS { }").is_left());
}

#[test]
fn functions_have_equal_forms() {
    assert_eq!(before("a = MAX(1, 2);"), "a = 1 > 2 ? 1 : 2;");
    assert_eq!(before("a = CONSTANT(MAXPAGESIZE);"), "a = 0x1000;");
    assert_eq!(before("a = ABSOLUTE(3) + +4;"), "a = 3 + 4;");
    assert_eq!(before("a = LOG2CEIL(100);"), "a = 7;");
    assert_eq!(before("a = DEFINED(b) ? 1 : 2;"), "a = 2;");
    assert_eq!(before("a = -8 / 2;"), "a = 0xfffffffffffffffc;");
    assert_eq!(before("a = 10h; b = 4k;"), "a = 16; b = 0x1000;");
}

#[test]
fn names_are_not_hidden_and_have_no_quotes() {
    assert_eq!(before("HIDDEN(a = 5);"), "a = 5;");
    assert_eq!(before("\"a\" = 5;"), "a = 5;");
    assert_eq!(before("a = 9; b = 4; c = a-b;"), "a = 9; b = 4; c = a - b;");
}

#[test]
fn the_last_assignment_of_a_name_keeps_it() {
    assert_eq!(before("a = 3; a += 4;"), "ldi.a = 3; a = ldi.a + 4;");
    assert_eq!(before("a = 1; a = 2;"), "a = 2;");
    assert_eq!(before("a = b; b = 7;"), "a = 7; b = 7;");
}

#[test]
fn numbers_count_from_the_start_in_a_section() {
    assert_eq!(inside("a = 0x10;"), "a = 0x10 + ldi.start.t;");
    assert_eq!(inside("a = .;"), "a = .;");
    assert_eq!(inside("a = . + 4;"), "a = . + 4;");
}

#[test]
fn the_location_counter_has_its_forms() {
    assert_eq!(inside(". = . + 8;"), ". = . + 8;");
    assert_eq!(inside(". += 8;"), ". += 8;");
    assert_eq!(inside(". = ALIGN(64);"), ". = ALIGN(64);");
    assert_eq!(inside(". = 0x80;"), ". = 0x80;");
    assert_eq!(inside("m = .; . = m + 0x20;"), "m = .; . = m + 0x20 - ldi.start.t;");
    assert_eq!(inside(". = . + 4 + 4;"), ". += 4 + 4;");
    assert_eq!(inside(". |= 0x40;"), ". = 120;");
}

#[test]
fn data_and_fills() {
    assert_eq!(inside("SQUAD(-1)"), "QUAD(-1)");
    assert_eq!(inside("FILL(0x90) . = ALIGN(64);"), "QUAD(0x9090909090909090)");
    let done = text("SECTIONS { . = 0x1000; .t : { *(.text) BYTE(1) . = ALIGN(8); } =144 }");
    assert!(done.contains("=0x00000090"), "{done}");
}

#[test]
fn sections_begin_where_gnu_ld_has_them() {
    let done = text("SECTIONS { .t 0x1003 : ALIGN(64) { *(.text) } }");
    assert!(done.contains(".t ALIGN(0x1003, 64) : ALIGN(64) {"), "{done}");
}

#[test]
fn load_addresses_are_those_of_gnu_ld() {
    let done =
        text("SECTIONS { . = 0x1000; .t : AT(ADDR(.t) - 0x800) { *(.text) } .d : AT(ADDR(.d) - 0x800) { *(.data) } }");
    assert!(done.contains(".t : AT(. - 0x800) {") && done.contains(".d : {"), "{done}");
}

#[test]
fn a_load_address_by_dot_keeps_its_meaning_here() {
    let script = "SECTIONS { . = 0x1000; .t : AT(. - 0x800) { *(.text) } }";
    let done = adapted(script);
    assert_eq!(done.text, script.as_bytes());
    assert!(done.changed().count() == 1);
}

#[test]
fn what_is_not_loaded_goes() {
    let done = text("SECTIONS { . = 0x1000; .t : { *(.text) } .comment 0 : { *(.comment) } end = .; }");
    assert!(!done.contains("comment"), "{done}");
}

#[test]
fn two_sections_of_one_name_have_two() {
    let done = adapted("SECTIONS { . = 0x1000; .t : { *(.text) } .t : { *(.data) } }");
    assert_eq!(done.names, [(".t.2".into(), ".t".into())]);
}

#[test]
fn sections_and_memory_are_one() {
    let done = text("SECTIONS { . = 0x1000; .t : { *(.text) } } a = 3; SECTIONS { .d : { *(.data) } }");
    assert_eq!(done.matches("SECTIONS").count(), 1, "{done}");
    let done = adapted("SECTIONS { .t : { *(.text) } >r }\nMEMORY {\n r (rx) : org = 0x1000, l = 1M\n}");
    let text = String::from_utf8(done.text).unwrap();
    let at = text.lines().position(|line| line.contains("ORIGIN = 0x1000, LENGTH = 1M")).unwrap();
    assert_eq!(done.lines[at].line, 3);
    assert!(text.find("MEMORY") < text.find("SECTIONS"), "{text}");
}

#[test]
fn a_use_of_dot_outside_is_taken_in() {
    let done = text("SECTIONS { . = 0x1000; .t : { *(.text) } } end = .; ASSERT(. > 1, \"m\")");
    assert!(done.ends_with('}') && done.contains("ldi.here.1 > 1"), "{done}");
}

#[test]
fn patterns_and_sorts_have_their_forms() {
    assert!(inside("*(SORT_NONE(.x))").ends_with("*(.x)"));
    assert!(inside("*(.tab+*)").contains(".tab\\+*"));
    assert!(inside("*(SORT_BY_INIT_PRIORITY(.init_array.*))").contains("SORT_BY_NAME(.init_array.*)"));
    assert!(inside("EXCLUDE_FILE(q.o) *(.x)").contains("*(EXCLUDE_FILE(q.o) .x)"));
}

#[test]
fn one_entry_stands_before_sections() {
    assert_eq!(before("ENTRY(a) ENTRY(b)"), "ENTRY(b)");
    let done = text("SECTIONS { ENTRY(go) . = 0x1000; .t : { *(.text) } }");
    assert!(done.starts_with("ENTRY(go) SECTIONS"), "{done}");
}

/// ldlang.c, `lang_end`: if nothing defines the entry symbol, the program begins at the start of `.text`.
#[test]
fn an_entry_that_nothing_defines_is_written_as_an_address() {
    let reading = crate::script::parse(Path::new("t.ld"), b"ENTRY(no) SECTIONS { . = 0x1000; .text : { *(.text) } }");
    let reading = reading.unwrap();
    let objects = invented::objects(&reading.script, invented::Kind::Small);
    let evaluation = evaluate(&reading.script, &objects, &Settings::default()).unwrap();
    let names: Vec<&BStr> = objects.iter().map(|object| object.name()).collect();
    let done = adapted_script(Request {
        script: &reading.script,
        source: &reading.source,
        evaluation: Some(&evaluation),
        others: None,
        objects: &names,
        is_followed: true,
        entry: None,
        has_default_entry: true,
        defines: &|_| false,
        has_names: &|_| false,
        places_orphans: true,
        sort_section: None,
        leaves_unique: false,
        kept: &[],
        keeps_more: false,
        collects_start_stop: false,
        without_entries: &[],
    });
    let text = done.text.to_str().unwrap();
    assert!(text.contains("ENTRY(ld.ldi.entry)") && text.ends_with("ld.ldi.entry = ADDR(.text);"), "{text}");
    let notes: Vec<&str> = done.notes.iter().map(|note| note.sentence.as_str()).collect();
    assert_eq!(notes, ["ENTRY(no): nothing defines it; the entry is 0x1000, as GNU ld's"]);
}

#[test]
fn program_headers_are_noted() {
    let done = adapted(
        "PHDRS { a PT_LOAD FLAGS(5); b 1 AT(0x2000); } SECTIONS { . = 0x1000; .t : { *(.text) } :a .u : { *(.x) } \
         .d : { *(.data) } :b }",
    );
    let segments = done.segments.unwrap();
    assert_eq!(segments[0].sections, [".t", ".u"]);
    assert_eq!((segments[0].flags, segments[1].load, segments[1].kind), (Some(5), Some(0x2000), 1));
}

#[test]
fn comments_of_a_line_are_those_of_the_profile() {
    assert_eq!(text("a = 1; # one\nb = 2;"), "a = 1; /* one */\nb = 2;");
}

#[test]
fn no_text_makes_it_panic() {
    let script = "ENTRY(a) MEMORY { r (rx!w) : ORIGIN = 0x1000, LENGTH = 1M } PHDRS { a PT_LOAD; } \
                  SECTIONS { . = 0x1000; \
                  .t ALIGN(8) (NOLOAD) : AT(ADDR(.t) - 4) SUBALIGN(4) { a = .; *(.text .[a-z]*) FILL(0x90) . = 4; \
                  KEEP(*x.o(SORT(.x) .y)) BYTE(1) ASSERT(. > 1, \"m\") } >r AT>r :a =0x9090 \
                  /DISCARD/ : { *(.z) } } b = .;";
    for length in 0..script.len() {
        for changed in [&script[..length], &script[length..]] {
            if let Ok(reading) = crate::script::parse(Path::new("t.ld"), changed.as_bytes()) {
                drop(reading);
                adapted(changed);
            }
        }
    }
}

/// What stands in `.t` and behind it for statements if nothing is known of the objects.
fn of_any(statements: &str, after: &str) -> String {
    let script = format!("SECTIONS {{ . = 0x1000; .t : {{ *(.text) {statements} }} {after} }}");
    let reading = crate::script::parse(Path::new("t.ld"), script.as_bytes()).unwrap();
    let kinds = invented::all(&reading.script).unwrap();
    let others: Vec<&Evaluation> = kinds.iter().skip(1).map(|kind| &kind.evaluation).collect();
    let done = adapted_script(Request {
        script: &reading.script,
        source: &reading.source,
        evaluation: Some(&kinds[0].evaluation),
        others: Some(&others),
        objects: &[],
        is_followed: false,
        entry: None,
        has_default_entry: false,
        defines: &|_| true,
        has_names: &|_| false,
        places_orphans: false,
        sort_section: None,
        leaves_unique: false,
        kept: &[],
        keeps_more: false,
        collects_start_stop: false,
        without_entries: &[],
    });
    let text = done.text.to_str_lossy();
    text.split("*(.text)").nth(1).unwrap().trim_end_matches('}').split_whitespace().collect::<Vec<_>>().join(" ")
}

/// ldexp.c, `fold_binary`: with a number an operator works on the distance from the section's start, and the result
/// counts from there.
#[test]
fn operators_work_on_distances_of_any_objects() {
    assert_eq!(of_any("m = .;", "a = m & 7;"), "m = .; } a = m & 7;");
    let sized = "m = .; } a = (m - ADDR(.t) & SIZEOF(.t)) + ADDR(.t);";
    assert_eq!(of_any("m = .;", "a = m & SIZEOF(.t);"), sized);
    assert_eq!(of_any("m = .;", "a = m < SIZEOF(.t);"), "m = .; } a = m - ADDR(.t) < SIZEOF(.t);");
    assert_eq!(of_any("m = .;", "a = -m;"), "m = .; } a = -(m - ADDR(.t)) + ADDR(.t);");
    assert_eq!(of_any("m = .;", "a = (m + m) / 2;"), "m = .; } a = (m - ADDR(.t) + (m - ADDR(.t))) / 2;");
    assert_eq!(of_any("m = .;", "a = m - 1 + 2;"), "m = .; } a = m - 1 + 2;");
}

/// ldlang.c, `lang_size_sections_1`: an assignment to `.` in a section takes a number from its start, an address as it
/// is.
#[test]
fn the_location_counter_moves_through_a_symbol() {
    let next = "ldi.next.1 = ALIGN(8) + 4; . = ldi.next.1 - ldi.start.t; }";
    assert_eq!(of_any(". = ALIGN(8) + 4;", ""), next);
    assert_eq!(of_any(". = . + 4 + 4;", ""), ". += 4 + 4; }");
    assert_eq!(of_any("m = .; . = m + 8;", ""), "m = .; . = m + 8 - ldi.start.t; }");
}

#[test]
fn what_needs_more_stands_behind_it() {
    assert_eq!(of_any("n = SIZEOF(.t);", ""), "} n = SIZEOF(.t) + ADDR(.t);");
    assert_eq!(of_any("a = b;", ".d : { *(.data) b = .; }"), "} .d : { *(.data) b = .; } a = b;");
    assert_eq!(of_any("", "a = SIZEOF(.d); .d : { *(.data) }"), "} .d : { *(.data) } a = SIZEOF(.d);");
}

#[test]
fn what_needs_the_objects_is_left_as_it_is() {
    assert_eq!(of_any("", ". = . + SIZEOF(.d); .d : { *(.data) }"), "} . = . + SIZEOF(.d); .d : { *(.data) }");
    assert_eq!(of_any("ASSERT(. < 64, \"m\");", ""), "ldi.here.1 = .; ASSERT(ldi.here.1 - ADDR(.t) < 64, \"m\"); }");
}
