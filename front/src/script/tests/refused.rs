//! Texts that are no scripts of GNU ld: the line, the reason and what is said of a likely slip.

use std::path::Path;

use super::super::source::ScriptFiles;
use super::super::{expression, parse, ErrorKind, Reader, ScriptError};

fn error(text: &str) -> ScriptError {
    match parse(Path::new("script"), text.as_bytes()) {
        Err(error) => error,
        Ok(reading) => panic!("{text:?} is read: {:?}", reading.script),
    }
}

#[test]
fn the_line_and_the_reason() {
    for (text, wanted) in [
        ("SECTIONS {\n.text : {\n*(.text\n}", "script:4: a name is expected, not `}`"),
        ("SECTIONS {\n x = ;\n}", "script:2: an expression is expected, not `;`"),
        ("a = 1\nb = 2;", "script:2: `;` is expected, not `b`"),
        ("/* open", "script:1: this comment has no end"),
        ("SECTIONS { .a : { *(.a) }", "script:1: this `{` of SECTIONS has no `}`"),
        ("SECTIONS {\n.a : {\n*(.a)", "script:2: this `{` of .a has no `}`"),
        ("MEMORY {", "script:1: this `{` of MEMORY has no `}`"),
        ("PHDRS {", "script:1: this `{` of PHDRS has no `}`"),
        ("VERSION { { a; };", "script:1: this `{` of VERSION has no `}`"),
        ("SECTIONS { OVERLAY : {", "script:1: this `{` of OVERLAY has no `}`"),
        ("1 = 2;", "script:1: `1` begins no statement here"),
        ("SECTIONS { OUTPUT(x) }", "script:1: `OUTPUT` begins no statement here"),
        ("SECTIONS { .a : { AT } }", "script:1: `AT` begins no statement here"),
        ("SECTIONS { .a : SUBALIGN(4) AT(0) { } }", "script:1: `{` is expected, not `AT`"),
        ("SECTIONS { .a : { *(.a) } :a >ram }", "script:1: `>` begins no statement here"),
        ("SECTIONS { .a (FOO) (BAR) : { } }", "script:1: a type of a section is expected, not `BAR`"),
        ("SECTIONS { .a : { *(SORT_NONE(SORT(.a))) } }", "script:1: these sorts do not go together here"),
        ("SECTIONS { .a : { SORT_BY_NAME(SORT_NONE(*))(.a) } }", "script:1: these sorts do not go together here"),
        ("SECTIONS { .a : { SORT_NONE(*) } }", "script:1: `(` is expected, not `}`"),
        ("SECTIONS { .a : { ASSERT(1, \"m\") } }", "script:1: `;` is expected, not `}`"),
        ("MEMORY { a : ORIGIN = 0, LENGTH = 1, }", "script:1: the name of a region is expected, not `}`"),
        ("MEMORY { a : o = 0 len = 1 }", "script:1: `LENGTH` is expected, not `len`"),
        ("MEMORY { a (rq) : ORIGIN = 0, LENGTH = 1 }", "script:1: `q` is no attribute of a memory region"),
        ("MEMORY { a () : ORIGIN = 0, LENGTH = 1 }", "script:1: attributes of a region is expected, not `)`"),
        ("PHDRS { a PT_FOO; }", "script:1: `PT_FOO` is no type of program headers; a number can be one"),
        ("PHDRS { a PT_LOAD FLAGS; }", "script:1: `FLAGS` is no word of a program header"),
        ("INPUT()", "script:1: a file is expected, not `)`"),
        ("INPUT(a.o ,)", "script:1: a file is expected, not `)`"),
        ("EXTERN()", "script:1: a name is expected, not `)`"),
        ("x = MAX(1);", "script:1: `,` is expected, not `)`"),
        ("x = ALIGN(1, 2, 3);", "script:1: `)` is expected, not `,`"),
        ("x = SECTIONS + 1 2;", "script:1: `;` is expected, not `2`"),
        ("HIDDEN(x += 1);", "script:1: `=` is expected, not `+=`"),
        ("VERSION { V1 { local: *; global: a; }; }", "script:1: `}` is expected, not `global`"),
        ("VERSION { V1 { a } ; }", "script:1: `;` is expected, not `}`"),
        ("INCLUDE none.ld", "script:1: INCLUDE none.ld: no such file here or in the folders of -L"),
        ("x", "script:1: `=` is expected, not the end"),
    ] {
        assert_eq!(error(text).to_string(), wanted, "{text:?}");
    }
}

#[test]
fn a_name_with_a_mark_in_it_is_pointed_at() {
    assert_eq!(error("x=1;").hint(), Some("`x=1` is one name for GNU ld: write spaces around `=`"));
    assert_eq!(error("SECTIONS { .a: { } }").hint(), Some("`.a:` is one name for GNU ld: write spaces around `:`"));
    assert_eq!(error("REGION_ALIAS(a, b)").hint(), Some("`a,` is one name for GNU ld: write spaces around `,`"));
    assert_eq!(error("x = ;").hint(), None);
}

#[test]
fn the_line_of_the_script_and_the_column() {
    let error = error("a = 1;\n  b = * 2;\n");
    assert_eq!((error.place().line, error.place().column), (2, 7));
    assert_eq!(error.line(), "  b = * 2;");
    assert_eq!((error.span().start, error.span().end), (13, 14));
}

#[test]
fn characters_that_begin_nothing_are_passed_over_with_a_warning() {
    let reading = parse(Path::new("script"), b"x = 1; @ y\x01 = 2;").unwrap_or_else(|error| panic!("{error}"));
    assert_eq!(reading.script.statements.len(), 2);
    let warnings: Vec<String> = reading.warnings.iter().map(ToString::to_string).collect();
    let wanted = ["script:1: ignoring invalid character `@`", "script:1: ignoring invalid character `\\001`"];
    assert_eq!(warnings, wanted);
    assert_eq!(reading.source.text(), b"x = 1;   y  = 2;", "the text has spaces there");
}

#[test]
fn a_separator_in_sections_is_passed_over_with_a_warning() {
    let text = b"SECTIONS { .a : { };\nASSERT(1, \"m\"); }";
    let reading = parse(Path::new("script"), text).unwrap_or_else(|error| panic!("{error}"));
    let warnings: Vec<String> = reading.warnings.iter().map(ToString::to_string).collect();
    let wanted = [
        "script:1: ignoring `;`, which GNU ld does not have here",
        "script:2: ignoring `;`, which GNU ld does not have here",
    ];
    assert_eq!(warnings, wanted);
}

#[test]
fn a_text_of_many_such_characters_is_no_script() {
    assert_eq!(error(&"@".repeat(5000)).kind(), &ErrorKind::Invalid(b'@'));
}

#[test]
fn in_place_of_an_object_one_such_character_suffices() {
    let mut files = super::super::NoFiles;
    let mut reader = Reader::new(&mut files, Vec::new());
    let read = reader.implicit(Path::new("a.o"), b"\x7fELF".to_vec());
    assert_eq!(read.map_err(|error| error.kind().clone()), Err(ErrorKind::Invalid(0x7f)));
    assert_eq!(reader.implicit(Path::new("b.so"), b"INPUT(a.o)".to_vec()), Ok(0..1));
}

#[test]
fn depth_is_bounded() {
    let deep = [
        format!("x = {}1{};", "(".repeat(100_000), ")".repeat(100_000)),
        format!("x = {}1;", "-".repeat(100_000)),
        format!("x = 1{};", " + 1".repeat(100_000)),
        format!("x = {}1;", "1 ? 1 : ".repeat(100_000)),
        format!("x = {}1;", "1 ? ".repeat(100_000)),
        format!("x = {}1{};", "ALIGN(".repeat(100_000), ")".repeat(100_000)),
    ];
    for text in &deep {
        assert_eq!(error(text).kind(), &ErrorKind::ExpressionDepth);
    }
    let groups = format!("SECTIONS {{ {}", "GROUP : { ".repeat(100_000));
    assert_eq!(error(&groups).kind(), &ErrorKind::StatementDepth);
    let externs = format!("VERSION {{ {{ {}", "extern \"C\" { ".repeat(100_000));
    assert_eq!(error(&externs).kind(), &ErrorKind::StatementDepth);
    let needed = format!("INPUT({}a{})", "AS_NEEDED(".repeat(100_000), ")".repeat(100_000));
    assert!(parse(Path::new("script"), needed.as_bytes()).is_ok());
}

#[test]
fn expressions_of_some_hundreds_of_signs_are_read() {
    let sum = format!("1{}", " + 1".repeat(900));
    assert!(expression(Path::new("e"), sum.as_bytes()).is_ok());
    let nest = format!("{}1{}", "(".repeat(150), ")".repeat(150));
    assert!(expression(Path::new("e"), nest.as_bytes()).is_ok());
}

#[test]
fn no_beginning_of_a_script_panics() {
    let text = "MEMORY { r (rx!w) : ORIGIN = 1K, LENGTH = $10 } PHDRS { a PT_LOAD FLAGS(5); } VERSION { V { global: \
        extern \"C\" { a; }; local: *; }; } SECTIONS { .a 1 ? 2 : 3 (NOLOAD) : AT(4) { *(SORT(.a) EXCLUDE_FILE(b) .c) \
        KEEP([ .d ]) x = ALIGN(., 4); BYTE(1) } >r AT>r :a =0x90 OVERLAY : { .b { } } GROUP 4 : { } } INPUT(a -lb)";
    for length in 0..text.len() {
        let _ = parse(Path::new("script"), &text.as_bytes()[..length]);
        let mut bytes = text.as_bytes().to_vec();
        for byte in [b'"', b'(', b'}', b'\0', b';', 0xff] {
            bytes[length] = byte;
            let _ = parse(Path::new("script"), &bytes);
        }
    }
}

#[test]
fn includes_do_not_go_round() {
    let mut files = |_: &Path| Ok(b"INCLUDE x\n".to_vec());
    let files: &mut dyn ScriptFiles = &mut files;
    let mut reader = Reader::new(files, Vec::new());
    let read = reader.text(Path::new("script"), b"INCLUDE x".to_vec());
    assert_eq!(read.map_err(|error| error.kind().clone()), Err(ErrorKind::IncludeDepth));
}
