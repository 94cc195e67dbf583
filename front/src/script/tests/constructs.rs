//! Each construct of the language: what is read of it, as it is printed (GNU ld's grammar, `ldgram.y`).

use std::path::Path;

use super::super::tree::{ExprKind, Name, SectionStatement, SectionsStatement, Statement};
use super::super::{expression, version_script};
use super::{print, printed, read};

/// Each text is printed as it stands.
fn same(texts: &[&str]) {
    for text in texts {
        assert_eq!(printed(text), *text);
    }
}

/// Each text is printed as the other.
fn become_of(texts: &[(&str, &str)]) {
    for (text, wanted) in texts {
        assert_eq!(printed(text), *wanted);
    }
}

fn expr(text: &str) -> String {
    let expr = expression(Path::new("e"), text.as_bytes()).unwrap_or_else(|error| panic!("{error} in {text:?}"));
    String::from_utf8_lossy(&print::expression(&expr)).into_owned()
}

#[test]
fn assignments() {
    same(&[
        "x = 1;",
        ". = 4;",
        "x += 1; y -= 1; z *= 2; a /= 2; b <<= 1; c >>= 1; d &= 1; e |= 1;",
        "HIDDEN(x = 1); PROVIDE(y = 2); PROVIDE_HIDDEN(z = 3);",
        "\"a b\" = 1;",
    ]);
    become_of(&[("x = 1, y = 2;", "x = 1; y = 2;"), ("PROVIDE(x = 1), ;;", "PROVIDE(x = 1);")]);
}

#[test]
fn numbers() {
    let table = [
        ("10", 10),
        ("010", 8),
        ("08", 0),
        ("0x1F", 31),
        ("0X1f", 31),
        ("$1f", 31),
        ("4K", 4096),
        ("0x10k", 16384),
        ("1M", 1 << 20),
        ("$2m", 2 << 20),
        ("1fh", 31),
        ("1fX", 31),
        ("17o", 15),
        ("17O", 15),
        ("101b", 5),
        ("12d", 12),
        ("add", 0),
        ("0xffffffffffffffff", u64::MAX),
        ("0x1ffffffffffffffff", u64::MAX),
        ("18446744073709551616", u64::MAX),
        ("0xffffffffffffffffK", (u64::MAX) << 10),
    ];
    for (text, value) in table {
        let expr = expression(Path::new("e"), text.as_bytes()).map(|expr| expr.kind);
        assert_eq!(expr, Ok(ExprKind::Number(value)), "{text}");
    }
}

#[test]
fn operators_and_their_levels() {
    assert_eq!(expr("1+2*3-4"), "1 + 2 * 3 - 4");
    assert_eq!(expr("(1+2)*3"), "(1 + 2) * 3");
    assert_eq!(expr("1-(2-3)"), "1 - (2 - 3)");
    assert_eq!(expr("((1-2))-3"), "1 - 2 - 3");
    assert_eq!(expr("a||b&&c|d^e&f==g<h<<i+j*k"), "a || b && c | d ^ e & f == g < h << i + j * k");
    assert_eq!(expr("(a||b)&&(c|d)"), "(a || b) && c | d");
    assert_eq!(expr("1?2:3?4:5"), "1 ? 2 : 3 ? 4 : 5");
    assert_eq!(expr("(1?2:3)?4:5+6"), "(1 ? 2 : 3) ? 4 : 5 + 6");
    assert_eq!(expr("-~!+x"), "-~!+x");
    assert_eq!(expr("-(a + b)"), "-(a + b)");
    assert_eq!(expr("-a + b"), "-a + b");
}

#[test]
fn a_symbol_takes_slashes_and_tildes() {
    assert_eq!(expr("a / b"), "a / b");
    assert_eq!(expression(Path::new("e"), b"a/b~c").map(|e| e.kind), Ok(ExprKind::Symbol("a/b~c".into())));
    assert_eq!(expr("a-b"), "a - b");
    assert_eq!(expr("\"a-b\""), "\"a-b\"");
    assert_eq!(expr("\"x\""), "x");
    assert_eq!(expr("\".\" + 1"), ". + 1");
}

#[test]
fn functions() {
    for text in [
        "ABSOLUTE(1)",
        "ALIGN(4)",
        "ALIGN(., 4)",
        "BLOCK(4)",
        "DATA_SEGMENT_ALIGN(1, 2)",
        "DATA_SEGMENT_END(.)",
        "DATA_SEGMENT_RELRO_END(0, .)",
        "LOG2CEIL(5)",
        "MAX(1, 2)",
        "MIN(1, 2)",
        "NEXT(8)",
        "ADDR(.a-b)",
        "ALIGNOF(.a)",
        "CONSTANT(MAXPAGESIZE)",
        "DEFINED(x)",
        "LENGTH(ram)",
        "LOADADDR(.a)",
        "ORIGIN(ram)",
        "SIZEOF(.a)",
        "SIZEOF_HEADERS",
        "SEGMENT_START(\"text\", 4 + 5)",
        "ASSERT(1, \"m\")",
    ] {
        assert_eq!(expr(text), text);
    }
    assert_eq!(expr("SIZEOF(\"NOLOAD\")"), "SIZEOF(NOLOAD)");
    assert_eq!(expr("ASSERT(x, m)"), "ASSERT(x, \"m\")");
}

#[test]
fn commands() {
    same(&[
        "ENTRY(_start) STARTUP(a.o) OUTPUT(x) OUTPUT_ARCH(i386:x86-64) TARGET(elf64-x86-64) SEARCH_DIR(/lib)",
        "OUTPUT_FORMAT(\"binary\")",
        "OUTPUT_FORMAT(\"a\", \"b\", \"c\")",
        "EXTERN(a b) NOCROSSREFS(.a .b) NOCROSSREFS_TO(.a .b) NOCROSSREFS() HLL() HLL(a b) SYSLIB()",
        "FORCE_COMMON_ALLOCATION FORCE_GROUP_ALLOCATION INHIBIT_COMMON_ALLOCATION FLOAT NOFLOAT",
        "REGION_ALIAS(\"a\", \"b\") LD_FEATURE(SANE_EXPR) MAP(m)",
        "INSERT AFTER .text INSERT BEFORE .data",
        "ASSERT(1, \"m\")",
    ]);
    become_of(&[
        ("OUTPUT_FORMAT(binary)", "OUTPUT_FORMAT(\"binary\")"),
        ("NOCROSSREFS(.a , .b ,) EXTERN(a, b)", "NOCROSSREFS(.a .b) EXTERN(a b)"),
        ("ASSERT(1, m);", "ASSERT(1, \"m\")"),
    ]);
}

#[test]
fn input_and_group() {
    become_of(&[
        ("INPUT(a.o -lc \"d e\")", "INPUT(a.o -lc \"d e\")"),
        ("GROUP(a.o, b.o , -lc AS_NEEDED(c.o -ld) e.o)", "GROUP(a.o, b.o -lc AS_NEEDED(c.o) AS_NEEDED(-ld) e.o)"),
        ("INPUT(AS_NEEDED(a.o AS_NEEDED(b.o)))", "INPUT(AS_NEEDED(a.o) AS_NEEDED(b.o))"),
        ("INPUT(=/lib/a.o \"-lx\" a.o /*c*/)", "INPUT(=/lib/a.o \"-lx\" a.o)"),
    ]);
}

#[test]
fn a_comma_is_part_of_a_name_in_lists_of_files() {
    let reading = read("INPUT(a.o,b.o)");
    match reading.script.statements.first().map(|statement| &statement.node) {
        Some(Statement::Input(files)) => assert_eq!(files[0].node.name, "a.o,b.o"),
        other => panic!("{other:?}"),
    }
}

#[test]
fn memory() {
    become_of(&[
        (
            "MEMORY { a (rx) : ORIGIN = 0, LENGTH = 4K b (!w r) : org = 0x1000, len = 1 }",
            "MEMORY { a (rx) : ORIGIN = 0, LENGTH = 0x1000, b (!w r) : ORIGIN = 0x1000, LENGTH = 1 }",
        ),
        (
            "MEMORY { a : o = 1 + 2 LENGTH = 3, b : ORIGIN = 0, l = 1 }",
            "MEMORY { a : ORIGIN = 1 + 2, LENGTH = 3, b : ORIGIN = 0, LENGTH = 1 }",
        ),
        (
            "MEMORY { a (\"l\") : ORIGIN = 0, LENGTH = 1 } MEMORY { }",
            "MEMORY { a (\"l\") : ORIGIN = 0, LENGTH = 1 } MEMORY { }",
        ),
    ]);
}

#[test]
fn program_headers() {
    become_of(&[
        (
            "PHDRS { a PT_LOAD FILEHDR PHDRS AT(1) FLAGS(5); b 1 + 2; }",
            "PHDRS { a PT_LOAD FILEHDR PHDRS AT(1) FLAGS(5); b 1 + 2; }",
        ),
        ("PHDRS { a PT_TLS FLAGS (1) PHDRS FLAGS(2); }", "PHDRS { a PT_TLS PHDRS FLAGS(1); }"),
    ]);
}

#[test]
fn heads_of_output_sections() {
    same(&[
        "SECTIONS { .a : { } }",
        "SECTIONS { .a 16 : { } }",
        "SECTIONS { .a ALIGN(16) (NOLOAD) : AT(1) ALIGN(2) ALIGN_WITH_INPUT SUBALIGN(4) ONLY_IF_RO { } }",
        "SECTIONS { .a (COPY) : { } .b (INFO) : { } .c (DSECT) : { } .d (OVERLAY) : { } }",
        "SECTIONS { .a (READONLY) : { } .b (READONLY (TYPE = 1)) : { } .c (TYPE = 1 + 2) : { } }",
        "SECTIONS { .a : ONLY_IF_RW { } .a : SPECIAL { } \"b c\" : { } \"d\" : { } }",
    ]);
    become_of(&[
        ("SECTIONS { .a x + 1 : { } }", "SECTIONS { .a (x + 1) : { } }"),
        ("SECTIONS { .a (x) + 1 (NOLOAD) : { } }", "SECTIONS { .a (x + 1) (NOLOAD) : { } }"),
        ("SECTIONS { .a () : { } .b 4 () : { } }", "SECTIONS { .a : { } .b 4 : { } }"),
        ("SECTIONS { .a BIND(4) BLOCK(2) : { } .b BIND(1 + 2) : { } }", "SECTIONS { .a 4 : { } .b (1 + 2) : { } }"),
    ]);
}

#[test]
fn the_token_after_a_section_s_name_is_read_as_a_name() {
    let reading = read("SECTIONS { .a ~x : { } .b x+1 : { } }");
    let name = |index: usize| match &reading.script.statements[0].node {
        Statement::Sections(statements) => match &statements[index].node {
            SectionsStatement::Output(section) => section.address.as_ref().map(|address| address.kind.clone()),
            other => panic!("{other:?}"),
        },
        other => panic!("{other:?}"),
    };
    assert_eq!(name(0), Some(ExprKind::Symbol("~x".into())));
    assert_eq!(name(1), Some(ExprKind::Symbol("x+1".into())));
}

#[test]
fn tails_of_output_sections() {
    same(&["SECTIONS { .a : { } >ram AT>rom :one :two =0x90, .b : { } }"]);
    become_of(&[
        ("SECTIONS { .a : { } > ram AT > rom =1 + 2 .b : { } }", "SECTIONS { .a : { } >ram AT>rom =1 + 2, .b : { } }"),
        ("SECTIONS { .a : { } =4660 a-b = 1; }", "SECTIONS { .a : { } =4660, a-b = 1; }"),
        ("SECTIONS { .a : { } =0x1234 /DISCARD/ : { } }", "SECTIONS { .a : { } =0x1234, /DISCARD/ : { } }"),
    ]);
}

#[test]
fn a_fill_keeps_all_digits_of_a_literal() {
    let literal = |text: &str| {
        let reading = read(&format!("SECTIONS {{ .a : {{ FILL({text}) }} }}"));
        match &reading.script.statements[0].node {
            Statement::Sections(statements) => match &statements[0].node {
                SectionsStatement::Output(section) => match &section.body.node[0].node {
                    SectionStatement::Fill(fill) => fill.literal.clone(),
                    other => panic!("{other:?}"),
                },
                other => panic!("{other:?}"),
            },
            other => panic!("{other:?}"),
        }
    };
    assert_eq!(literal("0x90"), Some(vec![0x90]));
    assert_eq!(literal("(+0X123)"), Some(vec![0x01, 0x23]));
    assert_eq!(literal("0x00112233445566778899"), Some(vec![0, 0x11, 0x22, 0x33, 0x44, 0x55, 0x66, 0x77, 0x88, 0x99]));
    for other in ["144", "0x90K", "$90", "0x90 + 0", "90h", "0x"] {
        assert_eq!(literal(other), None, "{other}");
    }
}

#[test]
fn statements_of_output_sections() {
    same(&[
        "SECTIONS { .a : { x = .; . += 4; PROVIDE(y = 1); ASSERT(1, \"m\"); } }",
        "SECTIONS { .a : { BYTE(1) SHORT(2) LONG(3) QUAD(4) SQUAD(5) FILL(0x90) ASCII(8) \"t\" ASCIZ \"u\" } }",
        "SECTIONS { .a : { CREATE_OBJECT_SYMBOLS CONSTRUCTORS SORT_BY_NAME(CONSTRUCTORS) LINKER_VERSION } }",
        "SECTIONS { /DISCARD/ : { *(.x) } }",
    ]);
    become_of(&[(
        "SECTIONS { .a : { ;; BYTE(1); SORT(CONSTRUCTORS) x = 1, } }",
        "SECTIONS { .a : { BYTE(1) SORT_BY_NAME(CONSTRUCTORS) x = 1; } }",
    )]);
}

#[test]
fn input_statements() {
    same(&[
        "SECTIONS { .a : { *(.a .b*) a.o *a.o:b.o(.c) [ .d .e ] } }",
        "SECTIONS { .a : { KEEP(*(.a)) KEEP([ .a ]) KEEP(a.o) } }",
        "SECTIONS { .a : { *(EXCLUDE_FILE(a.o b.o) .a .b) EXCLUDE_FILE(c.o) *(.c) SORT_BY_NAME(EXCLUDE_FILE(d) *)(.d) \
         } }",
        "SECTIONS { .a : { *(SORT_BY_NAME(.a) SORT_BY_ALIGNMENT(.b) SORT_NONE(.c) SORT_BY_INIT_PRIORITY(.d)) } }",
        "SECTIONS { .a : { *(SORT_BY_NAME(SORT_BY_ALIGNMENT(.a)) SORT_BY_ALIGNMENT(SORT_BY_NAME(.b))) } }",
        "SECTIONS { .a : { *(REVERSE(.a) REVERSE(SORT_BY_NAME(.b)) SORT_BY_NAME(REVERSE(.c))) SORT_NONE(*)(.d) } }",
        "SECTIONS { .a : { INPUT_SECTION_FLAGS(SHF_ALLOC & !SHF_WRITE) *(.a) KEEP(INPUT_SECTION_FLAGS(A) [ .b ]) } }",
        "SECTIONS { .a : { \"a b\"(\"c d\" \"e\") } }",
    ]);
    become_of(&[(
        "SECTIONS { .a : { *(SORT(SORT(.a))) } }",
        "SECTIONS { .a : { *(SORT_BY_NAME(SORT_BY_NAME(.a))) } }",
    )]);
}

#[test]
fn a_comma_is_part_of_a_pattern() {
    same(&["SECTIONS { .a : { *(.a, .b) } }"]);
    let reading = read("SECTIONS { .a : { *(.a, .b) } }");
    assert!(format!("{:?}", reading.script).contains("\".a,\""));
}

#[test]
fn overlays_and_groups() {
    same(&[
        "SECTIONS { OVERLAY : { } }",
        "SECTIONS { OVERLAY 4 : NOCROSSREFS AT(1) SUBALIGN(2) { .a { *(.a) } :one =0x90, .b { } } >ram AT>rom :two \
         =0, }",
    ]);
    become_of(&[
        ("SECTIONS { GROUP 4 : { .a : { } x = 1; } }", "SECTIONS { . = 4; .a : { } x = 1; }"),
        ("SECTIONS { GROUP : { GROUP BIND(8) : { .a : { } } } }", "SECTIONS { . = 8; .a : { } }"),
    ]);
}

#[test]
fn versions() {
    same(&[
        "VERSION { { local: *; }; }",
        "VERSION { V1 { global: a; b*; local: *; } V0; }",
        "VERSION { V1 { }; V2 { global: \"x(int)\"; }; }",
    ]);
    become_of(&[
        ("VERSION { { a; }; }", "VERSION { { global: a; }; }"),
        (
            "VERSION { V { global : extern \"C++\" { a::b; \"c\" }; local; }; } x = 1;",
            "VERSION { V { global: extern \"C++\" { a::b; }; extern \"C++\" { \"c\"; }; local; }; } x = 1;",
        ),
    ]);
    let nodes = version_script(Path::new("v"), b"V1 { a; };\nV2 { local: b; } V1 V0;");
    let tags = nodes.map(|nodes| nodes.into_iter().map(|node| (node.tag, node.dependencies.len())).collect::<Vec<_>>());
    assert_eq!(tags, Ok(vec![(Some(Name::from("V1")), 0), (Some(Name::from("V2")), 2)]));
}

#[test]
fn comments() {
    become_of(&[
        ("/* a */ x = 1; # b\ny /* c */ = /**/ 2;", "x = 1; y = 2;"),
        ("SECTIONS { .a : { *(.a) # b\n /* c */ x = .; } }", "SECTIONS { .a : { *(.a) x = .; } }"),
    ]);
    let reading = read("SECTIONS { .a : { a.o/*b*/ } }");
    assert!(format!("{:?}", reading.script).contains("a.o/*b*/"), "a comment after a name of files is part of it");
}

#[test]
fn words_are_names_in_other_states_and_in_quotes() {
    same(&["NOLOAD = 1; KEEP = 2; \"SECTIONS\" = 3;", "SECTIONS { .a : { MEMORY = 1; \"KEEP\" = 2; } }"]);
}
