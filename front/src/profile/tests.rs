//! What is said of constructs that the profile has not: the line, what stands there, and what to write instead.

use std::io;
use std::path::Path;

use super::{objections, refused_for, Cause, Objection};

fn found(text: &str) -> Vec<Objection> {
    let mut files = |_: &Path| -> io::Result<Vec<u8>> { Ok(b"y = MAX(1, 2);".to_vec()) };
    objections(Path::new("s"), text.as_bytes(), &mut files, Vec::new())
}

fn said(text: &str) -> Vec<String> {
    found(text).into_iter().map(|one| format!("{}: {}", one.place, one.sentence)).collect()
}

/// The one thing that is said of a text of one line, and its cause.
fn only(text: &str) -> (Cause, String) {
    match found(text).as_slice() {
        [one] => (one.cause, one.sentence.clone()),
        found => panic!("{text}: {found:?}"),
    }
}

/// docs/scripts.md, 'Commands'.
#[test]
fn commands() {
    let objects = "leave it out: objects are arguments of `ldi link`";
    let no_references = "leave it out: cross references are not tested";
    let segments = "leave it out: segments follow addresses, sizes and flags";
    for (text, what, instead) in [
        ("INPUT(a.o)", "INPUT", objects),
        ("GROUP(a.o AS_NEEDED(b.o))", "GROUP", objects),
        ("SEARCH_DIR(\"/lib\")", "SEARCH_DIR", objects),
        ("STARTUP(crt0.o)", "STARTUP", "give its file as the first object"),
        ("OUTPUT(a.out)", "OUTPUT", "leave it out: `-o` names the image"),
        ("OUTPUT_FORMAT(\"elf64-x86-64\")", "OUTPUT_FORMAT", "leave it out: there is one format"),
        ("OUTPUT_ARCH(i386:x86-64)", "OUTPUT_ARCH", "leave it out: there is one machine"),
        ("TARGET(elf64-x86-64)", "TARGET", "leave it out: there is one format"),
        ("EXTERN(a)", "EXTERN", "write KEEP for the section that has the symbol"),
        ("NOCROSSREFS(.a .b)", "NOCROSSREFS", no_references),
        ("NOCROSSREFS_TO(.a .b)", "NOCROSSREFS_TO", no_references),
        ("FORCE_COMMON_ALLOCATION", "FORCE_COMMON_ALLOCATION", "leave it out: common blocks are always placed"),
        ("LD_FEATURE(\"SANE_EXPR\")", "LD_FEATURE", "leave it out"),
        ("VERSION { V1 { global: a; local: *; }; }", "VERSION", "leave it out: there are no versions of symbols"),
        ("PHDRS { text PT_LOAD; }", "PHDRS", segments),
        ("SECTIONS { .a : { } :text }", ":text", segments),
        ("SECTIONS { } INSERT AFTER .b;", "INSERT", "write the section at its place in the one script"),
        ("HIDDEN(a = 1);", "HIDDEN", "write `a = e;`: no name is hidden"),
        ("PROVIDE_HIDDEN(a = 1);", "PROVIDE_HIDDEN", "write PROVIDE: no name is hidden"),
        ("REGION_ALIAS(\"a\", r)", "REGION_ALIAS", "write the region's own name"),
    ] {
        assert_eq!(only(text), (Cause::Grammar, format!("{what} is not in the profile: {instead}")), "{text}");
    }
    assert!(only("OUTPUT_FORMAT(binary)").1.contains("objcopy -O binary"));
    assert!(only("SECTIONS { ENTRY(a) }").1.contains("write it outside of SECTIONS"));
}

/// docs/scripts.md, 'Memory', 'Output sections'.
#[test]
fn regions_and_output_sections() {
    for (text, what, instead) in [
        (
            "MEMORY { r (rx) : ORIGIN = 0, LENGTH = 1 }",
            "(rx) of a memory region",
            "leave it out, and write `>region` after each section",
        ),
        ("MEMORY { r : org = 0, LENGTH = 1 }", "another word for ORIGIN", "write ORIGIN"),
        ("MEMORY { r : ORIGIN = 0, len = 1 }", "another word for LENGTH", "write LENGTH"),
        ("SECTIONS { .a : SUBALIGN(4) { } }", "SUBALIGN", "write `. = ALIGN(n);` before each input statement"),
        ("SECTIONS { .a : ONLY_IF_RO { } }", "ONLY_IF_RO", "write one section"),
        ("SECTIONS { .a BLOCK(4) : { } }", "BLOCK", "write ALIGN"),
        ("SECTIONS { .a : { }, .b : { } }", "`,` after an output section", "leave it out, or write `;`"),
        ("SECTIONS { \".a\" : { } }", "the name \".a\" in quotes", "write it without quotes"),
    ] {
        assert_eq!(only(text), (Cause::Grammar, format!("{what} is not in the profile: {instead}")), "{text}");
    }
    for (text, part) in [
        ("MEMORY { r : ORIGIN = 0, LENGTH = 1, s : ORIGIN = 1, LENGTH = 1 }", "`,` between memory regions"),
        ("MEMORY { r : ORIGIN = 0 LENGTH = 1 }", "`,` is expected before LENGTH"),
        ("SECTIONS { .a (NOLOAD) : { } }", "(NOLOAD) is not in the profile: leave it out: a section whose input"),
        ("SECTIONS { .a : ALIGN_WITH_INPUT { } }", "ALIGN_WITH_INPUT is not in the profile: write AT(e)"),
        ("SECTIONS { OVERLAY : { .x { } } }", "OVERLAY is not in the profile: link an image for each"),
        ("SECTIONS { /DISCARD/ 0 : { } }", "more than input statements for /DISCARD/"),
        ("SECTIONS { /DISCARD/ : { a = 1; } }", "/DISCARD/ has input statements alone"),
        ("SECTIONS { a+b : { } }", "`a+b` is no name: a name is a letter"),
        ("SECTIONS { KEEP : { } }", "`KEEP` is a reserved word, and no name"),
        ("SECTIONS { .a : { } =0x901 }", "a fill is `0x` and an even number of 2 to 16 hexadecimal digits"),
        ("SECTIONS { .a : { FILL(0x90) } }", "FILL is not in the profile: write a fill after the section"),
    ] {
        let (cause, sentence) = only(text);
        assert!(cause == Cause::Grammar && sentence.contains(part), "{text}: {sentence}");
    }
}

/// docs/scripts.md, 'Input statements', 'Data and fills'.
#[test]
fn statements_of_output_sections() {
    for (statement, cause, part) in [
        ("file.o", Cause::Grammar, "a file without its sections is not in the profile: write `file.o(*)`"),
        ("lib.a:file.o(.text)", Cause::Tokens, "`lib.a:file.o` is no pattern: there are no archives"),
        ("*(.a, .b)", Cause::Tokens, "`.a,` is no pattern: patterns are separated by white space"),
        ("*(\".text\")", Cause::Tokens, "\".text\": a pattern stands without quotes"),
        ("lib+x.o(.text)", Cause::Tokens, "`lib+x.o` is no pattern: write `\\` before `+`"),
        ("*([!a])", Cause::Tokens, "`[!a]` is no pattern: a set names the bytes that it matches"),
        ("*(.a])", Cause::Grammar, "`.a]` is no pattern: a `]` stands outside of a set"),
        ("*([a)", Cause::Grammar, "`[a` is no pattern: a `[` has no `]` after it"),
        ("*([])", Cause::Grammar, "a set `[]` has no byte"),
        ("*([a[])", Cause::Grammar, "a set has a `[` in it"),
        ("*(.a SORT(.b))", Cause::Grammar, "`SORT(.b)` is not in the profile in this place: a sort stands alone"),
        ("*(SORT(SORT(.a)))", Cause::Grammar, "`SORT(SORT(.a))` is not in the profile in this place: write one sort"),
        ("*(SORT_BY_INIT_PRIORITY(.a))", Cause::Grammar, "write SORT_BY_NAME"),
        ("*(SORT_NONE(.a))", Cause::Grammar, "SORT_NONE is not in the profile: leave it out"),
        ("*(REVERSE(.a))", Cause::Grammar, "REVERSE is not in the profile: write several statements"),
        ("SORT(*)(.a)", Cause::Grammar, "`SORT(*)` is not in the profile in this place: give the objects in the order"),
        (
            "*(SORT(EXCLUDE_FILE(b.o) .a))",
            Cause::Grammar,
            "EXCLUDE_FILE is not in the profile in this place: none stands",
        ),
        (
            "EXCLUDE_FILE(b.o) *(.a)",
            Cause::Grammar,
            "EXCLUDE_FILE is not in the profile in this place: write it before",
        ),
        ("INPUT_SECTION_FLAGS(SHF_WRITE) *(.a)", Cause::Grammar, "INPUT_SECTION_FLAGS is not in the profile"),
        ("CONSTRUCTORS", Cause::Grammar, "write KEEP(*(SORT(.ctors.*))) KEEP(*(.ctors))"),
        ("CREATE_OBJECT_SYMBOLS", Cause::Grammar, "CREATE_OBJECT_SYMBOLS is not in the profile: leave it out"),
        ("SQUAD(1)", Cause::Grammar, "SQUAD is not in the profile: write QUAD"),
        ("ASCIZ \"text\"", Cause::Grammar, "ASCIZ is not in the profile: write BYTE(e) for each byte"),
        ("a += 1;", Cause::Grammar, "`+=` is not in the profile: write `=` and another name"),
        (". -= 1;", Cause::Grammar, "`-=` is not in the profile: write `. = . - e;`"),
    ] {
        let text = format!("SECTIONS {{ .a : {{ {statement} }} }}");
        let (own, sentence) = only(&text);
        assert!(own == cause && sentence.contains(part), "{text}: {own:?}: {sentence}");
    }
}

/// docs/scripts.md, 'Expressions'.
#[test]
fn expressions() {
    for (value, cause, part) in [
        ("MAX(1, 2)", Cause::Grammar, "MAX is not in the profile: write `(a > b ? a : b)`"),
        ("ABSOLUTE(1)", Cause::Grammar, "ABSOLUTE is not in the profile: write its argument"),
        ("CONSTANT(MAXPAGESIZE)", Cause::Grammar, "CONSTANT is not in the profile: write the number"),
        ("SEGMENT_START(\"t\", 1)", Cause::Grammar, "SEGMENT_START is not in the profile: write its second argument"),
        ("SIZEOF_HEADERS", Cause::Grammar, "SIZEOF_HEADERS is not in the profile: write the number"),
        ("DATA_SEGMENT_ALIGN(1, 2)", Cause::Grammar, "write ALIGN of its first argument"),
        ("NEXT(4)", Cause::Grammar, "NEXT is not in the profile: write ALIGN"),
        ("ALIGNOF(.a)", Cause::Grammar, "ALIGNOF is not in the profile: write the number"),
        ("LOG2CEIL(4)", Cause::Grammar, "LOG2CEIL is not in the profile: write the number"),
        ("DEFINED(a)", Cause::Grammar, "DEFINED is not in the profile: write PROVIDE(a = e)"),
        ("ASSERT(1, \"m\")", Cause::Grammar, "ASSERT is not in the profile in this place"),
        ("SIZEOF(\".a\")", Cause::Grammar, "the name \".a\" in quotes is not in the profile"),
        ("+1", Cause::Grammar, "no `+` stands before an operand"),
        ("1 ^ 2", Cause::Tokens, "there is no operator `^`"),
        ("4k", Cause::Tokens, "4k is no number of the profile: write 4K"),
        ("(10h)", Cause::Tokens, "10h is no number of the profile: write 0x10"),
        ("18446744073709551616", Cause::Limit, "18446744073709551616 is 2^64 or more"),
        ("a ? b", Cause::Grammar, "`:` is expected, not `;`"),
        ("(1", Cause::Grammar, "`)` is expected, not `;`"),
    ] {
        let (own, sentence) = only(&format!("x = {value};"));
        assert!(own == cause && sentence.contains(part), "{value}: {own:?}: {sentence}");
    }
}

/// docs/scripts.md, 'Where `.` may be used'.
#[test]
fn misplaced_dots() {
    for (text, part) in [
        ("x = .;", "`.` may not stand outside of SECTIONS: write the statement as the last one in SECTIONS"),
        ("x = ALIGN(8);", "ALIGN with one argument may not stand outside of SECTIONS"),
        ("ASSERT(. < 4, \"m\")", "`.` may not stand in ASSERT: write `end = .;` before it in SECTIONS"),
        ("MEMORY { r : ORIGIN = ., LENGTH = 1 }", "`.` may not stand in MEMORY: write the number"),
        ("SECTIONS { .a : { . = 4 + .; } }", "in an output section `.` may not be set so: write `. += e;`"),
        ("SECTIONS { .a : { . = ALIGN(., 8); } }", "in an output section `.` may not be set so"),
    ] {
        let (cause, sentence) = only(text);
        assert!(cause == Cause::Dot && sentence.contains(part), "{text}: {sentence}");
    }
    for value in [". + 4 + .", "ALIGN(8)", "ALIGN(ALIGN(8))", "4", "(. + 4)"] {
        let expected = usize::from(value == ". + 4 + .");
        assert_eq!(found(&format!("SECTIONS {{ .a : {{ . = {value}; }} }}")).len(), expected, "{value}");
    }
    assert!(only(". = 1;").1.contains("`.` outside of SECTIONS is not in the profile: set it in SECTIONS"));
}

#[test]
fn what_is_given_twice_or_named_too_early() {
    for (text, part) in [
        ("ENTRY(a) ENTRY(b)", "ENTRY stands in the script twice"),
        ("SECTIONS { .a : { } .a : { } }", "an output section `.a` was given before"),
        ("a = 1; PROVIDE(a = 2);", "`a` was given a value before"),
        ("x = ORIGIN(r);", "no memory region `r` is declared before here: put MEMORY first"),
        ("SECTIONS { .a : { } >r }", "no memory region `r` is declared before here"),
        ("MEMORY { r : ORIGIN = 0, LENGTH = LENGTH(r) }", "no memory region `r` is declared before here"),
    ] {
        let (cause, sentence) = only(text);
        assert!(cause == Cause::Repeated && sentence.contains(part), "{text}: {sentence}");
    }
    assert_eq!(said("SECTIONS { /DISCARD/ : { } /DISCARD/ : { } }"), Vec::<String>::new());
}

/// docs/limits.md, 'Scripts'.
#[test]
fn limits() {
    let signs = |count: usize| format!("SECTIONS {{ .a : {{ x = {}1; }} }}", "-".repeat(count));
    assert_eq!(said(&signs(64)), Vec::<String>::new());
    assert_eq!(only(&signs(65)).0, Cause::Limit);
    assert_eq!(said(&"y = 1 << 2 <= 3 == 4;".repeat(40).replace('y', "y\n")).len(), 39, "the name is given again");
    assert_eq!(said(&format!("SECTIONS {{ .a : {{ {} }} }}", "*(*)".repeat(65))), Vec::<String>::new());
    assert_eq!(only(&format!("{} = 1;", "n".repeat(256))).0, Cause::Limit);
    assert_eq!(only(&format!("SECTIONS {{ {} }}", " /DISCARD/ : { }".repeat(4096))).0, Cause::Limit);
    assert_eq!(only(&" ".repeat((1 << 20) + 1)).0, Cause::Limit);
}

#[test]
fn the_tokens_are_those_of_the_profile() {
    for text in [
        "x=1;y=a/b;",
        "SECTIONS { .a: { .=4;.+=4; *(SORT(.b .c)) PROVIDE(z=1) ASSERT(1,\"m\") } ; }",
        "MEMORY{r:ORIGIN=0,LENGTH=1K}SECTIONS{.a:{}>r}",
        "SECTIONS { .a : { lib\\+x.o(.text) } .b .-4 : { } }",
    ] {
        assert_eq!(said(text), Vec::<String>::new(), "{text}");
    }
    assert_eq!(only("x = 1; # why").0, Cause::Tokens);
    assert_eq!(only("x = 1; @").1, "no token begins with `@` here");
}

#[test]
fn all_places_are_said_in_their_order() {
    let text =
        "OUTPUT_ARCH(i386)\nx = 1\ny = 2;\nz = (3;\nSECTIONS {\n.a : { ABSOLUTE; *(.a, .b) }\n.b : { SQUAD(1) }\n}";
    let lines: Vec<String> =
        said(text).iter().map(|line| line.split(": ").next().unwrap_or_default().to_owned()).collect();
    assert_eq!(lines, ["s:1", "s:3", "s:4", "s:6", "s:6", "s:7"]);
    assert_eq!(said("INCLUDE a.ld\nx = MIN(1, 2);").len(), 3);
    assert!(said("INCLUDE a.ld")[1].starts_with("a.ld:1: MAX is not in the profile"));
}

#[test]
fn what_a_number_excludes_is_left_out() {
    let text = "x = MAX(1, 2); x = .; y = 4k;";
    let causes = |number: u32| refused_for(found(text), number).iter().map(|one| one.cause).collect::<Vec<_>>();
    assert_eq!(causes(1), [Cause::Grammar, Cause::Repeated, Cause::Dot, Cause::Tokens]);
    assert_eq!(causes(2), [Cause::Grammar, Cause::Repeated, Cause::Dot]);
    assert_eq!(causes(4), [Cause::Dot]);
    assert_eq!(causes(5), causes(2));
}
