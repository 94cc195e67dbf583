//! A sentence for each fault line: the manual's example of each, and what else they may say.

use std::ffi::OsStr;
use std::path::{Path, PathBuf};

use super::super::rules::FAULTS;
use super::super::{fault_diagnostics, Inputs};
use super::{assembled, check, compiled, messages, object};
use crate::script::Place;

const SCRIPT: &str = "SECTIONS { . = 0x401000; .text : { *(.text) } }";

#[test]
fn f1_of_two_objects() {
    let data = match assembled(".globl f\nf: ret") {
        Some(data) => data,
        None => return,
    };
    let objects = [object("a.o", data.clone()), object("c.o", data)];
    let wanted = "c.o: (.text+0x0): multiple definition of `f'; a.o: (.text+0x0): first defined here [F1 f c.o a.o]";
    check(SCRIPT, "F1 f c.o a.o\n", &objects, &[wanted]);
    let by_script = "a.o: (.text+0x0): multiple definition of `f'; image.ld:2: first defined here, by the script";
    let wanted = format!("{by_script} [F1 f a.o script]");
    check(&format!("\nf = 1;\n{SCRIPT}"), "F1 f a.o script\n", &objects, &[&wanted]);
}

#[test]
fn f1_of_an_object_that_is_named_script() {
    let data = match assembled(".globl f\nf: ret") {
        Some(data) => data,
        None => return,
    };
    let objects = [object("script", data.clone()), object("a.o", data)];
    let wanted =
        "a.o: (.text+0x0): multiple definition of `f'; script: (.text+0x0): first defined here [F1 f a.o script]";
    check(SCRIPT, "F1 f a.o script\n", &objects, &[wanted]);
}

#[test]
fn f1_with_source_lines_of_functions_and_variables() {
    let first = "int other;\nint f(void)\n{\n  return other;\n}\nint v = 1;";
    let again = "int f(void) { return 2; }\n\nint v = 2;";
    let (first, again) =
        match (compiled(first, &["-g", "-fdata-sections"]), compiled(again, &["-gdwarf-4", "-fdata-sections"])) {
            (Some(first), Some(again)) => (first, again),
            _ => return,
        };
    let objects = [object("a.o", first), object("b.o", again)];
    check(SCRIPT, "F1 f b.o a.o\nF1 v b.o a.o\n", &objects, &[
        "/project/text.c:1: (b.o .text+0x0): multiple definition of `f'; /project/text.c:3: (a.o .text+0x0): first \
         defined here [F1 f b.o a.o]",
        "/project/text.c:3: (b.o .data.v+0x0): multiple definition of `v'; /project/text.c:6: (a.o .data.v+0x0): first \
         defined here [F1 v b.o a.o]",
    ]);
}

#[test]
fn f2_by_the_script_and_by_an_option() {
    let wanted = "image.ld:1: undefined entry symbol `main' [F2 main]";
    check(&format!("ENTRY(main)\n{SCRIPT}"), "F2 main\n", &[], &[wanted]);
    let provided = format!("ENTRY(main) PROVIDE(main = 4);{SCRIPT}");
    let wanted =
        "image.ld:1: undefined entry symbol `main'; its PROVIDE counts only if an object uses the name [F2 main]";
    check(&provided, "F2 main\n", &[], &[wanted]);
    let entry = Some(OsStr::new("a b"));
    let path = Path::new("image.ld");
    let inputs = Inputs { script_path: path, script: SCRIPT.as_bytes(), origin: &|_| None, objects: &[], entry };
    let texts: Vec<String> =
        fault_diagnostics(b"F2 a b\nF3 a.o .c\n", &inputs, None).iter().map(ToString::to_string).collect();
    assert_eq!(texts, ["ldi: undefined entry symbol `a b\\nF3 a.o .c', given to -e [F2 a b\\nF3 a.o .c]"]);
}

#[test]
fn f3_with_the_size_of_the_section() {
    let two = ".section .d,\"aw\",@progbits,unique,1\n.long 1\n.section .d,\"aw\",@progbits,unique,2\n.byte 1";
    let (four, one, two) = match (assembled(".data\n.long 1"), assembled(".data\n.byte 1"), assembled(two)) {
        (Some(four), Some(one), Some(two)) => (four, one, two),
        _ => return,
    };
    let objects = [object("a.o", four), object("b.o", one), object("c.o", two)];
    let advice = "add one that does, or /DISCARD/, or --orphan-handling=discard";
    let text = |object: &str, section: &str, size: &str| {
        format!(
            "{object}: ({section}): no statement of image.ld takes this section{size}; {advice} \
             [F3 {object} {section}]"
        )
    };
    let wanted = [text("a.o", ".data", " of 4 bytes"), text("b.o", ".data", " of 1 byte"), text("c.o", ".d", "")];
    let wanted: Vec<&str> = wanted.iter().map(String::as_str).collect();
    check(SCRIPT, "F3 a.o .data\nF3 b.o .data\nF3 c.o .d\n", &objects, &wanted);
}

#[test]
fn f4_says_why_a_name_has_no_value() {
    let script = "SECTIONS {\n  . = first + 16;\n  .text : { *(.text) }\n  first = 0x1000;\n}";
    let wanted = "image.ld:2: `first' has no value yet, image.ld:4 assigns it: . = first + 16; [F4 2 first]";
    check(script, "F4 2 first\n", &[], &[wanted]);
    let objects: Vec<_> = assembled(".globl f\nf: ret").into_iter().map(|data| object("a.o", data)).collect();
    for (script, name, why) in [
        ("SECTIONS { .a : { BYTE(SIZEOF(.a)) } }", ".a", "`.a' is not complete here"),
        (
            "PROVIDE(g = 1); SECTIONS { x = g; }",
            "g",
            "`g' has no value here: its PROVIDE counts only if an object uses the name",
        ),
        ("SECTIONS { x = y; }", "y", "`y' is not defined"),
        (
            "SECTIONS { .a (COPY) : { BYTE(1) } }",
            "COPY",
            "there are no types of output sections, so that `COPY' is a symbol, which nothing defines",
        ),
    ] {
        check(script, &format!("F4 1 {name}\n"), &objects, &[&format!("image.ld:1: {why}: {script} [F4 1 {name}]")]);
    }
    if !objects.is_empty() {
        let script = "SECTIONS { x = f; }";
        let why = "`f' is a symbol of an object: ASSERT alone may name it";
        check(script, "F4 1 f\n", &objects, &[&format!("image.ld:1: {why}: {script} [F4 1 f]")]);
    }
}

#[test]
fn f5_with_the_reason_where_the_statement_has_only_one() {
    for (statement, reason) in [
        (". = ALIGN(12);", "ALIGN to no power of two"),
        ("x = 8 % (4 - 4);", "division or remainder by 0"),
        (".a ALIGN(. / 3) : { *(.x/*) }", "division or remainder by 0, or ALIGN to no power of two"),
        (".a : { *(.x/*) x = ALIGN(1,\n5); }", "ALIGN to no power of two"),
    ] {
        let script = format!("SECTIONS {{\n . = 1;\n  {statement}\n}}");
        let text = statement.lines().next().unwrap_or_default();
        check(&script, "F5 3\n", &[], &[&format!("image.ld:3: {reason}: {text} [F5 3]")]);
    }
    let script = "MEMORY {\n r : ORIGIN = 0, LENGTH = 1\n q : ORIGIN = 1 /\n 0, LENGTH = 1 } SECTIONS { }";
    check(script, "F5 3\n", &[], &["image.ld:3: division or remainder by 0: q : ORIGIN = 1 / [F5 3]"]);
}

#[test]
fn f6_and_f8_with_the_line() {
    let script = "SECTIONS {\n  .d : {\n    *(.d)\n    . = 4;\n  }\n}";
    let back = "`.' would go back; raise the number, which counts from the section's start";
    check(script, "F6 4\n", &[], &[&format!("image.ld:4: {back}: . = 4; [F6 4]")]);
    let past = "an address, an end or `.' would be 2^64 or more; lower the address or the size";
    check(script, "F8 3\n", &[], &[&format!("image.ld:3: {past}: *(.d) [F8 3]")]);
    check(script, "F8 99\n", &[], &[&format!("image.ld:99: {past} [F8 99]")]);
}

#[test]
fn f7_with_what_does_not_fit_and_the_numbers_of_the_region() {
    let memory =
        "MEMORY { r : ORIGIN = 0x1000,\n LENGTH = 4 + 4 /* c */\n q : ORIGIN = 16, LENGTH = 1M }\nSECTIONS {\n";
    for (tail, what) in [
        (">r", "addresses"),
        (">q AT>r", "load addresses"),
        (">r AT>q", "addresses"),
        (">r AT>r", "addresses, or load addresses,"),
    ] {
        let numbers = "(image.ld:1: ORIGIN = 0x1000, LENGTH = 4 + 4)";
        let wanted = format!(
            "image.ld:5: section `.d' will not fit in region `r' {numbers}: its {what} are not all in it; raise \
             LENGTH, or place less there [F7 .d r]"
        );
        check(&format!("{memory} .d : {{ *(.d) }} {tail} }}"), "F7 .d r\n", &[], &[&wanted]);
    }
}

#[test]
fn f9_f10_and_f11() {
    let script = "SECTIONS { . = 0x2000; .d : { *(.d) } . = 0x2004;\n .e : { *(.e) } }";
    check(script, "F9 .e .d\nF10 .e .d\nF11 268439928\n", &[], &[
        "image.ld:2: the addresses of section `.e' overlap those of `.d' (image.ld:1); move one of the two [F9 .e .d]",
        "image.ld:2: the load addresses of section `.e' overlap those of `.d' (image.ld:1); correct AT(..), or use AT> \
         [F10 .e .d]",
        "image.ld: the image would have 268439928 bytes, more than 268435456; close the gaps in sections with file \
         bytes, or keep what has no contents in sections of its own at the end [F11 268439928]",
    ]);
    let twice = "SECTIONS { .a : { } .b : { } .a : { } }";
    check(
        twice,
        "F9 .b .a\n",
        &[],
        &["image.ld:1: the addresses of section `.b' overlap those of `.a'; move one of the two [F9 .b .a]"],
    );
}

#[test]
fn f12_with_the_function_and_with_source_lines() {
    let source =
        "int write_line(void);\nextern int w;\nint *p[2] = {\n 0, &w };\nint main(void)\n{\n  int n = 1;\n\n  return \
        write_line() + n;\n}";
    let (plain, with_lines) = match (compiled(source, &[]), compiled(source, &["-g"])) {
        (Some(plain), Some(with_lines)) => (object("a.o", plain), object("text.o", with_lines)),
        _ => return,
    };
    let text =
        plain.sections().find(|section| section.name == ".text").map(|section| section.index).unwrap_or_default();
    let offset = plain.relocations(text).next().map(|relocation| relocation.offset).unwrap_or_default();
    let fault = |name: &str| format!("F12 {name} .text {offset:016x} write_line");
    let script = "SECTIONS { .text : { *(.text) } .data : { *(.data) } }";
    let wanted = format!("a.o: in `main': (.text+{offset:#x}): undefined reference to `write_line' [{}]", fault("a.o"));
    check(script, &fault("a.o"), &[plain], &[&wanted]);
    let code = fault("text.o");
    let wanted = format!("/project/text.c:9: (text.o .text+{offset:#x}): undefined reference to `write_line' [{code}]");
    let data = "F12 text.o .data 0000000000000008 w";
    let of_data = format!("/project/text.c:3: (text.o .data+0x8): undefined reference to `w' [{data}]");
    check(script, &format!("{code}\n{data}\n"), &[with_lines], &[&wanted, &of_data]);
}

#[test]
fn f12_in_one_of_two_sections_of_a_name() {
    let unique = |number: u32, line: u32, name: &str| {
        format!(".section .text,\"ax\",@progbits,unique,{number}\n.loc 1 {line}\ncall {name}\n")
    };
    let start = ".file \"a.s\"\n.file 1 \"/s/a.s\"\n";
    let apart = assembled(&format!("{start}{}{}", unique(1, 5, "f"), unique(2, 6, "g")));
    let alike = assembled(&format!("{start}{}{}", unique(1, 5, "f"), unique(2, 6, "f")));
    let (apart, alike) = match (apart, alike) {
        (Some(apart), Some(alike)) => (apart, alike),
        _ => return,
    };
    check(
        SCRIPT,
        "F12 a.o .text 0000000000000001 g\n",
        &[object("a.o", apart)],
        &["/s/a.s:6: (a.o .text+0x1): undefined reference to `g' [F12 a.o .text 0000000000000001 g]"],
    );
    check(
        SCRIPT,
        "F12 a.o .text 0000000000000001 f\n",
        &[object("a.o", alike)],
        &["a.o: (.text+0x1): undefined reference to `f' [F12 a.o .text 0000000000000001 f]"],
    );
}

#[test]
fn f13_with_the_section_where_it_is_certain() {
    let there = "\n.section .e,\"ax\"\n.globl f\nf: ret";
    let weak = ".section .e,\"ax\"\n.weak f\nf: ret";
    let own = assembled(&format!("call f{there}"));
    let (own, calls, other, weak) = match (own, assembled("call f"), assembled(there), assembled(weak)) {
        (Some(own), Some(calls), Some(other), Some(weak)) => (own, calls, other, weak),
        _ => return,
    };
    let fault = "F13 a.o .text 0000000000000001 1";
    let text = |what: &str| format!("a.o: (.text+0x1): {what}, which is not in the output; take it in [{fault}]");
    let own = object("a.o", own);
    let symbol = own.globals_named("f".into()).next().map_or(0, |symbol| symbol.index.0);
    let of_own =
        text("`f' is defined in section `.e' of a.o").replace("1 1]", &format!("1 {symbol}]").replace("1 1]", "1 1]"));
    check(SCRIPT, &fault.replace("01 1", &format!("01 {symbol}")), &[own], &[&of_own]);
    let objects = [object("a.o", calls), object("b.o", other)];
    let symbol = objects[0].globals_named("f".into()).next().map_or(0, |symbol| symbol.index.0);
    if symbol == 1 {
        check(SCRIPT, fault, &objects, &[&text("`f' is defined in section `.e' of b.o")]);
        let [calls, _] = objects;
        let objects = [calls, object("b.o", weak.clone()), object("c.o", weak)];
        check(SCRIPT, fault, &objects, &[&text("`f' is defined in a section")]);
    }
}

#[test]
fn f13_of_the_entry_symbol() {
    let tail = "the entry symbol `f' is defined in a section that is not in the output; take it in [F13 entry]";
    check(&format!("ENTRY(f)\n{SCRIPT}"), "F13 entry\n", &[], &[&format!("image.ld:1: {tail}")]);
}

#[test]
fn f14_of_each_type_that_has_a_range() {
    let (lower, nearer) = ("place what it refers to lower", "place the two nearer to each other");
    let model = ", or compile for another code model";
    for (kind, number, value, shown, advice, end) in [
        ("32S", 11, 1 << 31, "0x80000000 is not from -0x80000000 to 0x7fffffff", lower, model),
        ("32", 10, 1 << 32, "0x100000000 is not from 0x0 to 0xffffffff", lower, model),
        ("PC32", 2, u64::MAX - 0x8000_0003, "-0x80000004 is not from -0x80000000 to 0x7fffffff", nearer, model),
        ("16", 12, 1 << 16, "0x10000 is not from -0x8000 to 0xffff", lower, ""),
        ("8", 14, u64::MAX - 0x80, "-0x81 is not from -0x80 to 0xff", lower, ""),
        ("PC8", 15, 0x7fff_ffff_ffff_fffc, "0x7ffffffffffffffc is not from -0x80 to 0x7f", nearer, ""),
    ] {
        let source = format!(".data\n.long 0\n.reloc ., R_X86_64_{kind}, far\n.quad 0\n.globl far\nfar = 5");
        let data = match assembled(&source) {
            Some(data) => data,
            None => return,
        };
        let fault = format!("F14 a.o .data 0000000000000004 {number} {value:016x}");
        let wanted = format!(
            "a.o: (.data+0x4): relocation truncated to fit: R_X86_64_{kind} against `far'; its value {shown}: \
             {advice}{end} [{fault}]"
        );
        check(SCRIPT, &fault, &[object("a.o", data)], &[&wanted]);
    }
    check(
        SCRIPT,
        "F14 a.o .data 0000000000000004 99 0000000080000000",
        &[],
        &["a.o: (.data+0x4): relocation truncated to fit: relocation type 99; its value is 0x80000000 [F14 a.o .data \
         0000000000000004 99 0000000080000000]"],
    );
}

#[test]
fn f15_with_the_message_and_the_names_that_nothing_defines() {
    let objects: Vec<_> = assembled(".long 1").into_iter().map(|data| object("a.o", data)).collect();
    let text = "ASSERT(SIZEOF(.text) <= 3, \"text too big\")";
    check(
        &format!("{SCRIPT}\n{text}"),
        "F15 2 text too big\n",
        &objects,
        &[&format!("image.ld:2: assertion failed: text too big: {text} [F15 2 text too big]")],
    );
    let text = "ASSERT(SIZEOF(.text) <= 3, \"\") ASSERT(x < end + LENGTH(r) + x, \"a  b\")";
    let script = format!("MEMORY {{ r : ORIGIN = 0, LENGTH = 1 }} {SCRIPT}\n{text}");
    if !objects.is_empty() {
        check(
            &script,
            "F15 2 \nF15 2 a  b\n",
            &objects,
            &[
                &format!("image.ld:2: assertion failed: {text} [F15 2 ]"),
                &format!(
                    "image.ld:2: assertion failed: a  b; nothing defines `x'; nothing defines `end': {text} \
                     [F15 2 a  b]"
                ),
            ],
        );
    }
}

#[test]
fn lines_without_what_they_could_be_looked_up_in() {
    let lines =
        "F1 f c.o a.o\nF1 f c.o script\nF3 a.o .data\nF4 2 first\nF5 2\nF6 4\nF7 .d r\nF8 4\nF9 .e .d\nF10 .e .d\n\
        F11 268439928\nF12 a.o .text 0000000000000001 f\nF13 a.o .text 0000000000000001 1\nF13 entry\nF14 a.o .data \
        0000000000000004 11 0000000080000000\nF15 1 text too big\nF16 a\nF5\nF12 a.o\nF2 start";
    let found = messages("", lines, &[]);
    let rules: Vec<String> = found.iter().filter_map(|one| one.rule.clone()).collect();
    assert_eq!(rules.join("\n"), lines);
    let unknown: Vec<&str> =
        found.iter().filter(|one| Some(&one.sentence) == one.rule.as_ref()).map(|one| one.sentence.as_str()).collect();
    assert_eq!(unknown, ["F16 a", "F5", "F12 a.o"]);
    assert_eq!(FAULTS.len(), 16);
}

#[test]
fn more_than_the_limit_are_counted() {
    let inputs =
        Inputs { script_path: Path::new("image.ld"), script: b"", origin: &|_| None, objects: &[], entry: None };
    let text = |limit| {
        let found = fault_diagnostics(b"F5 1\nF5 2\nF5 3\n", &inputs, Some(limit));
        found.iter().map(ToString::to_string).collect::<Vec<_>>()
    };
    let first = "image.ld:1: division or remainder by 0, or ALIGN to no power of two [F5 1]";
    assert_eq!(text(1), [first, ".. and 2 more"]);
    assert_eq!(text(3).len(), 3);
}

#[test]
fn places_are_those_of_the_text_that_the_script_was_made_of() {
    let origin = |line: u32| (line == 2).then(|| Place { path: PathBuf::from("inc/b.ld"), line: 7, column: 1 });
    let script = b"SECTIONS {\n. = ALIGN(12);\n}";
    let inputs = Inputs { script_path: Path::new("out.ld"), script, origin: &origin, objects: &[], entry: None };
    let found: Vec<String> = fault_diagnostics(b"F5 2\n", &inputs, None).iter().map(ToString::to_string).collect();
    assert_eq!(found, ["inc/b.ld:7: ALIGN to no power of two: . = ALIGN(12); [F5 2]"]);
}
