//! A sentence for each refusal of an edit, of an object and of a script.

use std::ffi::OsStr;
use std::path::{Path, PathBuf};

use super::super::rules::{OBJECTS, SCRIPTS};
use super::super::{first_of, refusals_of_object, refusals_of_script, Diagnostic, RefusedInput};
use super::{assembled, compiled, object};
use crate::profile::limits::MAX_PAYLOAD;
use crate::script::Place;
use crate::session_client::Refusal;

fn input<'a>(name: &'a str, number: u32, inner: u32, data: Option<&'a [u8]>) -> RefusedInput<'a> {
    RefusedInput { name: name.into(), refusal: Refusal { number, inner }, data, ldi: OsStr::new("/none/ldi") }
}

fn texts(found: &[Diagnostic]) -> Vec<String> {
    found.iter().map(ToString::to_string).collect()
}

#[test]
fn refusals_that_are_not_of_the_bytes() {
    let long = vec![0; MAX_PAYLOAD + 1];
    for (name, number, data, wanted) in [
        ("a.o", 1, &b""[..], "a.o: an object of this name is there already [a.o: refused 1 0]"),
        ("a.o", 2, b"", "a.o: there is no object of this name [a.o: refused 2 0]"),
        ("a.o", 3, b"", "a.o: the position is past the end of the objects [a.o: refused 3 0]"),
        ("a.o", 7, b"", "a.o: out of memory [a.o: refused 7 0]"),
        ("a.o", 9, b"", "a.o: refused 9 0 [a.o: refused 9 0]"),
        ("a.o", 6, &long, "a.o: it has more than 67108864 bytes [a.o: refused 6 0]"),
        (
            "b.o",
            6,
            b"",
            "b.o: there are 4,096 objects already, which is the most that a link may have [b.o: refused 6 0]",
        ),
        (
            "\u{e4}.o",
            6,
            b"",
            "\u{e4}.o: its name has the byte 0xc3: an object's name has 1 to 255 bytes, each from `!' to `~' \
             [\u{e4}.o: refused 6 0]",
        ),
    ] {
        assert_eq!(texts(&refusals_of_object(&input(name, number, 0, Some(data)), None)), [wanted]);
    }
}

#[test]
fn without_programs_the_tables_speak() {
    for (inner, sentence) in OBJECTS {
        let found = refusals_of_object(&input("a", 4, *inner, Some(b"\x7fELF")), None);
        assert_eq!(texts(&found), [format!("a: {sentence} [a: refused 4 {inner}]")]);
    }
    for (inner, sentence) in SCRIPTS {
        let found = refusals_of_script(&input("a", 5, *inner, Some(b"")), &|_| None);
        assert_eq!(texts(&found), [format!("a: {sentence} [a: refused 5 {inner}]")]);
    }
}

#[test]
fn files_that_are_no_elf_files() {
    let found = refusals_of_object(&input("a", 4, 2, Some(b"BC\xc0\xde....")), None);
    assert!(texts(&found)[0].contains("; it is LLVM's bitcode, which has no code: compile without -flto ["));
}

#[test]
fn a_relocation_is_named_with_its_type_symbol_and_place() {
    let source = "extern int g;\n\n\nint p(void) { asm(\".long g@GOT\"); return 0; }";
    let data = match compiled(source, &["-fPIC", "-g"]) {
        Some(data) => data,
        None => return,
    };
    let found = refusals_of_object(&input("a.o", 4, 11, None), Some(&object("a.o", data)));
    let wanted = "/project/text.c:4: (a.o .text+0x0): R_X86_64_GOT32 against `g' needs a global offset table, and \
        there is none; compile with -fno-pic -mcmodel=small, or -mcmodel=kernel for the upper 2 GB, and without \
        -fno-plt [a.o: refused 4 11]";
    assert_eq!(texts(&found), [wanted]);
}

#[test]
fn of_each_type_and_symbol_the_first_relocation_is_named() {
    let data = match assembled("nop\n.long g@GOT, g@GOT\n.quad h@size") {
        Some(data) => data,
        None => return,
    };
    let found = texts(&refusals_of_object(&input("a.o", 4, 11, None), Some(&object("a.o", data))));
    assert_eq!(found.len(), 2);
    assert!(found[0].starts_with("a.o: (.text+0x1): R_X86_64_GOT32 against `g' needs"), "{}", found[0]);
    assert!(found[1].starts_with("a.o: (.text+0x9): R_X86_64_SIZE64 against `h' is a relocation"), "{}", found[1]);
}

#[test]
fn tls_is_called_tls() {
    let tls = "there is no TLS: no __thread, thread_local or #[thread_local]";
    let own = ".section .tdata,\"awT\",@progbits\n.globl v\nv: .long 1\n.size v, 4\n.type v, @object";
    let (own, other) = match (assembled(own), assembled("mov e@tpoff, %eax")) {
        (Some(own), Some(other)) => (own, other),
        _ => return,
    };
    let found = texts(&refusals_of_object(&input("a.o", 4, 7, None), Some(&object("a.o", own))));
    let section = "a.o: (.tdata): this section with `v' is thread-local storage (TLS), which is not linked";
    assert_eq!(found, [format!("{section}; {tls} [a.o: refused 4 7]")]);
    let found = texts(&refusals_of_object(&input("a.o", 4, 9, None), Some(&object("a.o", other))));
    let symbol = "a.o: `e' is thread-local storage (TLS), which is not linked";
    let relocation =
        "a.o: (.text+0x3): R_X86_64_TPOFF32 against `e' is of thread-local storage (TLS), which is not linked";
    assert_eq!(found, [symbol, relocation].map(|what| format!("{what}; {tls} [a.o: refused 4 9]")));
}

#[test]
fn a_message_for_each_place_of_a_script() {
    let text = b"x = MAX(1, 2);\ny = .; z = 4k;";
    let refused = input("image.ld", 5, 2, Some(text));
    let origin = |line: u32| (line == 1).then(|| Place { path: PathBuf::from(Path::new("b.ld")), line: 9, column: 1 });
    let found = refusals_of_script(&refused, &origin);
    let rule = "[image.ld: refused 5 2]";
    let first = "b.ld:9: MAX is not in the profile: write `(a > b ? a : b)`";
    let second = "image.ld:2: `.` may not stand outside of SECTIONS: write the statement as the last one in SECTIONS";
    assert_eq!(texts(&found), [format!("{first}: x = MAX(1, 2); {rule}"), format!("{second}: y = .; z = 4k; {rule}")]);
    let told = first_of(&found).map(|first| first.to_string());
    assert_eq!(told, Some(format!("{first}; and 1 more place: x = MAX(1, 2); {rule}")));
    let other = refusals_of_script(&RefusedInput { refusal: Refusal { number: 5, inner: 3 }, ..refused }, &|_| None);
    assert!(texts(&other)[0].starts_with("image.ld:2: `.` may not stand"), "the number excludes MAX and 4k");
}
