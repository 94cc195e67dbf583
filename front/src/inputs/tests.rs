//! Archives, and which of their members a link needs; beside GNU ld if it is there.

use super::*;
use crate::command::read_command;
use crate::objects::tests::{code, object, WrittenSection, WrittenSymbol};
use crate::script::tree::InputFile;
use crate::snapshot::ReadFault;
use std::fs;
use std::path::Path;
use std::process::Command as Program;

const SCRIPT: &str =
    "SECTIONS { . = 0x1000; .text : { *(.text) } .data : { *(.data) } .bss : { *(.bss) *(COMMON) } }\n";
const GLOBAL: u8 = 1;
const WEAK: u8 = 2;
const TEXT: u16 = 1;
const COMMON: u16 = 0xFFF2;

/// A folder of a test, removed after it.
struct Project(PathBuf);

impl Project {
    fn new(name: &str) -> Project {
        let path = std::env::temp_dir().join(format!("ldi-front-inputs-{}-{name}", std::process::id()));
        fs::create_dir_all(&path).unwrap();
        Project(path)
    }

    fn write(&self, name: &str, data: &[u8]) {
        let path = self.0.join(name);
        fs::create_dir_all(path.parent().unwrap()).unwrap();
        fs::write(path, data).unwrap();
    }

    /// An object of code that defines a name.
    fn defines(&self, file: &str, name: &str) {
        self.write(file, &code(&[(name, GLOBAL, TEXT, 0, 0)]));
    }

    /// An object of code that refers to a name.
    fn refers(&self, file: &str, name: &str) {
        self.write(file, &code(&[(name, GLOBAL, 0, 0, 0)]));
    }

    /// An archive with a symbol table, written by hand.
    fn archive(&self, name: &str, members: &[&str]) {
        let read: Vec<_> = members.iter().map(|member| (*member, fs::read(self.0.join(member)).unwrap())).collect();
        self.write(name, &archive(&read, true));
    }

    fn run(&self, program: &str, words: &[&str]) -> bool {
        Program::new(program).args(words).current_dir(&self.0).output().map_or(false, |done| done.status.success())
    }

    /// The words with the files of this folder by their whole paths.
    fn words(&self, words: &[&str]) -> Vec<BString> {
        let whole = |word: &str| match word.strip_prefix("-L") {
            Some(folder) => format!("-L{}/{folder}", self.0.display()),
            None if word.starts_with('-') => word.to_owned(),
            None => format!("{}/{word}", self.0.display()),
        };
        words.iter().map(|word| whole(word).into()).collect()
    }

    fn try_load(&self, words: &[&str], scripts: &[ScriptInputs]) -> Result<Vec<String>, InputFault> {
        let command = read_command(&self.words(words)).unwrap();
        let loaded = load(&request(&command, scripts), &mut Snapshot::new(), None)?;
        Ok(loaded.objects.iter().map(|object| short(&object.name().to_string())).collect())
    }

    /// The names of the objects that the words lead to, those of archives by their member's alone.
    fn load(&self, words: &[&str]) -> Vec<String> {
        self.try_load(words, &[]).unwrap_or_else(|fault| panic!("{words:?}: {fault}"))
    }
}

impl Drop for Project {
    fn drop(&mut self) {
        fs::remove_dir_all(&self.0).unwrap();
    }
}

fn request<'a>(command: &'a Command, scripts: &'a [ScriptInputs]) -> Request<'a> {
    Request { command, scripts, has_own_script: true, wanted: &[] }
}

/// What the text of a script says.
fn script_inputs(text: &str) -> ScriptInputs {
    ScriptInputs::of(&crate::script::parse(Path::new("t.ld"), text.as_bytes()).unwrap().script)
}

fn file(word: &str) -> InputFile {
    let name = word.strip_prefix("-l");
    InputFile { name: name.unwrap_or(word).into(), is_library: name.is_some(), is_as_needed: false }
}

/// `lib.a(member.o)` or `dir/member.o` as `member.o`.
fn short(name: &str) -> String {
    let inside = name.rsplit_once('(').map_or(name, |(_, inside)| inside.trim_end_matches(')'));
    inside.rsplit('/').next().unwrap_or_default().to_owned()
}

fn header(name: &str, size: usize) -> Vec<u8> {
    format!("{name:<16}{:<12}{:<6}{:<6}{:<8}{size:<10}`\n", 0, 0, 0, 644).into_bytes()
}

/// An archive of members, with a symbol table of their definitions, or without.
fn archive(members: &[(&str, Vec<u8>)], has_symbols: bool) -> Vec<u8> {
    let mut names = Vec::new();
    for (number, (_, data)) in members.iter().enumerate() {
        let object = Object::new("x".into(), crate::objects::Origin::of_file(Path::new("x")), data.clone().into());
        names.extend(object.globals().filter(|one| !one.is_undefined()).map(|one| (one.name.to_string(), number)));
    }
    let mut table_size = 4 * (names.len() + 1) + names.iter().map(|(name, _)| name.len() + 1).sum::<usize>();
    table_size += table_size % 2;
    let mut at = 8 + if has_symbols { 60 + table_size } else { 0 };
    let mut offsets = Vec::new();
    let mut bodies = Vec::new();
    for (name, data) in members {
        offsets.push(at as u32);
        let base = name.rsplit('/').next().unwrap();
        bodies.extend(header(&format!("{base}/"), data.len()));
        bodies.extend_from_slice(data);
        bodies.resize((bodies.len() + 1) / 2 * 2, b'\n');
        at += 60 + (data.len() + 1) / 2 * 2;
    }
    let mut bytes = b"!<arch>\n".to_vec();
    if has_symbols {
        let mut table = (names.len() as u32).to_be_bytes().to_vec();
        table.extend(names.iter().flat_map(|(_, number)| offsets[*number].to_be_bytes()));
        names.iter().for_each(|(name, _)| table.extend(format!("{name}\0").as_bytes()));
        table.resize(table_size, 0);
        bytes.extend(header("/", table_size));
        bytes.extend(table);
    }
    bytes.extend(bodies);
    bytes
}

fn parsed(data: &[u8]) -> Result<Archive, BadArchive> {
    Archive::parse(Path::new("dir/x.a"), data.to_vec().into())
}

#[test]
fn members_have_their_names_and_bytes_and_symbols_their_members() {
    let members = [("a.o", code(&[("f", GLOBAL, TEXT, 0, 0)])), ("odd.txt", b"odd".to_vec()), ("b.o", b"12".to_vec())];
    let found = parsed(&archive(&members, true)).unwrap();
    let names: Vec<_> = found.members().iter().map(|member| member.name.to_string()).collect();
    assert_eq!(names, ["a.o", "odd.txt", "b.o"]);
    for (member, (_, data)) in found.members().iter().zip(&members) {
        assert_eq!(&found.data()[member.range.clone()], data);
    }
    let symbols = found.symbols().unwrap();
    assert_eq!((symbols.len(), symbols[0].name.to_string()), (1, "f".into()));
    assert_eq!(found.member_at(symbols[0].offset), Some(MemberIndex(0)));
    assert_eq!(parsed(&archive(&members, false)).unwrap().symbols(), None);
}

#[test]
fn long_names_stand_in_their_table() {
    let mut data = b"!<arch>\n".to_vec();
    let table = b"a_member_with_a_long_name.o/\nand_another_one_of_these.o/\n";
    data.extend(header("//", table.len()));
    data.extend_from_slice(table);
    data.resize((data.len() + 1) / 2 * 2, b'\n');
    for name in ["/0", "/29", "/29/"] {
        data.extend(header(name, 2));
        data.extend_from_slice(b"xy");
    }
    let names: Vec<_> = parsed(&data).unwrap().members().iter().map(|member| member.name.to_string()).collect();
    assert_eq!(names, ["a_member_with_a_long_name.o", "and_another_one_of_these.o", "and_another_one_of_these.o"]);
    data.extend(header("/999", 0));
    assert_eq!(parsed(&data).unwrap_err(), BadArchive::NoLongName);
}

#[test]
fn a_large_symbol_table_has_numbers_of_eight_bytes() {
    let mut table = [0, 0, 0, 0, 0, 0, 0, 1, 0, 0, 0, 0, 0, 0, 0, 90].to_vec();
    table.extend_from_slice(b"name\0\0");
    let mut data = b"!<arch>\n".to_vec();
    data.extend(header("/SYM64/", table.len()));
    data.extend(table);
    assert_eq!(data.len(), 90);
    data.extend(header("#1/12", 15));
    data.extend_from_slice(b"long_name.o\0abc");
    let found = parsed(&data).unwrap();
    assert_eq!(found.symbols().unwrap(), [ArchiveSymbol { name: "name".into(), offset: 90 }]);
    let member = found.member(found.member_at(90).unwrap()).unwrap();
    assert_eq!((member.name.to_string(), &found.data()[member.range.clone()]), ("long_name.o".into(), &b"abc"[..]));
}

#[test]
fn every_beginning_of_an_archive_is_one_or_refused() {
    let members = [("a.o", code(&[("f", GLOBAL, TEXT, 0, 0)])), ("b.o", code(&[("g", GLOBAL, TEXT, 0, 0)]))];
    let whole = archive(&members, true);
    let mut refused = 0;
    for at in 8..whole.len() {
        let mut changed = whole.clone();
        changed[at] ^= 0xFF;
        for data in [&whole[..at], &changed] {
            refused += usize::from(parsed(data).is_err());
        }
    }
    assert!(refused > whole.len() / 2, "{refused}");
}

#[test]
fn a_symbol_table_that_says_too_much_is_refused() {
    for table in [&[0xFF; 4][..], &[0, 0, 0, 2, 0, 0, 0, 8, 0, 0, 0, 8, b'a'], &[0]] {
        let mut data = b"!<arch>\n".to_vec();
        data.extend(header("/", table.len()));
        data.extend_from_slice(table);
        data.push(b'\n');
        let is_short = parsed(&data).map_or_else(|fault| fault == BadArchive::ShortTable, |_| false);
        assert!(is_short, "{table:?}");
    }
}

#[test]
fn members_of_a_thin_archive_are_files_beside_it() {
    let mut data = b"!<thin>\n".to_vec();
    let table = b"sub/b.o/\n/abs/c.o/\n";
    data.extend(header("//", table.len()));
    data.extend_from_slice(table);
    data.push(b'\n');
    data.extend(header("a.o/", 1000));
    data.extend(header("/0", 1000));
    data.extend(header("/9", 1000));
    let found = parsed(&data).unwrap();
    let files: Vec<_> = found.members().iter().map(|member| found.file_of(member)).collect();
    assert_eq!(files, [Path::new("dir/a.o"), Path::new("dir/sub/b.o"), Path::new("/abs/c.o")]);
    assert!(found.is_thin());
}

#[test]
fn paths_of_members_have_no_detours() {
    for (path, expected) in [
        ("a/./b.o", "a/b.o"),
        ("a//b.o", "a/b.o"),
        ("a/../b.o", "b.o"),
        ("./b.o", "b.o"),
        ("../../b.o", "../../b.o"),
        ("/../b.o", "/b.o"),
        ("a/..", "."),
        ("a/b/../../../c", "../c"),
    ] {
        assert_eq!(archive::normalized(Path::new(path)), Path::new(expected), "{path}");
    }
}

#[test]
fn a_member_is_taken_for_a_name_that_is_undefined_then() {
    let project = Project::new("undefined");
    project.refers("main.o", "f");
    project.defines("f.o", "f");
    project.defines("g.o", "g");
    project.archive("x.a", &["f.o", "g.o"]);
    assert_eq!(project.load(&["main.o", "x.a"]), ["main.o", "f.o"]);
    assert_eq!(project.load(&["x.a", "main.o"]), ["main.o"]);
    assert_eq!(project.load(&["-ug", "x.a"]), ["g.o"]);
    assert_eq!(project.load(&["--require-defined=g", "x.a"]), ["g.o"]);
}

#[test]
fn a_weak_reference_takes_no_member() {
    let project = Project::new("weak");
    project.write("main.o", &code(&[("f", WEAK, 0, 0, 0)]));
    project.defines("f.o", "f");
    project.archive("x.a", &["f.o"]);
    assert_eq!(project.load(&["main.o", "x.a"]), ["main.o"]);
}

#[test]
fn a_name_of_defsym_takes_no_member() {
    let project = Project::new("defsym");
    project.refers("main.o", "f");
    project.defines("f.o", "f");
    project.archive("x.a", &["f.o"]);
    assert_eq!(project.load(&["main.o", "--defsym=f=1", "x.a"]), ["main.o"]);
}

#[test]
fn a_common_block_is_replaced_by_a_definition_and_not_by_a_block() {
    let project = Project::new("common");
    project.write("main.o", &code(&[("c", GLOBAL, COMMON, 4, 4)]));
    project.write("block.o", &code(&[("c", GLOBAL, COMMON, 8, 8)]));
    let data = WrittenSection { name: ".data", kind: 1, flags: 3, data: b"12345678" };
    project.write("defined.o", &object(&[data], &[("c", GLOBAL, 1, 0, 8)], &[]));
    project.archive("x.a", &["block.o", "defined.o"]);
    assert_eq!(project.load(&["main.o", "x.a"]), ["main.o", "defined.o"]);
}

#[test]
fn a_function_does_not_take_the_place_of_a_common_block() {
    const FUNCTION: u8 = 0x20;
    let project = Project::new("function");
    project.write("main.o", &code(&[("c", GLOBAL, COMMON, 4, 4)]));
    project.write("function.o", &code(&[("c", FUNCTION | GLOBAL, TEXT, 0, 2)]));
    project.archive("x.a", &["function.o"]);
    assert_eq!(project.load(&["main.o", "x.a"]), ["main.o"]);
}

#[test]
fn a_new_common_block_has_the_archive_gone_through_again() {
    let project = Project::new("new-block");
    project.refers("main.o", "f");
    let data = WrittenSection { name: ".data", kind: 1, flags: 3, data: b"12345678" };
    project.write("defined.o", &object(&[data], &[("c", GLOBAL, 1, 0, 8)], &[]));
    project.write("f.o", &code(&[("f", GLOBAL, TEXT, 0, 0), ("c", GLOBAL, COMMON, 8, 8)]));
    project.archive("x.a", &["defined.o", "f.o"]);
    assert_eq!(project.load(&["main.o", "x.a"]), ["main.o", "f.o", "defined.o"]);
}

#[test]
fn a_member_takes_members_before_it_too() {
    let project = Project::new("chain");
    project.refers("main.o", "f");
    project.write("f.o", &code(&[("f", GLOBAL, TEXT, 0, 0), ("g", GLOBAL, 0, 0, 0)]));
    project.defines("g.o", "g");
    project.archive("x.a", &["g.o", "f.o"]);
    assert_eq!(project.load(&["main.o", "x.a"]), ["main.o", "f.o", "g.o"]);
}

#[test]
fn a_group_is_gone_through_until_nothing_new_is_needed() {
    let project = Project::new("group");
    project.refers("main.o", "f");
    project.write("f.o", &code(&[("f", GLOBAL, TEXT, 0, 0), ("g", GLOBAL, 0, 0, 0)]));
    project.write("g.o", &code(&[("g", GLOBAL, TEXT, 0, 0), ("h", GLOBAL, 0, 0, 0)]));
    project.defines("h.o", "h");
    project.archive("one.a", &["f.o", "h.o"]);
    project.archive("two.a", &["g.o"]);
    assert_eq!(project.load(&["main.o", "one.a", "two.a"]), ["main.o", "f.o", "g.o"]);
    assert_eq!(project.load(&["main.o", "-(", "one.a", "two.a", "-)"]), ["main.o", "f.o", "g.o", "h.o"]);
}

#[test]
fn an_archive_without_a_symbol_table_is_looked_through() {
    let project = Project::new("no-table");
    project.refers("main.o", "f");
    project.write("x.a", &archive(&[("f.o", code(&[("f", GLOBAL, TEXT, 0, 0)]))], false));
    assert_eq!(project.load(&["main.o", "x.a"]), ["main.o", "f.o"]);
    assert!(project.load(&["x.a"]).is_empty());
}

#[test]
fn all_members_are_taken_of_a_whole_archive_and_of_archives_in_it() {
    let project = Project::new("whole");
    let inner = archive(&[("f.o", code(&[])), ("g.o", code(&[]))], false);
    project.write("x.a", &archive(&[("inner.a", inner), ("h.o", code(&[]))], false));
    assert_eq!(project.load(&["--whole-archive", "x.a"]), ["f.o", "g.o", "h.o"]);
}

#[test]
fn the_first_library_in_the_folders_is_taken() {
    let project = Project::new("library");
    project.defines("f.o", "f");
    project.defines("g.o", "g");
    project.defines("two/start.o", "s");
    project.archive("one/libx.a", &["f.o"]);
    project.archive("two/libx.a", &["g.o"]);
    assert_eq!(project.load(&["-Ltwo", "-Lone", "-ug", "-uf", "-lx"]), ["g.o"]);
    assert_eq!(project.load(&["-Ltwo", "-Lone", "-l:start.o"]), ["start.o"]);
    let missing = project.try_load(&["-Lone", "-lnothing"], &[]).unwrap_err();
    assert!(matches!(&missing, InputFault::Missing(MissingInput::Library(name)) if name == "nothing"));
    assert_eq!(missing.to_string(), "cannot find -lnothing: No such file or directory");
}

#[test]
fn a_shared_library_goes_before_an_archive_but_for_static() {
    let project = Project::new("static");
    project.defines("f.o", "f");
    project.archive("libx.a", &["f.o"]);
    let mut shared = code(&[]);
    shared[16] = 3;
    project.write("libx.so", &shared);
    assert_eq!(project.load(&["-L.", "-static", "-uf", "-lx"]), ["f.o"]);
    let fault = project.try_load(&["-L.", "-lx"], &[]).unwrap_err();
    assert!(matches!(&fault, InputFault::OfOtherLinkers(reason) if reason.ends_with("libx.so: a shared library")));
}

#[test]
fn a_text_in_the_place_of_an_object_names_inputs() {
    let project = Project::new("text");
    project.defines("one/f.o", "f");
    project.defines("g.o", "g");
    project.archive("libx.a", &["g.o"]);
    project.write("one/libboth.a", b"INPUT(f.o)GROUP(-lx)");
    assert_eq!(project.load(&["-L.", "-Lone", "-ug", "-lboth"]), ["f.o", "g.o"]);
    project.write("more", b"SEARCH_DIR(/none)INPUT(one/libboth.a)");
    assert_eq!(project.load(&["-L.", "-ug", "more"]), ["f.o", "g.o"]);
}

#[test]
fn a_text_that_names_itself_ends() {
    let project = Project::new("itself");
    project.write("loop", b"INPUT(loop)");
    assert!(matches!(project.try_load(&["loop"], &[]), Err(InputFault::Bad(BadInput::Text(_)))));
}

#[test]
fn a_text_with_more_than_inputs_is_another_linkers() {
    let project = Project::new("other-text");
    project.write("implicit.ld", b"ENTRY(main)INPUT(a.o)");
    let fault = project.try_load(&["implicit.ld"], &[]).unwrap_err();
    let is_said = |reason: &str| {
        reason.contains("implicit.ld: a script in the place of an object that has ENTRY, and not INPUT and GROUP alone")
    };
    assert!(matches!(&fault, InputFault::OfOtherLinkers(reason) if is_said(reason)), "{fault}");
}

#[test]
fn what_is_no_input_is_refused() {
    let project = Project::new("none");
    project.write("text.o", b"hello\n");
    project.write("zeros.o", &[0; 100]);
    project.write("cut.a", b"!<arch>\nabc0000000000000000000000000000000000000000000000000000000000000000000000");
    for name in ["text.o", "zeros.o", "cut.a"] {
        assert!(matches!(project.try_load(&[name], &[]), Err(InputFault::Bad(_))), "{name}");
    }
    let missing = project.try_load(&["none.o"], &[]).unwrap_err();
    assert!(matches!(&missing, InputFault::Missing(MissingInput::File { fault: ReadFault::Missing, .. })));
    assert!(missing.to_string().starts_with("cannot find "), "{missing}");
    fs::create_dir(project.0.join("folder")).unwrap();
    assert!(matches!(project.try_load(&["folder"], &[]), Err(InputFault::Missing(_))));
}

#[test]
fn what_other_linkers_link_is_theirs() {
    let project = Project::new("others");
    project.write("bitcode.o", b"BC\xc0\xde rest");
    let mut bits32 = code(&[]);
    bits32[4] = 1;
    project.write("bits32.o", &bits32);
    project.write("slim.o", &code(&[("__gnu_lto_slim", GLOBAL, COMMON, 1, 1)]));
    for (name, reason) in [("bitcode.o", "bitcode of LLVM"), ("bits32.o", "a 32-bit object"), ("slim.o", "slim LTO")] {
        let fault = project.try_load(&[name], &[]).unwrap_err();
        assert!(matches!(&fault, InputFault::OfOtherLinkers(text) if text.contains(reason)), "{fault}");
    }
}

#[test]
fn a_torn_object_and_an_empty_file_are_left_to_the_linker() {
    let project = Project::new("torn");
    project.write("torn.o", &code(&[("f", GLOBAL, TEXT, 0, 0)])[..70]);
    project.write("empty.o", b"");
    assert_eq!(project.load(&["torn.o", "empty.o"]), ["torn.o", "empty.o"]);
}

fn of_statement(name: &str) -> ScriptInput {
    ScriptInput::OfStatement(name.into())
}

#[test]
fn what_a_script_names_stands_where_it_does() {
    let project = Project::new("script");
    "abcd".chars().for_each(|name| project.defines(&format!("{name}.o"), &name.to_string()));
    project.archive("libc1.a", &["c.o"]);
    let at = |name: &str| BString::from(project.0.join(name).as_os_str().to_str().unwrap());
    let script = ScriptInputs {
        startup: Some(at("a.o")),
        folders: vec![at("")],
        inputs: vec![ScriptInput::Files(vec![file("-lc1"), file("b.o")])],
        undefined: vec!["c".into()],
        ..ScriptInputs::default()
    };
    assert_eq!(project.try_load(&["d.o", "-Tx.ld"], &[script]).unwrap(), ["a.o", "d.o", "c.o", "b.o"]);
}

#[test]
fn a_file_of_a_statement_is_linked_once_at_the_first_place() {
    let project = Project::new("statement");
    ["m.o", "vec.o", "near/far.o"].iter().for_each(|name| project.defines(name, "x"));
    let vec = project.words(&["vec.o"]).remove(0);
    let script = ScriptInputs { inputs: vec![of_statement(&vec.to_string())], ..ScriptInputs::default() };
    assert_eq!(project.try_load(&["-Tt.ld", "m.o"], std::slice::from_ref(&script)).unwrap(), ["vec.o", "m.o"]);
    assert_eq!(project.try_load(&["-Tt.ld", "m.o", "vec.o"], std::slice::from_ref(&script)).unwrap(), ["vec.o", "m.o"]);
    assert_eq!(project.try_load(&["m.o", "-Tt.ld"], &[script]).unwrap(), ["m.o", "vec.o"]);
}

#[test]
fn a_file_of_a_statement_in_another_folder_has_another_name() {
    let project = Project::new("renamed");
    project.defines("near/far.o", "x");
    let script = [ScriptInputs { inputs: vec![of_statement("far.o")], ..ScriptInputs::default() }];
    let command = read_command(&project.words(&["-Lnear", "-Tt.ld"])).unwrap();
    let loaded = load(&request(&command, &script), &mut Snapshot::new(), None).unwrap();
    assert_eq!(loaded.objects[0].origin().path, project.0.join("near/far.o"));
    assert_eq!(loaded.renamed.get(bstr::B("far.o").as_bstr()).unwrap(), loaded.objects[0].name());
}

#[test]
fn a_script_says_what_is_linked() {
    let found = script_inputs(
        "STARTUP(first.o) INPUT(a.o -lb AS_NEEDED(c.o)) GROUP(d.a) SEARCH_DIR(dir) EXTERN(x y) ENTRY(start)
         OUTPUT(image)
         SECTIONS { ENTRY(inner) .text : { vec.o(.text) *(.text) lib.a:m.o(.x) [a-z].o(.y) KEEP(far.o(.data)) alone.o }
         .data : { vec.o(.data) EXCLUDE_FILE(z.o) *(.z) } }",
    );
    let names = |files: &[InputFile]| -> Vec<String> { files.iter().map(|file| file.name.to_string()).collect() };
    let inputs: Vec<_> = found
        .inputs
        .iter()
        .map(|input| match input {
            ScriptInput::Files(files) => names(files).join(" "),
            ScriptInput::Group(files) => format!("({})", names(files).join(" ")),
            ScriptInput::OfStatement(name) => format!("of {name}"),
        })
        .collect();
    assert_eq!(inputs, ["a.o b c.o", "(d.a)", "of vec.o", "of far.o", "of alone.o", "of vec.o"]);
    assert_eq!((found.startup, found.output), (Some("first.o".into()), Some("image".into())));
    assert_eq!((found.entry, found.folders), (Some("inner".into()), vec!["dir".into()]));
    assert_eq!(found.undefined, ["x", "y"]);
}

#[test]
fn what_a_script_in_the_place_of_an_object_may_not_have_is_named() {
    for (text, other) in [
        ("INPUT(a.o) GROUP(b.a) SEARCH_DIR(c) OUTPUT_FORMAT(elf64-x86-64) OUTPUT_ARCH(i386:x86-64)", None),
        ("x = 4;", Some("x")),
        ("INPUT(a.o) EXTERN(b)", Some("EXTERN")),
        ("OUTPUT_FORMAT(binary)", Some("OUTPUT_FORMAT")),
        ("SECTIONS { .x : { *(.x) } }", Some("SECTIONS")),
    ] {
        assert_eq!(script_inputs(text).other.as_deref(), other, "{text}");
    }
}

#[test]
fn a_script_alone_may_name_the_inputs() {
    let command = read_command(&["-Tt.ld".into()]).unwrap();
    assert!(!has_inputs(&command, &[ScriptInputs::default()]));
    let script = ScriptInputs { inputs: vec![ScriptInput::Files(vec![file("a.o")])], ..ScriptInputs::default() };
    assert!(has_inputs(&command, &[script]));
    let startup = ScriptInputs { startup: Some("a.o".into()), ..ScriptInputs::default() };
    assert!(has_inputs(&command, &[startup]));
}

#[test]
fn search_dir_goes_after_the_folders_before_its_script() {
    let project = Project::new("search");
    ["one", "two", "three"].iter().for_each(|folder| project.defines(&format!("{folder}/x.o"), folder));
    let folder = project.words(&["two"]).remove(0);
    let script = [ScriptInputs { folders: vec![folder], ..ScriptInputs::default() }];
    let first = |words: &[&str]| {
        let command = read_command(&project.words(words)).unwrap();
        let loaded = load(&request(&command, &script), &mut Snapshot::new(), None).unwrap();
        let name = loaded.objects[0].globals().next().unwrap().name.to_string();
        name
    };
    assert_eq!(first(&["-Lone", "-Tt.ld", "-Lthree", "-l:x.o"]), "one");
    assert_eq!(first(&["-Tt.ld", "-Lthree", "-l:x.o"]), "two");
    assert_eq!(first(&["-nostdlib", "-Tt.ld", "-Lthree", "-l:x.o"]), "three");
}

#[test]
fn another_target_is_another_linkers() {
    let load_with = |words: &[&str], script: &str| {
        let command = read_command(&words.iter().map(|word| BString::from(*word)).collect::<Vec<_>>()).unwrap();
        let script = [script_inputs(script)];
        let loaded = load(&request(&command, &script), &mut Snapshot::new(), None);
        loaded.map(|loaded| loaded.objects.len()).map_err(|fault| match fault {
            InputFault::OfOtherLinkers(text) => text,
            fault => panic!("{fault}"),
        })
    };
    let other = |text: &str| Err(text.to_owned());
    assert_eq!(load_with(&["-Tt"], "TARGET(elf32-i386)"), other("TARGET(elf32-i386): unsupported format"));
    let pe = "OUTPUT_FORMAT(pei-x86-64)";
    assert_eq!(load_with(&["-Tt"], pe), other("OUTPUT_FORMAT(pei-x86-64): unsupported format"));
    assert_eq!(load_with(&["-Tt", "--oformat=binary"], pe), Ok(0));
    assert_eq!(load_with(&["-Tt"], "OUTPUT_FORMAT(binary)"), Ok(0));
    assert_eq!(load_with(&["-Tt"], "TARGET(elf64-x86-64) OUTPUT_FORMAT(elf64-x86-64)"), Ok(0));
}

#[test]
fn a_binary_file_is_kept_by_gc_sections() {
    let project = Project::new("binary");
    project.write("logo", b"123");
    let command = read_command(&project.words(&["-bbinary", "logo"])).unwrap();
    let loaded = load(&request(&command, &[]), &mut Snapshot::new(), None).unwrap();
    assert_eq!(loaded.objects[0].retained(), [crate::objects::SectionIndex(1)]);
    assert_eq!(loaded.objects[0].globals().count(), 3);
}

#[test]
fn the_same_file_twice_has_two_names() {
    let project = Project::new("twice");
    project.defines("a.o", "a");
    assert_eq!(project.load(&["a.o", "a.o"]), ["a.o", "a.o#2"]);
}

#[test]
fn a_required_name_is_defined_or_said() {
    let project = Project::new("required");
    project.defines("a.o", "a");
    for (words, missing) in [(["a.o", "--require-defined=a"], None), (["a.o", "--require-defined=b"], Some("b"))] {
        let command = read_command(&project.words(&words)).unwrap();
        let mut loaded = load(&request(&command, &[]), &mut Snapshot::new(), None).unwrap();
        assert_eq!(loaded.missing_required(&command).map(ToString::to_string).as_deref(), missing);
    }
}

#[test]
fn what_stands_is_not_read_into_tables_again() {
    let project = Project::new("again");
    project.defines("a.o", "a");
    project.defines("b.o", "b");
    project.archive("x.a", &["b.o"]);
    let command = read_command(&project.words(&["-ub", "a.o", "x.a"])).unwrap();
    let mut snapshot = Snapshot::new();
    let first = load(&request(&command, &[]), &mut snapshot, None).unwrap();
    project.defines("a.o", "other");
    let mut snapshot = snapshot.next();
    let second = load(&request(&command, &[]), &mut snapshot, Some(&first)).unwrap();
    assert!(!std::ptr::eq(first.objects[0].elf(), second.objects[0].elf()));
    assert!(std::ptr::eq(first.objects[1].elf(), second.objects[1].elf()));
}

#[test]
fn other_bytes_of_an_object_are_the_same_link_where_no_name_chooses() {
    let project = Project::new("replaced");
    project.write("a.o", &code(&[("a", GLOBAL, TEXT, 0, 0), ("f", GLOBAL, 0, 0, 0)]));
    project.defines("f.o", "f");
    project.defines("g.o", "g");
    project.archive("x.a", &["f.o", "g.o"]);
    let command = read_command(&project.words(&["a.o", "x.a"])).unwrap();
    let mut snapshot = Snapshot::new();
    let mut loaded = load(&request(&command, &[]), &mut snapshot, None).unwrap();
    let path = [project.0.join("a.o")];
    let name = loaded.objects[0].name().to_owned();
    let mut changes = |symbols: &[WrittenSymbol]| {
        project.write("a.o", &code(symbols));
        let is_same = loaded.take_changed(&command, &mut snapshot, &path);
        assert_eq!(loaded.objects[0].name(), name);
        is_same.then(|| loaded.objects[0].globals().next().unwrap().name.to_string())
    };
    let changed = changes(&[("new", GLOBAL, TEXT, 0, 0), ("f", GLOBAL, 0, 0, 0)]);
    assert_eq!(changed.as_deref(), Some("new"));
    assert_eq!(changes(&[("g", GLOBAL, 0, 0, 0), ("f", GLOBAL, 0, 0, 0)]), None, "it wants another member");
    assert_eq!(changes(&[("new", GLOBAL, TEXT, 0, 0)]), None, "it wants a member no more");
    assert_eq!(changes(&[("f", GLOBAL, TEXT, 0, 0)]), None, "it defines what the member does");
    project.archive("x.a", &["f.o"]);
    assert!(!loaded.take_changed(&command, &mut snapshot, &[project.0.join("x.a")]));
}

/// Numbers that are the same in each run.
struct Chance(u64);

impl Chance {
    fn below(&mut self, end: usize) -> usize {
        self.0 = self.0.wrapping_mul(6364136223846793005).wrapping_add(1442695040888963407);
        (self.0 >> 33) as usize % end
    }

    fn shuffled<T: Clone>(&mut self, items: &[T]) -> Vec<T> {
        let mut items = items.to_vec();
        (1..items.len()).rev().for_each(|last| items.swap(last, self.below(last + 1)));
        items
    }
}

/// The names of the objects whose `.text` is in GNU ld's map, in their order.
fn by_gnu_ld(project: &Project, words: &[&str]) -> Vec<String> {
    fs::remove_file(project.0.join("gnu.map")).ok();
    let all = [&["-T", "t.ld", "-Map=gnu.map", "-o", "gnu", "--noinhibit-exec"], words].concat();
    Program::new("ld.bfd").args(all).current_dir(&project.0).output().unwrap();
    let text = fs::read_to_string(project.0.join("gnu.map")).unwrap();
    let map = text.split("Linker script and memory map").nth(1).unwrap();
    let rows = map.lines().filter_map(|line| line.strip_prefix(" .text "));
    rows.filter_map(|row| row.split_whitespace().nth(2)).map(short).collect()
}

/// Archives, groups and whole archives of objects with random names take what GNU ld takes, in its order.
#[test]
fn random_projects_are_those_of_gnu_ld() {
    let project = Project::new("random");
    if !project.run("ld.bfd", &["--version"]) || !project.run("ar", &["--version"]) {
        return;
    }
    project.write("t.ld", SCRIPT.as_bytes());
    let mut chance = Chance(52);
    let names: Vec<String> = (0..12).map(|number| format!("n{number}")).collect();
    for number in 0..24 {
        let count = 1 + chance.below(4);
        let symbols: Vec<WrittenSymbol> = chance.shuffled(&names.iter().map(String::as_str).collect::<Vec<_>>())
            [..count]
            .iter()
            .map(|name| match chance.below(7) {
                0 | 1 => (*name, GLOBAL, TEXT, 0, 0),
                2 | 3 => (*name, GLOBAL, 0, 0, 0),
                4 => (*name, WEAK, TEXT, 0, 0),
                5 => (*name, WEAK, 0, 0, 0),
                _ => (*name, GLOBAL, COMMON, 8, 8),
            })
            .collect();
        project.write(&format!("o{number}.o"), &code(&symbols));
    }
    for round in 0..15 {
        let all: Vec<String> = (0..24).map(|number| format!("o{number}.o")).collect();
        let objects = chance.shuffled(&all);
        let archives: Vec<String> = (0..3).map(|index| format!("lib{index}.a")).collect();
        for (index, name) in archives.iter().enumerate() {
            fs::remove_file(project.0.join(name)).ok();
            let flags = ["rcs", "rcsT"][chance.below(2)];
            let members = objects[4 + 5 * index..9 + 5 * index].iter().map(String::as_str);
            assert!(project.run("ar", &[flags, name].into_iter().chain(members).collect::<Vec<_>>()));
        }
        let (o, a): (Vec<&str>, Vec<&str>) =
            (objects.iter().map(String::as_str).collect(), archives.iter().map(String::as_str).collect());
        let words: Vec<&str> = match round % 5 {
            0 => vec![o[0], o[1], o[2], o[3], a[0], a[1], a[2]],
            1 => vec![o[0], o[1], a[0], o[2], o[3], a[1], a[2], a[0]],
            2 => vec![o[0], o[1], o[2], o[3], "--start-group", a[0], a[1], a[2], "--end-group"],
            3 => vec![o[0], "--whole-archive", a[0], "--no-whole-archive", o[1], o[2], "-(", a[1], a[2], "-)"],
            _ => vec!["-un3", o[0], "--start-group", a[0], o[1], a[1], "--end-group", a[2]],
        };
        assert_eq!(project.load(&words), by_gnu_ld(&project, &words), "{words:?}");
    }
}
