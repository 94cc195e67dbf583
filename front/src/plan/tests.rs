//! A plan with other bytes of some files is the plan that is made anew of them.

use super::*;
use crate::command::read_command;
use crate::objects::tests::{code, object, WrittenSection, WrittenSymbol};
use crate::objects::{Relocation, SymbolIndex};
use std::fs;

const SCRIPT: &str = "ENTRY(a) SECTIONS { . = 0x1000; .text : { *(.text) } .data : { *(.data) } end = .; }\n";
const GLOBAL: u8 = 1;
const TEXT: u16 = 1;

/// A folder with a script and objects, removed after the test.
struct Project(PathBuf);

impl Project {
    fn new(name: &str) -> Project {
        let path = std::env::temp_dir().join(format!("ldi-front-plan-{}-{name}", std::process::id()));
        fs::create_dir_all(&path).unwrap();
        let project = Project(path);
        project.write("t.ld", SCRIPT.as_bytes());
        project.write("a.o", &code(&[("a", GLOBAL, TEXT, 0, 0)]));
        project.write("b.o", &code(&[("b", GLOBAL, TEXT, 0, 0)]));
        project
    }

    fn write(&self, name: &str, data: &[u8]) {
        fs::write(self.path(name), data).unwrap();
    }

    fn path(&self, name: &str) -> PathBuf {
        self.0.join(name)
    }

    fn command(&self, files: &[&str]) -> Command {
        let whole = |name: &&str| self.path(name).display().to_string().into();
        let words: Vec<BString> = ["-T".into(), whole(&"t.ld")].into_iter().chain(files.iter().map(whole)).collect();
        read_command(&words).unwrap()
    }
}

impl Drop for Project {
    fn drop(&mut self) {
        fs::remove_dir_all(&self.0).unwrap();
    }
}

fn plan(command: &Command, snapshot: &mut Snapshot) -> LinkPlan {
    let scripts = Scripts::read(command, &Environment::new(), snapshot).unwrap();
    LinkPlan::new(command, Inputs::load(command, scripts, snapshot).unwrap())
}

/// An object of code and data with a name in each.
fn with_data(code: &[u8], section: &str, data: &[u8], symbols: &[WrittenSymbol]) -> Vec<u8> {
    let sections = [
        WrittenSection { name: ".text", kind: 1, flags: 6, data: code },
        WrittenSection { name: section, kind: 1, flags: 3, data },
    ];
    object(&sections, symbols, &[])
}

/// Tests that a plan is the one that is made anew of the same files.
fn is_as_anew(found: &LinkPlan, command: &Command) {
    let anew = plan(command, &mut Snapshot::new());
    assert_eq!(found.adapted.text.as_bstr(), anew.adapted.text.as_bstr());
    assert_eq!(found.held(), anew.held());
    assert_eq!(found.options, anew.options);
    assert_eq!(found.form, anew.form);
    let (one, other) = (found.evaluation.as_ref().unwrap(), anew.evaluation.as_ref().unwrap());
    assert_eq!(one.outputs, other.outputs);
    assert_eq!(one.sections, other.sections);
}

/// Makes a plan with objects that became others; says whether they were alike, and gives `None` if all must be
/// planned anew. The plan is the one that is made anew in any case.
fn again(project: &Project, files: &[&str], changed: &[(&str, Vec<u8>)]) -> Option<bool> {
    let command = project.command(files);
    let mut snapshot = Snapshot::new();
    let mut first = plan(&command, &mut snapshot);
    changed.iter().for_each(|(name, data)| project.write(name, data));
    let paths: Vec<PathBuf> = changed.iter().map(|(name, _)| project.path(name)).collect();
    paths.iter().for_each(|path| drop(snapshot.read(path)));
    let is_alike = first.take_alike(&snapshot, &paths);
    let found = if is_alike { first } else { first.replan(&command, &mut snapshot, &paths)? };
    is_as_anew(&found, &command);
    Some(is_alike)
}

#[test]
fn other_code_is_alike() {
    let project = Project::new("alike");
    let symbols = [("a", GLOBAL, TEXT, 0, 0)];
    project.write("a.o", &with_data(b"\x90\xc3", ".data", b"1234", &symbols));
    let changed = [("a.o", with_data(b"\xcc\xc3", ".data", b"5678", &symbols))];
    assert_eq!(again(&project, &["a.o", "b.o"], &changed), Some(true));
}

#[test]
fn other_sizes_names_and_sections_are_planned_as_anew() {
    let project = Project::new("sizes");
    let symbols = [("a", GLOBAL, TEXT, 0, 0)];
    for (code, section, data) in [
        (&b"\x90\x90\xc3"[..], ".data", &b"1234"[..]),
        (b"\x90\xc3", ".data", b"123456"),
        (b"\x90\xc3", ".more", b"1234"),
    ] {
        project.write("a.o", &with_data(b"\x90\xc3", ".data", b"1234", &symbols));
        let changed = [("a.o", with_data(code, section, data, &symbols))];
        assert_eq!(again(&project, &["a.o", "b.o"], &changed), Some(false), "{section}");
    }
    project.write("a.o", &with_data(b"\x90\xc3", ".data", b"1234", &symbols));
    let moved = with_data(b"\x90\xc3", ".data", b"1234", &[("a", GLOBAL, TEXT, 1, 0), ("new", GLOBAL, 2, 0, 0)]);
    assert_eq!(again(&project, &["a.o", "b.o"], &[("a.o", moved)]), Some(false));
}

#[test]
fn common_blocks_that_come_are_planned_as_anew() {
    let project = Project::new("commons");
    let block = code(&[("b", GLOBAL, TEXT, 0, 0), ("block", GLOBAL, 0xFFF2, 4, 8)]);
    project.write("t.ld", SCRIPT.replace("end", ".bss : { *(COMMON) } end").as_bytes());
    assert_eq!(again(&project, &["a.o", "b.o"], &[("b.o", block)]), Some(false));
}

#[test]
fn what_is_no_object_or_decides_about_members_is_planned_anew() {
    let project = Project::new("anew");
    assert_eq!(again(&project, &["a.o", "b.o"], &[("b.o", b"INPUT(c.o)".to_vec())]), None);
    let project = Project::new("archive");
    let files = ["a.o", "b.o", "x.a"];
    project.write("x.a", b"!<arch>\n");
    assert_eq!(again(&project, &files, &[("x.a", b"!<arch>\n\n".to_vec())]), None);
    let thin = |size: usize| thin(&[("b.o", size)]);
    project.write("x.a", &thin(100));
    let command = project.command(&["a.o", "x.a"]);
    let mut snapshot = Snapshot::new();
    let mut plan = plan(&command, &mut snapshot);
    let path = [project.path("x.a")];
    let takes = |snapshot: &mut Snapshot, plan: &mut LinkPlan, data: &[u8]| {
        project.write("x.a", data);
        snapshot.read(&path[0]).unwrap();
        plan.take_lists(snapshot, &path).is_empty()
    };
    assert!(takes(&mut snapshot, &mut plan, &thin(200)), "the same members");
    assert!(!takes(&mut snapshot, &mut plan, &super::tests::thin(&[("a.o", 1), ("b.o", 1)])), "one more");
    assert!(!takes(&mut snapshot, &mut plan, &super::tests::thin(&[("c.o", 1)])), "another one");
    assert!(!takes(&mut snapshot, &mut plan, b"!<arch>\n"), "no thin archive");
    assert!(!takes(&mut snapshot, &mut plan, b"!<thin>\nx"), "cut off");
}

/// A thin archive without a symbol table: members of these names and sizes.
pub(crate) fn thin(members: &[(&str, usize)]) -> Vec<u8> {
    let header = |(name, size): &(&str, usize)| format!("{:<16}{:<32}{size:<10}`\n", format!("{name}/"), "0");
    format!("!<thin>\n{}", members.iter().map(header).collect::<String>()).into_bytes()
}

#[test]
fn an_archive_that_is_no_list_is_one_more_input() {
    let project = Project::new("lists");
    let command = project.command(&["a.o", "b.o"]);
    let mut snapshot = Snapshot::new();
    let mut plan = plan(&command, &mut snapshot);
    let paths = [project.path("a.o"), project.path("other")];
    assert_eq!(plan.take_lists(&snapshot, &paths), paths);
}

/// An object of code and of strings that are merged, with a reference to the last byte of the first string.
fn with_strings(code: &[u8], strings: &[u8], symbols: &[WrittenSymbol]) -> Vec<u8> {
    let sections = [
        WrittenSection { name: ".text", kind: 1, flags: 6, data: code },
        WrittenSection { name: ".data", kind: 1, flags: 0x33, data: strings },
    ];
    let reference = Relocation { offset: 0, kind: 1, symbol: SymbolIndex(1), addend: 2 };
    let symbols: Vec<WrittenSymbol> = [("", 0x30, 2, 0, 0)].iter().chain(symbols).copied().collect();
    let mut data = object(&sections, &symbols, &[reference]);
    let headers = u64::from_le_bytes(data[40..48].try_into().unwrap()) as usize;
    let mut put = |number: usize, at: usize, value: u8| data[headers + 64 * number + at] = value;
    put(2, 48, 1); // sh_addralign
    put(2, 56, 1); // sh_entsize
    put(3, 44, 2); // the first symbol that is not local
    data
}

#[test]
fn strings_are_merged_as_anew() {
    let project = Project::new("strings");
    let own = |name| [(name, GLOBAL, TEXT, 0, 0)];
    let files = ["a.o", "b.o"];
    let a = with_strings(&[0x90; 8], b"text\0more\0", &own("a"));
    let first = || {
        project.write("a.o", &a);
        project.write("b.o", &with_strings(&[0x90; 8], b"some text\0", &own("b")));
    };
    first();
    let code = with_strings(&[0xCC; 8], b"some text\0", &own("b"));
    assert_eq!(again(&project, &files, &[("b.o", code)]), Some(true), "other code");
    for strings in [&b"text\0"[..], b"other\0", b"even more\0some text\0", b""] {
        first();
        let changed = with_strings(&[0x90; 9], strings, &own("b"));
        assert_eq!(again(&project, &files, &[("b.o", changed)]), Some(false), "{strings:?}");
    }
}

#[test]
fn an_object_with_the_same_strings_is_sent_alone() {
    let project = Project::new("alone");
    let own = |name| [(name, GLOBAL, TEXT, 0, 0)];
    project.write("a.o", &with_strings(&[0x90; 8], b"text\0", &own("a")));
    project.write("b.o", &with_strings(&[0x90; 8], b"text\0more\0", &own("b")));
    let command = project.command(&["a.o", "b.o"]);
    let mut snapshot = Snapshot::new();
    let before = plan(&command, &mut snapshot);
    let held = before.held().to_vec();
    assert!(held[1].data.windows(12).any(|name| name == b"ldi.merged./"), "a name of the other object");
    project.write("b.o", &with_strings(&[0x90; 16], b"text\0more\0", &own("b")));
    drop(snapshot.read(&project.path("b.o")));
    let after = before.replan(&command, &mut snapshot, &[project.path("b.o")]).unwrap();
    assert!(held[0].data.is_identical(&after.held()[0].data));
    assert_ne!(held[1].data, after.held()[1].data);
}
