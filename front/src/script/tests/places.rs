//! Files that are included, and where things stand in them.

use std::ffi::OsStr;
use std::io;
use std::path::{Path, PathBuf};

use super::super::tree::{SectionsStatement, Statement};
use super::super::{ErrorKind, Reader, Reading};
use super::{print, read};

/// The files of a folder, by their paths.
fn files(path: &Path) -> io::Result<Vec<u8>> {
    let text: &[u8] = match path.to_str() {
        Some("mem.ld") => b"ram : ORIGIN = 0x1000,\n LENGTH = 4K\n",
        Some("lib/in.ld") => b"/* in */\n*(.text)\nINCLUDE deep.ld\n",
        Some("lib/deep.ld") => b"y = ABSOLUTE(.);\n",
        Some("top.ld") => b"top = 1;",
        Some("more/open.ld") => b".x : {",
        Some("close.ld") => b"} x = 1;",
        _ => return Err(io::ErrorKind::NotFound.into()),
    };
    Ok(text.to_vec())
}

fn read_with_files(text: &str) -> Result<Reading, super::super::ScriptError> {
    let mut files = files;
    let mut reader = Reader::new(&mut files, vec![PathBuf::from("lib")]);
    reader.text(Path::new("script"), text.as_bytes().to_vec())?;
    Ok(reader.finish())
}

const TEXT: &str =
    "MEMORY {\nINCLUDE mem.ld\n}\nINCLUDE top.ld SECTIONS {\n.text : {\nINCLUDE in.ld\nz = .;\n} >ram\n}\n";

#[test]
fn include_stands_at_the_top_in_memory_in_sections_and_in_output_sections() {
    let reading = read_with_files(TEXT).unwrap_or_else(|error| panic!("{error}"));
    let printed = String::from_utf8_lossy(&print::script(&reading.script)).into_owned();
    let wanted = "MEMORY {\n  ram : ORIGIN = 0x1000, LENGTH = 0x1000\n}\ntop = 1;\nSECTIONS {\n  .text : {\n    \
        *(.text)\n    y = ABSOLUTE(.);\n    z = .;\n  } >ram\n}\n";
    assert_eq!(printed, wanted);
    let paths: Vec<&str> = reading.source.files().iter().filter_map(|file| file.path.to_str()).collect();
    assert_eq!(paths, ["script", "mem.ld", "top.ld", "lib/in.ld", "lib/deep.ld"]);
}

#[test]
fn a_file_stands_in_the_text_in_the_place_of_its_statement() {
    let reading = read_with_files("a = 1; INCLUDE top.ld b = 2;").unwrap_or_else(|error| panic!("{error}"));
    assert_eq!(reading.source.text(), b"a = 1; \ntop = 1;\n b = 2;");
    let includes: Vec<(String, String)> = (reading.source.includes().iter())
        .map(|(span, path)| (reading.source.place(span.start).to_string(), path.display().to_string()))
        .collect();
    assert_eq!(includes, [("script:1".to_owned(), "top.ld".to_owned())]);
    let reading = read_with_files(TEXT).unwrap_or_else(|error| panic!("{error}"));
    let alone = super::super::parse(Path::new("script"), reading.source.text()).map(|reading| reading.script);
    assert_eq!(alone, Ok(reading.script));
}

#[test]
fn spans_name_the_text_and_the_place() {
    let reading = read_with_files(TEXT).unwrap_or_else(|error| panic!("{error}"));
    let source = &reading.source;
    let place = |span: super::super::tree::Span| source.place(span.start).to_string();
    let mut found = Vec::new();
    for statement in &reading.script.statements {
        match &statement.node {
            Statement::Memory(regions) => {
                found.push((source.slice(regions[0].node.length.span), place(regions[0].node.length.span)))
            }
            Statement::Sections(statements) => match &statements[0].node {
                SectionsStatement::Output(section) => {
                    found.push((source.slice(section.name.span), place(section.name.span)));
                    for inner in &section.body.node {
                        found.push((source.slice(inner.span), place(inner.span)));
                    }
                    let region = section.region.as_ref().map(|region| region.span).unwrap_or_default();
                    found.push((source.slice(region), place(region)));
                }
                other => panic!("{other:?}"),
            },
            _ => found.push((source.slice(statement.span), place(statement.span))),
        }
    }
    let found: Vec<(String, String)> = found.into_iter().map(|(text, place)| (text.to_string(), place)).collect();
    let wanted = [
        ("4K", "mem.ld:2"),
        ("top = 1;", "top.ld:1"),
        (".text", "script:5"),
        ("*(.text)", "lib/in.ld:2"),
        ("y = ABSOLUTE(.);", "lib/deep.ld:1"),
        ("z = .;", "script:7"),
        ("ram", "script:8"),
    ];
    let wanted: Vec<(String, String)> = wanted.iter().map(|(text, place)| ((*text).into(), (*place).into())).collect();
    assert_eq!(found, wanted);
}

#[test]
fn a_file_is_whole_in_itself() {
    let error = read_with_files("SEARCH_DIR(more) SECTIONS {\n INCLUDE open.ld\n } }")
        .map(|_| ())
        .map_err(|error| error.to_string());
    assert_eq!(error, Err("more/open.ld:1: this `{` of .x has no `}`".into()));
    let error = read_with_files("SECTIONS { INCLUDE close.ld").map(|_| ()).map_err(|error| error.to_string());
    assert_eq!(error, Err("close.ld:1: the end of the file is expected, not `}`".into()));
}

#[test]
fn several_scripts_have_one_text() {
    let mut files = files;
    let mut reader = Reader::new(&mut files, Vec::new());
    assert_eq!(reader.open(OsStr::new("top.ld")), Ok(0..1));
    assert_eq!(reader.defsym(b"x=top + 2"), Ok(1..2));
    assert_eq!(reader.text(Path::new("b.ld"), b"\ny = x;".to_vec()), Ok(2..3));
    let repeated = reader.open(OsStr::new("top.ld")).map_err(|error| error.kind().clone());
    assert_eq!(repeated, Err(ErrorKind::Repeated("top.ld".into())));
    let missing = reader.open(OsStr::new("none.ld")).map_err(|error| error.kind().to_string());
    assert_eq!(missing, Err("cannot open linker script file none.ld: entity not found".into()));
    let reading = reader.finish();
    let places: Vec<String> = reading
        .script
        .statements
        .iter()
        .map(|statement| reading.source.place(statement.span.start).to_string())
        .collect();
    assert_eq!(places, ["top.ld:1", "--defsym x:1", "b.ld:2"]);
    assert_eq!(print::script(&reading.script), b"top = 1;\nx = top + 2;\ny = x;\n");
}

#[test]
fn a_script_that_an_option_names_cannot_be_included() {
    let mut files = files;
    let mut reader = Reader::new(&mut files, Vec::new());
    assert_eq!(reader.open(OsStr::new("top.ld")), Ok(0..1));
    let error = reader.text(Path::new("b"), b"INCLUDE top.ld".to_vec()).map_err(|error| error.to_string());
    assert_eq!(error, Err("b:1: linker script file 'top.ld' appears multiple times".into()));
}

#[test]
fn defsym_is_an_assignment_and_nothing_after_it() {
    let mut files = super::super::NoFiles;
    let mut reader = Reader::new(&mut files, Vec::new());
    let mut error = |text: &[u8]| reader.defsym(text).map_err(|error| error.to_string());
    assert_eq!(error(b"x = 1 +"), Err("--defsym x:1: an expression is expected, not the end".into()));
    assert_eq!(error(b"x=1;"), Err("--defsym x:1: the end is expected, not `;`".into()));
    assert_eq!(error(b"x"), Err("--defsym x:1: `=` is expected, not the end".into()));
    assert_eq!(error(b"x=y-1"), Ok(0..1));
    assert_eq!(error(b"x+=1"), Ok(1..2));
    assert_eq!(error(b"PROVIDE(x=1)"), Ok(2..3));
}

#[test]
fn a_statement_has_its_separator_in_its_span() {
    let reading = read("a = 1 ; PROVIDE(b = 2) , ASSERT(1, \"m\") ; ENTRY(c)");
    let texts: Vec<String> =
        reading.script.statements.iter().map(|statement| reading.source.slice(statement.span).to_string()).collect();
    assert_eq!(texts, ["a = 1 ;", "PROVIDE(b = 2) ,", "ASSERT(1, \"m\")", "ENTRY(c)"]);
}

#[test]
fn an_expression_has_its_parentheses_in_its_span() {
    let reading = read("a = 1 + (2 * 3);");
    match &reading.script.statements[0].node {
        Statement::Assign(assignment) => match &assignment.value.kind {
            super::super::tree::ExprKind::Binary(_, left, right) => {
                assert_eq!(reading.source.slice(left.span), "1");
                assert_eq!(reading.source.slice(right.span), "(2 * 3)");
                assert_eq!(reading.source.slice(assignment.value.span), "1 + (2 * 3)");
            }
            other => panic!("{other:?}"),
        },
        other => panic!("{other:?}"),
    }
}
