//! Prints what a script of GNU ld's language names, for `tests/adapt_made.py`, which makes objects for it:
//!
//! ```text
//! outline SCRIPT [FOLDER ..]      the folders are those in which INCLUDE looks
//! ```
//!
//! Each line has words that are separated by tabs: `entry NAME`; `output NAME`, and for each input statement of it
//! `input FILE PATTERN ..`, where FILE is `*` without one; `assigned NAME`, also `provided NAME` by PROVIDE; `used
//! NAME` of an expression, `checked NAME` of an ASSERT, `asked NAME` of DEFINED; `assert START END`, the condition of
//! an ASSERT by its bytes in the text. `included` says that the text is of several files.

use std::error::Error;
use std::io::{self, Write};
use std::path::{Path, PathBuf};

use bstr::{BStr, ByteSlice};
use ldi_front::script::tree::{
    Assertion, Assignment, DataText, Expr, ExprKind, OutputSection, Overlay, Provision, Query, Script,
    SectionStatement, SectionType, SectionsStatement, Statement,
};
use ldi_front::script::{Disk, Reader};

type Lines = Vec<Vec<Vec<u8>>>;

fn line(lines: &mut Lines, words: &[&[u8]]) {
    lines.push(words.iter().map(|word| word.to_vec()).collect());
}

/// What an expression names; `kind` is `used` or `checked`.
fn expression(lines: &mut Lines, kind: &str, value: &Expr) {
    value.visit(&mut |part| match &part.kind {
        ExprKind::Symbol(name) => line(lines, &[kind.as_bytes(), name]),
        ExprKind::Query(Query::Defined, name) => line(lines, &[b"asked", name]),
        ExprKind::Assert(condition, _) => span(lines, condition),
        _ => {}
    });
}

fn span(lines: &mut Lines, value: &Expr) {
    let (start, end) = (value.span.start.to_string(), value.span.end.to_string());
    line(lines, &[b"assert", start.as_bytes(), end.as_bytes()]);
}

fn assertion(lines: &mut Lines, one: &Assertion) {
    span(lines, &one.condition);
    expression(lines, "checked", &one.condition);
}

fn assignment(lines: &mut Lines, one: &Assignment) {
    if one.target.node != "." {
        line(lines, &[b"assigned", &one.target.node]);
        if matches!(one.provision, Provision::Provide | Provision::ProvideHidden) {
            line(lines, &[b"provided", &one.target.node]);
        }
    }
    expression(lines, "used", &one.value);
}

fn statement(lines: &mut Lines, one: &SectionStatement) {
    match one {
        SectionStatement::Assign(one) => assignment(lines, one),
        SectionStatement::Assert(one) => assertion(lines, one),
        SectionStatement::Data(_, value) => expression(lines, "used", value),
        SectionStatement::Text(DataText::Sized(value, _)) => expression(lines, "used", value),
        SectionStatement::Fill(fill) => expression(lines, "used", &fill.value),
        SectionStatement::Input(input) => {
            let file: &BStr = input.file.as_ref().map_or(b"*".as_bstr(), |file| file.node.glob.as_bstr());
            let mut words: Vec<&[u8]> = vec![b"input", file];
            words.extend(input.sections.iter().flatten().map(|pattern| pattern.node.glob.as_slice()));
            line(lines, &words);
        }
        SectionStatement::Text(DataText::ZeroTerminated(_))
        | SectionStatement::CreateObjectSymbols
        | SectionStatement::Constructors(_)
        | SectionStatement::LinkerVersion => {}
    }
}

fn output(lines: &mut Lines, one: &OutputSection) {
    let kind = match one.kind.as_ref().map(|kind| &kind.node) {
        Some(SectionType::ReadOnly(value)) => value.as_ref(),
        Some(SectionType::Type(value)) => Some(value),
        _ => None,
    };
    let fill = one.fill.as_ref().map(|fill| &fill.value);
    let head = [&one.address, &one.load_address, &one.align, &one.subalign].into_iter().flatten();
    head.chain(kind).chain(fill).for_each(|value| expression(lines, "used", value));
    line(lines, &[b"output", &one.name.node]);
    one.body.node.iter().for_each(|one| statement(lines, &one.node));
}

fn overlay(lines: &mut Lines, one: &Overlay) {
    let head = [&one.address, &one.load_address, &one.subalign].into_iter().flatten();
    head.for_each(|value| expression(lines, "used", value));
    one.sections.node.iter().for_each(|one| output(lines, &one.node));
}

fn script(lines: &mut Lines, script: &Script) {
    for one in &script.statements {
        match &one.node {
            Statement::Assign(one) => assignment(lines, one),
            Statement::Assert(one) => assertion(lines, one),
            Statement::Entry(name) => line(lines, &[b"entry", name]),
            Statement::Memory(regions) => {
                for region in regions {
                    expression(lines, "used", &region.node.origin);
                    expression(lines, "used", &region.node.length);
                }
            }
            Statement::Sections(items) => {
                for item in items {
                    match &item.node {
                        SectionsStatement::Assign(one) => assignment(lines, one),
                        SectionsStatement::Assert(one) => assertion(lines, one),
                        SectionsStatement::Entry(name) => line(lines, &[b"entry", name]),
                        SectionsStatement::Output(one) => output(lines, one),
                        SectionsStatement::Overlay(one) => overlay(lines, one),
                    }
                }
            }
            _ => {}
        }
    }
}

fn main() -> Result<(), Box<dyn Error>> {
    let mut words = std::env::args_os().skip(1);
    let path = PathBuf::from(words.next().ok_or("usage: outline SCRIPT [FOLDER ..]")?);
    let mut files = Disk;
    let mut reader = Reader::new(&mut files, words.map(PathBuf::from).collect());
    reader.text(Path::new(&path), std::fs::read(&path)?)?;
    let reading = reader.finish();
    let mut lines = Vec::new();
    if !reading.source.includes().is_empty() {
        line(&mut lines, &[b"included"]);
    }
    script(&mut lines, &reading.script);
    let mut to = io::stdout().lock();
    lines.iter().try_for_each(|words| to.write_all(&[words.join(&b'\t'), b"\n".to_vec()].concat()))?;
    Ok(())
}
