//! What messages need of the script of a link: its lines, and where it assigns names and has regions and output
//! sections.

use std::collections::{HashMap, HashSet};
use std::path::Path;

use bstr::{BString, ByteSlice};

use super::{plain, Excerpt};
use crate::script::tree::{
    Assignment, BinaryOperator, Expr, ExprKind, Fill, Function, MemoryRegion, Name, OutputSection, Provision,
    SectionStatement, SectionsStatement, Span, Spanned, Statement,
};
use crate::script::{parse, Place, Source};

/// A region of memory as the script writes it.
#[derive(Clone, PartialEq, Eq, Debug)]
pub(super) struct RegionText {
    pub line: u32,
    pub origin: String,
    pub length: String,
}

/// An output section: its line, and the regions that it names.
#[derive(Clone, PartialEq, Eq, Debug)]
pub(super) struct OutputText {
    pub line: u32,
    pub region: Option<Name>,
    pub load_region: Option<Name>,
}

/// What can have no value in a statement.
#[derive(Clone, Copy, Default, Debug)]
pub(super) struct Doubtful {
    pub has_division: bool,
    pub has_align: bool,
}

/// An ASSERT: its line, its message and the symbols that it names.
struct AssertText {
    line: u32,
    message: Name,
    symbols: Vec<Name>,
}

/// A script that was linked. A text that is no script of GNU ld's has lines and nothing else.
#[derive(Default)]
pub(super) struct Outline {
    /// The symbol of ENTRY, and its line.
    pub entry: Option<(Name, u32)>,
    /// The line of the first assignment of each symbol.
    pub assignments: HashMap<Name, u32>,
    /// The line of the PROVIDE of each symbol.
    pub provides: HashMap<Name, u32>,
    /// The regions.
    pub regions: HashMap<Name, RegionText>,
    /// The output sections; those of a name that is there twice are left out.
    pub outputs: HashMap<Name, OutputText>,
    doubtful: HashMap<u32, Doubtful>,
    assertions: Vec<AssertText>,
    repeated: HashSet<Name>,
    source: Source,
}

impl Outline {
    /// Reads a script.
    pub fn read(text: &[u8]) -> Outline {
        let mut outline = Outline::default();
        if let Ok(reading) = parse(Path::new(""), text) {
            outline.source = reading.source;
            for statement in &reading.script.statements {
                outline.statement(statement);
            }
            let repeated = std::mem::take(&mut outline.repeated);
            outline.outputs.retain(|name, _| !repeated.contains(name));
        }
        outline
    }

    /// The divisions and ALIGNs in the statements that begin on a line.
    pub fn doubtful(&self, line: u32) -> Doubtful {
        self.doubtful.get(&line).copied().unwrap_or_default()
    }

    /// The symbols that the ASSERT of a line with this message names; none if there are several such.
    pub fn asserted_names(&self, line: u32, message: &[u8]) -> &[Name] {
        let mut found = self.assertions.iter().filter(|one| one.line == line && one.message == message);
        match (found.next(), found.next()) {
            (Some(one), None) => &one.symbols,
            _ => &[],
        }
    }

    fn line(&self, span: Span) -> u32 {
        self.source.place(span.start).line
    }

    fn statement(&mut self, statement: &Spanned<Statement>) {
        let line = self.line(statement.span);
        match &statement.node {
            Statement::Assign(assignment) => self.assignment(assignment, line),
            Statement::Assert(assertion) => self.assertion(&assertion.condition, &assertion.message, line),
            Statement::Entry(name) => self.entry = Some((name.clone(), line)),
            Statement::Memory(regions) => regions.iter().for_each(|region| self.region(region)),
            Statement::Sections(statements) => {
                for statement in statements {
                    self.sections_statement(statement);
                }
            }
            _ => {}
        }
    }

    fn sections_statement(&mut self, statement: &Spanned<SectionsStatement>) {
        let line = self.line(statement.span);
        match &statement.node {
            SectionsStatement::Assign(assignment) => self.assignment(assignment, line),
            SectionsStatement::Assert(assertion) => self.assertion(&assertion.condition, &assertion.message, line),
            SectionsStatement::Entry(name) => self.entry = Some((name.clone(), line)),
            SectionsStatement::Output(section) => self.output_section(section, line),
            SectionsStatement::Overlay(overlay) => {
                for section in &overlay.sections.node {
                    let line = self.line(section.span);
                    self.output_section(&section.node, line);
                }
            }
        }
    }

    fn output_section(&mut self, section: &OutputSection, line: u32) {
        let OutputSection { address, load_address, align, subalign, region, load_region, .. } = section;
        for value in [address, load_address, align, subalign].into_iter().flatten() {
            self.doubt(value, line);
        }
        if align.is_some() || subalign.is_some() {
            self.doubtful.entry(line).or_default().has_align = true;
        }
        for statement in &section.body.node {
            self.section_statement(statement);
        }
        let node = |name: &Option<Spanned<Name>>| name.as_ref().map(|name| name.node.clone());
        let output = OutputText { line, region: node(region), load_region: node(load_region) };
        let name = &section.name.node;
        if name != "/DISCARD/" && self.outputs.insert(name.clone(), output).is_some() {
            self.repeated.insert(name.clone());
        }
    }

    fn section_statement(&mut self, statement: &Spanned<SectionStatement>) {
        let line = self.line(statement.span);
        match &statement.node {
            SectionStatement::Assign(assignment) => self.assignment(assignment, line),
            SectionStatement::Assert(assertion) => self.assertion(&assertion.condition, &assertion.message, line),
            SectionStatement::Data(_, value) | SectionStatement::Fill(Fill { value, .. }) => self.doubt(value, line),
            _ => {}
        }
    }

    fn assignment(&mut self, assignment: &Assignment, line: u32) {
        self.doubt(&assignment.value, line);
        let lines = match assignment.provision {
            Provision::Plain | Provision::Hidden => &mut self.assignments,
            Provision::Provide | Provision::ProvideHidden => &mut self.provides,
        };
        lines.entry(assignment.target.node.clone()).or_insert(line);
    }

    fn assertion(&mut self, condition: &Expr, message: &Name, line: u32) {
        self.doubt(condition, line);
        let mut seen: HashSet<&Name> = HashSet::new();
        let mut symbols: Vec<Name> = Vec::new();
        condition.visit(&mut |expr| match &expr.kind {
            ExprKind::Symbol(name) if seen.insert(name) => symbols.push(name.clone()),
            _ => {}
        });
        self.assertions.push(AssertText { line, message: message.clone(), symbols });
    }

    fn region(&mut self, region: &Spanned<MemoryRegion>) {
        let line = self.line(region.span);
        let region = &region.node;
        self.doubt(&region.origin, line);
        self.doubt(&region.length, line);
        let text = |value: &Expr| plain(&spaced(self.source.slice(value.span)));
        let text = RegionText { line, origin: text(&region.origin), length: text(&region.length) };
        self.regions.insert(region.name.node.clone(), text);
    }

    /// Notes what can have no value in an expression.
    fn doubt(&mut self, value: &Expr, line: u32) {
        let found = self.doubtful.entry(line).or_default();
        value.visit(&mut |expr| match &expr.kind {
            ExprKind::Binary(BinaryOperator::Divide | BinaryOperator::Remainder, _, _) => found.has_division = true,
            ExprKind::Call(Function::Align | Function::Block | Function::Next, _) => found.has_align = true,
            _ => {}
        });
    }
}

/// A text with single spaces, and without its comments.
fn spaced(text: &[u8]) -> BString {
    let mut out = BString::default();
    let mut rest = text;
    while !rest.is_empty() {
        if rest.starts_with(b"/*") {
            let end = rest.find("*/").map_or(rest.len(), |end| end + 2);
            rest = rest.get(end..).unwrap_or_default();
            out.push(b' ');
            continue;
        }
        let (byte, after) = rest.split_at(1);
        out.extend_from_slice(byte);
        rest = after;
    }
    let words: Vec<&[u8]> = out.fields().collect();
    BString::from(words.join(&b' '))
}

/// The lines of a text.
pub(super) struct Lines<'a> {
    text: &'a [u8],
    starts: Vec<usize>,
}

impl<'a> Lines<'a> {
    pub fn new(text: &'a [u8]) -> Lines<'a> {
        let starts = std::iter::once(0).chain(memchr::memchr_iter(b'\n', text).map(|at| at + 1)).collect();
        Lines { text, starts }
    }

    /// A line, from 1 on, for a message; none if there is no such line.
    pub fn excerpt(&self, line: u32) -> Option<Excerpt> {
        let index = (line as usize).checked_sub(1)?;
        let start = *self.starts.get(index)?;
        let end = self.starts.get(index + 1).copied().unwrap_or(self.text.len());
        let line = self.text.get(start..end)?;
        let length = line.iter().rposition(|byte| !byte.is_ascii_whitespace())? + 1;
        line.get(..length).map(Excerpt::of_line)
    }
}

/// Where the lines of a script came from, if it was made of another text.
pub(super) fn origin(path: &Path, origins: &dyn Fn(u32) -> Option<Place>, line: u32) -> Place {
    origins(line).unwrap_or_else(|| Place { path: path.to_owned(), line, column: 1 })
}

#[cfg(test)]
mod tests {
    use super::*;

    const SCRIPT: &[u8] = b"ENTRY(_start)
MEMORY {
  rom : ORIGIN = 0x1000, LENGTH = 4K /* small */ -
    1
  ram (w) : ORIGIN = 0x8000, LENGTH = 1M / 2
}
first = 1;
SECTIONS {
  .text : AT(0x100) { *(.text) first = 2; PROVIDE(given = .); ASSERT(x + y + x, \"m\"); } >rom
  .data : { BYTE(4) } >ram AT>rom
  .twice : { *(.a) }
  .twice : { *(.b) . = ALIGN(8); }
  /DISCARD/ : { *(.c) }
}
";

    fn outline() -> Outline {
        Outline::read(SCRIPT)
    }

    #[test]
    fn the_entry_and_the_first_assignment_of_a_name_have_their_lines() {
        let outline = outline();
        assert_eq!(outline.entry, Some(("_start".into(), 1)));
        assert_eq!(outline.assignments.get(&Name::from("first")), Some(&7));
        assert_eq!(outline.provides.get(&Name::from("given")), Some(&9));
        assert_eq!(outline.assignments.get(&Name::from("given")), None);
    }

    #[test]
    fn regions_have_their_numbers_as_they_are_written() {
        let region =
            |line, origin: &str, length: &str| RegionText { line, origin: origin.into(), length: length.into() };
        let outline = outline();
        assert_eq!(outline.regions.get(&Name::from("rom")), Some(&region(3, "0x1000", "4K - 1")));
        assert_eq!(outline.regions.get(&Name::from("ram")), Some(&region(5, "0x8000", "1M / 2")));
    }

    #[test]
    fn output_sections_have_their_regions_but_those_that_are_there_twice() {
        let outline = outline();
        let name = |text: &str| Some(Name::from(text));
        let data = OutputText { line: 10, region: name("ram"), load_region: name("rom") };
        assert_eq!(outline.outputs.get(&Name::from(".data")), Some(&data));
        let mut names: Vec<String> = outline.outputs.keys().map(ToString::to_string).collect();
        names.sort();
        assert_eq!(names, [".data", ".text"]);
    }

    #[test]
    fn what_can_have_no_value_and_what_an_assertion_names_is_found_by_the_line() {
        let outline = outline();
        assert!(outline.doubtful(5).has_division && !outline.doubtful(5).has_align);
        assert!(outline.doubtful(12).has_align);
        assert!(!outline.doubtful(7).has_division);
        assert_eq!(outline.asserted_names(9, b"m"), ["x", "y"]);
        assert!(outline.asserted_names(9, b"n").is_empty());
    }

    #[test]
    fn a_text_that_is_no_script_has_lines_and_nothing_else() {
        let outline = Outline::read(b"SECTIONS { .a : {");
        assert!(outline.entry.is_none() && outline.outputs.is_empty());
        let lines = Lines::new(b"  one  \n\n two\r\nthree");
        let excerpt = |line| lines.excerpt(line).is_some();
        assert_eq!([0, 1, 2, 3, 4, 5].map(excerpt), [false, true, false, true, true, false]);
        assert!(Lines::new(b"").excerpt(1).is_none());
    }

    #[test]
    fn no_text_makes_it_panic() {
        for end in 0..SCRIPT.len() {
            Outline::read(&SCRIPT[..end]);
            let mut other = SCRIPT.to_vec();
            other[end] ^= 0xff;
            Outline::read(&other);
        }
    }
}
