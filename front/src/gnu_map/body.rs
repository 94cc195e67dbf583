//! The statements of the script, each with the input sections that it took (ld/ldlang.c, `print_statement`).

use std::collections::HashMap;

use bstr::BString;

use super::defined_names::Defined;
use super::expression::{assertion, assignment, number_of, text_of};
use super::text::{Text, COLUMN};
use super::{dot, padded, Request};
use crate::layout::evaluation::{Gap, InputSection, OutputSection, Statement, StatementKind};
use crate::layout::ids::{OutputId, SectionId, StatementId};
use crate::layout::Flags;
use crate::objects::EH_FRAME_HDR_START;
use crate::script::tree::{
    self, Assertion, Assignment, DataWidth, Expr, Fill, InputStatement, Pattern, Provision, Script, SectionStatement,
    SectionsStatement, Sort, Span,
};

/// What stands at a place of the script.
#[derive(Clone, Copy)]
enum Node<'a> {
    Assignment(&'a Assignment),
    Assertion(&'a Assertion),
    Input(&'a InputStatement),
    Data(DataWidth, &'a Expr),
    Fill(&'a Fill),
    CreateObjectSymbols,
}

/// A map that is written.
pub(super) struct Body<'a> {
    request: &'a Request<'a>,
    nodes: HashMap<Span, Node<'a>>,
    defined: Defined<'a>,
    /// The names of the objects, as GNU ld prints them.
    owners: Vec<BString>,
    text: Text,
    /// The start of the output section that is written.
    start: u64,
    /// Where the last thing ends that was written (`print_dot`).
    dot: u64,
}

impl<'a> Body<'a> {
    /// A map with a text so far.
    pub(super) fn new(request: &'a Request<'a>, text: Text) -> Body<'a> {
        let (nodes, defined) = (nodes_of(request.script), Defined::of(request));
        let owners = request.objects.iter().map(|object| object.origin().full_name()).collect();
        Body { request, nodes, defined, owners, text, start: 0, dot: 0 }
    }

    /// Adds the text of some statements.
    pub(super) fn statements(&mut self, statements: &[StatementId]) {
        statements.iter().for_each(|id| self.statement(*id));
    }

    /// Adds a text.
    pub(super) fn put(&mut self, text: &str) {
        self.text.put(text.as_bytes());
    }

    /// The whole text.
    pub(super) fn finish(mut self) -> Vec<u8> {
        self.text.take()
    }

    fn line(&mut self, line: impl AsRef<[u8]>) {
        self.text.put(line.as_ref()).end();
    }

    fn statement(&mut self, id: StatementId) {
        let statement = match self.request.evaluation.statement(id) {
            Some(statement) => statement,
            None => return,
        };
        let node = statement.span.and_then(|span| self.nodes.get(&span)).copied();
        match (&statement.kind, node) {
            (StatementKind::Output(output), _) => self.output(*output),
            (StatementKind::Input { sections, gaps }, node) => self.input(node, sections, gaps),
            (StatementKind::Assign { .. } | StatementKind::Dot { .. }, Some(Node::Assignment(node))) => {
                self.assignment(statement, node);
            }
            (StatementKind::Assert, Some(Node::Assertion(node))) => {
                let value = self.request.evaluation.value_at(node.condition.span).map_or(1, |value| value.address);
                self.line(format!(
                    "{:COLUMN$}0x{value:016x}{:COLUMN$}{}",
                    "",
                    "",
                    assertion(&node.condition, &node.message)
                ));
            }
            (StatementKind::Data { offset, size, value }, Some(Node::Data(width, expr))) => {
                self.data(*offset, *size, *value, width, expr);
            }
            (StatementKind::Fill, Some(Node::Fill(fill))) => {
                self.line(format!(" FILL mask 0x{}", hex(&fill_bytes(fill))));
            }
            (_, Some(Node::CreateObjectSymbols)) => self.line(" CREATE_OBJECT_SYMBOLS"),
            _ => {}
        }
    }

    /// `print_output_section_statement`
    fn output(&mut self, id: OutputId) {
        let output: &OutputSection = match self.request.evaluation.output(id) {
            Some(output) => output,
            None => return,
        };
        self.text.end();
        match &output.place {
            None => self.line(&output.name),
            Some(place) => {
                let size = self.request.spans.output(id).unwrap_or(place.size);
                let address = place.address;
                let text = self.text.name(b"", &output.name).address(address).size(size);
                if address != place.load {
                    text.put(b" load address ").address(place.load);
                }
                text.end();
                self.start = address;
                self.dot = address;
            }
        }
        output.body.iter().for_each(|id| self.statement(*id));
    }

    /// `print_wild_statement`, and the sections with what is between them.
    fn input(&mut self, node: Option<Node<'_>>, sections: &[SectionId], gaps: &[Gap]) {
        if let Some(Node::Input(node)) = node {
            let line = wild(node);
            self.line(line);
        }
        let mut gaps = gaps.iter().peekable();
        let mut end = None;
        for id in sections {
            let section = match self.request.evaluation.section(*id) {
                Some(section) => section,
                None => continue,
            };
            while let Some(gap) = gaps.next_if(|gap| gap.offset < section.offset) {
                self.gap(gap);
            }
            if let Some((address, size)) = self.request.spans.section(*id) {
                if let Some(end) = end.filter(|end| *end < address) {
                    self.filled(end, address - end, "");
                }
                end = Some(address.wrapping_add(size));
            }
            self.section(*id, section);
        }
        gaps.for_each(|gap| self.gap(gap));
    }

    /// `print_padding_statement`
    fn gap(&mut self, gap: &Gap) {
        let fill = gap.fill.as_ref().map_or_else(String::new, |fill| hex(fill));
        self.filled(self.start.wrapping_add(gap.offset), gap.size, &fill);
    }

    fn filled(&mut self, address: u64, size: u64, fill: &str) {
        self.dot = address.wrapping_add(size);
        self.text.name(b"", b" *fill*").address(address).size(size).put(b" ").put(fill.as_bytes()).end();
    }

    /// `print_input_section`
    fn section(&mut self, id: SectionId, section: &InputSection) {
        let evaluation = self.request.evaluation;
        let span = self.request.spans.section(id);
        let address = span.map(|(address, _)| address).or_else(|| evaluation.section_address(section)).unwrap_or(0);
        let is_eh_frame_hdr = evaluation.eh_frame_hdr.as_ref().map_or(false, |table| table.section == id);
        let own = if section.number().is_some() && !is_eh_frame_hdr { section.own_size } else { section.size };
        let now = span.map_or(section.size, |(_, size)| size);
        let is_left_out = match span {
            Some(_) => self.request.spans.is_left_out(id),
            None => now == 0 && section.flags.has(Flags::EXCLUDE) && !evaluation.shortened.contains_key(&id),
        };
        let size = if is_left_out { own } else { now };
        let owner = self.owners.get(section.object.0 as usize).map_or(&b""[..], |owner| owner);
        let text = self.text.name(b" ", evaluation.section_name(section)).address(address).size(size);
        text.put(b" ").put(owner).end();
        self.dot = self.dot.max(address.wrapping_add(size));
        if size != own && own != 0 {
            self.line(format!("{:35}{:>10} (size before relaxing)", "", format!("{own:#x}")));
        }
        for (at, name) in self.defined.in_section(id) {
            self.text.blank(COLUMN).address(address.wrapping_add(*at)).blank(COLUMN).put(name).end();
        }
        if is_eh_frame_hdr {
            self.text.blank(COLUMN).address(address).blank(COLUMN).put(EH_FRAME_HDR_START.as_bytes()).end();
        }
    }

    /// `print_assignment`
    fn assignment(&mut self, statement: &Statement, node: &Assignment) {
        let is_provided = matches!(node.provision, Provision::Provide | Provision::ProvideHidden);
        let text = assignment(node);
        let blank = " ".repeat(COLUMN);
        let printed = match (statement.output, &node.operator) {
            (None, tree::AssignOperator::Set) => dot::value_of(self.request, &node.value, self.dot),
            _ => None,
        };
        match &statement.kind {
            StatementKind::Dot { after, gap } => {
                let after = printed.unwrap_or(*after);
                self.dot = after;
                self.line(format!("{blank}0x{after:016x}{blank}{text}"));
                gap.iter().for_each(|gap| self.gap(gap));
            }
            StatementKind::Assign { symbol, value: Some(value) } => {
                let last = self.request.evaluation.symbols.get(symbol.index()).and_then(|symbol| symbol.value);
                self.line(format!("{blank}0x{:016x}{blank}{text}", last.unwrap_or(*value).address));
            }
            _ if is_provided => self.line(format!("{blank}[!provide]{:24}{text}", "")),
            _ => self.line(format!("{blank}*undef*   {:24}{text}", "")),
        }
    }

    /// `print_data_statement`
    fn data(&mut self, offset: u64, size: u8, value: u64, width: DataWidth, expr: &Expr) {
        let name = match width {
            DataWidth::Byte => "BYTE",
            DataWidth::Short => "SHORT",
            DataWidth::Long => "LONG",
            DataWidth::Quad => "QUAD",
            DataWidth::SignedQuad => "SQUAD",
        };
        let address = self.start.wrapping_add(offset);
        self.dot = address.wrapping_add(u64::from(size));
        let more = if number_of(expr).is_some() { String::new() } else { format!(" {}", text_of(expr)) };
        let size = format!("{size:#x}");
        self.line(format!("{:COLUMN$}0x{address:016x} {size:>10} {name} {value:#x}{more}", ""));
    }
}

/// An input statement.
fn wild(node: &InputStatement) -> String {
    let file = node.file.as_ref().map(|file| &file.node);
    let mut text = " ".to_owned();
    text.push_str(&excluded(file));
    let is_sorted = file.map_or(false, |file| !file.sorts.is_empty());
    let name = file.map_or_else(|| "*".to_owned(), |file| file.glob.to_string());
    text.push_str(&if is_sorted { format!("SORT_BY_NAME({name})") } else { name });
    let patterns: Vec<String> = node.sections.iter().flatten().map(|one| pattern(&one.node)).collect();
    format!("{text}({})", patterns.join(" "))
}

/// A pattern of sections (`wildcard_spec`: which sorts there are).
fn pattern(one: &Pattern) -> String {
    let (front, back) = match one.sorts.as_slice() {
        [] => ("", ""),
        [Sort::ByName, Sort::ByAlignment] => ("SORT_BY_NAME(SORT_BY_ALIGNMENT(", "))"),
        [Sort::ByAlignment, Sort::ByName] => ("SORT_BY_ALIGNMENT(SORT_BY_NAME(", "))"),
        [Sort::ByAlignment, ..] => ("SORT_BY_ALIGNMENT(", ")"),
        [Sort::ByInitPriority, ..] => ("SORT_BY_INIT_PRIORITY(", ")"),
        [Sort::None, ..] => ("SORT_NONE(", ")"),
        [Sort::ByName | Sort::Reverse, ..] => ("SORT_BY_NAME(", ")"),
    };
    format!("{front}{}{}{back}", excluded(Some(one)), one.glob)
}

fn excluded(pattern: Option<&Pattern>) -> String {
    // The parser of GNU ld puts each name in front of those before it.
    let files = pattern.iter().flat_map(|one| one.excluded_files.iter().rev());
    let files: Vec<String> = files.map(ToString::to_string).collect();
    match files.is_empty() {
        true => String::new(),
        false => format!("EXCLUDE_FILE({}) ", files.join(" ")),
    }
}

/// The bytes of FILL (ldexp.c, `exp_get_fill`).
fn fill_bytes(fill: &Fill) -> Vec<u8> {
    match &fill.literal {
        Some(bytes) => bytes.clone(),
        None => (number_of(&fill.value).unwrap_or(0) as u32).to_be_bytes().to_vec(),
    }
}

fn hex(bytes: &[u8]) -> String {
    bytes.iter().map(|byte| format!("{byte:02x}")).collect()
}

/// The statements of a script, by their places.
fn nodes_of(script: &Script) -> HashMap<Span, Node<'_>> {
    let mut nodes = HashMap::new();
    for statement in &script.statements {
        match &statement.node {
            tree::Statement::Assign(node) => {
                nodes.insert(statement.span, Node::Assignment(node));
            }
            tree::Statement::Assert(node) => {
                nodes.insert(statement.span, Node::Assertion(node));
            }
            tree::Statement::Sections(items) => items.iter().for_each(|item| match &item.node {
                SectionsStatement::Assign(node) => {
                    nodes.insert(item.span, Node::Assignment(node));
                }
                SectionsStatement::Assert(node) => {
                    nodes.insert(item.span, Node::Assertion(node));
                }
                SectionsStatement::Output(output) => nodes_of_body(&output.body.node, &mut nodes),
                SectionsStatement::Overlay(overlay) => {
                    overlay.sections.node.iter().for_each(|one| nodes_of_body(&one.node.body.node, &mut nodes));
                }
                SectionsStatement::Entry(_) => {}
            }),
            _ => {}
        }
    }
    nodes
}

fn nodes_of_body<'a>(body: &'a [tree::Spanned<SectionStatement>], nodes: &mut HashMap<Span, Node<'a>>) {
    for statement in body {
        let node = match &statement.node {
            SectionStatement::Assign(node) => Node::Assignment(node),
            SectionStatement::Assert(node) => Node::Assertion(node),
            SectionStatement::Input(node) => Node::Input(node),
            SectionStatement::Data(width, value) => Node::Data(*width, value),
            SectionStatement::Fill(fill) => Node::Fill(fill),
            SectionStatement::CreateObjectSymbols => Node::CreateObjectSymbols,
            SectionStatement::Text(_) | SectionStatement::Constructors(_) | SectionStatement::LinkerVersion => continue,
        };
        nodes.insert(statement.span, node);
    }
}

/// A name with spaces behind it, up to a column; on a line of its own if it is longer (ldmain.c,
/// `add_archive_element`).
pub(super) fn in_column(name: &str, column: usize) -> String {
    match name.len() >= column - 1 {
        true => format!("{name}\n{}", padded("", column)),
        false => padded(name, column),
    }
}
