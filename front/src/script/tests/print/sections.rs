//! SECTIONS as text.

use super::Printer;
use crate::script::lexer::State::{self, Script, Wild};
use crate::script::tree::{
    AssignOperator, Assignment, Constraint, DataText, DataWidth, Fill, InputStatement, Name, OutputSection, Overlay,
    Pattern, Provision, SectionStatement, SectionType, SectionsStatement, Sort, Spanned,
};

impl Printer {
    pub(super) fn sections(&mut self, statements: &[Spanned<SectionsStatement>]) {
        self.put("SECTIONS");
        self.braced(|printer| {
            for statement in statements {
                printer.line();
                match &statement.node {
                    SectionsStatement::Assign(assignment) => printer.assignment(assignment, Script),
                    SectionsStatement::Assert(assertion) => printer.assertion(&assertion.condition, &assertion.message),
                    SectionsStatement::Entry(name) => printer.command("ENTRY", Script, std::slice::from_ref(name)),
                    SectionsStatement::Output(section) => printer.output_section(section),
                    SectionsStatement::Overlay(overlay) => printer.overlay(overlay),
                }
                printer.end();
            }
        });
    }

    /// An assignment with its separator, in the state of what is around it.
    pub(super) fn assignment(&mut self, assignment: &Assignment, state: State) {
        self.put(match assignment.provision {
            Provision::Plain => "",
            Provision::Hidden => "HIDDEN(",
            Provision::Provide => "PROVIDE(",
            Provision::ProvideHidden => "PROVIDE_HIDDEN(",
        });
        self.name(state, &assignment.target.node);
        self.put(" ");
        if let AssignOperator::Update(operator) = assignment.operator {
            self.put(operator.mark());
        }
        self.put("= ");
        self.expr(&assignment.value);
        self.put(if assignment.provision == Provision::Plain { ";" } else { ");" });
    }

    fn output_section(&mut self, section: &OutputSection) {
        self.pattern_name(Script, &section.name.node, section.is_quoted);
        self.put(" ");
        if let Some(address) = &section.address {
            self.address(address);
            self.put(" ");
        }
        if let Some(kind) = &section.kind {
            self.section_type(&kind.node);
        }
        self.put(":");
        self.optional("AT", &section.load_address);
        self.optional("ALIGN", &section.align);
        self.put(if section.is_aligned_with_input { " ALIGN_WITH_INPUT" } else { "" });
        self.optional("SUBALIGN", &section.subalign);
        self.put(match section.constraint {
            None => "",
            Some(Constraint::ReadOnly) => " ONLY_IF_RO",
            Some(Constraint::ReadWrite) => " ONLY_IF_RW",
            Some(Constraint::Special) => " SPECIAL",
        });
        self.body(section);
        self.regions(&section.region, &section.load_region);
        self.tail(&section.segments, &section.fill);
    }

    fn section_type(&mut self, kind: &SectionType) {
        match kind {
            SectionType::NoLoad => self.put("(NOLOAD) "),
            SectionType::NotAllocated(word) => {
                self.put("(");
                self.out.extend_from_slice(word);
                self.put(") ");
            }
            SectionType::ReadOnly(None) => self.put("(READONLY) "),
            SectionType::ReadOnly(Some(value)) => {
                self.put("(READONLY (TYPE = ");
                self.expr(value);
                self.put(")) ");
            }
            SectionType::Type(value) => {
                self.put("(TYPE = ");
                self.expr(value);
                self.put(") ");
            }
        }
    }

    fn body(&mut self, section: &OutputSection) {
        self.braced(|printer| {
            for statement in &section.body.node {
                printer.line();
                printer.section_statement(&statement.node);
                printer.end();
            }
        });
    }

    fn regions(&mut self, region: &Option<Spanned<Name>>, load_region: &Option<Spanned<Name>>) {
        for (mark, name) in [(" >", region), (" AT>", load_region)] {
            if let Some(name) = name {
                self.put(mark);
                self.name(Script, &name.node);
            }
        }
    }

    /// The segments and the fill. A comma keeps what follows out of the fill's expression.
    fn tail(&mut self, segments: &[Spanned<Name>], fill: &Option<Fill>) {
        for segment in segments {
            self.put(" :");
            self.name(Script, &segment.node);
        }
        if let Some(fill) = fill {
            self.put(" =");
            self.fill(fill);
            self.put(",");
        }
    }

    fn overlay(&mut self, overlay: &Overlay) {
        self.put("OVERLAY ");
        if let Some(address) = &overlay.address {
            self.expr(address);
            self.put(" ");
        }
        self.put(if overlay.forbids_cross_references { ": NOCROSSREFS" } else { ":" });
        self.optional("AT", &overlay.load_address);
        self.optional("SUBALIGN", &overlay.subalign);
        self.braced(|printer| {
            for section in &overlay.sections.node {
                let section = &section.node;
                printer.line();
                printer.pattern_name(Script, &section.name.node, section.is_quoted);
                printer.body(section);
                printer.tail(&section.segments, &section.fill);
                printer.end();
            }
        });
        self.regions(&overlay.region, &overlay.load_region);
        self.tail(&overlay.segments, &overlay.fill);
    }

    fn section_statement(&mut self, statement: &SectionStatement) {
        match statement {
            SectionStatement::Assign(assignment) => self.assignment(assignment, Wild),
            SectionStatement::Assert(assertion) => {
                self.assertion(&assertion.condition, &assertion.message);
                self.put(";");
            }
            SectionStatement::Input(input) => self.input_statement(input),
            SectionStatement::Data(width, value) => {
                self.put(match width {
                    DataWidth::Byte => "BYTE(",
                    DataWidth::Short => "SHORT(",
                    DataWidth::Long => "LONG(",
                    DataWidth::Quad => "QUAD(",
                    DataWidth::SignedQuad => "SQUAD(",
                });
                self.expr(value);
                self.put(")");
            }
            SectionStatement::Text(DataText::Sized(size, text)) => {
                self.put("ASCII(");
                self.expr(size);
                self.put(") ");
                self.quoted(text);
            }
            SectionStatement::Text(DataText::ZeroTerminated(text)) => {
                self.put("ASCIZ ");
                self.quoted(text);
            }
            SectionStatement::Fill(fill) => {
                self.put("FILL(");
                self.fill(fill);
                self.put(")");
            }
            SectionStatement::CreateObjectSymbols => self.put("CREATE_OBJECT_SYMBOLS"),
            SectionStatement::Constructors(false) => self.put("CONSTRUCTORS"),
            SectionStatement::Constructors(true) => self.put("SORT_BY_NAME(CONSTRUCTORS)"),
            SectionStatement::LinkerVersion => self.put("LINKER_VERSION"),
        }
    }

    fn input_statement(&mut self, input: &InputStatement) {
        self.put(if input.is_kept { "KEEP(" } else { "" });
        if !input.section_flags.is_empty() {
            self.put("INPUT_SECTION_FLAGS(");
            self.names(Wild, &input.section_flags, " & ");
            self.put(") ");
        }
        let (open, close) = match &input.file {
            Some(file) => {
                self.pattern(&file.node);
                ("(", ")")
            }
            None => ("[ ", " ]"),
        };
        if let Some(sections) = &input.sections {
            self.put(open);
            for (index, section) in sections.iter().enumerate() {
                self.put(if index > 0 { " " } else { "" });
                self.pattern(&section.node);
            }
            self.put(close);
        }
        self.put(if input.is_kept { ")" } else { "" });
    }

    fn pattern(&mut self, pattern: &Pattern) {
        for sort in &pattern.sorts {
            self.put(match sort {
                Sort::ByName => "SORT_BY_NAME(",
                Sort::ByAlignment => "SORT_BY_ALIGNMENT(",
                Sort::ByInitPriority => "SORT_BY_INIT_PRIORITY(",
                Sort::None => "SORT_NONE(",
                Sort::Reverse => "REVERSE(",
            });
        }
        if !pattern.excluded_files.is_empty() {
            self.command("EXCLUDE_FILE", Wild, &pattern.excluded_files);
            self.put(" ");
        }
        self.pattern_name(Wild, &pattern.glob, pattern.is_quoted);
        for _ in &pattern.sorts {
            self.put(")");
        }
    }

    /// A name that is written in quotes if it was.
    fn pattern_name(&mut self, state: State, name: &Name, is_quoted: bool) {
        if is_quoted {
            self.quoted(name);
        } else {
            self.name(state, name);
        }
    }
}
