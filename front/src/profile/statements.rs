//! Statements outside of SECTIONS, and those that stand in both.

use bstr::ByteSlice;

use super::expressions::DotPlace;
use super::{Cause, Check};
use crate::script::tree::{
    Assertion, AssignOperator, Assignment, BinaryOperator, MemoryRegion, Provision, Setting, Span, Spanned, Statement,
};

/// Where an assignment stands.
#[derive(Clone, Copy, PartialEq, Eq, Debug)]
pub(super) enum Home {
    Top,
    Sections,
    OutputSection,
}

impl Home {
    fn dot_place(self) -> DotPlace {
        match self {
            Home::Top => DotPlace::Top,
            Home::Sections | Home::OutputSection => DotPlace::Sections,
        }
    }
}

impl Check<'_> {
    /// Reads all statements of a script, and the files that it includes.
    pub(super) fn statements(&mut self, statements: &[Spanned<Statement>]) {
        for (at, path) in self.source.includes() {
            let what = format!("INCLUDE {}", path.display());
            self.outside(*at, what, "write the text of the file: a script is one text");
        }
        for statement in statements {
            self.statement(&statement.node, statement.span);
        }
    }

    fn statement(&mut self, statement: &Statement, at: Span) {
        match statement {
            Statement::Assign(assignment) => self.assignment(assignment, Home::Top, at),
            Statement::Assert(assertion) => self.assertion(assertion, at),
            Statement::Sections(statements) => {
                self.refuse_second("SECTIONS", at);
                statements.iter().for_each(|one| self.sections_statement(&one.node, one.span));
            }
            Statement::Memory(regions) => {
                self.refuse_second("MEMORY", at);
                regions.iter().for_each(|region| self.memory_region(&region.node, region.span));
            }
            Statement::Entry(name) => {
                self.refuse_second("ENTRY", at);
                self.name(name, at);
            }
            other => {
                let (word, instead) = command(other);
                self.outside(at, word, instead);
            }
        }
    }

    /// Refuses a command that stands in the script twice.
    fn refuse_second(&mut self, command: &'static str, at: Span) {
        if !self.commands.insert(command) {
            self.object(Cause::Repeated, at, format!("{command} stands in the script twice: write one"));
        }
    }

    /// Looks at an assignment or PROVIDE.
    pub(super) fn assignment(&mut self, assignment: &Assignment, home: Home, at: Span) {
        let (target, name) = (assignment.target.span, &assignment.target.node);
        let wrapped = match assignment.provision {
            Provision::Plain | Provision::Provide => None,
            Provision::Hidden => Some(("HIDDEN", "write `a = e;`: no name is hidden")),
            Provision::ProvideHidden => Some(("PROVIDE_HIDDEN", "write PROVIDE: no name is hidden")),
        };
        if let Some((word, instead)) = wrapped {
            self.outside(at, word, instead);
        }
        if assignment.provision == Provision::Plain && self.source.slice(at).ends_with(b",") {
            self.outside(at, "`,` after an assignment", "write `;`");
        }
        match name.as_slice() {
            _ if self.source.slice(target) == "GROUP" => {
                self.outside(at, "GROUP in SECTIONS", "write `. = e;`, and its statements without braces");
            }
            b"." => self.dot(assignment, home),
            _ => self.symbol(assignment),
        }
        self.expression(&assignment.value, home.dot_place());
    }

    fn symbol(&mut self, assignment: &Assignment) {
        let (at, name) = (assignment.target.span, &assignment.target.node);
        self.name(name, at);
        if let AssignOperator::Update(operator) = assignment.operator {
            self.outside(at, format!("`{}=`", operator.mark()), "write `=` and another name");
        }
        if !self.symbols.insert(name.clone()) {
            let sentence = format!("`{}` was given a value before: write one assignment, or two names", name.as_bstr());
            self.object(Cause::Repeated, at, sentence);
        }
    }

    fn dot(&mut self, assignment: &Assignment, home: Home) {
        let at = assignment.target.span;
        if assignment.provision != Provision::Plain {
            self.object(Cause::Grammar, at, "`.` is set by `. = e;`, and not in PROVIDE");
        } else if home == Home::Top {
            self.outside(at, "`.` outside of SECTIONS", "set it in SECTIONS");
        }
        match assignment.operator {
            AssignOperator::Set if home == Home::OutputSection => self.dot_in_section(&assignment.value),
            AssignOperator::Set | AssignOperator::Update(BinaryOperator::Add) => {}
            AssignOperator::Update(operator) => {
                let mark = operator.mark();
                self.outside(at, format!("`{mark}=`"), &format!("write `. = . {mark} e;`"));
            }
        }
    }

    /// Looks at an ASSERT that is a statement.
    pub(super) fn assertion(&mut self, assertion: &Assertion, at: Span) {
        self.expression(&assertion.condition, DotPlace::Assert);
        if !self.is_quoted(at) {
            self.object(Cause::Grammar, at, "the message of ASSERT stands in double quotes");
        } else if assertion.message.iter().any(|byte| !matches!(byte, b' '..=b'~')) {
            self.object(Cause::Tokens, at, "the message of ASSERT has a byte that is not printable ASCII");
        }
    }

    fn memory_region(&mut self, region: &MemoryRegion, at: Span) {
        let (name, name_at) = (&region.name.node, region.name.span);
        self.name(name, name_at);
        if let Some(attributes) = &region.attributes {
            let what = format!("{} of a memory region", self.source.slice(attributes.span));
            self.outside(attributes.span, what, "leave it out, and write `>region` after each section");
        }
        let (origin, length) = (region.origin.span, region.length.span);
        let words =
            [("ORIGIN", self.between(name_at.end, origin.start)), ("LENGTH", self.between(origin.end, length.start))];
        for (word, text) in words {
            if !text.contains_str(word) {
                self.outside(name_at, format!("another word for {word}"), &format!("write {word}"));
            }
        }
        if !self.between(origin.end, length.start).contains(&b',') {
            self.object(Cause::Grammar, origin, "`,` is expected before LENGTH");
        }
        self.expression(&region.origin, DotPlace::Memory);
        self.expression(&region.length, DotPlace::Memory);
        let rest = self.between(at.end, self.source.text().len() as u32);
        if rest.trim_start_with(char::is_whitespace).starts_with(b",") {
            self.outside(Span { start: at.end, end: at.end }, "`,` between memory regions", "leave it out");
        }
        if !self.regions.insert(name.clone()) {
            let sentence = format!("a memory region `{}` was declared before: write another name", name.as_bstr());
            self.object(Cause::Repeated, name_at, sentence);
        }
    }
}

/// The word of a command that the profile has not, and what to do instead.
fn command(statement: &Statement) -> (&'static str, &'static str) {
    const OBJECTS: &str = "leave it out: objects are arguments of `ldi link`";
    const NO_EFFECT: &str = "leave it out: it has no effect";
    const COMMON: &str = "leave it out: common blocks are always placed";
    const NO_REFERENCES: &str = "leave it out: cross references are not tested";
    match statement {
        Statement::Input(_) => ("INPUT", OBJECTS),
        Statement::Group(_) => ("GROUP", OBJECTS),
        Statement::SearchDir(_) => ("SEARCH_DIR", OBJECTS),
        Statement::Startup(_) => ("STARTUP", "give its file as the first object"),
        Statement::Output(_) => ("OUTPUT", "leave it out: `-o` names the image"),
        Statement::OutputFormat(names) if names.iter().any(|name| name == "binary") => {
            ("OUTPUT_FORMAT", "leave it out, and run `objcopy -O binary IMAGE FILE` after the link")
        }
        Statement::OutputFormat(_) => ("OUTPUT_FORMAT", "leave it out: there is one format"),
        Statement::OutputArch(_) => ("OUTPUT_ARCH", "leave it out: there is one machine"),
        Statement::Target(_) => ("TARGET", "leave it out: there is one format"),
        Statement::Extern(_) => ("EXTERN", "write KEEP for the section that has the symbol"),
        Statement::RegionAlias(..) => ("REGION_ALIAS", "write the region's own name"),
        Statement::NoCrossReferences(_) => ("NOCROSSREFS", NO_REFERENCES),
        Statement::NoCrossReferencesTo(_) => ("NOCROSSREFS_TO", NO_REFERENCES),
        Statement::Setting(Setting::ForceCommonAllocation) => ("FORCE_COMMON_ALLOCATION", COMMON),
        Statement::Setting(Setting::ForceGroupAllocation) => ("FORCE_GROUP_ALLOCATION", NO_EFFECT),
        Statement::Setting(Setting::InhibitCommonAllocation) => ("INHIBIT_COMMON_ALLOCATION", COMMON),
        Statement::Setting(Setting::Float) => ("FLOAT", NO_EFFECT),
        Statement::Setting(Setting::NoFloat) => ("NOFLOAT", NO_EFFECT),
        Statement::Feature(_) => ("LD_FEATURE", "leave it out"),
        Statement::Map(_) => ("MAP", "leave it out: `--Map` names the map"),
        Statement::HighLevelLibraries(_) => ("HLL", NO_EFFECT),
        Statement::SystemLibraries(_) => ("SYSLIB", NO_EFFECT),
        Statement::Version(_) => ("VERSION", "leave it out: there are no versions of symbols"),
        Statement::Phdrs(_) => ("PHDRS", "leave it out: segments follow addresses, sizes and flags"),
        Statement::Insert(..) => ("INSERT", "write the section at its place in the one script"),
        Statement::Assign(_) | Statement::Assert(_) | Statement::Entry(_) => ("this statement", NO_EFFECT),
        Statement::Sections(_) | Statement::Memory(_) => ("this statement", NO_EFFECT),
    }
}
