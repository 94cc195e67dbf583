//! SECTIONS: output sections and their statements.

use bstr::ByteSlice;

use super::expressions::DotPlace;
use super::statements::Home;
use super::{Cause, Check};
use crate::script::tree::{
    Constraint, DataText, DataWidth, InputStatement, Name, OutputSection, Pattern, SectionStatement, SectionType,
    SectionsStatement, Sort, Span, Spanned,
};

/// The section whose input sections are left out.
const DISCARD: &[u8] = b"/DISCARD/";

impl Check<'_> {
    /// Looks at a statement of SECTIONS.
    pub(super) fn sections_statement(&mut self, statement: &SectionsStatement, at: Span) {
        match statement {
            SectionsStatement::Assign(assignment) => self.assignment(assignment, Home::Sections, at),
            SectionsStatement::Assert(assertion) => self.assertion(assertion, at),
            SectionsStatement::Entry(_) => self.misplaced(at, "ENTRY", "write it outside of SECTIONS"),
            SectionsStatement::Overlay(_) => {
                self.outside(at, "OVERLAY", "link an image for each of its sections: no two share addresses");
            }
            SectionsStatement::Output(section) => {
                let end = Span { start: at.end.saturating_sub(1), end: at.end };
                if self.source.slice(end) == "," {
                    self.outside(end, "`,` after an output section", "leave it out, or write `;`");
                }
                if section.name.node == DISCARD {
                    self.discard(section);
                } else {
                    self.output_section(section);
                }
            }
        }
    }

    fn discard(&mut self, section: &OutputSection) {
        let is_plain = section.address.is_none() && section.kind.is_none() && section.region.is_none();
        if !is_plain || section.fill.is_some() || section.load_address.is_some() || section.align.is_some() {
            self.outside(section.name.span, "more than input statements for /DISCARD/", "write `/DISCARD/ : { .. }`");
        }
        for statement in &section.body.node {
            match &statement.node {
                SectionStatement::Input(input) => self.input(input, statement.span),
                _ => self.misplaced(statement.span, "this statement", "/DISCARD/ has input statements alone"),
            }
        }
    }

    fn output_section(&mut self, section: &OutputSection) {
        let (name, at) = (&section.name.node, section.name.span);
        self.name(name, at);
        if !self.sections.insert(name.clone()) {
            let instead = "write one section, or two of different names";
            let sentence = format!("an output section `{}` was given before: {instead}", name.as_bstr());
            self.object(Cause::Repeated, at, sentence);
        }
        self.head(section);
        for statement in &section.body.node {
            self.section_statement(&statement.node, statement.span);
        }
        self.tail(section);
    }

    fn head(&mut self, section: &OutputSection) {
        let at = section.name.span;
        if let Some(address) = &section.address {
            if self.between(at.end, address.span.start).contains_str("BIND") {
                self.outside(address.span, "BIND", "write the address alone");
            }
        }
        if let Some(kind) = &section.kind {
            let (word, instead) = section_type(&kind.node);
            self.outside(kind.span, format!("({word})"), instead);
        }
        if let Some(subalign) = &section.subalign {
            self.outside(subalign.span, "SUBALIGN", "write `. = ALIGN(n);` before each input statement");
        }
        if section.is_aligned_with_input {
            self.outside(at, "ALIGN_WITH_INPUT", "write AT(e) with an e that is aligned as the section is");
        }
        let constraint = section.constraint.map(|constraint| match constraint {
            Constraint::ReadOnly => ("ONLY_IF_RO", "write one section"),
            Constraint::ReadWrite => ("ONLY_IF_RW", "write one section"),
            Constraint::Special => ("SPECIAL", "leave it out"),
        });
        if let Some((word, instead)) = constraint {
            self.outside(at, word, instead);
        }
        for value in [&section.address, &section.load_address, &section.align].into_iter().flatten() {
            self.expression(value, DotPlace::Sections);
        }
    }

    fn tail(&mut self, section: &OutputSection) {
        for region in [&section.region, &section.load_region].into_iter().flatten() {
            self.name(&region.node, region.span);
            self.region(&region.node, region.span);
        }
        if let (Some(_), Some(region)) = (&section.load_address, &section.load_region) {
            self.object(Cause::Grammar, region.span, "the section has AT (e) in its head already: write one of both");
        }
        for segment in &section.segments {
            let what = format!(":{}", segment.node);
            self.outside(segment.span, what, "leave it out: segments follow addresses, sizes and flags");
        }
        if let Some(fill) = &section.fill {
            self.fill(fill);
        }
    }

    fn section_statement(&mut self, statement: &SectionStatement, at: Span) {
        const BYTES: &str = "write BYTE(e) for each byte";
        match statement {
            SectionStatement::Assign(assignment) => self.assignment(assignment, Home::OutputSection, at),
            SectionStatement::Assert(assertion) => self.assertion(assertion, at),
            SectionStatement::Input(input) => self.input(input, at),
            SectionStatement::Data(width, value) => {
                if *width == DataWidth::SignedQuad {
                    self.outside(at, "SQUAD", "write QUAD");
                }
                self.expression(value, DotPlace::Sections);
            }
            SectionStatement::Text(DataText::Sized(..)) => self.outside(at, "ASCII", BYTES),
            SectionStatement::Text(DataText::ZeroTerminated(_)) => self.outside(at, "ASCIZ", BYTES),
            SectionStatement::Fill(_) => {
                self.outside(at, "FILL", "write a fill after the section, as `=0x90`, for all of it");
            }
            SectionStatement::CreateObjectSymbols => self.outside(at, "CREATE_OBJECT_SYMBOLS", "leave it out"),
            SectionStatement::Constructors(_) => {
                self.outside(at, "CONSTRUCTORS", "write KEEP(*(SORT(.ctors.*))) KEEP(*(.ctors))");
            }
            SectionStatement::LinkerVersion => self.outside(at, "LINKER_VERSION", "leave it out"),
        }
    }

    fn input(&mut self, input: &InputStatement, at: Span) {
        if !input.section_flags.is_empty() {
            self.outside(at, "INPUT_SECTION_FLAGS", "write patterns of names");
        }
        match &input.file {
            Some(file) => self.file(&file.node, file.span, input.sections.is_none()),
            None => self.outside(at, "`[..]` without a file", "write `*(..)`"),
        }
        let sections = input.sections.as_deref().unwrap_or_default();
        for section in sections {
            self.section_pattern(section, sections.len());
        }
    }

    fn file(&mut self, file: &Pattern, at: Span, is_alone: bool) {
        if !file.sorts.is_empty() {
            self.misplaced(at, self.shown(at), "give the objects in the order that is wanted");
        }
        if !file.excluded_files.is_empty() {
            self.misplaced(at, "EXCLUDE_FILE", "write it before each pattern of sections");
            self.excluded(&file.excluded_files, at);
        }
        self.word(&file.glob, file.is_quoted, at);
        if is_alone {
            self.outside(at, "a file without its sections", &format!("write `{}(*)`", file.glob));
        }
    }

    /// A pattern of sections, one of so many of a statement.
    fn section_pattern(&mut self, pattern: &Spanned<Pattern>, count: usize) {
        let (at, pattern) = (pattern.span, &pattern.node);
        let is_sort = |sort: &Sort| matches!(sort, Sort::ByName | Sort::ByAlignment);
        match pattern.sorts.as_slice() {
            [] => {}
            [Sort::ByInitPriority] => {
                self.outside(at, "SORT_BY_INIT_PRIORITY", "write SORT_BY_NAME: gcc writes priorities with five digits");
            }
            [Sort::None] => self.outside(at, "SORT_NONE", "leave it out"),
            sorts if sorts.contains(&Sort::Reverse) => self.outside(at, "REVERSE", "write several statements"),
            [sort] if is_sort(sort) && count > 1 => {
                let instead = "a sort stands alone: write two statements, or one sort of all, as `*(SORT(.a .b))`";
                self.misplaced(at, self.shown(at), instead);
            }
            [sort] if is_sort(sort) && !pattern.excluded_files.is_empty() => {
                self.misplaced(
                    at,
                    "EXCLUDE_FILE",
                    "none stands in a sort: write a statement for those files before it",
                );
            }
            [sort] if is_sort(sort) => {}
            _ => self.misplaced(at, self.shown(at), "write one sort: sorts do not stand in sorts"),
        }
        self.excluded(&pattern.excluded_files, at);
        self.word(&pattern.glob, pattern.is_quoted, at);
    }

    fn excluded(&mut self, files: &[Name], at: Span) {
        for file in files {
            self.word(file, false, at);
        }
    }
}

/// The words of a section's type, and what to do instead.
fn section_type(kind: &SectionType) -> (String, &'static str) {
    const NOBITS: &str = "leave it out: a section whose input sections are all NOBITS has no bytes in the file";
    match kind {
        SectionType::NoLoad => ("NOLOAD".into(), NOBITS),
        SectionType::Type(_) => ("TYPE".into(), NOBITS),
        SectionType::ReadOnly(_) => ("READONLY".into(), "leave it out"),
        SectionType::NotAllocated(word) => {
            (word.to_string(), "leave it out: its input sections say whether it is loaded")
        }
    }
}
