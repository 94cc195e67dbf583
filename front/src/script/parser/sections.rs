//! SECTIONS: output sections, overlays, and the statements of output sections.

use super::statements::assign_operator;
use super::{Parsed, Parser};
use crate::script::error::{ErrorKind, WarningKind};
use crate::script::lexer::{Kind, State, Token};
use crate::script::tree::{
    AssignOperator, Assignment, Constraint, DataText, DataWidth, Expr, Fill, Name, OutputSection, Overlay, Provision,
    SectionStatement, SectionType, SectionsStatement, Spanned, Statement,
};

use State::{Expression, Script, Wild};

/// What follows the brace that closes an output section.
#[derive(Default)]
struct Tail {
    region: Option<Spanned<Name>>,
    load_region: Option<Spanned<Name>>,
    segments: Vec<Spanned<Name>>,
    fill: Option<Fill>,
}

type SectionsList = Vec<Spanned<SectionsStatement>>;
type Body = Spanned<Vec<Spanned<SectionStatement>>>;

impl Parser<'_> {
    /// `SECTIONS { .. }`
    pub(super) fn sections(&mut self) -> Parsed<Statement> {
        self.take_token(Script)?;
        let mut statements = Vec::new();
        self.braced_sections(b"SECTIONS", &mut statements)?;
        Ok(Statement::Sections(statements))
    }

    fn braced_sections(&mut self, of: &[u8], into: &mut SectionsList) -> Parsed<()> {
        let opening = self.demand(Script, "{")?;
        self.sections_statements(into)?;
        if self.peek(Script)?.kind == Kind::End {
            return Err(self.open(opening, of));
        }
        self.demand(Script, "}").map(drop)
    }

    /// The statements up to a brace or the end of a file.
    fn sections_statements(&mut self, into: &mut SectionsList) -> Parsed<()> {
        loop {
            let token = self.peek(Script)?;
            match token.kind {
                Kind::End | Kind::Mark("}") => return Ok(()),
                Kind::Word("INCLUDE") => self.include(Script, |parser| parser.sections_statements(into))?,
                Kind::Word("GROUP") => {
                    self.nested(ErrorKind::StatementDepth, |parser| parser.group_of_sections(into))?;
                }
                Kind::Mark(";") => {
                    self.take_token(Script)?;
                    self.lexer.warn(token, WarningKind::Separator);
                }
                _ => match self.sections_statement(token) {
                    Ok(statement) => into.push(Spanned::new(statement, self.since(token.span))),
                    Err(error) => self.recover(Script, error)?,
                },
            }
        }
    }

    fn sections_statement(&mut self, token: Token) -> Parsed<SectionsStatement> {
        Ok(match token.kind {
            Kind::Word("ENTRY") => SectionsStatement::Entry(self.entry()?),
            Kind::Word("ASSERT") => SectionsStatement::Assert(self.assertion(Script)?),
            Kind::Word("HIDDEN" | "PROVIDE" | "PROVIDE_HIDDEN") => {
                SectionsStatement::Assign(self.provision_statement(Script)?)
            }
            Kind::Word("OVERLAY") => SectionsStatement::Overlay(Box::new(self.overlay()?)),
            Kind::Name | Kind::Quoted => self.section_or_assignment(token)?,
            _ => return Err(self.no_statement(token)),
        })
    }

    fn section_or_assignment(&mut self, token: Token) -> Parsed<SectionsStatement> {
        let name = self.name(Script, "a name")?;
        if let Some(operator) = assign_operator(self.peek(Script)?) {
            let assignment = self.assignment_to(name, operator, Script)?;
            self.separator(Expression)?;
            return Ok(SectionsStatement::Assign(assignment));
        }
        self.section(name, token.kind == Kind::Quoted).map(|section| SectionsStatement::Output(Box::new(section)))
    }

    /// `GROUP e : { .. }`: an assignment to the location counter, and the statements.
    fn group_of_sections(&mut self, into: &mut SectionsList) -> Parsed<()> {
        let word = self.take_token(Script)?;
        let (address, _) = self.address_and_type(Expression)?;
        if let Some(value) = address {
            let (target, span) = (Spanned::new(Name::from("."), word.span), self.since(word.span));
            let (operator, provision) = (AssignOperator::Set, Provision::Plain);
            let assignment = Assignment { target, operator, value, provision };
            into.push(Spanned::new(SectionsStatement::Assign(assignment), span));
        }
        self.braced_sections(b"GROUP", into)
    }

    /// An output section whose name is taken.
    fn section(&mut self, name: Spanned<Name>, is_quoted: bool) -> Parsed<OutputSection> {
        let (address, kind) = self.address_and_type(Script)?;
        let load_address = self.head_value("AT")?;
        let align = self.head_value("ALIGN")?;
        let is_aligned_with_input = self.accept(Expression, "ALIGN_WITH_INPUT")?.is_some();
        let subalign = self.head_value("SUBALIGN")?;
        let constraint = self.constraint()?;
        let opening = self.demand(Expression, "{")?;
        let body = self.body(opening, &name.node)?;
        let tail = self.tail(true)?;
        Ok(OutputSection {
            name,
            is_quoted,
            address,
            kind,
            load_address,
            align,
            is_aligned_with_input,
            subalign,
            constraint,
            body,
            region: tail.region,
            load_region: tail.load_region,
            segments: tail.segments,
            fill: tail.fill,
        })
    }

    /// The address and the type in front of a colon, and the colon. The state is that of the first token.
    fn address_and_type(&mut self, first: State) -> Parsed<(Option<Expr>, Option<Spanned<SectionType>>)> {
        let token = self.peek(first)?;
        if token.is(":") {
            self.take_token(first)?;
            return Ok((None, None));
        }
        let address = if token.is("(") {
            self.take_token(first)?;
            if is_type_or_end(self.peek(Expression)?) {
                let kind = self.section_type(token)?;
                self.demand(Expression, ":")?;
                return Ok((None, kind));
            }
            self.expression_after(token)?
        } else if token.is("BIND") {
            self.take_token(first)?;
            self.bound_address()?
        } else {
            self.expression_from(first)?
        };
        let kind = match self.accept(Expression, "(")? {
            Some(opening) => self.section_type(opening)?,
            None => None,
        };
        self.demand(Expression, ":")?;
        Ok((Some(address), kind))
    }

    /// What follows BIND: `(address)`, and perhaps `BLOCK(e)`, which has no effect.
    fn bound_address(&mut self) -> Parsed<Expr> {
        let address = self.in_parentheses()?;
        if self.accept(Expression, "BLOCK")?.is_some() {
            self.in_parentheses()?;
        }
        Ok(address)
    }

    /// The type of a section after its opening parenthesis; `()` is none.
    fn section_type(&mut self, opening: Token) -> Parsed<Option<Spanned<SectionType>>> {
        if self.accept(Expression, ")")?.is_some() {
            return Ok(None);
        }
        let token = self.peek(Expression)?;
        let kind = match token.kind {
            Kind::Word("TYPE") => SectionType::Type(self.typed()?),
            Kind::Word(word) if is_type_or_end(token) => {
                self.take_token(Expression)?;
                self.untyped(word)?
            }
            _ => return Err(self.unexpected(token, "a type of a section".to_owned())),
        };
        let closing = self.demand(Expression, ")")?;
        Ok(Some(Spanned::new(kind, opening.span.to(closing.span))))
    }

    /// The type of a section that begins with a taken word, which is not TYPE.
    fn untyped(&mut self, word: &str) -> Parsed<SectionType> {
        if word == "NOLOAD" {
            return Ok(SectionType::NoLoad);
        }
        if word != "READONLY" {
            return Ok(SectionType::NotAllocated(Name::from(word)));
        }
        if self.accept(Expression, "(")?.is_none() {
            return Ok(SectionType::ReadOnly(None));
        }
        let value = self.typed()?;
        self.demand(Expression, ")")?;
        Ok(SectionType::ReadOnly(Some(value)))
    }

    /// `TYPE = expression`
    fn typed(&mut self) -> Parsed<Expr> {
        self.demand(Expression, "TYPE")?;
        self.demand(Expression, "=")?;
        self.expression()
    }

    /// `AT(e)` and its like between the colon and the brace.
    fn head_value(&mut self, word: &str) -> Parsed<Option<Expr>> {
        match self.accept(Expression, word)? {
            Some(_) => self.in_parentheses().map(Some),
            None => Ok(None),
        }
    }

    fn constraint(&mut self) -> Parsed<Option<Constraint>> {
        let constraint = match self.peek(Expression)?.kind {
            Kind::Word("ONLY_IF_RO") => Constraint::ReadOnly,
            Kind::Word("ONLY_IF_RW") => Constraint::ReadWrite,
            Kind::Word("SPECIAL") => Constraint::Special,
            _ => return Ok(None),
        };
        self.take_token(Expression)?;
        Ok(Some(constraint))
    }

    /// The statements after an opening brace, and the closing one.
    fn body(&mut self, opening: Token, of: &Name) -> Parsed<Body> {
        let mut statements = Vec::new();
        self.section_statements(&mut statements)?;
        if self.peek(Wild)?.kind == Kind::End {
            return Err(self.open(opening, of));
        }
        let closing = self.demand(Wild, "}")?;
        Ok(Spanned::new(statements, opening.span.to(closing.span)))
    }

    /// Reads what follows the closing brace. Within an overlay no region does.
    fn tail(&mut self, has_regions: bool) -> Parsed<Tail> {
        let mut tail = Tail::default();
        if has_regions && self.accept(Script, ">")?.is_some() {
            tail.region = Some(self.name(Script, "the name of a region")?);
        }
        if has_regions && self.accept(Script, "AT")?.is_some() {
            self.demand(Script, ">")?;
            tail.load_region = Some(self.name(Script, "the name of a region")?);
        }
        while self.accept(Script, ":")?.is_some() {
            tail.segments.push(self.name(Script, "the name of a segment")?);
        }
        if self.accept(Script, "=")?.is_some() {
            tail.fill = Some(self.fill_value()?);
        }
        self.accept(Script, ",")?;
        Ok(tail)
    }

    fn overlay(&mut self) -> Parsed<Overlay> {
        self.take_token(Script)?;
        let address = if self.peek(Expression)?.is(":") { None } else { Some(self.expression()?) };
        self.demand(Expression, ":")?;
        let forbids_cross_references = self.accept(Expression, "NOCROSSREFS")?.is_some();
        let load_address = self.head_value("AT")?;
        let subalign = self.head_value("SUBALIGN")?;
        let opening = self.demand(Expression, "{")?;
        let mut sections = Vec::new();
        while !self.peek(Script)?.is("}") {
            if self.peek(Script)?.kind == Kind::End {
                return Err(self.open(opening, b"OVERLAY"));
            }
            sections.push(self.overlay_section()?);
        }
        let closing = self.take_token(Script)?;
        let tail = self.tail(true)?;
        Ok(Overlay {
            address,
            forbids_cross_references,
            load_address,
            subalign,
            sections: Spanned::new(sections, opening.span.to(closing.span)),
            region: tail.region,
            load_region: tail.load_region,
            segments: tail.segments,
            fill: tail.fill,
        })
    }

    fn overlay_section(&mut self) -> Parsed<Spanned<OutputSection>> {
        let token = self.peek(Script)?;
        let name = self.name(Script, "the name of a section")?;
        let opening = self.demand(Wild, "{")?;
        let body = self.body(opening, &name.node)?;
        let tail = self.tail(false)?;
        let section = OutputSection {
            is_quoted: token.kind == Kind::Quoted,
            segments: tail.segments,
            fill: tail.fill,
            ..OutputSection::new(name, body)
        };
        Ok(Spanned::new(section, self.since(token.span)))
    }

    /// The statements of an output section up to a brace or the end of a file.
    fn section_statements(&mut self, into: &mut Vec<Spanned<SectionStatement>>) -> Parsed<()> {
        loop {
            let token = self.peek(Wild)?;
            match token.kind {
                Kind::End | Kind::Mark("}") => return Ok(()),
                Kind::Mark(";") => drop(self.take_token(Wild)?),
                Kind::Word("INCLUDE") => self.include(Wild, |parser| parser.section_statements(into))?,
                _ => match self.section_statement(token) {
                    Ok(statement) => into.push(Spanned::new(statement, self.since(token.span))),
                    Err(error) => self.recover(Wild, error)?,
                },
            }
        }
    }

    fn section_statement(&mut self, token: Token) -> Parsed<SectionStatement> {
        let word = match token.kind {
            Kind::Name | Kind::Quoted => return self.named_statement(),
            Kind::Word(word) => word,
            Kind::Mark("[") => return self.input_statement().map(SectionStatement::Input),
            _ => return Err(self.no_statement(token)),
        };
        if let Some(width) = data_width(word) {
            self.take_token(Wild)?;
            self.demand(Wild, "(")?;
            let value = self.expression()?;
            self.demand(Expression, ")")?;
            return Ok(SectionStatement::Data(width, value));
        }
        match word {
            "FILL" => self.fill_statement(),
            "ASCII" | "ASCIZ" => self.text_statement(word),
            "ASSERT" => {
                let assertion = self.assertion(Wild)?;
                self.separator_after_parenthesis(Expression)?;
                Ok(SectionStatement::Assert(assertion))
            }
            "HIDDEN" | "PROVIDE" | "PROVIDE_HIDDEN" => self.provision_statement(Wild).map(SectionStatement::Assign),
            "CREATE_OBJECT_SYMBOLS" => self.take_token(Wild).map(|_| SectionStatement::CreateObjectSymbols),
            "CONSTRUCTORS" => self.take_token(Wild).map(|_| SectionStatement::Constructors(false)),
            "LINKER_VERSION" => self.take_token(Wild).map(|_| SectionStatement::LinkerVersion),
            "SORT_BY_NAME" => self.sorted_statement(),
            "KEEP" | "INPUT_SECTION_FLAGS" | "EXCLUDE_FILE" | "SORT_NONE" | "REVERSE" => {
                self.input_statement().map(SectionStatement::Input)
            }
            _ => Err(self.no_statement(token)),
        }
    }

    /// An assignment, or an input statement that begins with the name of files.
    fn named_statement(&mut self) -> Parsed<SectionStatement> {
        let token = self.take_token(Wild)?;
        match assign_operator(self.peek(Wild)?) {
            Some(operator) => {
                let target = Spanned::new(self.lexer.name(token), token.span);
                let assignment = self.assignment_to(target, operator, Wild)?;
                self.separator(Expression)?;
                Ok(SectionStatement::Assign(assignment))
            }
            None => self.input_of_file(token).map(SectionStatement::Input),
        }
    }

    fn fill_statement(&mut self) -> Parsed<SectionStatement> {
        self.take_token(Wild)?;
        self.demand(Wild, "(")?;
        let fill = self.fill_value()?;
        self.demand(Expression, ")")?;
        Ok(SectionStatement::Fill(fill))
    }

    fn text_statement(&mut self, word: &str) -> Parsed<SectionStatement> {
        self.take_token(Wild)?;
        if word == "ASCIZ" {
            let text = self.name(Wild, "a text")?.node;
            return Ok(SectionStatement::Text(DataText::ZeroTerminated(text)));
        }
        self.demand(Wild, "(")?;
        let size = self.expression()?;
        self.demand(Expression, ")")?;
        let text = self.name(Wild, "a text")?.node;
        Ok(SectionStatement::Text(DataText::Sized(size, text)))
    }
}

/// Whether a token after `(` says that a type of a section stands there.
fn is_type_or_end(token: Token) -> bool {
    let types = ["NOLOAD", "DSECT", "COPY", "INFO", "OVERLAY", "READONLY", "TYPE", ")"];
    types.iter().any(|word| token.is(word))
}

fn data_width(word: &str) -> Option<DataWidth> {
    Some(match word {
        "BYTE" => DataWidth::Byte,
        "SHORT" => DataWidth::Short,
        "LONG" => DataWidth::Long,
        "QUAD" => DataWidth::Quad,
        "SQUAD" => DataWidth::SignedQuad,
        _ => return None,
    })
}
