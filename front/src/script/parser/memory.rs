//! MEMORY and PHDRS.

use super::{Parsed, Parser};
use crate::script::error::{quoted, ErrorKind};
use crate::script::lexer::{Kind, State, Token};
use crate::script::tree::{
    program_header_type, Expr, ExprKind, MemoryRegion, ProgramHeader, RegionAttributes, Spanned, Statement,
};

use State::{Expression, Script};

impl Parser<'_> {
    /// `MEMORY { region .. }`
    pub(super) fn memory(&mut self) -> Parsed<Statement> {
        self.take_token(Script)?;
        let opening = self.demand(Script, "{")?;
        let mut regions = Vec::new();
        self.regions(&mut regions)?;
        if self.peek(Script)?.kind == Kind::End {
            return Err(self.open(opening, b"MEMORY"));
        }
        self.demand(Script, "}")?;
        Ok(Statement::Memory(regions))
    }

    /// The regions up to a brace or the end of a file, with commas between them or without.
    fn regions(&mut self, into: &mut Vec<Spanned<MemoryRegion>>) -> Parsed<()> {
        let mut is_after_comma = false;
        loop {
            let token = self.peek(Script)?;
            match token.kind {
                Kind::End | Kind::Mark("}") if !is_after_comma => return Ok(()),
                Kind::Word("INCLUDE") => self.include(Script, |parser| parser.regions(into))?,
                _ => {
                    let region = self.region()?;
                    into.push(Spanned::new(region, self.since(token.span)));
                }
            }
            is_after_comma = self.accept(Script, ",")?.is_some();
        }
    }

    fn region(&mut self) -> Parsed<MemoryRegion> {
        let name = self.name(Script, "the name of a region")?;
        let attributes = match self.accept(Script, "(")? {
            Some(opening) => Some(self.attributes(opening)?),
            None => None,
        };
        self.demand(Script, ":")?;
        self.demand(Script, "ORIGIN")?;
        self.demand(Script, "=")?;
        let origin = self.expression()?;
        // A comma, or the word, is read after the expression, so that `len` needs the comma.
        let state = if self.accept(Expression, ",")?.is_some() { Script } else { Expression };
        self.demand(state, "LENGTH")?;
        self.demand(Script, "=")?;
        let length = self.expression()?;
        Ok(MemoryRegion { name, attributes, origin, length })
    }

    /// The attributes of a region after their opening parenthesis, and the closing one.
    fn attributes(&mut self, opening: Token) -> Parsed<Spanned<Vec<RegionAttributes>>> {
        let mut attributes = Vec::new();
        loop {
            let is_inverted = self.accept(Script, "!")?.is_some();
            let token = self.peek(Script)?;
            let letters = self.name(Script, "attributes of a region")?.node;
            if let Some(letter) = letters.iter().find(|letter| !b"!ARWXLIarwxli".contains(letter)) {
                return Err(self.lexer.error(token, ErrorKind::Attribute(char::from(*letter))));
            }
            attributes.push(RegionAttributes { is_inverted, letters });
            if let Some(closing) = self.accept(Script, ")")? {
                return Ok(Spanned::new(attributes, opening.span.to(closing.span)));
            }
        }
    }

    /// `PHDRS { header; .. }`
    pub(super) fn program_headers(&mut self) -> Parsed<Statement> {
        self.take_token(Script)?;
        let opening = self.demand(Script, "{")?;
        let mut headers = Vec::new();
        loop {
            let token = self.peek(Script)?;
            match token.kind {
                Kind::End => return Err(self.open(opening, b"PHDRS")),
                Kind::Mark("}") => break,
                _ => {
                    let header = self.program_header()?;
                    headers.push(Spanned::new(header, self.since(token.span)));
                }
            }
        }
        self.take_token(Script)?;
        Ok(Statement::Phdrs(headers))
    }

    fn program_header(&mut self) -> Parsed<ProgramHeader> {
        let name = self.name(Script, "the name of a program header")?;
        let token = self.peek(Expression)?;
        let kind = self.expression()?;
        if let ExprKind::Symbol(word) = &kind.kind {
            if program_header_type(word).is_none() {
                return Err(self.lexer.error(token, ErrorKind::HeaderType(quoted(word))));
            }
        }
        let mut header = ProgramHeader {
            name,
            kind,
            has_file_header: false,
            has_program_headers: false,
            load_address: None,
            flags: None,
        };
        while !self.peek(Expression)?.is(";") {
            self.header_word(&mut header)?;
        }
        self.take_token(Expression)?;
        Ok(header)
    }

    /// A word of a program header; of two of a kind the first counts.
    fn header_word(&mut self, header: &mut ProgramHeader) -> Parsed<()> {
        if self.accept(Expression, "AT")?.is_some() {
            let value = self.in_parentheses()?;
            header.load_address.get_or_insert(value);
            return Ok(());
        }
        let token = self.peek(Expression)?;
        let word = self.name(Expression, "`;`")?.node;
        let value: Option<Expr> = if self.peek(Expression)?.is("(") { Some(self.in_parentheses()?) } else { None };
        match (word.as_slice(), value) {
            (b"FILEHDR", None) => header.has_file_header = true,
            (b"PHDRS", None) => header.has_program_headers = true,
            (b"FLAGS", Some(value)) => drop(header.flags.get_or_insert(value)),
            _ => return Err(self.lexer.error(token, ErrorKind::HeaderWord(quoted(&word)))),
        }
        Ok(())
    }
}
