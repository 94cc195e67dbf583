//! Input section statements and their patterns.

use super::{Parsed, Parser};
use crate::script::dialect::Dialect;
use crate::script::error::ErrorKind;
use crate::script::lexer::{Kind, State, Token};
use crate::script::tree::{InputStatement, Name, Pattern, SectionStatement, Sort, Spanned};

use State::Wild;

/// What a pattern is of.
#[derive(Clone, Copy, PartialEq, Eq)]
enum Of {
    Files,
    Sections,
}

impl Parser<'_> {
    /// An input statement that begins with another word than the name of files.
    pub(super) fn input_statement(&mut self) -> Parsed<InputStatement> {
        if self.accept(Wild, "KEEP")?.is_none() {
            return self.input_without_keep();
        }
        self.demand(Wild, "(")?;
        let statement = self.input_without_keep()?;
        self.demand(Wild, ")")?;
        Ok(InputStatement { is_kept: true, ..statement })
    }

    fn input_without_keep(&mut self) -> Parsed<InputStatement> {
        let section_flags = self.section_flags()?;
        let token = self.peek(Wild)?;
        let statement = if self.accept(Wild, "[")?.is_some() {
            let sections = Some(self.patterns("]")?);
            InputStatement { is_kept: false, section_flags: Vec::new(), file: None, sections }
        } else if token.is_name() {
            self.take_token(Wild)?;
            self.input_of_file(token)?
        } else {
            let file = self.pattern(Of::Files)?;
            self.input_of_pattern(file)?
        };
        Ok(InputStatement { section_flags, ..statement })
    }

    /// An input statement from the name of its files on, which is taken; perhaps it is the name alone.
    pub(super) fn input_of_file(&mut self, token: Token) -> Parsed<InputStatement> {
        let file = Spanned::new(self.plain_pattern(token), token.span);
        if self.peek(Wild)?.is("(") {
            return self.input_of_pattern(file);
        }
        Ok(InputStatement { is_kept: false, section_flags: Vec::new(), file: Some(file), sections: None })
    }

    fn input_of_pattern(&mut self, file: Spanned<Pattern>) -> Parsed<InputStatement> {
        self.demand(Wild, "(")?;
        let sections = Some(self.patterns(")")?);
        Ok(InputStatement { is_kept: false, section_flags: Vec::new(), file: Some(file), sections })
    }

    /// What begins with SORT_BY_NAME: `SORT_BY_NAME(CONSTRUCTORS)`, or an input statement.
    pub(super) fn sorted_statement(&mut self) -> Parsed<SectionStatement> {
        let word = self.take_token(Wild)?;
        self.demand(Wild, "(")?;
        if self.accept(Wild, "CONSTRUCTORS")?.is_some() {
            self.demand(Wild, ")")?;
            return Ok(SectionStatement::Constructors(true));
        }
        let file = self.pattern_within(word, vec![Sort::ByName], Of::Files)?;
        self.input_of_pattern(file).map(SectionStatement::Input)
    }

    /// `INPUT_SECTION_FLAGS(flag & flag ..)`, if it is there.
    fn section_flags(&mut self) -> Parsed<Vec<Name>> {
        let mut flags = Vec::new();
        if self.accept(Wild, "INPUT_SECTION_FLAGS")?.is_some() {
            self.demand(Wild, "(")?;
            flags.push(self.name(Wild, "a flag")?.node);
            while self.accept(Wild, "&")?.is_some() {
                flags.push(self.name(Wild, "a flag")?.node);
            }
            self.demand(Wild, ")")?;
        }
        Ok(flags)
    }

    /// The patterns of sections up to a closing mark: one or more.
    fn patterns(&mut self, closing: &str) -> Parsed<Vec<Spanned<Pattern>>> {
        let mut patterns = vec![self.pattern(Of::Sections)?];
        while self.accept(Wild, closing)?.is_none() {
            patterns.push(self.pattern(Of::Sections)?);
        }
        Ok(patterns)
    }

    /// A pattern, with the sorts around it and the EXCLUDE_FILE before it.
    fn pattern(&mut self, of: Of) -> Parsed<Spanned<Pattern>> {
        let token = self.peek(Wild)?;
        self.pattern_within(token, Vec::new(), of)
    }

    /// A pattern of which the first token is given, and the sorts of which are taken with their parentheses.
    fn pattern_within(&mut self, first: Token, mut sorts: Vec<Sort>, of: Of) -> Parsed<Spanned<Pattern>> {
        while let Some(sort) = sort(self.peek(Wild)?) {
            self.take_token(Wild)?;
            self.demand(Wild, "(")?;
            sorts.push(sort);
            if !can_nest(&sorts, of) {
                return Err(self.lexer.error(first, ErrorKind::Sorts));
            }
        }
        let mut excluded_files = Vec::new();
        if self.accept(Wild, "EXCLUDE_FILE")?.is_some() {
            self.demand(Wild, "(")?;
            excluded_files.push(self.name(Wild, "a name")?.node);
            while self.accept(Wild, ")")?.is_none() {
                excluded_files.push(self.name(Wild, "a name")?.node);
            }
        }
        let token = self.peek(Wild)?;
        self.name(Wild, "a name")?;
        let pattern = self.plain_pattern(token);
        // The profile sorts several patterns as one; the first stands for all.
        while self.lexer.dialect == Dialect::Profile && !sorts.is_empty() && self.peek(Wild)?.is_name() {
            self.take_token(Wild)?;
        }
        for _ in &sorts {
            self.demand(Wild, ")")?;
        }
        Ok(Spanned::new(Pattern { sorts, excluded_files, ..pattern }, self.since(first.span)))
    }

    fn plain_pattern(&self, token: Token) -> Pattern {
        let is_quoted = token.kind == Kind::Quoted;
        Pattern { glob: self.lexer.name(token), is_quoted, sorts: Vec::new(), excluded_files: Vec::new() }
    }
}

fn sort(token: Token) -> Option<Sort> {
    Some(match token.kind {
        Kind::Word("SORT_BY_NAME") => Sort::ByName,
        Kind::Word("SORT_BY_ALIGNMENT") => Sort::ByAlignment,
        Kind::Word("SORT_BY_INIT_PRIORITY") => Sort::ByInitPriority,
        Kind::Word("SORT_NONE") => Sort::None,
        Kind::Word("REVERSE") => Sort::Reverse,
        _ => return None,
    })
}

/// Whether sorts can stand around one pattern: one, or two of names and alignments; and REVERSE once.
fn can_nest(sorts: &[Sort], of: Of) -> bool {
    let others: Vec<Sort> = sorts.iter().copied().filter(|sort| *sort != Sort::Reverse).collect();
    let is_once_reversed = sorts.len() - others.len() <= 1;
    is_once_reversed
        && match (of, others.as_slice()) {
            (_, []) | (Of::Files, [Sort::ByName | Sort::None]) | (Of::Sections, [_]) => true,
            (Of::Sections, [first, second]) => {
                [first, second].iter().all(|sort| matches!(sort, Sort::ByName | Sort::ByAlignment))
            }
            _ => false,
        }
}
