//! Statements at the top of a script, and those that stand at the top and in SECTIONS.

use std::ffi::OsStr;
use std::os::unix::ffi::OsStrExt;
use std::path::PathBuf;

use super::{Parsed, Parser};
use crate::script::dialect::Dialect;
use crate::script::error::ErrorKind;
use crate::script::lexer::{Kind, State, Token};
use crate::script::tree::{
    Assertion, AssignOperator, Assignment, BinaryOperator, InputFile, InsertPlace, Name, Provision, Setting, Spanned,
    Statement,
};

use State::{Expression, InputList, Script};

impl Parser<'_> {
    /// The statements up to the end of a file.
    pub fn statements(&mut self, into: &mut Vec<Spanned<Statement>>) -> Parsed<()> {
        loop {
            let token = self.peek(Script)?;
            match token.kind {
                Kind::End => return Ok(()),
                Kind::Mark(";") => drop(self.take_token(Script)?),
                Kind::Word("INCLUDE") => self.include(Script, |parser| parser.statements(into))?,
                _ => match self.statement(token) {
                    Ok(statement) => into.push(Spanned::new(statement, self.since(token.span))),
                    Err(error) => {
                        self.recover(Script, error)?;
                        self.accept(Script, "}")?;
                    }
                },
            }
        }
    }

    /// `NAME = expression` and its like, up to the end of the text: what --defsym has.
    pub fn defsym(&mut self) -> Parsed<Spanned<Statement>> {
        let token = self.peek(Expression)?;
        let assignment = match token.kind {
            Kind::Word("HIDDEN" | "PROVIDE" | "PROVIDE_HIDDEN") => self.provision(Expression)?,
            _ => self.plain_assignment(Expression)?,
        };
        self.end(Expression)?;
        Ok(Spanned::new(Statement::Assign(assignment), self.since(token.span)))
    }

    /// Reads the end of the text.
    pub fn end(&mut self, state: State) -> Parsed<()> {
        let token = self.peek(state)?;
        match token.kind {
            Kind::End => Ok(()),
            _ => Err(self.unexpected(token, "the end".to_owned())),
        }
    }

    fn statement(&mut self, token: Token) -> Parsed<Statement> {
        let word = match token.kind {
            Kind::Word(word) => word,
            Kind::Name | Kind::Quoted => return self.assignment().map(Statement::Assign),
            _ => return Err(self.no_statement(token)),
        };
        if let Some(read) = single(word) {
            self.take_token(Script)?;
            // `i386:x86-64` is a name, which the profile's tokens part at its `:`.
            let is_parted = self.lexer.dialect == Dialect::Profile && word != "ENTRY";
            let name = self.name_in_parentheses(if is_parted { InputList } else { Script }, "a name")?;
            if word == "SEARCH_DIR" {
                self.folders.push(PathBuf::from(OsStr::from_bytes(name.strip_prefix(b"=").unwrap_or(&name))));
            }
            return Ok(read(name));
        }
        if let Some(setting) = setting(word) {
            self.take_token(Script)?;
            return Ok(Statement::Setting(setting));
        }
        match word {
            "SECTIONS" => self.sections(),
            "MEMORY" => self.memory(),
            "PHDRS" => self.program_headers(),
            "VERSION" => self.version(),
            "INPUT" | "GROUP" => self.input(word),
            "OUTPUT_FORMAT" => self.output_format(),
            "INSERT" => self.insert(),
            "REGION_ALIAS" => self.region_alias(),
            "EXTERN" | "NOCROSSREFS" | "NOCROSSREFS_TO" | "HLL" | "SYSLIB" => self.list(word),
            "ASSERT" => self.assertion(Script).map(Statement::Assert),
            "HIDDEN" | "PROVIDE" | "PROVIDE_HIDDEN" => self.provision_statement(Script).map(Statement::Assign),
            _ => Err(self.no_statement(token)),
        }
    }

    pub(super) fn no_statement(&self, token: Token) -> super::ScriptError {
        let hint = self.hint(token);
        self.lexer.error(token, ErrorKind::NoStatement(self.shown(token))).with_hint(hint)
    }

    /// `name op expression` and its separator.
    pub(super) fn assignment(&mut self) -> Parsed<Assignment> {
        let assignment = self.plain_assignment(Script)?;
        self.separator(Expression)?;
        Ok(assignment)
    }

    fn plain_assignment(&mut self, state: State) -> Parsed<Assignment> {
        let target = self.name(state, "a symbol")?;
        let token = self.peek(state)?;
        match assign_operator(token) {
            Some(operator) => self.assignment_to(target, operator, state),
            None => Err(self.unexpected(token, "`=`".to_owned())),
        }
    }

    /// The rest of an assignment from its operator on, which is not taken; its separator is not read.
    pub(super) fn assignment_to(
        &mut self,
        target: Spanned<Name>,
        op: AssignOperator,
        state: State,
    ) -> Parsed<Assignment> {
        self.take_token(state)?;
        let value = self.expression()?;
        Ok(Assignment { target, operator: op, value, provision: Provision::Plain })
    }

    /// PROVIDE and its like, with its separator, which is read in the state around it.
    pub(super) fn provision_statement(&mut self, state: State) -> Parsed<Assignment> {
        let assignment = self.provision(state)?;
        self.separator_after_parenthesis(state)?;
        Ok(assignment)
    }

    /// `PROVIDE(name = expression)`, HIDDEN or PROVIDE_HIDDEN.
    fn provision(&mut self, state: State) -> Parsed<Assignment> {
        let provision = match self.take_token(state)?.kind {
            Kind::Word("HIDDEN") => Provision::Hidden,
            Kind::Word("PROVIDE") => Provision::Provide,
            _ => Provision::ProvideHidden,
        };
        self.demand(state, "(")?;
        let target = self.name(state, "a symbol")?;
        self.demand(state, "=")?;
        let value = self.expression()?;
        self.demand(Expression, ")")?;
        Ok(Assignment { target, operator: AssignOperator::Set, value, provision })
    }

    /// `;` or `,` after an assignment.
    pub(super) fn separator(&mut self, state: State) -> Parsed<()> {
        let token = self.peek(state)?;
        if token.is(";") || token.is(",") {
            return self.take_token(state).map(drop);
        }
        Err(self.unexpected(token, "`;`".to_owned()))
    }

    /// `;` or `,` after PROVIDE or ASSERT: the profile needs none.
    pub(super) fn separator_after_parenthesis(&mut self, state: State) -> Parsed<()> {
        let token = self.peek(state)?;
        if self.lexer.dialect == Dialect::Profile && !token.is(";") && !token.is(",") {
            return Ok(());
        }
        self.separator(state)
    }

    /// `ASSERT(expression, message)`; a separator after it is not read.
    pub(super) fn assertion(&mut self, state: State) -> Parsed<Assertion> {
        self.take_token(state)?;
        self.demand(Expression, "(")?;
        let condition = self.expression()?;
        let message = self.assert_message()?;
        Ok(Assertion { condition, message })
    }

    /// `ENTRY(name)`
    pub(super) fn entry(&mut self) -> Parsed<Name> {
        self.take_token(Script)?;
        self.name_in_parentheses(Script, "a symbol")
    }

    /// INPUT or GROUP; AS_NEEDED nests.
    fn input(&mut self, word: &str) -> Parsed<Statement> {
        self.take_token(Script)?;
        self.demand(Script, "(")?;
        let mut files: Vec<Spanned<InputFile>> = Vec::new();
        let mut depth = 0usize;
        let mut is_wanted = true;
        loop {
            let token = self.peek(InputList)?;
            match token.kind {
                Kind::Name | Kind::Quoted | Kind::Library => {
                    let (name, is_library) = (self.lexer.name(token), token.kind == Kind::Library);
                    files.push(Spanned::new(InputFile { name, is_library, is_as_needed: depth > 0 }, token.span));
                    is_wanted = false;
                }
                Kind::Word("AS_NEEDED") => {
                    self.take_token(InputList)?;
                    depth += 1;
                    is_wanted = true;
                }
                Kind::Mark(",") if !is_wanted => is_wanted = true,
                Kind::Mark(")") if !is_wanted && depth > 0 => depth -= 1,
                Kind::Mark(")") if !is_wanted => break,
                _ => return Err(self.unexpected(token, "a file".to_owned())),
            }
            if token.is("AS_NEEDED") {
                self.demand(InputList, "(")?
            } else {
                self.take_token(InputList)?
            };
        }
        self.take_token(InputList)?;
        Ok(if word == "GROUP" { Statement::Group(files) } else { Statement::Input(files) })
    }

    /// A command with a list of names in parentheses.
    fn list(&mut self, word: &str) -> Parsed<Statement> {
        self.take_token(Script)?;
        self.demand(Script, "(")?;
        let state = if word == "EXTERN" { Expression } else { Script };
        let is_of_sections = word.starts_with("NOCROSSREFS");
        let mut names: Vec<Name> = Vec::new();
        let mut is_after_comma = word == "EXTERN";
        loop {
            let token = self.peek(state)?;
            match token.kind {
                Kind::Mark(")") if is_of_sections || !is_after_comma => break,
                Kind::Mark(",") if !names.is_empty() && !is_after_comma => is_after_comma = true,
                Kind::Name | Kind::Quoted => {
                    names.push(self.lexer.name(token));
                    is_after_comma = false;
                }
                _ => return Err(self.unexpected(token, "a name".to_owned())),
            }
            self.take_token(state)?;
        }
        self.take_token(state)?;
        Ok(match word {
            "EXTERN" => Statement::Extern(names),
            "NOCROSSREFS" => Statement::NoCrossReferences(names),
            "NOCROSSREFS_TO" => Statement::NoCrossReferencesTo(names),
            "HLL" => Statement::HighLevelLibraries(names),
            _ => Statement::SystemLibraries(names),
        })
    }

    /// `OUTPUT_FORMAT(default)` or `OUTPUT_FORMAT(default, big, little)`
    fn output_format(&mut self) -> Parsed<Statement> {
        self.take_token(Script)?;
        self.demand(Script, "(")?;
        let mut names = vec![self.name(Script, "the name of a format")?.node];
        if self.peek(Script)?.is(",") {
            for _ in 0..2 {
                self.demand(Script, ",")?;
                names.push(self.name(Script, "the name of a format")?.node);
            }
        }
        self.demand(Script, ")")?;
        Ok(Statement::OutputFormat(names))
    }

    /// `INSERT AFTER section` or `INSERT BEFORE section`
    fn insert(&mut self) -> Parsed<Statement> {
        self.take_token(Script)?;
        let place = if self.accept(Script, "AFTER")?.is_some() {
            InsertPlace::After
        } else {
            self.demand(Script, "BEFORE")?;
            InsertPlace::Before
        };
        let section = self.name(Script, "the name of a section")?;
        Ok(Statement::Insert(place, section.node))
    }

    /// `REGION_ALIAS(alias, region)`
    fn region_alias(&mut self) -> Parsed<Statement> {
        self.take_token(Script)?;
        self.demand(Script, "(")?;
        let alias = self.name(Script, "the name of a region")?;
        self.demand(Script, ",")?;
        let region = self.name(Script, "the name of a region")?;
        self.demand(Script, ")")?;
        Ok(Statement::RegionAlias(alias.node, region.node))
    }
}

/// A command with one name in parentheses.
fn single(word: &str) -> Option<fn(Name) -> Statement> {
    Some(match word {
        "ENTRY" => Statement::Entry,
        "LD_FEATURE" => Statement::Feature,
        "MAP" => Statement::Map,
        "OUTPUT" => Statement::Output,
        "OUTPUT_ARCH" => Statement::OutputArch,
        "SEARCH_DIR" => Statement::SearchDir,
        "STARTUP" => Statement::Startup,
        "TARGET" => Statement::Target,
        _ => return None,
    })
}

/// A command without arguments.
fn setting(word: &str) -> Option<Setting> {
    Some(match word {
        "FLOAT" => Setting::Float,
        "FORCE_COMMON_ALLOCATION" => Setting::ForceCommonAllocation,
        "FORCE_GROUP_ALLOCATION" => Setting::ForceGroupAllocation,
        "INHIBIT_COMMON_ALLOCATION" => Setting::InhibitCommonAllocation,
        "NOFLOAT" => Setting::NoFloat,
        _ => return None,
    })
}

/// The operator of an assignment.
pub(super) fn assign_operator(token: Token) -> Option<AssignOperator> {
    let mark = match token.kind {
        Kind::Mark(mark) => mark,
        _ => return None,
    };
    if mark == "=" {
        return Some(AssignOperator::Set);
    }
    let is_update = matches!(mark, "+=" | "-=" | "*=" | "/=" | "<<=" | ">>=" | "&=" | "|=");
    let operator = mark.strip_suffix('=').filter(|_| is_update).and_then(BinaryOperator::from_mark)?;
    Some(AssignOperator::Update(operator))
}
