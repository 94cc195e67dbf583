//! VERSION, and version scripts.

use super::{Parsed, Parser};
use crate::script::error::ErrorKind;
use crate::script::lexer::{Kind, State};
use crate::script::tree::{Name, Statement, VersionNode, VersionPattern};

use State::{Script, VersionNode as Node, VersionScript, VersionStart};

impl Parser<'_> {
    /// `VERSION { node .. }`
    pub(super) fn version(&mut self) -> Parsed<Statement> {
        self.take_token(Script)?;
        let opening = self.demand(VersionStart, "{")?;
        let mut nodes = vec![self.version_node()?];
        loop {
            let token = self.peek(VersionScript)?;
            match token.kind {
                Kind::End => return Err(self.open(opening, b"VERSION")),
                Kind::Mark("}") => break,
                _ => nodes.push(self.version_node()?),
            }
        }
        self.take_token(VersionScript)?;
        Ok(Statement::Version(nodes))
    }

    /// The nodes of a version script, up to its end: one or more.
    pub fn version_script(&mut self) -> Parsed<Vec<VersionNode>> {
        let mut nodes = vec![self.version_node()?];
        while self.peek(VersionScript)?.kind != Kind::End {
            nodes.push(self.version_node()?);
        }
        Ok(nodes)
    }

    fn version_node(&mut self) -> Parsed<VersionNode> {
        let tag = match self.peek(VersionScript)?.kind {
            Kind::Name => Some(self.name(VersionScript, "a tag")?.node),
            _ => None,
        };
        self.demand(VersionScript, "{")?;
        let mut node = VersionNode { tag, globals: Vec::new(), locals: Vec::new(), dependencies: Vec::new() };
        self.node_patterns(&mut node)?;
        self.demand(Node, "}")?;
        while node.tag.is_some() && self.peek(VersionScript)?.kind == Kind::Name {
            node.dependencies.push(self.name(VersionScript, "a tag")?.node);
        }
        self.demand(VersionScript, ";")?;
        Ok(node)
    }

    /// The patterns of a node: global ones with their word or without, and local ones after theirs.
    fn node_patterns(&mut self, node: &mut VersionNode) -> Parsed<()> {
        if self.peek(Node)?.is("}") {
            return Ok(());
        }
        let label = self.label()?;
        let into = if label == Some("local") { &mut node.locals } else { &mut node.globals };
        self.defined_patterns(into)?;
        if label == Some("global") && self.peek(Node)?.is("local") {
            self.label()?;
            self.defined_patterns(&mut node.locals)?;
        }
        Ok(())
    }

    /// `global:` or `local:`, if one stands here.
    fn label(&mut self) -> Parsed<Option<&'static str>> {
        let word = match self.peek(Node)?.kind {
            Kind::Word(word @ ("global" | "local")) => word,
            _ => return Ok(None),
        };
        if !self.is_before_colon()? {
            return Ok(None);
        }
        self.take_token(Node)?;
        self.demand(Node, ":")?;
        Ok(Some(word))
    }

    /// Patterns with `;` after each, up to a brace or a label.
    fn defined_patterns(&mut self, into: &mut Vec<VersionPattern>) -> Parsed<()> {
        loop {
            self.version_pattern(into, None)?;
            self.demand(Node, ";")?;
            let token = self.peek(Node)?;
            let is_label = matches!(token.kind, Kind::Word("global" | "local")) && self.is_before_colon()?;
            if token.is("}") || is_label {
                return Ok(());
            }
        }
    }

    /// Whether a colon follows the word that stands here.
    fn is_before_colon(&mut self) -> Parsed<bool> {
        Ok(self.lexer.peek_second(Node)?.is(":"))
    }

    /// A pattern, or `extern "language" { .. }`.
    fn version_pattern(&mut self, into: &mut Vec<VersionPattern>, language: Option<&Name>) -> Parsed<()> {
        let token = self.peek(Node)?;
        let is_name = token.is_name() || matches!(token.kind, Kind::Word("global" | "local" | "extern"));
        if !is_name {
            return Err(self.unexpected(token, "a pattern of symbols".to_owned()));
        }
        self.take_token(Node)?;
        if token.is("extern") && self.peek(Node)?.kind == Kind::Quoted {
            return self.nested(ErrorKind::StatementDepth, |parser| parser.extern_block(into));
        }
        let is_quoted = token.kind == Kind::Quoted;
        into.push(VersionPattern { glob: self.lexer.name(token), is_quoted, language: language.cloned() });
        Ok(())
    }

    /// `"language" { pattern; .. }` after the word extern; the last `;` can be left out.
    fn extern_block(&mut self, into: &mut Vec<VersionPattern>) -> Parsed<()> {
        let language = self.name(Node, "a language")?.node;
        self.demand(Node, "{")?;
        loop {
            self.version_pattern(into, Some(&language))?;
            let is_more = self.accept(Node, ";")?.is_some() && !self.peek(Node)?.is("}");
            if !is_more {
                break;
            }
        }
        self.demand(Node, "}").map(drop)
    }
}
