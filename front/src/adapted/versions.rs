//! The values that a symbol has one after the other: the profile has one assignment of a name.

use std::collections::{HashMap, HashSet};

use bstr::{BString, ByteSlice};

use super::expression::children;
use super::items::{for_each_assignment, for_each_expression};
use crate::profile::reserved_words::{begins_name, is_in_name};
use crate::script::tree::{AssignOperator, Assignment, Expr, ExprKind, Name, Script, Span};

/// An assignment of a symbol.
#[derive(Clone, Debug)]
pub(super) struct Version {
    /// Where its statement begins.
    pub(super) at: u32,
    /// The name that it has in the result.
    pub(super) emitted: Name,
    /// Whether it gives the symbol a value.
    pub(super) counts: bool,
    /// Whether an expression names it.
    pub(super) is_used: bool,
}

/// The assignments of symbols.
#[derive(Debug, Default)]
pub(super) struct Versions {
    by_name: HashMap<Name, Vec<Version>>,
    /// The words of the text: a new name is none of them.
    words: HashSet<BString>,
}

impl Versions {
    /// The assignments of a script; `counts` says which give their symbol a value, as the first of its name or after
    /// others.
    pub(super) fn of(script: &Script, text: &[u8], counts: &dyn Fn(&Assignment, Span, bool) -> bool) -> Versions {
        let mut versions = Versions { by_name: HashMap::new(), words: words(text) };
        for_each_assignment(script, &mut |assignment, span| {
            if assignment.target.node == "." {
                return;
            }
            let found = versions.by_name.entry(assignment.target.node.clone()).or_default();
            let counts = counts(assignment, span, found.iter().all(|one| !one.counts));
            found.push(Version { at: span.start, emitted: assignment.target.node.clone(), counts, is_used: false });
        });
        versions.mark_used(script);
        versions.name();
        versions
    }

    /// Marks the versions that expressions name.
    fn mark_used(&mut self, script: &Script) {
        for_each_expression(script, &mut |e, at| self.mark(e, at));
        for_each_assignment(script, &mut |assignment, span| {
            if let AssignOperator::Update(_) = assignment.operator {
                self.mark_name(&assignment.target.node, span.start);
            }
        });
    }

    fn mark(&mut self, e: &Expr, at: u32) {
        if let ExprKind::Symbol(name) = &e.kind {
            self.mark_name(name, at);
        }
        for inner in children(e) {
            self.mark(inner, at);
        }
    }

    fn mark_name(&mut self, name: &Name, at: u32) {
        if let Some(index) = self.meant(name, at) {
            if let Some(version) = self.by_name.get_mut(name).and_then(|all| all.get_mut(index)) {
                version.is_used = true;
            }
        }
    }

    /// The last version that counts keeps the name; others that are used get new ones.
    fn name(&mut self) {
        let names: Vec<Name> = self.by_name.keys().cloned().collect();
        for name in names {
            let mut versions = self.by_name.remove(&name).unwrap_or_default();
            let last = versions.iter().rposition(|one| one.counts);
            for (index, version) in versions.iter_mut().enumerate() {
                if version.counts && version.is_used && Some(index) != last {
                    version.emitted = self.fresh(&format!("ldi.{}", name.to_str_lossy()));
                }
            }
            self.by_name.insert(name, versions);
        }
    }

    /// The index of the version that an expression at a place means: the last one before it, else the last one.
    fn meant(&self, name: &Name, at: u32) -> Option<usize> {
        let all = self.by_name.get(name)?;
        let before = all.iter().rposition(|one| one.counts && one.at < at);
        before.or_else(|| all.iter().rposition(|one| one.counts))
    }

    /// The version that an expression at a place means.
    pub(super) fn version(&self, name: &Name, at: u32) -> Option<&Version> {
        self.by_name.get(name)?.get(self.meant(name, at)?)
    }

    /// The version of a statement, and whether it is the last one.
    pub(super) fn of_statement(&self, name: &Name, at: u32) -> Option<(&Version, bool)> {
        let all = self.by_name.get(name)?;
        let index = all.iter().position(|one| one.at == at)?;
        Some((all.get(index)?, all.iter().rposition(|one| one.counts) == Some(index)))
    }

    /// Whether the script assigns a name with effect.
    pub(super) fn assigns(&self, name: &[u8]) -> bool {
        self.by_name.get(name.as_bstr()).map_or(false, |all| all.iter().any(|one| one.counts))
    }

    /// Whether one assignment of a name alone has effect.
    pub(super) fn is_alone(&self, name: &Name) -> bool {
        self.by_name.get(name).map_or(false, |all| all.iter().filter(|one| one.counts).count() == 1)
    }

    /// Whether that is so for all names.
    pub(super) fn are_alone(&self) -> bool {
        self.by_name.values().all(|all| all.iter().filter(|one| one.counts).count() <= 1)
    }

    /// A name that the text does not have.
    pub(super) fn fresh(&mut self, wish: &str) -> Name {
        let mut name = BString::from(wish);
        let mut count = 1;
        while !self.words.insert(name.clone()) {
            count += 1;
            name = format!("{wish}.{count}").into();
        }
        name
    }
}

/// The words of a text that may be names.
fn words(text: &[u8]) -> HashSet<BString> {
    let mut found = HashSet::new();
    let mut rest = text;
    while let Some(at) = rest.iter().position(|byte| begins_name(*byte)) {
        rest = rest.get(at..).unwrap_or_default();
        let length = rest.iter().take_while(|byte| is_in_name(**byte)).count().max(1);
        found.insert(rest.get(..length).unwrap_or_default().into());
        rest = rest.get(length..).unwrap_or_default();
    }
    found
}
