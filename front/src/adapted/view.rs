//! The names that an expression may use at a place: for the rules, and to evaluate their results.

use super::expression::Known;
use super::items::for_each_assignment;
use super::rules::Around;
use super::walk::{At, Walk};
use crate::profile::reserved_words::is_name;
use crate::script::tree::{Expr, ExprKind, Name, Provision, Query, Statement};
use bstr::ByteSlice;

/// The place of an expression, for the rules.
pub(super) struct View<'w, 'a> {
    pub(super) walk: &'w Walk<'a>,
    pub(super) at: At,
}

impl Around for View<'_, '_> {
    fn symbol(&self, name: &Name) -> Option<Name> {
        let walk = self.walk;
        match walk.versions.version(name, self.at.at) {
            Some(version) => {
                let is_known = self.at.is_assert
                    || walk.symbols.contains_key(&version.emitted)
                    || walk.request.evaluation.is_none();
                (is_known && is_name(&version.emitted)).then(|| version.emitted.clone())
            }
            None => (self.at.is_assert && is_name(name)).then(|| name.clone()),
        }
    }

    fn section(&self, name: &Name) -> Option<Name> {
        let walk = self.walk;
        match walk.done.get(name) {
            Some(done) => Some(done.name.clone()),
            None if self.at.is_assert || walk.request.evaluation.is_none() => {
                walk.later_section(name).filter(|name| is_name(name))
            }
            None => None,
        }
    }

    fn region(&self, name: &Name) -> Name {
        self.walk.region_name(name)
    }

    fn value(&self, e: &Expr) -> Option<u64> {
        match &e.kind {
            ExprKind::Symbol(name) if self.walk.is_left_out(name) || self.walk.has_no_address(name) => None,
            _ => self.walk.gnu_value(e).filter(|_| self.walk.is_known(e)),
        }
    }

    fn is_without_objects(&self) -> bool {
        self.walk.request.others.is_some()
    }

    fn is_provided(&self, name: &Name) -> bool {
        let mut is_provided = self.is_without_objects();
        for_each_assignment(self.walk.script, &mut |assignment, _| {
            let is_plain = matches!(assignment.provision, Provision::Plain | Provision::Hidden);
            is_provided &= !is_plain || assignment.target.node != *name;
        });
        is_provided
    }

    fn has_program_headers(&self) -> bool {
        self.walk.script.statements.iter().any(|statement| matches!(statement.node, Statement::Phdrs(_)))
    }
}

/// The place of an expression, for its value.
pub(super) struct Facts<'w, 'a> {
    pub(super) walk: &'w Walk<'a>,
    pub(super) at: At,
}

impl Known for Facts<'_, '_> {
    fn dot(&self) -> Option<u64> {
        self.at.dot
    }

    fn symbol(&self, name: &Name) -> Option<u64> {
        match self.walk.symbols.get(name) {
            Some(value) => Some(*value),
            None if self.at.is_assert => {
                let symbol = self.walk.request.evaluation?.symbol(name.as_bytes())?;
                Some(symbol.value?.address)
            }
            None => None,
        }
    }

    fn section(&self, query: Query, name: &Name) -> Option<u64> {
        let walk = self.walk;
        let done = walk.done.values().find(|done| done.name == *name);
        if let Some(done) = done {
            return Some(match query {
                Query::Addr => done.address,
                Query::Loadaddr => done.load,
                _ => done.size,
            });
        }
        if !self.at.is_assert {
            return None;
        }
        let evaluation = walk.request.evaluation?;
        let place = evaluation.outputs.iter().find(|output| output.name == *name)?.place.as_ref()?;
        Some(match query {
            Query::Addr => place.address,
            Query::Loadaddr => place.load,
            _ => place.size,
        })
    }

    fn region(&self, query: Query, name: &Name) -> Option<u64> {
        let region = self.walk.regions.get(name)?;
        Some(if query == Query::Origin { region.origin } else { region.length })
    }
}
