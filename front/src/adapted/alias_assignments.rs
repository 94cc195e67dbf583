//! `a = b;` for a symbol b of an object: a becomes another name of b in that object.

use super::note::NoteKind;
use super::versions::Version;
use super::walk::Walk;
use crate::layout::evaluation::{Definer, StatementKind};
use crate::layout::ids::SectionId;
use crate::script::tree::{AssignOperator, Assignment, ExprKind, Name, Span};

/// A name that an object is to have for what it has another name for.
#[derive(Clone, PartialEq, Eq, Debug)]
pub struct Alias {
    /// The name that the script assigns.
    pub name: Name,
    /// The object's name.
    pub target: Name,
    /// The section of the object.
    pub section: SectionId,
}

impl Walk<'_> {
    /// Takes an assignment out of the text that an object's symbol stands for; says whether it is one.
    pub(super) fn alias(&mut self, assignment: &Assignment, version: &Version, span: Span) -> bool {
        let alias = match self.alias_of(assignment, version, span) {
            Some(alias) => alias,
            None => return false,
        };
        let what = self.quoted(span);
        let why = format!("{} is a symbol of the object that has {}", alias.name, alias.target);
        self.note(NoteKind::Rewritten, span.start, format!("{what}: {why}"));
        self.rewrites.blank(self.text, span);
        self.result.aliases.push(alias);
        true
    }

    fn alias_of(&self, assignment: &Assignment, version: &Version, span: Span) -> Option<Alias> {
        let evaluation = self.request.evaluation.filter(|_| self.request.is_followed)?;
        let (name, target) = match (assignment.operator, &assignment.value.kind) {
            (AssignOperator::Set, ExprKind::Symbol(target)) => (&assignment.target.node, target),
            _ => return None,
        };
        let is_alone = version.counts && self.versions.is_alone(name) && !(self.request.defines)(name.as_ref());
        let known = evaluation.symbol(target)?;
        let section = match known.definer {
            Definer::Object(Some(section)) if is_alone && !self.versions.assigns(target) => section,
            _ => return None,
        };
        let own = evaluation.section(section).filter(|one| one.is_linked() && !one.is_common())?;
        // What is merged moves after GNU ld has the value.
        let is_merged = own.number().map_or(false, |number| evaluation.merges.own(own.object, number).is_some());
        let place = evaluation.output(own.output()?)?.in_image()?;
        let value = match self.evaluated(span).map(|statement| &statement.kind) {
            Some(StatementKind::Assign { value, .. }) => (*value)?.address,
            _ => return None,
        };
        let is_there = !is_merged && place.is_allocated() && known.value?.address == value;
        is_there.then(|| Alias { name: name.clone(), target: target.clone(), section })
    }
}
