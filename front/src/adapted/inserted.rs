//! INSERT: the statements before it are written beside the output section to which GNU ld moves them (GNU ld manual,
//! 'INSERT'; ldlang.c, `process_insert_statements`).

use std::collections::HashMap;

use super::orphans::{AFTER, FIRST};
use super::walk::Walk;
use crate::layout::evaluation::StatementKind;
use crate::layout::ids::{OutputId, StatementId};
use crate::layout::Evaluation;
use crate::script::tree::{Assertion, Assignment, InsertPlace, Script, SectionsStatement, Span, Statement};

/// A statement outside of output sections.
#[derive(Clone, Copy, Debug)]
enum Node<'a> {
    Assign(&'a Assignment),
    Assert(&'a Assertion),
    Item(&'a SectionsStatement),
}

/// Whether a script has INSERT.
pub(super) fn has_insert(script: &Script) -> bool {
    last_insert(script).is_some()
}

/// Whether an INSERT puts statements in front of all output sections: GNU ld 2.40 may lose them there.
fn is_before_all(script: &Script) -> bool {
    let first = nodes(script).into_iter().find_map(|(_, node, is_moved)| match node {
        Node::Item(SectionsStatement::Output(section)) if !is_moved => Some(&section.name.node),
        _ => None,
    });
    script.statements.iter().any(|statement| match &statement.node {
        Statement::Insert(InsertPlace::Before, name) => Some(name) == first,
        _ => false,
    })
}

fn last_insert(script: &Script) -> Option<usize> {
    script.statements.iter().rposition(|statement| matches!(statement.node, Statement::Insert(..)))
}

/// The statements by where they begin, in the order of the text, and whether an INSERT moves them.
fn nodes(script: &Script) -> Vec<(Span, Node<'_>, bool)> {
    let last = last_insert(script).unwrap_or(0);
    let mut found = Vec::new();
    for (index, statement) in script.statements.iter().enumerate() {
        match &statement.node {
            Statement::Assign(assignment) => found.push((statement.span, Node::Assign(assignment), index < last)),
            Statement::Assert(assertion) => found.push((statement.span, Node::Assert(assertion), index < last)),
            Statement::Sections(items) => {
                found.extend(items.iter().map(|item| (item.span, Node::Item(&item.node), index < last)));
            }
            _ => {}
        }
    }
    found
}

/// The place of each statement in the order in which GNU ld goes over them.
pub(super) fn ranks(evaluation: &Evaluation) -> HashMap<StatementId, u32> {
    let mut ranks = HashMap::new();
    let mut add = |id: StatementId| {
        let next = ranks.len() as u32;
        ranks.entry(id).or_insert(next);
    };
    for id in &evaluation.top {
        add(*id);
        if let Some(StatementKind::Output(output)) = evaluation.statement(*id).map(|statement| &statement.kind) {
            let body = evaluation.output(*output).map_or(&[][..], |output| output.body.as_slice());
            body.iter().for_each(|id| add(*id));
        }
    }
    ranks
}

impl<'a> Walk<'a> {
    /// Whether INSERT can be written: all is known, no name has values one after the other, and nothing is put in front
    /// of all.
    pub(super) fn can_insert(&self) -> bool {
        self.request.evaluation.is_some()
            && self.request.others.is_none()
            && self.versions.are_alone()
            && !is_before_all(self.script)
    }

    /// The statements in the order in which GNU ld goes over them.
    pub(super) fn statements_inserted(&mut self, evaluation: &'a Evaluation) {
        let script = self.script;
        let nodes = nodes(script);
        let places: HashMap<u32, usize> = nodes.iter().enumerate().map(|(at, (span, ..))| (span.start, at)).collect();
        let mut is_done = vec![false; nodes.len()];
        let mut last: Option<Span> = None;
        for statement in evaluation.top.iter().filter_map(|id| evaluation.statement(*id)) {
            let place = statement.span.and_then(|span| places.get(&span.start).copied());
            match (&statement.kind, place.and_then(|place| Some((place, nodes.get(place)?)))) {
                (StatementKind::Output(id), None) => self.orphan_behind(*id, last),
                (_, Some((place, (span, node, is_moved)))) => {
                    if let Some(done) = is_done.get_mut(place) {
                        *done = true;
                    }
                    self.node(*node, *span);
                    match is_moved {
                        true => self.move_behind(*span, last),
                        false if self.is_in_sections(*span) => last = Some(*span),
                        false => {}
                    }
                }
                (_, None) => {}
            }
        }
        for ((span, node, _), _) in nodes.iter().zip(&is_done).filter(|(_, is_done)| !**is_done) {
            self.node(*node, *span);
        }
    }

    fn node(&mut self, node: Node<'a>, span: Span) {
        match node {
            Node::Assign(assignment) => self.assignment(assignment, span),
            Node::Assert(assertion) => self.assertion(assertion, span),
            Node::Item(item) => self.item(item, span),
        }
    }

    fn is_in_sections(&self, span: Span) -> bool {
        self.extent.map_or(false, |extent| extent.span.start <= span.start && span.end <= extent.span.end)
    }

    /// Where statements are written behind another one.
    fn behind(&self, last: Option<Span>) -> (u32, i32) {
        match (last, self.extent) {
            (Some(last), _) => (last.end, AFTER),
            (None, Some(extent)) => (extent.opening, FIRST),
            (None, None) => (0, FIRST),
        }
    }

    fn move_behind(&mut self, span: Span, last: Option<Span>) {
        let (at, order) = self.behind(last);
        self.rewrites.shift(span, at, order);
    }

    fn orphan_behind(&mut self, id: OutputId, last: Option<Span>) {
        let (at, order) = self.behind(last);
        if self.orphans.takes(id) {
            self.put_orphans(&[id], last.map_or(at, |last| last.start), at, order);
        }
    }
}
