//! Whether a script uses the size of an output section that is not loaded. If so, its strings are merged before that
//! size is known.

use super::expr::compiled::{Binary, Node, Unary};
use super::flags::Flags;
use super::ids::{ExprId, OutputId, StatementId};
use super::link::Link;
use super::program::{Output, StepKind};
use crate::script::tree::Query;

impl Link<'_> {
    /// Whether a statement in an output section, one after it or SIZEOF goes by its size.
    pub fn is_followed(&self, id: OutputId) -> bool {
        let output = match self.output(id) {
            None => return false,
            Some(output) => output,
        };
        let is_asked = |node: &Node| matches!(node, Node::OfSection(Query::Sizeof, name) if *name == output.name);
        let counts_inside = |id: &StatementId| {
            let kind = self.step(*id).map(|step| &step.kind);
            matches!(kind, Some(StepKind::Data { .. } | StepKind::Assign { .. } | StepKind::Assert { .. }))
        };
        output.body.iter().any(counts_inside)
            || self.program.expressions.iter().any(|expression| is_asked(&expression.node))
            || self.is_dot_used_after(output.statement)
    }

    /// Whether `.` after a statement is used before it is another.
    fn is_dot_used_after(&self, statement: StatementId) -> bool {
        let after = self.program.top.iter().skip_while(|id| **id != statement).skip(1);
        for step in after.filter_map(|id| self.step(*id)) {
            match &step.kind {
                StepKind::Assign { value, .. } if self.uses_dot(*value) => return true,
                StepKind::Assign { target: None, .. } => return false,
                StepKind::Assert { condition, .. } if self.uses_dot(*condition) => return true,
                StepKind::Output(next) => {
                    if let Some(begins_by_dot) = self.output(*next).and_then(|output| self.begins_by_dot(output)) {
                        return begins_by_dot;
                    }
                }
                _ => {}
            }
        }
        false
    }

    /// Whether an output section begins where `.` is; `None` if it may not be in the image.
    fn begins_by_dot(&self, output: &Output) -> Option<bool> {
        let place = output.place.as_ref().filter(|_| output.counts())?;
        let begins_by_dot = match output.address {
            Some(address) => self.uses_dot(address),
            None => Some(output.region) == self.program.default_region,
        };
        let mut inputs = place.inputs.iter().filter_map(|id| self.section(*id));
        let stays = inputs.any(|section| section.size > 0 && !section.flags.has(Flags::EXCLUDE));
        (begins_by_dot || stays).then_some(begins_by_dot)
    }

    fn uses_dot(&self, e: ExprId) -> bool {
        match self.program.expressions.node(e) {
            Node::Dot | Node::Unary(Unary::Align | Unary::Next, _) | Node::Binary(Binary::SegmentAlign, ..) => true,
            Node::Unary(_, inner) | Node::SegmentStart(_, inner) | Node::Assert(inner, _) => self.uses_dot(*inner),
            Node::Binary(_, left, right) => self.uses_dot(*left) || self.uses_dot(*right),
            Node::Conditional(test, yes, no) => [test, yes, no].iter().any(|inner| self.uses_dot(**inner)),
            _ => false,
        }
    }
}
