//! Expressions: functions and operators that the profile has not, and where `.` may not stand.

use bstr::ByteSlice;

use super::{Cause, Check};
use crate::script::tree::{BinaryOperator, Expr, ExprKind, Function, Name, Query, Span, UnaryOperator};

/// The place of an expression, for `.` in it.
#[derive(Clone, Copy, PartialEq, Eq, Debug)]
pub(super) enum DotPlace {
    /// In SECTIONS.
    Sections,
    /// Outside of SECTIONS.
    Top,
    /// In MEMORY.
    Memory,
    /// In ASSERT.
    Assert,
}

impl DotPlace {
    /// Where `.` may not stand, and what to do.
    fn fault(self) -> Option<&'static str> {
        match self {
            DotPlace::Sections => None,
            DotPlace::Top => Some("may not stand outside of SECTIONS: write the statement as the last one in SECTIONS"),
            DotPlace::Memory => Some("may not stand in MEMORY: write the number"),
            DotPlace::Assert => {
                Some("may not stand in ASSERT: write `end = .;` before it in SECTIONS, and ASSERT of `end`")
            }
        }
    }
}

impl Check<'_> {
    /// An expression, with all in it.
    pub(super) fn expression(&mut self, value: &Expr, place: DotPlace) {
        let mut parts = Vec::new();
        value.visit(&mut |part| parts.push(part));
        for part in &parts {
            self.part(part);
        }
        let dot = parts.iter().find(|part| is_dot(part));
        if let (Some(dot), Some(fault)) = (dot, place.fault()) {
            let what = if dot.kind == ExprKind::Dot { "`.`" } else { "ALIGN with one argument" };
            self.object(Cause::Dot, dot.span, format!("{what} {fault}"));
        }
    }

    fn part(&mut self, part: &Expr) {
        let at = part.span;
        match &part.kind {
            ExprKind::Number(_) => self.number(at),
            ExprKind::Symbol(name) => self.name(name, at),
            ExprKind::Unary(UnaryOperator::Plus, _) => {
                self.object(Cause::Grammar, at, "no `+` stands before an operand: leave it out");
            }
            ExprKind::Binary(BinaryOperator::Xor, left, right) => {
                let at = Span { start: left.span.end, end: right.span.start };
                self.object(Cause::Tokens, at, "there is no operator `^`, which GNU ld skips");
            }
            ExprKind::Call(function, _) => {
                if let Some((word, instead)) = outside(*function) {
                    self.outside(at, word, instead);
                }
            }
            ExprKind::Query(query, name) => self.query(*query, name, at),
            ExprKind::SegmentStart(..) => self.outside(at, "SEGMENT_START", "write its second argument"),
            ExprKind::SizeofHeaders => {
                self.outside(at, "SIZEOF_HEADERS", "write the number: no segment has the headers");
            }
            ExprKind::Assert(..) => self.misplaced(at, "ASSERT", "write it as a statement of its own"),
            ExprKind::Dot | ExprKind::Unary(..) | ExprKind::Binary(..) | ExprKind::Conditional(..) => {}
        }
    }

    fn query(&mut self, query: Query, name: &Name, at: Span) {
        match query {
            Query::Alignof => self.outside(at, "ALIGNOF", "write the number"),
            Query::Constant => self.outside(at, "CONSTANT", "write the number"),
            Query::Defined => {
                self.outside(
                    at,
                    "DEFINED",
                    "write PROVIDE(a = e) for `a = DEFINED(a) ? a : e`, and `a == a` in ASSERT",
                );
            }
            Query::Length | Query::Origin => {
                self.name(name, at);
                self.region(name, at);
            }
            Query::Addr | Query::Loadaddr | Query::Sizeof => self.name(name, at),
        }
    }

    /// Looks at the use of a region.
    pub(super) fn region(&mut self, name: &Name, at: Span) {
        if !self.regions.contains(name) {
            let shown = name.as_bstr();
            self.object(
                Cause::Repeated,
                at,
                format!("no memory region `{shown}` is declared before here: put MEMORY first"),
            );
        }
    }

    /// What `.` is set to in an output section: `. + e`, `ALIGN(e)`, or `e`, but for the first without `.` in e.
    pub(super) fn dot_in_section(&mut self, value: &Expr) {
        let is_form = match &value.kind {
            ExprKind::Binary(BinaryOperator::Add, left, _) if left.kind == ExprKind::Dot => true,
            ExprKind::Call(Function::Align, arguments) if arguments.len() == 1 => {
                !arguments.iter().any(|value| has(value, |part| part.kind == ExprKind::Dot))
            }
            _ => !has_align(value) && !uses_dot(value),
        };
        if !is_form {
            let forms = "`. += e;`, or without `.` in e `. = ALIGN(e);` or `. = e;`, which is e after its start";
            self.object(Cause::Dot, value.span, format!("in an output section `.` may not be set so: write {forms}"));
        }
    }
}

fn is_dot(part: &Expr) -> bool {
    matches!(&part.kind, ExprKind::Call(Function::Align, arguments) if arguments.len() == 1)
        || part.kind == ExprKind::Dot
}

/// Whether an expression has a part.
fn has(value: &Expr, is_it: fn(&Expr) -> bool) -> bool {
    let mut found = false;
    value.visit(&mut |part| found |= is_it(part));
    found
}

fn uses_dot(value: &Expr) -> bool {
    has(value, is_dot)
}

fn has_align(value: &Expr) -> bool {
    has(value, |part| matches!(part.kind, ExprKind::Call(Function::Align, _)))
}

/// The word of a function that the profile has not, and what to write instead.
fn outside(function: Function) -> Option<(&'static str, &'static str)> {
    Some(match function {
        Function::Align => return None,
        Function::Absolute => ("ABSOLUTE", "write its argument: numbers are never relative to a section"),
        Function::Block => ("BLOCK", "write ALIGN"),
        Function::DataSegmentAlign => ("DATA_SEGMENT_ALIGN", "write ALIGN of its first argument"),
        Function::DataSegmentEnd => ("DATA_SEGMENT_END", "leave it out"),
        Function::DataSegmentRelroEnd => ("DATA_SEGMENT_RELRO_END", "leave it out"),
        Function::Log2Ceil => ("LOG2CEIL", "write the number"),
        Function::Max => ("MAX", "write `(a > b ? a : b)`"),
        Function::Min => ("MIN", "write `(a < b ? a : b)`"),
        Function::Next => ("NEXT", "write ALIGN"),
    })
}
