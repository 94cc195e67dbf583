//! How GNU ld evaluates an expression whose parts may be relative to a section (ldexp.c, `fold_binary`, `fold_unary`).
//!
//! To GNU ld a value is a plain number, an absolute one, or the distance from the start of an output section; this
//! decides what an operator works on. Here a relative value is kept as its address; if GNU ld works on the distance,
//! the start is subtracted first.

use super::expression::{binary, difference, number, unplaced};
use super::rules::Around;
use super::view::View;
use super::walk::{At, Walk};
use crate::layout::evaluation::{Base, StatementKind};
use crate::layout::gives_number;
use crate::layout::ids::OutputId;
use crate::script::tree::{BinaryOperator, Expr, ExprKind, Function, Name, Query, Span, Statement, UnaryOperator};

/// What a value counts from.
#[derive(Clone, Copy, PartialEq, Eq, Debug)]
enum Kind {
    Number,
    Absolute,
    Section(OutputId),
}

/// A value: an expression of the profile, of a section its address.
#[derive(Clone, Debug)]
struct Term {
    kind: Kind,
    e: Expr,
}

/// The output section whose body is gone over.
#[derive(Clone, Debug)]
pub(super) struct Inside {
    pub(super) id: OutputId,
    /// What its start is.
    pub(super) start: Expr,
    /// Whether numbers do not count from the start, for example in data commands.
    pub(super) is_absolute: bool,
}

impl Walk<'_> {
    /// The value of an expression as an assignment takes it: an address, if it counts from a section.
    pub(super) fn assigned(&self, e: &Expr, at: At) -> Option<Expr> {
        let counting = Counting { walk: self, at };
        let term = counting.term(e)?;
        counting.assigned(term)
    }

    /// The value of an expression as GNU ld has it in hand: a distance, if it counts from a section.
    pub(super) fn in_hand(&self, e: &Expr, at: At) -> Option<Expr> {
        let counting = Counting { walk: self, at };
        let term = counting.term(e)?;
        counting.raw(&term)
    }

    /// Whether `. = e` in an output section takes the value as a number that counts from its start.
    pub(super) fn is_number(&self, e: &Expr, at: At) -> bool {
        Counting { walk: self, at }.term(e).map_or(false, |term| term.kind == Kind::Number)
    }
}

/// Finds whether an expression, at a place of the script, counts from the start of a section.
struct Counting<'w, 'a> {
    walk: &'w Walk<'a>,
    at: At,
}

impl Counting<'_, '_> {
    /// The section around, if numbers count from its start.
    fn section_around(&self) -> Option<OutputId> {
        self.walk.inside.as_ref().filter(|inside| !inside.is_absolute).map(|inside| inside.id)
    }

    /// The kind of a plain number here.
    fn plain(&self) -> Kind {
        let is_sane = |statement: &Statement| matches!(statement, Statement::Feature(word) if *word == "SANE_EXPR");
        match self.section_around().is_some() || self.walk.script.statements.iter().any(|one| is_sane(&one.node)) {
            true => Kind::Number,
            false => Kind::Absolute,
        }
    }

    /// The kind of an address here (ldexp.c, `new_rel_from_abs`).
    fn address(&self) -> Kind {
        self.section_around().map_or(Kind::Absolute, Kind::Section)
    }

    /// The start of an output section.
    fn start(&self, id: OutputId) -> Option<Expr> {
        let name = &self.walk.request.evaluation?.output(id)?.name;
        match &self.walk.inside {
            Some(inside) if inside.id == id && !self.at.is_assert => Some(inside.start.clone()),
            _ => {
                let own = View { walk: self.walk, at: self.at }.section(name)?;
                (self.at.is_assert || self.walk.done.contains_key(name))
                    .then(|| unplaced(ExprKind::Query(Query::Addr, own)))
            }
        }
    }

    fn raw(&self, term: &Term) -> Option<Expr> {
        match term.kind {
            Kind::Section(id) => Some(difference(term.e.clone(), self.start(id)?)),
            Kind::Number | Kind::Absolute => Some(term.e.clone()),
        }
    }

    fn of_section(&self, id: OutputId, distance: Expr) -> Option<Term> {
        Some(Term { kind: Kind::Section(id), e: sum(distance, self.start(id)?) })
    }

    fn assigned(&self, term: Term) -> Option<Expr> {
        match (term.kind, self.section_around()) {
            (Kind::Number, Some(own)) => Some(self.of_section(own, term.e)?.e),
            _ => Some(term.e),
        }
    }

    fn term(&self, e: &Expr) -> Option<Term> {
        match &e.kind {
            ExprKind::Number(_) => Some(Term { kind: self.plain(), e: e.clone() }),
            ExprKind::Dot => Some(Term { kind: self.address(), e: e.clone() }),
            ExprKind::Symbol(name) => self.symbol(e, name),
            ExprKind::Unary(operator, inner) => self.unary(*operator, self.term(inner)?),
            ExprKind::Binary(operator, left, right) => self.binary(*operator, self.term(left)?, self.term(right)?),
            ExprKind::Conditional(test, yes, no) => self.conditional(test, yes, no),
            ExprKind::Call(function, arguments) => self.call(*function, arguments),
            ExprKind::Query(query, name) => self.query(e, *query, name),
            ExprKind::SegmentStart(_, inner) => {
                Some(Term { kind: self.address(), e: self.assigned(self.term(inner)?)? })
            }
            ExprKind::Assert(condition, _) => self.term(condition),
            ExprKind::SizeofHeaders if self.walk.is_without_objects() => None,
            ExprKind::SizeofHeaders => self.number_term(e),
        }
    }

    /// A value that does not depend on the objects, such as a number.
    fn number_term(&self, e: &Expr) -> Option<Term> {
        let value = View { walk: self.walk, at: self.at }.value(e)?;
        Some(Term { kind: Kind::Number, e: number(value) })
    }

    fn symbol(&self, e: &Expr, name: &Name) -> Option<Term> {
        let view = View { walk: self.walk, at: self.at };
        let kind = match self.base_of(e.span, name)? {
            Base::Output(id) => Kind::Section(id),
            Base::Number | Base::Absolute => self.plain(),
            Base::Nowhere | Base::Section(_) => return None,
        };
        let e = match view.symbol(name) {
            Some(own) if own == *name => e.clone(),
            Some(own) => unplaced(ExprKind::Symbol(own)),
            None => number(view.value(e)?),
        };
        Some(Term { kind, e })
    }

    /// What a symbol counts from: by its place in the text, or that of its assignment.
    fn base_of(&self, span: Span, name: &Name) -> Option<Base> {
        let evaluation = self.walk.request.evaluation?;
        if let Some(value) = evaluation.value_at(span).filter(|_| span != Span::default()) {
            return Some(value.base);
        }
        let version = self.walk.versions.version(name, self.at.at);
        let own = version.and_then(|version| {
            evaluation.statements.iter().find(|statement| statement.span.map(|span| span.start) == Some(version.at))
        });
        match own.map(|statement| &statement.kind) {
            Some(StatementKind::Assign { value, .. }) => value.map(|value| value.base),
            _ => evaluation.symbol(name)?.value.map(|value| value.base),
        }
    }

    fn unary(&self, operator: UnaryOperator, inner: Term) -> Option<Term> {
        if operator == UnaryOperator::Plus {
            return Some(inner);
        }
        let e = unplaced(ExprKind::Unary(operator, Box::new(self.raw(&inner)?)));
        match inner.kind {
            Kind::Section(id) => self.of_section(id, e),
            kind => Some(Term { kind, e }),
        }
    }

    fn binary(&self, operator: BinaryOperator, left: Term, right: Term) -> Option<Term> {
        if operator == BinaryOperator::Xor {
            return None;
        }
        let on_addresses = |kind| {
            let e = match operator {
                BinaryOperator::Subtract => difference(left.e.clone(), right.e.clone()),
                _ => binary(operator, left.e.clone(), right.e.clone()),
            };
            Some(Term { kind, e })
        };
        let is_plain = gives_number(operator);
        match (left.kind, right.kind) {
            (Kind::Section(one), Kind::Section(other)) if one == other => match operator {
                BinaryOperator::Equal | BinaryOperator::NotEqual => on_addresses(Kind::Number),
                BinaryOperator::Subtract => on_addresses(self.plain()),
                _ => {
                    let kind = if is_plain { Kind::Number } else { self.plain() };
                    Some(Term { kind, e: binary(operator, self.raw(&left)?, self.raw(&right)?) })
                }
            },
            (Kind::Section(id), Kind::Number) | (Kind::Number, Kind::Section(id)) => match operator {
                BinaryOperator::Add => on_addresses(Kind::Section(id)),
                BinaryOperator::Subtract if right.kind == Kind::Number => on_addresses(Kind::Section(id)),
                _ => {
                    let e = binary(operator, self.raw(&left)?, self.raw(&right)?);
                    if is_plain {
                        return Some(Term { kind: Kind::Number, e });
                    }
                    self.of_section(id, e)
                }
            },
            _ if is_plain => on_addresses(Kind::Number),
            (Kind::Number, Kind::Absolute) | (Kind::Absolute, Kind::Number) => on_addresses(Kind::Absolute),
            // Of two sections, or a section and an absolute value, both are made absolute.
            _ => on_addresses(self.plain()),
        }
    }

    /// MAX, MIN and ALIGN of two: the result counts from what they count from.
    fn of_two(&self, left: Term, right: Term, result: &dyn Fn(Expr, Expr) -> Expr) -> Option<Term> {
        let section = match (left.kind, right.kind) {
            (Kind::Section(one), Kind::Section(other)) if one == other => Some(one),
            (Kind::Section(id), Kind::Number) | (Kind::Number, Kind::Section(id)) => Some(id),
            _ => None,
        };
        match section {
            Some(id) => self.of_section(id, result(self.raw(&left)?, self.raw(&right)?)),
            None => {
                let is_number = left.kind == Kind::Number && right.kind == Kind::Number;
                let kind = if is_number { Kind::Number } else { Kind::Absolute };
                Some(Term { kind, e: result(left.e, right.e) })
            }
        }
    }

    fn conditional(&self, test: &Expr, yes: &Expr, no: &Expr) -> Option<Term> {
        let test = self.term(test)?;
        if let ExprKind::Number(value) = test.e.kind {
            return self.term(if value != 0 { yes } else { no });
        }
        let (yes, no) = (self.term(yes)?, self.term(no)?);
        let (kind, yes, no) = match yes.kind == no.kind {
            true => (yes.kind, yes.e, no.e),
            false => (self.address(), self.assigned(yes)?, self.assigned(no)?),
        };
        let e = ExprKind::Conditional(Box::new(self.raw(&test)?), Box::new(yes), Box::new(no));
        Some(Term { kind, e: unplaced(e) })
    }

    fn call(&self, function: Function, arguments: &[Expr]) -> Option<Term> {
        match (function, arguments) {
            (Function::Absolute, [inner]) => Some(Term { kind: Kind::Absolute, e: self.term(inner)?.e }),
            (Function::Align | Function::Block | Function::Next, [inner]) => {
                let inner = self.raw(&self.term(inner)?)?;
                let kind = if function == Function::Next { Kind::Absolute } else { self.address() };
                Some(Term { kind, e: unplaced(ExprKind::Call(Function::Align, vec![inner])) })
            }
            (Function::Align, [place, align]) => self.of_two(self.term(place)?, self.term(align)?, &|place, align| {
                unplaced(ExprKind::Call(Function::Align, vec![place, align]))
            }),
            (Function::Max | Function::Min, [left, right]) => {
                let operator = if function == Function::Max { BinaryOperator::Greater } else { BinaryOperator::Less };
                self.of_two(self.term(left)?, self.term(right)?, &|left, right| {
                    let test = unplaced(ExprKind::Binary(operator, Box::new(left.clone()), Box::new(right.clone())));
                    unplaced(ExprKind::Conditional(Box::new(test), Box::new(left), Box::new(right)))
                })
            }
            _ => None,
        }
    }

    fn query(&self, e: &Expr, query: Query, name: &Name) -> Option<Term> {
        let view = View { walk: self.walk, at: self.at };
        let evaluation = self.walk.request.evaluation?;
        match query {
            Query::Addr => {
                let index = evaluation.outputs.iter().position(|output| output.name == *name)?;
                let id = OutputId::new(index);
                Some(Term { kind: Kind::Section(id), e: self.start(id)? })
            }
            Query::Sizeof | Query::Loadaddr => {
                let own = view.section(name).filter(|_| self.at.is_assert || self.walk.done.contains_key(name))?;
                let kind = if query == Query::Sizeof { Kind::Number } else { Kind::Absolute };
                Some(Term { kind, e: unplaced(ExprKind::Query(query, own)) })
            }
            Query::Origin | Query::Length => {
                let kind = if query == Query::Length { Kind::Number } else { self.address() };
                Some(Term { kind, e: unplaced(ExprKind::Query(query, view.region(name))) })
            }
            Query::Constant => Some(Term { kind: Kind::Number, e: number(view.constant(e, name)?) }),
            Query::Defined if self.walk.is_without_objects() && view.value(e) != Some(1) => None,
            Query::Defined if view.is_provided(name) => None,
            Query::Alignof | Query::Defined => self.number_term(e),
        }
    }
}

/// `distance + start`; of a distance that is `place - start`, the place.
fn sum(distance: Expr, start: Expr) -> Expr {
    match &distance.kind {
        ExprKind::Binary(BinaryOperator::Subtract, place, from) if **from == start => (**place).clone(),
        _ => binary(BinaryOperator::Add, distance, start),
    }
}
