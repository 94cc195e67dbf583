//! Compiled expressions: the trees of a script in one table, with what GNU ld computes while it reads a script.

use crate::layout::evaluation::{Base, Value};
use crate::layout::ids::{ExprId, NameId, SymbolId};
use crate::layout::stop::{not_evaluated, refused, NotEvaluatedReason, RefusedReason, Stop};
use crate::script::tree::{BinaryOperator, Name, Query, Span, UnaryOperator};

/// A function of two expressions besides the operators.
#[derive(Clone, Copy, PartialEq, Eq, Debug)]
pub(crate) enum Binary {
    /// An operator.
    Operator(BinaryOperator),
    Max,
    Min,
    /// `ALIGN(a, b)`
    Align,
    /// DATA_SEGMENT_ALIGN
    SegmentAlign,
    /// DATA_SEGMENT_RELRO_END; its second argument stands first.
    RelroEnd,
}

/// A function of one expression.
#[derive(Clone, Copy, PartialEq, Eq, Debug)]
pub(crate) enum Unary {
    Operator(UnaryOperator),
    /// `ALIGN(a)`
    Align,
    Absolute,
    Next,
    Log2Ceil,
    /// DATA_SEGMENT_END
    SegmentEnd,
}

/// What a node of the table is.
#[derive(Clone, PartialEq, Eq, Debug)]
pub(crate) enum Node {
    Number(u64),
    Dot,
    Symbol(SymbolId),
    Unary(Unary, ExprId),
    Binary(Binary, ExprId, ExprId),
    Conditional(ExprId, ExprId, ExprId),
    /// ADDR, ALIGNOF, LOADADDR, SIZEOF
    OfSection(Query, NameId),
    /// LENGTH, ORIGIN
    OfRegion(Query, Name),
    Constant(Name),
    Defined(SymbolId),
    SegmentStart(Name, ExprId),
    Headers,
    Assert(ExprId, Name),
}

/// An expression of the table.
#[derive(Clone, PartialEq, Eq, Debug)]
pub(crate) struct Expression {
    pub node: Node,
    /// Where it stands; `None` of one that the script does not have.
    pub span: Option<Span>,
    /// The value that it had last: its offset and base.
    pub last: Option<(u64, Base)>,
}

/// All expressions of a script.
#[derive(Clone, Default, Debug)]
pub(crate) struct Expressions(Vec<Expression>);

impl Expressions {
    /// Enters a node; gives a number if GNU ld computes it at once.
    pub fn enter(&mut self, node: Node, span: Option<Span>) -> Result<ExprId, Stop> {
        let node = self.folded(node, span)?;
        self.0.push(Expression { node, span, last: None });
        Ok(ExprId::new(self.0.len() - 1))
    }

    /// A number, which no span has.
    pub fn number(&mut self, value: u64) -> ExprId {
        self.0.push(Expression { node: Node::Number(value), span: None, last: None });
        ExprId::new(self.0.len() - 1)
    }

    /// The node of an index.
    pub fn node(&self, id: ExprId) -> &Node {
        self.0.get(id.index()).map_or(&Node::Number(0), |expression| &expression.node)
    }

    /// Where it stands.
    pub fn span(&self, id: ExprId) -> Option<Span> {
        self.0.get(id.index()).and_then(|expression| expression.span)
    }

    /// Keeps the value that an expression has now.
    pub fn keep(&mut self, id: ExprId, value: Option<(u64, Base)>) {
        if let Some(expression) = self.0.get_mut(id.index()) {
            expression.last = value;
        }
    }

    /// The expressions.
    pub fn iter(&self) -> impl Iterator<Item = &Expression> {
        self.0.iter()
    }

    fn as_number(&self, id: ExprId) -> Option<u64> {
        match self.node(id) {
            Node::Number(value) => Some(*value),
            _ => None,
        }
    }

    /// The number that GNU ld has for an operation on numbers alone while it reads the script (ldexp.c,
    /// `exp_value_fold`).
    fn folded(&self, node: Node, span: Option<Span>) -> Result<Node, Stop> {
        match node {
            Node::Unary(word, e) => match (word, self.as_number(e)) {
                (Unary::Operator(operator), Some(value)) => Ok(Node::Number(unary(operator, value))),
                (Unary::Log2Ceil, Some(value)) => Ok(Node::Number(log2_ceil(value))),
                _ => Ok(Node::Unary(word, e)),
            },
            Node::Binary(word, a, b) => match (word, self.as_number(a), self.as_number(b)) {
                (Binary::Operator(operator), Some(left), Some(right)) => match binary(operator, left, right, span)? {
                    Some(value) => Ok(Node::Number(value)),
                    None => refused(RefusedReason::DivisionByZero, span),
                },
                (Binary::Max, Some(left), Some(right)) => Ok(Node::Number(left.max(right))),
                (Binary::Min, Some(left), Some(right)) => Ok(Node::Number(left.min(right))),
                _ => Ok(Node::Binary(word, a, b)),
            },
            Node::Conditional(test, yes, no) => match (self.as_number(test), self.as_number(yes), self.as_number(no)) {
                (Some(test), Some(yes), Some(no)) => Ok(Node::Number(if test != 0 { yes } else { no })),
                _ => Ok(Node::Conditional(test, yes, no)),
            },
            node => Ok(node),
        }
    }
}

/// The value of a unary operator.
pub(crate) fn unary(operator: UnaryOperator, value: u64) -> u64 {
    match operator {
        UnaryOperator::Plus => value,
        UnaryOperator::Minus => value.wrapping_neg(),
        UnaryOperator::Complement => !value,
        UnaryOperator::Not => u64::from(value == 0),
    }
}

/// Whether a binary operator gives a plain number whatever its operands count from (ldexp.c, `BOPN`).
pub(crate) fn is_plain(operator: BinaryOperator) -> bool {
    use BinaryOperator::{Equal, Greater, GreaterOrEqual, Less, LessOrEqual, LogicalAnd, LogicalOr, NotEqual};
    matches!(operator, Equal | NotEqual | Less | LessOrEqual | Greater | GreaterOrEqual | LogicalAnd | LogicalOr)
}

/// The value of a binary operator; `None` for a division by 0. Division has a sign (ldexp.c, `fold_binary`).
pub(crate) fn binary(operator: BinaryOperator, left: u64, right: u64, span: Option<Span>) -> Result<Option<u64>, Stop> {
    use BinaryOperator as Op;
    Ok(Some(match operator {
        Op::Multiply => left.wrapping_mul(right),
        Op::Divide if right == 0 => return Ok(None),
        Op::Divide => (left as i64).wrapping_div(right as i64) as u64,
        Op::Remainder if right == 0 => return Ok(None),
        Op::Remainder => (left as i64).wrapping_rem(right as i64) as u64,
        Op::Add => left.wrapping_add(right),
        Op::Subtract => left.wrapping_sub(right),
        Op::ShiftLeft => left << (right & 63),
        Op::ShiftRight => left >> (right & 63),
        Op::Less => u64::from(left < right),
        Op::LessOrEqual => u64::from(left <= right),
        Op::Greater => u64::from(left > right),
        Op::GreaterOrEqual => u64::from(left >= right),
        Op::Equal => u64::from(left == right),
        Op::NotEqual => u64::from(left != right),
        Op::And => left & right,
        Op::Xor => return not_evaluated(NotEvaluatedReason::Xor, span),
        Op::Or => left | right,
        Op::LogicalAnd => u64::from(left != 0 && right != 0),
        Op::LogicalOr => u64::from(left != 0 || right != 0),
    }))
}

/// LOG2CEIL (ldexp.c, `make_log2ceil`).
pub(crate) fn log2_ceil(value: u64) -> u64 {
    u64::from(64 - value.saturating_sub(1).leading_zeros())
}

/// The next multiple that is not below a value (ldexp.c, `align_n`).
pub(crate) fn align_up(value: u64, align: u64) -> u64 {
    if align <= 1 {
        return value;
    }
    (value.wrapping_add(align - 1) / align).wrapping_mul(align)
}

/// The next multiple of a power of two that is not below a value (bfd.h, `align_power`).
pub(crate) fn align_power(value: u64, align: u64) -> u64 {
    value.wrapping_add(align.wrapping_sub(1)) & align.wrapping_neg()
}

/// The power of two that an alignment is rounded up to; 0 for none (ldexp.c, `exp_get_power`).
pub(crate) fn power_of(value: u64) -> u64 {
    match value {
        u64::MAX => 0,
        0 | 1 => 1,
        _ => value.checked_next_power_of_two().unwrap_or(0),
    }
}

/// A value with its address, which `address_of` has of its base.
pub(crate) fn value_of((offset, base): (u64, Base), address_of: impl Fn(Base) -> u64) -> Value {
    Value { offset, base, address: offset.wrapping_add(address_of(base)) }
}

#[cfg(test)]
mod tests {
    use super::*;

    /// GNU ld manual, 'Operators'; ldexp.c, `fold_binary`: `/` and `%` are of signed numbers.
    #[test]
    fn division_has_a_sign() {
        let of = |operator, left: i64, right: i64| binary(operator, left as u64, right as u64, None);
        assert_eq!(of(BinaryOperator::Divide, -8, 2), Ok(Some(-4i64 as u64)));
        assert_eq!(of(BinaryOperator::Remainder, -9, 4), Ok(Some(-1i64 as u64)));
        assert_eq!(of(BinaryOperator::Divide, 1, 0), Ok(None));
        assert_eq!(of(BinaryOperator::Divide, i64::MIN, -1), Ok(Some(i64::MIN as u64)));
    }

    /// ldexp.c, `exp_get_power`: an alignment that is no power of two is the next one; `make_log2ceil`.
    #[test]
    fn alignments_are_powers_of_two() {
        assert_eq!([0, 1, 3, 8, 9, u64::MAX].map(power_of), [1, 1, 4, 8, 16, 0]);
        assert_eq!([0, 1, 2, 3, 100].map(log2_ceil), [0, 0, 1, 2, 7]);
        assert_eq!((align_up(5, 3), align_up(5, 0), align_up(8, 8)), (6, 5, 8));
    }
}
