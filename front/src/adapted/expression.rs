//! Expressions of the profile: their text, their value (docs/scripts.md, 'Expressions'), their signs.

use bstr::ByteSlice;

use crate::profile::limits::MAX_SIGNS;
use crate::profile::reserved_words::{begins_name, is_in_name};
use crate::script::tree::{BinaryOperator, Expr, ExprKind, Function, Name, Query, Span, UnaryOperator};

/// An expression of more signs than this is shortened: some of a run may stand around it.
const MAX_OWN_SIGNS: usize = MAX_SIGNS - 8;

/// What an expression of the profile may name at a place.
pub(super) trait Known {
    /// The location counter; `None` if it may not be used.
    fn dot(&self) -> Option<u64>;
    /// The value of a symbol that is complete.
    fn symbol(&self, name: &Name) -> Option<u64>;
    /// ADDR, LOADADDR or SIZEOF of an output section that is complete.
    fn section(&self, query: Query, name: &Name) -> Option<u64>;
    /// ORIGIN or LENGTH of a region.
    fn region(&self, query: Query, name: &Name) -> Option<u64>;
}

/// An expression that is at no place of the text.
pub(super) fn unplaced(kind: ExprKind) -> Expr {
    Expr::new(kind, Span::default())
}

/// A number that stands nowhere in the text.
pub(super) fn number(value: u64) -> Expr {
    unplaced(ExprKind::Number(value))
}

/// `left op right`, without a needless 0.
pub(super) fn binary(operator: BinaryOperator, left: Expr, right: Expr) -> Expr {
    let is_zero = |e: &Expr| e.kind == ExprKind::Number(0);
    match operator {
        BinaryOperator::Add if is_zero(&left) => right,
        BinaryOperator::Add | BinaryOperator::Subtract if is_zero(&right) => left,
        _ => unplaced(ExprKind::Binary(operator, Box::new(left), Box::new(right))),
    }
}

/// `left - right`; `x + n - x` is n.
pub(super) fn difference(left: Expr, right: Expr) -> Expr {
    if left == right {
        return number(0);
    }
    if let ExprKind::Binary(BinaryOperator::Add, one, other) = &left.kind {
        if **one == right {
            return (**other).clone();
        }
        if **other == right {
            return (**one).clone();
        }
    }
    binary(BinaryOperator::Subtract, left, right)
}

/// Whether `.` is in an expression, or an ALIGN of one argument.
pub(super) fn uses_dot(e: &Expr) -> bool {
    is_any(e, &mut |e| match &e.kind {
        ExprKind::Dot => true,
        ExprKind::Call(Function::Align | Function::Block | Function::Next, arguments) => arguments.len() == 1,
        _ => false,
    })
}

/// Whether `.` or any ALIGN is in an expression: `. = e` in an output section must have neither.
pub(super) fn has_dot_or_align(e: &Expr) -> bool {
    is_any(e, &mut |e| matches!(e.kind, ExprKind::Dot | ExprKind::Call(Function::Align, _)))
}

/// Whether something holds of an expression or of one in it.
pub(super) fn is_any(e: &Expr, holds: &mut dyn FnMut(&Expr) -> bool) -> bool {
    holds(e) || children(e).into_iter().any(|inner| is_any(inner, holds))
}

/// The expressions that an expression is made of.
pub(super) fn children(e: &Expr) -> Vec<&Expr> {
    match &e.kind {
        ExprKind::Unary(_, inner) | ExprKind::SegmentStart(_, inner) | ExprKind::Assert(inner, _) => vec![inner],
        ExprKind::Binary(_, left, right) => vec![left, right],
        ExprKind::Conditional(test, yes, no) => vec![test, yes, no],
        ExprKind::Call(_, arguments) => arguments.iter().collect(),
        ExprKind::Number(_) | ExprKind::Dot | ExprKind::Symbol(_) | ExprKind::Query(..) | ExprKind::SizeofHeaders => {
            Vec::new()
        }
    }
}

/// The expression with another one in place of `.`.
pub(super) fn with_dot(e: &Expr, place: &Expr) -> Expr {
    let again = |e: &Expr| Box::new(with_dot(e, place));
    let kind = match &e.kind {
        ExprKind::Dot => return place.clone(),
        ExprKind::Unary(operator, inner) => ExprKind::Unary(*operator, again(inner)),
        ExprKind::Binary(operator, left, right) => ExprKind::Binary(*operator, again(left), again(right)),
        ExprKind::Conditional(test, yes, no) => ExprKind::Conditional(again(test), again(yes), again(no)),
        ExprKind::Call(Function::Align, arguments) if arguments.len() == 1 => {
            let own = arguments.iter().map(|e| with_dot(e, place));
            ExprKind::Call(Function::Align, std::iter::once(place.clone()).chain(own).collect())
        }
        ExprKind::Call(function, arguments) => {
            ExprKind::Call(*function, arguments.iter().map(|e| with_dot(e, place)).collect())
        }
        _ => return e.clone(),
    };
    unplaced(kind)
}

/// A `Known` that knows no name.
pub(super) struct NoNames;

impl Known for NoNames {
    fn dot(&self) -> Option<u64> {
        None
    }
    fn symbol(&self, _: &Name) -> Option<u64> {
        None
    }
    fn section(&self, _: Query, _: &Name) -> Option<u64> {
        None
    }
    fn region(&self, _: Query, _: &Name) -> Option<u64> {
        None
    }
}

/// The expression with a number in place of each one that names nothing.
pub(super) fn folded(e: &Expr) -> Expr {
    if let Some(value) = value(e, &NoNames) {
        return number(value);
    }
    let again = |e: &Expr| Box::new(folded(e));
    unplaced(match &e.kind {
        ExprKind::Unary(operator, inner) => ExprKind::Unary(*operator, again(inner)),
        ExprKind::Binary(operator, left, right) => ExprKind::Binary(*operator, again(left), again(right)),
        ExprKind::Conditional(test, yes, no) => ExprKind::Conditional(again(test), again(yes), again(no)),
        ExprKind::Call(function, arguments) => ExprKind::Call(*function, arguments.iter().map(folded).collect()),
        _ => return e.clone(),
    })
}

/// The value of an expression of the profile; `None` if it has none.
pub(super) fn value(e: &Expr, known: &dyn Known) -> Option<u64> {
    match &e.kind {
        ExprKind::Number(value) => Some(*value),
        ExprKind::Dot => known.dot(),
        ExprKind::Symbol(name) => known.symbol(name),
        ExprKind::Unary(operator, inner) => {
            let inner = value(inner, known)?;
            match operator {
                UnaryOperator::Minus => Some(inner.wrapping_neg()),
                UnaryOperator::Complement => Some(!inner),
                UnaryOperator::Not => Some(u64::from(inner == 0)),
                UnaryOperator::Plus => None,
            }
        }
        ExprKind::Binary(BinaryOperator::LogicalAnd, left, right) => match value(left, known)? {
            0 => Some(0),
            _ => Some(u64::from(value(right, known)? != 0)),
        },
        ExprKind::Binary(BinaryOperator::LogicalOr, left, right) => match value(left, known)? {
            0 => Some(u64::from(value(right, known)? != 0)),
            _ => Some(1),
        },
        ExprKind::Binary(operator, left, right) => operate(*operator, value(left, known)?, value(right, known)?),
        ExprKind::Conditional(test, yes, no) => value(if value(test, known)? != 0 { yes } else { no }, known),
        ExprKind::Call(Function::Align, arguments) => match arguments.as_slice() {
            [align] => aligned(known.dot()?, value(align, known)?),
            [at, align] => aligned(value(at, known)?, value(align, known)?),
            _ => None,
        },
        ExprKind::Query(query @ (Query::Addr | Query::Loadaddr | Query::Sizeof), name) => known.section(*query, name),
        ExprKind::Query(query @ (Query::Origin | Query::Length), name) => known.region(*query, name),
        ExprKind::Call(..)
        | ExprKind::Query(..)
        | ExprKind::SegmentStart(..)
        | ExprKind::SizeofHeaders
        | ExprKind::Assert(..) => None,
    }
}

/// The lowest multiple of a power of two at or above a place.
fn aligned(at: u64, align: u64) -> Option<u64> {
    align.is_power_of_two().then(|| at.wrapping_add(at.wrapping_neg() & (align - 1)))
}

fn operate(operator: BinaryOperator, left: u64, right: u64) -> Option<u64> {
    let shift = |by: u64| u32::try_from(by).ok().filter(|by| *by < 64);
    Some(match operator {
        BinaryOperator::Multiply => left.wrapping_mul(right),
        BinaryOperator::Divide => left.checked_div(right)?,
        BinaryOperator::Remainder => left.checked_rem(right)?,
        BinaryOperator::Add => left.wrapping_add(right),
        BinaryOperator::Subtract => left.wrapping_sub(right),
        BinaryOperator::ShiftLeft => shift(right).map_or(0, |by| left << by),
        BinaryOperator::ShiftRight => shift(right).map_or(0, |by| left >> by),
        BinaryOperator::Less => u64::from(left < right),
        BinaryOperator::LessOrEqual => u64::from(left <= right),
        BinaryOperator::Greater => u64::from(left > right),
        BinaryOperator::GreaterOrEqual => u64::from(left >= right),
        BinaryOperator::Equal => u64::from(left == right),
        BinaryOperator::NotEqual => u64::from(left != right),
        BinaryOperator::And => left & right,
        BinaryOperator::Or => left | right,
        BinaryOperator::Xor | BinaryOperator::LogicalAnd | BinaryOperator::LogicalOr => return None,
    })
}

/// Levels by how loosely an expression binds: a primary, then the operators, the tightest first.
const CONDITIONAL: u8 = 11;

/// How loosely an operator binds, from 1 for `*` to 10 for `||`.
fn looseness(operator: BinaryOperator) -> u8 {
    CONDITIONAL - operator.level()
}

/// The text of an expression of the profile, with parentheses if it needs them. Numbers keep their spelling if
/// the profile has it.
pub(super) fn write(e: &Expr, text: &[u8]) -> String {
    let mut result = String::new();
    put(e, text, CONDITIONAL, &mut result);
    result
}

fn put(e: &Expr, text: &[u8], most: u8, to: &mut String) {
    let own = match &e.kind {
        ExprKind::Binary(operator, ..) => looseness(*operator),
        ExprKind::Conditional(..) => CONDITIONAL,
        _ => 0,
    };
    if own > most {
        to.push('(');
    }
    match &e.kind {
        ExprKind::Number(value) => to.push_str(&spelled(*value, e.span, text)),
        ExprKind::Dot => to.push('.'),
        ExprKind::Symbol(name) => to.push_str(&name.to_str_lossy()),
        ExprKind::Unary(operator, inner) => {
            to.push(match operator {
                UnaryOperator::Plus => '+',
                UnaryOperator::Minus => '-',
                UnaryOperator::Complement => '~',
                UnaryOperator::Not => '!',
            });
            put(inner, text, 0, to);
        }
        ExprKind::Binary(operator, left, right) => {
            put(left, text, own, to);
            to.push(' ');
            to.push_str(operator.mark());
            to.push(' ');
            put(right, text, own - 1, to);
        }
        ExprKind::Conditional(test, yes, no) => {
            put(test, text, CONDITIONAL - 1, to);
            to.push_str(" ? ");
            put(yes, text, CONDITIONAL, to);
            to.push_str(" : ");
            put(no, text, CONDITIONAL, to);
        }
        ExprKind::Call(_, arguments) => {
            to.push_str("ALIGN(");
            for (index, argument) in arguments.iter().enumerate() {
                to.push_str(if index > 0 { ", " } else { "" });
                put(argument, text, CONDITIONAL, to);
            }
            to.push(')');
        }
        ExprKind::Query(query, name) => {
            to.push_str(query.keyword());
            to.push('(');
            to.push_str(&name.to_str_lossy());
            to.push(')');
        }
        ExprKind::SizeofHeaders => to.push_str("SIZEOF_HEADERS"),
        ExprKind::SegmentStart(_, inner) | ExprKind::Assert(inner, _) => put(inner, text, most, to),
    }
    if own > most {
        to.push(')');
    }
}

/// A number as the profile spells it: as it stands in the text if that is a NUMBER, else in decimal if short.
fn spelled(value: u64, span: Span, text: &[u8]) -> String {
    let own = text.get(span.start as usize..span.end as usize).unwrap_or_default();
    let own = own.trim_with(|c| c == '(' || c == ')' || c.is_whitespace());
    if number_of(own) == Some(value) {
        return own.to_str_lossy().into_owned();
    }
    number_text(value)
}

/// A number: decimal if that is short, else hexadecimal.
pub(super) fn number_text(value: u64) -> String {
    if value < 4096 {
        value.to_string()
    } else {
        format!("{value:#x}")
    }
}

/// The value of a NUMBER of the profile; `None` if a text is none.
pub(super) fn number_of(text: &[u8]) -> Option<u64> {
    let (digits, factor) = match text {
        [digits @ .., b'K'] => (digits, 1 << 10),
        [digits @ .., b'M'] => (digits, 1 << 20),
        digits => (digits, 1),
    };
    let (digits, base) = match digits {
        [b'0', b'x' | b'X', digits @ ..] => (digits, 16),
        [b'0', _, ..] => (digits, 8),
        digits => (digits, 10),
    };
    let digits = digits.to_str().ok().filter(|digits| digits.bytes().all(|byte| byte.is_ascii_alphanumeric()))?;
    u64::from_str_radix(digits, base).ok()?.checked_mul(factor)
}

/// The tokens of a text of expressions in the profile's spelling, without parentheses and comments; `None` if it has
/// bytes that begin none.
fn tokens(text: &[u8]) -> Option<Vec<&[u8]>> {
    let mut found = Vec::new();
    let mut at = 0;
    while let Some(byte) = text.get(at).copied() {
        let rest = text.get(at..).unwrap_or_default();
        let length = match byte {
            b' ' | b'\t' | b'\n' | b'\r' | b'(' | b')' => {
                at += 1;
                continue;
            }
            b'/' if rest.starts_with(b"/*") => {
                at += memchr::memmem::find(rest.get(2..)?, b"*/")? + 4;
                continue;
            }
            byte if byte.is_ascii_digit() => rest.iter().take_while(|byte| byte.is_ascii_alphanumeric()).count(),
            b'.' if rest.starts_with(b".-") => 1,
            byte if begins_name(byte) => rest.iter().take_while(|byte| is_in_name(**byte)).count(),
            b'"' | b'#' => return None,
            _ => operator_length(rest)?,
        };
        found.push(rest.get(..length)?);
        at += length;
    }
    Some(found)
}

fn operator_length(rest: &[u8]) -> Option<usize> {
    const TWO: [&[u8]; 8] = [b"<<", b">>", b"<=", b">=", b"==", b"!=", b"&&", b"||"];
    if TWO.iter().any(|sign| rest.starts_with(sign)) {
        return Some(2);
    }
    matches!(
        rest.first()?,
        b'!' | b'-' | b'~' | b'*' | b'/' | b'%' | b'+' | b'<' | b'>' | b'&' | b'|' | b'?' | b':' | b','
    )
    .then_some(1)
}

/// Whether a text of the script says an expression of the profile as it stands.
pub(super) fn says(own: &[u8], e: &Expr, text: &[u8]) -> bool {
    let new = write(e, text);
    let open = own.iter().filter(|byte| **byte == b'(').count();
    let signs = |tokens: &[&[u8]]| tokens.iter().filter(|token| is_sign(token)).count();
    let own = tokens(own).filter(|tokens| open + signs(tokens) <= MAX_OWN_SIGNS);
    own.is_some() && own == tokens(new.as_bytes())
}

fn is_sign(token: &[u8]) -> bool {
    token.first().map_or(false, |byte| !byte.is_ascii_alphanumeric() && !begins_name(*byte)) && token != b":"
}

/// Whether a written expression has few enough signs for the profile.
pub(super) fn is_short(written: &str) -> bool {
    let signs =
        tokens(written.as_bytes()).map_or(usize::MAX, |tokens| tokens.iter().filter(|one| is_sign(one)).count());
    signs.saturating_add(written.matches('(').count()) <= MAX_OWN_SIGNS
}

#[cfg(test)]
mod tests {
    use super::*;

    struct Nothing;

    impl Known for Nothing {
        fn dot(&self) -> Option<u64> {
            Some(0x1001)
        }
        fn symbol(&self, name: &Name) -> Option<u64> {
            (name == "a").then_some(5)
        }
        fn section(&self, _: Query, _: &Name) -> Option<u64> {
            None
        }
        fn region(&self, _: Query, _: &Name) -> Option<u64> {
            None
        }
    }

    fn symbol(name: &str) -> Expr {
        unplaced(ExprKind::Symbol(name.into()))
    }

    fn op(operator: BinaryOperator, left: Expr, right: Expr) -> Expr {
        unplaced(ExprKind::Binary(operator, Box::new(left), Box::new(right)))
    }

    #[test]
    fn numbers_of_the_profile() {
        for (text, expected) in [
            ("0x10", Some(16)),
            ("017", Some(15)),
            ("4K", Some(4096)),
            ("2M", Some(2 << 20)),
            ("0", Some(0)),
            ("08", None),
            ("0x", None),
            ("4k", None),
            ("10h", None),
            ("", None),
            ("18446744073709551615K", None),
        ] {
            assert_eq!(number_of(text.as_bytes()), expected, "{text}");
        }
    }

    #[test]
    fn values_are_those_of_the_profile() {
        let align = unplaced(ExprKind::Call(Function::Align, vec![number(16)]));
        assert_eq!(value(&align, &Nothing), Some(0x1010));
        assert_eq!(value(&op(BinaryOperator::ShiftLeft, number(1), number(64)), &Nothing), Some(0));
        assert_eq!(value(&op(BinaryOperator::Divide, number(1), number(0)), &Nothing), None);
        let either = op(BinaryOperator::LogicalOr, number(3), symbol("none"));
        assert_eq!(value(&either, &Nothing), Some(1));
        assert_eq!(value(&op(BinaryOperator::Subtract, symbol("a"), number(6)), &Nothing), Some(u64::MAX));
    }

    #[test]
    fn parentheses_stand_where_they_are_needed() {
        let sum = op(BinaryOperator::Add, symbol("a"), symbol("b"));
        assert_eq!(write(&op(BinaryOperator::Multiply, sum.clone(), number(2)), b""), "(a + b) * 2");
        assert_eq!(write(&op(BinaryOperator::Subtract, symbol("c"), sum.clone()), b""), "c - (a + b)");
        assert_eq!(write(&op(BinaryOperator::Add, sum.clone(), symbol("c")), b""), "a + b + c");
        let test = unplaced(ExprKind::Conditional(Box::new(sum), Box::new(number(1)), Box::new(number(5000))));
        assert_eq!(write(&test, b""), "a + b ? 1 : 0x1388");
        assert_eq!(write(&op(BinaryOperator::Add, test, number(1)), b""), "(a + b ? 1 : 0x1388) + 1");
    }

    /// docs/limits.md, 'Scripts': Xen has an ASSERT of more signs than a run may have.
    #[test]
    fn what_names_nothing_is_a_number() {
        let base =
            op(BinaryOperator::Multiply, op(BinaryOperator::ShiftRight, number(261), number(8)), number(0x1_0000));
        let e = op(BinaryOperator::Add, op(BinaryOperator::Subtract, base.clone(), symbol("a")), base);
        assert_eq!(write(&folded(&e), b""), "0x10000 - a + 0x10000");
    }

    /// docs/limits.md, 'Scripts': coreboot has a sum of more operators and parentheses than a run may have.
    #[test]
    fn a_text_of_many_parentheses_is_written_anew() {
        let sum = |count: u64| (1..count).fold(number(0), |sum, part| op(BinaryOperator::Add, sum, number(part)));
        let text = |count: u64| (1..count).fold("(0)".to_owned(), |sum, part| format!("{sum} + ({part})"));
        assert!(says(text(20).as_bytes(), &sum(20), b""));
        assert!(!says(text(30).as_bytes(), &sum(30), b""));
    }

    #[test]
    fn a_text_says_what_it_says() {
        let sum = op(BinaryOperator::Subtract, symbol("a"), symbol("b"));
        assert!(says(b"(a - /* */ b)", &sum, b""));
        assert!(!says(b"a-b", &sum, b""));
        assert!(!says(b"\"a\" - b", &sum, b""));
    }

    #[test]
    fn sums_are_short() {
        assert_eq!(binary(BinaryOperator::Add, symbol("a"), number(0)), symbol("a"));
        assert_eq!(difference(op(BinaryOperator::Add, symbol("a"), symbol("n")), symbol("a")), symbol("n"));
        assert_eq!(difference(symbol("a"), symbol("a")), number(0));
    }
}
