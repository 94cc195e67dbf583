//! Expressions as GNU ld prints them in a map (ld/ldexp.c, `exp_print_tree`).

use bstr::ByteSlice;

use crate::script::tree::{
    AssignOperator, Assignment, BinaryOperator, Expr, ExprKind, Function, Provision, UnaryOperator,
};

/// An expression. What is made of numbers alone is one number, as the parser of GNU ld makes it (`exp_binop`).
pub(super) fn text_of(expr: &Expr) -> String {
    if let Some(value) = number_of(expr) {
        return format!("{value:#x}");
    }
    match &expr.kind {
        ExprKind::Number(value) => format!("{value:#x}"),
        ExprKind::Dot => ".".to_owned(),
        ExprKind::Symbol(name) => name.to_string(),
        ExprKind::Unary(UnaryOperator::Plus, operand) => text_of(operand),
        ExprKind::Unary(operator, operand) => format!("{} ({})", mark_of(*operator), text_of(operand)),
        ExprKind::Binary(operator, left, right) => {
            format!("({} {} {})", text_of(left), operator.mark(), text_of(right))
        }
        ExprKind::Conditional(test, then, otherwise) => {
            format!("{}?{}:{}", text_of(test), text_of(then), text_of(otherwise))
        }
        ExprKind::Call(function, arguments) => {
            let mut arguments: Vec<String> = arguments.iter().map(text_of).collect();
            if *function == Function::DataSegmentRelroEnd {
                arguments.reverse(); // ldgram.y: "Operands swapped!"
            }
            format!("{} ({})", name_of(*function), arguments.join(", "))
        }
        ExprKind::Query(query, name) => format!("{} ({})", query.keyword(), name),
        ExprKind::SegmentStart(name, default) => format!("SEGMENT_START (\"{}\", {})", name, text_of(default)),
        ExprKind::SizeofHeaders => "SIZEOF_HEADERS".to_owned(),
        ExprKind::Assert(condition, message) => assertion(condition, message),
    }
}

/// `ASSERT (condition, message)`
pub(super) fn assertion(condition: &Expr, message: &[u8]) -> String {
    format!("ASSERT ({}, {})", text_of(condition), message.to_str_lossy())
}

/// An assignment.
pub(super) fn assignment(node: &Assignment) -> String {
    let target = &node.target.node;
    let value = match node.operator {
        AssignOperator::Set => text_of(&node.value),
        AssignOperator::Update(operator) => format!("({} {} {})", target, operator.mark(), text_of(&node.value)),
    };
    match node.provision {
        Provision::Plain | Provision::Hidden => format!("{target} = {value}"),
        Provision::Provide | Provision::ProvideHidden => format!("PROVIDE ({target} = {value})"),
    }
}

/// The value of an expression of numbers alone.
pub(super) fn number_of(expr: &Expr) -> Option<u64> {
    match &expr.kind {
        ExprKind::Number(value) => Some(*value),
        ExprKind::Unary(operator, operand) => {
            let value = number_of(operand)?;
            Some(match operator {
                UnaryOperator::Plus => value,
                UnaryOperator::Minus => value.wrapping_neg(),
                UnaryOperator::Complement => !value,
                UnaryOperator::Not => u64::from(value == 0),
            })
        }
        ExprKind::Binary(operator, left, right) => binary(*operator, number_of(left)?, number_of(right)?),
        ExprKind::Conditional(test, then, otherwise) => match number_of(test)? {
            0 => number_of(otherwise),
            _ => number_of(then),
        },
        ExprKind::Call(Function::Max, arguments) => pair(arguments).map(|(one, other)| one.max(other)),
        ExprKind::Call(Function::Min, arguments) => pair(arguments).map(|(one, other)| one.min(other)),
        _ => None,
    }
}

fn pair(arguments: &[Expr]) -> Option<(u64, u64)> {
    match arguments {
        [one, other] => Some((number_of(one)?, number_of(other)?)),
        _ => None,
    }
}

fn binary(operator: BinaryOperator, left: u64, right: u64) -> Option<u64> {
    let shift = |by: u64| u32::try_from(by).ok().filter(|by| *by < 64);
    Some(match operator {
        BinaryOperator::Multiply => left.wrapping_mul(right),
        BinaryOperator::Divide => (left as i64).checked_div(right as i64)? as u64,
        BinaryOperator::Remainder => (left as i64).checked_rem(right as i64)? as u64,
        BinaryOperator::Add => left.wrapping_add(right),
        BinaryOperator::Subtract => left.wrapping_sub(right),
        BinaryOperator::ShiftLeft => left << shift(right)?,
        BinaryOperator::ShiftRight => left >> shift(right)?,
        BinaryOperator::Less => u64::from(left < right),
        BinaryOperator::LessOrEqual => u64::from(left <= right),
        BinaryOperator::Greater => u64::from(left > right),
        BinaryOperator::GreaterOrEqual => u64::from(left >= right),
        BinaryOperator::Equal => u64::from(left == right),
        BinaryOperator::NotEqual => u64::from(left != right),
        BinaryOperator::And => left & right,
        BinaryOperator::Xor => left ^ right,
        BinaryOperator::Or => left | right,
        BinaryOperator::LogicalAnd => u64::from(left != 0 && right != 0),
        BinaryOperator::LogicalOr => u64::from(left != 0 || right != 0),
    })
}

fn mark_of(operator: UnaryOperator) -> &'static str {
    match operator {
        UnaryOperator::Plus => "+",
        UnaryOperator::Minus => "-",
        UnaryOperator::Complement => "~",
        UnaryOperator::Not => "!",
    }
}

fn name_of(function: Function) -> &'static str {
    match function {
        Function::Absolute => "ABSOLUTE",
        Function::Align | Function::Block => "ALIGN",
        Function::DataSegmentAlign => "DATA_SEGMENT_ALIGN",
        Function::DataSegmentEnd => "DATA_SEGMENT_END",
        Function::DataSegmentRelroEnd => "DATA_SEGMENT_RELRO_END",
        Function::Log2Ceil => "LOG2CEIL",
        Function::Max => "MAX",
        Function::Min => "MIN",
        Function::Next => "NEXT",
    }
}

#[cfg(test)]
mod tests {
    use super::*;
    use crate::script::parse;
    use crate::script::tree::Statement;
    use std::path::Path;

    fn printed(text: &str) -> String {
        let reading = parse(Path::new("t.ld"), text.as_bytes()).unwrap();
        match &reading.script.statements[0].node {
            Statement::Assign(node) => assignment(node),
            other => panic!("{:?}", other),
        }
    }

    /// ldexp.c, `exp_print_tree`.
    #[test]
    fn expressions() {
        for (written, expected) in [
            ("a = 0x10 + 4;", "a = 0x14"),
            ("a += 4;", "a = (a + 0x4)"),
            ("a = -b + 1 << 2;", "a = ((- (b) + 0x1) << 0x2)"),
            ("a = b ? 1 : -2;", "a = b?0x1:0xfffffffffffffffe"),
            ("PROVIDE(a = ALIGN(16));", "PROVIDE (a = ALIGN (0x10))"),
            ("HIDDEN(a = MAX(SIZEOF(.text), 3));", "a = MAX (SIZEOF (.text), 0x3)"),
            ("a = ALIGN(CONSTANT(MAXPAGESIZE));", "a = ALIGN (CONSTANT (MAXPAGESIZE))"),
            (
                "a = SEGMENT_START(\"text-segment\", 0x400000) + SIZEOF_HEADERS;",
                "a = (SEGMENT_START (\"text-segment\", 0x400000) + SIZEOF_HEADERS)",
            ),
        ] {
            assert_eq!(printed(written), expected);
        }
    }
}
