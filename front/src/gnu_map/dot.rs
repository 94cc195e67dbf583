//! Values of statements at the top of a script, which GNU ld evaluates again while it prints a map: `.` is then the end
//! of the last section that is printed, even if that one is empty and not in the image (ld/ldlang.c, `print_dot`).

use super::Request;
use crate::script::tree::{BinaryOperator, Expr, ExprKind, Function, Query, UnaryOperator};

/// The value of an expression with `.`; `None` if it has no `.`, or something that is not found so.
pub(super) fn value_of(request: &Request<'_>, expr: &Expr, dot: u64) -> Option<u64> {
    if has_dot(expr) {
        fold(request, expr, dot)
    } else {
        None
    }
}

fn has_dot(expr: &Expr) -> bool {
    match &expr.kind {
        ExprKind::Dot => true,
        ExprKind::Unary(_, operand) | ExprKind::SegmentStart(_, operand) | ExprKind::Assert(operand, _) => {
            has_dot(operand)
        }
        ExprKind::Binary(_, left, right) => has_dot(left) || has_dot(right),
        ExprKind::Conditional(test, then, otherwise) => has_dot(test) || has_dot(then) || has_dot(otherwise),
        ExprKind::Call(function, arguments) => {
            matches!(function, Function::Align | Function::Block) && arguments.len() == 1
                || arguments.iter().any(has_dot)
        }
        ExprKind::Number(_) | ExprKind::Symbol(_) | ExprKind::Query(..) | ExprKind::SizeofHeaders => false,
    }
}

fn fold(request: &Request<'_>, expr: &Expr, dot: u64) -> Option<u64> {
    let of = |expr: &Expr| fold(request, expr, dot);
    match &expr.kind {
        ExprKind::Number(value) => Some(*value),
        ExprKind::Dot => Some(dot),
        ExprKind::Symbol(name) => Some(request.evaluation.symbol(name)?.value?.address),
        ExprKind::Unary(operator, operand) => {
            let value = of(operand)?;
            Some(match operator {
                UnaryOperator::Plus => value,
                UnaryOperator::Minus => value.wrapping_neg(),
                UnaryOperator::Complement => !value,
                UnaryOperator::Not => u64::from(value == 0),
            })
        }
        ExprKind::Binary(operator, left, right) => {
            let (left, right) = (of(left)?, of(right)?);
            match operator {
                BinaryOperator::Add => Some(left.wrapping_add(right)),
                BinaryOperator::Subtract => Some(left.wrapping_sub(right)),
                BinaryOperator::And => Some(left & right),
                BinaryOperator::Or => Some(left | right),
                BinaryOperator::Multiply => Some(left.wrapping_mul(right)),
                BinaryOperator::Divide => left.checked_div(right),
                _ => None,
            }
        }
        ExprKind::Conditional(test, then, otherwise) => match of(test)? {
            0 => of(otherwise),
            _ => of(then),
        },
        ExprKind::Call(function, arguments) => call(*function, arguments, dot, &of),
        ExprKind::Query(Query::Constant, name) => {
            let page = request.command.page_size.unwrap_or(0x1000);
            match &name[..] {
                b"MAXPAGESIZE" => Some(page),
                b"COMMONPAGESIZE" => Some(request.command.common_page_size.unwrap_or(0x1000).min(page)),
                _ => None,
            }
        }
        _ => None,
    }
}

fn call(function: Function, arguments: &[Expr], dot: u64, of: &dyn Fn(&Expr) -> Option<u64>) -> Option<u64> {
    let aligned = |value: u64, align: u64| match align {
        0 | 1 => Some(value),
        _ => Some(value.checked_add(align - 1)? / align * align),
    };
    match (function, arguments) {
        (Function::Align | Function::Block, [align]) => aligned(dot, of(align)?),
        (Function::Align, [value, align]) => aligned(of(value)?, of(align)?),
        (Function::Absolute | Function::DataSegmentEnd, [value]) => of(value),
        (Function::Max, [one, other]) => Some(of(one)?.max(of(other)?)),
        (Function::Min, [one, other]) => Some(of(one)?.min(of(other)?)),
        _ => None,
    }
}
