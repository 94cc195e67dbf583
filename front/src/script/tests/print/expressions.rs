//! Expressions as text.

use super::Printer;
use crate::script::lexer::State::{Expression, Script};
use crate::script::tree::{Expr, ExprKind, Fill, Function, Name, Query, UnaryOperator};

/// The level of a unary operator; those of binary operators are below.
const UNARY: u8 = 11;

impl Printer {
    pub(super) fn expr(&mut self, expr: &Expr) {
        self.expr_at(expr, 0, Numbers::Short);
    }

    /// An expression after the name of an output section: its first token is read in the state of names.
    pub(super) fn address(&mut self, expr: &Expr) {
        match expr.kind {
            ExprKind::Number(_) | ExprKind::Call(..) | ExprKind::Query(..) | ExprKind::Dot => self.expr(expr),
            _ => {
                self.put("(");
                self.expr(expr);
                self.put(")");
            }
        }
    }

    pub(super) fn fill(&mut self, fill: &Fill) {
        self.expr_at(&fill.value, 0, fill.literal.as_deref().map_or(Numbers::Decimal, Numbers::Literal));
    }

    /// An expression where operators of a level or tighter ones can stand.
    fn expr_at(&mut self, expr: &Expr, level: u8, numbers: Numbers<'_>) {
        let own = level_of(expr);
        if own < level {
            self.put("(");
        }
        self.kind(&expr.kind, own, numbers);
        if own < level {
            self.put(")");
        }
    }

    fn kind(&mut self, kind: &ExprKind, own: u8, numbers: Numbers<'_>) {
        match kind {
            ExprKind::Number(value) => self.number(*value, numbers),
            ExprKind::Dot => self.put("."),
            ExprKind::Symbol(name) => self.name(Expression, name),
            ExprKind::Unary(operator, operand) => {
                self.put(match operator {
                    UnaryOperator::Plus => "+",
                    UnaryOperator::Minus => "-",
                    UnaryOperator::Complement => "~",
                    UnaryOperator::Not => "!",
                });
                let is_plus = *operator == UnaryOperator::Plus;
                self.expr_at(operand, UNARY, if is_plus { numbers } else { Numbers::Short });
            }
            ExprKind::Binary(operator, left, right) => {
                self.expr_at(left, own, Numbers::Short);
                self.put(" ");
                self.put(operator.mark());
                self.put(" ");
                self.expr_at(right, own + 1, Numbers::Short);
            }
            ExprKind::Conditional(test, then, otherwise) => {
                self.expr_at(test, 1, Numbers::Short);
                self.put(" ? ");
                self.expr(then);
                self.put(" : ");
                self.expr(otherwise);
            }
            ExprKind::Call(function, arguments) => self.call(*function, arguments),
            ExprKind::Query(query, name) => self.query(*query, name),
            ExprKind::SegmentStart(name, default) => {
                self.put("SEGMENT_START(");
                self.quoted(name);
                self.put(", ");
                self.expr(default);
                self.put(")");
            }
            ExprKind::SizeofHeaders => self.put("SIZEOF_HEADERS"),
            ExprKind::Assert(condition, message) => self.assertion(condition, message),
        }
    }

    pub(super) fn assertion(&mut self, condition: &Expr, message: &Name) {
        self.put("ASSERT(");
        self.expr(condition);
        self.put(", ");
        self.quoted(message);
        self.put(")");
    }

    fn call(&mut self, function: Function, arguments: &[Expr]) {
        self.put(function_word(function));
        self.put("(");
        for (index, argument) in arguments.iter().enumerate() {
            if index > 0 {
                self.put(", ");
            }
            self.expr(argument);
        }
        self.put(")");
    }

    fn query(&mut self, query: Query, name: &Name) {
        let (word, state) = match query {
            Query::Addr => ("ADDR", Script),
            Query::Alignof => ("ALIGNOF", Script),
            Query::Constant => ("CONSTANT", Expression),
            Query::Defined => ("DEFINED", Expression),
            Query::Length => ("LENGTH", Script),
            Query::Loadaddr => ("LOADADDR", Script),
            Query::Origin => ("ORIGIN", Script),
            Query::Sizeof => ("SIZEOF", Script),
        };
        self.command(word, state, std::slice::from_ref(name));
    }

    fn number(&mut self, value: u64, numbers: Numbers<'_>) {
        let text = match numbers {
            Numbers::Literal(bytes) => {
                let digits: String = bytes.iter().map(|byte| format!("{byte:02x}")).collect();
                format!("0x{digits}")
            }
            Numbers::Short if value >= 4096 => format!("{value:#x}"),
            Numbers::Short | Numbers::Decimal => value.to_string(),
        };
        self.put(&text);
    }
}

/// How numbers are spelled.
#[derive(Clone, Copy)]
enum Numbers<'a> {
    /// Long ones in hexadecimal.
    Short,
    /// In decimal: a fill of four bytes.
    Decimal,
    /// By these bytes: a fill of as many.
    Literal(&'a [u8]),
}

fn level_of(expr: &Expr) -> u8 {
    match &expr.kind {
        ExprKind::Conditional(..) => 0,
        ExprKind::Binary(operator, _, _) => operator.level(),
        ExprKind::Unary(..) => UNARY,
        _ => UNARY + 1,
    }
}

fn function_word(function: Function) -> &'static str {
    match function {
        Function::Absolute => "ABSOLUTE",
        Function::Align => "ALIGN",
        Function::Block => "BLOCK",
        Function::DataSegmentAlign => "DATA_SEGMENT_ALIGN",
        Function::DataSegmentEnd => "DATA_SEGMENT_END",
        Function::DataSegmentRelroEnd => "DATA_SEGMENT_RELRO_END",
        Function::Log2Ceil => "LOG2CEIL",
        Function::Max => "MAX",
        Function::Min => "MIN",
        Function::Next => "NEXT",
    }
}
