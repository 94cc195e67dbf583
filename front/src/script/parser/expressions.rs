//! Expressions.

use bstr::BString;

use super::{Parsed, Parser};
use crate::script::error::ErrorKind;
use crate::script::lexer::{Kind, State, Token};
use crate::script::tree::{
    BinaryOperator, Expr, ExprKind, Fill, Function, Name, Query, Span, UnaryOperator, MAX_EXPR_DEPTH,
};

use State::{Expression, Script};

/// An expression and how deep its tree is.
struct Deep {
    expr: Expr,
    depth: usize,
}

impl Parser<'_> {
    /// An expression, the longest there is.
    pub fn expression(&mut self) -> Parsed<Expr> {
        self.expression_from(Expression)
    }

    /// An expression whose first token is read in another state.
    pub(super) fn expression_from(&mut self, first: State) -> Parsed<Expr> {
        let left = self.unary(first)?;
        Ok(self.rest(left)?.expr)
    }

    /// An expression whose first token, an opening parenthesis, is taken.
    pub(super) fn expression_after(&mut self, opening: Token) -> Parsed<Expr> {
        let left = self.group(opening)?;
        Ok(self.rest(left)?.expr)
    }

    /// `( expression )`
    pub(super) fn in_parentheses(&mut self) -> Parsed<Expr> {
        self.demand(Expression, "(")?;
        let expr = self.expression()?;
        self.demand(Expression, ")")?;
        Ok(expr)
    }

    /// A fill after `=`, or within the parentheses of FILL.
    pub(super) fn fill_value(&mut self) -> Parsed<Fill> {
        let value = self.expression()?;
        let mut inner = &value;
        while let ExprKind::Unary(UnaryOperator::Plus, operand) = &inner.kind {
            inner = operand;
        }
        let literal = match inner.kind {
            ExprKind::Number(_) => literal_bytes(&self.last_number),
            _ => None,
        };
        Ok(Fill { value, literal })
    }

    /// Reads what follows the first operand of an expression.
    fn rest(&mut self, left: Deep) -> Parsed<Deep> {
        let test = self.binary(left, 1)?;
        if self.accept(Expression, "?")?.is_none() {
            return Ok(test);
        }
        self.nested(ErrorKind::ExpressionDepth, |parser| {
            let then = parser.deep()?;
            parser.demand(Expression, ":")?;
            let otherwise = parser.deep()?;
            let depth = test.depth.max(then.depth).max(otherwise.depth);
            let span = test.expr.span.to(otherwise.expr.span);
            let [test, then, otherwise] = [test, then, otherwise].map(|part| Box::new(part.expr));
            parser.node(ExprKind::Conditional(test, then, otherwise), span, depth)
        })
    }

    fn deep(&mut self) -> Parsed<Deep> {
        let left = self.unary(Expression)?;
        self.rest(left)
    }

    /// Operators of this level and tighter ones after an operand; those of a level go from left to right.
    fn binary(&mut self, mut left: Deep, level: u8) -> Parsed<Deep> {
        loop {
            let token = self.peek(Expression)?;
            let (operator, own) = match binary_operator(token) {
                Some((operator, own)) if own >= level => (operator, own),
                _ => return Ok(left),
            };
            self.take_token(Expression)?;
            let operand = self.unary(Expression)?;
            let right = self.binary(operand, own + 1)?;
            let (span, depth) = (left.expr.span.to(right.expr.span), left.depth.max(right.depth));
            let kind = ExprKind::Binary(operator, Box::new(left.expr), Box::new(right.expr));
            left = self.node(kind, span, depth)?;
        }
    }

    fn unary(&mut self, state: State) -> Parsed<Deep> {
        let token = self.peek(state)?;
        let operator = match token.kind {
            Kind::Mark("+") => UnaryOperator::Plus,
            Kind::Mark("-") => UnaryOperator::Minus,
            Kind::Mark("~") => UnaryOperator::Complement,
            Kind::Mark("!") => UnaryOperator::Not,
            _ => return self.primary(state),
        };
        self.take_token(state)?;
        let operand = self.nested(ErrorKind::ExpressionDepth, |parser| parser.unary(Expression))?;
        let span = token.span.to(operand.expr.span);
        self.node(ExprKind::Unary(operator, Box::new(operand.expr)), span, operand.depth)
    }

    fn primary(&mut self, state: State) -> Parsed<Deep> {
        let token = self.peek(state)?;
        let kind = match token.kind {
            Kind::Number(value) => {
                self.last_number = BString::from(self.lexer.text(token));
                ExprKind::Number(value)
            }
            Kind::Name | Kind::Quoted => symbol(self.lexer.name(token)),
            Kind::Word("SIZEOF_HEADERS") => ExprKind::SizeofHeaders,
            Kind::Mark("(") => {
                self.take_token(state)?;
                return self.group(token);
            }
            Kind::Word(word) => return self.call(token, word, state),
            Kind::Mark(_) | Kind::Library | Kind::End => return Err(self.unexpected(token, "an expression".to_owned())),
        };
        self.take_token(state)?;
        self.node(kind, token.span, 0)
    }

    /// Reads an expression between parentheses, of which the first is taken.
    fn group(&mut self, opening: Token) -> Parsed<Deep> {
        let mut inner = self.nested(ErrorKind::ExpressionDepth, Self::deep)?;
        let closing = self.demand(Expression, ")")?;
        inner.expr.span = opening.span.to(closing.span);
        Ok(inner)
    }

    /// Reads a function and its arguments.
    fn call(&mut self, token: Token, word: &'static str, state: State) -> Parsed<Deep> {
        let is_known = query(word).is_some() || function(word).is_some() || matches!(word, "SEGMENT_START" | "ASSERT");
        if !is_known {
            return Err(self.unexpected(token, "an expression".to_owned()));
        }
        self.take_token(state)?;
        let (kind, depth) = self.nested(ErrorKind::ExpressionDepth, |parser| parser.arguments(word))?;
        let span = self.since(token.span);
        self.node(kind, span, depth)
    }

    /// Reads what follows the name of a function; gives also how deep the arguments are.
    fn arguments(&mut self, word: &str) -> Parsed<(ExprKind, usize)> {
        if let Some((query, state)) = query(word) {
            let name = self.name_in_parentheses(state, "a name")?;
            return Ok((ExprKind::Query(query, name), 0));
        }
        match word {
            "SEGMENT_START" => self.segment_start(),
            "ASSERT" => {
                self.demand(Expression, "(")?;
                let condition = self.deep()?;
                let message = self.assert_message()?;
                Ok((ExprKind::Assert(Box::new(condition.expr), message), condition.depth))
            }
            _ => self.function(word),
        }
    }

    /// `, message )` of ASSERT.
    pub(super) fn assert_message(&mut self) -> Parsed<Name> {
        self.demand(Expression, ",")?;
        let message = self.name(Expression, "a message")?;
        self.demand(Expression, ")")?;
        Ok(message.node)
    }

    fn segment_start(&mut self) -> Parsed<(ExprKind, usize)> {
        self.demand(Script, "(")?;
        let name = self.name(Script, "the name of a segment")?.node;
        self.demand(Expression, ",")?;
        let default = self.deep()?;
        self.demand(Expression, ")")?;
        Ok((ExprKind::SegmentStart(name, Box::new(default.expr)), default.depth))
    }

    fn function(&mut self, word: &str) -> Parsed<(ExprKind, usize)> {
        let (function, least, most) = match function(word) {
            Some(found) => found,
            None => return Err(self.lexer.error_here(ErrorKind::NoStatement(word.to_owned()))),
        };
        self.demand(Expression, "(")?;
        let mut depth = 0;
        let mut arguments: Vec<Expr> = Vec::new();
        loop {
            let argument = self.deep()?;
            depth = depth.max(argument.depth);
            arguments.push(argument.expr);
            let is_more = arguments.len() < least || arguments.len() < most && self.peek(Expression)?.is(",");
            if !is_more {
                break;
            }
            self.demand(Expression, ",")?;
        }
        self.demand(Expression, ")")?;
        Ok((ExprKind::Call(function, arguments), depth))
    }

    /// A node over operands of a depth.
    fn node(&self, kind: ExprKind, span: Span, operands: usize) -> Parsed<Deep> {
        if operands >= MAX_EXPR_DEPTH {
            return Err(self.lexer.error_here(ErrorKind::ExpressionDepth));
        }
        Ok(Deep { expr: Expr::new(kind, span), depth: operands + 1 })
    }
}

fn symbol(name: Name) -> ExprKind {
    if name == "." {
        ExprKind::Dot
    } else {
        ExprKind::Symbol(name)
    }
}

/// A function of a name, and the state in which its parentheses are read.
fn query(word: &str) -> Option<(Query, State)> {
    Some(match word {
        "ADDR" => (Query::Addr, Script),
        "ALIGNOF" => (Query::Alignof, Script),
        "CONSTANT" => (Query::Constant, Expression),
        "DEFINED" => (Query::Defined, Expression),
        "LENGTH" => (Query::Length, Script),
        "LOADADDR" => (Query::Loadaddr, Script),
        "ORIGIN" => (Query::Origin, Script),
        "SIZEOF" => (Query::Sizeof, Script),
        _ => return None,
    })
}

/// A function of expressions, and how many it takes, at least and at most.
fn function(word: &str) -> Option<(Function, usize, usize)> {
    Some(match word {
        "ABSOLUTE" => (Function::Absolute, 1, 1),
        "ALIGN" => (Function::Align, 1, 2),
        "BLOCK" => (Function::Block, 1, 1),
        "DATA_SEGMENT_ALIGN" => (Function::DataSegmentAlign, 2, 2),
        "DATA_SEGMENT_END" => (Function::DataSegmentEnd, 1, 1),
        "DATA_SEGMENT_RELRO_END" => (Function::DataSegmentRelroEnd, 2, 2),
        "LOG2CEIL" => (Function::Log2Ceil, 1, 1),
        "MAX" => (Function::Max, 2, 2),
        "MIN" => (Function::Min, 2, 2),
        "NEXT" => (Function::Next, 1, 1),
        _ => return None,
    })
}

/// A binary operator and its level; a higher one is tighter.
fn binary_operator(token: Token) -> Option<(BinaryOperator, u8)> {
    match token.kind {
        Kind::Mark(mark) => BinaryOperator::from_mark(mark).map(|operator| (operator, operator.level())),
        _ => None,
    }
}

/// The bytes that a number `0x..` without a suffix spells, from the right: each two digits are one.
fn literal_bytes(text: &[u8]) -> Option<Vec<u8>> {
    let digits = text.strip_prefix(b"0x").or_else(|| text.strip_prefix(b"0X"))?;
    let values: Option<Vec<u8>> = digits.iter().map(|digit| hex_value(*digit)).collect();
    let values = values.filter(|values| !values.is_empty())?;
    let bytes = values.rchunks(2).rev();
    Some(bytes.map(|pair| pair.iter().fold(0, |byte, digit| byte << 4 | digit)).collect())
}

fn hex_value(digit: u8) -> Option<u8> {
    char::from(digit).to_digit(16).and_then(|value| u8::try_from(value).ok())
}
