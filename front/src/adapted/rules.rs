//! The local rules: an expression of GNU ld's language in an equal form of the profile.
//!
//! A rule does not say whether the form has the same value in its place; its caller compares the values.

use bstr::BString;

use super::expression::{binary, number, number_text, unplaced, value, NoNames};
use crate::script::tree::{BinaryOperator, Expr, ExprKind, Function, Name, Query, UnaryOperator};

/// The file header and three program headers.
const USUAL_HEADERS: u64 = 64 + 3 * 56;
/// MAXPAGESIZE and COMMONPAGESIZE, if the command line says nothing.
const DEFAULT_PAGE: u64 = 0x1000;

/// What the rules ask of the place where an expression stands.
pub(super) trait Around {
    /// What the profile calls a symbol that is meant here; `None` for one that it cannot name here.
    fn symbol(&self, name: &Name) -> Option<Name>;
    /// What the profile calls an output section that is complete here; `None` for one that it cannot name here.
    fn section(&self, name: &Name) -> Option<Name>;
    /// The region's own name, for an alias.
    fn region(&self, name: &Name) -> Name;
    /// The value that GNU ld has for an expression; `None` if that is not known.
    fn value(&self, e: &Expr) -> Option<u64>;
    /// Whether nothing is known of the objects.
    fn is_without_objects(&self) -> bool;
    /// Whether nothing is known of the objects, and the script only PROVIDEs a symbol.
    fn is_provided(&self, name: &Name) -> bool;
    /// The value of CONSTANT.
    fn constant(&self, e: &Expr, name: &Name) -> Option<u64> {
        let page = || matches!(name.as_slice(), b"MAXPAGESIZE" | b"COMMONPAGESIZE").then_some(DEFAULT_PAGE);
        self.value(e).or_else(|| page().filter(|_| self.is_without_objects()))
    }
    /// Whether the script says how many program headers there are.
    fn has_program_headers(&self) -> bool;
}

/// An expression of the profile, with why it was changed.
#[derive(Clone, Debug, Default)]
pub(super) struct Reasons {
    /// What is said of the change, each once.
    pub(super) said: Vec<String>,
    /// The symbols of objects whose values are written as numbers.
    pub(super) foreign: Vec<(Name, u64)>,
    /// Whether a value that the layout decides is written as a number.
    pub(super) is_numeric: bool,
    /// Why there is no form at all: names that have no value here.
    pub(super) missing: Vec<Name>,
    /// What has another meaning now, as far as it is known.
    pub(super) changed: Vec<String>,
    /// Whether the value depends on objects that are not known.
    pub(super) depends: bool,
    /// The ASSERTs in it: their conditions and messages.
    pub(super) assertions: Vec<(Expr, Name)>,
}

impl Reasons {
    pub(super) fn say(&mut self, text: impl Into<String>) {
        let text = text.into();
        if !self.said.contains(&text) {
            self.said.push(text);
        }
    }

    /// Whether no form was found, so that the statement is left.
    pub(super) fn is_left(&self) -> bool {
        self.depends || !self.missing.is_empty()
    }
}

/// An equal form of the profile. What has none is the number that GNU ld has for it.
pub(super) fn translate(e: &Expr, around: &dyn Around, reasons: &mut Reasons) -> Expr {
    let kind = match &e.kind {
        ExprKind::Number(_) | ExprKind::Dot => return e.clone(),
        ExprKind::Symbol(name) => match around.symbol(name) {
            Some(own) if own == *name => return e.clone(),
            Some(own) => ExprKind::Symbol(own),
            None => return foreign(e, name, around, reasons),
        },
        ExprKind::Unary(UnaryOperator::Plus, inner) => {
            reasons.say("no `+` stands before an operand");
            return translate(inner, around, reasons);
        }
        ExprKind::Unary(operator, inner) => ExprKind::Unary(*operator, translated(inner, around, reasons)),
        ExprKind::Binary(operator, left, right) => {
            let (left, right) = (translate(left, around, reasons), translate(right, around, reasons));
            return operation(*operator, left, right, reasons);
        }
        ExprKind::Conditional(test, yes, no) => match decided(test, around, reasons) {
            Some(is_true) => {
                reasons.say(format!("{} is decided", described(test)));
                return translate(if is_true { yes } else { no }, around, reasons);
            }
            None => ExprKind::Conditional(
                translated(test, around, reasons),
                translated(yes, around, reasons),
                translated(no, around, reasons),
            ),
        },
        ExprKind::Call(function, arguments) => return call(e, *function, arguments, around, reasons),
        ExprKind::Query(query, name) => return rewritten_query(e, *query, name, around, reasons),
        ExprKind::SegmentStart(name, inner) => {
            reasons.say(format!("SEGMENT_START of {name} is its value"));
            return translate(inner, around, reasons);
        }
        ExprKind::SizeofHeaders => return headers(e, around, reasons),
        ExprKind::Assert(condition, message) => {
            reasons.say("ASSERT is a statement and has no value");
            reasons.assertions.push(((**condition).clone(), message.clone()));
            return translate(condition, around, reasons);
        }
    };
    Expr::new(kind, e.span)
}

fn translated(e: &Expr, around: &dyn Around, reasons: &mut Reasons) -> Box<Expr> {
    Box::new(translate(e, around, reasons))
}

/// A condition of DEFINED alone, or of numbers alone, whose value is known.
fn decided(test: &Expr, around: &dyn Around, reasons: &mut Reasons) -> Option<bool> {
    match &test.kind {
        ExprKind::Query(Query::Defined, name) => {
            let is_defined = around.value(test).map(|value| value != 0)?;
            say_defined(name, is_defined, around, reasons);
            Some(is_defined)
        }
        ExprKind::Unary(UnaryOperator::Not, inner) => decided(inner, around, reasons).map(|is_true| !is_true),
        _ => value(test, &NoNames).map(|value| value != 0),
    }
}

/// Says that it depends on the objects whether a name is defined.
fn say_defined(name: &Name, is_defined: bool, around: &dyn Around, reasons: &mut Reasons) {
    if !is_defined && around.is_without_objects() {
        reasons.changed.push(format!(
            "DEFINED({name}) is taken as 0: --objects says whether an object defines it, and `--defsym {name}=VALUE` \
             does"
        ));
    }
    if is_defined && around.is_provided(name) {
        reasons.changed.push(format!(
            "DEFINED({name}) is taken as 1: --objects says whether an object uses it, so that its PROVIDE counts"
        ));
    }
}

/// The size of the headers of GNU ld's image, which counts its own segments.
fn headers(e: &Expr, around: &dyn Around, reasons: &mut Reasons) -> Expr {
    if !around.is_without_objects() || around.has_program_headers() {
        return numeric(e, "SIZEOF_HEADERS", around, reasons);
    }
    let value = around.value(e).unwrap_or(USUAL_HEADERS);
    reasons.changed.push(format!(
        "SIZEOF_HEADERS is taken as {}: GNU ld counts its own program headers; no segment has the headers here",
        number_text(value)
    ));
    number(value)
}

fn described(test: &Expr) -> String {
    match &test.kind {
        ExprKind::Query(Query::Defined, name) => format!("DEFINED({name})"),
        ExprKind::Unary(_, inner) => described(inner),
        _ => "a condition".into(),
    }
}

/// A symbol that the profile cannot name here: an object's, or one of the script that is assigned later.
fn foreign(e: &Expr, name: &Name, around: &dyn Around, reasons: &mut Reasons) -> Expr {
    match around.value(e) {
        Some(value) => {
            reasons.say(format!("{name} as the number that a link gives it"));
            reasons.foreign.push((name.clone(), value));
            reasons.is_numeric = true;
            number(value)
        }
        None => {
            reasons.missing.push(name.clone());
            e.clone()
        }
    }
}

/// A value of GNU ld's that no form of the profile has.
fn numeric(e: &Expr, what: &str, around: &dyn Around, reasons: &mut Reasons) -> Expr {
    match around.value(e) {
        Some(value) => {
            reasons.say(format!("{what} is {}", number_text(value)));
            reasons.is_numeric = true;
            number(value)
        }
        None => {
            reasons.missing.push(BString::from(what));
            e.clone()
        }
    }
}

fn operation(operator: BinaryOperator, left: Expr, right: Expr, reasons: &mut Reasons) -> Expr {
    if operator != BinaryOperator::Xor {
        return unplaced(ExprKind::Binary(operator, Box::new(left), Box::new(right)));
    }
    reasons.say("`a ^ b` is `(a | b) - (a & b)`");
    let either = binary(BinaryOperator::Or, left.clone(), right.clone());
    let both = unplaced(ExprKind::Binary(BinaryOperator::And, Box::new(left), Box::new(right)));
    unplaced(ExprKind::Binary(BinaryOperator::Subtract, Box::new(either), Box::new(both)))
}

fn call(e: &Expr, function: Function, arguments: &[Expr], around: &dyn Around, reasons: &mut Reasons) -> Expr {
    let mut own = || arguments.iter().map(|argument| translate(argument, around, reasons)).collect::<Vec<_>>();
    match function {
        Function::Align => unplaced(ExprKind::Call(Function::Align, own())),
        Function::Block | Function::Next => {
            let own = own();
            reasons.say("it is ALIGN");
            unplaced(ExprKind::Call(Function::Align, own))
        }
        Function::Absolute | Function::DataSegmentEnd => {
            let inner = own().pop().unwrap_or_else(|| number(0));
            reasons.say("numbers are never relative to a section");
            inner
        }
        Function::Max | Function::Min => {
            let own = own();
            let (word, operator) = match function {
                Function::Max => ("MAX", BinaryOperator::Greater),
                _ => ("MIN", BinaryOperator::Less),
            };
            reasons.say(format!("{word} as `? :`"));
            match own.as_slice() {
                [left, right] => {
                    let test = unplaced(ExprKind::Binary(operator, Box::new(left.clone()), Box::new(right.clone())));
                    let (left, right) = (Box::new(left.clone()), Box::new(right.clone()));
                    unplaced(ExprKind::Conditional(Box::new(test), left, right))
                }
                _ => e.clone(),
            }
        }
        Function::DataSegmentAlign if around.is_without_objects() => {
            let page = own().into_iter().next();
            reasons
                .changed
                .push("DATA_SEGMENT_ALIGN(a, b) is ALIGN(a): no page is saved, and no end is aligned for RELRO".into());
            unplaced(ExprKind::Call(Function::Align, page.into_iter().collect()))
        }
        Function::DataSegmentRelroEnd if around.is_without_objects() => {
            reasons.changed.push("DATA_SEGMENT_RELRO_END(n, e) is e".into());
            arguments.last().map_or_else(|| number(0), |end| translate(end, around, reasons))
        }
        Function::DataSegmentAlign => numeric(e, "DATA_SEGMENT_ALIGN", around, reasons),
        Function::DataSegmentRelroEnd => numeric(e, "DATA_SEGMENT_RELRO_END", around, reasons),
        Function::Log2Ceil => numeric(e, "LOG2CEIL", around, reasons),
    }
}

fn rewritten_query(e: &Expr, query: Query, name: &Name, around: &dyn Around, reasons: &mut Reasons) -> Expr {
    match query {
        Query::Addr | Query::Loadaddr | Query::Sizeof => match around.section(name) {
            Some(own) => Expr::new(ExprKind::Query(query, own), e.span),
            None => numeric(e, &text_of(query, name), around, reasons),
        },
        Query::Origin | Query::Length => Expr::new(ExprKind::Query(query, around.region(name)), e.span),
        Query::Defined => {
            if let Some(value) = around.value(e) {
                say_defined(name, value != 0, around, reasons);
            }
            numeric(e, &text_of(query, name), around, reasons)
        }
        Query::Constant => match around.constant(e, name) {
            Some(value) => {
                reasons.say(format!("{} is {}", text_of(query, name), number_text(value)));
                number(value)
            }
            None => numeric(e, &text_of(query, name), around, reasons),
        },
        Query::Alignof => numeric(e, &text_of(query, name), around, reasons),
    }
}

fn text_of(query: Query, name: &Name) -> String {
    format!("{}({name})", query.keyword())
}

/// The operator of an update, such as `+=`, with the old value: the whole right side.
pub(super) fn updated(target: Expr, operator: BinaryOperator, value: &Expr) -> Expr {
    unplaced(ExprKind::Binary(operator, Box::new(target), Box::new(value.clone())))
}
