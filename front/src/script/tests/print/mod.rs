//! A tree as text. Read again, the text is an equal tree.

mod commands;
mod expressions;
mod sections;

use crate::script::lexer::{scan, Kind, State};
use crate::script::tree::{Expr, Name, Script};

/// The text of a script.
pub(super) fn script(script: &Script) -> Vec<u8> {
    let mut printer = Printer::default();
    for statement in &script.statements {
        printer.statement(&statement.node);
    }
    printer.out
}

/// The text of an expression, with parentheses if it needs them.
pub(super) fn expression(expr: &Expr) -> Vec<u8> {
    let mut printer = Printer::default();
    printer.expr(expr);
    printer.out
}

/// Whether a name can be written without quotes in a state.
pub(super) fn is_bare(state: State, name: &[u8]) -> bool {
    !name.starts_with(b"/*") && scan(state, name) == Some((Kind::Name, name.len()))
}

/// Writes parts of a tree, one after the other.
#[derive(Default)]
struct Printer {
    out: Vec<u8>,
    indent: usize,
}

impl Printer {
    fn put(&mut self, text: &str) {
        self.out.extend_from_slice(text.as_bytes());
    }

    /// A name in quotes.
    fn quoted(&mut self, name: &Name) {
        self.put("\"");
        self.out.extend_from_slice(name);
        self.put("\"");
    }

    /// A name, in quotes if the state needs them.
    fn name(&mut self, state: State, name: &Name) {
        if is_bare(state, name) {
            self.out.extend_from_slice(name);
        } else {
            self.quoted(name);
        }
    }

    fn names(&mut self, state: State, names: &[Name], between: &str) {
        for (index, name) in names.iter().enumerate() {
            if index > 0 {
                self.put(between);
            }
            self.name(state, name);
        }
    }

    /// `WORD(names)`
    fn command(&mut self, word: &str, state: State, names: &[Name]) {
        self.put(word);
        self.put("(");
        self.names(state, names, " ");
        self.put(")");
    }

    /// `WORD(e)` with a space before it, if there is an expression.
    fn optional(&mut self, word: &str, value: &Option<Expr>) {
        if let Some(value) = value {
            self.put(" ");
            self.put(word);
            self.put("(");
            self.expr(value);
            self.put(")");
        }
    }

    /// Begins a line.
    fn line(&mut self) {
        for _ in 0..self.indent {
            self.put("  ");
        }
    }

    /// Ends a line.
    fn end(&mut self) {
        self.put("\n");
    }

    /// ` {`, what is written within, and `}` on a line of its own.
    fn braced(&mut self, write: impl FnOnce(&mut Printer)) {
        self.put(" {\n");
        self.indent += 1;
        write(self);
        self.indent -= 1;
        self.line();
        self.put("}");
    }
}
