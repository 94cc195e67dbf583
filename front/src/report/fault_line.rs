//! The fault lines of a link, cut into their words (docs/manual.md, 'Fault lines').
//!
//! Names of objects, sections and symbols are bytes from `!` to `~`, so a space ends each. The entry symbol of F2 is
//! what the user gave to `-e`, with spaces and line feeds perhaps; and the message of F15 may have spaces.

use bstr::ByteSlice;

use super::plain;
use super::rules::{FaultRule, Word, FAULTS};

/// A word of a fault line.
#[derive(Clone, Copy, PartialEq, Eq, Debug)]
pub enum Value<'a> {
    /// The name of an object, section, symbol or region.
    Name(&'a [u8]),
    /// A number.
    Number(u64),
    /// What the user gave.
    Text(&'a [u8]),
}

/// A fault line: its text, its rule, and its words after the number. One that is none of the manual's has no rule.
#[derive(Clone, PartialEq, Eq, Debug)]
pub struct FaultLine<'a> {
    /// The line as text.
    pub text: String,
    /// The rule, and its words.
    pub fault: Option<(FaultRule, Vec<Value<'a>>)>,
}

/// The lines of a link's faults, in their order.
pub fn fault_lines(faults: &[u8]) -> impl Iterator<Item = FaultLine<'_>> {
    lines(faults).map(|line| {
        let fault = FAULTS.iter().find_map(|form| {
            let rest = line.strip_prefix(form.code.as_bytes())?;
            Some((form.rule, values(rest, form.words)?))
        });
        FaultLine { text: plain(line), fault }
    })
}

/// How many lines there are.
#[must_use]
pub fn count_lines(faults: &[u8]) -> usize {
    lines(faults).count()
}

/// The words of a line after its number, if they are of these kinds.
fn values<'a>(mut rest: &'a [u8], words: &[Word]) -> Option<Vec<Value<'a>>> {
    let mut values = Vec::with_capacity(words.len());
    for word in words {
        rest = rest.strip_prefix(b" ")?;
        let end = if *word == Word::Text { rest.len() } else { rest.find_byte(b' ').unwrap_or(rest.len()) };
        let (text, after) = rest.split_at(end);
        let number = |radix| text.to_str().ok().and_then(|text| u64::from_str_radix(text, radix).ok());
        match word {
            Word::Name if !text.is_empty() => values.push(Value::Name(text)),
            Word::Number if text.iter().all(u8::is_ascii_digit) => values.push(Value::Number(number(10)?)),
            Word::Hex if text.len() == 16 && !text.starts_with(b"+") => values.push(Value::Number(number(16)?)),
            Word::Text => values.push(Value::Text(text)),
            Word::Literal(own) if own.as_bytes() == text => {}
            _ => return None,
        }
        rest = after;
    }
    rest.is_empty().then_some(values)
}

/// The lines, one after another. F2 is the last one of its link, and its name may have line feeds.
fn lines(faults: &[u8]) -> impl Iterator<Item = &[u8]> {
    let mut rest = faults;
    std::iter::from_fn(move || {
        if rest.is_empty() {
            return None;
        }
        if rest.starts_with(b"F2 ") {
            let line = rest.strip_suffix(b"\n").unwrap_or(rest);
            rest = b"";
            return Some(line);
        }
        let (line, after) = rest.split_at(rest.find_byte(b'\n').unwrap_or(rest.len()));
        rest = after.get(1..).unwrap_or_default();
        Some(line)
    })
}

#[cfg(test)]
mod tests {
    use super::*;

    #[test]
    fn words() {
        let faults = b"F1 a b c\nF2 x  y\nF1 a b c\n\n";
        let found: Vec<FaultLine<'_>> = fault_lines(faults).collect();
        let names = vec![Value::Name(b"a"), Value::Name(b"b"), Value::Name(b"c")];
        assert_eq!(found[0].fault, Some((FaultRule::DuplicateDefinition, names)));
        assert_eq!(found[1].text, "F2 x  y\\nF1 a b c\\n");
        assert_eq!(found[1].fault, Some((FaultRule::UndefinedEntry, vec![Value::Text(b"x  y\nF1 a b c\n")])));
        assert_eq!(count_lines(faults), 2);
    }

    #[test]
    fn a_message_has_spaces_and_a_literal_word_is_itself() {
        let found: Vec<_> = fault_lines(b"F15 3  a b \nF13 entry\nF13 entry x").map(|line| line.fault).collect();
        let message = vec![Value::Number(3), Value::Text(b" a b ")];
        let wanted = [Some((FaultRule::AssertionFailed, message)), Some((FaultRule::EntryNotInOutput, vec![])), None];
        assert_eq!(found, wanted);
        assert_eq!(fault_lines(b"").count(), 0);
    }

    #[test]
    fn lines_that_are_none_of_the_manual() {
        for line in [&b"F16 a"[..], b"F5", b"F5 x", b"F12 a.o", b"F1 a  b", b"F5 1 ", b"F51", b"F14 a b 1 2 3"] {
            assert_eq!(fault_lines(line).next().and_then(|line| line.fault), None, "{:?}", line.as_bstr());
        }
    }
}
