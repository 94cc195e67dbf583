//! Names, patterns, numbers and fills: how the profile spells them (docs/scripts.md, 'Tokens', 'Patterns').

use std::path::Path;

use bstr::ByteSlice;

use super::limits::MAX_WORD;
use super::reserved_words::{is_name, is_reserved, is_word};
use super::{Cause, Check};
use crate::script::tree::{ExprKind, Fill, Span};

/// What is said of a name or word that is too long.
const TOO_LONG: &str = "over a limit: this name has more than 255 bytes";

impl Check<'_> {
    /// A name, of a symbol, section or region, in a span that may have more.
    pub(super) fn name(&mut self, name: &[u8], at: Span) {
        let shown = name.as_bstr();
        if self.is_quoted(at) {
            self.outside(at, format!("the name \"{shown}\" in quotes"), "write it without quotes");
        } else if name.len() > MAX_WORD {
            self.object(Cause::Limit, at, TOO_LONG);
        } else if is_reserved(name) {
            self.object(Cause::Grammar, at, format!("`{shown}` is a reserved word, and no name"));
        } else if !is_name(name) {
            let rule = "a name is a letter, `_` or `.`, and then letters, digits, `_`, `.`, `$` and `-`";
            self.object(Cause::Grammar, at, format!("`{shown}` is no name: {rule}"));
        }
    }

    /// A pattern of files or of sections.
    pub(super) fn word(&mut self, glob: &[u8], is_quoted: bool, at: Span) {
        let shown = glob.as_bstr();
        if is_quoted {
            let instead = "write it without, and `\\` before bytes that no pattern has";
            self.object(Cause::Tokens, at, format!("\"{shown}\": a pattern stands without quotes: {instead}"));
        } else if glob.len() > MAX_WORD {
            self.object(Cause::Limit, at, TOO_LONG);
        } else if is_reserved(glob) {
            self.object(Cause::Grammar, at, format!("`{shown}` is a reserved word, and no pattern"));
        } else if !is_word(glob) {
            let (cause, why) = pattern_fault(glob);
            self.object(cause, at, format!("`{shown}` is no pattern: {why}"));
        }
    }

    /// A number as it is written.
    pub(super) fn number(&mut self, at: Span) {
        let text = self.source.slice(at).trim_with(|letter| letter.is_whitespace() || matches!(letter, '(' | ')'));
        if let Some((cause, sentence)) = number_fault(text) {
            self.object(cause, at, sentence);
        }
    }

    /// Looks at a fill after `=`.
    pub(super) fn fill(&mut self, fill: &Fill) {
        let at = fill.value.span;
        let text = self.source.slice(at);
        if text.first().map_or(false, u8::is_ascii_digit) && matches!(fill.value.kind, ExprKind::Number(_)) {
            if let Some((cause, sentence)) = number_fault(text) {
                return self.object(cause, at, sentence);
            }
        }
        let digits = text.strip_prefix(b"0x").unwrap_or_default();
        let is_fill = matches!(digits.len(), 2..=16) && digits.len() % 2 == 0;
        if !is_fill || !digits.iter().all(u8::is_ascii_hexdigit) {
            let rule = "a fill is `0x` and an even number of 2 to 16 hexadecimal digits, which are its bytes";
            self.object(Cause::Grammar, at, format!("{rule}: `=144` is `=0x00000090`"));
        }
    }
}

/// Why no token begins with a byte.
pub(super) fn no_token(byte: u8) -> String {
    match byte {
        b'"' => "a text in quotes has no end".into(),
        b'\'' => "no token begins with `'`: a text stands between double quotes".into(),
        b'!'..=b'~' => format!("no token begins with `{}` here", char::from(byte)),
        128.. => format!("the byte {byte:#04x} is not ASCII"),
        _ => format!("the control byte {byte:#04x} stands here"),
    }
}

/// Why a word is no pattern.
fn pattern_fault(word: &[u8]) -> (Cause, String) {
    let has = |bytes: &[u8]| word.find_byteset(bytes).is_some();
    if let Some(reason) = set_fault(word).filter(|_| !has(b"^!")) {
        return (Cause::Grammar, reason.into());
    }
    let why = match () {
        () if has(b"^!") => "a set names the bytes that it matches, and has no `^` and no `!`".into(),
        () if has(b",") => "patterns are separated by white space, and not by `,`".into(),
        () if has(b":") => "there are no archives, and objects have plain names: write `*file.o`".into(),
        () => match word.iter().find(|byte| !is_word(&[**byte]) && byte.is_ascii_graphic()) {
            Some(b'\\') | None => "after a `\\` a byte from `!` to `~` is expected".into(),
            Some(byte) => format!("write `\\` before `{}`", char::from(*byte)),
        },
    };
    (Cause::Tokens, why)
}

/// The fault of the sets of a word; `None` if they have none.
fn set_fault(word: &[u8]) -> Option<&'static str> {
    let mut rest = word;
    loop {
        rest = match rest {
            [] => return None,
            [b'\\', _, after @ ..] => after,
            [b']', ..] => return Some("a `]` stands outside of a set"),
            [b'[', inside @ ..] => match inside.iter().position(|byte| matches!(byte, b'[' | b']' | b'\\')) {
                None => return Some("a `[` has no `]` after it"),
                Some(0) if inside.starts_with(b"]") => return Some("a set `[]` has no byte"),
                Some(end) => match inside.split_at(end).1 {
                    [b']', after @ ..] => after,
                    [b'[', ..] => return Some("a set has a `[` in it"),
                    _ => return Some("a set has a `\\` in it"),
                },
            },
            [_, after @ ..] => after,
        };
    }
}

/// Why digits and what is joined to them are no number.
fn number_fault(text: &[u8]) -> Option<(Cause, String)> {
    let shown = text.as_bstr();
    match value_of(text) {
        Some(Some(_)) => return None,
        Some(None) => return Some((Cause::Limit, format!("over a limit: {shown} is 2^64 or more"))),
        None => {}
    }
    let upper = text.to_ascii_uppercase();
    let with_suffix = text.ends_with(b"k") || text.ends_with(b"m");
    let gnu = crate::script::expression(Path::new("number"), text).ok();
    let why = match (text, gnu.map(|read| read.kind)) {
        _ if with_suffix && value_of(&upper).is_some() => format!("write {}", upper.as_bstr()),
        ([b'0', b'x' | b'X', rest @ ..], _) if !rest.first().map_or(false, u8::is_ascii_hexdigit) => {
            "hexadecimal digits are expected after `0x`".into()
        }
        ([b'0', digits @ ..], _) if digits.iter().all(u8::is_ascii_digit) => {
            "a number that begins with `0` is octal, and has no `8` or `9`".into()
        }
        (_, Some(ExprKind::Number(value))) => format!("write {value:#x}"),
        _ => "a number ends with its digits, or with one `K` or `M` after them".into(),
    };
    Some((Cause::Tokens, format!("{shown} is no number of the profile: {why}")))
}

/// The value of a number of the profile: none if it is no such number, and no value of one past 2^64.
fn value_of(text: &[u8]) -> Option<Option<u64>> {
    let (digits, scale) = match text {
        [digits @ .., b'K'] => (digits, 1 << 10),
        [digits @ .., b'M'] => (digits, 1 << 20),
        digits => (digits, 1),
    };
    let (digits, base) = match digits {
        [b'0', b'x' | b'X', digits @ ..] => (digits, 16),
        [b'0', ..] => (digits, 8),
        digits => (digits, 10),
    };
    let digits: Option<Vec<u32>> = digits.iter().map(|digit| char::from(*digit).to_digit(base)).collect();
    let digits = digits.filter(|digits| !digits.is_empty())?;
    let push = |value: Option<u64>, digit: &u32| value?.checked_mul(base.into())?.checked_add((*digit).into());
    Some(digits.iter().fold(Some(0), push).and_then(|value: u64| value.checked_mul(scale)))
}

#[cfg(test)]
mod tests {
    use super::*;

    #[test]
    fn numbers_of_the_profile() {
        for (text, value) in
            [("0", 0), ("0x1fK", 31 << 10), ("017", 15), ("4M", 4 << 20), ("18446744073709551615", u64::MAX)]
        {
            assert_eq!(value_of(text.as_bytes()), Some(Some(value)), "{text}");
        }
        for text in ["18446744073709551616", "0x10000000000000000", "18014398509481984K"] {
            assert_eq!(value_of(text.as_bytes()), Some(None), "{text}");
        }
        for text in ["", "08", "0x", "4k", "4KM", "10h", "1_0", "K"] {
            assert_eq!(value_of(text.as_bytes()), None, "{text}");
        }
    }

    #[test]
    fn what_is_said_of_numbers() {
        let said = |text: &str| number_fault(text.as_bytes()).map(|(_, sentence)| sentence).unwrap_or_default();
        assert_eq!(said("4k"), "4k is no number of the profile: write 4K");
        assert_eq!(said("10h"), "10h is no number of the profile: write 0x10");
        assert_eq!(said("$1F"), "$1F is no number of the profile: write 0x1f");
        assert!(said("12a").ends_with("a number ends with its digits, or with one `K` or `M` after them"));
        assert!(said("08").contains("octal"));
    }
}
