//! How `ldi` separates names and numbers from marks (docs/scripts.md, 'Tokens'): `x=1` is an assignment to `ldi`, and
//! one name to GNU ld. A byte that the profile does not have in names stays in a name as in GNU ld, so that a message
//! can say what is wrong with the name.

use super::keywords::word;
use super::lexer::{self, is_file_byte, is_file_start, is_wild_byte, mark, quoted, run, Kind, State};

/// Whose tokens a text has.
#[derive(Clone, Copy, PartialEq, Eq, Debug, Default)]
pub(super) enum Dialect {
    /// The tokens of GNU ld's scripts.
    #[default]
    Gnu,
    /// The tokens of `ldi`'s scripts.
    Profile,
}

/// The assignments that begin with a byte of patterns.
const UPDATES: [&[u8]; 4] = [b"+=", b"-=", b"*=", b"/="];

/// The token that a text begins with, and its length; None if none begins so.
pub(super) fn scan(state: State, rest: &[u8]) -> Option<(Kind, usize)> {
    match state {
        State::Script | State::Expression => {
            number(rest).or_else(|| name(state, rest)).or_else(|| lexer::scan(state, rest))
        }
        State::Wild => name(state, rest).or_else(|| mark(state, rest)).or_else(|| quoted(state, rest)),
        _ => lexer::scan(state, rest),
    }
}

/// A number and all that is joined to it, with the value that GNU ld reads first.
fn number(rest: &[u8]) -> Option<(Kind, usize)> {
    let is_number = match rest {
        [b'$', digit, ..] => digit.is_ascii_hexdigit(),
        [first, ..] => first.is_ascii_digit(),
        [] => false,
    };
    let length = run(rest, |byte| byte.is_ascii_alphanumeric() || matches!(byte, b'_' | b'.' | b'$'));
    let text = rest.get(..length).filter(|_| is_number)?;
    match lexer::scan(State::Expression, text) {
        Some((kind @ Kind::Number(_), _)) => Some((kind, length)),
        _ => Some((Kind::Number(0), length)),
    }
}

/// A name or a word of a state.
fn name(state: State, rest: &[u8]) -> Option<(Kind, usize)> {
    let first = *rest.first()?;
    let length = match state {
        State::Script | State::Expression if rest.starts_with(b".-") => 1,
        State::Script if is_file_start(first) => {
            before_update(rest, run(rest, |byte| is_file_byte(byte) && !matches!(byte, b':' | b',' | b'=')))
        }
        State::Wild if UPDATES.iter().any(|mark| rest.starts_with(mark)) => 0,
        State::Wild => before_update(rest, word_length(rest)),
        State::Expression if first.is_ascii_alphabetic() || matches!(first, b'_' | b'.') => {
            run(rest, |byte| byte.is_ascii_alphanumeric() || matches!(byte, b'_' | b'.' | b'$' | b'-'))
        }
        _ => 0,
    };
    let spelling = rest.get(..length).filter(|spelling| !spelling.is_empty())?;
    Some((word(state, spelling).map_or(Kind::Name, Kind::Word), length))
}

/// The length of a word of patterns, in which a `\\` takes the byte after it.
fn word_length(rest: &[u8]) -> usize {
    let mut at = 0;
    loop {
        match rest.get(at..) {
            Some([b'\\', byte, ..]) if byte.is_ascii_graphic() => at += 2,
            Some([byte, ..]) if is_wild_byte(*byte) && *byte != b'=' => at += 1,
            _ => return at,
        }
    }
}

/// A length without a `+` that belongs to `+=`.
fn before_update(rest: &[u8], length: usize) -> usize {
    match (length.checked_sub(1).and_then(|last| rest.get(last)), rest.get(length)) {
        (Some(b'+'), Some(b'=')) => length - 1,
        _ => length,
    }
}

#[cfg(test)]
mod tests {
    use super::*;

    #[test]
    fn marks_end_names_as_in_the_profile() {
        let length = |state: State, text: &str| scan(state, text.as_bytes()).map(|(_, length)| length);
        for (state, text, expected) in [
            (State::Script, "x=1;", 1),
            (State::Script, ".text: {", 5),
            (State::Script, "x+=1;", 1),
            (State::Script, "a+b/c : {", 5),
            (State::Script, "/DISCARD/ :", 9),
            (State::Wild, ".=ALIGN(8);", 1),
            (State::Wild, "lib\\+x.o(.text)", 8),
            (State::Wild, ".a,.b)", 5),
            (State::Expression, "a-b/c", 3),
            (State::Expression, ".-4", 1),
            (State::Expression, "0x90.b :", 6),
            (State::Expression, "add + 1", 3),
        ] {
            assert_eq!(length(state, text), Some(expected), "{text}");
        }
        assert_eq!(scan(State::Expression, b"10h;"), Some((Kind::Number(16), 3)));
    }
}
