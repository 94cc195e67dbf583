//! The words of the profile (docs/scripts.md, 'Tokens', 'Patterns').

use std::borrow::Cow;
use std::collections::BTreeSet;

use super::limits::MAX_WORD;
use crate::report::rules::RESERVED;

/// Whether a text can be no NAME and no WORD.
pub(crate) fn is_reserved(text: &[u8]) -> bool {
    RESERVED.binary_search_by(|word| word.as_bytes().cmp(text)).is_ok()
}

/// Whether a NAME may begin with the byte.
pub(crate) fn begins_name(byte: u8) -> bool {
    byte.is_ascii_alphabetic() || byte == b'_' || byte == b'.'
}

/// Whether a NAME may go on with the byte.
pub(crate) fn is_in_name(byte: u8) -> bool {
    byte.is_ascii_alphanumeric() || matches!(byte, b'_' | b'.' | b'$' | b'-')
}

/// Whether a text is a NAME that is not reserved.
pub(crate) fn is_name(text: &[u8]) -> bool {
    let begins = text.first().map_or(false, |first| begins_name(*first));
    begins
        && text != b"."
        && !text.starts_with(b".-")
        && text.len() <= MAX_WORD
        && text.iter().all(|byte| is_in_name(*byte))
        && !is_reserved(text)
}

/// Whether a byte stands for itself in a WORD.
fn is_plain(byte: u8) -> bool {
    byte.is_ascii_alphanumeric() || matches!(byte, b'_' | b'.' | b'$' | b'/' | b'-')
}

/// Whether a byte may stand in a set, or outside of one as itself or as a wildcard.
fn is_in_set(byte: u8) -> bool {
    is_plain(byte) || matches!(byte, b'*' | b'?')
}

/// Whether a text is a WORD that is a pattern and not reserved.
pub(crate) fn is_word(text: &[u8]) -> bool {
    if text.is_empty() || text.len() > MAX_WORD || text.starts_with(b"/*") || is_reserved(text) {
        return false;
    }
    let mut rest = text.iter().copied();
    while let Some(byte) = rest.next() {
        let is_fine = match byte {
            b'\\' => rest.next().map_or(false, |next| next.is_ascii_graphic()),
            b'[' => {
                let inside: Vec<u8> = rest.by_ref().take_while(|byte| *byte != b']').collect();
                // A set without its end takes all of the rest, whose length then has no `]` after it.
                !inside.is_empty() && inside.iter().all(|byte| is_in_set(*byte)) && ends_set(text, rest.len())
            }
            byte => is_in_set(byte),
        };
        if !is_fine {
            return false;
        }
    }
    true
}

/// Whether the byte before the last `left` bytes ends a set.
fn ends_set(text: &[u8], left: usize) -> bool {
    text.len().checked_sub(left + 1).and_then(|at| text.get(at)) == Some(&b']')
}

/// The WORD that matches a name alone; `None` if there is none.
pub(crate) fn word_of_name(name: &[u8]) -> Option<Vec<u8>> {
    let mut word = Vec::with_capacity(name.len());
    for byte in name {
        if !is_plain(*byte) {
            word.push(b'\\');
        }
        word.push(*byte);
    }
    if is_reserved(&word) {
        word.insert(0, b'\\');
    }
    let is_fine = name.iter().all(u8::is_ascii_graphic) && !word.is_empty() && word.len() <= MAX_WORD;
    is_fine.then_some(word)
}

/// The WORD that matches what a pattern of GNU ld matches, and whether it is exactly that.
pub(crate) fn word_of(pattern: &[u8]) -> (Cow<'_, [u8]>, bool) {
    if is_word(pattern) {
        return (Cow::Borrowed(pattern), true);
    }
    let (mut word, mut is_exact, mut at) = (Vec::with_capacity(pattern.len() + 4), true, 0);
    while let Some(byte) = pattern.get(at).copied() {
        at += 1;
        match byte {
            b'[' if set_end(pattern, at).is_some() => {
                let end = set_end(pattern, at).unwrap_or(at);
                is_exact &= write_set(pattern.get(at..end).unwrap_or_default(), &mut word);
                at = end + 1;
            }
            b'\\' if at < pattern.len() => {
                is_exact &= write_byte(pattern.get(at).copied().unwrap_or(0), &mut word);
                at += 1;
            }
            byte if is_in_set(byte) => word.push(byte),
            byte => is_exact &= write_byte(byte, &mut word),
        }
    }
    if word.starts_with(b"/*") || is_reserved(&word) {
        word.insert(0, b'\\');
    }
    (Cow::Owned(word), is_exact)
}

/// A byte that is meant itself; `?` if a WORD cannot say it.
fn write_byte(byte: u8, word: &mut Vec<u8>) -> bool {
    if !byte.is_ascii_graphic() {
        word.push(b'?');
        return false;
    }
    if !is_plain(byte) {
        word.push(b'\\');
    }
    word.push(byte);
    true
}

/// Where a set ends that begins before `at`: its first byte may be `]`, after `!` or `^` too.
fn set_end(pattern: &[u8], at: usize) -> Option<usize> {
    let negated = matches!(pattern.get(at), Some(b'!' | b'^'));
    let from = at + 1 + usize::from(negated);
    pattern.get(from..)?.iter().position(|byte| *byte == b']').map(|end| from + end)
}

/// A set; with `!` or `^` at its front the bytes that are meant. Gives whether it is exactly that.
fn write_set(inside: &[u8], word: &mut Vec<u8>) -> bool {
    let (is_negated, body) = match inside {
        [b'!' | b'^', body @ ..] => (true, body),
        body => (false, body),
    };
    let mut members = BTreeSet::new();
    let mut at = 0;
    while let Some(first) = body.get(at).copied() {
        match (body.get(at + 1), body.get(at + 2)) {
            (Some(b'-'), Some(last)) => {
                members.extend(first..=*last);
                at += 3;
            }
            _ => {
                members.insert(first);
                at += 1;
            }
        }
    }
    let chosen: BTreeSet<u8> = match is_negated {
        true => (0..=127).filter(|byte| is_in_set(*byte) && !members.contains(byte)).collect(),
        false => members,
    };
    if let (1, Some(only)) = (chosen.len(), chosen.iter().next()) {
        return write_byte(*only, word);
    }
    let known: BTreeSet<u8> = chosen.iter().copied().filter(|byte| is_in_set(*byte)).collect();
    if known.is_empty() {
        word.push(b'?');
        return false;
    }
    word.push(b'[');
    write_ranges(&known, word);
    word.push(b']');
    known.len() == chosen.len()
}

/// The bytes of a set in ranges; `-` stands last.
fn write_ranges(members: &BTreeSet<u8>, word: &mut Vec<u8>) {
    let codes: Vec<u8> = members.iter().copied().filter(|byte| *byte != b'-').collect();
    let mut rest = codes.as_slice();
    while let Some(first) = rest.first().copied() {
        let length = rest.iter().zip(first..).take_while(|(code, expected)| **code == *expected).count();
        let (run, after) = rest.split_at(length);
        match run {
            [first, _, .., last] => word.extend_from_slice(&[*first, b'-', *last]),
            run => word.extend_from_slice(run),
        }
        rest = after;
    }
    if members.contains(&b'-') {
        word.push(b'-');
    }
}

/// Whether a pattern of the profile matches a whole name.
pub(crate) fn matches(pattern: &[u8], name: &[u8]) -> bool {
    // Where a `*` was, and how much of the name it has taken: the last one alone is tried again.
    let (mut p, mut n) = (0, 0);
    let mut star: Option<(usize, usize)> = None;
    loop {
        if let Some(b'*') = pattern.get(p) {
            star = Some((p + 1, n));
            p += 1;
            continue;
        }
        match (name.get(n), one(pattern, p)) {
            (None, _) if p == pattern.len() => return true,
            (Some(byte), Some((matcher, after))) if matcher.takes(*byte) => {
                p = after;
                n += 1;
            }
            _ => match star {
                Some((after, taken)) if taken < name.len() => {
                    star = Some((after, taken + 1));
                    p = after;
                    n = taken + 1;
                }
                _ => return false,
            },
        }
    }
}

/// What one byte of a name is matched by.
enum One<'a> {
    Any,
    Byte(u8),
    Set(&'a [u8]),
}

impl One<'_> {
    fn takes(&self, byte: u8) -> bool {
        match self {
            One::Any => true,
            One::Byte(own) => *own == byte,
            One::Set(mut inside) => {
                while let Some(first) = inside.first().copied() {
                    let (last, after) = match inside {
                        [_, b'-', last, ..] => (*last, 3),
                        _ => (first, 1),
                    };
                    if (first..=last).contains(&byte) {
                        return true;
                    }
                    inside = inside.get(after..).unwrap_or_default();
                }
                false
            }
        }
    }
}

/// The matcher at a place of a pattern, and the place after it.
fn one(pattern: &[u8], at: usize) -> Option<(One<'_>, usize)> {
    match pattern.get(at)? {
        b'?' => Some((One::Any, at + 1)),
        b'\\' => Some((One::Byte(*pattern.get(at + 1)?), at + 2)),
        b'[' => {
            let inside = pattern.get(at + 1..)?;
            let end = inside.iter().position(|byte| *byte == b']')?;
            Some((One::Set(inside.get(..end)?), at + end + 2))
        }
        byte => Some((One::Byte(*byte), at + 1)),
    }
}

#[cfg(test)]
mod tests {
    use super::*;

    #[test]
    fn names_and_words_of_the_profile() {
        for name in ["a", "_x", ".text.a-b", "a$1", "align"] {
            assert!(is_name(name.as_bytes()), "{name}");
        }
        for name in ["", ".", ".-4", "1a", "a b", "ALIGN", "a+b"] {
            assert!(!is_name(name.as_bytes()), "{name}");
        }
        for word in ["*", ".text.*", "[a-c]x", "a\\+b", "/x"] {
            assert!(is_word(word.as_bytes()), "{word}");
        }
        for word in ["", "/*", "a]", "[]", "[a", "[^a]", "a+b", "KEEP", "a\\", "a,b"] {
            assert!(!is_word(word.as_bytes()), "{word}");
        }
    }

    fn written(pattern: &str) -> (String, bool) {
        let (word, is_exact) = word_of(pattern.as_bytes());
        (String::from_utf8(word.into_owned()).unwrap(), is_exact)
    }

    #[test]
    fn patterns_are_written_as_words() {
        assert_eq!(written(".tab+*"), (".tab\\+*".into(), true));
        assert_eq!(written("[!*-z]"), ("$".into(), true));
        assert_eq!(written("a.o,"), ("a.o\\,".into(), true));
        assert_eq!(written("[+]"), ("\\+".into(), true));
        assert_eq!(written("[a+]"), ("[a]".into(), false));
        assert_eq!(written("KEEP"), ("\\KEEP".into(), true));
        assert_eq!(written("a\\b"), ("a\\b".into(), true));
    }

    #[test]
    fn a_name_alone_is_a_word() {
        assert_eq!(word_of_name(b"lib.a(m.o)").unwrap(), b"lib.a\\(m.o\\)");
        assert_eq!(word_of_name(b"a*").unwrap(), b"a\\*");
        assert_eq!(word_of_name(b"MAX").unwrap(), b"\\MAX");
        assert!(word_of_name(b"").is_none() && word_of_name(b"a b").is_none());
    }

    #[test]
    fn patterns_match_whole_names() {
        for (pattern, name, expected) in [
            ("*", "", true),
            ("a*b*c", "axxbyyc", true),
            ("a*b*c", "axxbyy", false),
            ("?", "/", true),
            ("[a-c]", "b", true),
            ("[a-]", "-", true),
            ("[c-a]", "b", false),
            ("\\*", "*", true),
            ("\\*", "x", false),
            (".text*", ".text.f", true),
            (".text", ".text.f", false),
        ] {
            assert_eq!(matches(pattern.as_bytes(), name.as_bytes()), expected, "{pattern} {name}");
        }
    }
}
