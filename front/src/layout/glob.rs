//! Patterns of files and sections.

/// Whether a pattern has a wildcard; without one it is a name (ldlang.c, `wildcardp`).
pub fn has_wildcard(pattern: &[u8]) -> bool {
    pattern.iter().any(|byte| matches!(byte, b'*' | b'?' | b'['))
}

/// Whether a pattern matches a whole name (ldlang.c, `name_match`): without a wildcard it is the name.
pub fn matches(pattern: &[u8], name: &[u8]) -> bool {
    if !has_wildcard(pattern) {
        return pattern == name;
    }
    match pattern.split_last() {
        Some((b'*', front)) if !front.iter().any(|byte| matches!(byte, b'*' | b'?' | b'[' | b'\\')) => {
            name.starts_with(front)
        }
        _ => wild(pattern, name),
    }
}

/// The bytes in front of a pattern's first wildcard or escape.
pub fn front(pattern: &[u8]) -> &[u8] {
    let end = pattern.iter().position(|byte| matches!(byte, b'*' | b'?' | b'[' | b'\\')).unwrap_or(pattern.len());
    pattern.get(..end).unwrap_or_default()
}

/// fnmatch(3) without flags: goes back to the last `*` alone, so it takes at most the product of the lengths.
fn wild(pattern: &[u8], name: &[u8]) -> bool {
    let (mut at, mut to) = (0, 0);
    let mut back: Option<(usize, usize)> = None;
    loop {
        let step = match (pattern.get(at), name.get(to)) {
            (Some(b'*'), _) => {
                at += 1;
                back = Some((at, to));
                continue;
            }
            (None, None) => return true,
            (Some(_), Some(byte)) => one(pattern, at, *byte),
            _ => None,
        };
        match (step, back) {
            (Some(next), _) => {
                at = next;
                to += 1;
            }
            (None, Some((again, from))) if from < name.len() => {
                at = again;
                to = from + 1;
                back = Some((again, to));
            }
            (None, _) => return false,
        }
    }
}

/// Where the pattern goes on after one byte of the name; `None` if that byte does not match.
fn one(pattern: &[u8], at: usize, byte: u8) -> Option<usize> {
    match pattern.get(at)? {
        b'?' => Some(at + 1),
        b'[' => match set(pattern, at + 1, byte) {
            Some((end, is_in)) => is_in.then_some(end),
            None => (byte == b'[').then_some(at + 1),
        },
        b'\\' => match pattern.get(at + 1) {
            Some(escaped) => (*escaped == byte).then_some(at + 2),
            None => (byte == b'\\').then_some(at + 1),
        },
        plain => (*plain == byte).then_some(at + 1),
    }
}

/// The end of a set, and whether a byte is in it; `None` if `]` is missing.
fn set(pattern: &[u8], mut at: usize, byte: u8) -> Option<(usize, bool)> {
    let is_negated = matches!(pattern.get(at), Some(b'!' | b'^'));
    if is_negated {
        at += 1;
    }
    let (mut is_in, mut is_first) = (false, true);
    loop {
        let low = *pattern.get(at)?;
        if low == b']' && !is_first {
            return Some((at + 1, is_in != is_negated));
        }
        is_first = false;
        if let Some((end, has)) = class(pattern, at, byte) {
            is_in |= has;
            at = end;
            continue;
        }
        let (low, next) = member(pattern, at)?;
        if pattern.get(next) == Some(&b'-') && pattern.get(next + 1).map_or(false, |end| *end != b']') {
            let (high, end) = member(pattern, next + 1)?;
            is_in |= (low..=high).contains(&byte);
            at = end;
        } else {
            is_in |= low == byte;
            at = next;
        }
    }
}

/// A byte of a set, perhaps after a backslash, and what follows.
fn member(pattern: &[u8], at: usize) -> Option<(u8, usize)> {
    match (*pattern.get(at)?, pattern.get(at + 1)) {
        (b'\\', Some(escaped)) => Some((*escaped, at + 2)),
        (plain, _) => Some((plain, at + 1)),
    }
}

/// A class `[:NAME:]` of a set: its end, and whether a byte is in it.
fn class(pattern: &[u8], at: usize, byte: u8) -> Option<(usize, bool)> {
    let rest = pattern.get(at..)?.strip_prefix(b"[:")?;
    let length = rest.windows(2).position(|pair| pair == b":]")?;
    let has = match rest.get(..length)? {
        b"alnum" => byte.is_ascii_alphanumeric(),
        b"alpha" => byte.is_ascii_alphabetic(),
        b"digit" => byte.is_ascii_digit(),
        b"lower" => byte.is_ascii_lowercase(),
        b"punct" => byte.is_ascii_punctuation(),
        b"upper" => byte.is_ascii_uppercase(),
        b"xdigit" => byte.is_ascii_hexdigit(),
        _ => return None,
    };
    Some((at + 2 + length + 2, has))
}

#[cfg(test)]
mod tests {
    use super::*;

    /// GNU ld manual, 'Input Section Wildcard Patterns'.
    #[test]
    fn wildcards() {
        for (pattern, name, wanted) in [
            ("*", "", true),
            (".text.*", ".text.a.b", true),
            (".text.*", ".text", false),
            ("*a.o", "lib/a.o", true),
            ("*[a-d].o", "c.o", true),
            ("*[a-d].o", "e.o", false),
            (".rodata.d?", ".rodata.d1", true),
            (".text.[!x]*", ".text.xy", false),
            (".text.[^x]*", ".text.yx", true),
            ("*.[]-].o", "a.-.o", true),
            (".d*.*a", ".data.xa.a", true),
            ("[[:digit:]]x", "7x", true),
            ("a[b", "a[b", true),
            ("\\*x*", "*xy", true),
            ("\\x", "x", false),
            ("*.o*", "a.p", false),
        ] {
            assert_eq!(matches(pattern.as_bytes(), name.as_bytes()), wanted, "{} {}", pattern, name);
        }
    }

    #[test]
    fn many_stars_end() {
        let pattern = b"*a".repeat(200);
        assert!(!matches(&pattern, &[b'a'; 199].map(|byte| byte)));
        assert!(matches(&pattern, &vec![b'a'; 4000]));
    }
}
