//! Any bytes as readable text of one line.

use std::fmt::Write as _;

/// A name or a text as text of one line, whatever its bytes are: what cannot be seen is escaped as in Python and C.
#[must_use]
pub fn plain(bytes: &[u8]) -> String {
    let mut text = String::with_capacity(bytes.len());
    let mut rest = bytes;
    loop {
        match std::str::from_utf8(rest) {
            Ok(good) => {
                put(&mut text, good);
                return text;
            }
            Err(error) => {
                let (good, bad) = rest.split_at(error.valid_up_to());
                put(&mut text, std::str::from_utf8(good).unwrap_or_default());
                let length = error.error_len().unwrap_or(bad.len());
                for byte in bad.iter().take(length) {
                    let _ = write!(text, "\\x{byte:02x}");
                }
                rest = bad.get(length..).unwrap_or_default();
            }
        }
    }
}

/// Bytes without the white space of ASCII around them.
pub(super) fn trimmed(bytes: &[u8]) -> &[u8] {
    let start = bytes.iter().position(|byte| !byte.is_ascii_whitespace()).unwrap_or(bytes.len());
    let end = bytes.iter().rposition(|byte| !byte.is_ascii_whitespace()).map_or(start, |last| last + 1);
    bytes.get(start..end).unwrap_or_default()
}

fn put(text: &mut String, good: &str) {
    for letter in good.chars() {
        let code = u32::from(letter);
        let _ = match letter {
            '\n' => text.write_str("\\n"),
            '\r' => text.write_str("\\r"),
            '\t' => text.write_str("\\t"),
            _ if !is_hidden(letter) => text.write_char(letter),
            _ if code < 0x100 => write!(text, "\\x{code:02x}"),
            _ if code < 0x1_0000 => write!(text, "\\u{code:04x}"),
            _ => write!(text, "\\U{code:08x}"),
        };
    }
}

/// Whether a letter cannot be seen, or changes how others are: controls, marks of direction, separators, private use.
fn is_hidden(letter: char) -> bool {
    letter.is_control()
        || letter.is_whitespace() && letter != ' '
        || matches!(u32::from(letter), 0xAD | 0x600..=0x605 | 0x61C | 0x6DD | 0x180E | 0x200B..=0x200F | 0x202A..=0x202E
            | 0x2060..=0x206F | 0xE000..=0xF8FF | 0xFEFF | 0xFFF9..=0xFFFB | 0xE_0000..=0x10_FFFF)
}

#[cfg(test)]
mod tests {
    use super::*;

    #[test]
    fn what_cannot_be_seen_is_escaped() {
        assert_eq!(plain(b"a \xff\x1b[2J\n\t\xc3\xa4"), "a \\xff\\x1b[2J\\n\\t\u{e4}");
        assert_eq!(plain("\u{200b}\u{202e}\u{a0}\u{f0000}".as_bytes()), "\\u200b\\u202e\\xa0\\U000f0000");
        assert_eq!(plain(b"\xe2\x82"), "\\xe2\\x82");
        assert_eq!(trimmed(b" \ta b\n"), b"a b");
        assert_eq!(trimmed(b" \n"), b"");
    }
}
