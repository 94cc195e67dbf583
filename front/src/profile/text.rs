//! What the text itself shows: comments of `#`, and the limits on braces and signs (docs/limits.md, 'Scripts').

use super::limits::{MAX_BRACES, MAX_SIGNS};
use super::{Cause, Check};
use crate::script::tree::Span;

/// The words whose parentheses hold an expression among patterns.
const BEFORE_EXPRESSIONS: [&[u8]; 6] = [b"BYTE", b"SHORT", b"LONG", b"QUAD", b"PROVIDE", b"ASSERT"];

/// A piece of a text.
#[derive(Clone, Copy, PartialEq, Eq, Debug)]
pub(crate) enum Piece {
    /// A comment.
    Comment,
    /// A text in quotes.
    Text,
    /// Letters, digits, `_`, `.` and `$`.
    Word,
    /// A byte that is none of these.
    Other(u8),
}

/// The pieces of a text with their places; white space is none.
pub(crate) fn pieces(text: &[u8]) -> Pieces<'_> {
    Pieces { text, at: 0, depth: 0, stretch: Stretch::None, is_pattern: false }
}

/// The pieces of a text, one after the other.
pub(crate) struct Pieces<'a> {
    text: &'a [u8],
    at: usize,
    /// The braces that are open.
    depth: usize,
    stretch: Stretch,
    /// Whether the last piece is one of pattern mode.
    is_pattern: bool,
}

impl Iterator for Pieces<'_> {
    type Item = (usize, usize, Piece);

    fn next(&mut self) -> Option<(usize, usize, Piece)> {
        while self.text.get(self.at)?.is_ascii_whitespace() {
            self.at += 1;
        }
        let start = self.at;
        let is_pattern = self.depth == 2 && matches!(self.stretch, Stretch::None | Stretch::Awaited);
        let (length, piece) = piece_of(self.text.get(start..)?, is_pattern)?;
        self.at += length;
        let byte = match piece {
            Piece::Other(byte) => byte,
            Piece::Comment => return Some((start, self.at, piece)),
            Piece::Word | Piece::Text => 0,
        };
        self.is_pattern = is_pattern && !(self.stretch == Stretch::Awaited && byte == b'(');
        self.stretch = self.stretch_after(byte, self.text.get(start..self.at).unwrap_or_default(), is_pattern);
        match byte {
            b'{' => self.depth += 1,
            b'}' => self.depth = self.depth.saturating_sub(1),
            _ => {}
        }
        Some((start, self.at, piece))
    }
}

impl Pieces<'_> {
    fn stretch_after(&self, byte: u8, text: &[u8], is_pattern: bool) -> Stretch {
        match (self.stretch, byte) {
            (Stretch::Awaited, b'(') => Stretch::ToParenthesis(1),
            (Stretch::ToSemicolon, b';') | (Stretch::ToParenthesis(1), b')') => Stretch::None,
            (Stretch::ToParenthesis(open), b'(') => Stretch::ToParenthesis(open + 1),
            (Stretch::ToParenthesis(open), b')') => Stretch::ToParenthesis(open - 1),
            (Stretch::None | Stretch::Awaited, b'=') if is_pattern => Stretch::ToSemicolon,
            (Stretch::None | Stretch::Awaited, 0) if is_pattern && BEFORE_EXPRESSIONS.contains(&text) => {
                Stretch::Awaited
            }
            (Stretch::None | Stretch::Awaited, _) => Stretch::None,
            (stretch, _) => stretch,
        }
    }
}

/// The piece that a text begins with, and its length. A pattern may have `/*` in it, which is no comment.
fn piece_of(text: &[u8], is_pattern: bool) -> Option<(usize, Piece)> {
    let first = *text.first()?;
    let is_in_word = |byte: &u8| byte.is_ascii_alphanumeric() || b"_.$".contains(byte);
    let is_in_pattern = |byte: &u8| is_pattern && b"/*?[]-\\".contains(byte);
    let is_in = |byte: &u8| is_in_word(byte) || is_in_pattern(byte);
    Some(match first {
        b'/' if text.starts_with(b"/*") => {
            let end = memchr::memmem::find(text.get(2..)?, b"*/").map_or(text.len(), |end| end + 4);
            (end, Piece::Comment)
        }
        b'"' => (memchr::memchr(b'"', text.get(1..)?).map_or(text.len(), |end| end + 2), Piece::Text),
        byte if is_in(&byte) => {
            let mut before = 0;
            let is_next = |byte: &&u8| std::mem::replace(&mut before, **byte) == b'\\' && is_pattern || is_in(byte);
            (text.iter().take_while(is_next).count(), Piece::Word)
        }
        byte => (1, Piece::Other(byte)),
    })
}

/// The comments of `#`, which the profile has not: from the sign to before the end of the line.
pub(crate) fn hash_comments(text: &[u8]) -> Vec<(usize, usize)> {
    let mut found = Vec::new();
    let mut after = 0;
    for (start, _, piece) in pieces(text) {
        if piece == Piece::Other(b'#') && start >= after {
            let rest = text.get(start..).unwrap_or_default();
            after = start + memchr::memchr(b'\n', rest).unwrap_or(rest.len());
            found.push((start, after));
        }
    }
    found
}

impl Check<'_> {
    /// Looks at the text itself.
    pub(super) fn text(&mut self) {
        let text = self.source.text();
        for (start, end) in hash_comments(text) {
            let sentence = "`#` begins no comment: write it between `/*` and `*/`";
            self.object(Cause::Tokens, span(start, end), sentence);
        }
        let (mut counts, mut pieces) = (Counts::default(), pieces(text));
        while let Some((start, end, piece)) = pieces.next() {
            if let Some(sentence) = counts.pass(piece, pieces.is_pattern) {
                self.object(Cause::Limit, span(start, end), sentence);
            }
        }
    }
}

fn span(start: usize, end: usize) -> Span {
    let offset = |at: usize| u32::try_from(at).unwrap_or(u32::MAX);
    Span { start: offset(start), end: offset(end) }
}

/// What is an expression among patterns.
#[derive(Clone, Copy, PartialEq, Eq, Debug, Default)]
enum Stretch {
    /// Nothing.
    #[default]
    None,
    /// What follows if it is a `(`.
    Awaited,
    /// What follows, up to `;`.
    ToSemicolon,
    /// What follows, up to the `)` of this number of parentheses.
    ToParenthesis(usize),
}

/// The counts of a text up to a place.
#[derive(Default)]
struct Counts {
    braces: usize,
    signs: usize,
    /// The byte before, if it was a piece of its own.
    last: u8,
}

impl Counts {
    /// Passes a piece; gives what is said of the first that passes a limit.
    fn pass(&mut self, piece: Piece, is_pattern: bool) -> Option<&'static str> {
        let byte = match piece {
            Piece::Other(byte) => byte,
            Piece::Comment => return None,
            Piece::Word | Piece::Text => 0,
        };
        let is_over = self.count_sign(byte, is_pattern);
        self.last = byte;
        self.braces += usize::from(byte == b'{');
        if byte == b'{' && self.braces == MAX_BRACES + 1 {
            return Some("over a limit: this is `{` number 4,097 of the text");
        }
        is_over.then_some("over a limit: more than 64 operators and `(` with no `;`, `{` or `}` between them")
    }

    /// Counts an operator or `(`; gives whether it is the first past the limit.
    fn count_sign(&mut self, byte: u8, is_pattern: bool) -> bool {
        if matches!(byte, b';' | b'{' | b'}') || is_pattern {
            self.signs = 0;
            return false;
        }
        let is_sign = match (self.last, byte) {
            (b'<', b'<') | (b'>', b'>') | (b'&', b'&') | (b'|', b'|') | (b'<' | b'>' | b'!', b'=') => false,
            (b'=', b'=') => true,
            (b'+', b'=') => {
                self.signs = self.signs.saturating_sub(1);
                false
            }
            (_, byte) => b"!-~*/%+<>&|?(".contains(&byte),
        };
        self.signs += usize::from(is_sign);
        is_sign && self.signs == MAX_SIGNS + 1
    }
}

#[cfg(test)]
mod tests {
    use super::*;
    use bstr::ByteSlice;

    #[test]
    fn a_comment_of_a_line() {
        assert_eq!(hash_comments(b"a = 1; # one # two\nb /* # */ \"#\""), [(7, 18)]);
        assert_eq!(hash_comments(b"# all"), [(0, 5)]);
    }

    /// GNU ld's lexer takes the longest match: `/*` begins a comment in front of a pattern, not within one or in
    /// quotes.
    #[test]
    fn comments_and_patterns() {
        let text = b"S { .t : { */a/* */b/*) x/*.o(.c) /* (c */ \"*/d/*\"(.e) . = (1/* f */+ 2); } }";
        let of = |(start, end, piece)| (text[start..end].to_str_lossy().into_owned(), piece);
        let comments: Vec<_> = pieces(text).map(of).filter(|(_, piece)| *piece == Piece::Comment).collect();
        assert_eq!(comments.iter().map(|(text, _)| text.as_str()).collect::<Vec<_>>(), ["/* (c */", "/* f */"]);
        assert!(pieces(text).map(of).any(|one| one == ("*/b/*".into(), Piece::Word)));
        assert!(pieces(text).map(of).any(|one| one == ("\"*/d/*\"".into(), Piece::Text)));
    }
}
