//! Changes of a text by spans: all else stays byte for byte, and each line of the result knows where it came from.

use std::borrow::Cow;
use std::cmp::Reverse;
use std::collections::BTreeMap;

use super::top::FRONT;
use crate::script::tree::Span;

/// A piece that is put before an offset.
#[derive(Clone, Debug)]
struct Insert {
    /// Its place among those of one offset.
    order: i32,
    text: Vec<u8>,
    /// A part of the old text that stands here, with its changes.
    moved: Option<Span>,
    /// The offset of the old text that it came from.
    origin: u32,
}

/// Changes over one text. A change inside another one that replaces its surroundings is dropped.
#[derive(Debug, Default)]
pub(super) struct Rewrites {
    /// Spans and their new texts.
    replaced: Vec<(Span, Vec<u8>)>,
    inserted: BTreeMap<u32, Vec<Insert>>,
    /// The spans that stand elsewhere.
    moved: Vec<Span>,
}

/// The text that was unplaced, and for each of its lines an offset of the old text that it came from.
#[derive(Clone, PartialEq, Eq, Debug)]
pub(super) struct Rendered {
    pub(super) text: Vec<u8>,
    pub(super) origins: Vec<u32>,
}

impl Rewrites {
    /// Puts another text in place of a span; comments and line ends of the span stay after it.
    pub(super) fn replace(&mut self, text: &[u8], span: Span, new: impl Into<Vec<u8>>) {
        let mut new = new.into();
        let rest = comments_and_line_ends(text.get(span.start as usize..span.end as usize).unwrap_or_default());
        if !new.is_empty() && rest.starts_with(b"/") {
            new.push(b' ');
        }
        new.extend(rest);
        // A statement is decided on step by step: the last text for it counts.
        match self.replaced.iter_mut().rev().take(4).find(|(other, _)| *other == span) {
            Some((_, old)) => *old = new,
            None => self.replaced.push((span, new)),
        }
    }

    /// Takes a span out, but for its comments and line ends.
    pub(super) fn blank(&mut self, text: &[u8], span: Span) {
        self.replace(text, span, Vec::new());
    }

    /// A text before an offset; those of one offset stand by `order`, then as they came.
    pub(super) fn insert(&mut self, at: u32, order: i32, text: impl Into<Vec<u8>>) {
        self.insert_from(at, order, text, at);
    }

    /// Inserts a text at a place, as one that came from another offset.
    pub(super) fn insert_from(&mut self, at: u32, order: i32, text: impl Into<Vec<u8>>, origin: u32) {
        self.inserted.entry(at).or_default().push(Insert { order, text: text.into(), moved: None, origin });
    }

    /// Moves a span, with all changes in it, before an offset.
    pub(super) fn shift(&mut self, span: Span, at: u32, order: i32) {
        let insert = Insert { order, text: Vec::new(), moved: Some(span), origin: span.start };
        self.inserted.entry(at).or_default().push(insert);
        self.moved.push(span);
    }

    /// Whether a text that was written last has a name in it.
    pub(super) fn mentions(&self, name: &[u8]) -> bool {
        let mut texts = self.replaced.iter().rev().take(2);
        texts.any(|(_, text)| memchr::memmem::find(text, name).is_some())
    }

    /// The changed text.
    pub(super) fn render(mut self, text: &[u8]) -> Rendered {
        self.replaced.sort_by_key(|(span, _)| place_of(*span));
        for inserts in self.inserted.values_mut() {
            inserts.sort_by_key(|insert| insert.order);
        }
        let mut rendering = Rendering {
            moved_from: None,
            rewrites: &self,
            old: text,
            text: Vec::with_capacity(text.len()),
            origins: vec![0],
        };
        rendering.write_all();
        Rendered { text: rendering.text, origins: rendering.origins }
    }
}

fn contains(outer: Span, inner: Span) -> bool {
    outer.start <= inner.start && inner.end <= outer.end
}

/// The order of changes: first those in place of nothing, then the longest.
fn place_of(span: Span) -> (u32, bool, Reverse<u32>) {
    (span.start, span.end != span.start, Reverse(span.end))
}

/// The line ends of a span.
fn line_ends(text: &[u8], span: Span) -> Vec<u8> {
    let inside = text.get(span.start as usize..span.end as usize).unwrap_or_default();
    inside.iter().copied().filter(|byte| *byte == b'\n').collect()
}

/// What stays of a text that is taken out: its comments and its line ends.
fn comments_and_line_ends(text: &[u8]) -> Vec<u8> {
    let mut kept = Vec::new();
    let mut rest = text;
    while let Some((byte, after)) = rest.split_first() {
        let (length, is_comment) = comment_or_text(rest);
        if is_comment || *byte == b'\n' {
            kept.extend_from_slice(rest.get(..length.max(1)).unwrap_or_default());
        }
        rest = rest.get(length..).filter(|_| length > 0).unwrap_or(after);
    }
    kept
}

/// The length of the comment, or of the text in quotes, that a text begins with, and whether it is a comment; 0 of
/// anything else.
pub(super) fn comment_or_text(text: &[u8]) -> (usize, bool) {
    let end_of = |begin: &[u8], end: &[u8]| {
        let rest = text.strip_prefix(begin)?;
        Some(begin.len() + memchr::memmem::find(rest, end)? + end.len())
    };
    match end_of(b"/*", b"*/") {
        Some(length) => (length, true),
        None => (end_of(b"\"", b"\"").unwrap_or(0), false),
    }
}

/// A text that is written in place of a span.
struct Change<'a> {
    span: Span,
    new: Cow<'a, [u8]>,
    /// Whether the span stands elsewhere.
    is_hole: bool,
}

/// A text while it is made.
struct Rendering<'a> {
    /// Where the part begins that is written elsewhere: what stands in front of all stays there.
    moved_from: Option<u32>,
    rewrites: &'a Rewrites,
    old: &'a [u8],
    text: Vec<u8>,
    origins: Vec<u32>,
}

impl Rendering<'_> {
    /// Writes the old text with its changes; of what stands elsewhere the line ends alone.
    fn write_all(&mut self) {
        let (rewrites, old) = (self.rewrites, self.old);
        let end = u32::try_from(old.len()).unwrap_or(u32::MAX);
        let is_here = |span: Span| !rewrites.moved.iter().any(|moved| contains(*moved, span));
        let own = rewrites.replaced.iter().filter(|(span, _)| span.end <= end && is_here(*span));
        let mut changes: Vec<Change<'_>> =
            own.map(|(span, new)| Change { span: *span, new: new.into(), is_hole: false }).collect();
        let hole = |span: &Span| Change { span: *span, new: line_ends(old, *span).into(), is_hole: true };
        changes.extend(rewrites.moved.iter().map(hole));
        changes.sort_by_key(|change| place_of(change.span));
        self.stretch(0, end, changes);
        self.inserts(end);
    }

    /// A span that stands elsewhere, with its changes.
    fn moved(&mut self, moved: Span) {
        let rewrites = self.rewrites;
        let inside = rewrites.replaced.iter().filter(|(span, _)| contains(moved, *span));
        let changes = inside.map(|(span, new)| Change { span: *span, new: new.into(), is_hole: false });
        let before = self.moved_from.replace(moved.start);
        self.stretch(moved.start, moved.end, changes.collect());
        self.moved_from = before;
    }

    /// A stretch of the old text with changes of it in their order.
    fn stretch(&mut self, from: u32, to: u32, changes: Vec<Change<'_>>) {
        let mut done = from;
        for change in changes {
            let span = change.span;
            if span.start < done {
                continue;
            }
            done = self.write_old(done, span.start);
            // What is put in place of nothing stands before what is inserted there.
            if change.is_hole {
                self.inserts_of(span.start, true);
            } else if span.end > span.start {
                self.inserts(span.start);
            }
            self.put(&change.new, span.start, false);
            done = done.max(span.end);
        }
        self.write_old(done, to);
    }

    /// Writes the old text between two offsets, with what is inserted before its bytes; gives the second offset.
    fn write_old(&mut self, from: u32, to: u32) -> u32 {
        let places: Vec<u32> = match from < to {
            true => self.rewrites.inserted.range(from..to).map(|(at, _)| *at).collect(),
            false => Vec::new(),
        };
        let old = self.old;
        let mut done = from;
        for at in places {
            self.put(old.get(done as usize..at as usize).unwrap_or_default(), done, true);
            done = at;
            self.inserts(at);
        }
        self.put(old.get(done as usize..to as usize).unwrap_or_default(), done, true);
        to.max(from)
    }

    fn inserts(&mut self, at: u32) {
        let is_moved = self.moved_from == Some(at);
        if !is_moved {
            self.inserts_of(at, true);
        }
        self.inserts_of(at, false);
    }

    /// Writes the texts that are inserted at an offset: those in front of all, or the others.
    fn inserts_of(&mut self, at: u32, is_front: bool) {
        let rewrites = self.rewrites;
        let all = rewrites.inserted.get(&at).map(Vec::as_slice).unwrap_or_default();
        for insert in all.iter().filter(|insert| (insert.order <= FRONT) == is_front) {
            match insert.moved {
                Some(span) => {
                    self.put(b" ", insert.origin, false);
                    self.moved(span);
                    self.put(b" ", insert.origin, false);
                }
                None => self.put(&insert.text, insert.origin, false),
            }
        }
    }

    /// Bytes that came from an offset, on from it if they are of the old text.
    fn put(&mut self, bytes: &[u8], offset: u32, is_own: bool) {
        if bytes.is_empty() {
            return;
        }
        if self.text.last().map_or(true, |last| *last == b'\n') {
            self.set_origin(offset);
        }
        let mut origin = offset;
        for at in memchr::memchr_iter(b'\n', bytes) {
            let after = at as u32 + 1;
            origin = if is_own { offset + after } else { self.next_line(origin) };
            self.origins.push(origin);
        }
        self.text.extend_from_slice(bytes);
    }

    /// Where the line that has no byte yet came from.
    fn set_origin(&mut self, offset: u32) {
        if let Some(last) = self.origins.last_mut() {
            *last = offset;
        }
    }

    /// The offset of the line after that of an offset.
    fn next_line(&self, offset: u32) -> u32 {
        let rest = self.old.get(offset as usize..).unwrap_or_default();
        memchr::memchr(b'\n', rest).map_or(offset, |at| offset + at as u32 + 1)
    }
}

#[cfg(test)]
mod tests {
    use super::*;

    fn span(start: u32, end: u32) -> Span {
        Span { start, end }
    }

    fn rendered(text: &str, change: impl FnOnce(&mut Rewrites)) -> (String, Vec<u32>) {
        let mut rewrites = Rewrites::default();
        change(&mut rewrites);
        let done = rewrites.render(text.as_bytes());
        (String::from_utf8(done.text).unwrap(), done.origins)
    }

    #[test]
    fn what_is_not_changed_stays() {
        assert_eq!(rendered("a\nb\n", |_| ()), ("a\nb\n".into(), vec![0, 2, 4]));
    }

    #[test]
    fn comments_and_line_ends_stay() {
        let text = "one(\n /* two */ three)\nfour";
        let done = rendered(text, |rewrites| rewrites.blank(text.as_bytes(), span(0, 22)));
        assert_eq!(done.0, "\n/* two */\nfour");
        let done = rendered(text, |rewrites| rewrites.replace(text.as_bytes(), span(0, 22), "x"));
        assert_eq!(done, ("x\n/* two */\nfour".into(), vec![0, 5, 23]));
    }

    #[test]
    fn what_is_in_quotes_is_no_comment() {
        let text = "one(\"*/a/*\" /* two */ \"/*b*/\")";
        let done = rendered(text, |rewrites| rewrites.blank(text.as_bytes(), span(0, text.len() as u32)));
        assert_eq!(done.0, "/* two */");
    }

    #[test]
    fn texts_are_inserted_in_their_order() {
        let done = rendered("ab", |rewrites| {
            rewrites.insert(1, 5, "3");
            rewrites.insert(1, 0, "1");
            rewrites.insert(1, 0, "2");
            rewrites.insert(2, 0, "4");
        });
        assert_eq!(done.0, "a123b4");
    }

    #[test]
    fn a_text_in_place_of_nothing_stands_first() {
        let done = rendered("abcd", |rewrites| {
            rewrites.replace(b"abcd", span(2, 3), "X");
            rewrites.insert(2, 0, "2");
            rewrites.replace(b"abcd", span(2, 2), "1");
            rewrites.replace(b"abcd", span(4, 4), "4");
            rewrites.insert(4, 0, "5");
        });
        assert_eq!(done.0, "ab12Xd45");
    }

    #[test]
    fn a_part_stands_elsewhere_with_its_changes() {
        let done = rendered("ab\ncdef", |rewrites| {
            rewrites.replace(b"ab\ncdef", span(1, 2), "B");
            rewrites.insert(1, 0, "<");
            rewrites.insert(4, 0, ">");
            rewrites.replace(b"ab\ncdef", span(4, 4), "|");
            rewrites.shift(span(1, 4), 6, 0);
        });
        assert_eq!(done.0, "a\n>de <B\nc| f");
        let done = rendered("abcd", |rewrites| {
            rewrites.replace(b"abcd", span(1, 2), "B");
            rewrites.shift(span(1, 2), 0, 0);
        });
        assert_eq!(done.0, " B acd");
    }

    #[test]
    fn a_change_within_another_is_dropped() {
        let done = rendered("abcdef", |rewrites| {
            rewrites.replace(b"abcdef", span(1, 5), "X");
            rewrites.replace(b"abcdef", span(2, 3), "Y");
            rewrites.insert(3, 0, "Z");
        });
        assert_eq!(done.0, "aXf");
    }

    #[test]
    fn a_text_that_came_from_elsewhere_has_its_line() {
        let text = "first\nsecond\nthird";
        let done = rendered(text, |rewrites| {
            rewrites.insert_from(0, 0, "\nmoved\n", 13);
            rewrites.replace(text.as_bytes(), span(13, 18), "");
        });
        assert_eq!(done, ("\nmoved\nfirst\nsecond\n".into(), vec![13, 13, 0, 6, 13]));
    }
}
