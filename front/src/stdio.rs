//! The output of a link: on the streams of this process, or kept for the process that asked for the link.

use std::cell::RefCell;
use std::fmt::Arguments;
use std::io::Write;

use crate::report::Style;

/// A stream that a link prints on.
#[derive(Clone, Copy, PartialEq, Eq, Hash, Debug)]
pub enum Stream {
    /// Standard output.
    Output,
    /// Standard error.
    Errors,
}

/// A text, and its stream.
#[derive(Clone, PartialEq, Eq, Debug)]
pub struct Printed {
    /// The stream.
    pub stream: Stream,
    /// The text.
    pub text: Vec<u8>,
}

/// The texts of a thread whose link is another process's.
struct Kept {
    style: Style,
    texts: Vec<Printed>,
}

thread_local! {
    static KEPT: RefCell<Option<Kept>> = const { RefCell::new(None) };
}

/// Prints a text. That it cannot be printed, for example if its reader has gone away, is no fault of the link.
pub fn print(stream: Stream, text: &[u8]) {
    let is_kept = KEPT.with(|kept| match kept.borrow_mut().as_mut() {
        Some(kept) => {
            kept.texts.push(Printed { stream, text: text.to_owned() });
            true
        }
        None => false,
    });
    if !is_kept {
        let _ = print_here(stream, text);
    }
}

/// Prints a text on a stream of this process.
///
/// # Errors
/// If the stream cannot be written.
pub fn print_here(stream: Stream, text: &[u8]) -> std::io::Result<()> {
    match stream {
        Stream::Output => {
            let mut out = std::io::stdout();
            out.write_all(text).and_then(|()| out.flush())
        }
        Stream::Errors => std::io::stderr().write_all(text),
    }
}

/// Prints a line.
pub fn print_line(stream: Stream, words: Arguments<'_>) {
    print(stream, format!("{words}\n").as_bytes());
}

/// The style of messages on standard error.
pub fn error_style() -> Style {
    let kept = KEPT.with(|kept| kept.borrow().as_ref().map(|kept| kept.style));
    kept.unwrap_or_else(|| Style::of(&std::io::stderr()))
}

/// Does something, and gives what this thread printed meanwhile, as it would be on a standard error of this style.
pub fn keep<T>(style: Style, act: impl FnOnce() -> T) -> (T, Vec<Printed>) {
    let before = KEPT.with(|kept| kept.replace(Some(Kept { style, texts: Vec::new() })));
    let done = act();
    let kept = KEPT.with(|kept| kept.replace(before));
    (done, kept.map_or_else(Vec::new, |kept| kept.texts))
}

#[cfg(test)]
mod tests {
    use super::*;

    #[test]
    fn texts_are_kept_in_their_order() {
        let ((), texts) = keep(Style::Line, || {
            print(Stream::Output, b"one");
            let ((), inner) = keep(Style::Line, || print(Stream::Errors, b"inner"));
            assert_eq!(inner, [Printed { stream: Stream::Errors, text: b"inner".to_vec() }]);
            print_line(Stream::Errors, format_args!("two {}", 2));
            assert_eq!(error_style(), Style::Line);
        });
        let found: Vec<(Stream, &[u8])> = texts.iter().map(|one| (one.stream, &one.text[..])).collect();
        assert_eq!(found, [(Stream::Output, &b"one"[..]), (Stream::Errors, b"two 2\n")]);
    }
}
