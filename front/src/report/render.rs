//! Messages for people.

use std::fmt;

use rustix::fd::AsFd;

use super::{Diagnostic, Severity};

/// How messages are written.
#[derive(Clone, Copy, PartialEq, Eq, Debug, Default)]
pub enum Style {
    /// One line a message, as GNU ld and compilers write them for editors.
    #[default]
    Line,
    /// With the line of the file below, and what is meant in it.
    Excerpt,
    /// With the line of the file below, in colour.
    Coloured,
}

impl Style {
    /// The style for a stream that is open: in colour on a terminal that has colours, else one line each.
    #[must_use]
    pub fn of(stream: &impl AsFd) -> Style {
        if has_colours(stream) {
            Style::Coloured
        } else {
            Style::Line
        }
    }
}

/// Whether a stream is a terminal that has colours, and the environment forbids none (`NO_COLOR`, `TERM=dumb`).
#[must_use]
pub fn has_colours(stream: &impl AsFd) -> bool {
    let is_allowed = std::env::var_os("NO_COLOR").map_or(true, |value| value.is_empty());
    let has_term = std::env::var_os("TERM").map_or(false, |term| !term.is_empty() && term != "dumb");
    is_allowed && has_term && rustix::termios::isatty(stream)
}

/// How long the text of a line is at most where it stands in a message.
const MAX_TEXT: usize = 160;

/// The escape sequences of a style (ECMA-48, 'SGR'); empty ones without colour.
struct Colours {
    bold: &'static str,
    severity: &'static str,
    mark: &'static str,
    end: &'static str,
}

impl Colours {
    fn of(style: Style, severity: Severity) -> Colours {
        if style != Style::Coloured {
            return Colours { bold: "", severity: "", mark: "", end: "" };
        }
        let severity = match severity {
            Severity::Error => "\x1b[1;31m",
            Severity::Warning => "\x1b[1;35m",
            Severity::Note => "\x1b[1;36m",
        };
        Colours { bold: "\x1b[1m", severity, mark: "\x1b[1;32m", end: "\x1b[0m" }
    }
}

impl Diagnostic {
    /// The message in a style, without a line feed at its end.
    #[must_use]
    pub fn render(&self, style: Style) -> String {
        match style {
            Style::Line => self.to_string(),
            Style::Excerpt | Style::Coloured => self.with_lines(&Colours::of(style, self.severity)),
        }
    }

    /// The front of the message, before the sentence: the place.
    fn prefix(&self) -> String {
        let mut prefix = String::new();
        if let Some(file) = &self.file {
            prefix.push_str(file);
            if let Some(line) = self.line {
                prefix.push_str(&format!(":{line}"));
            }
            prefix.push_str(": ");
        }
        if let Some(site) = &self.site {
            prefix.push_str(site);
            prefix.push_str(": ");
        }
        prefix
    }

    /// The message over several lines.
    fn with_lines(&self, colours: &Colours) -> String {
        let Colours { bold, severity, mark, end } = colours;
        let rule = self.rule.as_ref().map(|rule| format!(" [{rule}]")).unwrap_or_default();
        let word = self.severity.word();
        let mut text = format!("{bold}{}{end}{severity}{word}:{end} {bold}{}{end}{rule}", self.prefix(), self.sentence);
        if let Some(excerpt) = &self.excerpt {
            let number = self.line.map(|line| line.to_string()).unwrap_or_default();
            let (space, marks) = (" ".repeat(excerpt.column), "~".repeat(excerpt.length.saturating_sub(1)));
            text.push_str(&format!("\n{number:>5} | {}\n      | {space}{mark}^{marks}{end}", excerpt.text));
        }
        for note in &self.notes {
            text.push_str(&format!("\n{bold}note:{end} {note}"));
        }
        if let Some(advice) = &self.advice {
            text.push_str(&format!("\n{bold}to do:{end} {advice}"));
        }
        text
    }
}

impl Diagnostic {
    /// The message on one line: place, sentence, notes, what to do, and the line of the file.
    #[must_use]
    pub fn message(&self) -> String {
        let mut text = format!("{}{}", self.prefix(), self.sentence);
        self.notes.iter().for_each(|note| text.push_str(&format!("; {note}")));
        if let Some(advice) = &self.advice {
            text.push_str(if self.notes.is_empty() { "; " } else { ": " });
            text.push_str(advice);
        }
        let line = self.excerpt.as_ref().map_or("", |excerpt| excerpt.text.trim());
        if !line.is_empty() {
            let end = if line.chars().nth(MAX_TEXT).is_some() { " .." } else { "" };
            let short: String = line.chars().take(MAX_TEXT).collect();
            text.push_str(&format!(": {short}{end}"));
        }
        text
    }
}

impl fmt::Display for Diagnostic {
    /// The message on one line, and in brackets that of `ldi`.
    fn fmt(&self, f: &mut fmt::Formatter<'_>) -> fmt::Result {
        f.write_str(&self.message())?;
        match &self.rule {
            Some(rule) => write!(f, " [{rule}]"),
            None => Ok(()),
        }
    }
}
