//! JSON, as far as messages need it (RFC 8259).

use std::fmt::Write as _;

use super::{Diagnostic, Excerpt};

/// A text as a JSON string.
#[must_use]
pub fn json_string(text: &str) -> String {
    let mut out = String::with_capacity(text.len() + 2);
    out.push('"');
    for letter in text.chars() {
        match letter {
            '"' => out.push_str("\\\""),
            '\\' => out.push_str("\\\\"),
            '\n' => out.push_str("\\n"),
            _ if letter < ' ' || letter == '\x7f' => {
                let _ = write!(out, "\\u{:04x}", u32::from(letter));
            }
            _ => out.push(letter),
        }
    }
    out.push('"');
    out
}

/// An object that is written member by member, on one line.
#[derive(Default)]
pub struct JsonObject {
    members: String,
}

impl JsonObject {
    /// An object without members.
    #[must_use]
    pub fn new() -> JsonObject {
        JsonObject::default()
    }

    /// Adds a member whose value is JSON already.
    #[must_use]
    pub fn raw(mut self, name: &str, value: &str) -> JsonObject {
        if !self.members.is_empty() {
            self.members.push_str(", ");
        }
        let _ = write!(self.members, "{}: {value}", json_string(name));
        self
    }

    /// Adds a text.
    #[must_use]
    pub fn text(self, name: &str, value: &str) -> JsonObject {
        self.raw(name, &json_string(value))
    }

    /// Adds a text, if it is there.
    #[must_use]
    pub fn optional(self, name: &str, value: Option<&str>) -> JsonObject {
        match value {
            Some(value) => self.text(name, value),
            None => self,
        }
    }

    /// Adds a number.
    #[must_use]
    pub fn number(self, name: &str, value: u64) -> JsonObject {
        self.raw(name, &value.to_string())
    }

    /// Adds a list of what is JSON already.
    #[must_use]
    pub fn list(self, name: &str, values: impl IntoIterator<Item = String>) -> JsonObject {
        let values: Vec<String> = values.into_iter().collect();
        self.raw(name, &format!("[{}]", values.join(", ")))
    }

    /// The object's text.
    #[must_use]
    pub fn finish(self) -> String {
        format!("{{{}}}", self.members)
    }
}

impl Diagnostic {
    /// Adds the message to an object: `severity`, `message` (the line for people) and `line` (that of `ldi`), and as
    /// far as they are known `place` (`file`, and `line` and `column` from 1), `site`, `sentence`, `notes`, `advice`,
    /// `text` and `length` (the script's line, and the characters that are meant in it).
    #[must_use]
    pub fn add_to(&self, json: JsonObject) -> JsonObject {
        let json = json.text("severity", self.severity.word()).text("message", &self.message());
        let mut json = json.optional("line", self.rule.as_deref());
        if let Some(file) = &self.file {
            let mut place = JsonObject::new().text("file", file);
            for (name, number) in [("line", self.line), ("column", self.column)] {
                place = number.map(u64::from).into_iter().fold(place, |place, number| place.number(name, number));
            }
            json = json.raw("place", &place.finish());
        }
        json = json.optional("site", self.site.as_deref()).text("sentence", &self.sentence);
        if !self.notes.is_empty() {
            json = json.list("notes", self.notes.iter().map(|note| json_string(note)));
        }
        json = json.optional("advice", self.advice.as_deref());
        match &self.excerpt {
            Some(Excerpt { text, length, .. }) => json.text("text", text).number("length", *length as u64),
            None => json,
        }
    }
}
