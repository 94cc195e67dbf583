//! Notes on how the constructs of a script were rewritten.

use std::fmt;

use crate::script::source::Place;

/// What became of a construct.
#[derive(Clone, Copy, PartialEq, Eq, PartialOrd, Ord, Hash, Debug)]
pub enum NoteKind {
    /// The construct has no effect on the image.
    Dropped,
    /// The text is another, the meaning the same.
    Rewritten,
    /// `ldi` does not have the meaning; the sentence says what is different.
    Changed,
    /// Nothing can be written for it; the sentence says what to do.
    Left,
}

impl fmt::Display for NoteKind {
    fn fmt(&self, f: &mut fmt::Formatter<'_>) -> fmt::Result {
        f.write_str(match self {
            NoteKind::Dropped => "dropped",
            NoteKind::Rewritten => "rewritten",
            NoteKind::Changed => "changed",
            NoteKind::Left => "left",
        })
    }
}

/// What a line says.
#[derive(Clone, Copy, PartialEq, Eq, PartialOrd, Ord, Hash, Debug, Default)]
pub enum Topic {
    /// A statement of the script.
    #[default]
    Statement,
    /// PHDRS or `:NAME`: `finish` writes what they ask for.
    Segments,
    /// The form of the file (OUTPUT_FORMAT): `finish` writes it.
    Form,
    /// The entry, which a flat file does not have.
    Entry,
    /// What is no matter of places, values and bytes, which are compared with GNU ld's.
    Beside,
    /// Bytes of a section that GNU ld does not load: `finish` leaves them out of a flat file.
    NotLoaded,
}

/// One line of the report.
#[derive(Clone, PartialEq, Eq, Hash, Debug)]
pub struct Note {
    /// What became of the construct.
    pub kind: NoteKind,
    /// What it is of.
    pub topic: Topic,
    /// Where it stands.
    pub place: Place,
    /// The sentence.
    pub sentence: String,
}

impl fmt::Display for Note {
    fn fmt(&self, f: &mut fmt::Formatter<'_>) -> fmt::Result {
        write!(f, "{}: {}: {}", self.place, self.kind, self.sentence)
    }
}
