//! Rewrites a script of GNU ld's language into the profile of `ldi` (docs/scripts.md).
//!
//! There is one mechanism. What the profile can say stays as it is written, or gets an equal form by a local rule
//! (`rules`). The walk over the statements computes the layout that `ldi` will make of what is written, and compares it
//! with GNU ld's own (`layout`) at each place. If the two differ, the value that GNU ld finds is written, with an
//! ASSERT of it if it is an object's. So a rule need not know where it holds.

mod alias_assignments;
mod body;
mod expression;
mod head;
mod input;
mod inserted;
mod items;
mod limits;
mod note;
mod orphans;
mod phdrs;
mod relative;
mod rewrites;
mod rules;
mod top;
mod versions;
mod view;
mod walk;

use bstr::{BStr, BString};

use crate::finish::WantedSegment;
use crate::layout::evaluation::InputSection;
use crate::layout::settings::SectionSort;
use crate::layout::Evaluation;
use crate::objects::{Home, Object};
use crate::script::source::{Place, Source};
use crate::script::tree::{Name, Script};

pub use alias_assignments::Alias;
pub(crate) use head::{is_of_linker, is_unloaded as is_unloaded_name};
pub(crate) use items::{for_each_assignment, for_each_expression};
pub use note::{Note, NoteKind, Topic};

/// The entry symbol of an image whose entry no name has.
pub const NUMBER_ENTRY: &str = "ld.ldi.entry";

/// A script that is to be written, and what is known for it.
#[derive(Clone, Copy)]
pub struct Request<'a> {
    /// The script.
    pub script: &'a Script,
    /// Its text.
    pub source: &'a Source,
    /// What GNU ld makes of it; without it, only the rules are gone by.
    pub evaluation: Option<&'a Evaluation>,
    /// If the objects are not known, and the evaluation is one over invented objects: those over others. What is not
    /// the same in all of them depends on the objects, and is not written as a number.
    pub others: Option<&'a [&'a Evaluation]>,
    /// The names of the objects in the session, in the order of the link.
    pub objects: &'a [&'a BStr],
    /// Whether the caller links the files that the script names, and keeps what EXTERN names.
    pub is_followed: bool,
    /// `-e`: a symbol, or a number.
    pub entry: Option<&'a BStr>,
    /// Whether an entry is written if the script has none: GNU ld's is `start`, else the start of `.text`.
    pub has_default_entry: bool,
    /// Whether an object defines a symbol of this name.
    pub defines: &'a dyn Fn(&BStr) -> bool,
    /// Whether an input section has symbols with names.
    pub has_names: &'a dyn Fn(&InputSection) -> bool,
    /// `--sort-section`
    pub sort_section: Option<SectionSort>,
    /// Whether statements leave sections of some names to orphans (`--unique=PATTERN`).
    pub leaves_unique: bool,
    /// Whether input sections that no statement takes are placed: not with `--orphan-handling=error`.
    pub places_orphans: bool,
    /// The input sections, by their index, that stay by KEEP alone: GNU ld's --gc-sections keeps them, and `ldi` would
    /// not by itself. Empty if there are none.
    pub kept: &'a [bool],
    /// Whether `ldi` keeps sections that GNU ld's --gc-sections leaves out.
    pub keeps_more: bool,
    /// `-z start-stop-gc` with `--gc-sections`: `__start_NAME` keeps no section.
    pub collects_start_stop: bool,
    /// Names for which GNU ld has entries in a global offset table, and the link of `ldi` none.
    pub without_entries: &'a [BString],
}

/// A script of the profile.
#[derive(Clone, Debug, Default)]
pub struct AdaptedScript {
    /// Its text.
    pub text: Vec<u8>,
    /// For each line of the text the file and line that it came from.
    pub lines: Vec<Place>,
    /// What became of the constructs, in the order of the text.
    pub notes: Vec<Note>,
    /// The symbols of objects whose values are written in it.
    pub foreign: Vec<(Name, u64)>,
    /// The names that objects are to have for their symbols: what the text does not assign any more.
    pub aliases: Vec<Alias>,
    /// Whether values that move with an edit are written as numbers.
    pub has_moving_values: bool,
    /// The entry symbol, if the script cannot name it: it is an option of the session.
    pub entry: Option<BString>,
    /// Output sections that have another name in the image, and their own.
    pub names: Vec<(BString, BString)>,
    /// The program headers that PHDRS ask for.
    pub segments: Option<Vec<WantedSegment>>,
    /// Why these cannot be known.
    pub segments_problem: Option<String>,
    /// Whether OUTPUT_FORMAT asks for a flat image.
    pub is_flat: bool,
}

impl AdaptedScript {
    /// Whether something of the script is left.
    pub fn is_left(&self) -> bool {
        self.notes.iter().any(|note| note.kind == NoteKind::Left)
    }

    /// The notes of constructs that have another meaning now.
    pub fn changed(&self) -> impl Iterator<Item = &Note> {
        self.notes.iter().filter(|note| note.kind == NoteKind::Changed)
    }
}

/// Whether symbols of objects that have names are in an input section.
pub fn has_names(objects: &[Object], section: &InputSection) -> bool {
    let home = section.number().map(Home::Section);
    let symbols = objects.get(section.object.0 as usize).into_iter().flat_map(|object| object.symbols());
    symbols.into_iter().any(|symbol| !symbol.name.is_empty() && Some(symbol.home) == home)
}

/// Writes a script in the profile.
pub fn adapted_script(request: Request<'_>) -> AdaptedScript {
    walk::Walk::new(request).run()
}

#[cfg(test)]
mod tests;
