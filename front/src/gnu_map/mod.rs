//! The map of a link in GNU ld's form (ld/ldlang.c, `lang_map`), and the table of `--cref`.

mod body;
mod crossrefs;
mod defined_names;
mod dot;
mod expression;
mod head;
mod text;

use std::path::PathBuf;

use bstr::{BString, ByteSlice};

use crate::command::{Command, Input};
use crate::layout::ids::StatementId;
use crate::layout::Evaluation;
use crate::objects::{Object, ObjectIndex};
use crate::script::tree::Script;
use crate::unloaded::Spans;
use body::Body;
pub use defined_names::{Named, NamedDefinition};
use text::Text;

/// The bytes of a line, as a rule.
const LINE: usize = 80;

/// A link whose map is wanted. The image has all where the layout has it.
pub struct Request<'a> {
    /// The command.
    pub command: &'a Command,
    /// The script.
    pub script: &'a Script,
    /// Whether it is the user's.
    pub has_own_script: bool,
    /// The layout.
    pub evaluation: &'a Evaluation,
    /// The objects.
    pub objects: &'a [Object],
    /// The names of objects and script, in the order of GNU ld's table of symbols.
    pub names: Vec<Named<'a>>,
    /// The entry symbol, if it has a name.
    pub entry: Option<BString>,
    /// The files that were read, an archive as one.
    pub files: &'a [PathBuf],
    /// Where what is not loaded is.
    pub spans: &'a Spans,
}

impl Request<'_> {
    /// The name of an object, as GNU ld prints it.
    fn owner(&self, number: ObjectIndex) -> String {
        self.objects.get(number.0 as usize).map_or_else(String::new, |object| object.origin().full_name().to_string())
    }

    /// The object in which GNU ld makes a global offset table.
    fn table_owner(&self) -> Option<usize> {
        let made = self.evaluation.sections.iter().find(|section| self.evaluation.section_name(section) == ".got.plt");
        made.map(|section| section.object.0 as usize)
    }
}

/// The map.
pub fn map(request: &Request<'_>) -> Vec<u8> {
    let mut text = Text::with_room((request.evaluation.sections.len() + request.names.len()) * LINE);
    let (before, after) = loads(request);
    text.put(&head::text(request)).put(b"\nLinker script and memory map\n\n").put(before.as_bytes());
    let top = &request.evaluation.top;
    let end = end_of_script(request);
    let mut body = Body::new(request, text);
    body.statements(top.get(..end).unwrap_or_default());
    let output = request.command.output.display();
    body.put(&format!("{after}OUTPUT({output} elf64-x86-64)\n"));
    body.statements(top.get(end..).unwrap_or_default());
    body.finish()
}

/// The table of `--cref`.
pub fn cross_references(request: &Request<'_>) -> Vec<u8> {
    crossrefs::text(request).into_bytes()
}

/// Where the statements of the script end: orphans behind them are behind the files and the output too (ldlang.c,
/// `insert_os_after`).
fn end_of_script(request: &Request<'_>) -> usize {
    let top = &request.evaluation.top;
    let is_of_script =
        |id: &StatementId| request.evaluation.statement(*id).map_or(false, |statement| statement.span.is_some());
    top.iter().rposition(is_of_script).map_or(0, |at| at + 1)
}

/// The lines of the files of the command, before the script and after it.
fn loads(request: &Request<'_>) -> (String, String) {
    let (mut before, mut after) = (String::new(), String::new());
    let mut is_after = false;
    for input in &request.command.inputs {
        let line = match input {
            Input::Script(..) => {
                is_after = request.has_own_script;
                continue;
            }
            Input::File(path, _) => format!("LOAD {}\n", path.display()),
            Input::Library(name, _) => format!("LOAD {}\n", library(request, name)),
            Input::StartGroup => "START GROUP\n".to_owned(),
            Input::EndGroup => "END GROUP\n".to_owned(),
        };
        if is_after { &mut after } else { &mut before }.push_str(&line);
    }
    (before, after)
}

/// The file of a library, as it is printed.
fn library(request: &Request<'_>, name: &BString) -> String {
    library_path(request, name).map_or_else(|| format!("-l{name}"), |path| path.display().to_string())
}

/// The file of a library.
fn library_path<'a>(request: &Request<'a>, name: &BString) -> Option<&'a PathBuf> {
    let wanted = |end: &str| match name.strip_prefix(b":") {
        Some(name) => name.to_str_lossy().into_owned(),
        None => format!("lib{name}{end}"),
    };
    let is_it = |path: &&PathBuf| {
        let own = path.file_name().map(|own| own.to_string_lossy().into_owned());
        own == Some(wanted(".a")) || own == Some(wanted(".so"))
    };
    request.files.iter().find(is_it)
}

/// A text with spaces behind it, up to a column.
fn padded(text: &str, column: usize) -> String {
    format!("{text:column$}")
}
