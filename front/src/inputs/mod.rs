//! Archives, groups, scripts of INPUT and GROUP: the objects of a link in GNU ld's order.

mod archive;
mod comdat;
mod fault;
mod incremental;
mod loader;
mod name_states;
mod script_inputs;
#[cfg(test)]
mod tests;
mod undefined;

pub use archive::{normalized, Archive, ArchiveSymbol, BadArchive, Member, MemberIndex};
pub use fault::{BadInput, InputFault, MissingInput};
pub use name_states::{NameState, NameStates};
pub use script_inputs::{ScriptInput, ScriptInputs};

use crate::command::Command;
use crate::objects::Object;
use crate::snapshot::Snapshot;
use bstr::{BStr, BString, ByteSlice};
use comdat::OnceLinked;
use indexmap::IndexMap;
use loader::{KnownObjects, Loader};
use std::collections::HashMap;
use std::path::PathBuf;
use std::sync::Arc;

/// A request for the inputs of a link.
#[derive(Clone, Copy)]
pub struct Request<'a> {
    /// The command.
    pub command: &'a Command,
    /// What the scripts say of files and names: those of `-T` in their order, or the default one.
    pub scripts: &'a [ScriptInputs],
    /// Whether they are the user's: else libraries are looked for in the system's folders too.
    pub has_own_script: bool,
    /// The names that are undefined before the first object beside those of the command: the entry symbol.
    pub wanted: &'a [BString],
}

/// The inputs of a link.
#[derive(Clone, Debug)]
pub struct Loaded {
    /// The objects, in GNU ld's order.
    pub objects: Vec<Object>,
    /// The files that were read, in their order, an archive as one.
    pub files: Vec<PathBuf>,
    /// The files that statements of a script name and that are in another folder: their paths.
    pub renamed: IndexMap<BString, BString>,
    names: NameStates,
    /// By file: its objects, if it is one itself.
    plain: HashMap<PathBuf, Vec<usize>>,
    known: KnownObjects,
    archives: HashMap<PathBuf, Arc<Archive>>,
    /// The symbol tables of the archives that were gone through.
    choosing: Vec<Arc<[(BString, u64)]>>,
    once: OnceLinked,
    /// `--wrap`
    wraps: Vec<BString>,
}

/// Whether the words or the scripts name an input.
pub fn has_inputs(command: &Command, scripts: &[ScriptInputs]) -> bool {
    command.has_inputs() || scripts.iter().any(ScriptInputs::has_inputs)
}

/// Takes all inputs of a link. What is the same in memory as it was in `before` is not read into tables again.
///
/// # Errors
/// If an input can be no part of a static link, or is not there.
pub fn load(request: &Request<'_>, snapshot: &mut Snapshot, before: Option<&Loaded>) -> Result<Loaded, InputFault> {
    Loader::new(request, snapshot, before)?.load()
}

impl Loaded {
    /// The first name of `--require-defined` that nothing defines.
    pub fn missing_required<'a>(&mut self, command: &'a Command) -> Option<&'a BStr> {
        self.names.ask(&command.required);
        let is_missing = |name: &&BString| self.names.state(name.as_bstr()) <= Some(NameState::UndefinedWeak);
        command.required.iter().find(is_missing).map(|name| name.as_bstr())
    }
}
