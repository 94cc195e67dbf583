//! A link as of `ldi link`: a script of the profile, and objects by the names of words and lists.

use std::collections::HashMap;
use std::ffi::OsStr;
use std::os::unix::ffi::OsStrExt;
use std::path::{Path, PathBuf};

use bstr::{BStr, ByteSlice};

use super::arguments::{Named, Words};
use super::inputs::Inputs;
use super::linking::Found;
use super::listing::{check_outputs, object_names};
use crate::inputs::Archive;
use crate::objects::{Object, Origin};
use crate::plan::{find_program, Environment};
use crate::profile::limits::MAX_SCRIPT;
use crate::profile::reserved_words::is_name as is_profile_name;
use crate::report::{self, fault_diagnostics, refusals_of_object, refusals_of_script, Diagnostic, RefusedInput};
use crate::script::parse;
use crate::script::tree::Statement;
use crate::session_client::{Options, Refusal, SessionObject};
use crate::snapshot::{Bytes, Snapshot};

/// The objects that words and lists name, under the script as it is written.
#[derive(Debug, Default)]
pub(super) struct Plain {
    /// The script as it was read.
    pub(super) script: Bytes,
    /// The script that is sent.
    pub(super) sent: Vec<u8>,
    pub(super) options: Options,
    pub(super) held: Vec<SessionObject>,
    /// Whether a file is an archive, which is none for `ldi link`.
    pub(super) has_archives: bool,
    places: HashMap<PathBuf, usize>,
}

impl Plain {
    /// Takes other bytes of the script or of objects; `false` if all is to be found anew.
    pub(super) fn take_bytes(&mut self, words: &Words, snapshot: &Snapshot, changed: &[PathBuf]) -> bool {
        for path in changed {
            let data = match snapshot.seen(path) {
                Some(seen) => seen.data.clone(),
                None => return false,
            };
            let object = self.places.get(path).and_then(|place| self.held.get_mut(*place));
            match object {
                Some(held) => {
                    self.has_archives |= Archive::is_one(&data);
                    held.data = data;
                }
                None if *path == words.script => self.set_script(words, data),
                None => return false,
            }
        }
        true
    }

    fn set_script(&mut self, words: &Words, script: Bytes) {
        let entry = words.entry.as_ref().map(|entry| entry.as_bstr());
        let with_it = entry.and_then(|entry| with_entry(&script, entry));
        let is_left = with_it.is_none();
        self.sent = with_it.unwrap_or_else(|| script.to_vec());
        self.options = words.options.clone();
        self.options.entry = entry.filter(|_| is_left).map(|entry| OsStr::from_bytes(entry).to_owned());
        self.script = script;
    }

    /// Reads all inputs anew.
    pub(super) fn find(&mut self, words: &Words, inputs: &mut Inputs) -> Found {
        *self = Plain::default();
        let script = inputs.snapshot.read(&words.script).ok();
        let mut lists = HashMap::new();
        let mut is_whole = script.is_some();
        for item in &words.objects {
            if let Named::List(path) = item {
                match inputs.snapshot.read(path) {
                    Ok(data) => drop(lists.insert(path.clone(), data)),
                    Err(_) => is_whole = false,
                }
            }
        }
        let named = object_names(&words.objects, &lists);
        let named = named.and_then(|names| check_outputs(words, &names).map(|()| names));
        let names = match named {
            Ok(names) => names,
            Err(refused) => return said_of_lists(lists.keys(), &refused.to_string(), refused.line),
        };
        for name in names {
            let path = PathBuf::from(OsStr::from_bytes(&name));
            match inputs.snapshot.read(&path) {
                Ok(data) => {
                    self.has_archives |= Archive::is_one(&data);
                    self.places.insert(path, self.held.len());
                    self.held.push(SessionObject { name, data });
                }
                Err(_) => is_whole = false,
            }
        }
        match script.filter(|_| is_whole) {
            Some(script) => {
                self.set_script(words, script);
                Found::Ready
            }
            None => Found::NotThere(None),
        }
    }

    /// The objects, as messages need them.
    fn objects(&self) -> Vec<Object> {
        let object = |held: &SessionObject| {
            let path = Path::new(OsStr::from_bytes(&held.name));
            Object::new(held.name.clone(), Origin::of_file(path), held.data.clone())
        };
        self.held.iter().map(object).collect()
    }

    /// The messages of faults.
    pub(super) fn faults(&self, words: &Words, faults: &[u8]) -> Vec<Diagnostic> {
        let inputs = report::Inputs {
            script_path: &words.script,
            script: &self.sent,
            origin: &|_| None,
            objects: &self.objects(),
            entry: words.entry.as_ref().map(|entry| OsStr::from_bytes(entry)),
        };
        fault_diagnostics(faults, &inputs, None)
    }

    /// The messages of an object that is refused, with its name.
    pub(super) fn refused_object(
        &self,
        index: usize,
        refusal: Refusal,
        environment: &Environment,
    ) -> Vec<(String, Diagnostic)> {
        let ldi = find_program("ldi", environment);
        let held = match self.held.get(index) {
            Some(held) => held,
            None => return Vec::new(),
        };
        let path = Path::new(OsStr::from_bytes(&held.name));
        let object = Object::new(held.name.clone(), Origin::of_file(path), held.data.clone());
        let input = RefusedInput { name: held.name.as_bstr(), refusal, data: Some(&held.data), ldi: &ldi };
        let said = refusals_of_object(&input, Some(&object));
        said.into_iter().map(|one| (held.name.to_str_lossy().into_owned(), one)).collect()
    }

    /// The messages of the script, if it is refused.
    pub(super) fn refused_script(
        &self,
        words: &Words,
        refusal: Refusal,
        environment: &Environment,
    ) -> Vec<(String, Diagnostic)> {
        let ldi = find_program("ldi", environment);
        let name = words.script.as_os_str().as_bytes().as_bstr();
        let input = RefusedInput { name, refusal, data: Some(&self.sent), ldi: &ldi };
        let said = refusals_of_script(&input, &|_| None);
        said.into_iter().map(|one| (words.script.display().to_string(), one)).collect()
    }
}

/// A refusal of the names that lists have.
fn said_of_lists<'a>(lists: impl Iterator<Item = &'a PathBuf>, text: &str, line: &str) -> Found {
    let said = |path: &PathBuf| {
        let mut one = Diagnostic::error(text).of_file(path);
        one.rule = Some(format!("{}: {line}", path.display()));
        (path.display().to_string(), one)
    };
    Found::Refused(lists.map(said).collect())
}

/// The script with this symbol as its ENTRY, and all lines where they are; `None` if it cannot be written there, and
/// the symbol is an option of the session.
fn with_entry(script: &[u8], symbol: &BStr) -> Option<Vec<u8>> {
    if !is_profile_name(symbol) {
        return None;
    }
    let entry = [b"ENTRY(", symbol.as_bytes(), b")"].concat();
    let reading = parse(Path::new("script"), script).ok()?;
    let mut spans = reading.script.statements.iter().filter_map(|statement| match &statement.node {
        Statement::Entry(_) => Some(statement.span),
        _ => None,
    });
    let result = match spans.next() {
        Some(span) => {
            let (start, end) = (span.start as usize, span.end as usize);
            let text = script.get(start..end).filter(|text| text.starts_with(b"ENTRY") && !text.contains(&b'\n'))?;
            let close: &[u8] = if text.ends_with(b";") { b";" } else { b"" };
            [script.get(..start)?, &entry, close, script.get(end..)?].concat()
        }
        None => [&entry, &b";"[..], script].concat(),
    };
    (result.len() <= MAX_SCRIPT).then_some(result)
}

#[cfg(test)]
mod tests {
    use super::with_entry;

    #[test]
    fn an_entry_symbol_is_written_into_the_script() {
        let with = |script: &str, symbol: &str| with_entry(script.as_bytes(), symbol.as_bytes().into());
        assert_eq!(with("SECTIONS { }", "go").unwrap(), b"ENTRY(go);SECTIONS { }");
        assert_eq!(with("ENTRY(a)\nSECTIONS { }", "go").unwrap(), b"ENTRY(go)\nSECTIONS { }");
        assert_eq!(with("SECTIONS {", "go"), None);
        assert_eq!(with("SECTIONS { }", "a b"), None);
    }
}
