//! The objects' names in their order: words of the command line, and lines of the files that `@LIST` names.

use std::collections::{HashMap, HashSet};
use std::ffi::OsStr;
use std::os::unix::ffi::OsStrExt;
use std::path::{Path, PathBuf};

use bstr::{BString, ByteSlice};

use super::arguments::{Named, Words};
use super::working_folder::real;
use crate::profile::limits::{MAX_OBJECTS, MAX_OBJECT_NAME};
use crate::session_client::is_name;
use crate::snapshot::{read_regular, Bytes};

/// Why a session does not take names.
#[derive(Debug, thiserror::Error)]
#[error("{text}")]
pub(super) struct NamesRefused {
    text: String,
    /// The session's answer to them.
    pub(super) line: &'static str,
}

fn refused<T>(text: String) -> Result<T, NamesRefused> {
    Err(NamesRefused { text, line: "refused 6 0" })
}

/// The names of a list file: one a line; empty lines are none.
pub(super) fn names_in(data: &[u8]) -> impl Iterator<Item = BString> + '_ {
    data.split(|byte| *byte == b'\n').filter(|line| !line.is_empty()).map(BString::from)
}

/// The names of all objects; `lists` has the list files' bytes by their paths.
///
/// # Errors
/// If a session would refuse a name.
pub(super) fn object_names(items: &[Named], lists: &HashMap<PathBuf, Bytes>) -> Result<Vec<BString>, NamesRefused> {
    let mut names = Vec::new();
    for item in items {
        match item {
            Named::Object(name) => names.push(name.clone()),
            Named::List(path) => names.extend(lists.get(path).into_iter().flat_map(|data| names_in(data))),
        }
    }
    check_names(&names)?;
    Ok(names)
}

fn why_no_name(name: &[u8]) -> String {
    let found = match name.iter().find(|byte| !(0x21..=0x7E).contains(*byte)) {
        Some(byte) => format!("the byte {byte:#04x}"),
        None => format!("{} bytes", name.len()),
    };
    format!("its name has {found}: an object's name has 1 to {MAX_OBJECT_NAME} bytes, each from `!' to `~'")
}

/// Refuses names that a session refuses, and a name that stands twice.
fn check_names(names: &[BString]) -> Result<(), NamesRefused> {
    let mut seen = HashSet::new();
    for name in names {
        if !is_name(name) {
            return refused(format!("`{}`: {}", name.to_str_lossy(), why_no_name(name)));
        }
        if !seen.insert(name) {
            return Err(NamesRefused { text: format!("`{name}` is named twice"), line: "refused 1 0" });
        }
    }
    match names.len() {
        count if count > MAX_OBJECTS => refused(format!("{count} objects are named; a session has at most 4,096")),
        _ => Ok(()),
    }
}

/// Refuses an output that is an input or another output; `names` are the objects'.
///
/// # Errors
/// If an output is an input or another output.
pub(super) fn check_outputs(words: &Words, names: &[BString]) -> Result<(), NamesRefused> {
    let lists = words.objects.iter().filter_map(|item| match item {
        Named::List(path) => Some(path.as_path()),
        Named::Object(_) => None,
    });
    let objects = names.iter().map(|name| Path::new(OsStr::from_bytes(name)));
    let inputs: HashSet<PathBuf> = [words.script.as_path()].into_iter().chain(lists).chain(objects).map(real).collect();
    let mut taken: HashMap<PathBuf, &Path> = HashMap::new();
    for path in [Some(&words.image), words.map.as_ref(), words.gdb.as_ref()].into_iter().flatten() {
        let place = real(path);
        if inputs.contains(&place) {
            return refused(format!("`{}` is an input, and so it cannot be written", path.display()));
        }
        match taken.get(&place).filter(|_| place != Path::new("/dev/null")) {
            Some(other) => {
                let both = format!("`{}` and `{}`", other.display(), path.display());
                return refused(format!("{both} are one file, and so they cannot both be written"));
            }
            None => taken.insert(place, path),
        };
    }
    Ok(())
}

/// Refuses names that a session would refuse, and an output that is an input, before anything is started.
///
/// # Errors
/// If a session would refuse a name, or an output is an input.
pub(super) fn check_files(words: &Words) -> Result<(), NamesRefused> {
    let mut lists = HashMap::new();
    for item in &words.objects {
        if let Named::List(path) = item {
            // One that is not there may come.
            lists.insert(path.clone(), read_regular(path).map(|seen| seen.data).unwrap_or_default());
        }
    }
    check_outputs(words, &object_names(&words.objects, &lists)?)
}

#[cfg(test)]
mod tests {
    use super::{names_in, object_names};
    use crate::snapshot::Bytes;
    use crate::watch::arguments::Named;
    use std::collections::HashMap;
    use std::path::PathBuf;

    #[test]
    fn a_list_has_a_name_a_line() {
        assert_eq!(names_in(b"a.o\n\nb.o").collect::<Vec<_>>(), ["a.o", "b.o"]);
    }

    #[test]
    fn lists_and_objects_stand_in_their_order_and_a_name_once() {
        let items = [Named::Object("z.o".into()), Named::List("list".into()), Named::Object("y.o".into())];
        let named = |text: &str| {
            let lists: HashMap<PathBuf, Bytes> = [("list".into(), Bytes::from(text.as_bytes().to_vec()))].into();
            object_names(&items, &lists).map_err(|refused| (refused.to_string(), refused.line))
        };
        assert_eq!(named("a.o\nb.o\n").unwrap(), ["z.o", "a.o", "b.o", "y.o"]);
        assert_eq!(named("y.o").unwrap_err(), ("`y.o` is named twice".to_owned(), "refused 1 0"));
        assert!(named("a b.o").unwrap_err().0.contains("the byte 0x20"));
    }
}
