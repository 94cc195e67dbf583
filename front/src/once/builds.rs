//! Messages that are printed once a build, not for each of its links.
//!
//! A build is identified by the outermost `make`, or the like, above this process. A file in the user's runtime folder
//! has the messages of a build; those of builds that have ended are removed.

use std::collections::hash_map::DefaultHasher;
use std::fs::{self, OpenOptions};
use std::hash::{Hash, Hasher};
use std::os::unix::fs::OpenOptionsExt;
use std::path::Path;

use crate::plan::Environment;
use crate::publish::runtime_folder;

/// The names of programs that run builds.
const BUILDERS: &[&str] = &[
    "make", "gmake", "ninja", "samu", "meson", "cmake", "cargo", "scons", "bazel", "bmake", "kati", "ckati", "tup",
    "waf",
];
const PREFIX: &str = "told.";
/// How many processes above this one are looked at.
const MAX_DEPTH: usize = 64;

/// A process: its name, its parent, and the time of its start.
struct Process {
    name: String,
    parent: u32,
    start: String,
}

fn process(number: u32) -> Option<Process> {
    let text = String::from_utf8_lossy(&fs::read(format!("/proc/{number}/stat")).ok()?).into_owned();
    let (name, rest) = text.split_once('(')?.1.rsplit_once(')')?;
    let words: Vec<&str> = rest.split_whitespace().collect();
    Some(Process { name: name.into(), parent: words.get(1)?.parse().ok()?, start: (*words.get(19)?).into() })
}

/// What tells the build of a process from others; `None` if it is in none.
fn build_of(mut number: u32) -> Option<String> {
    let mut found = None;
    for _ in 0..MAX_DEPTH {
        let above = match process(number) {
            Some(above) => above,
            None => break,
        };
        if BUILDERS.contains(&above.name.as_str()) {
            found = Some(format!("{number}.{}", above.start));
        }
        number = above.parent;
    }
    found
}

/// Whether this text was not said in the build yet, which then counts as said; always outside of a build.
pub(super) fn is_first(text: &str, environment: &Environment) -> bool {
    let parent = std::os::unix::process::parent_id();
    let folder =
        runtime_folder(environment.get(std::ffi::OsStr::new("XDG_RUNTIME_DIR")).map(|folder| folder.as_os_str()));
    let (build, folder) = match (build_of(parent), folder) {
        (Some(build), Some(folder)) => (build, folder),
        _ => return true,
    };
    let mut hasher = DefaultHasher::new();
    text.hash(&mut hasher);
    let path = Path::new(&folder).join(format!("{PREFIX}{build}.{:016x}", hasher.finish()));
    match OpenOptions::new().write(true).create_new(true).mode(0o600).open(path) {
        Err(fault) if fault.kind() == std::io::ErrorKind::AlreadyExists => return false,
        Err(_) => return true,
        Ok(_) => {}
    }
    clear(Path::new(&folder));
    true
}

/// Removes what was told in builds that have ended.
fn clear(folder: &Path) {
    for entry in fs::read_dir(folder).into_iter().flatten().flatten() {
        let name = entry.file_name();
        let rest = name.to_str().and_then(|name| name.strip_prefix(PREFIX)).map(str::to_owned);
        let mut words = rest.iter().flat_map(|rest| rest.split('.'));
        if let (Some(number), Some(start)) = (words.next(), words.next()) {
            let is_there = number.parse().ok().and_then(process).map_or(false, |process| process.start == start);
            if !is_there {
                // Another call may have removed it.
                let _ = fs::remove_file(entry.path());
            }
        }
    }
}
