//! The sources of `--make`'s command: which files they are, and the folders in which they are looked for.

use std::collections::HashSet;
use std::fs;
use std::path::{Path, PathBuf};

use super::events::{file_id, NotWatched, Watcher};
use crate::snapshot::FileId;

/// The files that patterns name, in a folder and those below it, also behind links.
#[derive(Debug)]
pub(super) struct Sources {
    pub(super) folder: PathBuf,
    patterns: Vec<String>,
    not: Vec<String>,
}

impl Sources {
    pub(super) fn new(patterns: &[String], folder: &Path) -> Sources {
        let not = patterns.iter().filter_map(|pattern| pattern.strip_prefix('!')).map(str::to_owned).collect();
        let patterns = patterns.iter().filter(|pattern| !pattern.starts_with('!')).cloned().collect();
        Sources { folder: folder.to_owned(), patterns, not }
    }

    /// The path below the folder, through no folder whose name begins with a dot.
    fn below(&self, path: &Path) -> Option<String> {
        let below = path.strip_prefix(&self.folder).ok()?.to_str()?.to_owned();
        let mut folders = below.split('/').rev().skip(1);
        (!below.is_empty() && !folders.any(|part| part.starts_with('.'))).then_some(below)
    }

    /// Whether a path leads below the folder.
    pub(super) fn is_below(&self, path: &Path) -> bool {
        self.below(path).is_some()
    }

    /// The path below the folder, for people.
    pub(super) fn name(&self, path: &Path) -> String {
        path.strip_prefix(&self.folder).unwrap_or(path).display().to_string()
    }

    /// Whether the patterns name this file.
    pub(super) fn has(&self, path: &Path) -> bool {
        let is_named = |below: &str, patterns: &[String]| patterns.iter().any(|pattern| is_match(below, pattern));
        self.below(path).map_or(false, |below| is_named(&below, &self.patterns) && !is_named(&below, &self.not))
    }

    /// Watches a folder and those below it; gives the sources there.
    ///
    /// # Errors
    /// If the system watches no more folders.
    pub(super) fn watch_below(&self, top: &Path, watcher: &mut Watcher) -> Result<Vec<PathBuf>, NotWatched> {
        let mut seen: HashSet<FileId> = top.ancestors().filter_map(file_id).collect();
        let mut folders = vec![top.to_owned()];
        let mut found = Vec::new();
        while let Some(folder) = folders.pop() {
            watcher.watch(&folder)?;
            for entry in fs::read_dir(&folder).into_iter().flatten().flatten() {
                let path = entry.path();
                let kind = entry.file_type();
                let is_folder = match kind {
                    Ok(kind) if kind.is_symlink() => path.is_dir(),
                    Ok(kind) => kind.is_dir(),
                    Err(_) => false,
                };
                if !is_folder {
                    found.extend(self.has(&path).then_some(path));
                } else if !entry.file_name().to_string_lossy().starts_with('.') {
                    let is_new = file_id(&path).map_or(false, |id| seen.insert(id));
                    folders.extend(is_new.then_some(path));
                }
            }
        }
        Ok(found)
    }
}

/// Whether a pattern names a file: one with a `/` by its path, another one by its name.
///
/// As in the shell, a dot at the name's beginning is matched by a dot alone: editors write files of such names.
fn is_match(below: &str, pattern: &str) -> bool {
    let last = |path: &str| path.rsplit('/').next().unwrap_or_default().to_owned();
    let name = last(below);
    if name.starts_with('.') && !last(pattern).starts_with('.') {
        return false;
    }
    let text = if pattern.contains('/') { below } else { &name };
    matches(&text.chars().collect::<Vec<_>>(), &pattern.chars().collect::<Vec<_>>())
}

/// Whether a text is of a pattern of the shell: `*`, `?`, `[..]`, `[!..]`.
fn matches(text: &[char], pattern: &[char]) -> bool {
    let (mut at, mut in_pattern) = (0, 0);
    let mut star: Option<(usize, usize)> = None;
    while at < text.len() || in_pattern < pattern.len() {
        let step = match (pattern.get(in_pattern), text.get(at)) {
            (Some('*'), _) => {
                star = Some((in_pattern, at));
                in_pattern += 1;
                continue;
            }
            (Some(_), Some(letter)) => one(*letter, pattern.get(in_pattern..).unwrap_or_default()),
            _ => None,
        };
        match (step, star) {
            (Some(length), _) => {
                in_pattern += length;
                at += 1;
            }
            (None, Some((place, from))) if from < text.len() => {
                star = Some((place, from + 1));
                in_pattern = place + 1;
                at = from + 1;
            }
            (None, _) => return false,
        }
    }
    true
}

/// Whether a character is of the first element of a pattern; gives the element's length.
fn one(letter: char, pattern: &[char]) -> Option<usize> {
    match pattern {
        ['?', ..] => Some(1),
        ['[', rest @ ..] => match set(letter, rest) {
            Some((true, length)) => Some(length + 1),
            Some((false, _)) => None,
            None => (letter == '[').then_some(1),
        },
        [first, ..] => (letter == *first).then_some(1),
        [] => None,
    }
}

/// Whether a character is in a set, and the set's length behind `[`; `None` if it does not end.
fn set(letter: char, rest: &[char]) -> Option<(bool, usize)> {
    let is_not = rest.first() == Some(&'!');
    let start = usize::from(is_not);
    let end = rest.iter().skip(start + 1).position(|other| *other == ']')? + start + 1;
    let inside = rest.get(start..end)?;
    let mut is_in = false;
    let mut at = 0;
    while let Some(first) = inside.get(at) {
        match (inside.get(at + 1), inside.get(at + 2)) {
            (Some('-'), Some(last)) => {
                is_in |= (*first..=*last).contains(&letter);
                at += 3;
            }
            _ => {
                is_in |= *first == letter;
                at += 1;
            }
        }
    }
    Some((is_in != is_not, end + 1))
}

#[cfg(test)]
mod tests {
    use super::{is_match, Sources};
    use std::path::Path;

    #[test]
    fn a_pattern_is_one_of_the_shell() {
        assert!(is_match("a/b.c", "*.c") && is_match("a/b.c", "a/*.c") && is_match("x1", "x[0-9]"));
        assert!(is_match("xa", "x[!0-9]") && is_match("a*b", "a[*]b") && is_match("[", "["));
        assert!(!is_match("a/b.c", "b/*.c") && !is_match("b.h", "*.c") && !is_match("b.c", "?.h"));
        assert!(is_match("aXbXc", "a*b*c") && !is_match("aXbX", "a*b*c"));
    }

    #[test]
    fn a_dot_is_matched_by_a_dot() {
        assert!(!is_match(".b.c", "*.c") && is_match(".b.c", ".*.c"));
    }

    #[test]
    fn files_in_hidden_folders_and_those_left_out_are_none() {
        let sources = Sources::new(&["*.c".into(), "!gen.c".into()], Path::new("/p"));
        assert!(sources.has(Path::new("/p/a.c")) && sources.has(Path::new("/p/q/a.c")));
        assert!(!sources.has(Path::new("/p/.git/a.c")) && !sources.has(Path::new("/q/a.c")));
        assert!(!sources.has(Path::new("/p/q/gen.c")));
    }
}
