//! The order of the sections that an input statement takes (ldlang.c, `wild_sort`).

use super::evaluation::InputSection;
use super::interned_names::InternedNames;
use super::matching::Match;
use super::settings::SectionSort;
use super::stop::{not_evaluated, NotEvaluatedReason, Stop};
use crate::script::tree::{InputStatement, Pattern, Sort, Span};
use bstr::BStr;
use std::cmp::Ordering;

/// What sections are sorted by; a pattern has at most two keys.
#[derive(Clone, Copy, PartialEq, Eq, Debug)]
enum Key {
    Name,
    Align,
    Priority,
}

/// The keys of a pattern, the first one counting most.
type Keys = [Option<Key>; 2];

/// An object's names, as a sort of files has them: the archive in front of the member.
pub(crate) type FileNames<'a> = (&'a [u8], &'a [u8]);

/// What a sort goes by.
pub(crate) struct Sorting<'a> {
    pub sections: &'a [InputSection],
    pub names: &'a InternedNames,
    /// By object.
    pub files: &'a [FileNames<'a>],
    /// `--sort-section`
    pub by_option: Option<SectionSort>,
}

impl Sorting<'_> {
    /// The sections that a statement matches, in the order in which it takes them.
    pub fn sorted(&self, node: &InputStatement, found: &[Match], span: Option<Span>) -> Result<Vec<Match>, Stop> {
        let keys = self.keys_of(node, span)?;
        let is_by_file = is_by_file(node, span)?;
        let keys_of = |one: &Match| one.pattern.and_then(|at| keys.get(at as usize).copied()).unwrap_or_default();
        let has_unsorted = found.iter().any(|one| keys_of(one) == [None; 2]);
        let mut found = found.to_vec();
        if is_by_file && has_unsorted {
            if found.iter().any(|one| keys_of(one) != [None; 2]) {
                return not_evaluated(NotEvaluatedReason::MixedSorts, span);
            }
            found.sort_by(|one, other| self.by_file(one, other));
            return Ok(found);
        }
        let first = found.first().map(&keys_of).unwrap_or_default();
        let is_uniform = found.iter().all(|one| keys_of(one) == first);
        if is_uniform && !first.contains(&Some(Key::Priority)) {
            found.sort_by(|one, other| {
                let by_file = if is_by_file { self.by_file(one, other) } else { Ordering::Equal };
                by_file.then_with(|| self.compare(first, one, other))
            });
            return Ok(found);
        }
        let mut tree = Tree::default();
        for one in found {
            tree.add(self, one, keys_of(&one), is_by_file);
        }
        Ok(tree.listed())
    }

    /// Whether the statement's sections are sorted at all.
    pub fn is_sorted(&self, node: &InputStatement) -> bool {
        let is_plain = |pattern: &Pattern| pattern.sorts.is_empty() || pattern.sorts == [Sort::None];
        self.by_option.is_some()
            || node.file.as_ref().map_or(false, |file| !is_plain(&file.node))
            || node.sections.iter().flatten().any(|pattern| !is_plain(&pattern.node))
    }

    /// The keys of each pattern, with `--sort-section` (ldlang.c, `update_wild_statements`).
    fn keys_of(&self, node: &InputStatement, span: Option<Span>) -> Result<Vec<Keys>, Stop> {
        let mut found = Vec::new();
        for pattern in node.sections.iter().flatten() {
            let mut keys = keys(&pattern.node.sorts, span)?;
            let is_fixed = pattern.node.sorts.first() == Some(&Sort::None)
                || matches!(pattern.node.glob.as_slice(), b".init" | b".fini");
            if let (Some(option), false) = (self.by_option, is_fixed) {
                let own = match option {
                    SectionSort::Name => Key::Name,
                    SectionSort::Alignment => Key::Align,
                };
                match keys {
                    [None, _] => keys = [Some(own), None],
                    [Some(Key::Name), None] if own == Key::Align => keys[1] = Some(own),
                    [Some(Key::Align), None] if own == Key::Name => keys[1] = Some(own),
                    _ => {}
                }
            }
            found.push(keys);
        }
        Ok(found)
    }

    fn by_file(&self, one: &Match, other: &Match) -> Ordering {
        self.file_of(one).cmp(&self.file_of(other))
    }

    fn file_of(&self, one: &Match) -> FileNames<'_> {
        let object = self.sections.get(one.section.index()).map(|section| section.object.0 as usize);
        object.and_then(|object| self.files.get(object)).copied().unwrap_or_default()
    }

    fn name_of(&self, one: &Match) -> &BStr {
        let section = self.sections.get(one.section.index());
        section.map_or_else(Default::default, |section| self.names.get(section.name))
    }

    fn align_of(&self, one: &Match) -> u64 {
        self.sections.get(one.section.index()).map_or(1, |section| section.align)
    }

    /// Which section goes first (ldlang.c, `compare_section`).
    fn compare(&self, keys: Keys, one: &Match, other: &Match) -> Ordering {
        let by_name = || self.name_of(one).cmp(self.name_of(other));
        if keys[0] == Some(Key::Priority) {
            return match (priority(self.name_of(one)), priority(self.name_of(other))) {
                (Some(first), Some(second)) if first != second => first.cmp(&second),
                _ => by_name(),
            };
        }
        keys.iter().flatten().fold(Ordering::Equal, |found, key| {
            found.then_with(|| match key {
                Key::Align => self.align_of(other).cmp(&self.align_of(one)),
                Key::Name | Key::Priority => by_name(),
            })
        })
    }
}

fn is_by_file(node: &InputStatement, span: Option<Span>) -> Result<bool, Stop> {
    match node.file.as_ref().map(|file| file.node.sorts.as_slice()) {
        None | Some([] | [Sort::None]) => Ok(false),
        Some([Sort::ByName]) => Ok(true),
        Some(_) => not_evaluated(NotEvaluatedReason::Word("a sort of files".into()), span),
    }
}

fn keys(sorts: &[Sort], span: Option<Span>) -> Result<Keys, Stop> {
    let mut found = [None; 2];
    for (place, sort) in found.iter_mut().zip(sorts) {
        *place = match sort {
            Sort::ByName => Some(Key::Name),
            Sort::ByAlignment => Some(Key::Align),
            Sort::ByInitPriority => Some(Key::Priority),
            Sort::None => break,
            Sort::Reverse => return not_evaluated(NotEvaluatedReason::Word("REVERSE".into()), span),
        };
    }
    if found[0] == found[1] {
        found[1] = None;
    }
    Ok(found)
}

/// The number at the end of a name, such as that of `.init_array.00200` (ldlang.c, `get_init_priority`).
fn priority(name: &[u8]) -> Option<u32> {
    let dot = name.iter().rposition(|byte| *byte == b'.')?;
    let digits = name.get(dot + 1..).filter(|digits| !digits.is_empty())?;
    if !digits.iter().all(u8::is_ascii_digit) {
        return None;
    }
    let mut value: u64 = 0;
    for digit in digits {
        value = value.checked_mul(10)?.checked_add(u64::from(digit - b'0'))?;
    }
    if dot == 6 && (name.starts_with(b".ctors") || name.starts_with(b".dtors")) {
        value = 65535u64.wrapping_sub(value);
    }
    u32::try_from(value).ok().filter(|value| i32::try_from(*value).is_ok())
}

/// A binary tree of sections: one that is no less than a node goes to its right, and one of a pattern without a sort to
/// the right end. Statements whose patterns have one sort alone, other than by priority, need none.
#[derive(Default)]
struct Tree {
    nodes: Vec<TreeNode>,
    /// The last node on the way to the right from the root.
    right_end: Option<usize>,
}

struct TreeNode {
    one: Match,
    left: Option<usize>,
    right: Option<usize>,
}

impl Tree {
    fn add(&mut self, sorting: &Sorting<'_>, one: Match, keys: Keys, is_by_file: bool) {
        let new = self.nodes.len();
        let (parent, is_right) = if !is_by_file && keys == [None; 2] {
            (self.right_end, true)
        } else {
            self.slot(sorting, &one, keys, is_by_file)
        };
        self.nodes.push(TreeNode { one, left: None, right: None });
        match parent.and_then(|parent| self.nodes.get_mut(parent)) {
            Some(node) if is_right => node.right = Some(new),
            Some(node) => node.left = Some(new),
            None => {}
        }
        if parent == self.right_end && is_right {
            self.right_end = Some(new);
        }
    }

    /// The node under which a section goes, and on which side.
    fn slot(&self, sorting: &Sorting<'_>, one: &Match, keys: Keys, is_by_file: bool) -> (Option<usize>, bool) {
        let mut at = if self.nodes.is_empty() { None } else { Some(0) };
        let mut found = (None, true);
        while let Some(node) = at.and_then(|at| self.nodes.get(at)) {
            let by_file = if is_by_file { sorting.by_file(one, &node.one) } else { Ordering::Equal };
            let is_right = by_file.then_with(|| sorting.compare(keys, one, &node.one)) != Ordering::Less;
            found = (at, is_right);
            at = if is_right { node.right } else { node.left };
        }
        found
    }

    /// The sections from left to right.
    fn listed(&self) -> Vec<Match> {
        let mut found = Vec::with_capacity(self.nodes.len());
        let mut waiting: Vec<&TreeNode> = Vec::new();
        let mut at = self.nodes.first();
        loop {
            while let Some(node) = at {
                waiting.push(node);
                at = node.left.and_then(|left| self.nodes.get(left));
            }
            match waiting.pop() {
                None => return found,
                Some(node) => {
                    found.push(node.one);
                    at = node.right.and_then(|right| self.nodes.get(right));
                }
            }
        }
    }
}

#[cfg(test)]
mod tests {
    use super::*;

    /// ldlang.c, `get_init_priority`.
    #[test]
    fn priorities() {
        for (name, wanted) in [
            (".init_array.00200", Some(200)),
            (".init_array", None),
            (".ctors.65435", Some(100)),
            (".ctors.x", None),
            (".init_array.99999999999", None),
            (".init_array.", None),
        ] {
            assert_eq!(priority(name.as_bytes()), wanted, "{}", name);
        }
    }

    /// GNU ld manual, 'Input Section Wildcard Patterns': nested sorts.
    #[test]
    fn nested_sorts() {
        assert_eq!(keys(&[Sort::ByName, Sort::ByAlignment], None), Ok([Some(Key::Name), Some(Key::Align)]));
        assert_eq!(keys(&[Sort::ByName, Sort::ByName], None), Ok([Some(Key::Name), None]));
        assert_eq!(keys(&[Sort::None], None), Ok([None, None]));
    }
}
