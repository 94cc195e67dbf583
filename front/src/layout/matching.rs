//! Which input sections each input statement matches (ldlang.c, `walk_wild_section_match`).

use super::evaluation::InputSection;
use super::glob;
use super::ids::{NameId, SectionId};
use super::interned_names::InternedNames;
use super::program::Taking;
use crate::objects::Object;
use crate::script::tree::{InputStatement, Name};
use bstr::ByteSlice;

/// A section that a statement matches.
#[derive(Clone, Copy, PartialEq, Eq, Debug)]
pub(crate) struct Match {
    pub section: SectionId,
    /// The number of the pattern; `None` if the statement has no patterns of sections.
    pub pattern: Option<u32>,
}

/// The sections that each statement matches, in their order.
pub(crate) fn matches_of(
    takings: &[Taking],
    sections: &[InputSection],
    names: &InternedNames,
    objects: &[Object],
) -> Vec<Vec<Match>> {
    let index = Index::new(takings);
    let mut found: Vec<Vec<Match>> = vec![Vec::new(); takings.len()];
    let mut rules: Vec<Option<Rule>> = Vec::new();
    rules.resize_with(names.len(), || None);
    let mut files = Files::new(takings.len());
    for (number, section) in sections.iter().enumerate() {
        let object = match objects.get(section.object.0 as usize) {
            None => continue,
            Some(object) => object,
        };
        let slot = match rules.get_mut(section.name.index()) {
            None => continue,
            Some(slot) => slot,
        };
        let rule = slot.get_or_insert_with(|| Rule::new(&index, takings, section.name, names));
        for candidate in &rule.candidates {
            let is_taken = !rule.asks_files || files.takes(takings, candidate, section.object.0 as usize, object);
            if let (true, Some(row)) = (is_taken, found.get_mut(candidate.taking as usize)) {
                row.push(Match { section: SectionId::new(number), pattern: candidate.pattern });
            }
        }
    }
    found
}

/// A pattern that matches a name.
#[derive(Clone, Copy, PartialEq, Eq, PartialOrd, Ord, Debug)]
struct Candidate {
    taking: u32,
    pattern: Option<u32>,
}

/// The patterns that match a name, in their order.
struct Rule {
    candidates: Vec<Candidate>,
    /// Whether it depends on the object too.
    asks_files: bool,
}

impl Rule {
    fn new(index: &Index, takings: &[Taking], name: NameId, names: &InternedNames) -> Rule {
        let candidates = index.of(names.get(name), takings);
        let asks = |candidate: &Candidate| {
            takings.get(candidate.taking as usize).map_or(false, |taking| {
                let pattern = pattern_of(&taking.node, candidate.pattern);
                !takes_all_files(&taking.node) || pattern.map_or(false, |(_, excluded)| !excluded.is_empty())
            })
        };
        let asks_files = candidates.iter().any(asks);
        Rule { candidates, asks_files }
    }
}

fn pattern_of(node: &InputStatement, pattern: Option<u32>) -> Option<(&Name, &[Name])> {
    let found = node.sections.as_ref()?.get(pattern? as usize)?;
    Some((&found.node.glob, &found.node.excluded_files))
}

fn takes_all_files(node: &InputStatement) -> bool {
    node.file.as_ref().map_or(true, |file| file.node.glob == "*" && file.node.excluded_files.is_empty())
}

/// Which statements take an object's files: by statement the object that it was found for, and whether it takes it.
struct Files(Vec<(usize, bool)>);

impl Files {
    fn new(count: usize) -> Files {
        Files(vec![(usize::MAX, false); count])
    }

    fn takes(&mut self, takings: &[Taking], candidate: &Candidate, number: usize, object: &Object) -> bool {
        let at = candidate.taking as usize;
        let (taking, slot) = match (takings.get(at), self.0.get_mut(at)) {
            (Some(taking), Some(slot)) => (taking, slot),
            _ => return false,
        };
        if slot.0 != number {
            *slot = (number, takes_file(&taking.node, object));
        }
        let excluded = pattern_of(&taking.node, candidate.pattern).map_or(&[][..], |(_, excluded)| excluded);
        slot.1 && !is_excluded(excluded, object)
    }
}

/// Whether an input statement takes an object by its file: without a wildcard a file, and no member of an archive.
pub(crate) fn takes_file(node: &InputStatement, object: &Object) -> bool {
    let file = match &node.file {
        None => return true,
        Some(file) => &file.node,
    };
    let pattern = file.glob.as_slice();
    let is_taken = if !glob::has_wildcard(pattern) && pattern.find_byte(b':').is_none() {
        object.origin().archive.is_none() && pattern == object.origin().name
    } else {
        file_matches(pattern, object)
    };
    is_taken && !is_excluded(&file.excluded_files, object)
}

/// GNU ld manual, 'Input Section Basics': `archive:file`, `archive:`, `:file`, or a file.
fn file_matches(pattern: &[u8], object: &Object) -> bool {
    match pattern.find_byte(b':') {
        None => glob::matches(pattern, &object.origin().name),
        Some(at) => {
            let (left, right) = (pattern.get(..at).unwrap_or_default(), pattern.get(at + 1..).unwrap_or_default());
            let is_archive = match &object.origin().archive {
                None => left.is_empty(),
                Some(archive) => !left.is_empty() && glob::matches(left, archive),
            };
            is_archive && (right.is_empty() || glob::matches(right, &object.origin().name))
        }
    }
}

/// Whether EXCLUDE_FILE leaves an object out, which a whole archive may be.
fn is_excluded(patterns: &[Name], object: &Object) -> bool {
    patterns.iter().any(|pattern| {
        file_matches(pattern, object)
            || pattern.find_byte(b':').is_none()
                && object.origin().archive.as_ref().map_or(false, |archive| glob::matches(pattern, archive))
    })
}

/// The patterns of all statements, in a tree of the bytes in front of their wildcards.
struct Index {
    nodes: Vec<IndexNode>,
    /// Statements without patterns of sections.
    all: Vec<Candidate>,
}

#[derive(Default)]
struct IndexNode {
    next: Vec<(u8, u32)>,
    /// Patterns that end here, without a wildcard.
    exact: Vec<Candidate>,
    /// Patterns whose wildcards begin here; `true`: a `*` alone.
    wild: Vec<(Candidate, bool)>,
}

impl Index {
    fn new(takings: &[Taking]) -> Index {
        let mut index = Index { nodes: vec![IndexNode::default()], all: Vec::new() };
        for (number, taking) in takings.iter().enumerate() {
            let number = u32::try_from(number).unwrap_or(u32::MAX);
            match &taking.node.sections {
                None => index.all.push(Candidate { taking: number, pattern: None }),
                Some(patterns) => {
                    for (at, pattern) in patterns.iter().enumerate() {
                        let at = u32::try_from(at).unwrap_or(u32::MAX);
                        index.enter(&pattern.node.glob, Candidate { taking: number, pattern: Some(at) });
                    }
                }
            }
        }
        index
    }

    fn enter(&mut self, pattern: &[u8], candidate: Candidate) {
        let is_wild = glob::has_wildcard(pattern);
        let front = if is_wild { glob::front(pattern) } else { pattern };
        let mut at = 0;
        for byte in front {
            at = self.child(at, *byte);
        }
        let is_star = pattern.get(front.len()..) == Some(b"*");
        if let Some(node) = self.nodes.get_mut(at) {
            if is_wild {
                node.wild.push((candidate, is_star));
            } else {
                node.exact.push(candidate);
            }
        }
    }

    fn child(&mut self, at: usize, byte: u8) -> usize {
        let new = self.nodes.len();
        let node = match self.nodes.get_mut(at) {
            None => return at,
            Some(node) => node,
        };
        if let Some((_, next)) = node.next.iter().find(|(known, _)| *known == byte) {
            return *next as usize;
        }
        node.next.push((byte, u32::try_from(new).unwrap_or(u32::MAX)));
        self.nodes.push(IndexNode::default());
        new
    }

    /// The patterns that match a name, in the order of the script.
    fn of(&self, name: &[u8], takings: &[Taking]) -> Vec<Candidate> {
        let mut found = self.all.clone();
        let mut at = self.nodes.first();
        let mut rest = name.iter();
        while let Some(node) = at {
            found.extend(node.wild.iter().filter_map(|(candidate, is_star)| {
                let matches = || {
                    let taking = takings.get(candidate.taking as usize)?;
                    Some(glob::matches(pattern_of(&taking.node, candidate.pattern)?.0, name))
                };
                (*is_star || matches() == Some(true)).then_some(*candidate)
            }));
            at = match rest.next() {
                None => {
                    found.extend(&node.exact);
                    None
                }
                Some(byte) => {
                    let next = node.next.iter().find(|(known, _)| known == byte);
                    next.and_then(|(_, next)| self.nodes.get(*next as usize))
                }
            };
        }
        found.sort_unstable();
        found
    }
}
