//! The input sections that are merged (elflink.c, `_bfd_elf_merge_sections`): those of one output section and one kind
//! with each other, in the order of objects and headers, before sizes are found.

use super::evaluation::InputSection;
use super::flags::Flags;
use super::ids::{OutputId, SectionId};
use super::link::Link;
use crate::fast_map::FastMap;
use crate::objects::{
    MergeKind, MergeSource, Merged, MergedPart, Object, ObjectIndex, OwnMerged, Section, SectionFlags, SectionIndex,
    SectionKind,
};
use crate::snapshot::Bytes;
use std::sync::Arc;

/// What is merged in a link, of sections that are loaded and of others.
#[derive(Clone, Debug, Default)]
pub struct AllMerges {
    /// Of those that are loaded.
    pub loaded: Arc<Merges>,
    /// Of the others.
    pub beside: Arc<Merges>,
}

/// What is merged in a link.
#[derive(Clone, Debug, Default)]
pub struct Merges {
    groups: Vec<Arc<Group>>,
    /// All sections, by object and number.
    sources: Vec<MergeSource>,
    /// By section: its group, and its number there.
    numbers: FastMap<MergeSource, (u32, u32)>,
}

/// Sections that are merged with each other.
#[derive(Debug)]
struct Group {
    kind: MergeKind,
    sources: Vec<MergeSource>,
    /// Their bytes.
    contents: Vec<Bytes>,
    merged: Merged,
}

impl Merges {
    /// Whether nothing is merged.
    pub fn is_empty(&self) -> bool {
        self.groups.is_empty()
    }

    /// A section of an object that is merged.
    pub fn own(&self, object: ObjectIndex, section: SectionIndex) -> Option<OwnMerged<'_>> {
        let (group, part) = *self.numbers.get(&MergeSource { object, section })?;
        let group = self.groups.get(group as usize)?;
        Some(OwnMerged { section, merged: &group.merged, part, sources: &group.sources })
    }

    /// The bytes that a section of an object has now; `None` if it is not merged.
    pub fn size(&self, object: ObjectIndex, section: SectionIndex) -> Option<u64> {
        self.part(object, section).map(|part| part.contents.len() as u64)
    }

    /// A section of an object as it is after merging; `None` if it is not merged.
    pub fn part(&self, object: ObjectIndex, section: SectionIndex) -> Option<&MergedPart> {
        let (group, part) = *self.numbers.get(&MergeSource { object, section })?;
        self.groups.get(group as usize)?.merged.parts().get(part as usize)
    }

    /// The sections that are merged, by object and number.
    pub fn sources(&self) -> &[MergeSource] {
        &self.sources
    }

    /// Where what was at a place of a section of an object is now; `None` if it is where it was.
    pub fn place(&self, object: ObjectIndex, section: SectionIndex, offset: u64) -> Option<(MergeSource, u64)> {
        self.own(object, section)?.place(offset)
    }
}

impl Link<'_> {
    /// Merges sections; `before` is what was merged of the same objects before some changed.
    pub fn merge(&mut self, objects: &[Object], before: &AllMerges) {
        if !self.settings.merges {
            return;
        }
        let mut followed = FastMap::default();
        let (loaded, beside) = self.candidates(objects, &mut followed);
        self.merges = Arc::new(self.merged(loaded, &before.loaded));
        self.merges_beside = Arc::new(self.merged(beside, &before.beside));
    }

    /// Merges the sections of groups.
    fn merged(&mut self, groups: Vec<(MergeKind, Vec<Candidate>)>, before: &Merges) -> Merges {
        let mut merges = Merges::default();
        for (kind, candidates) in groups {
            let group = group_of(kind, &candidates, before);
            for (part, (candidate, own)) in candidates.iter().zip(group.merged.parts()).enumerate() {
                merges.numbers.insert(candidate.source, (merges.groups.len() as u32, part as u32));
                if let Some(section) = self.section_mut(candidate.id) {
                    section.size = own.contents.len() as u64;
                    if own.is_left_out {
                        section.flags |= Flags::EXCLUDE;
                        section.align = 1;
                        section.own_align = 1;
                    }
                }
            }
            merges.groups.push(group);
        }
        merges.sources = merges.numbers.keys().copied().collect();
        merges.sources.sort_unstable();
        merges
    }

    /// The sections that are merged, by those that they are merged with; those that are not loaded apart.
    fn candidates(&self, objects: &[Object], followed: &mut FastMap<OutputId, bool>) -> (Groups, Groups) {
        let (mut loaded, mut beside) = (Groups::new(), Groups::new());
        let mut numbers: FastMap<(OutputId, MergeKind), usize> = FastMap::default();
        let may_merge = |(_, section): &(usize, &InputSection)| section.flags.has(Flags::MERGE);
        for (number, section) in self.sections.iter().enumerate().filter(may_merge) {
            let is_loaded = section.output().and_then(|output| self.place(output)).map(|place| place.is_loaded());
            let groups = match is_loaded {
                Some(true) => &mut loaded,
                Some(false) if self.is_merged_beside(section, followed) => &mut beside,
                _ => continue,
            };
            if let Some((key, candidate)) = self.candidate(SectionId::new(number), section, objects) {
                let group = *numbers.entry(key).or_insert(groups.len());
                match groups.get_mut(group) {
                    Some((_, group)) => group.push(candidate),
                    None => groups.push((key.1, vec![candidate])),
                }
            }
        }
        (loaded, beside)
    }

    /// Whether a section that is not loaded is merged here: if something goes by its size, relocations are written,
    /// or it may have names, as none of debug information and of `.comment` has.
    fn is_merged_beside(&self, section: &InputSection, followed: &mut FastMap<OutputId, bool>) -> bool {
        let output = match section.output() {
            None => return false,
            Some(output) => output,
        };
        let is_plain = section.flags.has(Flags::DEBUGGING) || self.program.names.get(section.name) == ".comment";
        !is_plain || self.settings.keeps_empty || *followed.entry(output).or_insert_with(|| self.is_followed(output))
    }

    /// A section that is merged, and with which others: one that is in the image.
    fn candidate(
        &self,
        id: SectionId,
        section: &InputSection,
        objects: &[Object],
    ) -> Option<((OutputId, MergeKind), Candidate)> {
        if section.flags & (Flags::EXCLUDE | Flags::CREATED) != Flags::NONE {
            return None;
        }
        let output = section.output()?;
        let object = objects.get(section.object.0 as usize)?;
        let is_merged = |own: &Section<'_>| own.kind != SectionKind::NOBITS && !own.flags.has(SectionFlags::COMPRESSED);
        let own = object.section(section.number()?).filter(is_merged)?;
        let kind = MergeKind::of(&own).filter(|_| !object.has_relocation_table(own.index))?;
        let start = usize::try_from(own.offset).ok()?;
        let contents = object.data().slice(start..start.checked_add(usize::try_from(own.size).ok()?)?)?;
        let source = MergeSource { object: section.object, section: own.index };
        Some(((output, kind), Candidate { id, source, contents }))
    }
}

/// Sections by what they are merged with.
type Groups = Vec<(MergeKind, Vec<Candidate>)>;

/// A section that is merged.
#[derive(Clone, Debug)]
struct Candidate {
    id: SectionId,
    source: MergeSource,
    contents: Bytes,
}

/// The merged sections of one kind: those of before if the sections are the same.
fn group_of(kind: MergeKind, candidates: &[Candidate], before: &Merges) -> Arc<Group> {
    let first = candidates.first().and_then(|first| before.numbers.get(&first.source));
    let old = first.and_then(|(group, _)| before.groups.get(*group as usize));
    let is_same = |old: &Arc<Group>| {
        let sources = old.sources.iter().zip(&old.contents);
        old.kind == kind
            && old.sources.len() == candidates.len()
            && sources.zip(candidates).all(|((source, bytes), one)| *source == one.source && *bytes == one.contents)
    };
    if let Some(old) = old.filter(|old| is_same(old)) {
        return Arc::clone(old);
    }
    let contents: Vec<Bytes> = candidates.iter().map(|one| one.contents.clone()).collect();
    let bytes: Vec<&[u8]> = contents.iter().map(|bytes| &**bytes).collect();
    let merged = Merged::of(kind, &bytes);
    let sources = candidates.iter().map(|one| one.source).collect();
    Arc::new(Group { kind, sources, contents, merged })
}
