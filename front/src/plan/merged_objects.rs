//! Objects whose sections with SHF_MERGE have what an evaluation leaves in them.

use std::collections::{BTreeMap, BTreeSet};
use std::sync::Arc;

use bstr::{BStr, BString};

use super::loaded::MadeLoaded;
use crate::layout::{Evaluation, Merges};
use crate::objects::{
    Definition, Home, Leaving, LinkNames, MergeFindings, MergeRequests, MergeSource, Object, ObjectIndex, OwnMerged,
    Rank, SectionFlags, SymbolIndex, MERGED,
};
use crate::parallel::map_all;
use crate::session_client::SessionObject;
use crate::snapshot::Bytes;

/// The objects that merging has changed, and what it did to each: what stays is not made again.
#[derive(Clone, Debug, Default)]
pub(super) struct MergedObjects {
    merges: Arc<Merges>,
    /// The names of all objects.
    names: Vec<BString>,
    /// By place.
    objects: BTreeMap<usize, Made>,
}

/// An object that merging has changed.
#[derive(Clone, Debug)]
struct Made {
    /// What was read.
    data: Bytes,
    findings: Arc<MergeFindings>,
    asked: MergeRequests,
    /// What is sent.
    made: Option<Bytes>,
}

/// What an object is made of.
struct Wanted {
    findings: Arc<MergeFindings>,
    asked: MergeRequests,
}

/// Whether merging may change an object, by what it has itself.
pub(super) fn may_change(object: &Object) -> bool {
    object.sections().any(|section| section.flags.has(SectionFlags::MERGE) && section.kind.is_linked())
}

impl MergedObjects {
    /// Puts the objects that merging changes in the place of those that were read.
    pub(super) fn put(
        &mut self,
        held: &mut [SessionObject],
        objects: &[Object],
        evaluation: &Evaluation,
        made_loaded: &MadeLoaded,
        collects: bool,
    ) {
        let is_of_these = self.names.len() == held.len() && self.names.iter().zip(&*held).all(|(a, b)| *a == b.name);
        if evaluation.merges.is_empty() {
            *self = MergedObjects::default();
            return;
        }
        if !is_of_these {
            self.objects.clear();
            self.names = held.iter().map(|held| held.name.clone()).collect();
        }
        let wanted = self.wanted(objects, &evaluation.merges, made_loaded, collects);
        let mut before = std::mem::take(&mut self.objects);
        let mut new: Vec<(usize, Wanted)> = Vec::new();
        for (place, wanted) in wanted {
            match before.remove(&place).filter(|old| is_made(old, objects, place, &wanted)) {
                Some(old) => drop(self.objects.insert(place, Made { findings: wanted.findings, ..old })),
                None => new.push((place, wanted)),
            }
        }
        let made = map_all(&new, &|(place, wanted)| made_of(objects, *place, wanted));
        for ((place, Wanted { findings, asked }), made) in new.into_iter().zip(made) {
            if let Some(object) = objects.get(place) {
                self.objects.insert(place, Made { data: object.data().clone(), findings, asked, made });
            }
        }
        for (place, one) in &self.objects {
            if let (Some(held), Some(made)) = (held.get_mut(*place), &one.made) {
                held.data = made.clone();
            }
        }
        self.merges = Arc::clone(&evaluation.merges);
    }

    /// What merging changes in objects and asks of them, by their places.
    fn wanted(
        &self,
        objects: &[Object],
        merges: &Arc<Merges>,
        made_loaded: &MadeLoaded,
        collects: bool,
    ) -> Vec<(usize, Wanted)> {
        let mut found: BTreeMap<usize, Arc<MergeFindings>> = BTreeMap::new();
        let mut new: Vec<(ObjectIndex, &Object, &[MergeSource])> = Vec::new();
        let mut rest = merges.sources();
        while let Some(first) = rest.first() {
            let index = first.object;
            let (own, others) = rest.split_at(rest.partition_point(|one| one.object == index));
            rest = others;
            let old = objects.get(index.0 as usize).map(|object| (object, self.known(index, object, own, merges)));
            match old {
                Some((_, Some(old))) if made_loaded.is_empty() => drop(found.insert(index.0 as usize, old)),
                Some((object, _)) => new.push((index, object, own)),
                None => {}
            }
        }
        let made = map_all(&new, &|(index, object, own)| findings_of(*index, object, own, merges, made_loaded));
        let made = new.iter().zip(made).filter_map(|((index, ..), found)| Some((index.0 as usize, found?)));
        found.extend(made);
        with_requests(found, objects, collects)
    }

    /// What merging changes in an object, if it is the same as before, and what it is merged with.
    fn known(
        &self,
        index: ObjectIndex,
        object: &Object,
        own: &[MergeSource],
        merges: &Arc<Merges>,
    ) -> Option<Arc<MergeFindings>> {
        let old = self.objects.get(&(index.0 as usize)).filter(|old| old.data.is_identical(object.data()))?;
        let is_same = |(one, other): (&OwnMerged<'_>, &OwnMerged<'_>)| {
            one.section == other.section && one.part == other.part && std::ptr::eq(one.merged, other.merged)
        };
        let are_same = || {
            let (before, now) = (own_of(&self.merges, index, own), own_of(merges, index, own));
            before.len() == now.len() && before.iter().zip(&now).all(is_same)
        };
        (Arc::ptr_eq(&self.merges, merges) || are_same()).then(|| Arc::clone(&old.findings))
    }
}

/// What merging changes in an object; `None` if its tables are not whole.
fn findings_of(
    index: ObjectIndex,
    object: &Object,
    own: &[MergeSource],
    merges: &Merges,
    made_loaded: &MadeLoaded,
) -> Option<Arc<MergeFindings>> {
    let also = made_loaded.get(&index.0);
    let is_loaded = |section| also.map_or(false, |also| also.contains(&section));
    MergeFindings::of(object.data(), index, &own_of(merges, index, own), &is_loaded).map(Arc::new)
}

/// Whether an object was made of the same, and by the same changes.
fn is_made(old: &Made, objects: &[Object], place: usize, wanted: &Wanted) -> bool {
    let (before, now) = (&old.findings, &wanted.findings);
    let is_of_it = objects.get(place).map_or(false, |object| old.data.is_identical(object.data()));
    is_of_it && (Arc::ptr_eq(before, now) || before.edits == now.edits) && old.asked == wanted.asked
}

/// An object with what is wanted of it.
fn made_of(objects: &[Object], place: usize, wanted: &Wanted) -> Option<Bytes> {
    let anchor = |source| anchor(objects, source);
    let data = objects.get(place)?.data();
    wanted.findings.edits.applied(&wanted.asked, data, ObjectIndex(place as u32), &anchor)
}

/// The sections of an object that are merged.
fn own_of<'a>(merges: &'a Merges, index: ObjectIndex, own: &[MergeSource]) -> Vec<OwnMerged<'a>> {
    own.iter().filter_map(|one| merges.own(index, one.section)).collect()
}

/// The name of a section for other objects.
fn anchor(objects: &[Object], source: MergeSource) -> BString {
    let object = objects.get(source.object.0 as usize).map_or_else(Default::default, |object| object.name());
    format!("{MERGED}.{object}.{}", source.section.0).into()
}

/// What changes in objects, with what it asks of others.
fn with_requests(
    found: BTreeMap<usize, Arc<MergeFindings>>,
    objects: &[Object],
    collects: bool,
) -> Vec<(usize, Wanted)> {
    let mut asked: BTreeMap<usize, MergeRequests> = BTreeMap::new();
    let mut moved: Vec<(MergeSource, MergeSource)> = Vec::new();
    for (place, one) in leaving_that_count(objects, &found) {
        moved.push((MergeSource { object: ObjectIndex(place as u32), section: one.from }, one.to));
        move_definition(&mut asked, objects, place, &one);
    }
    if collects {
        let of = |(place, one): (&usize, &Arc<MergeFindings>)| {
            let object = ObjectIndex(*place as u32);
            one.moved.iter().map(|(section, to)| (MergeSource { object, section: *section }, *to)).collect::<Vec<_>>()
        };
        moved.extend(found.iter().flat_map(of));
        for (from, to) in moved {
            let asked = asked.entry(to.object.0 as usize).or_default();
            asked.kept.entry(to.section).or_default().insert(from);
        }
    }
    let places: BTreeSet<usize> = found.keys().chain(asked.keys()).copied().collect();
    let wanted = |place: usize| {
        let findings = found.get(&place).map_or_else(Arc::default, Arc::clone);
        (place, Wanted { findings, asked: asked.remove(&place).unwrap_or_default() })
    };
    places.into_iter().map(wanted).collect()
}

/// The names that move to other objects by merging and whose definitions count, each with the place of its object.
fn leaving_that_count(objects: &[Object], found: &BTreeMap<usize, Arc<MergeFindings>>) -> Vec<(usize, Leaving)> {
    let leaving = || found.iter().flat_map(|(place, one)| one.leaving.iter().map(move |one| (*place, one)));
    let known = LinkNames::look_up(objects, leaving().map(|(_, one)| one.name.name.clone()));
    let is_it = |place: usize, one: &Leaving, found: &Definition| {
        found.object.0 as usize == place && found.symbol == one.symbol && found.home == Home::Section(one.from)
    };
    let counts = |(place, one): &(usize, &Leaving)| {
        let name: &BStr = one.name.name.as_ref();
        known.definition(name).map_or(false, |found| is_it(*place, one, found)) && strong_count(objects, name) < 2
    };
    leaving().filter(counts).map(|(place, one)| (place, one.clone())).collect()
}

/// How many strong definitions a name has.
fn strong_count(objects: &[Object], name: &BStr) -> usize {
    let of = |object: &Object| object.globals_named(name).filter(|one| one.rank() == Some(Rank::Strong)).count();
    objects.iter().map(of).sum()
}

/// Moves the definition of a name to the object that has its section now; it is the only one then.
fn move_definition(asked: &mut BTreeMap<usize, MergeRequests>, objects: &[Object], place: usize, one: &Leaving) {
    for (other, object) in objects.iter().enumerate() {
        let name: &BStr = one.name.name.as_ref();
        let defined: Vec<SymbolIndex> = object
            .globals_named(name)
            .filter(|symbol| symbol.rank().map_or(false, |rank| rank != Rank::Common) || other == place)
            .filter(|symbol| !symbol.is_undefined())
            .map(|symbol| symbol.index)
            .collect();
        if !defined.is_empty() {
            asked.entry(other).or_default().undefined.extend(defined);
        }
    }
    asked.entry(one.to.object.0 as usize).or_default().defined.push(one.name.clone());
}
