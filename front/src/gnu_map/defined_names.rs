//! The names that input sections define, for a map.

use std::borrow::Cow;

use bstr::{BStr, ByteSlice};

use super::Request;
use crate::layout::evaluation::Definer;
use crate::layout::ids::SectionId;
use crate::objects::{Definition, Home, ObjectIndex, Rank, SectionFlags};

/// A name of objects or script.
#[derive(Clone, Debug)]
pub struct Named<'a> {
    /// The name.
    pub name: Cow<'a, BStr>,
    /// Its definition in the objects.
    pub definition: Option<NamedDefinition>,
    /// Whether script, command line or GNU ld itself may speak of it.
    pub is_spoken: bool,
}

/// The definition of a name.
#[derive(Clone, Copy, PartialEq, Eq, Debug)]
pub struct NamedDefinition {
    /// The object that has it.
    pub object: ObjectIndex,
    /// Where it is.
    pub home: Home,
    /// Its value there.
    pub value: u64,
    /// How good it is.
    pub rank: Rank,
    /// Of a common block, its size.
    pub size: u64,
}

impl From<&Definition> for NamedDefinition {
    fn from(one: &Definition) -> NamedDefinition {
        let Definition { object, home, value, size, rank, .. } = *one;
        NamedDefinition { object, home, value, rank, size }
    }
}

/// The names of input sections, with their places there, which ascend.
pub(super) struct Defined<'a> {
    names: Vec<(u64, &'a BStr)>,
    /// By section: where its names begin; at the end how many there are.
    first: Vec<usize>,
}

impl<'a> Defined<'a> {
    /// The names in the order of GNU ld's table, which is that of names of one value.
    pub(super) fn of(request: &'a Request<'_>) -> Defined<'a> {
        let place = |named: &'a Named<'_>| {
            let (section, at) = place_of(request, named)?;
            Some((section, at, named.name.as_bstr()))
        };
        let found: Vec<_> = request.names.iter().filter_map(place).collect();
        Defined::arranged(&found, request.evaluation.sections.len())
    }

    /// Names with their sections, of which there are so many, and places.
    fn arranged(found: &[(SectionId, u64, &'a BStr)], count: usize) -> Defined<'a> {
        let mut first = vec![0; count + 1];
        let mut places: Vec<usize> = Vec::with_capacity(found.len());
        for (section, ..) in found {
            let next = first.get_mut(section.index() + 1);
            places.push(next.as_deref().copied().unwrap_or(usize::MAX));
            next.into_iter().for_each(|next| *next += 1);
        }
        let mut total = 0;
        for one in &mut first {
            total += *one;
            *one = total;
        }
        let mut names = vec![(0, b"".as_bstr()); total];
        for ((section, at, name), place) in found.iter().zip(&places) {
            let place = first.get(section.index()).and_then(|first| first.checked_add(*place));
            let one = place.and_then(|place| names.get_mut(place));
            one.into_iter().for_each(|one| *one = (*at, *name));
        }
        let mut rest = names.as_mut_slice();
        for (start, end) in first.iter().zip(first.iter().skip(1)) {
            let (own, after) = std::mem::take(&mut rest).split_at_mut(end - start);
            own.sort_by_key(|(at, _)| *at);
            rest = after;
        }
        Defined { names, first }
    }

    /// The names that are defined in a section, each with its place there.
    pub(super) fn in_section(&self, section: SectionId) -> &[(u64, &'a BStr)] {
        let at = section.index();
        let bounds = self.first.get(at).copied().zip(self.first.get(at + 1).copied());
        bounds.and_then(|(start, end)| self.names.get(start..end)).unwrap_or_default()
    }
}

/// The section that a name is in, and its place there; none of names of the script.
fn place_of(request: &Request<'_>, named: &Named<'_>) -> Option<(SectionId, u64)> {
    let evaluation = request.evaluation;
    let definition = named.definition.as_ref()?;
    let is_known = named.is_spoken || definition.rank == Rank::Common;
    let own = if is_known { evaluation.symbol(&named.name) } else { None };
    match own.map(|own| own.definer) {
        Some(Definer::Script(_) | Definer::Linker) => return None,
        Some(Definer::Object(Some(section))) if definition.home == Home::Common => {
            let start = evaluation.section_address(evaluation.section(section)?)?;
            return Some((section, own?.value?.address.wrapping_sub(start)));
        }
        _ => {}
    }
    let number = match definition.home {
        Home::Section(number) => number,
        _ => return None,
    };
    let section = evaluation.section_of(definition.object, number)?;
    let may_be_merged = SectionFlags(evaluation.section(section)?.bits).has(SectionFlags::MERGE);
    let merged = || evaluation.merged_place(definition.object, number, definition.value);
    match if may_be_merged { merged() } else { None } {
        Some((source, at)) => Some((evaluation.section_of(source.object, source.section)?, at)),
        None => Some((section, definition.value)),
    }
}
