//! Where an assignment stands among the output sections: the section that an address outside of all becomes one of.

use crate::fast_map::{FastMap, FastSet};
use crate::layout::flags::Flags;
use crate::layout::ids::{OutputId, StatementId, SymbolId};
use crate::layout::link::Link;
use crate::layout::program::{Place, StepKind};

/// The symbols that an expression names (ldexp.c, `assign_src`).
#[derive(Clone, Copy, PartialEq, Eq, Debug)]
pub(crate) enum Source {
    /// No output section so far.
    None,
    /// One symbol, once.
    One(SymbolId),
    /// Several.
    Several,
}

impl Source {
    /// The source with one more symbol.
    pub fn and(self, symbol: SymbolId) -> Source {
        match self {
            Source::None => Source::One(symbol),
            Source::One(_) | Source::Several => Source::Several,
        }
    }

    /// The symbol, if it is only one.
    pub fn one(self) -> Option<SymbolId> {
        match self {
            Source::One(symbol) => Some(symbol),
            Source::None | Source::Several => None,
        }
    }
}

/// How far a pass is among the output sections (ldlang.c, `lang_do_assignments_1`).
#[derive(Clone, Debug, Default)]
pub(crate) struct AssignmentPlace {
    /// The last output section that takes memory.
    current: Option<OutputId>,
    /// Whether `.` was assigned after it.
    prefers_next: bool,
    /// Whether `end` or `_end` was assigned.
    has_end: bool,
    /// The output sections after that, in this pass or in the last one.
    after_end: FastSet<OutputId>,
    /// The output sections of the image that take memory, as GNU ld lists them, and their places in its list.
    listed: Vec<OutputId>,
    places: FastMap<OutputId, usize>,
}

impl AssignmentPlace {
    /// At the beginning of a pass, with the list of output sections.
    fn begin(&mut self, all: &[OutputId], is_kept: &dyn Fn(OutputId) -> bool) {
        self.current = None;
        self.prefers_next = false;
        self.has_end = false;
        self.places = all.iter().enumerate().map(|(at, id)| (*id, at)).collect();
        self.listed = all.iter().copied().filter(|id| is_kept(*id)).collect();
    }

    /// The last one of the list up to an output section.
    fn until(&self, id: OutputId) -> Option<OutputId> {
        let place = |id: &OutputId| self.places.get(id).copied();
        let limit = place(&id);
        self.listed.iter().rev().copied().find(|other| place(other) <= limit)
    }
}

impl Link<'_> {
    /// Notes that a pass begins.
    pub fn stand_at_beginning(&mut self) {
        let all = self.program.made.clone();
        let mut standing = std::mem::take(&mut self.standing);
        standing.begin(&all, &|id| self.place(id).map_or(false, |place| !place.is_gone && takes_memory(place)));
        self.standing = standing;
    }

    /// Notes which statement is next.
    pub fn stand_before(&mut self, id: StatementId) {
        let (target, is_outside) = match self.step(id) {
            Some(step) => match &step.kind {
                StepKind::Assign { target, .. } => (*target, step.output.is_none()),
                _ => return,
            },
            None => return,
        };
        let is_end = |name: &[u8]| {
            let end = name.iter().position(|byte| *byte != b'_').unwrap_or(name.len());
            name.get(end..) == Some(b"end")
        };
        match target {
            None => self.standing.prefers_next |= is_outside,
            Some(target) => {
                let is_end = self.symbol(target).map_or(false, |symbol| is_end(&symbol.name));
                self.standing.has_end |= is_end;
            }
        }
    }

    /// The statements of an output section are next.
    pub fn stand_in(&mut self, id: OutputId) {
        match self.standing.has_end {
            true => self.standing.after_end.insert(id),
            false => self.standing.after_end.remove(&id),
        };
        let is_ignored = self.output(id).map_or(true, |output| output.is_ignored);
        if !is_ignored && self.place(id).map_or(false, takes_memory) {
            self.standing.current = Some(id);
            self.standing.prefers_next = false;
        }
    }

    /// The section that an address becomes one of (ldlang.c, `section_for_dot`): the last one before it, and the next
    /// one after an assignment to `.`.
    pub fn section_for_dot(&self, id: StatementId) -> Option<OutputId> {
        let standing = &self.standing;
        let is_after_end = |id: OutputId| standing.after_end.contains(&id);
        if standing.current.is_none() || standing.prefers_next {
            let next = self.next_made(id);
            if standing.current.is_none() || next.map_or(true, |next| !is_after_end(next)) {
                return next.map_or(standing.listed.last().copied(), |next| standing.until(next));
            }
        }
        standing.until(standing.current?).or_else(|| standing.listed.first().copied())
    }

    /// The first output section after a statement that is made, or that stands after `end`.
    fn next_made(&self, id: StatementId) -> Option<OutputId> {
        let after = self.program.top.iter().skip_while(|other| **other != id);
        let first = after.skip(1).find_map(|other| match self.step(*other)?.kind {
            StepKind::Output(output) => Some(output),
            _ => None,
        })?;
        let outputs = self.program.order.iter().copied().skip_while(|other| *other != first);
        let is_kept = |other: &OutputId| self.place(*other).map_or(false, |place| !place.is_gone);
        outputs.into_iter().find(|other| self.standing.after_end.contains(other) || is_kept(other))
    }

    /// The section that takes the symbols of one that is not in the image (linker.c, `_bfd_nearby_section`).
    pub fn nearby(&self, id: OutputId, address: u64) -> Option<OutputId> {
        let listed = &self.program.made;
        let at = listed.iter().position(|other| *other == id)?;
        let kept = |id: &OutputId| Some((*id, self.place(*id).filter(|place| !place.is_gone)?));
        let before = listed.iter().take(at).rev().find_map(kept);
        let after = listed.iter().skip(at + 1).find_map(kept);
        let own = self.place(id).map_or(Flags::NONE, |place| place.flags);
        let differ = |flags: Flags, one: &Place, other: Flags| (one.flags ^ other).has(flags);
        let (before, after) = match (before, after) {
            (Some(before), Some(after)) => (before, after),
            (before, after) => return before.or(after).map(|(other, _)| other),
        };
        let kinds = Flags::ALLOC | Flags::TLS;
        let takes_before = if differ(kinds | Flags::LOAD, before.1, after.1.flags) {
            differ(kinds, after.1, own) || before.1.flags.has(Flags::LOAD) && !after.1.flags.has(Flags::LOAD)
        } else if differ(Flags::READONLY, before.1, after.1.flags) {
            differ(Flags::READONLY, after.1, own)
        } else if differ(Flags::CODE, before.1, after.1.flags) {
            differ(Flags::CODE, after.1, own)
        } else {
            address < after.1.address
        };
        Some(if takes_before { before.0 } else { after.0 })
    }
}

/// Whether a section takes memory that is no thread's own.
fn takes_memory(place: &Place) -> bool {
    place.flags.has(Flags::ALLOC) && !place.flags.has(Flags::TLS)
}
