//! Sections whose addresses overlap (ldlang.c, `lang_check_section_addresses`).

use crate::layout::flags::Flags;
use crate::layout::headers::is_tbss;
use crate::layout::ids::OutputId;
use crate::layout::link::Link;
use crate::layout::program::Place;
use crate::layout::stop::{refused, RefusedReason, Stop};

impl Link<'_> {
    /// Refuses sections that wrap around the address space or overlap.
    pub fn check_addresses(&self) -> Result<(), Stop> {
        if !self.settings.checks_sections {
            return Ok(());
        }
        for (id, place) in self.places().filter(|(_, place)| place.flags.has(Flags::ALLOC)) {
            let wraps = |start: u64| {
                let end = start.wrapping_add(place.size);
                end != 0 && end < start
            };
            if wraps(place.address) || wraps(place.load) {
                return refused(RefusedReason::Wraps(self.output_name(id)), self.output_span(id));
            }
        }
        let takes_room = |place: &Place| place.flags.has(Flags::ALLOC) && !is_tbss(place) && place.size != 0;
        let mut places: Vec<(OutputId, &Place)> = self.places().filter(|(_, place)| takes_room(place)).collect();
        places.sort_by_key(|(_, place)| place.load);
        let loaded = places.iter().filter(|(_, place)| place.flags.has(Flags::LOAD));
        self.check_order(loaded.map(|(id, place)| (*id, place.load, place.size)))?;
        places.sort_by_key(|(_, place)| place.address);
        let has_overlays = places.windows(2).any(|pair| match pair {
            [(_, one), (_, other)] => one.address == other.address,
            _ => false,
        });
        if has_overlays {
            return Ok(());
        }
        self.check_order(places.iter().map(|(id, place)| (*id, place.address, place.size)))
    }

    /// Refuses what begins before the end of the one before it.
    fn check_order(&self, places: impl Iterator<Item = (OutputId, u64, u64)>) -> Result<(), Stop> {
        let mut before: Option<(OutputId, u64, u64)> = None;
        for (id, start, size) in places {
            let end = start.wrapping_add(size).wrapping_sub(1);
            if let Some((other, other_start, other_end)) = before {
                if start <= other_end || other_end < other_start {
                    let reason = RefusedReason::Overlap(self.output_name(id), self.output_name(other));
                    return refused(reason, self.output_span(id));
                }
            }
            before = Some((id, start, end));
        }
        Ok(())
    }
}
