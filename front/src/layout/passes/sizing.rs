//! The passes in which GNU ld finds sizes and addresses (ldlang.c, `lang_size_sections`).
//!
//! Each pass goes over all statements. Of a later statement an expression sees the value that the previous pass left.

use super::values::width_of;
use crate::layout::evaluation::{Base, Gap};
use crate::layout::expr::compiled::align_power;
use crate::layout::expr::fold::{Phase, RelroSeen, SegmentPhase};
use crate::layout::flags::Flags;
use crate::layout::headers::{is_tbss, room};
use crate::layout::ids::{ExprId, OutputId, RegionId, SectionId, StatementId};
use crate::layout::link::Link;
use crate::layout::program::{Constraint, FillBytes, OutputKind, Place, Shape, StepKind};
use crate::layout::stop::{not_evaluated, refused, NotEvaluatedReason, RefusedReason, Stop};
use crate::script::tree::{Provision, Span};

/// Layouts after which a number of program headers that still changes is given up (ldelf.c, `ldelf_map_segments`).
const TRIES: u32 = 10;

/// Whether the load addresses of others do not go by a section (ldlang.c, `IGNORE_SECTION`).
fn is_ignored(place: &Place) -> bool {
    !place.flags.has(Flags::ALLOC) || is_tbss(place)
}

impl Link<'_> {
    /// Before a sizing pass: regions are empty, and no section has its address (ldlang.c, `lang_reset_memory_regions`).
    fn reset(&mut self) {
        for region in &mut self.program.regions {
            region.current = region.origin;
            region.last = None;
        }
        for output in &mut self.program.outputs {
            output.has_address = false;
            output.has_load = false;
            if let Some(place) = output.place.as_mut().filter(|place| !place.is_gone) {
                place.last_size = place.size;
                place.size = 0;
            }
        }
    }

    /// Finds the output sections that stay empty, and takes them out (ldlang.c, `strip_excluded_output_sections`).
    pub fn strip(&mut self) -> Result<(), Stop> {
        self.phase = Phase::Mark;
        self.segment.phase = SegmentPhase::None;
        self.one_pass(false)?;
        self.reset();
        let (sections, table) = (&self.sections, self.eh_frame_hdr);
        let is_table = |id: &SectionId| table == Some(*id);
        let is_there = |id: &SectionId| {
            sections.get(id.index()).map_or(false, |one| !one.flags.has(Flags::EXCLUDE | Flags::CREATED))
        };
        for output in &mut self.program.outputs {
            if output.constraint == Constraint::Unmet {
                continue;
            }
            if let Some(place) = &mut output.place {
                let is_kept = self.settings.keeps_empty && place.inputs.iter().any(is_there);
                let is_kept = is_kept || place.inputs.iter().any(is_table);
                if place.last_size == 0 && !place.flags.has(Flags::KEEP) && !is_kept {
                    output.is_ignored |= !output.updates_dot;
                    place.is_gone = true;
                }
            }
        }
        Ok(())
    }

    /// Lays out; once more if a page of the data segment can be saved, or its RELRO part is aligned.
    pub fn size(&mut self, checks: bool) -> Result<(), Stop> {
        self.phase = Phase::Size;
        self.segment.phase = SegmentPhase::None;
        self.one_pass(checks)?;
        if self.segment.phase != SegmentPhase::EndSeen {
            self.segment.phase = SegmentPhase::Done;
            return Ok(());
        }
        let is_again = if self.relro && self.segment.relro_end != 0 {
            let (base, end) = (self.segment.base, self.adjust_relro());
            self.reset();
            self.one_pass(checks)?;
            let is_longer = self.segment.relro_end > end;
            if is_longer {
                self.segment.base = base;
            }
            is_longer
        } else {
            self.adjust_segment()
        };
        if is_again {
            self.reset();
            self.one_pass(checks)?;
        }
        if self.relro && self.segment.relro_end != 0 {
            self.headers.relro = Some((self.segment.base, self.segment.relro_end));
        }
        Ok(())
    }

    /// Whether a page can be saved (ldlang.c, `lang_size_segment`).
    fn adjust_segment(&mut self) -> bool {
        let segment = &mut self.segment;
        let mask = segment.common.wrapping_sub(1);
        let (first, last) = (segment.base.wrapping_neg() & mask, segment.end & mask);
        let is_again = first != 0
            && last != 0
            && segment.base & !mask != segment.end & !mask
            && first.wrapping_add(last) <= segment.common;
        segment.phase = if is_again { SegmentPhase::Adjust } else { SegmentPhase::Done };
        is_again
    }

    /// Sets where the data segment is to begin so that its RELRO part ends at a page; gives that end (ldlang.c,
    /// `lang_size_relro_segment_1`).
    fn adjust_relro(&mut self) -> u64 {
        let segment = &self.segment;
        let end = align_power(segment.relro_end, segment.page);
        let mut wanted = end.wrapping_sub(segment.relro_offset);
        let inside = segment.base..segment.relro_end.wrapping_sub(segment.relro_offset);
        for (_, place) in self.places().rev() {
            if place.flags.has(Flags::ALLOC) && inside.contains(&place.address) {
                let last = place.address.wrapping_add(room(place));
                let start = place.address.wrapping_add(wanted.wrapping_sub(last));
                wanted = start & place.align.max(1).wrapping_neg();
            }
        }
        self.segment.phase = SegmentPhase::RelroAdjust;
        self.segment.base = wanted;
        end
    }

    /// Lays out again if sections have other sizes, and while the number of program headers changes (ldelf.c,
    /// `ldelf_map_segments`).
    pub fn settle_headers(&mut self, checks: bool, is_other: bool) -> Result<(), Stop> {
        let mut tries = TRIES;
        if is_other {
            self.program.takings.iter_mut().for_each(|taking| taking.shape = None);
            self.size_again(checks)?;
        }
        loop {
            let is_reordered = self.order_linked();
            let count = self.found_headers();
            let known = self.headers.count;
            let is_again = known != Some(count) && (tries > 6 || known.map_or(true, |known| known < count));
            if is_again || known == Some(count) {
                self.headers.count = Some(count);
            }
            if !is_again && !is_reordered {
                return Ok(());
            }
            tries -= 1;
            if tries == 0 {
                return not_evaluated(NotEvaluatedReason::Headers, None);
            }
            self.size_again(checks)?;
        }
    }

    /// Lays out again (ldlang.c, `lang_relax_sections`).
    fn size_again(&mut self, checks: bool) -> Result<(), Stop> {
        self.values(Phase::Assign)?;
        self.reset();
        self.size(checks)
    }

    fn one_pass(&mut self, checks: bool) -> Result<(), Stop> {
        self.pass += 1;
        if self.phase != Phase::Mark {
            self.sizing += 1;
        }
        let mut dot = 0;
        for id in self.program.top.clone() {
            match self.step(id).map(|step| step.kind.clone()) {
                Some(StepKind::Output(output)) => dot = self.size_output(output, dot, checks)?,
                Some(StepKind::Assign { .. }) => {
                    self.segment.seen = RelroSeen::None;
                    dot = self.assign(id, Base::Absolute, dot)?;
                    self.set_default_region(dot);
                    match self.segment.seen {
                        RelroSeen::Start if self.segment.start_at.is_none() => self.segment.start_at = Some(id),
                        RelroSeen::End if self.segment.end_at.is_none() => self.segment.end_at = Some(id),
                        _ => {}
                    }
                    self.segment.seen = RelroSeen::None;
                }
                Some(StepKind::Assert { condition, .. }) => {
                    self.fold_absolute(condition, dot)?;
                    self.set_default_region(dot);
                }
                _ => {}
            }
        }
        Ok(())
    }

    /// `.` is where the default region goes on, after an assignment and an ASSERT alike.
    fn set_default_region(&mut self, dot: u64) {
        if let Some(region) = self.program.default_region.and_then(|region| self.region_mut(region)) {
            region.current = dot;
        }
    }

    // --- output sections ---

    fn size_output(&mut self, id: OutputId, mut dot: u64, checks: bool) -> Result<u64, Stop> {
        let (constraint, address) = match self.output(id) {
            None => return Ok(dot),
            Some(output) => (output.constraint, output.address),
        };
        if constraint == Constraint::Unmet {
            return Ok(dot);
        }
        if let Some(e) = address {
            let found = self.fold_absolute(e, dot)?;
            if found.is_valid {
                dot = self.address(found);
            } else if self.phase != Phase::Mark {
                return refused(RefusedReason::Address(self.output_name(id)), self.program.expressions.span(e));
            }
        }
        if self.place(id).is_none() {
            return Ok(dot);
        }
        let (start, align, moved) = self.start_of(id, dot, checks)?;
        if let Some(place) = self.place_mut(id) {
            place.address = start;
        }
        self.size_body(id, start)?;
        let is_ignored_output = match self.output_mut(id) {
            None => return Ok(dot),
            Some(output) => {
                output.has_address = true;
                output.is_ignored
            }
        };
        if !is_ignored_output {
            dot = start;
        }
        self.set_load(id, dot, align, moved)?;
        self.follow_load(id, dot);
        if is_ignored_output {
            return Ok(dot);
        }
        self.end_output(id, dot, checks)
    }

    /// The place after an output section; its regions end there.
    fn end_output(&mut self, id: OutputId, dot: u64, checks: bool) -> Result<u64, Stop> {
        let (size, place, end) = match self.output(id).and_then(|output| Some((output.place.as_ref()?, output.end))) {
            None => return Ok(dot),
            Some((place, end)) => (room(place), (place.flags, place.address, place.load), end),
        };
        let mut dot = dot.wrapping_add(size);
        if let Some(end) = end {
            dot = self.overlay_end(end, dot)?;
        }
        let (flags, address, load) = place;
        let (region, other, with_input) = match self.output(id) {
            Some(output) if output.moves_region => (output.region, output.load_region, output.is_aligned_with_input),
            _ => return Ok(dot),
        };
        if flags.has(Flags::ALLOC | Flags::LOAD) {
            self.end_region(id, region, dot, address, checks)?;
            if let Some(other) = other.filter(|other| *other != region) {
                if flags.has(Flags::LOAD) || with_input {
                    self.end_region(id, other, load.wrapping_add(size), load, checks)?;
                }
            }
        }
        Ok(dot)
    }

    /// The end of a section is the end of what its region has so far (ldlang.c, `os_region_check`).
    fn end_region(&mut self, id: OutputId, region: RegionId, end: u64, base: u64, checks: bool) -> Result<(), Stop> {
        let name = self.output_name(id);
        let span = self.output_span(id);
        let region = match self.region_mut(region) {
            None => return Ok(()),
            Some(region) => region,
        };
        region.current = end;
        let is_outside = end < region.origin || end.wrapping_sub(region.origin) > region.length;
        let is_at_end = end == region.origin.wrapping_add(region.length);
        if checks && is_outside && (!is_at_end || base == 0) {
            let region = region.name.clone();
            return refused(RefusedReason::RegionFull { section: name, region }, span);
        }
        Ok(())
    }

    /// Where an output section stands in the script.
    pub fn output_span(&self, id: OutputId) -> Option<Span> {
        self.step(self.output(id)?.statement)?.span
    }

    /// The region of a section that names none: the first whose attributes fit (ldlang.c, `lang_memory_default`).
    fn region_for(&self, mut flags: Flags) -> Option<RegionId> {
        if flags & (Flags::ALLOC | Flags::READONLY | Flags::CODE) == Flags::ALLOC {
            flags |= Flags::DATA;
        }
        let fits = |region: &crate::layout::program::Region| region.flags.has(flags) && !region.not_flags.has(flags);
        self.program.regions.iter().position(fits).map(RegionId::new).or(self.program.default_region)
    }

    /// The address of an output section, its alignment there, and how far that moved it.
    fn start_of(&mut self, id: OutputId, dot: u64, checks: bool) -> Result<(u64, u64, u64), Stop> {
        let (address, align, flags) = match self.output(id).and_then(|output| Some((output, output.place.as_ref()?))) {
            None => return Ok((dot, 0, 0)),
            Some((output, place)) => (output.address, output.align, place.flags),
        };
        let (dot, align) = match address {
            Some(_) => (dot, self.power(align)?),
            None => {
                self.choose_region(id, flags, checks)?;
                let (region, align) = match self.output(id).and_then(|output| Some((output, output.place.as_ref()?))) {
                    None => return Ok((dot, 0, 0)),
                    Some((output, place)) => (output.region, place.align),
                };
                (self.region(region).map_or(dot, |region| region.current), align)
            }
        };
        let start = if align > 1 { align_power(dot, align) } else { dot };
        Ok((start, align, start.wrapping_sub(dot)))
    }

    /// Gives a section without an address its region.
    fn choose_region(&mut self, id: OutputId, flags: Flags, checks: bool) -> Result<(), Stop> {
        let default = self.program.default_region;
        let chosen = self.region_for(flags);
        let has_others = self.program.regions.iter().enumerate().any(|(n, _)| Some(RegionId::new(n)) != default);
        let is_first = self.sizing == 1;
        let output = match self.output_mut(id) {
            None => return Ok(()),
            Some(output) => output,
        };
        if let (true, true, Some(chosen)) =
            (flags.has(Flags::ALLOC | Flags::LOAD), Some(output.region) == default, chosen)
        {
            output.region = chosen;
        }
        let counts = !output.is_ignored && output.place.as_ref().map_or(false, |place| !is_ignored(place));
        if counts && checks && Some(output.region) == default && has_others && is_first && self.settings.checks_sections
        {
            return refused(RefusedReason::NoRegion(self.output_name(id)), self.output_span(id));
        }
        Ok(())
    }

    /// The load address of an output section.
    fn set_load(&mut self, id: OutputId, dot: u64, mut align: u64, moved: u64) -> Result<(), Stop> {
        let (own, load_region, region, own_align, with_input) = match self.output(id) {
            None => return Ok(()),
            Some(o) => (o.load, o.load_region, o.region, o.align, o.is_aligned_with_input),
        };
        let load = if let Some(e) = own {
            let found = self.fold_absolute(e, 0)?;
            if found.is_valid {
                self.address(found)
            } else if self.phase != Phase::Mark {
                return refused(RefusedReason::LoadAddress(self.output_name(id)), self.program.expressions.span(e));
            } else {
                0
            }
        } else if let Some(load_region) = load_region {
            let current = self.region(load_region).map_or(0, |region| region.current);
            if with_input {
                current.wrapping_add(moved)
            } else {
                if load_region != region {
                    align = self.power(own_align)?;
                }
                if align > 1 {
                    align_power(current, align)
                } else {
                    current
                }
            }
        } else {
            self.load_after(id, region, dot, align)
        };
        if let Some(output) = self.output_mut(id) {
            output.has_load = true;
            if let Some(place) = &mut output.place {
                place.load = load;
            }
        }
        Ok(())
    }

    /// A load address as far from the address as that of the last section of the region; of a section of an OVERLAY but
    /// the first, the end of that one.
    fn load_after(&self, id: OutputId, region: RegionId, dot: u64, align: u64) -> u64 {
        let place = match self.place(id) {
            None => return dot,
            Some(place) => place,
        };
        let last = self.region(region).and_then(|region| self.place(region.last?));
        match last {
            Some(last) if place.flags.has(Flags::ALLOC) => {
                let is_before = dot < last.address && place.size != 0 && dot.wrapping_add(place.size) <= last.address;
                if is_before {
                    return place.address;
                }
                let is_overlay =
                    self.output(id).map_or(false, |output| output.kind == OutputKind::Overlay { is_first: false });
                let load = match is_overlay {
                    true => last.load.wrapping_add(last.size),
                    false => place.address.wrapping_add(last.load).wrapping_sub(last.address),
                };
                if align > 1 {
                    align_power(load, align)
                } else {
                    load
                }
            }
            _ => place.address,
        }
    }

    /// Whether the load addresses of the next sections of the region follow this one.
    fn follow_load(&mut self, id: OutputId, dot: u64) {
        let (region, load_region, kind, place) =
            match self.output(id).and_then(|output| Some((output, output.place.as_ref()?))) {
                None => return,
                Some((output, place)) => (output.region, output.load_region, output.kind, place),
            };
        let last = self.region(region).and_then(|region| region.last);
        let follows = match last {
            None => place.size != 0 || place.address != place.load,
            Some(last) => place.size != 0 || self.place(last).map_or(false, |last| dot >= last.address),
        };
        let is_first_overlay = kind == OutputKind::Overlay { is_first: true };
        if load_region.is_none() && (is_first_overlay || !is_ignored(place) && follows) {
            if let Some(region) = self.region_mut(region) {
                region.last = Some(id);
            }
        }
    }

    // --- bodies ---

    fn size_body(&mut self, id: OutputId, mut dot: u64) -> Result<(), Stop> {
        let mut fill = self.output(id).and_then(|output| output.fill.clone());
        for inner in self.body(id) {
            match self.step(inner).map(|step| step.kind.clone()) {
                Some(StepKind::Input(taking)) => dot = self.size_input(id, inner, taking, &fill, dot)?,
                Some(StepKind::Fill) => fill = self.step(inner).and_then(|step| step.fill.clone()),
                Some(StepKind::Data { width, value }) => {
                    self.fold_absolute(value, dot)?;
                    let width = width_of(width);
                    self.grow(id, inner, dot, width);
                    dot = dot.wrapping_add(width);
                }
                Some(StepKind::Assign { target, provision, .. }) => {
                    let after = self.assign(inner, Base::Output(id), dot)?;
                    dot = self.size_assign(id, inner, target.is_some(), provision, &fill, (dot, after));
                }
                Some(StepKind::Assert { condition, .. }) => {
                    self.fold(condition, Base::Output(id), dot)?;
                }
                Some(StepKind::CreateObjectSymbols) => {
                    if let Some(place) = self.place_mut(id) {
                        place.flags |= Flags::KEEP;
                    }
                }
                _ => {}
            }
        }
        Ok(())
    }

    /// Data at a place, up to which the section reaches.
    fn grow(&mut self, id: OutputId, inner: StatementId, dot: u64, width: u64) {
        let offset = match self.place_mut(id) {
            None => return,
            Some(place) => {
                place.size = dot.wrapping_add(width).wrapping_sub(place.address);
                dot.wrapping_sub(place.address)
            }
        };
        if let Some(step) = self.step_mut(inner) {
            step.start = offset;
            step.size = width;
        }
    }

    /// After an assignment in an output section; gives the place after it.
    fn size_assign(
        &mut self,
        id: OutputId,
        inner: StatementId,
        is_symbol: bool,
        provision: Provision,
        fill: &FillBytes,
        (dot, after): (u64, u64),
    ) -> u64 {
        let is_provided = self.step(inner).map_or(false, |step| step.is_provided);
        let counts = is_provided || !matches!(provision, Provision::Provide | Provision::ProvideHidden);
        let is_flat = self.settings.flat;
        let output = match self.output_mut(id) {
            None => return after,
            Some(output) => output,
        };
        output.updates_dot |= is_symbol && counts;
        if output.is_ignored {
            return dot;
        }
        let is_allocated = match output.kind {
            OutputKind::NotAllocated => false,
            OutputKind::NoLoad => !is_flat,
            _ => true,
        };
        let mut gap = (0, 0);
        if after != dot {
            if let Some(place) = &mut output.place {
                gap = (after.wrapping_sub(dot), dot.wrapping_sub(place.address));
                place.size = after.wrapping_sub(place.address);
                if is_allocated {
                    place.flags |= Flags::ALLOC;
                }
            }
        }
        if let Some(step) = self.step_mut(inner) {
            (step.gap, step.gap_offset) = gap;
            step.fill = fill.clone();
        }
        after
    }

    /// The input sections of a statement, one after the other; as in the pass before, if they begin alike.
    fn size_input(
        &mut self,
        id: OutputId,
        inner: StatementId,
        taking: usize,
        fill: &FillBytes,
        dot: u64,
    ) -> Result<u64, Stop> {
        let (subalign, is_ignored) = match self.output(id) {
            None => return Ok(dot),
            Some(output) => (output.subalign, output.is_ignored),
        };
        if self.program.takings.get(taking).map_or(true, |taking| taking.sections.is_empty()) {
            return Ok(dot);
        }
        let forced = self.forced_align(subalign)?;
        let address = self.place(id).map_or(0, |place| place.address);
        let start = dot.wrapping_sub(address);
        let size = self.place_inputs(
            inner,
            taking,
            address,
            Shape { start, phase: 0, forced, is_ignored, fill: fill.clone() },
        );
        if let Some(taking) = self.program.takings.get(taking) {
            let (greatest, is_used) = (taking.greatest, taking.is_used);
            if let Some(place) = self.place_mut(id) {
                place.align = place.align.max(greatest);
                if is_used {
                    place.size = start.wrapping_add(size);
                }
            }
        }
        Ok(dot.wrapping_add(size))
    }

    fn forced_align(&mut self, subalign: Option<ExprId>) -> Result<u64, Stop> {
        match subalign {
            None => Ok(0),
            Some(e) => self.power(Some(e)),
        }
    }

    /// Finds the places of a statement's input sections, which begin at a distance from the section's start; gives the
    /// bytes up to the end of the last (ldlang.c, `size_input_section`).
    fn place_inputs(&mut self, inner: StatementId, taking: usize, address: u64, mut shape: Shape) -> u64 {
        let taking = match self.program.takings.get_mut(taking) {
            None => return 0,
            Some(taking) => taking,
        };
        shape.phase = address & taking.greatest.max(1).wrapping_sub(1);
        if taking.greatest != 0 && taking.shape.as_ref() == Some(&shape) {
            return self.step(inner).map_or(0, |step| step.size);
        }
        let (mut offset, mut greatest, mut is_used) = (shape.start, 1, false);
        let mut gaps = Vec::new();
        for id in &taking.sections {
            let section = match self.sections.get_mut(id.index()) {
                None => continue,
                Some(section) => section,
            };
            if shape.is_ignored || section.flags.has(Flags::EXCLUDE | Flags::CREATED) {
                section.offset = offset;
                continue;
            }
            if shape.forced != 0 {
                section.align = shape.forced;
            }
            if section.align > 1 {
                greatest = section.align.max(greatest);
                let gap = address.wrapping_add(offset).wrapping_neg() & (section.align - 1);
                if gap != 0 {
                    gaps.push(Gap { offset, size: gap, fill: shape.fill.as_ref().map(|fill| fill.to_vec()) });
                    offset = offset.wrapping_add(gap);
                }
            }
            section.offset = offset;
            offset = offset.wrapping_add(section.size);
            is_used = true;
        }
        let size = offset.wrapping_sub(shape.start);
        shape.phase = address & (greatest - 1);
        taking.greatest = greatest;
        taking.is_used = is_used;
        taking.gaps = gaps;
        let start = shape.start;
        taking.shape = Some(shape);
        if let Some(step) = self.program.steps.get_mut(inner.index()) {
            (step.start, step.size) = (start, size);
        }
        size
    }
}
