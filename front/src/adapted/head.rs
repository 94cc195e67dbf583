//! Output sections: their heads and tails, their places and load addresses.

use bstr::ByteSlice;
use object::elf;

use super::body::Body;
use super::expression::{binary, children, number, says, unplaced, uses_dot};
use super::note::{NoteKind, Topic};
use super::rules::Reasons;
use super::top::whole_value;
use super::walk::{At, Done, Memory, Settled, Walk};
use crate::layout::evaluation::{InputSection, OutputSection as Output, Placed, StatementKind};
use crate::layout::Flags;
use crate::profile::reserved_words::is_name;
use crate::script::tree::{
    Assignment, BinaryOperator, Expr, ExprKind, Fill, Function, Name, OutputSection, Query, SectionStatement,
    SectionType, Span,
};

/// Sections are rarely aligned more than that: an alignment of the head from here on is that of the section.
const MAX_ALIGNMENT: u64 = 16;
/// GNU ld's region of what is in no other.
const DEFAULT_REGION: &str = "*default*";

/// The parts of a head and a tail as they are written.
#[derive(Debug, Default)]
pub(super) struct Written {
    address: Option<String>,
    load: Option<String>,
    align: Option<String>,
    region: Option<Name>,
    load_region: Option<Name>,
    /// Where the section begins.
    pub(super) start: u64,
    /// What it is aligned to, as the profile has it.
    alignment: u64,
    /// Its load address.
    pub(super) load_at: u64,
}

impl<'a> Walk<'a> {
    /// Rewrites an output section.
    pub(super) fn output_section(&mut self, section: &'a OutputSection, span: Span) {
        if section.name.node == "/DISCARD/" {
            return self.discard(section, span);
        }
        let output = self.request.evaluation.and_then(|evaluation| evaluation.output_at(span));
        let place = output.and_then(|output| output.place.as_ref());
        if self.request.evaluation.is_some() && !self.stays(section, place) {
            return self.left_out(section, place, span);
        }
        let emitted = self.name_section(section, span);
        self.emitted.insert(span.start, emitted.clone());
        self.said_of_head(section, place, span);
        if self.needs_dot(section, place, span) {
            self.sync_dot_at(span);
        }
        let mut head = self.written_head(section, place, span);
        let mut body = Body::new(section, place, head.start);
        self.body(section, span, &mut body);
        let size = place.map_or(body.at, |place| place.size.max(body.at));
        self.put_head(section, &emitted, &head, span);
        self.put_tail(section, &head, span);
        head.load_at = self.loaded(&head, size, body.has_bytes);
        let done = Done { name: emitted, address: head.start, load: head.load_at, size };
        self.done.entry(section.name.node.clone()).or_insert(done);
        self.dot = head.start.wrapping_add(size);
    }

    /// Whether `.` must be GNU ld's before a section: its address names it, or it begins there.
    fn needs_dot(&self, section: &OutputSection, place: Option<&Placed>, span: Span) -> bool {
        if let Some(e) = &section.address {
            return uses_dot(e);
        }
        let begins = |dot: u64, place: &Placed| aligned(dot, place.align.max(1)) == place.address;
        let dot = self.evaluated(span).map_or(self.dot, |statement| statement.dot);
        section.region.is_none() && place.map_or(true, |place| !begins(self.dot, place) && begins(dot, place))
    }

    /// What a section does to the regions and distances; gives its load address.
    pub(super) fn loaded(&mut self, head: &Written, size: u64, has_bytes: bool) -> u64 {
        let distance = head.start.wrapping_sub(head.load_at);
        self.distances.insert(head.region.clone(), distance);
        if let Some(region) = head.region.as_ref().and_then(|name| self.regions.get_mut(name)) {
            region.next = head.start.wrapping_add(size);
        }
        if let Some(region) = head.load_region.as_ref().and_then(|name| self.regions.get_mut(name)) {
            region.next = head.load_at.wrapping_add(if has_bytes { size } else { 0 });
        }
        head.load_at
    }

    /// Whether a section stays in the text: GNU ld makes it of what is loaded, or it does no harm.
    fn stays(&self, section: &OutputSection, place: Option<&Placed>) -> bool {
        match place {
            Some(place) if !place.is_gone => place.is_allocated(),
            _ if section.constraint.is_some() && place.is_none() => false,
            _ => {
                let moves = section.address.is_some() || section.align.is_some() || section.load_address.is_some();
                let takes_more = section.body.node.iter().any(|statement| match &statement.node {
                    SectionStatement::Input(_) => false,
                    SectionStatement::Assign(assignment) => assignment.target.node == ".",
                    _ => true,
                });
                let is_of_nothing = place.map_or(true, |place| place.inputs.is_empty());
                !(is_of_nothing && (moves || takes_more)) && !takes_unloaded(section)
            }
        }
    }

    /// A section that is not made: its assignments stay.
    fn left_out(&mut self, section: &'a OutputSection, place: Option<&Placed>, span: Span) {
        let name = &section.name.node;
        let loaded: Vec<&InputSection> = place.map_or_else(Vec::new, |place| self.loaded_inputs(place));
        let is_discarded = !loaded.is_empty();
        let first = Span { start: span.start, end: section.body.span.start + 1 };
        if is_discarded {
            self.rewrites.replace(self.text, first, "/DISCARD/ : {");
            // Who links writes what is not loaded, but for common blocks.
            let is_written = self.request.is_followed && !loaded.iter().any(|one| one.is_common());
            let (kind, why) = match is_written {
                true => (NoteKind::Rewritten, "what it takes is not loaded, and not in the image"),
                false => {
                    (NoteKind::Changed, "what it takes is not in the image; GNU ld's file has it, and loads it not")
                }
            };
            self.note_of(kind, Topic::Beside, span.start, format!("{name}: {why}"));
        } else {
            self.rewrites.blank(self.text, first);
            self.note(NoteKind::Dropped, span.start, format!("{name}: GNU ld makes no such section of what is linked"));
        }
        for statement in &section.body.node {
            match &statement.node {
                SectionStatement::Input(node) if is_discarded => self.discarded(node, statement.span),
                SectionStatement::Assign(assignment) if assignment.target.node != "." && is_discarded => {
                    self.hoist_assignment(assignment, statement.span, span.start);
                }
                SectionStatement::Assign(assignment) if assignment.target.node != "." && !is_discarded => {
                    let e = whole_value(assignment);
                    if uses_dot(&e)
                        && self.versions.of_statement(&assignment.target.node, statement.span.start).is_some()
                    {
                        self.sync_dot_at(statement.span);
                    }
                    let at = At { at: statement.span.start, is_assert: false, dot: Some(self.dot) };
                    self.symbol(assignment, &e, statement.span, at);
                }
                _ => self.rewrites.blank(self.text, statement.span),
            }
        }
        let last = Span { start: section.body.span.end.saturating_sub(1), end: span.end };
        self.rewrites.replace(self.text, last, if is_discarded { "}" } else { "" });
        if place.map_or(false, |place| !place.inputs.is_empty()) {
            let why = format!("`.` is not moved by {name} here; to GNU ld it is behind what that takes");
            self.passed = Some(why);
        }
    }

    /// The input sections of a place that are linked and not empty.
    fn loaded_inputs(&self, place: &Placed) -> Vec<&'a InputSection> {
        let evaluation = match self.request.evaluation {
            Some(evaluation) => evaluation,
            None => return Vec::new(),
        };
        let all = place.inputs.iter().filter_map(|id| evaluation.section(*id));
        all.filter(|one| one.is_linked() && one.size > 0).collect()
    }

    /// Gives a section a name of the profile that no other has.
    pub(super) fn name_section(&mut self, section: &OutputSection, span: Span) -> Name {
        let name = section.name.node.clone();
        let is_fine = is_name(&name);
        if is_fine && self.section_names.insert(name.clone()) {
            if section.is_quoted {
                self.note(NoteKind::Rewritten, span.start, format!("{name}: without quotes"));
            }
            return name;
        }
        let plain = |byte: &u8| match byte {
            byte if byte.is_ascii_alphanumeric() || b"_.$-".contains(byte) => *byte as char,
            _ => '_',
        };
        let wish = if is_fine { format!("{name}.2") } else { name.iter().map(plain).collect() };
        let wish = if is_name(wish.as_bytes()) { wish } else { format!("_{wish}") };
        let own = self.versions.fresh(&wish);
        self.section_names.insert(own.clone());
        self.result.names.push((own.clone(), name.clone()));
        let what = if is_fine { "a second output section" } else { "the output section" };
        self.note_of(NoteKind::Changed, Topic::Form, span.start, format!("{what} {name}: it is named {own}"));
        own
    }

    /// Reports words of a head that the profile does not have.
    fn said_of_head(&mut self, section: &OutputSection, place: Option<&Placed>, span: Span) {
        let name = section.name.node.clone();
        if let Some(kind) = &section.kind {
            let word = self.quoted(kind.span);
            let is_loaded = place.map_or(false, |place| self.loaded_inputs(place).iter().any(|one| has_bytes(one)));
            let may_differ = self.is_without_objects() && section.body.node.iter().any(|one| may_have_bytes(&one.node));
            let is_noload = matches!(kind.node, SectionType::NoLoad | SectionType::NotAllocated(_));
            if is_noload && (is_loaded || may_differ) {
                let why = "its bytes are in the image and are loaded; in GNU ld's they are not";
                let is_in_memory = matches!(kind.node, SectionType::NoLoad);
                let topic = if is_in_memory { Topic::NotLoaded } else { Topic::Beside };
                self.note_of(NoteKind::Changed, topic, span.start, format!("{word} of {name}: {why}"));
            } else {
                self.note(NoteKind::Dropped, span.start, format!("{word} of {name}: it makes no difference"));
            }
        }
        let parts =
            [(section.is_aligned_with_input, "ALIGN_WITH_INPUT", "its load address is written where it differs")];
        if section.constraint.is_some() {
            let (kind, why) = match self.is_without_objects() {
                true => (NoteKind::Changed, "it is decided by the names that it takes (--objects says what they are)"),
                false => (NoteKind::Rewritten, "it holds for what is linked"),
            };
            self.note(kind, span.start, format!("its condition of {name}: {why}"));
        }
        if self.is_without_objects() && may_be_empty(section) {
            let why = "where it takes nothing, GNU ld drops it with what its head says of addresses; here it stays";
            self.note(
                NoteKind::Changed,
                span.start,
                format!("{name}: {why} (--objects says whether it takes anything)"),
            );
        }
        if let Some(e) = &section.subalign {
            let what = format!("SUBALIGN({}) of {name}", self.quoted(e.span));
            let (kind, why) = match self.is_without_objects() {
                true => (NoteKind::Changed, "its input sections have their own alignments here"),
                false => (NoteKind::Rewritten, "places of its input sections are written where they differ"),
            };
            self.note(kind, span.start, format!("{what}: {why}"));
        }
        for (is_there, what, why) in parts {
            if is_there {
                self.note(NoteKind::Rewritten, span.start, format!("{what} of {name}: {why}"));
            }
        }
    }

    // --- the head ---

    /// Decides on the parts of a head, so that the section begins where GNU ld has it, and is loaded there.
    fn written_head(&mut self, section: &'a OutputSection, place: Option<&Placed>, span: Span) -> Written {
        let at = At { at: span.start, is_assert: false, dot: Some(self.dot) };
        let row = place.map_or(1, |place| self.row_alignment(place));
        let mut head = Written { region: self.region_of(section, span), ..Written::default() };
        head.load_region = self.load_region_of(section, span);
        let own_align = section.align.as_ref().map(|e| self.settle_by_itself(e, at));
        let head_align = own_align.as_ref().and_then(|settled| self.value_of(&settled.e, at)).unwrap_or(1);
        head.alignment = head_align.max(row).max(1);
        if let (Some(e), Some(settled)) = (&section.align, &own_align) {
            head.align = Some(self.text_of(e, settled));
            self.report(e.span, settled);
        }
        self.align_as_own(section, place, head_align, &mut head, span);
        let start = match &section.address {
            Some(e) => self.written_address(e, &mut head, place, at),
            None => self.unwritten_address(&mut head, place),
        };
        head.start = start;
        head.load_at = self.written_load(section, &mut head, place, at);
        head
    }

    /// Aligns a section that has one of those that GNU ld makes itself, which no object has (elf-bfd.h,
    /// `bed->s->log_file_align`): if nothing is known of the objects, and it stays without it.
    fn align_as_own(
        &mut self,
        section: &OutputSection,
        place: Option<&Placed>,
        head_align: u64,
        head: &mut Written,
        span: Span,
    ) {
        let place = match place.filter(|_| self.is_without_objects() && section.address.is_none()) {
            Some(place) => place,
            None => return,
        };
        let own_align = self.made_by_linker(place).map(|one| one.own_align).max().unwrap_or(1);
        let stays = section.body.node.iter().any(|statement| match &statement.node {
            SectionStatement::Assign(_) | SectionStatement::Data(..) => true,
            SectionStatement::Input(node) => node.sections.iter().flatten().any(|one| !is_of_linker(&one.node.glob)),
            _ => false,
        });
        if stays && own_align > head_align {
            head.align = Some(own_align.to_string());
            head.alignment = head.alignment.max(own_align);
            let name = &section.name.node;
            let why = "as sections are that GNU ld makes itself and places there, without contents in a static link";
            self.note(NoteKind::Rewritten, span.start, format!("{name} is aligned by {own_align}, {why}"));
        }
    }

    /// The sections of a place that GNU ld makes itself.
    fn made_by_linker<'p>(&self, place: &'p Placed) -> impl Iterator<Item = &'a InputSection> + 'p
    where
        'a: 'p,
    {
        let evaluation = self.request.evaluation;
        let all = place.inputs.iter().filter_map(move |id| evaluation?.section(*id));
        all.filter(|one| one.flags.has(Flags::CREATED))
    }

    /// An expression by the rules alone, with the value that GNU ld has for it.
    fn settle_by_itself(&mut self, e: &Expr, at: At) -> Settled {
        let needed = self.gnu_value(e);
        self.settle(e, at, needed)
    }

    fn text_of(&self, old: &Expr, settled: &Settled) -> String {
        match says(self.slice(old.span), &settled.e, self.text) {
            true => self.slice(old.span).to_str_lossy().into_owned(),
            false => self.expr_text(&settled.e),
        }
    }

    /// The greatest alignment of what a section takes.
    fn row_alignment(&self, place: &Placed) -> u64 {
        let evaluation = self.request.evaluation;
        let sections = place.inputs.iter().filter_map(|id| evaluation?.section(*id));
        sections.filter(|one| one.is_linked()).map(|one| one.own_align).max().unwrap_or(1)
    }

    /// The region that a section is in: the one that it names, or by attributes.
    fn region_of(&mut self, section: &OutputSection, span: Span) -> Option<Name> {
        if let Some(region) = &section.region {
            return Some(self.region_name(&region.node));
        }
        let region = self.region_of_output(self.request.evaluation?.output_at(span)?)?;
        if self.is_without_objects() && section.load_region.is_none() {
            let why = "by the region's attributes and the names that it takes (--objects says what they are)";
            let what = format!("{} goes to >{region}", section.name.node);
            self.note(NoteKind::Changed, span.start, format!("{what}: {why}"));
        }
        Some(region)
    }

    /// The region that GNU ld has a section in, if MEMORY has it.
    fn region_of_output(&self, output: &Output) -> Option<Name> {
        output.in_image()?;
        let evaluation = self.request.evaluation?;
        let region = evaluation.regions.get(output.region.index())?;
        (region.name != DEFAULT_REGION && self.regions.contains_key(&region.name)).then(|| region.name.clone())
    }

    fn load_region_of(&self, section: &OutputSection, span: Span) -> Option<Name> {
        if let Some(region) = &section.load_region {
            return Some(self.region_name(&region.node));
        }
        self.load_region_of_output(self.request.evaluation?.output_at(span)?)
    }

    fn load_region_of_output(&self, output: &Output) -> Option<Name> {
        let region = self.request.evaluation?.regions.get(output.load_region?.index())?;
        Some(region.name.clone())
    }

    /// The head of an output section that stands in no script.
    pub(super) fn orphans_head(
        &mut self,
        section: &OutputSection,
        output: &Output,
        place: &Placed,
        from: u32,
    ) -> Written {
        let at = At { at: from, is_assert: false, dot: Some(self.dot) };
        let (region, load_region) = (self.region_of_output(output), self.load_region_of_output(output));
        let alignment = self.row_alignment(place).max(1);
        let mut head = Written { region, load_region, alignment, ..Written::default() };
        head.start = self.unwritten_address(&mut head, Some(place));
        head.load_at = self.written_load(section, &mut head, Some(place), at);
        head
    }

    /// The address in front of the colon.
    fn written_address(&mut self, e: &Expr, head: &mut Written, place: Option<&Placed>, at: At) -> u64 {
        let needed = place.map(|place| place.address);
        let align = place.map_or(1, |place| place.align);
        let mut settled = self.settle(e, at, needed);
        if settled.reasons.is_numeric || settled.reasons.depends {
            let aligned = unplaced(ExprKind::Call(Function::Align, vec![e.clone(), number(align)]));
            let other = self.settle(&aligned, at, needed);
            if !other.reasons.is_numeric && !other.reasons.is_left() {
                settled = other;
                settled.reasons.said = vec!["aligned as GNU ld aligns it".into()];
            }
        }
        self.report(e.span, &settled);
        settled.reasons = Reasons::default();
        head.address = Some(self.text_of(e, &settled));
        needed.or_else(|| self.value_of(&settled.e, at)).unwrap_or(self.dot)
    }

    /// Where a section begins that has no address: at `.`, or where its region is free, aligned. Writes an alignment or
    /// an address if that is not where GNU ld has it.
    fn unwritten_address(&mut self, head: &mut Written, place: Option<&Placed>) -> u64 {
        let free = head.region.as_ref().and_then(|name| self.regions.get(name)).map(|region: &Memory| region.next);
        let base = free.unwrap_or(self.dot);
        let start = aligned(base, head.alignment);
        let wanted = match place {
            Some(place) if place.address != start && !(place.is_gone && self.is_without_objects()) => place,
            _ => return start,
        };
        if aligned(base, wanted.align.max(head.alignment)) == wanted.address {
            head.align = Some(wanted.align.to_string());
            head.alignment = wanted.align.max(head.alignment);
        } else {
            head.address = Some(format!("{:#x}", wanted.address));
            self.result.has_moving_values = true;
        }
        wanted.address
    }

    // --- the load address ---

    /// Decides on the load address; gives it.
    fn written_load(&mut self, section: &OutputSection, head: &mut Written, place: Option<&Placed>, at: At) -> u64 {
        let own_load = section.load_address.as_ref();
        let needed = place.map(|place| place.load);
        let is_free = place.map_or(false, |place| place.size == 0);
        if let Some(e) = own_load {
            return self.own_load(section, e, head, needed, at);
        }
        if let (true, Some(needed), Some(_)) = (self.is_without_objects(), needed, &head.load_region) {
            if let Some(load) = self.load_by_region(section, head, needed, at) {
                return load;
            }
        }
        let predicted = self.predicted_load(head);
        let needed = match needed {
            Some(needed) if needed != predicted && !is_free => needed,
            _ => return predicted,
        };
        head.load_region = None;
        if self.predicted_load(head) == needed {
            let name = section.name.node.clone();
            self.note(
                NoteKind::Rewritten,
                at.at,
                format!("AT> of {name}: it keeps the distance of the section before"),
            );
            return needed;
        }
        let name = &section.name.node;
        self.note(NoteKind::Rewritten, at.at, format!("{name}: its load address is written, as GNU ld aligns it"));
        let start = self.start_expression(section, head);
        let e = match needed.checked_sub(head.start) {
            Some(more) => binary(BinaryOperator::Add, start, number(more)),
            None => binary(BinaryOperator::Subtract, start, number(head.start - needed)),
        };
        let e = if self.value_of(&e, at) == Some(needed) { e } else { number(needed) };
        head.load = Some(self.expr_text(&e));
        self.result.has_moving_values = true;
        needed
    }

    /// AT>r, if nothing is known of the objects. Beside >r of the same region a section is loaded where it starts,
    /// but with an address if r is free; here AT>r moves r to the load end, so without file bytes back. In another
    /// region GNU ld aligns the load address by the head's ALIGN alone.
    fn load_by_region(&mut self, section: &OutputSection, head: &mut Written, needed: u64, at: At) -> Option<u64> {
        let name = section.name.node.clone();
        let load_region = head.load_region.clone()?;
        if head.region.as_ref() != Some(&load_region) {
            let align = section.align.as_ref().and_then(|e| self.value_of(e, at)).unwrap_or(1);
            if align < MAX_ALIGNMENT && section.load_region.is_some() && !section.is_aligned_with_input {
                let why = "its load address is aligned as the section is; GNU ld aligns it by the head's ALIGN alone \
                           (--objects says whether that differs)";
                self.note(NoteKind::Changed, at.at, format!("AT>{load_region} of {name}: {why}"));
                return Some(needed);
            }
            return None;
        }
        if section.address.is_none() {
            let has_distance = self.distances.get(&head.region).map_or(false, |distance| *distance != 0);
            if has_distance || needed != head.start {
                return None;
            }
            let why = format!("it is where it starts, as >{load_region} says");
            self.note(NoteKind::Rewritten, at.at, format!("AT>{load_region} of {name}: {why}"));
            head.load_region = None;
            return Some(needed);
        }
        let free = self.regions.get(&load_region)?.next;
        let align = match &section.align {
            Some(e) => self.value_of(e, at)?,
            None => 1,
        };
        if aligned(free, align) != needed {
            return None;
        }
        let helper = self.load_name(&name);
        self.rewrites.insert(at.at, 2, format!("{helper} : {{ }} >{load_region} "));
        let place = format!("ADDR({helper})");
        head.load = Some(match &section.align {
            Some(e) => format!("ALIGN({place}, {})", self.expr_text(e)),
            None => place,
        });
        head.load_region = None;
        let why = format!("it is where {load_region} is free, by an empty section {helper}");
        self.note(NoteKind::Rewritten, at.at, format!("AT>{load_region} of {name}: {why}"));
        Some(needed)
    }

    /// A name for an empty section that is for a load address.
    fn load_name(&mut self, section: &Name) -> Name {
        let plain = section.to_str_lossy().trim_start_matches('.').to_owned();
        let wish = format!("ldi.load.{plain}");
        let name = self.versions.fresh(if is_name(wish.as_bytes()) { &wish } else { "ldi.load" });
        self.section_names.insert(name.clone());
        name
    }

    /// AT by ADDR of the section itself, less a distance: that of an empty section before it, which it keeps.
    fn load_by_distance(&mut self, e: &Expr, head: &Written, name: &Name, needed: u64, at: At) -> Option<u64> {
        let own = unplaced(ExprKind::Query(Query::Addr, name.clone()));
        let distance = match &e.kind {
            ExprKind::Binary(BinaryOperator::Subtract, left, distance) if **left == own => (**distance).clone(),
            ExprKind::Binary(BinaryOperator::Add, left, step) if **left == own => {
                binary(BinaryOperator::Subtract, number(0), (**step).clone())
            }
            _ => return None,
        };
        let mut settled = self.settle(&distance, at, None);
        let value = self.value_of(&settled.e, at)?;
        if names_section(&distance, name) || settled.reasons.is_left() || head.start.wrapping_sub(value) != needed {
            return None;
        }
        let helper = self.load_name(name);
        let (front, start) = match &head.region {
            None => (String::new(), unplaced(ExprKind::Dot)),
            Some(region) => {
                let place = self.versions.fresh(&format!("{helper}.at"));
                (format!("{place} : {{ }} >{region} "), unplaced(ExprKind::Query(Query::Addr, place)))
            }
        };
        let region = head.region.as_ref().map_or_else(String::new, |region| format!(" >{region}"));
        let load = self.expr_text(&binary(BinaryOperator::Subtract, start, settled.e.clone()));
        self.rewrites.insert(at.at, 2, format!("{front}{helper} : AT({load}) {{ }}{region} "));
        settled.reasons.said.clear();
        settled
            .reasons
            .say(format!("AT of {name}: an empty section {helper} before it has the distance, and it keeps that"));
        self.note_reasons(&settled.reasons);
        self.note(NoteKind::Rewritten, e.span.start, settled.reasons.said.join("; "));
        Some(needed)
    }

    /// The load address by what the profile says of a head without AT(e).
    fn predicted_load(&self, head: &Written) -> u64 {
        if let Some(region) = head.load_region.as_ref().and_then(|name| self.regions.get(name)) {
            return aligned(region.next, head.alignment);
        }
        if head.address.is_some() {
            return head.start;
        }
        head.start.wrapping_sub(self.distances.get(&head.region).copied().unwrap_or(0))
    }

    /// AT(e): as it is; without it, if the distance is that of the section before; with the start in place of
    /// ADDR of the section itself; or as a number.
    fn own_load(&mut self, section: &OutputSection, e: &Expr, head: &mut Written, needed: Option<u64>, at: At) -> u64 {
        head.load_region = None;
        let name = section.name.node.clone();
        let names_itself = names_section(e, &name);
        if names_itself && needed.map_or(false, |needed| self.predicted_load(head) == needed) {
            let what = self.quoted(e.span);
            let why = "it keeps the distance of the section before";
            self.note(NoteKind::Rewritten, e.span.start, format!("AT({what}) of {name}: {why}"));
            return self.predicted_load(head);
        }
        if let (true, None, Some(needed)) = (names_itself && self.is_without_objects(), &section.address, needed) {
            if let Some(load) = self.load_by_distance(e, head, &name, needed, at) {
                return load;
            }
        }
        if uses_dot(e) {
            let what = "`.` is the place before the section; to GNU ld 2.40 it is 0 there";
            self.note(NoteKind::Changed, e.span.start, format!("AT of {name}: {what}"));
            let settled = self.settle(e, at, None);
            head.load = Some(self.text_of(e, &settled));
            self.report(e.span, &settled);
            return self.value_of(&settled.e, at).or(needed).unwrap_or(head.start);
        }
        let start = self.start_expression(section, head);
        let own = with_section(e, &name, &start);
        let mut settled = self.settle(&own, at, needed);
        if settled.reasons.is_numeric && needed.is_some() {
            let distance = head.start.wrapping_sub(needed.unwrap_or(0));
            let near = binary(BinaryOperator::Subtract, start, number(distance));
            if names_itself && self.value_of(&near, at) == needed {
                settled.e = near;
            }
        }
        self.report(e.span, &settled);
        head.load = Some(self.text_of(e, &settled));
        needed.or_else(|| self.value_of(&settled.e, at)).unwrap_or(head.start)
    }

    /// An expression that is the start of a section, before it: its address, or `.`, aligned if that is needed.
    fn start_expression(&self, section: &OutputSection, head: &Written) -> Expr {
        let at = At { at: u32::MAX, is_assert: false, dot: Some(self.dot) };
        if let (Some(e), Some(_)) = (&section.address, &head.address) {
            if self.value_of(e, at) == Some(head.start) {
                return e.clone();
            }
        }
        if head.address.is_some() || head.region.is_some() {
            return number(head.start);
        }
        if self.dot == head.start {
            return unplaced(ExprKind::Dot);
        }
        unplaced(ExprKind::Call(Function::Align, vec![number(head.alignment)]))
    }

    // --- the text ---

    /// Writes a head, if it is another.
    fn put_head(&mut self, section: &OutputSection, emitted: &Name, head: &Written, span: Span) {
        let new = self.head_text(emitted, head);
        let end = section.body.span.start + 1;
        if self.squeezed(span.start, end) != super::walk::squeezed(new.as_bytes()) {
            self.rewrites.replace(self.text, Span { start: span.start, end }, new);
        }
    }

    /// A head, up to the opening brace.
    pub(super) fn head_text(&self, emitted: &Name, head: &Written) -> String {
        let mut text = emitted.to_str_lossy().into_owned();
        if let Some(address) = &head.address {
            text.push(' ');
            text.push_str(address);
        }
        text.push_str(" :");
        if let Some(load) = &head.load {
            text.push_str(&format!(" AT({load})"));
        }
        if let Some(align) = &head.align {
            text.push_str(&format!(" ALIGN({align})"));
        }
        text.push_str(" {");
        text
    }

    /// Writes a tail, if it is another.
    fn put_tail(&mut self, section: &'a OutputSection, head: &Written, span: Span) {
        let mut new = tail_text(head);
        if let Some(fill) = self.tail_fill(section).and_then(|fill| self.fill(fill, span)) {
            new.push_str(&format!(" ={fill}"));
        }
        let tail = Span { start: section.body.span.end, end: span.end };
        let own = self.squeezed(tail.start, tail.end);
        if own != super::walk::squeezed(new.as_bytes()) {
            if own.contains(&b':') {
                let names: Vec<String> = section.segments.iter().map(|segment| format!(":{}", segment.node)).collect();
                let why = "segments follow addresses, sizes and flags";
                let what = format!("{} of {}", names.join(" "), section.name.node);
                self.note_of(NoteKind::Changed, Topic::Segments, span.start, format!("{what}: {why}"));
            }
            self.rewrites.replace(self.text, tail, new);
        }
    }

    /// A fill in the profile's form.
    pub(super) fn fill(&mut self, fill: &Fill, span: Span) -> Option<String> {
        let bytes = self.fill_bytes(fill);
        let own = self.slice(fill.value.span);
        let digits: String = bytes.iter().map(|byte| format!("{byte:02x}")).collect();
        let is_own = own
            .to_str()
            .map_or(false, |own| own.strip_prefix("0x").map_or(false, |own| own.eq_ignore_ascii_case(&digits)));
        if is_own && (1..=8).contains(&bytes.len()) {
            return Some(own.to_str_lossy().into_owned());
        }
        if bytes.is_empty() || bytes.len() > 8 {
            self.note(NoteKind::Rewritten, span.start, "a fill of more than 8 bytes as its bytes");
            return None;
        }
        let what = self.quoted(fill.value.span);
        self.note(NoteKind::Rewritten, span.start, format!("={what} as =0x{digits}"));
        Some(format!("0x{digits}"))
    }

    /// The bytes of a fill.
    pub(super) fn fill_bytes(&self, fill: &Fill) -> Vec<u8> {
        match &fill.literal {
            Some(bytes) => bytes.clone(),
            None => {
                let at = At { at: u32::MAX, is_assert: false, dot: None };
                let value = self.gnu_value(&fill.value).or_else(|| self.value_of(&fill.value, at)).unwrap_or(0);
                (value as u32).to_be_bytes().to_vec()
            }
        }
    }

    // --- /DISCARD/ ---

    /// An assignment before the section that it stands in, as that has no place.
    fn hoist_assignment(&mut self, assignment: &Assignment, span: Span, before: u32) {
        self.rewrites.blank(self.text, span);
        let name = &assignment.target.node;
        let version = match self.versions.of_statement(name, span.start) {
            Some((version, _)) if version.counts || self.request.evaluation.is_none() => version.clone(),
            _ => return,
        };
        let needed = match self.evaluated(span).map(|statement| &statement.kind) {
            Some(StatementKind::Assign { value, .. }) => value.map(|value| value.address),
            _ => None,
        };
        let at = At { at: span.start, is_assert: false, dot: Some(self.dot) };
        let settled = self.settle(&whole_value(assignment), at, needed);
        let text = format!("{} = {}; ", version.emitted, self.expr_text(&settled.e));
        self.rewrites.insert(before, 10, text);
        self.note_reasons(&settled.reasons);
        if let Some(value) = needed.or_else(|| self.value_of(&settled.e, at)) {
            self.symbols.insert(version.emitted, value);
        }
        self.note(NoteKind::Rewritten, span.start, "stands before /DISCARD/");
    }

    fn discard(&mut self, section: &'a OutputSection, span: Span) {
        let end = section.body.span.start + 1;
        if self.squeezed(span.start, end) != b"/DISCARD/:{" {
            self.rewrites.replace(self.text, Span { start: span.start, end }, "/DISCARD/ : {");
        }
        for statement in &section.body.node {
            match &statement.node {
                SectionStatement::Input(node) => self.discarded(node, statement.span),
                SectionStatement::Assign(assignment) if assignment.target.node != "." => {
                    self.hoist_assignment(assignment, statement.span, span.start);
                }
                SectionStatement::Assert(_) => {
                    let text = format!("{} ", self.slice(statement.span));
                    self.rewrites.insert(span.start, 10, text);
                    self.rewrites.blank(self.text, statement.span);
                    self.note(NoteKind::Rewritten, statement.span.start, "stands before /DISCARD/");
                }
                _ => {
                    let what = self.quoted(statement.span);
                    self.note(NoteKind::Dropped, statement.span.start, format!("{what}: /DISCARD/ has no bytes"));
                    self.rewrites.blank(self.text, statement.span);
                }
            }
        }
        let tail = Span { start: section.body.span.end, end: span.end };
        if !self.squeezed(tail.start, tail.end).is_empty() {
            self.rewrites.blank(self.text, tail);
        }
    }
}

/// A tail without the fill.
pub(super) fn tail_text(head: &Written) -> String {
    let mut text = String::new();
    if let Some(region) = &head.region {
        text.push_str(&format!(" >{region}"));
    }
    if let Some(region) = head.load_region.as_ref().filter(|_| head.load.is_none()) {
        text.push_str(&format!(" AT>{region}"));
    }
    text
}

/// The lowest multiple of a power of two at or above a place.
pub(super) fn aligned(at: u64, align: u64) -> u64 {
    at.wrapping_add(at.wrapping_neg() & (align.max(1) - 1))
}

/// Whether the file has bytes for an input section.
pub(super) fn has_bytes(section: &InputSection) -> bool {
    section.kind != elf::SHT_NOBITS && !section.is_common()
}

/// Whether an expression has ADDR of a section in it.
fn names_section(e: &Expr, name: &Name) -> bool {
    matches!(&e.kind, ExprKind::Query(Query::Addr, own) if own == name)
        || children(e).into_iter().any(|inner| names_section(inner, name))
}

/// An expression with another one in place of ADDR of a section.
fn with_section(e: &Expr, name: &Name, start: &Expr) -> Expr {
    let again = |e: &Expr| Box::new(with_section(e, name, start));
    let kind = match &e.kind {
        ExprKind::Query(Query::Addr, own) if own == name => return start.clone(),
        _ if !names_section(e, name) => return e.clone(),
        ExprKind::Unary(operator, inner) => ExprKind::Unary(*operator, again(inner)),
        ExprKind::Binary(operator, left, right) => ExprKind::Binary(*operator, again(left), again(right)),
        ExprKind::Conditional(test, yes, no) => ExprKind::Conditional(again(test), again(yes), again(no)),
        ExprKind::Call(function, arguments) => {
            ExprKind::Call(*function, arguments.iter().map(|e| with_section(e, name, start)).collect())
        }
        _ => return e.clone(),
    };
    unplaced(kind)
}

/// Whether a statement of a section may give it bytes of the file, by the names that it takes.
fn may_have_bytes(statement: &SectionStatement) -> bool {
    let is_of_zeros = |glob: &[u8]| {
        glob == b"COMMON"
            || [".bss", ".sbss", ".noinit", ".dynbss"].iter().any(|front| glob.starts_with(front.as_bytes()))
    };
    match statement {
        SectionStatement::Input(node) => {
            node.sections.as_ref().map_or(true, |all| !all.iter().all(|one| is_of_zeros(&one.node.glob)))
        }
        SectionStatement::Data(..) | SectionStatement::Text(_) => true,
        _ => false,
    }
}

/// The names of sections that most links have.
const USUAL: [&[u8]; 6] = [b".text", b".data", b".bss", b".rodata", b"COMMON", b"*"];

/// Whether a section says where it goes, and may take nothing: it has nothing but input statements of unusual names.
fn may_be_empty(section: &OutputSection) -> bool {
    let says = section.address.is_some()
        || section.align.is_some()
        || section.load_address.is_some()
        || section.load_region.is_some();
    let is_unusual = |glob: &[u8]| !USUAL.iter().any(|usual| glob.starts_with(usual));
    let takes_little = |statement: &SectionStatement| match statement {
        SectionStatement::Input(node) => {
            node.sections.as_ref().map_or(false, |all| all.iter().all(|one| is_unusual(&one.node.glob)))
        }
        SectionStatement::Constructors(_) | SectionStatement::Fill(_) => true,
        _ => false,
    };
    says && section.body.node.iter().all(|one| takes_little(&one.node))
}

/// Whether a pattern takes nothing but what GNU ld makes itself.
pub(crate) fn is_of_linker(glob: &[u8]) -> bool {
    [".got", ".igot", ".rela", ".rel.", ".iplt"].iter().any(|front| glob.starts_with(front.as_bytes()))
}

/// Whether all patterns of a section are of what is never loaded, as debug information.
fn takes_unloaded(section: &OutputSection) -> bool {
    let mut patterns = section.body.node.iter().filter_map(|statement| match &statement.node {
        SectionStatement::Input(node) => Some(node.sections.iter().flatten()),
        _ => None,
    });
    let is_input = |statement: &SectionStatement| matches!(statement, SectionStatement::Input(_));
    !section.body.node.is_empty()
        && section.body.node.iter().all(|statement| is_input(&statement.node))
        && patterns.all(|mut patterns| patterns.all(|pattern| is_unloaded(&pattern.node.glob)))
}

/// How the names of sections begin that are never loaded.
const UNLOADED: [&[u8]; 14] = [
    b".debug",
    b".zdebug",
    b".stab",
    b".comment",
    b".gnu.linkonce.wi",
    b".gnu.attributes",
    b".gnu.build.attributes",
    b".gnu.debuglto_",
    b".gnu.lto_",
    b".note.GNU-stack",
    b".line",
    b".GCC.command.line",
    b".mdebug",
    b".gdb_index",
];

/// Whether a name is one of sections that are never loaded, as those of debug information.
pub(crate) fn is_unloaded(name: &[u8]) -> bool {
    UNLOADED.iter().any(|front| name.starts_with(front))
}
