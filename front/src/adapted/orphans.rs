//! Input sections that no statement takes: as GNU ld places them, in output sections of their own that stand in the
//! text (GNU ld manual, 'Orphan Sections'). Those that go into an output section of the script stand at its end
//! (`body`).

use std::collections::HashMap;

use super::body::Body;
use super::note::NoteKind;
use super::walk::{Done, Walk};
use super::Request;
use crate::layout::evaluation::{InputSection, Placed, StatementKind};
use crate::layout::ids::{NameId, OutputId, SectionId};
use crate::layout::Evaluation;
use crate::script::tree::{Name, OutputSection, Span, Spanned};

/// The order of what is written after a statement, before all that is written in front of the next one.
pub(super) const AFTER: i32 = -500_000;
/// The order of what is written in front of the first statement of SECTIONS.
pub(super) const FIRST: i32 = -1;

/// Where SECTIONS are in the text, with what is taken into them.
#[derive(Clone, Copy, Debug)]
pub(super) struct Extent {
    pub(super) span: Span,
    /// Before their first statement.
    pub(super) opening: u32,
}

/// The output sections that no statement of the script is of.
#[derive(Debug, Default)]
pub(super) struct Orphans {
    /// Before all statements.
    first: Vec<OutputId>,
    /// By the place where the statement in front of them begins.
    after: HashMap<u32, Vec<OutputId>>,
    /// How many input sections of a name are linked.
    counts: HashMap<NameId, usize>,
    /// The orphans that are written: the place in the text, the name, the segments of PHDRS.
    written: Vec<(u32, Name, Vec<Name>)>,
}

impl Orphans {
    /// The orphans of a layout, by the statement that they follow; statements outside of SECTIONS have none after them.
    pub(super) fn of(request: &Request<'_>, evaluation: &Evaluation, extent: Option<Extent>) -> Orphans {
        let mut orphans = Orphans::default();
        let mut last = None;
        for statement in evaluation.top.iter().filter_map(|id| evaluation.statement(*id)) {
            match (&statement.kind, statement.span) {
                (StatementKind::Output(id), None) if is_wanted(request, evaluation, *id) => match last {
                    None => orphans.first.push(*id),
                    Some(at) => orphans.after.entry(at).or_default().push(*id),
                },
                (_, Some(span)) if extent.map_or(false, |extent| contains(extent.span, span)) => {
                    last = Some(span.start)
                }
                _ => {}
            }
        }
        if !orphans.is_empty() {
            for section in evaluation.sections.iter().filter(|section| section.is_linked()) {
                *orphans.counts.entry(section.name).or_insert(0) += 1;
            }
        }
        orphans
    }

    /// Whether an output section is one of them; it is one no more.
    pub(super) fn takes(&mut self, id: OutputId) -> bool {
        let mut rows = self.after.values_mut().chain(std::iter::once(&mut self.first));
        rows.any(|row| row.iter().position(|own| *own == id).map(|at| row.remove(at)).is_some())
    }

    fn is_empty(&self) -> bool {
        self.first.is_empty() && self.after.is_empty()
    }

    /// The orphans that are written: the place in the text, the name, the segments of PHDRS.
    pub(super) fn written(&self) -> impl Iterator<Item = (u32, &Name, &[Name])> {
        self.written.iter().map(|(at, name, segments)| (*at, name, segments.as_slice()))
    }
}

fn contains(outer: Span, inner: Span) -> bool {
    outer.start <= inner.start && inner.end <= outer.end
}

/// Whether an output section is one of orphans that are linked; an empty one is if a symbol is in it.
fn is_wanted(request: &Request<'_>, evaluation: &Evaluation, id: OutputId) -> bool {
    let place = evaluation.output(id).and_then(|output| output.place.as_ref()).filter(|place| place.is_allocated());
    let (place, linked) = match place {
        Some(place) => (place, linked_of(evaluation, place)),
        None => return false,
    };
    let has_names = |id: &SectionId| evaluation.section(*id).map_or(false, |one| (request.has_names)(one));
    match place.is_gone {
        false => !linked.is_empty(),
        true => linked.iter().any(has_names),
    }
}

fn linked_of(evaluation: &Evaluation, place: &Placed) -> Vec<SectionId> {
    let is_linked = |id: &SectionId| evaluation.section(*id).map_or(false, InputSection::is_linked);
    place.inputs.iter().copied().filter(is_linked).collect()
}

impl<'a> Walk<'a> {
    /// Writes the output sections before the first statement of SECTIONS.
    pub(super) fn first_orphans(&mut self, at: u32) {
        let opening = match self.extent {
            Some(extent) if at >= extent.span.start => extent.opening,
            _ => return,
        };
        let first = std::mem::take(&mut self.orphans.first);
        self.put_orphans(&first, opening, opening, FIRST);
    }

    /// Writes the output sections after a statement.
    pub(super) fn orphans_after(&mut self, span: Span) {
        if let Some(ids) = self.orphans.after.remove(&span.start) {
            self.put_orphans(&ids, span.start, span.end, AFTER);
        }
    }

    /// Writes those of a script without SECTIONS.
    pub(super) fn orphans_alone(&mut self) {
        let ids = std::mem::take(&mut self.orphans.first);
        if ids.is_empty() {
            return;
        }
        let end = u32::try_from(self.text.len()).unwrap_or(u32::MAX);
        let order = i32::MAX - 10;
        self.rewrites.insert(end, order, "\nSECTIONS {");
        self.put_orphans(&ids, end, end, order);
        self.rewrites.insert(end, order, " }\n");
    }

    /// Writes output sections before an offset; `from` is the place that they are said to be of.
    pub(super) fn put_orphans(&mut self, ids: &[OutputId], from: u32, at: u32, order: i32) {
        for id in ids {
            if let Some(text) = self.orphan(*id, from) {
                self.rewrites.insert(at, order, format!(" {text} "));
            }
        }
    }

    /// The text of an output section.
    fn orphan(&mut self, id: OutputId, from: u32) -> Option<String> {
        let evaluation = self.request.evaluation?;
        let output = evaluation.output(id)?;
        let place = output.place.as_ref()?;
        let span = Span { start: from, end: from };
        let section = OutputSection::new(Spanned::new(output.name.clone(), span), Spanned::new(Vec::new(), span));
        let emitted = self.name_section(&section, span);
        let mut head = self.orphans_head(&section, output, place, from);
        let mut body = Body::new(&section, Some(place), head.start);
        let [start, stop] = self.bounds_of(&output.name, place, from);
        let inputs = self.orphans_body(&linked_of(evaluation, place), &mut body);
        let gap = if place.size > body.at { self.gap_text(&mut body, place.size, None) } else { String::new() };
        let parts = [self.head_text(&emitted, &head), start, inputs, gap, stop, "}".into()];
        let parts: Vec<String> = parts.into_iter().filter(|part| !part.is_empty()).collect();
        let text = format!("{}{}", parts.join(" "), super::head::tail_text(&head));
        let size = place.size.max(body.at);
        head.load_at = self.loaded(&head, size, body.has_bytes);
        let done = Done { name: emitted.clone(), address: head.start, load: head.load_at, size };
        self.done.entry(output.name.clone()).or_insert(done);
        self.dot = head.start.wrapping_add(size);
        self.orphans.written.push((from, emitted, output.segments.clone()));
        let what = format!("{}: no statement takes what is in it; it stands where GNU ld places it", output.name);
        self.note(NoteKind::Rewritten, from, what);
        Some(text)
    }

    /// The statements that take input sections: one by the name, if that takes the same.
    fn orphans_body(&mut self, sections: &[SectionId], body: &mut Body<'a>) -> String {
        match self.of_one_name(sections, body) {
            Some((text, end, has_bytes)) => {
                body.at = end;
                body.has_bytes |= has_bytes;
                text
            }
            None => self.explicit(sections, false, body),
        }
    }

    /// `*(NAME)`, if input sections are all those of a name, each at the first place that it may have; with where
    /// they end, and whether the file has bytes for them.
    fn of_one_name(&self, sections: &[SectionId], body: &Body<'a>) -> Option<(String, u64, bool)> {
        let evaluation = self.request.evaluation?;
        let name = evaluation.section(*sections.first()?)?.name;
        let are_all = self.orphans.counts.get(&name) == Some(&sections.len());
        let ascend = sections.windows(2).all(|pair| pair.first() < pair.last());
        if !are_all || !ascend || sections.iter().any(|id| self.needs_keep(*id)) {
            return None;
        }
        let (mut end, mut has_bytes) = (body.at, false);
        for one in sections.iter().map(|id| evaluation.section(*id)) {
            let one = one.filter(|one| one.name == name)?;
            if one.offset != super::head::aligned(end, one.own_align) {
                return None;
            }
            end = one.offset.wrapping_add(one.size);
            has_bytes |= one.size > 0 && super::head::has_bytes(one);
        }
        let word = crate::profile::reserved_words::word_of_name(evaluation.names.get(name))?;
        Some((format!("*({})", String::from_utf8_lossy(&word)), end, has_bytes))
    }
}
