//! The statements of an output section.

use bstr::ByteSlice;

use super::expression::{binary, difference, has_dot_or_align, number, number_text, unplaced, uses_dot};
use super::head::{aligned, has_bytes};
use super::note::{NoteKind, Topic};
use super::relative::Inside;
use super::rules::{translate, Reasons};
use super::top::whole_value;
use super::view::View;
use super::walk::{At, Settled, Walk};
use crate::layout::evaluation::{Definer, Gap, InputSection, Placed, StatementKind};
use crate::layout::ids::SectionId;
use crate::layout::Flags;
use crate::script::tree::{
    AssignOperator, Assignment, BinaryOperator, DataText, DataWidth, Expr, ExprKind, Fill, Function, InputStatement,
    Name, OutputSection, SectionStatement, Span,
};

/// The bytes of gaps that are written as data, at most.
const MAX_GAP: u64 = 1 << 16;

/// The body of an output section while it is gone over.
#[derive(Debug)]
pub(super) struct Body<'a> {
    place: Option<&'a Placed>,
    name: Name,
    /// Where the section begins.
    start: u64,
    /// Where the next statement begins, from there.
    pub(super) at: u64,
    /// Whether the file has bytes for the section.
    pub(super) has_bytes: bool,
    /// The symbol of its start, and whether it is written.
    start_symbol: Option<(Name, bool)>,
    /// Whether input sections are not where GNU ld has them, as SUBALIGN says less than their alignments.
    is_off: bool,
    /// The offset after the opening brace.
    open: u32,
    /// The fill that the profile has for all gaps.
    fill: Vec<u8>,
    /// Whether that is of FILL.
    is_filled_by_statement: bool,
}

impl<'a> Body<'a> {
    pub(super) fn new(section: &OutputSection, place: Option<&'a Placed>, start: u64) -> Body<'a> {
        Body {
            place,
            name: section.name.node.clone(),
            start,
            at: 0,
            has_bytes: false,
            start_symbol: None,
            is_off: false,
            open: section.body.span.start + 1,
            fill: Vec::new(),
            is_filled_by_statement: false,
        }
    }

    /// The location counter now.
    fn dot(&self) -> u64 {
        self.start.wrapping_add(self.at)
    }

    /// The lowest place of an alignment from a place on, both from the section's start.
    fn aligned(&self, at: u64, align: u64) -> u64 {
        aligned(self.start.wrapping_add(at), align).wrapping_sub(self.start)
    }
}

impl<'a> Walk<'a> {
    /// Writes all statements of a section.
    pub(super) fn body(&mut self, section: &'a OutputSection, span: Span, body: &mut Body<'a>) {
        if let Some(fill) = self.tail_fill(section) {
            body.is_filled_by_statement = section.fill.is_none();
            body.fill = self.fill_bytes(fill);
            if body.fill.len() > 8 {
                body.fill.clear();
            }
        }
        if let Some(StatementKind::Output(id)) = self.evaluated(span).map(|statement| &statement.kind) {
            self.inside = Some(Inside { id: *id, start: self.start_symbol(body), is_absolute: false });
        }
        for statement in &section.body.node {
            self.section_statement(&statement.node, statement.span, body);
        }
        self.inside = None;
        let close = section.body.span.end.saturating_sub(1);
        self.orphans_of_name(body, close);
        self.bounds(body, close);
        if let Some(place) = body.place {
            if place.size > body.at && !place.is_gone && !body.is_off {
                self.gap_to(body, place.size, None, close);
            }
        }
    }

    /// The fill after a section. If the objects are not known, FILL in front of all that may leave a gap is one too.
    pub(super) fn tail_fill(&self, section: &'a OutputSection) -> Option<&'a Fill> {
        if section.fill.is_some() || !self.is_without_objects() {
            return section.fill.as_ref();
        }
        let mut fills = section.body.node.iter().filter_map(|statement| match &statement.node {
            SectionStatement::Fill(fill) => Some(fill),
            _ => None,
        });
        let (first, more) = (fills.next()?, fills.next());
        let is_still = |statement: &SectionStatement| match statement {
            SectionStatement::Assign(assignment) => assignment.target.node != ".",
            SectionStatement::Assert(_) => true,
            _ => false,
        };
        let front = section.body.node.iter().take_while(|one| is_still(&one.node)).count();
        let is_first = matches!(section.body.node.get(front)?.node, SectionStatement::Fill(_));
        (is_first && more.is_none()).then_some(first)
    }

    /// `__start_NAME` and `__stop_NAME`, which GNU ld defines by itself for a section of that name.
    fn bounds(&mut self, body: &Body<'a>, close: u32) {
        if let Some(place) = body.place {
            let [start, stop] = self.bounds_of(&body.name, place, body.open);
            for (text, at, order) in [(start, body.open, -5), (stop, close, 1_000_000)] {
                if !text.is_empty() {
                    self.rewrites.insert(at, order, format!(" {text} "));
                }
            }
        }
    }

    /// The statements of these two; empty if there is none.
    pub(super) fn bounds_of(&mut self, section: &Name, place: &Placed, at: u32) -> [String; 2] {
        let end = place.address.wrapping_add(place.size);
        [("__start_", place.address), ("__stop_", end)].map(|(front, wanted)| {
            let name = Name::from([front.as_bytes(), section].concat());
            let symbol = self.request.evaluation.and_then(|evaluation| evaluation.symbol(&name));
            let symbol = symbol.filter(|symbol| symbol.definer == Definer::Linker);
            let value = symbol.and_then(|symbol| symbol.value).map(|value| value.address);
            if value != Some(wanted) || !crate::profile::reserved_words::is_name(&name) {
                return String::new();
            }
            let text = format!("PROVIDE({name} = .)");
            self.note(NoteKind::Rewritten, at, format!("{name}, which GNU ld defines by itself, is PROVIDEd"));
            self.symbols.insert(name, wanted);
            text
        })
    }

    /// Writes input sections that no statement of the section takes: GNU ld puts orphans of its name there.
    fn orphans_of_name(&mut self, body: &mut Body<'a>, close: u32) {
        let (evaluation, place) = match (self.request.evaluation, body.place) {
            (Some(evaluation), Some(place)) if self.request.places_orphans => (evaluation, place),
            _ => return,
        };
        let mut taken = std::collections::HashSet::new();
        for id in evaluation.by_span.values().filter_map(|id| evaluation.statement(*id)) {
            if let StatementKind::Input { sections, .. } = &id.kind {
                if id
                    .output
                    .and_then(|output| evaluation.output(output))
                    .map_or(false, |output| output.name == body.name)
                {
                    taken.extend(sections.iter().copied());
                }
            }
        }
        let rest: Vec<SectionId> = place.inputs.iter().copied().filter(|id| !taken.contains(id)).collect();
        let linked: Vec<SectionId> =
            rest.into_iter().filter(|id| evaluation.section(*id).map_or(false, InputSection::is_linked)).collect();
        if !linked.is_empty() {
            let text = self.explicit(&linked, false, body);
            self.rewrites.insert(close, 100, format!("{text} "));
        }
    }

    fn section_statement(&mut self, statement: &'a SectionStatement, span: Span, body: &mut Body<'a>) {
        match statement {
            SectionStatement::Assign(assignment) if assignment.target.node == "." => {
                self.dot_inside(assignment, span, body);
            }
            SectionStatement::Assign(assignment) => self.symbol_inside(assignment, span, body),
            SectionStatement::Assert(assertion) => {
                self.sync_inside(span, body, uses_dot(&assertion.condition));
                self.dot = body.dot();
                self.assertion(assertion, span);
            }
            SectionStatement::Input(node) => self.input_inside(node, span, body),
            SectionStatement::Data(width, e) => self.data(*width, e, span, body),
            SectionStatement::Text(text) => self.text_data(text, span, body),
            SectionStatement::Fill(fill) => {
                let what = self.quoted(fill.value.span);
                self.rewrites.blank(self.text, span);
                let why = match body.is_filled_by_statement {
                    true => "as the fill after the section",
                    false => "the bytes of the gaps are written",
                };
                self.note(NoteKind::Rewritten, span.start, format!("FILL({what}): {why}"));
            }
            SectionStatement::CreateObjectSymbols => {
                self.rewrites.blank(self.text, span);
                self.note(NoteKind::Changed, span.start, "CREATE_OBJECT_SYMBOLS: no symbols of files are made");
            }
            SectionStatement::Constructors(_) => {
                self.rewrites.blank(self.text, span);
                self.note(NoteKind::Dropped, span.start, "CONSTRUCTORS: it has no effect on ELF");
            }
            SectionStatement::LinkerVersion => {
                self.rewrites.blank(self.text, span);
                self.note(NoteKind::Changed, span.start, "LINKER_VERSION: the version is not in the image");
            }
        }
    }

    // --- places ---

    /// Lets `.` be what GNU ld has before a statement that uses it.
    fn sync_inside(&mut self, span: Span, body: &mut Body<'a>, is_needed: bool) {
        let is_gone = self.is_without_objects() && body.place.map_or(false, |place| place.is_gone);
        let wanted = match self.evaluated(span) {
            Some(statement) if is_needed && !body.is_off && !is_gone => statement.dot.wrapping_sub(body.start),
            _ => return,
        };
        if wanted > body.at && wanted < 1 << 48 {
            self.gap_to(body, wanted, None, span.start);
        }
    }

    /// Moves on to a place before a statement: by `.`, or with the bytes of a fill that the section has not.
    fn gap_to(&mut self, body: &mut Body<'a>, to: u64, gap: Option<&Gap>, at: u32) {
        let text = self.gap_text(body, to, gap);
        self.rewrites.insert(at, 20, format!("{text} "));
    }

    /// The text that moves on to a place.
    pub(super) fn gap_text(&mut self, body: &mut Body<'a>, to: u64, gap: Option<&Gap>) -> String {
        let size = to.wrapping_sub(body.at);
        let fill = gap.and_then(|gap| gap.fill.as_deref()).unwrap_or_default();
        body.at = to;
        self.result.has_moving_values = true;
        let has_bits = body.place.map_or(false, Placed::has_bytes);
        match needs_bytes(fill, &body.fill, size) && has_bits {
            true if size <= MAX_GAP => {
                body.has_bytes = true;
                data_of(&filled(fill, size))
            }
            _ => format!(". = {};", number_text(to)),
        }
    }

    // --- input sections ---

    fn input_inside(&mut self, node: &'a InputStatement, span: Span, body: &mut Body<'a>) {
        let (sections, gaps) = self.taken(span);
        if !self.is_without_objects() {
            self.say_unloaded(span, body);
        }
        let is_fine = self.input(node, span, &sections);
        let evaluation = match self.request.evaluation {
            Some(evaluation) => evaluation,
            None => return,
        };
        let places: Vec<_> = sections.iter().filter_map(|id| evaluation.section(*id)).collect();
        if places.iter().any(|one| one.offset != body.aligned(one.offset, one.own_align)) && !body.is_off {
            body.is_off = true;
            let why = "SUBALIGN: input sections have their own alignments, which are more";
            self.note(NoteKind::Changed, span.start, format!("{}: {why}", body.name));
        }
        if body.is_off {
            let last = places.last().map_or(body.at, |one| one.offset.wrapping_add(one.size));
            body.at = last;
            body.has_bytes |= places.iter().any(|one| one.size > 0 && has_bytes(one));
            return;
        }
        let mut end = body.at;
        let mut is_regular = true;
        for (index, one) in places.iter().enumerate() {
            let next = body.aligned(end, one.own_align);
            let is_first = index == 0 && one.offset > end && one.offset == body.aligned(one.offset, one.own_align);
            is_regular &= one.offset == next || is_first;
            is_regular &= !gaps_from(gaps, end)
                .take_while(|gap| gap.offset < one.offset)
                .any(|gap| needs_bytes(gap.fill.as_deref().unwrap_or_default(), &body.fill, gap.size));
            end = one.offset.wrapping_add(one.size);
        }
        if !is_regular && self.is_without_objects() {
            let why = "there are gaps that depend on the objects: give them by --objects";
            self.note(NoteKind::Left, span.start, format!("{}: {why}", self.quoted(span)));
        } else if !is_fine || !is_regular {
            let text = self.explicit_with(&sections, gaps, node.is_kept, body);
            return self.rewrites.replace(self.text, span, text);
        }
        if !node.is_kept && sections.iter().any(|id| self.needs_keep(*id)) {
            let kept: Vec<SectionId> = sections.iter().copied().filter(|id| self.needs_keep(*id)).collect();
            self.kept_by_name.extend(kept);
            let text = self.explicit_with(&sections, gaps, false, body);
            // The statement itself takes what `ldi` keeps besides.
            let rest = if self.is_as_written(node, span) { self.slice(span).to_string() } else { String::new() };
            return self.rewrites.replace(self.text, span, format!("{text} {rest}"));
        }
        if let Some(first) = places.first() {
            if first.offset != body.aligned(body.at, first.own_align) && first.offset > body.at {
                self.gap_to(body, first.offset, None, span.start);
            }
        }
        body.at = end;
        body.has_bytes |= places.iter().any(|one| one.size > 0 && has_bytes(one));
    }

    /// Reports a statement that also takes sections without SHF_ALLOC, which GNU ld would load.
    fn say_unloaded(&mut self, span: Span, body: &Body<'a>) {
        let is_loaded = body.place.map_or(false, |place| place.is_allocated() && !place.is_gone);
        let (evaluation, statement) = match (self.request.evaluation, self.evaluated(span)) {
            (Some(evaluation), Some(statement)) if is_loaded => (evaluation, statement),
            _ => return,
        };
        if let StatementKind::Input { sections, .. } = &statement.kind {
            let known = sections.iter().filter_map(|id| evaluation.section(*id));
            let is_other = |one: &&InputSection| {
                !one.is_linked() && one.size > 0 && !one.flags.has(Flags::CREATED | Flags::EXCLUDE)
            };
            let names: Vec<_> = known.filter(is_other).map(|one| evaluation.section_name(one).to_string()).collect();
            if let Some(first) = names.first() {
                let more = if names.len() > 1 { format!(" and {} more", names.len() - 1) } else { String::new() };
                let what = self.quoted(span);
                let why = "is taken too, which is not loaded; GNU ld loads it";
                self.note(NoteKind::Changed, span.start, format!("{what}: {first}{more} {why}"));
            }
        }
    }

    /// The input sections that a statement takes and `ldi` links, and what is between them.
    fn taken(&self, span: Span) -> (Vec<SectionId>, &'a [Gap]) {
        let (evaluation, statement) = match (self.request.evaluation, self.evaluated(span)) {
            (Some(evaluation), Some(statement)) => (evaluation, statement),
            _ => return (Vec::new(), &[]),
        };
        match &statement.kind {
            StatementKind::Input { sections, gaps } => {
                let linked = |id: &SectionId| evaluation.section(*id).map_or(false, InputSection::is_linked);
                (sections.iter().copied().filter(linked).collect(), gaps)
            }
            _ => (Vec::new(), &[]),
        }
    }

    /// Statements that take these input sections one by one.
    pub(super) fn explicit(&mut self, sections: &[SectionId], is_kept: bool, body: &mut Body<'a>) -> String {
        self.explicit_with(sections, &[], is_kept, body)
    }

    /// Whether an input section stays by KEEP alone.
    pub(super) fn needs_keep(&self, id: SectionId) -> bool {
        self.request.kept.get(id.index()).copied().unwrap_or(false)
    }

    /// Statements that take these input sections one by one, each at its place.
    fn explicit_with(&mut self, sections: &[SectionId], gaps: &[Gap], is_kept: bool, body: &mut Body<'a>) -> String {
        let evaluation = match self.request.evaluation {
            Some(evaluation) => evaluation,
            None => return String::new(),
        };
        self.say_out_of_order(sections, body);
        let mut text = Vec::new();
        let mut before = None;
        for (id, one) in sections.iter().filter_map(|id| Some((id, evaluation.section(*id)?))) {
            let needs_keep = self.needs_keep(*id);
            let gap = gaps_from(gaps, body.at).next().filter(|gap| gap.offset == body.at);
            if one.offset != body.aligned(body.at, one.own_align) || gap.is_some() {
                let is_plain = one.offset == body.aligned(body.at, one.own_align)
                    && !needs_bytes(gap.and_then(|gap| gap.fill.as_deref()).unwrap_or_default(), &body.fill, 1);
                if one.offset > body.at && !is_plain {
                    text.push(self.gap_text(body, one.offset, gap));
                }
            }
            let object = self.request.objects.get(one.object.0 as usize).copied().unwrap_or_default();
            let name = evaluation.section_name(one);
            let key = (one.object, one.name, needs_keep);
            if before != Some(key) {
                match (
                    crate::profile::reserved_words::word_of_name(object),
                    crate::profile::reserved_words::word_of_name(name),
                ) {
                    (Some(object), Some(name)) => {
                        let own = format!("{}({})", object.to_str_lossy(), name.to_str_lossy());
                        text.push(if is_kept || needs_keep { format!("KEEP({own})") } else { own });
                    }
                    _ => self.note(NoteKind::Changed, body.open, format!("{name} of {object} cannot be named")),
                }
            }
            before = Some(key);
            body.at = one.offset.wrapping_add(one.size);
            body.has_bytes |= one.size > 0 && has_bytes(one);
        }
        text.join(" ")
    }

    /// Reports sections of one name and one file that come in another order than in the file: a statement by their
    /// names takes them together, as they come there.
    fn say_out_of_order(&mut self, sections: &[SectionId], body: &Body<'a>) {
        let evaluation = match self.request.evaluation {
            Some(evaluation) => evaluation,
            None => return,
        };
        let mut last = std::collections::HashMap::new();
        let mut before = None;
        for (id, one) in sections.iter().filter_map(|id| Some((*id, evaluation.section(*id)?))) {
            let key = (one.object, one.name);
            let is_apart = |earlier: SectionId| before != Some(key) || earlier.index() > id.index();
            if last.insert(key, id).map_or(false, is_apart) {
                let object = self.request.objects.get(one.object.0 as usize).copied().unwrap_or_default();
                let name = evaluation.section_name(one);
                let why = format!("several {name} of {object} are in the order of that file, and together");
                // The map and the symbols are alike, so that a comparison with GNU ld's layout does not tell.
                return self.note_of(NoteKind::Changed, Topic::Beside, body.open, why);
            }
            before = Some(key);
        }
    }

    // --- symbols ---

    fn symbol_inside(&mut self, assignment: &'a Assignment, span: Span, body: &mut Body<'a>) {
        let e = whole_value(assignment);
        self.sync_inside(span, body, uses_dot(&e));
        let at = At { at: span.start, is_assert: false, dot: Some(body.dot()) };
        self.symbol(assignment, &e, span, at);
        self.write_start(body);
    }

    /// The symbol of a section's start; it is written where it is used.
    fn start_symbol(&mut self, body: &mut Body<'a>) -> Expr {
        let name = match &body.start_symbol {
            Some((name, _)) => name.clone(),
            None => {
                let plain = body.name.to_str_lossy().trim_start_matches('.').to_owned();
                let wish = format!("ldi.start.{plain}");
                let wish =
                    if crate::profile::reserved_words::is_name(wish.as_bytes()) { wish } else { "ldi.start".into() };
                let name = self.versions.fresh(&wish);
                body.start_symbol = Some((name.clone(), false));
                name
            }
        };
        self.symbols.insert(name.clone(), body.start);
        unplaced(ExprKind::Symbol(name))
    }

    /// Writes the symbol of the start, once something that was written names it.
    fn write_start(&mut self, body: &mut Body<'a>) {
        if let Some((name, is_written)) = &mut body.start_symbol {
            if !*is_written && self.rewrites.mentions(name) {
                *is_written = true;
                self.rewrites.insert(body.open, -1, format!(" {name} = .;"));
            }
        }
    }

    // --- the location counter ---

    fn dot_inside(&mut self, assignment: &Assignment, span: Span, body: &mut Body<'a>) {
        let e = whole_value(assignment);
        let (after, gap) = match self.evaluated(span).map(|statement| &statement.kind) {
            Some(StatementKind::Dot { after, gap }) => (Some(*after), gap.as_ref()),
            _ => (None, None),
        };
        self.sync_inside(span, body, true);
        let to = after.filter(|_| !body.is_off).map(|after| after.wrapping_sub(body.start));
        if let (Some(to), Some(gap)) = (to, gap) {
            let fill = gap.fill.as_deref().unwrap_or_default();
            let has_bits = body.place.map_or(false, Placed::has_bytes);
            if needs_bytes(fill, &body.fill, gap.size) && has_bits && gap.size <= MAX_GAP {
                let text = self.gap_text(body, to, Some(gap));
                return self.rewrites.replace(self.text, span, text);
            }
        }
        let at = At { at: span.start, is_assert: false, dot: Some(body.dot()) };
        let start = self.start_symbol(body);
        let form = match self.is_without_objects() {
            true => self.counted_dot(&e, at, body, to, &start),
            false => None,
        };
        match form.or_else(|| self.dot_form(&e, at, body, to, &start)) {
            Some((text, mut settled)) => self.put_dot(assignment, span, &text, &mut settled),
            None => self.rewrites.blank(self.text, span),
        }
        self.write_start(body);
        if let Some(to) = to {
            body.at = to.max(body.at);
        }
    }

    /// The form of an assignment to `.` by what GNU ld makes of its expression; `None` if that is not known.
    fn counted_dot(
        &mut self,
        e: &Expr,
        at: At,
        body: &Body<'a>,
        to: Option<u64>,
        start: &Expr,
    ) -> Option<(String, Settled)> {
        let counted = self.assigned(e, at)?;
        let settled = |e: Expr, why: Option<String>| Settled {
            e,
            reasons: Reasons { said: why.into_iter().collect(), ..Reasons::default() },
        };
        let is_gone = body.place.map_or(false, |place| place.is_gone);
        let counts = format!("`. = e` counts from the start of {}", body.name);
        let place = self.value_of(&counted, at).map(|value| value.wrapping_sub(body.start));
        // What GNU ld takes out of the image is elsewhere, and has no bytes wherever it is.
        let to = place.filter(|place| is_gone || Some(*place) == to)?;
        if !super::expression::is_short(&self.expr_text(&counted)) {
            return None;
        }
        if !self.is_number(e, at) {
            if counted.kind == ExprKind::Dot {
                return Some((". += 0;".into(), settled(number(0), None)));
            }
            if let Some(step) = added(&counted) {
                return Some((format!(". += {};", self.expr_text(&step)), settled(step, None)));
            }
            if let ExprKind::Call(Function::Align, arguments) = &counted.kind {
                if arguments.len() == 1 && arguments.iter().all(|align| !uses_dot(align)) {
                    return Some((format!(". = {};", self.expr_text(&counted)), settled(counted, None)));
                }
            }
        }
        let distance = difference(counted.clone(), start.clone());
        if !has_dot_or_align(&distance) {
            let why = Some(counts).filter(|_| !self.is_number(e, at));
            let distance = if self.is_number(e, at) { self.in_hand(e, at)? } else { distance };
            return Some((format!(". = {};", self.expr_text(&distance)), settled(distance, why)));
        }
        let line = self.request.source.place(at.at).line;
        let name = self.versions.fresh(&format!("ldi.next.{line}"));
        self.rewrites.insert(at.at, 30, format!("{name} = {}; ", self.expr_text(&counted)));
        self.symbols.insert(name.clone(), body.start.wrapping_add(to));
        let e = difference(unplaced(ExprKind::Symbol(name)), start.clone());
        let why = "through a symbol, as `. = e` has neither `.` nor ALIGN in a section";
        Some((format!(". = {};", self.expr_text(&e)), settled(e, Some(why.into()))))
    }

    /// The form of an assignment to `.` in an output section; `None` if it does not move.
    fn dot_form(
        &mut self,
        e: &Expr,
        at: At,
        body: &Body<'a>,
        to: Option<u64>,
        start: &Expr,
    ) -> Option<(String, Settled)> {
        let mut reasons = Reasons::default();
        let own = translate(e, &View { walk: self, at }, &mut reasons);
        self.hoist_of(&mut reasons, at);
        let lands = |walk: &Walk<'a>, value: Option<u64>| {
            to.map_or(value.is_some() || walk.request.evaluation.is_none(), |to| value == Some(to))
        };
        if let Some(step) = added(&own) {
            let value = self.value_of(&step, at).map(|step| body.at.wrapping_add(step));
            if lands(self, value) {
                let text = format!(". += {};", self.expr_text(&step));
                return Some((text, Settled { e: step, reasons }));
            }
        }
        if let ExprKind::Call(Function::Align, arguments) = &own.kind {
            if let [align] = arguments.as_slice() {
                let value = self.value_of(&own, at).map(|value| value.wrapping_sub(body.start));
                if !uses_dot(align) && lands(self, value) {
                    return Some((format!(". = {};", self.expr_text(&own)), Settled { e: own, reasons }));
                }
            }
        }
        if !has_dot_or_align(&own) {
            let distance = difference(own.clone(), start.clone());
            let why = format!("`. = e` counts from the start of {}", body.name);
            for (form, why) in [(own.clone(), None), (distance, Some(why))] {
                if lands(self, self.value_of(&form, at)) {
                    reasons.said.extend(why);
                    return Some((format!(". = {};", self.expr_text(&form)), Settled { e: form, reasons }));
                }
            }
        }
        if self.is_without_objects() && !self.is_known(e) {
            reasons.depends = true;
            return Some((format!(". = {};", self.expr_text(&own)), Settled { e: own, reasons }));
        }
        let to = to.filter(|to| *to != body.at)?;
        let mut reasons = Reasons { is_numeric: true, ..Reasons::default() };
        reasons.say("as the place that GNU ld finds, from the section's start");
        Some((format!(". = {};", number_text(to)), Settled { e: number(to), reasons }))
    }

    fn hoist_of(&mut self, reasons: &mut Reasons, at: At) {
        let mut settled = Settled { e: number(0), reasons: std::mem::take(reasons) };
        self.hoist(&mut settled, Span { start: at.at, end: at.at }, at);
        *reasons = settled.reasons;
    }

    /// Writes an assignment to `.`, if it is another.
    fn put_dot(&mut self, assignment: &Assignment, span: Span, text: &str, settled: &mut Settled) {
        let own = self.squeezed(span.start, span.end);
        let new = super::walk::squeezed(text.as_bytes());
        let says_so = own == new && super::expression::says(self.slice(assignment.value.span), &settled.e, self.text);
        let step = new.strip_prefix(b".+=").map(|step| [b".=.+", step].concat());
        let is_sum = matches!(&assignment.value.kind,
            ExprKind::Binary(BinaryOperator::Add, left, _) if left.kind == ExprKind::Dot);
        let adds = is_sum && assignment.operator == AssignOperator::Set && step.map_or(false, |step| own == step);
        if !says_so && !adds {
            if settled.reasons.said.is_empty() {
                settled.reasons.say(format!("as {text}"));
            }
            self.rewrites.replace(self.text, span, text);
        }
        self.report(span, settled);
    }

    // --- data ---

    fn data(&mut self, width: DataWidth, e: &Expr, span: Span, body: &mut Body<'a>) {
        let (size, word) = match width {
            DataWidth::Byte => (1, "BYTE"),
            DataWidth::Short => (2, "SHORT"),
            DataWidth::Long => (4, "LONG"),
            DataWidth::Quad | DataWidth::SignedQuad => (8, "QUAD"),
        };
        let needed = match self.evaluated(span).map(|statement| &statement.kind) {
            Some(StatementKind::Data { value, offset, .. }) => {
                let (value, offset) = (*value, *offset);
                if offset > body.at {
                    self.gap_to(body, offset, None, span.start);
                }
                Some(value)
            }
            _ => None,
        };
        let at = At { at: span.start, is_assert: false, dot: Some(body.dot()) };
        self.set_absolute(true);
        let mut settled = self.settle(e, at, needed);
        self.set_absolute(false);
        if width == DataWidth::SignedQuad {
            let new = format!("{word}({})", self.expr_text(&settled.e));
            self.rewrites.replace(self.text, span, new);
            settled.reasons.say("SQUAD is QUAD");
        } else {
            self.write_over(e, &mut settled);
        }
        self.report(span, &settled);
        self.write_start(body);
        body.at += size;
        body.has_bytes = true;
    }

    /// Whether numbers do not count from the section's start.
    fn set_absolute(&mut self, is_absolute: bool) {
        if let Some(inside) = &mut self.inside {
            inside.is_absolute = is_absolute;
        }
    }

    fn text_data(&mut self, text: &DataText, span: Span, body: &mut Body<'a>) {
        let bytes: Vec<u8> = match text {
            DataText::ZeroTerminated(text) => text.iter().copied().chain([0]).collect(),
            DataText::Sized(size, text) => {
                let at = At { at: span.start, is_assert: false, dot: None };
                let size = self.gnu_value(size).or_else(|| self.value_of(size, at)).unwrap_or(0).min(MAX_GAP);
                text.iter().copied().chain(std::iter::repeat(0)).take(size as usize).collect()
            }
        };
        let words: Vec<String> = bytes.iter().map(|byte| format!("BYTE({byte})")).collect();
        self.rewrites.replace(self.text, span, words.join(" "));
        self.note(NoteKind::Rewritten, span.start, format!("a text as {} BYTEs", bytes.len()));
        body.at += bytes.len() as u64;
        body.has_bytes = true;
    }
}

/// n, if an expression is `. + n`, `n + .` or `. + a + b`.
fn added(e: &Expr) -> Option<Expr> {
    let (operator, left, right) = match &e.kind {
        ExprKind::Dot => return None,
        ExprKind::Binary(operator, left, right) => (*operator, left, right),
        _ => return None,
    };
    let is_dot = |e: &Expr| e.kind == ExprKind::Dot;
    match operator {
        BinaryOperator::Add if is_dot(left) && !uses_dot(right) => Some((**right).clone()),
        BinaryOperator::Add if is_dot(right) && !uses_dot(left) => Some((**left).clone()),
        BinaryOperator::Add | BinaryOperator::Subtract if !uses_dot(right) => {
            Some(binary(operator, added(left)?, (**right).clone()))
        }
        _ => None,
    }
}

/// The gaps from an offset on; they ascend, as the location counter does.
fn gaps_from(gaps: &[Gap], offset: u64) -> impl Iterator<Item = &Gap> {
    gaps.iter().skip(gaps.partition_point(|gap| gap.offset < offset))
}

/// Whether a gap has other bytes than the profile gives it.
fn needs_bytes(fill: &[u8], own: &[u8], size: u64) -> bool {
    if size == 0 || fill.iter().all(|byte| *byte == 0) && own.iter().all(|byte| *byte == 0) {
        return false;
    }
    !fill.is_empty() && fill != own
}

/// The bytes of a gap: the fill from its front, again and again.
fn filled(fill: &[u8], size: u64) -> Vec<u8> {
    fill.iter().copied().cycle().take(size as usize).collect()
}

/// Data commands for bytes.
fn data_of(bytes: &[u8]) -> String {
    let mut words = Vec::new();
    let mut chunks = bytes.chunks_exact(8);
    for chunk in &mut chunks {
        let digits: String = chunk.iter().rev().map(|byte| format!("{byte:02x}")).collect();
        words.push(format!("QUAD(0x{digits})"));
    }
    words.extend(chunks.remainder().iter().map(|byte| format!("BYTE({byte:#x})")));
    words.join(" ")
}
