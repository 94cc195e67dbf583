//! The statements at the top and in SECTIONS: commands, MEMORY, ENTRY, assignments, ASSERT.

use bstr::{BStr, ByteSlice};

use super::expression::{folded, is_any, is_short, number_text, says, unplaced, uses_dot, with_dot};
use super::note::{NoteKind, Topic};
use super::orphans::{Extent, Orphans};
use super::relative::Inside;
use super::rewrites::comment_or_text;
use super::rules::updated;
use super::walk::{At, Memory, Settled, Waiting, Walk};
use super::NUMBER_ENTRY;
use crate::layout::evaluation::{Definer, StatementKind};
use crate::profile::reserved_words::is_name;
use crate::script::tree::{
    Assertion, AssignOperator, Assignment, BinaryOperator, Expr, ExprKind, MemoryRegion, Name, Provision, Query,
    SectionsStatement, Setting, Span, Spanned, Statement,
};

/// The order of what is inserted at one offset.
pub(super) const FRONT: i32 = -1_000_000;
const BEFORE: i32 = 0;

impl<'a> Walk<'a> {
    // --- commands ---

    /// Takes out the commands that the profile has not.
    pub(super) fn commands(&mut self) {
        let script = self.script;
        for statement in &script.statements {
            if let Some((kind, topic, why)) = self.disposition(&statement.node) {
                let what = self.quoted(statement.span);
                self.note_of(kind, topic, statement.span.start, format!("{what}: {why}"));
                if kind != NoteKind::Left {
                    self.rewrites.blank(self.text, statement.span);
                }
            }
        }
    }

    /// What becomes of a command, and why; `None` of what is no such command.
    fn disposition(&mut self, statement: &Statement) -> Option<(NoteKind, Topic, String)> {
        match statement {
            Statement::OutputFormat(names) if names.first().map_or(false, |name| name == "binary") => {
                self.result.is_flat = true;
                let why = "the image is ELF; `objcopy -O binary IMAGE FILE` makes the file";
                Some((NoteKind::Changed, Topic::Form, why.into()))
            }
            Statement::RegionAlias(alias, region) => {
                let own = self.region_name(region);
                self.aliases.insert(alias.clone(), own);
                Some((NoteKind::Rewritten, Topic::Statement, "the region's own name is used".into()))
            }
            Statement::Input(files) | Statement::Group(files) => {
                let names: Vec<&BStr> = files.iter().map(|file| file.node.name.as_bstr()).collect();
                Some(self.files(&names, false))
            }
            Statement::Startup(file) => Some(self.files(&[file.as_bstr()], true)),
            Statement::Extern(_) if self.request.is_followed => {
                let why = "these names are wanted of archives, and kept by --gc-sections";
                Some((NoteKind::Dropped, Topic::Beside, why.into()))
            }
            Statement::Insert(..) if self.is_inserted => {
                let why = "what stands before it is written there";
                Some((NoteKind::Rewritten, Topic::Statement, why.into()))
            }
            statement => fixed_disposition(statement).map(|(kind, topic, why)| (kind, topic, why.to_owned())),
        }
    }

    /// INPUT and its like: the files are objects of the link, or are to be given.
    fn files(&self, names: &[&BStr], is_first: bool) -> (NoteKind, Topic, String) {
        if self.request.is_followed {
            return (NoteKind::Dropped, Topic::Beside, "its files are linked".into());
        }
        let objects = if self.is_without_objects() { &[] } else { self.request.objects };
        let missing: Vec<&BStr> = names.iter().copied().filter(|name| !objects.contains(name)).collect();
        if missing.is_empty() && (!is_first || objects.first() == names.first()) {
            return (NoteKind::Dropped, Topic::Beside, "the objects are given".into());
        }
        let what = if is_first { "as the first object" } else { "as objects of the link" };
        let list = if missing.is_empty() { names } else { &missing };
        let list: Vec<String> = list.iter().map(|name| name.to_string()).collect();
        (NoteKind::Left, Topic::Statement, format!("give {} {what}", list.join(", ")))
    }

    // --- where SECTIONS begin and end ---

    /// Where statements go that must stand before SECTIONS: the first of them, or of what is taken into them as it uses
    /// `.`. Joins all SECTIONS into one.
    fn extent(&mut self) -> u32 {
        let script = self.script;
        let is_sections = |statement: &Spanned<Statement>| matches!(statement.node, Statement::Sections(_));
        let all = &script.statements;
        let (first, last) = match (all.iter().position(is_sections), all.iter().rposition(is_sections)) {
            (Some(first), Some(last)) => (first, last),
            _ => return all.first().map_or(0, |statement| statement.span.start),
        };
        let dotted = |statement: &Spanned<Statement>| statement_uses_dot(&statement.node);
        let low = all.iter().position(dotted).map_or(first, |at| at.min(first));
        let high = all.iter().rposition(dotted).map_or(last, |at| at.max(last));
        let start = |at: usize| all.get(at).map_or(0, |statement| statement.span.start);
        if low < first {
            self.rewrites.insert(start(low), -1, "SECTIONS { ");
            self.note(NoteKind::Rewritten, start(low), "`.` is used before SECTIONS: SECTIONS begin here");
        }
        if high > last {
            let end = all.get(high).map_or(0, |statement| statement.span.end);
            self.rewrites.insert(end, 1_000_000, " }");
            self.note(NoteKind::Rewritten, start(high), "`.` is used after SECTIONS: SECTIONS end here");
        }
        for (index, statement) in all.iter().enumerate().filter(|(_, statement)| is_sections(statement)) {
            let (open, close) = self.braces(statement.span);
            if index > first || low < first {
                self.rewrites.blank(self.text, Span { start: statement.span.start, end: open + 1 });
            }
            if index < last || high > last {
                self.rewrites.blank(self.text, Span { start: close, end: statement.span.end });
            }
            if index > first {
                self.note(NoteKind::Rewritten, statement.span.start, "a second SECTIONS goes on with the first");
            }
        }
        let end = all.get(high).map_or(0, |statement| statement.span.end);
        let opening = match all.get(first) {
            Some(statement) if low == first => self.braces(statement.span).0 + 1,
            _ => start(low),
        };
        self.extent = Some(Extent { span: Span { start: start(low), end }, opening });
        start(low)
    }

    /// The offsets of the first and the last brace of a statement.
    fn braces(&self, span: Span) -> (u32, u32) {
        let own = self.slice(span);
        let open = first_brace(own).unwrap_or(0);
        let close = own.rfind_byte(b'}').unwrap_or(own.len());
        (span.start + open as u32, span.start + close as u32)
    }

    // --- MEMORY ---

    /// Writes one MEMORY before SECTIONS, without attributes; gives where statements go that must stand before
    /// SECTIONS.
    pub(super) fn memory(&mut self) -> u32 {
        let insertion = self.extent();
        let script = self.script;
        let mut blocks = Vec::new();
        for statement in &script.statements {
            if let Statement::Memory(regions) = &statement.node {
                blocks.push((statement.span, regions));
            }
        }
        let written: Vec<Vec<String>> = blocks.iter().map(|(_, regions)| self.regions(regions)).collect();
        let used = script.statements.iter().find(|statement| names_region(&statement.node));
        let used = used.map_or(u32::MAX, |statement| statement.span.start);
        let has_sections = script.statements.iter().any(|one| matches!(one.node, Statement::Sections(_)));
        let before = if has_sections { used.min(insertion) } else { used };
        let must_move = blocks.len() > 1 || blocks.iter().any(|(span, _)| span.start > before);
        for (index, (span, _)) in blocks.iter().enumerate() {
            let new =
                format!("MEMORY {{ {} }}", written.get(index).map(|regions| regions.join(" ")).unwrap_or_default());
            if must_move {
                self.rewrites.blank(self.text, *span);
                let why = match index {
                    0 => "MEMORY stands before the SECTIONS that use it",
                    _ => "a second MEMORY goes on with the first",
                };
                self.note(NoteKind::Rewritten, span.start, why);
            } else if squeezed_is_other(&self.squeezed(span.start, span.end), &new) {
                self.rewrites.replace(self.text, *span, new);
            }
        }
        if must_move {
            let at = blocks.first().map_or(before, |(span, _)| span.start.min(before));
            self.rewrites.insert(at, FRONT, "MEMORY {\n");
            for ((_, regions), block) in blocks.iter().zip(&written) {
                for (region, text) in regions.iter().zip(block) {
                    self.rewrites.insert_from(at, FRONT, format!("{text}\n"), region.span.start);
                }
            }
            self.rewrites.insert(at, FRONT, "} ");
        }
        insertion
    }

    /// The regions of a MEMORY in the profile's form.
    fn regions(&mut self, regions: &[Spanned<MemoryRegion>]) -> Vec<String> {
        let mut written = Vec::with_capacity(regions.len());
        for region in regions {
            let span = region.span;
            let node = &region.node;
            if let Some(attributes) = &node.attributes {
                let what = self.quoted(attributes.span);
                self.note_of(
                    NoteKind::Dropped,
                    Topic::Statement,
                    span.start,
                    format!("the attributes {what} of {}: sections name their regions", node.name.node),
                );
            }
            let known = self.request.evaluation.and_then(|evaluation| {
                evaluation.regions.iter().find(|one| one.name == node.name.node).map(|one| (one.origin, one.length))
            });
            let (origin, from) = self.of_region(&node.origin, span, known.map(|(origin, _)| origin));
            let (length, size) = self.of_region(&node.length, span, known.map(|(_, length)| length));
            written.push(format!("{} : ORIGIN = {origin}, LENGTH = {length}", node.name.node));
            let (origin, length) = (from.unwrap_or(0), size.unwrap_or(u64::MAX));
            self.regions.insert(node.name.node.clone(), Memory { origin, length, next: origin });
        }
        written
    }

    /// ORIGIN or LENGTH: its text and its value.
    fn of_region(&mut self, e: &Expr, span: Span, needed: Option<u64>) -> (String, Option<u64>) {
        let at = At { at: span.start, is_assert: false, dot: None };
        let settled = self.settle(e, at, needed);
        self.report(span, &settled);
        let text = match says(self.slice(e.span), &settled.e, self.text) {
            true => self.slice(e.span).to_str_lossy().trim().to_owned(),
            false => self.expr_text(&settled.e),
        };
        (text, needed.or_else(|| self.value_of(&settled.e, at)))
    }

    /// A region's own name.
    pub(super) fn region_name(&self, name: &Name) -> Name {
        self.aliases.get(name).unwrap_or(name).clone()
    }

    // --- the statements in their order ---

    pub(super) fn statements(&mut self) {
        if let Some(evaluation) = self.request.evaluation.filter(|_| self.request.places_orphans) {
            self.orphans = Orphans::of(&self.request, evaluation, self.extent);
        }
        if let (Some(evaluation), true) = (self.request.evaluation, self.is_inserted) {
            return self.statements_inserted(evaluation);
        }
        let script = self.script;
        for statement in &script.statements {
            self.first_orphans(statement.span.start);
            match &statement.node {
                Statement::Assign(assignment) => self.assignment(assignment, statement.span),
                Statement::Assert(assertion) => self.assertion(assertion, statement.span),
                Statement::Sections(items) => {
                    for item in items {
                        self.item(&item.node, item.span);
                        self.orphans_after(item.span);
                        self.waited(item.span.end);
                    }
                }
                _ => {}
            }
            self.orphans_after(statement.span);
            self.waited(statement.span.end);
        }
        self.orphans_alone();
        for waiting in std::mem::take(&mut self.waiting) {
            let what = self.quoted(waiting.span);
            let why = "it needs what is not known without the objects: give them by --objects, or write a number";
            self.note(NoteKind::Left, waiting.span.start, format!("{what}; {why}"));
        }
    }

    /// Writes the assignments that waited for what is known by now.
    fn waited(&mut self, at: u32) {
        let mut is_new = true;
        while std::mem::take(&mut is_new) {
            for waiting in std::mem::take(&mut self.waiting) {
                match self.written_late(&waiting) {
                    Some(text) => {
                        self.rewrites.blank(self.text, waiting.span);
                        self.rewrites.insert_from(at, 200, format!(" {text}"), waiting.span.start);
                        let what = self.quoted(waiting.span);
                        let why = "stands where what it needs is known";
                        self.note(NoteKind::Rewritten, waiting.span.start, format!("{what} {why}"));
                        is_new = true;
                    }
                    None => self.waiting.push(waiting),
                }
            }
        }
    }

    /// An assignment that waited, after its section; `None` if it still waits.
    fn written_late(&mut self, waiting: &Waiting<'a>) -> Option<String> {
        let name = &waiting.assignment.target.node;
        let version = self.versions.of_statement(name, waiting.span.start)?.0.clone();
        let needed = self.assigned_value(waiting.span)?;
        let start = match waiting.output {
            None => None,
            Some(id) => {
                let section = &self.request.evaluation?.output(id)?.name;
                let done = self.done.get(section)?;
                Some((id, unplaced(ExprKind::Query(Query::Addr, done.name.clone()))))
            }
        };
        let at = At { at: waiting.span.start, is_assert: false, dot: None };
        let inside = start.map(|(id, start)| Inside { id, start, is_absolute: false });
        let before = std::mem::replace(&mut self.inside, inside);
        let e = self.assigned(&waiting.e, at);
        self.inside = before;
        let e = e.filter(|e| self.value_of(e, at) == Some(needed))?;
        self.symbols.insert(version.emitted.clone(), needed);
        let is_provided = matches!(waiting.assignment.provision, Provision::Provide | Provision::ProvideHidden);
        Some(match is_provided && self.is_wanted_of_objects(name) {
            true => format!("PROVIDE({} = {})", version.emitted, self.expr_text(&e)),
            false => format!("{} = {};", version.emitted, self.expr_text(&e)),
        })
    }

    /// The value that GNU ld gives a symbol by the assignment at a place.
    fn assigned_value(&self, span: Span) -> Option<u64> {
        match &self.evaluated(span)?.kind {
            StatementKind::Assign { value, .. } => value.map(|value| value.address),
            _ => None,
        }
    }

    pub(super) fn item(&mut self, item: &'a SectionsStatement, span: Span) {
        match item {
            SectionsStatement::Assign(assignment) => self.assignment(assignment, span),
            SectionsStatement::Assert(assertion) => self.assertion(assertion, span),
            SectionsStatement::Output(section) => self.output_section(section, span),
            SectionsStatement::Overlay(overlay) => {
                let names: Vec<String> =
                    overlay.sections.node.iter().map(|section| section.node.name.node.to_string()).collect();
                let why = "output sections that share addresses are not linked; an image for each";
                self.note(NoteKind::Left, span.start, format!("OVERLAY of {}: {why}", names.join(", ")));
            }
            SectionsStatement::Entry(_) => {}
        }
    }

    /// An assignment outside of output sections.
    pub(super) fn assignment(&mut self, assignment: &'a Assignment, span: Span) {
        let e = whole_value(assignment);
        if assignment.target.node == "." {
            return self.dot_outside(assignment, &e, span);
        }
        self.sync_dot(&e, span);
        let at = At { at: span.start, is_assert: false, dot: Some(self.dot) };
        self.symbol(assignment, &e, span, at);
    }

    /// Writes an assignment to a symbol.
    pub(super) fn symbol(&mut self, assignment: &'a Assignment, e: &Expr, span: Span, at: At) {
        let name = &assignment.target.node;
        let (version, is_last) = match self.versions.of_statement(name, span.start) {
            Some((version, is_last)) => (version.clone(), is_last),
            None => return,
        };
        let is_provided = matches!(assignment.provision, Provision::Provide | Provision::ProvideHidden);
        if !version.counts {
            return self.idle(assignment, e, span, at, is_provided);
        }
        if !is_last && !version.is_used {
            let what = self.quoted(span);
            self.note(NoteKind::Dropped, span.start, format!("{what}: a later assignment of {name} counts"));
            return self.rewrites.blank(self.text, span);
        }
        if self.alias(assignment, &version, span) {
            return;
        }
        if !is_name(&version.emitted) {
            let what = self.quoted(span);
            let why = "is no name of the profile: letters, digits, `_`, `.`, `$` and `-`";
            return self.note(NoteKind::Left, span.start, format!("{what}: {name} {why}"));
        }
        let needed = self.assigned_value(span);
        let mut settled = self.settle(e, at, needed);
        if self.waits(&settled, e, needed) {
            let output = self.inside.as_ref().map(|inside| inside.id);
            return self.waiting.push(Waiting { assignment, e: e.clone(), span, output });
        }
        self.hoist(&mut settled, span, at);
        let stays_provided = is_provided && self.is_wanted_of_objects(name);
        self.put_symbol(assignment, &version.emitted, &mut settled, span, is_provided, stays_provided);
        self.report(span, &settled);
        let value = needed.or_else(|| self.value_of(&settled.e, at));
        if let Some(value) = value {
            self.symbols.insert(version.emitted, value);
        }
    }

    /// Whether an assignment may stand after what it needs: nothing is known of the objects, and it does not use `.`.
    fn waits(&self, settled: &Settled, e: &Expr, needed: Option<u64>) -> bool {
        let names_script = |name: &Name| name.contains(&b'(') || self.versions.assigns(name);
        let needs_later = settled.reasons.missing.iter().all(names_script);
        self.is_without_objects()
            && settled.reasons.is_left()
            && needs_later
            && needed.is_some()
            && !uses_dot(e)
            && settled.reasons.changed.is_empty()
    }

    /// Whether an object has a name undefined, so that a PROVIDE of it is in force.
    fn is_wanted_of_objects(&self, name: &Name) -> bool {
        match self.request.evaluation {
            Some(evaluation) => evaluation.symbol(name).map_or(false, |symbol| symbol.is_in_objects),
            None => true,
        }
    }

    /// An assignment without effect: a PROVIDE that is not in force, or one in a section that is not made.
    fn idle(&mut self, assignment: &Assignment, e: &Expr, span: Span, at: At, is_provided: bool) {
        let name = &assignment.target.node;
        let is_taken = self.versions.assigns(name);
        let mut settled = self.settle(e, at, None);
        let of_linker = self.request.evaluation.and_then(|evaluation| evaluation.symbol(name));
        let cannot_stay = !is_provided
            || of_linker.map_or(false, |symbol| symbol.definer == Definer::Linker)
            || is_taken
            || !settled.reasons.missing.is_empty()
            || settled.reasons.is_numeric
            || !self.idle_names.insert(name.clone())
            || !is_name(name);
        if cannot_stay {
            let what = self.quoted(span);
            self.note(NoteKind::Dropped, span.start, format!("{what}: it has no effect"));
            return self.rewrites.blank(self.text, span);
        }
        self.put_symbol(assignment, name, &mut settled, span, true, true);
        let why = settled.reasons.said.join("; ");
        if !why.is_empty() {
            let what = self.quoted(span);
            self.note(NoteKind::Rewritten, span.start, format!("{what} {why}"));
        }
    }

    /// Writes an assignment of a symbol over that of the text, as little as is another.
    fn put_symbol(
        &mut self,
        assignment: &Assignment,
        emitted: &Name,
        settled: &mut Settled,
        span: Span,
        is_provided: bool,
        stays_provided: bool,
    ) {
        let name = &assignment.target.node;
        let before = self.squeezed(span.start, assignment.value.span.start);
        let after = self.squeezed(assignment.value.span.end, span.end);
        let front = if stays_provided { "PROVIDE(" } else { "" };
        let wanted = [front.as_bytes(), emitted, b"="].concat();
        let is_fine = match stays_provided {
            true => after == b")" || after == b");",
            false => after == b";",
        };
        if before == wanted && is_fine {
            return self.write_over(&assignment.value, settled);
        }
        let value = self.expr_text(&settled.e);
        let new = match stays_provided {
            true => format!("PROVIDE({emitted} = {value})"),
            false => format!("{emitted} = {value};"),
        };
        let reasons = &mut settled.reasons;
        match assignment.provision {
            Provision::Hidden | Provision::ProvideHidden => reasons.say("no name is hidden"),
            Provision::Plain | Provision::Provide => {}
        }
        if is_provided && !stays_provided {
            reasons.say(format!("{name} is used by the script alone: it is assigned"));
        }
        if assignment.operator != AssignOperator::Set {
            reasons.say("as an assignment");
        }
        if reasons.said.is_empty() {
            reasons.say("in the profile's form");
        }
        self.rewrites.replace(self.text, span, new);
    }

    /// ASSERTs of an expression as statements before it.
    pub(super) fn hoist(&mut self, settled: &mut Settled, span: Span, at: At) {
        for (condition, message) in std::mem::take(&mut settled.reasons.assertions) {
            let text = self.condition(&condition, span, at.dot.is_some());
            self.rewrites.insert(span.start, BEFORE + 5, format!("ASSERT({text}, \"{}\") ", message_of(&message)));
        }
    }

    /// Before a statement that uses `.`: `.` as GNU ld has it.
    fn sync_dot(&mut self, e: &Expr, span: Span) {
        if uses_dot(e) {
            self.sync_dot_at(span);
        }
    }

    /// Lets `.` be what GNU ld has before a statement outside of output sections.
    pub(super) fn sync_dot_at(&mut self, span: Span) {
        let wanted = match self.evaluated(span) {
            Some(statement) => statement.dot,
            None => return,
        };
        if wanted == self.dot {
            return;
        }
        if let Some(why) = self.passed.clone().filter(|_| self.is_without_objects()) {
            self.note(NoteKind::Changed, span.start, format!("{}: {why}", self.quoted(span)));
            self.dot = wanted;
            return;
        }
        self.rewrites.insert(span.start, BEFORE, format!(". = {}; ", number_text(wanted)));
        self.dot = wanted;
        self.result.has_moving_values = true;
    }

    fn dot_outside(&mut self, assignment: &Assignment, e: &Expr, span: Span) {
        let needed = match self.evaluated(span).map(|statement| &statement.kind) {
            Some(StatementKind::Dot { after, .. }) => Some(*after),
            _ => None,
        };
        self.sync_dot(e, span);
        let at = At { at: span.start, is_assert: false, dot: Some(self.dot) };
        let mut settled = self.settle(e, at, needed);
        self.hoist(&mut settled, span, at);
        if matches!(assignment.value.kind, ExprKind::Assert(..)) && needed == Some(self.dot) {
            self.report(span, &settled);
            return self.rewrites.blank(self.text, span);
        }
        let before = self.squeezed(span.start, assignment.value.span.start);
        let ends = self.squeezed(assignment.value.span.end, span.end) == b";";
        let step = match (&settled.e.kind, assignment.operator) {
            (ExprKind::Binary(BinaryOperator::Add, left, right), AssignOperator::Update(BinaryOperator::Add))
                if left.kind == ExprKind::Dot =>
            {
                Some((**right).clone())
            }
            _ => None,
        };
        match step {
            Some(step) if before == b".+=" && ends => {
                let mut inner = Settled { e: step, reasons: std::mem::take(&mut settled.reasons) };
                self.write_over(&assignment.value, &mut inner);
                settled.reasons = inner.reasons;
            }
            _ if before == b".=" && ends => self.write_over(&assignment.value, &mut settled),
            _ => {
                let new = format!(". = {};", self.expr_text(&settled.e));
                self.rewrites.replace(self.text, span, new);
                settled.reasons.say("in the profile's form");
            }
        }
        self.report(span, &settled);
        self.dot = needed.or_else(|| self.value_of(&settled.e, at)).unwrap_or(self.dot);
    }

    // --- ASSERT ---

    /// Rewrites an ASSERT that is a statement.
    pub(super) fn assertion(&mut self, assertion: &Assertion, span: Span) {
        let text = self.condition(&assertion.condition, span, true);
        let message = message_of(&assertion.message);
        let tail = self.squeezed(assertion.condition.span.end, span.end);
        let written = squeezed_bytes(&format!(",\"{message}\")"));
        let is_fine = (tail == written || tail == [written.as_slice(), b";"].concat())
            && self.squeezed(span.start, assertion.condition.span.start) == b"ASSERT("
            && squeezed_bytes(&text) == self.squeezed(assertion.condition.span.start, assertion.condition.span.end);
        if is_fine {
            return;
        }
        let end = if tail.ends_with(b";") { ";" } else { "" };
        let what = self.quoted(span);
        self.rewrites.replace(self.text, span, format!("ASSERT({text}, \"{message}\"){end}"));
        self.note(NoteKind::Rewritten, span.start, format!("{what} as ASSERT({text}, ..)"));
    }

    /// The condition of an ASSERT: the first form that is true if GNU ld finds it true; `.` by a symbol before it.
    fn condition(&mut self, e: &Expr, span: Span, may_use_dot: bool) -> String {
        let at = At { at: span.start, is_assert: true, dot: None };
        let span_of_text = e.span;
        let mut e = e.clone();
        if self.is_without_objects() {
            e = with_defined(&e);
            e = self.in_hand(&e, at).unwrap_or(e);
        }
        if uses_dot(&e) && may_use_dot {
            let line = self.request.source.place(span.start).line;
            let name = self.versions.fresh(&format!("ldi.here.{line}"));
            self.rewrites.insert(span.start, BEFORE + 1, format!("{name} = .; "));
            let dot = self.evaluated(span).map_or(self.dot, |statement| statement.dot);
            self.symbols.insert(name.clone(), dot);
            let ours = unplaced(ExprKind::Symbol(name));
            let mut reasons = super::rules::Reasons::default();
            e = with_dot(&super::rules::translate(&e, &super::view::View { walk: self, at }, &mut reasons), &ours);
            return self.true_form(&e, &e.clone(), at);
        }
        let mut reasons = super::rules::Reasons::default();
        let own = super::rules::translate(&e, &super::view::View { walk: self, at }, &mut reasons);
        for why in &reasons.changed {
            let what = self.quoted(span);
            self.note(NoteKind::Changed, span.start, format!("{what}; {why}"));
        }
        let own_text = self.slice(span_of_text).to_str_lossy();
        if says(own_text.as_bytes(), &own, self.text) && self.holds(&own, at) && is_short(&own_text) {
            return own_text.into_owned();
        }
        self.true_form(&e, &own, at)
    }

    /// Whether a condition is true, as far as that is known.
    fn holds(&self, e: &Expr, at: At) -> bool {
        self.request.evaluation.is_none()
            || self.is_without_objects()
            || self.value_of(e, at).map_or(false, |value| value != 0)
    }

    fn true_form(&mut self, _old: &Expr, own: &Expr, at: At) -> String {
        if !self.holds(own, at) {
            return "1".into();
        }
        let written = self.expr_text(own);
        match is_short(&written) {
            true => written,
            false => self.expr_text(&folded(own)),
        }
    }

    // --- ENTRY ---

    /// Writes one ENTRY before SECTIONS: that of `-e`, else the last one, else GNU ld's own.
    pub(super) fn entry(&mut self, insertion: u32) {
        let script = self.script;
        let mut entries: Vec<(Span, &Name, bool)> = Vec::new();
        for statement in &script.statements {
            match &statement.node {
                Statement::Entry(name) => entries.push((statement.span, name, statement.span.start > insertion)),
                Statement::Sections(items) => entries.extend(items.iter().filter_map(|item| match &item.node {
                    SectionsStatement::Entry(name) => Some((item.span, name, true)),
                    _ => None,
                })),
                _ => {}
            }
        }
        let last = entries.pop();
        for (span, ..) in &entries {
            let what = self.quoted(*span);
            self.note(NoteKind::Dropped, span.start, format!("{what}: a later ENTRY counts"));
            self.rewrites.blank(self.text, *span);
        }
        match (self.request.entry, last) {
            (Some(name), last) => self.given_entry(name, last.map(|(span, ..)| span), insertion),
            (None, Some((span, name, is_late))) => self.own_entry(span, name, is_late, insertion),
            (None, None) if self.request.has_default_entry => self.default_entry(insertion),
            (None, None) => {}
        }
    }

    /// Writes the symbol of `-e` in place of ENTRY.
    fn given_entry(&mut self, name: &BStr, last: Option<Span>, insertion: u32) {
        if let Some(span) = last {
            self.rewrites.blank(self.text, span);
        }
        let is_number = name.first().map_or(false, u8::is_ascii_digit);
        let value = self.request.evaluation.and_then(|evaluation| evaluation.entry.address);
        if is_number {
            let value = value.map_or_else(|| name.to_string(), |value| format!("{value:#x}"));
            let text = format!("ENTRY({NUMBER_ENTRY}) {NUMBER_ENTRY} = {value}; ");
            return self.rewrites.insert(insertion.min(self.front()), FRONT - 1, text);
        }
        if !self.put_entry_beside(name, insertion) {
            return self.put_entry(name, insertion);
        }
        if let (false, Some(value)) = (self.request.evaluation.map_or(true, |one| one.entry.is_by_name), value) {
            let text = format!("the entry is {value:#x}, as GNU ld's: nothing defines {name}");
            self.note_of(NoteKind::Changed, Topic::Entry, self.front(), text);
        }
    }

    /// Writes the address of GNU ld's entry if it is not that of the name, which nothing defines or whose section is
    /// left out, for a caller that links.
    fn put_entry_beside(&mut self, name: &BStr, insertion: u32) -> bool {
        let evaluation = match self.request.evaluation.filter(|_| self.request.is_followed) {
            Some(evaluation) => evaluation,
            None => return false,
        };
        let is_out = match evaluation.symbol(name).map(|symbol| symbol.definer) {
            Some(Definer::Object(Some(id))) => evaluation.section(id).map_or(false, |one| one.output().is_none()),
            _ => false,
        };
        if evaluation.entry.is_by_name && !is_out {
            return false;
        }
        self.put_address(evaluation.entry.address.unwrap_or(0), insertion);
        true
    }

    /// Writes an entry that is an address: the start of `.text` by its name.
    fn put_address(&mut self, address: u64, insertion: u32) {
        let end = u32::try_from(self.text.len()).unwrap_or(u32::MAX);
        let text = self.done.iter().find(|(own, done)| *own == ".text" && done.address == address);
        let value = text.map_or_else(|| format!("{address:#x}"), |(_, done)| format!("ADDR({})", done.name));
        self.rewrites.insert(end, i32::MAX - 1, format!(" {NUMBER_ENTRY} = {value};"));
        self.put_entry(NUMBER_ENTRY.as_bytes().as_bstr(), insertion);
    }

    /// The first offset of the statements.
    fn front(&self) -> u32 {
        self.script.statements.first().map_or(0, |statement| statement.span.start)
    }

    fn put_entry(&mut self, name: &BStr, insertion: u32) {
        if is_name(name) {
            self.rewrites.insert(insertion.min(self.front()), FRONT - 1, format!("ENTRY({name}) "));
        } else {
            self.result.entry = Some(name.to_owned());
        }
    }

    fn own_entry(&mut self, span: Span, name: &Name, is_late: bool, insertion: u32) {
        let plain = format!("ENTRY({name})");
        if !is_name(name) {
            let what = self.quoted(span);
            return self.note(NoteKind::Left, span.start, format!("{what}: ENTRY needs a symbol's name"));
        }
        let is_by_name = self.request.evaluation.map_or(true, |evaluation| evaluation.entry.is_by_name);
        if !is_by_name && !self.versions.assigns(name) && !(self.request.defines)(name.as_bstr()) {
            let address = self.request.evaluation.map_or(0, |evaluation| evaluation.entry.address.unwrap_or(0));
            let why = match self.request.is_followed {
                true => format!("nothing defines it; the entry is {address:#x}, as GNU ld's"),
                false => {
                    "nothing defines it (F2, unless -e names another); GNU ld begins at the start of .text then".into()
                }
            };
            self.note_of(NoteKind::Changed, Topic::Entry, span.start, format!("{plain}: {why}"));
        }
        if self.put_entry_beside(name.as_bstr(), insertion) {
            self.rewrites.blank(self.text, span);
        } else if is_late {
            self.rewrites.blank(self.text, span);
            self.put_entry(name.as_bstr(), insertion);
            self.note(NoteKind::Rewritten, span.start, format!("{plain}: stands before SECTIONS"));
        } else if self.slice(span).contains(&b'"') {
            self.rewrites.replace(self.text, span, plain.clone());
            self.note(NoteKind::Rewritten, span.start, format!("{plain}: without quotes"));
        }
    }

    /// GNU ld's own entry: the symbol `start` of an object, else the start of `.text`.
    fn default_entry(&mut self, insertion: u32) {
        let evaluation = match self.request.evaluation {
            Some(evaluation) => evaluation,
            None => return,
        };
        let name = evaluation.entry.name.clone();
        match evaluation.entry.address {
            Some(_) if evaluation.entry.is_by_name => self.put_entry(name.as_bstr(), insertion),
            Some(address) => self.put_address(address, insertion),
            None => {}
        }
    }
}

/// The whole value that an assignment gives: with the old value for an update.
pub(super) fn whole_value(assignment: &Assignment) -> Expr {
    match assignment.operator {
        AssignOperator::Set => assignment.value.clone(),
        AssignOperator::Update(operator) => {
            let old = match assignment.target.node == "." {
                true => ExprKind::Dot,
                false => ExprKind::Symbol(assignment.target.node.clone()),
            };
            updated(unplaced(old), operator, &assignment.value)
        }
    }
}

/// A condition that holds if a name is defined: the name, which is a fault if nothing defines it, in place of
/// DEFINED.
fn with_defined(e: &Expr) -> Expr {
    match &e.kind {
        ExprKind::Query(Query::Defined, name) => {
            let symbol = || Box::new(unplaced(ExprKind::Symbol(name.clone())));
            unplaced(ExprKind::Binary(BinaryOperator::Equal, symbol(), symbol()))
        }
        ExprKind::Binary(operator @ (BinaryOperator::LogicalAnd | BinaryOperator::LogicalOr), left, right) => {
            let (left, right) = (Box::new(with_defined(left)), Box::new(with_defined(right)));
            Expr::new(ExprKind::Binary(*operator, left, right), e.span)
        }
        _ => e.clone(),
    }
}

/// Whether a statement at the top uses `.`.
fn statement_uses_dot(statement: &Statement) -> bool {
    match statement {
        Statement::Assign(assignment) => assignment.target.node == "." || uses_dot(&assignment.value),
        Statement::Assert(assertion) => uses_dot(&assertion.condition),
        _ => false,
    }
}

/// Whether an expression of a statement at the top names a region.
fn names_region(statement: &Statement) -> bool {
    let is_of_region = &mut |e: &Expr| matches!(e.kind, ExprKind::Query(Query::Origin | Query::Length, _));
    match statement {
        Statement::Assign(assignment) => is_any(&assignment.value, is_of_region),
        Statement::Assert(assertion) => is_any(&assertion.condition, is_of_region),
        _ => false,
    }
}

/// What becomes of a command in any script, and why; `None` of what is no such command.
fn fixed_disposition(statement: &Statement) -> Option<(NoteKind, Topic, &'static str)> {
    use NoteKind::{Changed, Dropped, Left, Rewritten};
    Some(match statement {
        Statement::OutputFormat(names) if !names.first().map_or(true, is_own_format) => {
            (Changed, Topic::Beside, "the image is ELF-64 for x86-64")
        }
        Statement::OutputArch(name) if !is_own_arch(name) => (Changed, Topic::Beside, "the image is ELF-64 for x86-64"),
        Statement::OutputFormat(_) | Statement::OutputArch(_) | Statement::Target(_) => {
            (Dropped, Topic::Beside, "there is one format")
        }
        Statement::Output(_) => (Dropped, Topic::Beside, "the image's name is that of -o"),
        Statement::SearchDir(_) => (Dropped, Topic::Beside, "objects are given by their paths"),
        Statement::NoCrossReferences(_) | Statement::NoCrossReferencesTo(_) => {
            (Dropped, Topic::Beside, "references between sections are not tested")
        }
        Statement::Setting(Setting::ForceGroupAllocation) => {
            (Dropped, Topic::Beside, "groups of sections are not linked")
        }
        Statement::Setting(Setting::Float | Setting::NoFloat)
        | Statement::HighLevelLibraries(_)
        | Statement::SystemLibraries(_) => (Dropped, Topic::Beside, "it has no effect on ELF"),
        Statement::Setting(_) => (Dropped, Topic::Beside, "common blocks are always placed"),
        Statement::Map(_) => (Dropped, Topic::Beside, "the map is asked for by --Map"),
        Statement::Version(_) => (Dropped, Topic::Beside, "symbols have no versions"),
        Statement::Feature(_) => (Rewritten, Topic::Statement, "numbers are never relative to a section"),
        Statement::Phdrs(_) => {
            (Changed, Topic::Segments, "segments follow addresses, sizes and flags of the output sections")
        }
        Statement::Extern(_) => {
            let why = "takes no member out of an archive and is no root of --gc-sections: name the object, and KEEP \
                       the section";
            (Changed, Topic::Beside, why)
        }
        Statement::Insert(..) => (Left, Topic::Statement, "put the section at its place in the one script"),
        Statement::Assign(_)
        | Statement::Assert(_)
        | Statement::Sections(_)
        | Statement::Memory(_)
        | Statement::Entry(_)
        | Statement::Input(_)
        | Statement::Group(_)
        | Statement::Startup(_)
        | Statement::RegionAlias(..) => return None,
    })
}

fn is_own_format(name: &Name) -> bool {
    let name = name.replace("_", "-");
    ["x86-64", "i386:x86-64", "x86-64-sol2"].iter().any(|end| name.ends_with_str(end)) && name.starts_with(b"elf64")
}

fn is_own_arch(name: &Name) -> bool {
    let name = name.replace("_", "-");
    name.ends_with(b"x86-64")
}

/// The first `{` of a text outside of comments and quotes.
fn first_brace(text: &[u8]) -> Option<usize> {
    let mut at = 0;
    while *text.get(at)? != b'{' {
        at += comment_or_text(text.get(at..)?).0.max(1);
    }
    Some(at)
}

/// A message with the bytes that a STRING may have.
pub(super) fn message_of(message: &[u8]) -> String {
    message.iter().map(|byte| if (b' '..=b'~').contains(byte) && *byte != b'"' { *byte as char } else { ' ' }).collect()
}

fn squeezed_bytes(text: &str) -> Vec<u8> {
    super::walk::squeezed(text.as_bytes())
}

fn squeezed_is_other(own: &[u8], new: &str) -> bool {
    own != squeezed_bytes(new).as_slice()
}
