//! The walk over the statements: the text written so far, and the layout that `ldi` will make of it.

use std::collections::{BTreeMap, HashMap, HashSet};

use bstr::{BStr, BString, ByteSlice};

use super::expression::{is_any, is_short, number, says, value, write};
use super::limits::split_runs;
use super::note::{Note, NoteKind, Topic};
use super::orphans::{Extent, Orphans};
use super::relative::Inside;
use super::rewrites::{comment_or_text, Rewrites};
use super::rules::{translate, Reasons};
use super::versions::Versions;
use super::view::{Facts, View};
use super::{phdrs, AdaptedScript, Request};
use crate::layout::evaluation::{Definer, InputSection, Statement, StatementKind};
use crate::layout::ids::{OutputId, SectionId};
use crate::layout::Evaluation;
use crate::profile::text::hash_comments;
use crate::script::tree::{Assignment, Expr, ExprKind, Name, Provision, Query, Script, Span};

/// An output section that is complete, as the profile has it.
#[derive(Clone, Debug)]
pub(super) struct Done {
    /// The name that it has in the result.
    pub(super) name: Name,
    pub(super) address: u64,
    pub(super) load: u64,
    pub(super) size: u64,
}

/// A region of MEMORY as the profile goes on with it.
#[derive(Clone, Copy, Debug)]
pub(super) struct Memory {
    pub(super) origin: u64,
    pub(super) length: u64,
    /// The next free address.
    pub(super) next: u64,
}

/// Where an expression stands.
#[derive(Clone, Copy, Debug)]
pub(super) struct At {
    /// Where its statement begins.
    pub(super) at: u32,
    /// Whether it is the condition of an ASSERT, which is evaluated after the layout.
    pub(super) is_assert: bool,
    /// The location counter; `None` if it may not be used.
    pub(super) dot: Option<u64>,
}

/// An expression that was decided on.
#[derive(Debug)]
pub(super) struct Settled {
    pub(super) e: Expr,
    pub(super) reasons: Reasons,
}

/// An assignment that waits for what it needs.
#[derive(Clone, Debug)]
pub(super) struct Waiting<'a> {
    pub(super) assignment: &'a Assignment,
    pub(super) e: Expr,
    pub(super) span: Span,
    /// The output section that it stands in.
    pub(super) output: Option<OutputId>,
}

/// Writes a script in the profile.
pub(super) struct Walk<'a> {
    pub(super) request: Request<'a>,
    pub(super) script: &'a Script,
    pub(super) text: &'a [u8],
    pub(super) rewrites: Rewrites,
    pub(super) notes: Vec<(u32, Note)>,
    pub(super) versions: Versions,
    /// What REGION_ALIAS names: by the alias the region.
    pub(super) aliases: HashMap<Name, Name>,
    /// The values of the symbols that are complete, by the names that they have in the result.
    pub(super) symbols: HashMap<Name, u64>,
    /// The output sections that are complete, by their names in the script.
    pub(super) done: HashMap<Name, Done>,
    /// The names that output sections have in the result, by the place where each begins.
    pub(super) emitted: HashMap<u32, Name>,
    /// The regions that are complete.
    pub(super) regions: HashMap<Name, Memory>,
    /// The distance from address to load address of the last section in each region, and in none.
    pub(super) distances: HashMap<Option<Name>, u64>,
    /// The location counter.
    pub(super) dot: u64,
    /// The output section whose body is gone over.
    pub(super) inside: Option<Inside>,
    /// The assignments that wait for what they need.
    pub(super) waiting: Vec<Waiting<'a>>,
    /// Why `.` is another than GNU ld's, if the objects are not known.
    pub(super) passed: Option<String>,
    /// The names of output sections that are taken.
    pub(super) section_names: HashSet<Name>,
    pub(super) foreign: BTreeMap<Name, u64>,
    /// The statements with the input sections that they take, by their order; made when it is asked for.
    pub(super) takers: Option<Vec<u32>>,
    /// The names of PROVIDEs without effect that stay: a second one of a name would be one too many.
    pub(super) idle_names: HashSet<Name>,
    /// The input sections that got KEEP.
    pub(super) kept_by_name: Vec<SectionId>,
    /// Whether statements move by INSERT.
    pub(super) is_inserted: bool,
    /// Where SECTIONS are.
    pub(super) extent: Option<Extent>,
    /// The output sections that stand in no script.
    pub(super) orphans: Orphans,
    pub(super) result: AdaptedScript,
}

impl<'a> Walk<'a> {
    pub(super) fn new(request: Request<'a>) -> Walk<'a> {
        let text = request.source.text();
        let evaluation = request.evaluation;
        let counts = |assignment: &crate::script::tree::Assignment, span: Span, is_first: bool| match evaluation {
            Some(evaluation) => match evaluation.statement_at(span).map(|statement| &statement.kind) {
                Some(StatementKind::Assign { value, .. }) => value.is_some(),
                _ => false,
            },
            None => {
                let is_provided = matches!(assignment.provision, Provision::Provide | Provision::ProvideHidden);
                !is_provided || is_first && !(request.defines)(assignment.target.node.as_bstr())
            }
        };
        Walk {
            request,
            script: request.script,
            text,
            rewrites: Rewrites::default(),
            notes: Vec::new(),
            versions: Versions::of(request.script, text, &counts),
            aliases: HashMap::new(),
            symbols: HashMap::new(),
            done: HashMap::new(),
            emitted: HashMap::new(),
            regions: HashMap::new(),
            distances: HashMap::new(),
            dot: 0,
            inside: None,
            waiting: Vec::new(),
            passed: None,
            section_names: HashSet::new(),
            foreign: BTreeMap::new(),
            takers: None,
            idle_names: HashSet::new(),
            kept_by_name: Vec::new(),
            is_inserted: false,
            extent: None,
            orphans: Orphans::default(),
            result: AdaptedScript::default(),
        }
    }

    /// Rewrites the whole script.
    pub(super) fn run(mut self) -> AdaptedScript {
        self.is_inserted = super::inserted::has_insert(self.script) && self.can_insert();
        self.hash_comments();
        self.includes();
        self.commands();
        let insertion = self.memory();
        self.statements();
        self.entry(insertion);
        self.bounds_as_numbers();
        self.say_kept();
        phdrs::write(&mut self);
        self.finish()
    }

    /// Comments of `#` as those of the profile.
    fn hash_comments(&mut self) {
        for (start, end) in hash_comments(self.text) {
            let inside = self.text.get(start + 1..end).unwrap_or_default().to_str_lossy().replace("*/", "* /");
            let span = Span { start: start as u32, end: end as u32 };
            self.rewrites.replace(self.text, span, format!("/* {} */", inside.trim()));
            self.note(NoteKind::Rewritten, span.start, "a comment of `#` as /* */");
        }
    }

    /// The other symbols that GNU ld defines by itself, as numbers.
    fn bounds_as_numbers(&mut self) {
        let evaluation = match self.request.evaluation {
            Some(evaluation) => evaluation,
            None => return,
        };
        let end = u32::try_from(self.text.len()).unwrap_or(u32::MAX);
        for symbol in evaluation.symbols.iter().filter(|symbol| symbol.definer == Definer::Linker) {
            let value =
                symbol.value.filter(|_| symbol.is_in_objects && crate::profile::reserved_words::is_name(&symbol.name));
            if let (Some(value), false) = (value, self.symbols.contains_key(&symbol.name)) {
                self.rewrites.insert(end, i32::MAX - 2, format!(" {} = {:#x};", symbol.name, value.address));
            }
        }
    }

    /// Says what of --gc-sections is other than GNU ld's.
    fn say_kept(&mut self) {
        let end = u32::try_from(self.text.len()).unwrap_or(u32::MAX).saturating_sub(1);
        let kept = std::mem::take(&mut self.kept_by_name);
        if let Some(list) = self.listed(&kept) {
            let why = "under KEEP, as GNU ld keeps what is wanted by a name, notes, and what more references lead to";
            self.note_of(NoteKind::Rewritten, Topic::Beside, end, format!("--gc-sections: {list}: {why}"));
        }
        self.say_provided_bounds(end);
        self.say_entries(end);
        let evaluation = match self.request.evaluation.filter(|_| !self.request.kept.is_empty()) {
            Some(evaluation) => evaluation,
            None => return,
        };
        let is_unwinding =
            |one: &InputSection| one.output().is_some() && one.size > 0 && evaluation.section_name(one) == ".eh_frame";
        let all = evaluation.sections.iter().enumerate();
        let unwinding = all.filter(|(_, one)| self.request.keeps_more && is_unwinding(one));
        let unwinding: Vec<SectionId> = unwinding.map(|(index, _)| SectionId::new(index)).collect();
        if let Some(list) = self.listed(&unwinding) {
            let why = "under KEEP: all functions that it names stay; GNU ld takes out its entries for those that go";
            self.note_of(NoteKind::Changed, Topic::Beside, end, format!("--gc-sections: {list}: {why}"));
        }
    }

    /// Says that GNU ld goes by PROVIDE of `__start_NAME` if no section NAME stays.
    fn say_provided_bounds(&mut self, at: u32) {
        let evaluation = match self.request.evaluation.filter(|_| self.request.collects_start_stop) {
            Some(evaluation) => evaluation,
            None => return,
        };
        let mut names: Vec<String> = Vec::new();
        super::items::for_each_assignment(self.script, &mut |assignment, _| {
            let name = &assignment.target.node;
            let is_provided = matches!(assignment.provision, Provision::Provide | Provision::ProvideHidden);
            let is_bound = name.starts_with(b"__start_") || name.starts_with(b"__stop_");
            if is_provided && is_bound && evaluation.symbol(name).map_or(false, |symbol| symbol.is_in_objects) {
                names.push(name.to_string());
            }
        });
        names.sort();
        if !names.is_empty() {
            let why = "GNU ld goes by it where no section of that name stays";
            let what = format!("--gc-sections: -z start-stop-gc: PROVIDE of {}: {why}", names.join(", "));
            self.note_of(NoteKind::Changed, Topic::Beside, at, what);
        }
    }

    /// Says that GNU ld goes by the values that symbols have before sections have places.
    fn say_entries(&mut self, at: u32) {
        let names: Vec<String> = self.request.without_entries.iter().map(|name| name.to_string()).collect();
        if !names.is_empty() {
            let why = "GNU ld has entries of .got for what they are before sections have places";
            let what = format!("references by a global offset table to {}: {why}", names.join(", "));
            self.note_of(NoteKind::Changed, Topic::Beside, at, what);
        }
    }

    /// The first of some input sections, for people; `None` if there is none.
    fn listed(&self, sections: &[SectionId]) -> Option<String> {
        const MAX_NAMES: usize = 3;
        let evaluation = self.request.evaluation?;
        let known = sections.iter().filter_map(|id| evaluation.section(*id));
        let labels: Vec<String> = known
            .take(MAX_NAMES)
            .map(|one| {
                let object = self.request.objects.get(one.object.0 as usize).copied().unwrap_or_default();
                format!("{} of {}", evaluation.section_name(one), object.as_bstr())
            })
            .collect();
        let more = match sections.len().saturating_sub(MAX_NAMES) {
            0 => String::new(),
            more => format!(" and {more} more"),
        };
        (!labels.is_empty()).then(|| format!("{}{more}", labels.join(", ")))
    }

    /// Notes each INCLUDE: what its file has stands in the text already.
    fn includes(&mut self) {
        let source = self.request.source;
        for (span, path) in source.includes() {
            self.note(NoteKind::Rewritten, span.start, format!("INCLUDE {}: its text is read in", path.display()));
        }
    }

    /// The text, and what is to be said of it.
    fn finish(mut self) -> AdaptedScript {
        let end = u32::try_from(self.text.len()).unwrap_or(u32::MAX);
        let asserts: Vec<String> = self
            .foreign
            .iter()
            .filter(|(name, _)| crate::profile::reserved_words::is_name(name))
            .map(|(name, value)| format!("ASSERT({name} == {value:#x}, \"{name} moved\")\n"))
            .collect();
        if !asserts.is_empty() {
            let front = if self.text.last() == Some(&b'\n') { "" } else { "\n" };
            self.rewrites.insert(end, i32::MAX, format!("{front}{}", asserts.concat()));
        }
        self.result.foreign = self.foreign.iter().map(|(name, value)| (name.clone(), *value)).collect();
        let rendered = split_runs(self.rewrites.render(self.text));
        self.result.lines = rendered.origins.iter().map(|at| self.request.source.place(*at)).collect();
        self.result.text = rendered.text;
        self.notes.sort_by_key(|(at, _)| *at);
        let mut said = HashSet::new();
        let notes = self.notes.into_iter().map(|(_, note)| note);
        self.result.notes = notes.filter(|note| said.insert(note.clone())).collect();
        self.result
    }

    // --- what is said ---

    pub(super) fn note(&mut self, kind: NoteKind, at: u32, sentence: impl Into<String>) {
        self.note_of(kind, Topic::Statement, at, sentence);
    }

    pub(super) fn note_of(&mut self, kind: NoteKind, topic: Topic, at: u32, sentence: impl Into<String>) {
        let place = self.request.source.place(at);
        self.notes.push((at, Note { kind, topic, place, sentence: sentence.into() }));
    }

    /// The text of a span on one line, for people.
    pub(super) fn quoted(&self, span: Span) -> String {
        let own = self.slice(span).trim_with(|c| c == ';' || c == ',' || c.is_whitespace());
        let words: Vec<String> = own.fields().map(|word| word.to_str_lossy().into_owned()).collect();
        let line = words.join(" ");
        match line.char_indices().nth(57) {
            Some((at, _)) if line.chars().count() > 60 => format!("{}...", line.get(..at).unwrap_or_default()),
            _ => line,
        }
    }

    /// The text of a span.
    pub(super) fn slice(&self, span: Span) -> &'a BStr {
        self.text.get(span.start as usize..span.end as usize).unwrap_or_default().as_bstr()
    }

    /// The text between two offsets without white space and comments.
    pub(super) fn squeezed(&self, from: u32, to: u32) -> Vec<u8> {
        squeezed(self.slice(Span { start: from, end: to }))
    }

    // --- what GNU ld makes ---

    /// The statement that stands at a place.
    pub(super) fn evaluated(&self, span: Span) -> Option<&'a Statement> {
        self.request.evaluation?.statement_at(span)
    }

    /// The value that GNU ld has for an expression.
    pub(super) fn gnu_value(&self, e: &Expr) -> Option<u64> {
        Some(self.request.evaluation?.value_at(e.span)?.address)
    }

    /// Whether the value that GNU ld has for an expression does not depend on objects that are not known.
    pub(super) fn is_known(&self, e: &Expr) -> bool {
        match self.request.others {
            None => true,
            Some(others) => {
                let value = |one: &&Evaluation| one.value_at(e.span).map(|value| value.address);
                let own = self.gnu_value(e);
                own.is_some() && !others.is_empty() && others.iter().all(|one| value(one) == own)
            }
        }
    }

    /// Whether nothing is known of the objects.
    pub(super) fn is_without_objects(&self) -> bool {
        self.request.others.is_some()
    }

    // --- expressions ---

    /// The form of the profile that has the value that GNU ld has: that which the rules give, or what GNU ld makes of
    /// its parts; else the number. Without a value of GNU ld's the first.
    pub(super) fn settle(&mut self, e: &Expr, at: At, needed: Option<u64>) -> Settled {
        let mut reasons = Reasons::default();
        let own = translate(e, &View { walk: self, at }, &mut reasons);
        let needed = match needed {
            None => return Settled { e: own, reasons },
            Some(needed) => needed,
        };
        let is_right = |walk: &Walk<'a>, e: &Expr| walk.value_of(e, at) == Some(needed) && is_short(&walk.expr_text(e));
        if !reasons.changed.is_empty() {
            return Settled { e: own, reasons };
        }
        if let Some(counted) = self.assigned(e, at).filter(|_| self.is_without_objects()) {
            if is_right(self, &counted) {
                if counted != own {
                    reasons.say(self.counted_why(&counted));
                }
                reasons.missing.clear();
                return Settled { e: counted, reasons };
            }
        }
        if reasons.missing.is_empty() && is_right(self, &own) {
            return Settled { e: own, reasons };
        }
        if let Some(counted) = self.assigned(e, at).filter(|counted| is_right(self, counted)) {
            reasons.say(self.counted_why(&counted));
            reasons.missing.clear();
            return Settled { e: counted, reasons };
        }
        if reasons.missing.iter().any(|name| self.is_left_out(name) || self.has_no_address(name)) {
            return Settled { e: own, reasons };
        }
        if !self.is_known(e) {
            reasons.depends = true;
            return Settled { e: own, reasons };
        }
        let mut reasons = Reasons { assertions: reasons.assertions, ..Reasons::default() };
        reasons.say("as the value that GNU ld finds");
        reasons.is_numeric = true;
        Settled { e: number(needed), reasons }
    }

    /// Why an expression is written as GNU ld counts it.
    fn counted_why(&self, counted: &Expr) -> String {
        let evaluation = self.request.evaluation;
        let name = self.inside.as_ref().and_then(|inside| Some(&evaluation?.output(inside.id)?.name));
        let is_start = |e: &Expr| match (&e.kind, &self.inside) {
            (ExprKind::Query(Query::Addr, _), _) => true,
            (_, Some(inside)) => *e == inside.start,
            (_, None) => false,
        };
        match name {
            _ if !is_any(counted, &mut |e| is_start(e)) => "as GNU ld evaluates it".into(),
            Some(name) => format!("a number counts from the start of {name} in it"),
            None => "it works on the distance from the section's start".into(),
        }
    }

    /// The value that the profile gives an expression at a place.
    pub(super) fn value_of(&self, e: &Expr, at: At) -> Option<u64> {
        value(e, &Facts { walk: self, at })
    }

    /// Notes what was found with an expression that is written.
    pub(super) fn note_reasons(&mut self, reasons: &Reasons) {
        for (name, value) in &reasons.foreign {
            self.foreign.insert(name.clone(), *value);
        }
        self.result.has_moving_values |= reasons.is_numeric;
    }

    /// Writes an expression in place of that of the text, if it is another one.
    pub(super) fn write_over(&mut self, old: &Expr, settled: &mut Settled) {
        if says(self.slice(old.span), &settled.e, self.text) {
            return;
        }
        let new = self.expr_text(&settled.e);
        if settled.reasons.said.is_empty() {
            settled.reasons.say(format!("as {new}"));
        }
        self.rewrites.replace(self.text, old.span, new);
    }

    /// The text of an expression; one with too many signs is its value.
    pub(super) fn expr_text(&self, e: &Expr) -> String {
        write(e, self.text)
    }

    /// Says why a statement was changed.
    pub(super) fn report(&mut self, span: Span, settled: &Settled) {
        self.note_reasons(&settled.reasons);
        let what = self.quoted(span);
        for name in &settled.reasons.missing {
            let why = self.why_missing(name);
            self.note(NoteKind::Left, span.start, format!("{what}; {why}"));
        }
        if settled.reasons.depends && settled.reasons.missing.is_empty() {
            let why = "its value depends on the objects: give them by --objects, or write a number";
            self.note(NoteKind::Left, span.start, format!("{what}; {why}"));
        }
        for why in &settled.reasons.changed {
            self.note(NoteKind::Changed, span.start, format!("{what}; {why}"));
        }
        if !settled.reasons.said.is_empty() && !settled.reasons.is_left() {
            let why = settled.reasons.said.join("; ");
            self.note(NoteKind::Rewritten, span.start, format!("{what} {why}"));
        }
    }

    /// Whether a symbol is in a section of an object that is not in the image.
    pub(super) fn is_left_out(&self, name: &Name) -> bool {
        let evaluation = match self.request.evaluation {
            Some(evaluation) => evaluation,
            None => return false,
        };
        match evaluation.symbol(name).map(|symbol| symbol.definer) {
            Some(Definer::Object(Some(section))) => {
                evaluation.section(section).map_or(false, |section| section.output().is_none())
            }
            _ => false,
        }
    }

    /// Whether a symbol is in a section of an object, whose address a script that is kept should not have as a number.
    pub(super) fn has_no_address(&self, name: &Name) -> bool {
        let symbol = self.request.evaluation.and_then(|evaluation| evaluation.symbol(name));
        !self.request.is_followed && matches!(symbol.map(|symbol| symbol.definer), Some(Definer::Object(Some(_))))
    }

    /// What to write for an object's symbol, before the statement that takes its section.
    fn advice(&self, name: &Name) -> Option<String> {
        let evaluation = self.request.evaluation.filter(|_| !self.is_without_objects())?;
        let symbol = evaluation.symbol(name)?;
        let id = match symbol.definer {
            Definer::Object(Some(id)) => id,
            _ => return None,
        };
        let section = evaluation.section(id)?;
        let span = evaluation.statements.iter().find(|statement| statement.takes(id))?.span?;
        let more = match symbol.value?.address.wrapping_sub(evaluation.section_address(section)?) {
            0 => String::new(),
            more => format!(" + {more:#x}"),
        };
        let object = self.request.objects.get(section.object.0 as usize)?;
        Some(format!(
            "{name} is an object's symbol and has no address while the layout goes on: before line {} write \
             `. = ALIGN({}); here = .{more}; {object}({})`, use `here` for {name}, and add `ASSERT(here == {name}, \
             \"..\")`",
            self.request.source.place(span.start).line,
            section.own_align,
            evaluation.section_name(section),
        ))
    }

    fn why_missing(&self, name: &BString) -> String {
        if self.is_left_out(name) {
            return format!(
                "the section of {name} is not in the image, so that its value cannot be written: take it in, under \
                 KEEP where --gc-sections leaves it out"
            );
        }
        if let Some(advice) = self.advice(name) {
            return advice;
        }
        if self.is_without_objects() && (name.contains(&b'(') || self.versions.assigns(name)) {
            return format!("{name} is not known here without the objects: give them by --objects, or write a number");
        }
        match (self.request.defines)(name.as_bstr()) {
            true => format!(
                "an object's symbol has no address while the layout goes on: write `here = .;` before the statement \
                 that takes its section, use `here` for {name}, and add `ASSERT(here == {name}, \"..\")`"
            ),
            false => format!("{name} has no value here"),
        }
    }
}

impl Walk<'_> {
    /// The name that an output section which comes later will have.
    pub(super) fn later_section(&self, name: &Name) -> Option<Name> {
        super::items::sections(self.script).find(|(section, _)| section.name.node == *name).map(|_| name.clone())
    }
}

/// A text without white space and comments.
pub(super) fn squeezed(text: &[u8]) -> Vec<u8> {
    let mut rest = text;
    let mut result = Vec::with_capacity(text.len());
    while let Some((byte, after)) = rest.split_first() {
        let (length, is_comment) = comment_or_text(rest);
        if length > 0 {
            result.extend_from_slice(rest.get(..length).filter(|_| !is_comment).unwrap_or_default());
            rest = rest.get(length..).unwrap_or_default();
            continue;
        }
        if !byte.is_ascii_whitespace() {
            result.push(*byte);
        }
        rest = after;
    }
    result
}
