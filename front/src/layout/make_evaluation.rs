//! Makes the `Evaluation` from what the passes have found.

use super::evaluation::{
    Base, Definer, Entry, Evaluation, Fate, Gap, OutputSection, Region, Statement, StatementKind, Symbol, Value,
};
use super::expr::compiled::value_of;
use super::flags::Flags;
use super::ids::{OutputId, StatementId, SymbolId};
use super::interned_names::FastMap;
use super::link::Link;
use super::passes::values::width_of;
use super::program::{Output, OutputKind, Step, StepKind};
use super::section_headers::HeaderLinks;
use super::symbols::SymbolState;
use crate::script::tree::{Name, Provision};
use std::collections::HashSet;

/// GNU ld's entry if nothing says it (elf.em, `ENTRY`: the scripts of x86-64 say `_start`).
const DEFAULT_ENTRY: &[u8] = b"start";

impl Link<'_> {
    /// The evaluation, after the last pass.
    pub fn result(mut self) -> Evaluation {
        let entry = self.entry();
        let (recorded, hidden) = self.recorded();
        let named = self.program.symbols.named().map(|(read, name)| (read, name.clone())).collect();
        let mut found = Evaluation {
            statements: self.program.steps.iter().map(|step| self.statement(step)).collect(),
            outputs: self.outputs(),
            symbols: self.program.symbols.iter().map(|symbol| self.symbol_result(symbol)).collect(),
            named,
            regions: self.program.regions.iter().map(region_result).collect(),
            order: self.program.order.clone(),
            listed: self.program.made.clone(),
            top: self.program.top.clone(),
            entry,
            header_count: self.headers.count.unwrap_or_else(|| self.found_headers()),
            wants_headers: self.headers.is_wanted,
            paging: self.paging(),
            memory: self.in_memory().collect(),
            relro: self.headers.relro.filter(|_| self.headers.has_relro),
            orphans: std::mem::take(&mut self.orphans),
            merges: std::mem::take(&mut self.merges),
            merges_beside: std::mem::take(&mut self.merges_beside),
            shortened: std::mem::take(&mut self.shortened),
            frames_left: self.frames_left,
            eh_frame_hdr: self.eh_frame_hdr_made.take(),
            ..Evaluation::default()
        };
        for expression in self.program.expressions.iter() {
            if let (Some(span), Some(last)) = (expression.span, expression.last) {
                found.values.insert(span, self.value(last));
            }
        }
        for (number, statement) in found.statements.iter().enumerate() {
            if let Some(span) = statement.span {
                found.by_span.insert(span, StatementId::new(number));
            }
        }
        for (number, symbol) in found.symbols.iter_mut().enumerate() {
            symbol.is_local = hidden.contains(&SymbolId::new(number));
            symbol.is_recorded = recorded.contains(&SymbolId::new(number));
            found.by_name.insert(symbol.name.clone(), SymbolId::new(number));
        }
        for (id, ..) in &self.bounds {
            found.symbols.get_mut(id.index()).into_iter().for_each(|symbol| symbol.is_bound = true);
        }
        found.sections = self.sections;
        found.count_sections();
        found.names = self.program.names;
        found
    }

    fn value(&self, value: (u64, Base)) -> Value {
        value_of(value, |base| self.base_address(base))
    }

    /// Where the program begins (ldlang.c, `lang_end`).
    fn entry(&self) -> Entry {
        let given = self.settings.entry.as_ref().or(self.program.entry.as_ref());
        let name = given.cloned().unwrap_or_else(|| DEFAULT_ENTRY.into());
        let symbol = self.program.symbols.find(&name).and_then(|id| self.symbol(id)).filter(|symbol| symbol.is_known);
        let by_name = symbol.filter(|symbol| symbol.is_defined()).and_then(|symbol| {
            match symbol.section.and_then(|section| self.section(section)).map(|section| section.fate) {
                Some(Fate::Open) => None,
                Some(Fate::Discarded) => Some(symbol.value),
                Some(Fate::Output(_)) | None => self.symbol_value(symbol).map(|value| value.address),
            }
        });
        let text = || first_made(self, b".text").and_then(|output| self.place(output)).map(|place| place.address);
        let address = by_name.or_else(|| number_of(&name)).or_else(text);
        Entry { name, address, is_by_name: by_name.is_some() }
    }

    /// The value of a symbol at the end. One that counts from nowhere, as an assignment in a section that ONLY_IF_RO or
    /// ONLY_IF_RW leaves out, is undefined in GNU ld's table of symbols, and relocations have its value all the same.
    pub(super) fn symbol_value(&self, symbol: &SymbolState) -> Option<Value> {
        if !symbol.is_known || !symbol.is_defined() {
            return None;
        }
        match symbol.section.and_then(|section| self.section(section)) {
            None => Some(self.value((symbol.value, symbol.base))),
            Some(section) => {
                let base = Base::Output(section.output()?);
                Some(self.value((section.offset.wrapping_add(symbol.value), base)))
            }
        }
    }

    fn symbol_result(&self, symbol: &SymbolState) -> Symbol {
        let definer = match (symbol.statement, symbol.is_known && symbol.is_defined()) {
            (Some(statement), true) if symbol.of_script => Definer::Script(statement),
            (_, true) if symbol.by_linker => Definer::Linker,
            (_, true) if symbol.is_in_objects => Definer::Object(symbol.section),
            _ => Definer::None,
        };
        Symbol {
            name: symbol.name.clone(),
            definer,
            value: self.symbol_value(symbol),
            is_overridden: symbol.by_object && matches!(definer, Definer::Script(_)),
            is_weak: symbol.kind == super::symbols::SymbolKind::DefinedWeak,
            is_in_objects: symbol.is_in_objects,
            is_hidden: symbol.is_hidden,
            section: self.section_of(symbol),
            is_local: false,
            is_recorded: false,
            is_asked_for: symbol.is_asked_for,
            is_bound: false,
            first_value: symbol.first_value,
            likes: if symbol.of_script { symbol.likes.clone() } else { Vec::new() },
        }
    }

    /// The output section that a symbol is in at the end (ldexp.c, `set_sym_sections`; linker.c, `fix_syms`).
    fn section_of(&self, symbol: &SymbolState) -> Option<OutputId> {
        let own = match (symbol.section.and_then(|section| self.section(section)), symbol.base) {
            (Some(section), _) => section.output()?,
            (None, Base::Output(output)) => output,
            (None, _) => return symbol.final_section.filter(|_| symbol.is_defined() && symbol.of_script),
        };
        match self.place(own) {
            Some(place) if place.is_gone => {
                self.nearby(own, self.symbol_value(symbol).map_or(0, |value| value.address))
            }
            _ => Some(own),
        }
    }

    /// The symbols that the script assigns, wherever it gives them a value, but for output sections that do not count;
    /// and those that it hides there or by what it assigns (ldelf.c, `ldelf_find_exp_assignment`; ldlang.c,
    /// `lang_for_each_statement_worker`).
    fn recorded(&self) -> (HashSet<SymbolId>, HashSet<SymbolId>) {
        let (mut recorded, mut hidden) = (HashSet::new(), HashSet::new());
        for step in &self.program.steps {
            let (target, provision) = match step.kind {
                StepKind::Assign { target: Some(target), provision, .. } => (target, provision),
                _ => continue,
            };
            let is_recorded = step.output.and_then(|output| self.output(output)).map_or(true, Output::counts);
            let hides = matches!(provision, Provision::Hidden | Provision::ProvideHidden);
            recorded.extend(is_recorded.then_some(target));
            hidden.extend((hides && (is_recorded || step.assigned.is_some())).then_some(target));
        }
        (recorded, hidden)
    }

    fn statement(&self, step: &Step) -> Statement {
        let kind = match &step.kind {
            StepKind::Output(output) => StatementKind::Output(*output),
            StepKind::Assign { target: Some(symbol), .. } => {
                StatementKind::Assign { symbol: *symbol, value: step.assigned.map(|value| self.value(value)) }
            }
            StepKind::Assign { target: None, value, .. } => {
                let after = self.program.expressions.iter().nth(value.index()).and_then(|expression| expression.last);
                StatementKind::Dot {
                    after: match (step.output, after) {
                        (Some(_), _) => step.dot.wrapping_add(step.gap),
                        (None, Some(after)) => self.value(after).address,
                        (None, None) => step.dot,
                    },
                    gap: self.gap_of(step),
                }
            }
            StepKind::Assert { .. } => StatementKind::Assert,
            StepKind::Data { width, .. } => {
                StatementKind::Data { offset: step.start, size: width_of(*width) as u8, value: step.value }
            }
            StepKind::Input(taking) => self.program.takings.get(*taking).map_or(StatementKind::Other, |taking| {
                StatementKind::Input { sections: taking.sections.clone(), gaps: taking.gaps.clone() }
            }),
            StepKind::Fill => StatementKind::Fill,
            StepKind::CreateObjectSymbols | StepKind::Insert(..) | StepKind::Other => StatementKind::Other,
        };
        Statement { span: step.span, output: step.output, dot: step.dot, kind }
    }

    /// The gap of an assignment to `.`. If an orphan follows that is aligned, GNU ld's statement of the gap is used
    /// for that alignment once more, and nothing fills what it was for (ldlang.c, `insert_pad`).
    fn gap_of(&self, step: &Step) -> Option<Gap> {
        let end = step.gap_offset.wrapping_add(step.gap);
        let is_before_orphans = || {
            let body = &self.output(step.output?)?.body;
            let (last, front) = body.split_last()?;
            let (before, orphans) = (self.step(*front.last()?)?, self.step(*last)?);
            let taking = match orphans.kind {
                StepKind::Input(taking) => self.program.takings.get(taking)?,
                _ => return None,
            };
            let is_this = before.span == step.span && before.gap_offset == step.gap_offset;
            Some(is_this && taking.is_of_orphans && taking.gaps.first()?.offset == end)
        };
        (step.gap != 0).then(|| Gap {
            offset: step.gap_offset,
            size: step.gap,
            fill: match is_before_orphans() {
                Some(true) => Some(vec![0]),
                _ => step.fill.as_ref().map(|fill| fill.to_vec()),
            },
        })
    }

    fn outputs(&self) -> Vec<OutputSection> {
        let (mut segments, links) = (self.segments(), self.header_links());
        let with_segments = |(number, output): (usize, &Output)| {
            let id = OutputId::new(number);
            let own = segments.remove(&id).unwrap_or_default();
            let gone = output.place.as_ref().filter(|place| place.is_gone);
            let nearby = gone.and_then(|place| self.nearby(id, place.address));
            OutputSection { nearby, ..self.output_result((id, output), own, &links) }
        };
        self.program.outputs.iter().enumerate().map(with_segments).collect()
    }

    /// The segments of the output sections: those that a section names, else those of the last one before it that names
    /// some, else of the first one (ldlang.c, `lang_record_phdrs`).
    fn segments(&self) -> FastMap<OutputId, Vec<Name>> {
        let of = |id: &OutputId| self.output(*id).filter(|output| output.counts()).map(|output| &output.segments);
        let mut last = self.program.order.iter().filter_map(of).find(|segments| !segments.is_empty());
        let mut found = FastMap::default();
        for id in &self.program.order {
            let output = match self.output(*id) {
                Some(output) if output.counts() => output,
                _ => continue,
            };
            if !output.segments.is_empty() {
                last = Some(&output.segments);
            } else if output.kind == OutputKind::NoLoad
                || !output.place.as_ref().map_or(false, |place| place.flags.has(Flags::ALLOC))
            {
                continue;
            }
            found.insert(*id, last.cloned().unwrap_or_default());
        }
        found
    }

    fn output_result(
        &self,
        (id, output): (OutputId, &Output),
        segments: Vec<Name>,
        links: &HeaderLinks,
    ) -> OutputSection {
        let is_in_segment = self.program.phdrs.is_none() || segments.iter().any(|segment| segment != "NONE");
        OutputSection {
            name: self.program.names.get(output.name).into(),
            span: self.step(output.statement).and_then(|step| step.span),
            is_orphan: output.is_orphan,
            body: output.body.clone(),
            place: self.placed(id, is_in_segment, links),
            region: output.region,
            load_region: output.load_region,
            segments,
            has_own_address: output.address.is_some(),
            nearby: None,
        }
    }
}

fn region_result(region: &super::program::Region) -> Region {
    Region {
        name: region.name.clone(),
        origin: region.origin,
        length: region.length,
        current: region.current,
        span: region.span,
    }
}

/// The number that a name is, as `bfd_scan_vma` reads it.
fn number_of(name: &Name) -> Option<u64> {
    let text = std::str::from_utf8(name).ok()?;
    if !text.starts_with(|first: char| first.is_ascii_digit()) {
        return None;
    }
    let hex = text.strip_prefix("0x").or_else(|| text.strip_prefix("0X"));
    match (hex, text.strip_prefix('0')) {
        (Some(digits), _) => u64::from_str_radix(digits, 16).ok(),
        (None, Some(digits)) if !digits.is_empty() => u64::from_str_radix(digits, 8).ok(),
        _ => text.parse().ok(),
    }
}

/// The first output section of a name that was made, which is not that of the first statement if one before it names
/// that (section.c, `bfd_get_section_by_name`).
pub(crate) fn first_made(link: &Link<'_>, name: &[u8]) -> Option<OutputId> {
    let outputs = link.program.outputs_of.get(&link.program.names.find(name)?)?;
    let made = outputs.iter().filter_map(|output| Some((link.place(*output)?.number, *output)));
    made.min().map(|(_, output)| output)
}
