//! The passes in their order (ldlang.c, `lang_process`).

use super::compile::files_of;
use super::evaluation::{Evaluation, Fate};
use super::expr::compiled::Node;
use super::expr::fold::Phase;
use super::flags::Flags;
use super::ids::{OutputId, RegionId};
use super::link::Link;
use super::make_evaluation::first_made;
use super::merging::AllMerges;
use super::orphans::Orphans;
use super::program::{Output, OutputKind, Program, StepKind};
use super::rows::Rows;
use super::settings::Settings;
use super::stabs::LinkedStabs;
use super::stop::{not_evaluated, refused, NotEvaluatedReason, RefusedReason, Stop};
use super::symbols::SymbolKind;
use crate::objects::Object;
use crate::script::tree::Name;

/// Goes through all passes.
pub(crate) fn run(
    program: Program,
    rows: &Rows,
    objects: &[Object],
    settings: &Settings,
    merged: &AllMerges,
) -> Result<Evaluation, Stop> {
    check_files(&program, objects)?;
    let mut link = Link::new(program, rows.sections.clone(), settings);
    link.find_headers(objects);
    link.read_all(objects, rows)?;
    link.place_commons(objects, rows);
    link.pass += 1;
    link.keep(rows);
    link.collect(objects, rows);
    let stabs = link.map_all(objects, rows)?;
    link.insert_statements()?;
    Orphans::run(&mut link)?;
    link.merge(objects, merged);
    link.set_text();
    link.propagate_loads();
    link.undo_bounds();
    link.check_eh_frame_hdr();
    link.strip()?;
    link.check_segments()?;
    link.find_relro(rows);
    link.size(true)?;
    let is_other = link.discard_stabs(objects, stabs) | link.discard_frames(objects);
    link.settle_headers(true, is_other)?;
    link.end_bounds();
    link.values(Phase::Final)?;
    link.check_addresses()?;
    link.count_stabs();
    link.write_frames(objects);
    Ok(link.result())
}

/// A file that a pattern names is opened by GNU ld: it has to be an object of the link.
fn check_files(program: &Program, objects: &[Object]) -> Result<(), Stop> {
    let is_object =
        |name: &Name| objects.iter().any(|object| object.origin().archive.is_none() && object.origin().name == *name);
    match files_of(program).into_iter().find(|(name, _)| !is_object(name)) {
        Some((name, span)) => not_evaluated(NotEvaluatedReason::OpensFile(name), Some(span)),
        None => Ok(()),
    }
}

impl Link<'_> {
    /// What the program headers are to say of the stack and of the table of frames.
    fn find_headers(&mut self, objects: &[Object]) {
        let stack = self.program.names.find(b".note.GNU-stack");
        let has_note = |stack| self.sections.iter().any(|section| section.name == stack);
        self.headers.has_stack = self.settings.has_stack || stack.map_or(false, has_note);
        self.find_eh_frame_hdr(objects);
    }

    /// The names and first values of the script, and the objects.
    fn read_all(&mut self, objects: &[Object], rows: &Rows) -> Result<(), Stop> {
        self.want_names();
        self.set_regions(false)?;
        if self.settings.script_first {
            self.first_values(objects, rows)?;
        }
        self.read_objects(objects, rows);
        if !self.settings.script_first {
            self.first_values(objects, rows)?;
        }
        self.set_regions(true)?;
        self.start_bounds();
        self.values(Phase::Mark)?;
        self.program.symbols.keep_first_values();
        self.phase = Phase::First;
        Ok(())
    }

    /// Each input section goes to the output section that takes it.
    fn map_all(&mut self, objects: &[Object], rows: &Rows) -> Result<LinkedStabs, Stop> {
        self.strip_debugging();
        let stabs = self.link_stabs(objects);
        self.map(rows, objects)?;
        self.find_linked(objects, rows);
        Ok(stabs)
    }

    /// The names that are wanted from the start are undefined (ldlang.c, `lang_place_undefineds`).
    pub fn want_names(&mut self) {
        let entry = self.settings.entry.as_ref().or(self.program.entry.as_ref());
        let is_name = |name: &&Name| !name.first().map_or(true, u8::is_ascii_digit);
        let names: Vec<Name> = entry
            .filter(is_name)
            .into_iter()
            .chain(&self.settings.undefined)
            .chain(&self.program.externs)
            .cloned()
            .collect();
        self.program.symbols.enter(b"start");
        for name in names {
            let id = self.program.symbols.enter(&name);
            if let Some(symbol) = self.program.symbols.know(id) {
                symbol.kind = SymbolKind::Undefined;
                symbol.is_asked_for = true;
            }
        }
    }

    /// Debug information is left out by `-S` (ldlang.c, `lang_discard_section_p`).
    fn strip_debugging(&mut self) {
        let strips = self.settings.strips_debugging;
        for section in self.sections.iter_mut().filter(|section| strips && section.flags.has(Flags::DEBUGGING)) {
            section.flags |= Flags::EXCLUDE;
        }
    }

    /// The origins and lengths of the memory regions (ldlang.c, `lang_do_memory_regions`).
    fn set_regions(&mut self, is_last: bool) -> Result<(), Stop> {
        for number in 0..self.program.regions.len() {
            let id = RegionId::new(number);
            let bounds = match self.region(id).and_then(|region| region.bounds) {
                None => continue,
                Some((origin, length)) => [(origin, "origin"), (length, "length")],
            };
            for (e, what) in bounds {
                let found = self.fold_absolute(e, 0)?;
                if !is_last {
                    continue;
                }
                let region = match self.region_mut(id) {
                    None => continue,
                    Some(region) => region,
                };
                if !found.is_valid {
                    let reason = RefusedReason::RegionUnknown { what, region: region.name.clone() };
                    return refused(reason, self.program.expressions.span(e));
                }
                match what {
                    "origin" => {
                        region.origin = found.value;
                        region.current = found.value;
                    }
                    _ => region.length = found.value,
                }
            }
        }
        Ok(())
    }

    /// The addresses that `--section-start` and `-Ttext` give (ldlang.c, `lang_address_statement_enum`): not those of a
    /// segment that the script asks for by SEGMENT_START.
    pub(super) fn set_addresses(&mut self) -> Result<(), Stop> {
        let mut starts: Vec<(Name, u64)> = Vec::new();
        for (segment, address) in &self.settings.segment_starts {
            let is_used = self
                .program
                .expressions
                .iter()
                .any(|expression| matches!(&expression.node, Node::SegmentStart(name, _) if name == segment));
            if !is_used {
                let mut name = Name::from(".");
                name.extend_from_slice(segment);
                starts.push((name, *address));
            }
        }
        starts.extend(self.settings.section_starts.iter().cloned());
        for (name, address) in starts {
            let id = match self.program.find_name(&name) {
                Some(id) => id,
                None => {
                    let id = self.program.output(&name, None);
                    if let Some(output) = self.output_mut(id) {
                        output.moves_region = false;
                        let statement = output.statement;
                        self.program.top.push(statement);
                        self.program.order.push(id);
                    }
                    id
                }
            };
            let e = self.program.expressions.number(address);
            if let Some(output) = self.output_mut(id) {
                output.address = Some(e);
            }
            self.make(id, Flags::NONE)?;
        }
        Ok(())
    }

    /// `.text` is read-only whatever is in it, and with `-N` it is not (ldlang.c, `lang_process`).
    fn set_text(&mut self) {
        let is_read_only = self.settings.text_read_only;
        let text = first_made(self, b".text");
        if let Some(place) = text.and_then(|text| self.place_mut(text)) {
            place.flags =
                if is_read_only { place.flags | Flags::READONLY } else { place.flags.without(Flags::READONLY) };
        }
    }

    /// `AT>r` goes on for the sections after it in the same region (ldlang.c, `lang_propagate_lma_regions`).
    fn propagate_loads(&mut self) {
        let mut before: Option<OutputId> = None;
        for id in self.program.order.clone() {
            let last = before.and_then(|before| self.output(before)).map(|last| (last.region, last.load_region));
            if let (Some((region, load_region)), Some(output)) = (last, self.output_mut(id)) {
                if output.load_region.is_none()
                    && output.load.is_none()
                    && output.address.is_none()
                    && output.region == region
                {
                    output.load_region = load_region;
                }
            }
            before = Some(id);
        }
    }

    /// PHDRS without a section that names one of its segments is refused (ldlang.c, `lang_record_phdrs`).
    fn check_segments(&self) -> Result<(), Stop> {
        if self.program.phdrs.map_or(true, |count| count == 0) {
            return Ok(());
        }
        let mut outputs = self.program.order.iter().filter_map(|id| self.output(*id)).filter(|output| output.counts());
        let is_named = outputs.clone().any(|output| !output.segments.is_empty());
        let is_loaded = |output: &Output| {
            let is_allocated = output.place.as_ref().map_or(false, |place| place.flags.has(Flags::ALLOC));
            is_allocated && output.kind != OutputKind::NoLoad
        };
        if !is_named && outputs.any(is_loaded) {
            return refused(RefusedReason::NoSegments, None);
        }
        Ok(())
    }

    /// Whether there is anything in the part of the data segment that is read-only after relocation (ldlang.c,
    /// `lang_find_relro_sections`).
    fn find_relro(&mut self, rows: &Rows) {
        let found = match self.segment.start_at {
            None => false,
            Some(start) => {
                let after = self.program.top.iter().skip_while(|id| **id != start);
                let until = after.take_while(|id| Some(**id) != self.segment.end_at);
                let mut outputs = until.filter_map(|id| match self.step(*id)?.kind {
                    StepKind::Output(output) => Some(output),
                    _ => None,
                });
                outputs.any(|output| self.has_room(output, rows))
            }
        };
        self.relro &= found;
        self.headers.has_relro = self.relro;
    }

    /// Whether a statement of an output section matches something that is in the image, wherever that is.
    fn has_room(&self, output: OutputId, rows: &Rows) -> bool {
        let matches = self.output(output).into_iter().flat_map(|output| &output.body).filter_map(|id| {
            match self.step(*id)?.kind {
                StepKind::Input(taking) => rows.matches.get(taking),
                _ => None,
            }
        });
        matches.flatten().any(|one| {
            self.section(one.section).map_or(false, |section| {
                let is_made = match section.fate {
                    Fate::Output(output) => self.place(output).map_or(false, |place| !place.is_gone),
                    Fate::Open | Fate::Discarded => false,
                };
                is_made && section.flags.has(Flags::ALLOC) && section.size > 0
            })
        })
    }
}
pub(super) mod insert;
pub(super) mod link_order;
pub(super) mod mapping;
pub(super) mod overlaps;
pub(super) mod sizing;
pub(super) mod values;
