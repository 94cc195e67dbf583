//! Maps the input sections to output sections, in the order of the script (ldlang.c, `map_input_to_output_sections`).

use crate::layout::evaluation::{Fate, InputSection};
use crate::layout::expr::compiled::Node;
use crate::layout::flags::Flags;
use crate::layout::glob;
use crate::layout::ids::{ExprId, OutputId, SectionId, StatementId};
use crate::layout::link::Link;
use crate::layout::matching::Match;
use crate::layout::program::{Constraint, Output, OutputKind, Place, StepKind};
use crate::layout::rows::Rows;
use crate::layout::sorting::{FileNames, Sorting};
use crate::layout::special_sections;
use crate::layout::stop::{not_evaluated, refused, NotEvaluatedReason, RefusedReason, Stop};
use crate::objects::Object;
use crate::script::tree::{Name, Query, Span};
use bstr::ByteSlice;
use object::elf;

/// The flags of INPUT_SECTION_FLAGS (elf.c, `bfd_elf_lookup_section_flags`).
const SECTION_FLAGS: [(&[u8], u32); 11] = [
    (b"SHF_WRITE", elf::SHF_WRITE),
    (b"SHF_ALLOC", elf::SHF_ALLOC),
    (b"SHF_EXECINSTR", elf::SHF_EXECINSTR),
    (b"SHF_MERGE", elf::SHF_MERGE),
    (b"SHF_STRINGS", elf::SHF_STRINGS),
    (b"SHF_INFO_LINK", elf::SHF_INFO_LINK),
    (b"SHF_LINK_ORDER", elf::SHF_LINK_ORDER),
    (b"SHF_OS_NONCONFORMING", elf::SHF_OS_NONCONFORMING),
    (b"SHF_GROUP", elf::SHF_GROUP),
    (b"SHF_TLS", elf::SHF_TLS),
    (b"SHF_EXCLUDE", elf::SHF_EXCLUDE),
];

/// By output section: input sections that GNU ld copies into it in reverse.
const REVERSED: [(&[u8], &[u8]); 2] = [(b".init_array", b".ctors"), (b".fini_array", b".dtors")];

impl Link<'_> {
    /// Gives the sections to the statements, and makes the output sections that have something.
    pub fn map(&mut self, rows: &Rows, objects: &[Object]) -> Result<(), Stop> {
        let files: Vec<FileNames<'_>> = objects
            .iter()
            .map(|object| match (&object.origin().archive, object.origin().name.as_slice()) {
                (Some(archive), name) => (archive.as_slice(), name),
                (None, name) => (name, &b""[..]),
            })
            .collect();
        let starts_at = self.program.before.get(self.settings.starts_after).copied();
        for (at, id) in self.program.top.clone().into_iter().enumerate() {
            if starts_at == Some(at) {
                self.set_addresses()?;
            }
            match self.step(id).map(|step| step.kind.clone()) {
                Some(StepKind::Output(output)) => self.map_output(output, rows, &files)?,
                Some(StepKind::Assign { value, .. }) => self.make_named(value)?,
                Some(StepKind::Assert { condition, .. }) => self.make_named(condition)?,
                _ => {}
            }
        }
        if starts_at.map_or(true, |at| at >= self.program.top.len()) {
            self.set_addresses()?;
        }
        Ok(())
    }

    /// Keeps the sections that statements under KEEP match.
    pub fn keep(&mut self, rows: &Rows) {
        for (taking, matches) in self.program.takings.iter().zip(&rows.matches) {
            if taking.node.is_kept {
                for one in matches {
                    if let Some(section) = self.sections.get_mut(one.section.index()) {
                        section.flags |= Flags::KEEP;
                    }
                }
            }
        }
    }

    fn map_output(&mut self, id: OutputId, rows: &Rows, files: &[FileNames<'_>]) -> Result<(), Stop> {
        let body = self.body(id);
        let constraint = self.output(id).map(|output| output.constraint);
        if let Some(Constraint::ReadOnly | Constraint::ReadWrite) = constraint {
            if self.is_writable(&body, rows) == (constraint == Some(Constraint::ReadOnly)) {
                if let Some(output) = self.output_mut(id) {
                    output.constraint = Constraint::Unmet;
                }
                return Ok(());
            }
        }
        for inner in body {
            match self.step(inner).map(|step| step.kind.clone()) {
                Some(StepKind::Input(taking)) => self.map_input(id, inner, taking, rows, files)?,
                Some(StepKind::Data { value, .. }) => {
                    self.make_named(value)?;
                    self.make_for_data(id)?;
                }
                Some(StepKind::Assign { value: e, .. } | StepKind::Assert { condition: e, .. }) => {
                    self.make(id, Flags::NONE)?;
                    self.make_named(e)?;
                }
                Some(StepKind::Fill | StepKind::CreateObjectSymbols) => self.make(id, Flags::NONE)?,
                _ => {}
            }
        }
        Ok(())
    }

    /// Whether a statement of an output section matches a writable section that no other has taken (ldlang.c,
    /// `check_section_callback`).
    fn is_writable(&self, body: &[StatementId], rows: &Rows) -> bool {
        let of = |id: &StatementId| match self.step(*id)?.kind {
            StepKind::Input(taking) => rows.matches.get(taking),
            _ => None,
        };
        body.iter().filter_map(of).flatten().any(|one| {
            self.section(one.section)
                .map_or(false, |section| section.fate == Fate::Open && !section.flags.has(Flags::READONLY))
                && !self.is_unique(one.section)
        })
    }

    fn map_input(
        &mut self,
        id: OutputId,
        inner: StatementId,
        taking: usize,
        rows: &Rows,
        files: &[FileNames<'_>],
    ) -> Result<(), Stop> {
        let span = self.step(inner).and_then(|step| step.span);
        let (found, flags) = match (self.program.takings.get(taking), rows.matches.get(taking)) {
            (Some(taking), Some(found)) => {
                let (sections, names) = (&self.sections[..], &self.program.names);
                let sorting = Sorting { sections, names, files, by_option: self.settings.sort_section };
                let is_sorted = sorting.is_sorted(&taking.node);
                let found = if is_sorted { Some(sorting.sorted(&taking.node, found, span)?) } else { None };
                (found, section_flags(&taking.node.section_flags, span)?)
            }
            _ => return Ok(()),
        };
        let found: &[Match] =
            found.as_deref().or_else(|| rows.matches.get(taking).map(Vec::as_slice)).unwrap_or_default();
        let mut taken = Vec::with_capacity(found.len());
        let (mut last, is_reversed) = (None, self.is_reversed(id));
        for one in found {
            if self.is_unique(one.section) {
                continue;
            }
            let like = self.section(one.section).map(Alike::of);
            let is_in = if like.is_some() && like == last && !is_reversed {
                self.add_alike(id, one.section)
            } else {
                self.add_to(id, one.section, flags)?
            };
            if is_in {
                taken.push(one.section);
                last = like;
            }
        }
        let mut takes_common = false;
        if let Some(taking) = self.program.takings.get_mut(taking) {
            taking.sections = taken;
            takes_common = taking.node.sections.iter().flatten().any(|pattern| pattern.node.glob == "COMMON");
        }
        if takes_common && self.program.common.is_none() {
            self.program.common = Some(id);
        }
        Ok(())
    }

    /// Whether statements take no section of its name, by `--unique=PATTERN` (ldlang.c, `unique_section_p`).
    fn is_unique(&self, id: SectionId) -> bool {
        let patterns = self.settings.unique.as_deref().unwrap_or_default();
        if patterns.is_empty() {
            return false;
        }
        let name = self.section(id).map(|section| self.program.names.get(section.name));
        name.map_or(false, |name| patterns.iter().any(|pattern| glob::matches(pattern, name)))
    }

    /// Makes an input section one of an output section, whose flags and alignment follow, or leaves it out; gives
    /// whether it is one now (ldlang.c, `lang_add_section`).
    pub fn add_to(&mut self, id: OutputId, section: SectionId, (wanted, unwanted): (u64, u64)) -> Result<bool, Stop> {
        let (output, input) = match (self.output(id), self.section(section)) {
            (Some(output), Some(input)) => (output, input),
            _ => return Ok(false),
        };
        if input.flags.has(Flags::EXCLUDE) || output.is_discard {
            if let (Fate::Open, Some(input)) = (input.fate, self.section_mut(section)) {
                input.fate = Fate::Discarded;
            }
            return Ok(false);
        }
        if input.fate != Fate::Open || input.bits & wanted != wanted || input.bits & unwanted != 0 {
            return Ok(false);
        }
        let mut flags = input.flags.without(Flags::NEVER_LOAD);
        match output.kind {
            OutputKind::NotAllocated => flags = flags.without(Flags::ALLOC),
            OutputKind::NoLoad => {
                let none = if self.settings.flat { Flags::ALLOC } else { Flags::CONTENTS };
                flags = (flags | Flags::NEVER_LOAD).without(Flags::LOAD | none);
            }
            OutputKind::ReadOnly | OutputKind::Typed { is_read_only: true, .. } => flags |= Flags::READONLY,
            OutputKind::Normal | OutputKind::Overlay { .. } | OutputKind::Typed { .. } => {}
        }
        self.make(id, flags)?;
        self.check_reversed(id, section)?;
        let (place, input) = match (self.program.outputs.get_mut(id.index()), self.sections.get_mut(section.index())) {
            (Some(Output { place: Some(place), .. }), Some(input)) => (place, input),
            _ => return Ok(false),
        };
        join(place, (section, input), flags);
        place.align = place.align.max(input.align);
        place.inputs.push(section);
        input.fate = Fate::Output(id);
        Ok(true)
    }

    /// Whether GNU ld copies some sections into an output section in reverse.
    fn is_reversed(&self, id: OutputId) -> bool {
        let name = self.output(id).map(|output| self.program.names.get(output.name));
        REVERSED.iter().any(|(reversed, _)| name == Some(reversed.as_bstr()))
    }

    /// Adds a section that is like the one before, which was added: nothing but the alignment may change. Gives whether
    /// it was.
    fn add_alike(&mut self, id: OutputId, section: SectionId) -> bool {
        let (output, input) = match (self.program.outputs.get_mut(id.index()), self.sections.get_mut(section.index())) {
            (Some(output), Some(input)) => (output, input),
            _ => return false,
        };
        match &mut output.place {
            Some(place) if input.fate == Fate::Open => {
                place.align = place.align.max(input.align);
                place.inputs.push(section);
                input.fate = Fate::Output(id);
                true
            }
            _ => false,
        }
    }

    fn check_reversed(&self, id: OutputId, section: SectionId) -> Result<(), Stop> {
        let name = match (self.output(id), self.section(section)) {
            (Some(output), Some(input)) => (self.program.names.get(output.name), self.program.names.get(input.name)),
            _ => return Ok(()),
        };
        let is_reversed = REVERSED.iter().any(|(output, front)| {
            name.0 == output.as_bstr()
                && name.1.strip_prefix(*front).map_or(false, |rest| matches!(rest.first(), None | Some(b'.')))
        });
        if is_reversed {
            let (output, section) = (name.0.into(), name.1.into());
            return not_evaluated(NotEvaluatedReason::ReverseCopy { section, output }, self.output_span(id));
        }
        Ok(())
    }

    // --- output sections that are made ---

    /// Makes the section of an output section statement, if it is not there yet (ldlang.c, `init_os`).
    pub fn make(&mut self, id: OutputId, flags: Flags) -> Result<(), Stop> {
        let (is_discard, name, address, load, align) = match self.output(id) {
            Some(output) if output.place.is_none() => {
                (output.is_discard, output.name, output.address, output.load, output.align)
            }
            _ => return Ok(()),
        };
        if is_discard {
            return refused(RefusedReason::Discard, self.output_span(id));
        }
        let (kind, bits) = special_sections::by_name(self.program.names.get(name));
        let number = self.program.made.len();
        if let Some(output) = self.output_mut(id) {
            output.place = Some(Place {
                address: 0,
                load: 0,
                size: 0,
                last_size: 0,
                flags: flags.without(Flags::CREATED | Flags::EXCLUDE),
                align: 1,
                number,
                is_gone: false,
                first: None,
                inputs: Vec::new(),
                kind,
                bits,
                own_kind: 0,
                entry_size: 0,
            });
            self.program.made.push(id);
        }
        for e in [address, load].into_iter().flatten() {
            self.make_named(e)?;
        }
        if align.is_some() {
            let align = self.power(align)?.max(1);
            if let Some(place) = self.place_mut(id) {
                place.align = align;
            }
        }
        Ok(())
    }

    /// Makes the output sections whose addresses an expression names (ldlang.c, `exp_init_os`).
    pub fn make_named(&mut self, e: ExprId) -> Result<(), Stop> {
        let mut waiting = vec![e];
        while let Some(e) = waiting.pop() {
            match self.program.expressions.node(e) {
                Node::OfSection(Query::Addr | Query::Loadaddr, name) => {
                    if let Some(id) = self.program.find(*name) {
                        self.make(id, Flags::NONE)?;
                    }
                }
                Node::Unary(_, inner) | Node::SegmentStart(_, inner) | Node::Assert(inner, _) => waiting.push(*inner),
                Node::Binary(_, left, right) => waiting.extend([*right, *left]),
                Node::Conditional(test, yes, no) => waiting.extend([*no, *yes, *test]),
                _ => {}
            }
        }
        Ok(())
    }

    /// Data make an output section one with contents.
    fn make_for_data(&mut self, id: OutputId) -> Result<(), Stop> {
        let kind = self.output(id).map_or(OutputKind::Normal, |output| output.kind);
        let mut flags = Flags::CONTENTS | Flags::ALLOC | Flags::LOAD;
        let mut own_kind = 0;
        match kind {
            OutputKind::Normal | OutputKind::Overlay { .. } => {}
            OutputKind::NotAllocated => flags = Flags::CONTENTS,
            OutputKind::NoLoad if self.settings.flat => flags = Flags::NEVER_LOAD | Flags::CONTENTS,
            OutputKind::NoLoad => flags = Flags::NEVER_LOAD | Flags::ALLOC,
            OutputKind::ReadOnly => flags |= Flags::READONLY,
            OutputKind::Typed { kind, is_read_only } => {
                own_kind = kind;
                if is_read_only {
                    flags |= Flags::READONLY;
                }
            }
        }
        if self.place(id).is_none() {
            self.make(id, flags | Flags::READONLY)?;
        } else if let Some(place) = self.place_mut(id) {
            place.flags |= flags;
        }
        if let Some(place) = self.place_mut(id) {
            place.own_kind = own_kind;
        }
        Ok(())
    }
}

/// What of an input section an output section's flags and type depend on.
#[derive(Clone, Copy, PartialEq, Eq, Debug)]
struct Alike {
    flags: Flags,
    bits: u64,
    kind: u32,
    entry_size: u64,
}

impl Alike {
    fn of(section: &InputSection) -> Alike {
        let InputSection { flags, bits, kind, entry_size, .. } = *section;
        Alike { flags, bits, kind, entry_size }
    }
}

/// The flags and the type of an output section with one more input section.
fn join(place: &mut Place, (id, input): (SectionId, &InputSection), mut flags: Flags) {
    let merging = Flags::MERGE | Flags::STRINGS;
    place.flags = place.flags & (flags | !Flags::READONLY);
    if place.first.is_some() {
        flags = flags.without(Flags::READONLY);
        let is_other = place.flags & merging != flags & merging;
        if is_other || flags.has(Flags::MERGE) && place.entry_size != input.entry_size {
            place.flags = place.flags.without(merging);
            flags = flags.without(merging);
        }
    }
    place.flags |= flags.without(Flags::CREATED | Flags::EXCLUDE);
    if place.first.is_none() {
        place.first = Some(id);
        place.bits = special_sections::of_first(input.bits);
        if flags.has(Flags::MERGE) {
            place.entry_size = input.entry_size;
        }
        // elf.c, `elf_init_private_section_data`: the type is the first input section's if the flags are the same.
        let own = Flags::CREATED | Flags::EXCLUDE;
        if matches!(place.kind, elf::SHT_PROGBITS | elf::SHT_NOTE | elf::SHT_NOBITS) {
            place.kind = elf::SHT_NULL;
        }
        if place.kind == elf::SHT_NULL && (place.flags ^ input.flags).without(own) == Flags::NONE {
            place.kind = input.kind;
        }
    }
}

/// The flags that a section must have, and those that it must not have.
fn section_flags(words: &[Name], span: Option<Span>) -> Result<(u64, u64), Stop> {
    let (mut wanted, mut unwanted) = (0, 0);
    for word in words {
        let (name, is_unwanted) = match word.strip_prefix(b"!") {
            Some(name) => (name, true),
            None => (word.as_slice(), false),
        };
        let flag = match SECTION_FLAGS.iter().find(|(known, _)| *known == name) {
            Some((_, flag)) => u64::from(*flag),
            None => return not_evaluated(NotEvaluatedReason::Word(word.clone()), span),
        };
        *(if is_unwanted { &mut unwanted } else { &mut wanted }) |= flag;
    }
    Ok((wanted, unwanted))
}
