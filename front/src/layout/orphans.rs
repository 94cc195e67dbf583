//! Where GNU ld puts input sections that no statement takes (ldlang.c, `lang_place_orphans`, `lang_insert_orphan`;
//! ldelf.c, `ldelf_place_orphan`).

use super::evaluation::{Fate, InputSection};
use super::flags::Flags;
use super::glob;
use super::ids::{NameId, OutputId, SectionId, StatementId};
use super::link::Link;
use super::program::{Constraint, StepKind, DEFAULT};
use super::settings::OrphanHandling;
use super::stop::Stop;
use object::elf;

/// The flags by which a section is like another.
fn likeness() -> Flags {
    Flags::CONTENTS | Flags::ALLOC | Flags::LOAD | Flags::READONLY | Flags::CODE | Flags::TLS
}

/// Where sections of one sort go: after an output section of a name, else by their flags (ldelf.c, `hold`).
#[derive(Clone, Copy, Debug)]
struct Hold {
    name: &'static [u8],
    flags: Flags,
    output: Option<OutputId>,
    /// The last one that was put there.
    last: Option<OutputId>,
    /// Where the first one goes in GNU ld's list, once that is known.
    front: Option<Front>,
}

/// Where the first output section of a sort goes in GNU ld's list of output sections.
#[derive(Clone, Copy, Debug)]
enum Front {
    /// In front of all.
    OfAll,
    /// Behind this one.
    Behind(OutputId),
}

impl Hold {
    /// The output section in front of which one goes in GNU ld's list (`orphan_save`); `None`: behind all.
    fn next_listed(&mut self, link: &Link<'_>, own: OutputId, after: Option<OutputId>) -> Option<OutputId> {
        let front = self.last.map(Front::Behind).or(self.front).unwrap_or_else(|| {
            let behind = after.and_then(|after| made_until(link, after)).filter(|behind| *behind != own);
            behind.map_or(Front::OfAll, Front::Behind)
        });
        self.front = Some(front);
        match front {
            Front::OfAll => link.program.made.first().copied(),
            Front::Behind(other) => link.program.made.iter().copied().skip_while(|id| *id != other).nth(1),
        }
    }
}

/// The last output section up to one that is made (ldlang.c, `output_prev_sec_find`).
fn made_until(link: &Link<'_>, id: OutputId) -> Option<OutputId> {
    let at = link.program.order.iter().position(|other| *other == id)?;
    let counts = |id: &&OutputId| link.output(**id).map_or(false, |output| output.counts() && output.place.is_some());
    link.program.order.get(..=at)?.iter().rev().find(counts).copied()
}

/// The sorts of orphans.
#[derive(Clone, Copy, PartialEq, Eq, Debug)]
enum Sort {
    Text,
    Rodata,
    Tdata,
    Data,
    Bss,
    Relocations,
    GnuProperty,
    NotAllocated,
}

const SORTS: usize = 8;

fn holds() -> [Hold; SORTS] {
    let data = Flags::CONTENTS | Flags::ALLOC | Flags::LOAD | Flags::DATA;
    let hold = |name: &'static [u8], flags| Hold { name, flags, output: None, last: None, front: None };
    [
        hold(b".text", data.without(Flags::DATA) | Flags::READONLY | Flags::CODE),
        hold(b".rodata", data | Flags::READONLY),
        hold(b".tdata", data | Flags::TLS),
        hold(b".data", data),
        hold(b".bss", Flags::ALLOC),
        hold(b"", data | Flags::READONLY),
        hold(b".interp", data | Flags::READONLY),
        hold(b".comment", Flags::CONTENTS),
    ]
}

/// Places what is left.
pub(crate) struct Orphans {
    holds: [Hold; SORTS],
    is_ready: bool,
    /// Whether the last note that was placed found another.
    has_notes: bool,
    /// By name: the sections that were left at first.
    left: Vec<Vec<SectionId>>,
}

impl Orphans {
    /// Places all input sections that have no place yet.
    pub fn run(link: &mut Link<'_>) -> Result<(), Stop> {
        let mut orphans = Orphans { holds: holds(), is_ready: false, has_notes: false, left: Vec::new() };
        orphans.left.resize_with(link.program.names.len(), Vec::new);
        for (number, section) in link.sections.iter().enumerate() {
            if let (Fate::Open, Some(row)) = (section.fate, orphans.left.get_mut(section.name.index())) {
                row.push(SectionId::new(number));
            }
        }
        for number in 0..link.sections.len() {
            let id = SectionId::new(number);
            let section = match link.section(id) {
                Some(section) if section.fate == Fate::Open => section.clone(),
                _ => continue,
            };
            if section.flags.has(Flags::EXCLUDE) {
                set_fate(link, id, Fate::Discarded);
            } else if link.program.names.get(section.name) == "COMMON" {
                orphans.place_common(link, id)?;
            } else if link.settings.orphans == OrphanHandling::Discard {
                set_fate(link, id, Fate::Discarded);
            } else {
                orphans.place(link, id, &section)?;
            }
        }
        Ok(())
    }

    /// Common blocks that no statement takes go to where others go, or to `.bss`.
    fn place_common(&mut self, link: &mut Link<'_>, id: SectionId) -> Result<(), Stop> {
        let output = match link.program.common.or_else(|| link.program.find_name(b".bss")) {
            Some(output) => output,
            None => {
                let output = link.program.output(b".bss", None);
                append(link, output);
                output
            }
        };
        link.program.common = Some(output);
        add(link, output, id)
    }

    fn place(&mut self, link: &mut Link<'_>, id: SectionId, section: &InputSection) -> Result<(), Stop> {
        let is_relocation = section.flags.has(Flags::ALLOC) && section.kind == elf::SHT_RELA;
        let name = if is_relocation { link.program.names.enter(b".rela.dyn") } else { section.name };
        let is_unique = link.settings.unique.as_ref().map_or(false, |patterns| {
            let own = link.program.names.get(section.name);
            patterns.is_empty() || patterns.iter().any(|pattern| glob::matches(pattern, own))
        });
        let is_special = if is_unique {
            true
        } else {
            let (found, has_name) = by_name(link, name, section);
            if let Some(output) = found {
                return add(link, output, id);
            }
            has_name
        };
        self.start(link);
        let flags = self.flags_of(link, id, section);
        let sort = sort_of(flags, section.kind);
        let after = sort.and_then(|sort| self.after(link, sort, section, flags));
        self.insert(link, id, sort, &NewOutput { name, after, is_special })
    }

    /// The output sections after which sorts go, if the script has them.
    fn start(&mut self, link: &mut Link<'_>) {
        if self.is_ready {
            return;
        }
        self.is_ready = true;
        for hold in self.holds.iter_mut().filter(|hold| !hold.name.is_empty()) {
            hold.output = link.program.find_name(hold.name);
            if let Some(output) = hold.output.and_then(|output| link.output_mut(output)) {
                if output.expected == Flags::NONE {
                    output.expected = hold.flags;
                }
            }
        }
    }

    /// Its flags with those of later orphans of its name; read-only if all of them are.
    fn flags_of(&self, link: &Link<'_>, id: SectionId, section: &InputSection) -> Flags {
        let row = self.left.get(section.name.index()).map_or(&[][..], Vec::as_slice);
        let later = row.get(row.partition_point(|other| *other <= id)..).unwrap_or_default();
        let is_like = |other: &&InputSection| {
            other.fate == Fate::Open
                && !other.flags.has(Flags::EXCLUDE)
                && !(other.flags ^ section.flags).has(Flags::LOAD | Flags::ALLOC)
                && other.kind == section.kind
        };
        let others = later.iter().filter_map(|other| link.section(*other)).filter(is_like);
        others.fold(section.flags, |flags, other| {
            let both = flags | other.flags;
            match flags.has(Flags::READONLY) && other.flags.has(Flags::READONLY) {
                true => both,
                false => both.without(Flags::READONLY),
            }
        })
    }

    /// The output section after which one goes; `None`: in front of all.
    fn after(&mut self, link: &Link<'_>, sort: Sort, section: &InputSection, flags: Flags) -> Option<OutputId> {
        let hold = self.holds.get_mut(sort as usize)?;
        if hold.output.is_none() {
            hold.output = if sort == Sort::Relocations { relocations(link) } else { link.program.find_name(hold.name) };
        }
        if hold.output.is_some() {
            return hold.output;
        }
        let (found, is_exact) = by_flags(link, section.kind, flags);
        if is_exact {
            hold.output = found;
        }
        found
    }

    /// A new output section with its first input section, after another one.
    fn insert(&mut self, link: &mut Link<'_>, id: SectionId, sort: Option<Sort>, new: &NewOutput) -> Result<(), Stop> {
        let own = make_output(link, id, new);
        add(link, own, id)?;
        match sort {
            Some(sort) => self.put_after(link, id, own, sort, new.after),
            None => append(link, own),
        }
        Ok(())
    }

    /// Puts a new output section after another one, behind those of its sort that were put there before; a note goes
    /// beside others.
    fn put_after(&mut self, link: &mut Link<'_>, id: SectionId, own: OutputId, sort: Sort, after: Option<OutputId>) {
        let hold = match self.holds.get_mut(sort as usize) {
            Some(hold) => hold,
            None => return append(link, own),
        };
        let next = hold.next_listed(link, own, after);
        let beside = match next {
            Some(_) if is_note_section(link, id) => {
                let beside = beside_of_note(link, own, id);
                self.has_notes = beside.is_some();
                beside
            }
            Some(next) if self.has_notes && is_note(link, next) => Some(last_note(link, next)),
            _ => None,
        };
        list(link, own, next, beside);
        match (beside, hold.last) {
            (Some(beside), _) => {
                let after = beside.after(link);
                insert_after(link, own, after);
            }
            (None, Some(last)) => insert_behind(link, own, last),
            (None, None) => insert_after(link, own, after),
        }
        hold.last = Some(own);
    }
}

/// An output section that is made for orphans.
struct NewOutput {
    name: NameId,
    /// The one after which it goes; `None`: in front of all.
    after: Option<OutputId>,
    /// Whether it is another one than that of its name in the script.
    is_special: bool,
}

/// Makes an output section for an input section, in the memory of the one after which it goes.
fn make_output(link: &mut Link<'_>, id: SectionId, new: &NewOutput) -> OutputId {
    let name = link.program.names.get(new.name).to_owned();
    let is_loaded = link.section(id).map_or(false, |section| section.flags.has(Flags::LOAD | Flags::ALLOC));
    let own = link.program.output(&name, None);
    let (region, load_region, segments) = match new.after.and_then(|after| link.output(after)) {
        Some(after) if is_loaded => (after.region, after.load_region, after.segments.clone()),
        _ => (link.program.region(DEFAULT), None, Vec::new()),
    };
    let default = link.program.default_region;
    let address = if is_loaded { None } else { Some(link.program.expressions.number(0)) };
    if let Some(output) = link.output_mut(own) {
        output.is_orphan = true;
        output.constraint = if new.is_special { Constraint::Special } else { Constraint::None };
        output.address = address;
        output.load_region = load_region;
        output.segments = segments;
        output.region = match load_region {
            Some(load) if Some(region) == default && address.is_none() => load,
            _ => region,
        };
    }
    own
}

fn set_fate(link: &mut Link<'_>, id: SectionId, fate: Fate) {
    if let Some(section) = link.section_mut(id) {
        section.fate = fate;
    }
}

fn add(link: &mut Link<'_>, output: OutputId, id: SectionId) -> Result<(), Stop> {
    if link.add_to(output, id, (0, 0))? {
        if let Some(taking) = link.program.orphans_of(output) {
            taking.sections.push(id);
        }
    }
    if link.section(id).map_or(false, |section| section.size != 0) {
        link.orphans.push(id);
    }
    Ok(())
}

/// The output section of the name that takes it, and whether there is one of the name at all.
fn by_name(link: &Link<'_>, name: NameId, section: &InputSection) -> (Option<OutputId>, bool) {
    let (mut has_name, mut unused) = (false, None);
    for id in link.program.outputs_of.get(&name).into_iter().flatten() {
        let output = match link.output(*id) {
            Some(output) if output.counts() => output,
            _ => continue,
        };
        has_name = true;
        match &output.place {
            None => unused = Some(*id),
            Some(place) => {
                let is_same =
                    !(section.flags ^ place.flags).has(Flags::LOAD | Flags::ALLOC) && place.kind == section.kind;
                if place.flags == Flags::NONE || is_same {
                    return (Some(*id), true);
                }
            }
        }
    }
    (unused, has_name)
}

fn sort_of(flags: Flags, kind: u32) -> Option<Sort> {
    if !flags.has(Flags::ALLOC) {
        return if flags.has(Flags::DEBUGGING) { None } else { Some(Sort::NotAllocated) };
    }
    let is_loaded = flags.has(Flags::LOAD);
    Some(if is_loaded && kind == elf::SHT_NOTE {
        Sort::GnuProperty
    } else if !flags.has(Flags::LOAD | Flags::CONTENTS | Flags::TLS) {
        Sort::Bss
    } else if flags.has(Flags::TLS) {
        Sort::Tdata
    } else if !flags.has(Flags::READONLY) {
        Sort::Data
    } else if is_loaded && matches!(kind, elf::SHT_RELA | elf::SHT_REL) {
        Sort::Relocations
    } else if flags.has(Flags::CODE) {
        Sort::Text
    } else {
        Sort::Rodata
    })
}

/// The section after which relocations go: the last one before others of them (ldelf.c, `output_rel_find`).
fn relocations(link: &Link<'_>) -> Option<OutputId> {
    let (mut last, mut last_allocated, mut last_read_only) = (None, None, None);
    for id in &link.program.order {
        let output = match link.output(*id) {
            None => continue,
            Some(output) => output,
        };
        if output.counts() && link.program.names.get(output.name).starts_with(b".rel") {
            break;
        }
        last = Some(*id);
        if let Some(place) = output.place.as_ref().filter(|place| place.flags.has(Flags::ALLOC)) {
            last_allocated = Some(*id);
            if place.flags.has(Flags::READONLY) {
                last_read_only = Some(*id);
            }
        }
    }
    last_read_only.or(last_allocated).or(last)
}

// --- by flags (ldlang.c, `lang_output_section_find_by_flags`) ---

/// The output section after which one of these flags goes, and whether it has the same ones.
fn by_flags(link: &Link<'_>, kind: u32, flags: Flags) -> (Option<OutputId>, bool) {
    if let Some(found) = last_like(link, flags, likeness(), Some(kind)) {
        return (Some(found), true);
    }
    if let Some(found) = near(link, flags, Some(kind)) {
        return (Some(found), false);
    }
    (last_like(link, flags, likeness(), None).or_else(|| near(link, flags, None)), false)
}

/// By fewer flags: what is like it most.
fn near(link: &Link<'_>, flags: Flags, kind: Option<u32>) -> Option<OutputId> {
    let room = Flags::CONTENTS | Flags::ALLOC | Flags::LOAD;
    if !flags.has(Flags::ALLOC) {
        return last_like(link, flags, Flags::DEBUGGING, None);
    }
    if flags.has(Flags::CODE) {
        return last_like(link, flags, room | Flags::CODE | Flags::TLS, kind);
    }
    if flags.has(Flags::READONLY) {
        return last_like(link, flags, room | Flags::READONLY, kind);
    }
    if flags.has(Flags::TLS) {
        return thread_local(link, flags);
    }
    if flags.has(Flags::CONTENTS) {
        return last_like(link, flags, room | Flags::TLS, kind);
    }
    last_like(link, flags, Flags::ALLOC, kind)
}

/// The flags of an output section, or those that its name says.
fn look_flags(link: &Link<'_>, id: OutputId) -> Flags {
    link.output(id).map_or(Flags::NONE, |output| output.place.as_ref().map_or(output.expected, |place| place.flags))
}

/// The last section whose flags are equal under a mask, and its type if that counts.
fn last_like(link: &Link<'_>, flags: Flags, mask: Flags, kind: Option<u32>) -> Option<OutputId> {
    link.program.order.iter().rev().copied().find(|id| {
        let is_of_kind = match (kind, link.place(*id)) {
            (Some(kind), Some(place)) => place.kind == kind,
            _ => true,
        };
        is_of_kind && !(look_flags(link, *id) ^ flags).has(mask)
    })
}

/// Thread-local data: `.tdata` and `.tbss` are beside one another, in that order.
fn thread_local(link: &Link<'_>, flags: Flags) -> Option<OutputId> {
    let (mut found, mut has_seen) = (None, false);
    for id in &link.program.order {
        let own = look_flags(link, *id);
        let differ = own ^ (flags | Flags::LOAD | Flags::CONTENTS);
        if !differ.has(Flags::TLS | Flags::ALLOC) {
            if !own.has(Flags::LOAD) && flags.has(Flags::LOAD) {
                break;
            }
            found = Some(*id);
            has_seen = true;
        } else if has_seen {
            break;
        } else if !differ.has(Flags::CONTENTS | Flags::ALLOC | Flags::LOAD) {
            found = Some(*id);
        }
    }
    found
}

// --- insertion ---

fn is_note_section(link: &Link<'_>, id: SectionId) -> bool {
    link.section(id).map_or(false, |section| section.flags.has(Flags::LOAD) && section.kind == elf::SHT_NOTE)
}

fn is_note(link: &Link<'_>, id: OutputId) -> bool {
    link.place(id).map_or(false, |place| place.flags.has(Flags::LOAD) && place.kind == elf::SHT_NOTE)
}

/// A note in GNU ld's list beside which another output section goes.
#[derive(Clone, Copy, Debug)]
struct BesideNote {
    note: OutputId,
    /// Whether it goes behind it.
    is_behind: bool,
}

impl BesideNote {
    /// The output section behind whose statements the other one's stands; `None`: in front of all.
    fn after(self, link: &Link<'_>) -> Option<OutputId> {
        if self.is_behind {
            return Some(self.note);
        }
        let at = link.program.order.iter().position(|id| *id == self.note)?;
        link.program.order.get(at.checked_sub(1)?).copied()
    }
}

/// Beside which note another one goes, if there are others: they stay together, those of greater alignments first.
fn beside_of_note(link: &Link<'_>, own: OutputId, id: SectionId) -> Option<BesideNote> {
    let align = link.section(id)?.align;
    let is_other = |id: &&OutputId| **id != own && is_note(link, **id);
    let first = link.program.made.iter().position(|id| is_other(&id))?;
    let group = link.program.made.get(first..)?;
    let is_aligned = |id: &&OutputId| link.place(**id).map_or(false, |place| place.align >= align);
    match group.iter().take_while(is_other).filter(is_aligned).last() {
        Some(note) => Some(BesideNote { note: *note, is_behind: true }),
        None => group.first().map(|note| BesideNote { note: *note, is_behind: false }),
    }
}

/// The last note from one on.
fn last_note(link: &Link<'_>, first: OutputId) -> BesideNote {
    let rest = link.program.made.iter().skip_while(|id| **id != first);
    let note = rest.filter(|id| is_note(link, **id)).last().copied().unwrap_or(first);
    BesideNote { note, is_behind: true }
}

/// Puts an output section that is made in its place in GNU ld's list: beside a note, or in front of `next`.
fn list(link: &mut Link<'_>, own: OutputId, next: Option<OutputId>, beside: Option<BesideNote>) {
    if beside.is_none() && next == Some(own) {
        return;
    }
    let made = &mut link.program.made;
    made.retain(|id| *id != own);
    let place = |id: OutputId| made.iter().position(|other| *other == id);
    let at = match (beside, next) {
        (Some(beside), _) => place(beside.note).map(|at| at + usize::from(beside.is_behind)),
        (None, next) => next.and_then(place),
    };
    made.insert(at.unwrap_or(made.len()), own);
}

/// Puts an orphan's output section at the end of all.
fn append(link: &mut Link<'_>, own: OutputId) {
    if let Some(statement) = link.output(own).map(|output| output.statement) {
        link.program.top.push(statement);
        link.program.order.push(own);
    }
}

/// Puts an orphan's output section behind the statement of another one.
fn insert_behind(link: &mut Link<'_>, own: OutputId, last: OutputId) {
    let (own_statement, last_statement) = match (link.output(own), link.output(last)) {
        (Some(own), Some(last)) => (own.statement, last.statement),
        _ => return,
    };
    let at = position(&link.program.top, last_statement).map_or(link.program.top.len(), |at| at + 1);
    link.program.top.insert(at, own_statement);
    let at = link.program.order.iter().position(|id| *id == last).map_or(link.program.order.len(), |at| at + 1);
    link.program.order.insert(at, own);
}

/// Behind the statements that belong to an output section.
fn insert_after(link: &mut Link<'_>, own: OutputId, after: Option<OutputId>) {
    let at = end_of(link, after);
    if let Some(statement) = link.output(own).map(|output| output.statement) {
        link.program.top.insert(at, statement);
    }
    let at = after.and_then(|after| link.program.order.iter().position(|id| *id == after)).map_or(0, |at| at + 1);
    link.program.order.insert(at, own);
}

fn position(top: &[StatementId], statement: StatementId) -> Option<usize> {
    top.iter().position(|id| *id == statement)
}

/// Where the statements of an output section end: in front of assignments to `.` that belong to the next one (ldlang.c,
/// `insert_os_after`).
pub(crate) fn end_of(link: &Link<'_>, after: Option<OutputId>) -> usize {
    let statement = after.and_then(|after| link.output(after)).map(|after| after.statement);
    let top = &link.program.top;
    let start = statement.and_then(|statement| position(top, statement)).map_or(0, |at| at + 1);
    let (mut is_first, mut assign) = (after.is_none(), None);
    for (at, id) in top.iter().enumerate().skip(start) {
        match link.step(*id).map(|step| &step.kind) {
            Some(StepKind::Output(output)) => {
                let is_allocated =
                    link.place(*output).map_or(true, |place| place.inputs.is_empty() || place.flags.has(Flags::ALLOC));
                return match assign {
                    Some(assign) if is_allocated => assign,
                    _ => at,
                };
            }
            Some(StepKind::Assign { target: None, .. }) if assign.is_none() => {
                if !is_first {
                    assign = Some(at);
                }
                is_first = false;
            }
            _ => {}
        }
    }
    top.len()
}
