//! `--emit-relocs`: the relocations of the sections of the file, with the numbers of the file's symbols (elflink.c,
//! `elf_link_input_bfd`, `elf_link_adjust_relocs`).

use super::linked_names::{is_own_object, LinkedName};
use super::numbers::Numbers;
use super::places::{InputPlaces, Place};
use super::Symbols;
use crate::layout::evaluation::{Definer, Fate};
use crate::layout::ids::{OutputId, SectionId};
use crate::layout::Flags;
use crate::objects::{Binding, Home, Object, ObjectIndex, Relocation, SectionIndex, Symbol, SymbolKind};
use crate::parallel::map_all;
use crate::snapshot::Bytes;
use crate::unloaded::KeptGroups;

/// The bytes of an entry.
const ENTRY: usize = 24;
/// From as many entries on those of the next input section are written apart.
const AT_ONCE: usize = 1024;

/// The relocations of an output section.
#[derive(Clone, PartialEq, Eq, Debug)]
pub(in crate::finish) struct RelocationTable {
    /// The number of its header in the image.
    pub(in crate::finish) section: usize,
    /// The entries, by ascending offsets, in parts.
    pub(in crate::finish) entries: Vec<Bytes>,
}

/// Goes over the relocations of an object's sections that are in the file, in the order of its headers.
pub(super) fn relocated<'a>(
    number: usize,
    object: &'a Object,
    places: &'a InputPlaces,
) -> impl Iterator<Item = (Place, Relocation)> + 'a {
    let tables = object.relocated_sections();
    let placed = tables.filter_map(move |(index, _)| Some((index, places.get(number, index)?)));
    placed.flat_map(move |(index, place)| {
        let shortened = places.shortened(number, index);
        let stays = move |one: &Relocation| shortened.map_or(true, |now| now.place(one.offset).is_some());
        object.relocations(index).filter(stays).map(move |one| (place, one))
    })
}

/// By object and symbol: whether a relocation that is in GNU ld's file refers to it, also one of what is not loaded.
pub(super) struct Referred(Vec<Vec<bool>>);

impl Referred {
    /// Finds the symbols.
    pub(super) fn of(symbols: &Symbols<'_>, places: &InputPlaces) -> Referred {
        let objects: Vec<(usize, &Object)> = symbols.objects.iter().enumerate().collect();
        Referred(map_all(&objects, &|(number, object)| {
            let mut referred = vec![false; object.symbol_count()];
            for (_, relocation) in relocated(*number, object, places) {
                let symbol = referred.get_mut(relocation.symbol.0 as usize);
                symbol.into_iter().for_each(|symbol| *symbol = true);
            }
            referred
        }))
    }

    /// By the symbols of an object.
    pub(super) fn in_object(&self, number: usize) -> &[bool] {
        self.0.get(number).map_or(&[], Vec::as_slice)
    }

    /// By name: whether a symbol of it is among them. What is defined in a section that is left out is not: GNU ld
    /// makes such a relocation R_X86_64_NONE (elf-bfd.h, `RELOC_AGAINST_DISCARDED_SECTION`).
    pub(super) fn names(&self, symbols: &Symbols<'_>) -> Vec<bool> {
        let mut used = vec![false; symbols.names.iter().count()];
        let objects = symbols.objects.iter().zip(&self.0).enumerate();
        for (number, (_, referred)) in objects.filter(|(_, (object, _))| !is_own_object(object)) {
            let (first, names) = symbols.names.in_object(number);
            let referred = referred.get(first..).unwrap_or_default();
            for (name, _) in names.iter().zip(referred).filter(|(_, is_referred)| **is_referred) {
                used.get_mut(*name as usize).into_iter().for_each(|used| *used = true);
            }
        }
        for (used, one) in used.iter_mut().zip(symbols.names.iter()).filter(|(used, _)| **used) {
            *used = !is_discarded(one, symbols);
        }
        used
    }
}

/// Whether the definition of a name is in a section that is left out.
fn is_discarded(one: &LinkedName, symbols: &Symbols<'_>) -> bool {
    let evaluation = symbols.evaluation;
    let section = one.defined_by.and_then(|(object, _)| match one.home {
        Home::Section(section) => evaluation.section(evaluation.section_of(object, section)?),
        _ => None,
    });
    let is_out = section.map_or(false, |one| one.fate == Fate::Discarded || one.flags.has(Flags::EXCLUDE));
    let known = if is_out && one.is_named { evaluation.symbol(&one.name) } else { None };
    is_out && !known.map_or(false, |known| matches!(known.definer, Definer::Script(_) | Definer::Linker))
}

/// An input section with relocations that are in the file.
struct Input {
    object: usize,
    section: SectionIndex,
    place: Place,
    count: usize,
    /// Whether it is one of debug information.
    is_debugging: bool,
}

/// What the relocations of an object need.
struct OfObject {
    /// What its symbols stand for, by their numbers.
    targets: Vec<Target>,
    /// How many relocations its sections have, by their numbers.
    counts: Vec<u32>,
}

/// Entries of an output section that are written together.
struct Rows {
    bytes: Vec<u8>,
    /// The first and the last offset, if all ascend.
    ascending: Option<(u64, u64)>,
}

/// The tables of all output sections that have relocations.
pub(super) fn tables(symbols: &Symbols<'_>, places: &InputPlaces, numbers: &Numbers<'_>) -> Vec<RelocationTable> {
    let objects: Vec<(usize, &Object)> = symbols.objects.iter().enumerate().collect();
    let kept = KeptGroups::of(symbols.objects);
    let of_objects = map_all(&objects, &|(number, object)| OfObject {
        targets: targets_of(*number, object, (places, &kept), numbers),
        counts: counts_of(object),
    });
    let ids = &symbols.evaluation.order;
    let inputs: Vec<(Vec<Input>, usize)> = ids.iter().map(|id| inputs_of(*id, symbols, places, &of_objects)).collect();
    let parts: Vec<Vec<&[Input]>> = inputs.iter().map(|(inputs, _)| parts_of(inputs)).collect();
    let all: Vec<&[Input]> = parts.iter().flatten().copied().collect();
    let mut rows = map_all(&all, &|part| rows_of(part, symbols, &of_objects, places, numbers)).into_iter();
    let sections = inputs.iter().map(|(_, section)| *section).zip(parts).filter(|(_, parts)| !parts.is_empty());
    let mut entries = |count| sorted(rows.by_ref().take(count).collect());
    sections.map(|(section, parts)| RelocationTable { section, entries: entries(parts.len()) }).collect()
}

fn counts_of(object: &Object) -> Vec<u32> {
    let mut counts = vec![0; object.section_count()];
    for (section, count) in object.relocated_sections() {
        counts.get_mut(section.0 as usize).into_iter().for_each(|own| *own = count as u32);
    }
    counts
}

/// Input sections in parts with enough relocations to be written together.
fn parts_of(inputs: &[Input]) -> Vec<&[Input]> {
    let (mut parts, mut rest) = (Vec::new(), inputs);
    while !rest.is_empty() {
        let mut count = 0;
        let last = rest.iter().position(|input| {
            count += input.count;
            count >= AT_ONCE
        });
        let (part, after) = rest.split_at(last.map_or(rest.len(), |last| last + 1));
        parts.push(part);
        rest = after;
    }
    parts
}

/// The relocations of some input sections.
fn rows_of(
    inputs: &[Input],
    symbols: &Symbols<'_>,
    of_objects: &[OfObject],
    places: &InputPlaces,
    numbers: &Numbers<'_>,
) -> Rows {
    let count: usize = inputs.iter().map(|input| input.count).sum();
    let mut bytes = Vec::with_capacity(count * ENTRY);
    for input in inputs {
        let end = bytes.len() + input.count * ENTRY;
        if let (Some(object), Some(own)) = (symbols.objects.get(input.object), of_objects.get(input.object)) {
            write_rows(input, &mut bytes, (object, &own.targets), places, numbers);
        }
        bytes.resize(end, 0);
    }
    let ascending = are_ascending(&bytes).then(|| (offset_of(&bytes), offset_of(last_of(&bytes))));
    Rows { bytes, ascending }
}

/// Writes the relocations of an input section; `targets` are those of its object's symbols.
fn write_rows(
    input: &Input,
    rows: &mut Vec<u8>,
    (object, targets): (&Object, &[Target]),
    places: &InputPlaces,
    numbers: &Numbers<'_>,
) {
    let shortened = places.shortened(input.object, input.section);
    let mut last = input.place.address;
    for one in object.relocations(input.section).take(input.count) {
        let words = match shortened.map_or(Some(one.offset), |now| now.place(one.offset)) {
            Some(offset) => {
                let one = Relocation { offset, ..one };
                row_of(input, &one, targets.get(one.symbol.0 as usize), places, numbers)
            }
            // elflink.c, `elf_link_input_bfd`: of what is left out, where the one before it is.
            None => [last, 0, 0],
        };
        last = words[0];
        let mut row = [0; ENTRY];
        row.chunks_exact_mut(8).zip(words).for_each(|(to, word)| to.copy_from_slice(&word.to_le_bytes()));
        rows.extend_from_slice(&row);
    }
}

/// The input sections of an output section that have relocations, and the number of its header in the image.
fn inputs_of(
    id: OutputId,
    symbols: &Symbols<'_>,
    places: &InputPlaces,
    of_objects: &[OfObject],
) -> (Vec<Input>, usize) {
    let place = symbols.evaluation.output(id).and_then(|output| output.in_image());
    let inputs = place.map_or(&[][..], |place| place.inputs.as_slice());
    let input = |id: &SectionId, least: usize| {
        let section = symbols.evaluation.section(*id)?;
        let (object, number) = (section.object.0 as usize, section.number()?);
        let is_left_out = section.flags.has(Flags::EXCLUDE | Flags::CREATED);
        let counts = of_objects.get(object).map(|own| &own.counts);
        let count = counts.and_then(|counts| counts.get(number.0 as usize)).map_or(0, |count| *count as usize);
        let is_wanted = count >= least && !is_left_out;
        let place = if is_wanted { places.get(object, number)? } else { return None };
        let is_debugging = section.flags.has(Flags::DEBUGGING);
        Some(Input { object, section: number, place, count, is_debugging })
    };
    let last = inputs.iter().rev().find_map(|id| input(id, 0));
    let number = last.map_or(0, |last| last.place.output.into());
    (inputs.iter().filter_map(|id| input(id, 1)).collect(), number)
}

/// Entries by ascending offsets.
fn sorted(parts: Vec<Rows>) -> Vec<Bytes> {
    let mut last = Some(0);
    for part in &parts {
        let follows = |(start, _): &(u64, u64)| last.map_or(false, |last| last <= *start);
        last = part.ascending.filter(follows).map(|(_, end)| end);
    }
    if last.is_some() {
        return parts.into_iter().map(|part| part.bytes.into()).collect();
    }
    let mut rows: Vec<&[u8]> = parts.iter().flat_map(|part| part.bytes.chunks_exact(ENTRY)).collect();
    rows.sort_by_key(|row| offset_of(row));
    vec![rows.concat().into()]
}

fn are_ascending(rows: &[u8]) -> bool {
    let each = || rows.chunks_exact(ENTRY);
    each().zip(each().skip(1)).all(|(one, next)| offset_of(one) <= offset_of(next))
}

/// The last of some entries.
fn last_of(rows: &[u8]) -> &[u8] {
    rows.get(rows.len().saturating_sub(ENTRY)..).unwrap_or_default()
}

/// The offset of the first of some entries.
fn offset_of(rows: &[u8]) -> u64 {
    rows.get(..8).and_then(|bytes| bytes.try_into().ok()).map_or(0, u64::from_le_bytes)
}

/// What relocations that refer to a symbol refer to in the file.
#[derive(Clone, Copy)]
enum Target {
    /// What is not in the image.
    Discarded,
    /// What is not in the image, and to debug information is that of a group that is kept (elflink.c,
    /// `_bfd_elf_default_action_discarded`): the symbol of an output section, and how far it is from its start.
    KeptGroups(u32, u64),
    /// The symbol of an output section, by the number of that symbol, and how far the input section is from its start.
    Section(u32, u64),
    /// What the addend says of a section of merged constants.
    Merged(SectionIndex),
    /// A symbol, by its number.
    Symbol(u32),
}

/// What the symbols of an object stand for, by their numbers (elflink.c, `_bfd_elf_rela_local_sym`).
fn targets_of(
    number: usize,
    object: &Object,
    (places, kept): (&InputPlaces, &KeptGroups<'_>),
    numbers: &Numbers<'_>,
) -> Vec<Target> {
    let instead = |section: SectionIndex| {
        let (other, kept) = kept.in_place_of(ObjectIndex(number as u32), section)?;
        match to_section(&places.get(other.0 as usize, kept)?, 0, numbers) {
            Target::Section(symbol, within) => Some(Target::KeptGroups(symbol, within)),
            _ => None,
        }
    };
    let target = |symbol: Symbol<'_>| {
        let section = match (symbol.binding, symbol.home) {
            (Binding::Local, Home::Section(section)) => section,
            (Binding::Local, _) => return Target::Symbol(numbers.of_local(number, symbol.index)),
            _ => match numbers.of_name(number, symbol.index) {
                0 => return Target::Discarded,
                name => return Target::Symbol(name),
            },
        };
        if symbol.kind != SymbolKind::SECTION {
            // What has a number is in the file, and so has a place.
            let own = numbers.of_local(number, symbol.index);
            let is_numbered = own > 0 && symbol.index < object.first_global();
            let is_placed = || places.get_at(number, section, symbol.value).is_some();
            return if is_numbered || is_placed() { Target::Symbol(own) } else { Target::Discarded };
        }
        if places.is_merged(number, section) {
            return Target::Merged(section);
        }
        match places.get(number, section) {
            Some(place) => to_section(&place, 0, numbers),
            None => instead(section).unwrap_or(Target::Discarded),
        }
    };
    object.nameless_symbols().map(target).collect()
}

/// A place in an input section, by the symbol of its output section.
fn to_section(place: &Place, at: u64, numbers: &Numbers<'_>) -> Target {
    Target::Section(numbers.of_section(place.output), place.address.wrapping_sub(place.start).wrapping_add(at))
}

/// Offset, symbol with type, and addend of a relocation in the file.
fn row_of(
    input: &Input,
    one: &Relocation,
    target: Option<&Target>,
    places: &InputPlaces,
    numbers: &Numbers<'_>,
) -> [u64; 3] {
    let offset = input.place.address.wrapping_add(one.offset);
    let addend = one.addend as u64;
    let (target, addend) = match target {
        Some(Target::Merged(section)) => match places.get_at(input.object, *section, addend) {
            Some((place, at)) => (to_section(&place, at, numbers), 0),
            None => (Target::Discarded, 0),
        },
        Some(target) => (*target, addend),
        None => (Target::Symbol(0), addend),
    };
    let row = |symbol: u32, addend: u64| [offset, u64::from(symbol) << 32 | u64::from(one.kind), addend];
    match target {
        Target::KeptGroups(symbol, within) if input.is_debugging => row(symbol, within.wrapping_add(addend)),
        Target::Discarded | Target::Merged(_) | Target::KeptGroups(..) => [offset, 0, 0],
        Target::Section(symbol, within) => row(symbol, within.wrapping_add(addend)),
        Target::Symbol(symbol) => row(symbol, addend),
    }
}

#[cfg(test)]
mod tests {
    use super::*;

    fn rows(offsets: &[u64]) -> Rows {
        let row = |offset: &u64| [*offset, 1, 2].map(u64::to_le_bytes).concat();
        let bytes: Vec<u8> = offsets.iter().flat_map(row).collect();
        let ascending = are_ascending(&bytes).then(|| (offset_of(&bytes), offset_of(last_of(&bytes))));
        Rows { bytes, ascending }
    }

    fn offsets(parts: &[&[u64]]) -> Vec<Vec<u64>> {
        let parts = sorted(parts.iter().map(|part| rows(part)).collect());
        parts.iter().map(|part| part.chunks_exact(ENTRY).map(offset_of).collect()).collect()
    }

    /// elflink.c, `elf_link_adjust_relocs`: offsets ascend, and equal ones keep their order.
    #[test]
    fn entries_ascend_over_all_parts() {
        assert_eq!(offsets(&[&[1, 2], &[2, 3]]), [[1, 2], [2, 3]]);
        assert_eq!(offsets(&[&[1, 4], &[2, 3]]), [[1, 2, 3, 4]]);
        assert_eq!(offsets(&[&[2, 1], &[3]]), [[1, 2, 3]]);
        assert!(offsets(&[]).is_empty());
    }

    #[test]
    fn input_sections_are_written_together_up_to_enough_relocations() {
        let place = Place { output: 1, start: 0, address: 0, is_merged: false, is_loaded: true };
        let input = |count| Input { object: 0, section: SectionIndex(1), place, count, is_debugging: false };
        let counts = |of: &[usize]| {
            let inputs: Vec<Input> = of.iter().map(|count| input(*count)).collect();
            parts_of(&inputs).iter().map(|part| part.len()).collect::<Vec<_>>()
        };
        assert_eq!(counts(&[1, AT_ONCE - 1, 1, 1]), [2, 2]);
        assert_eq!(counts(&[2 * AT_ONCE, 1]), [1, 1]);
        assert!(counts(&[]).is_empty());
    }
}
