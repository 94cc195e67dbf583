//! What `.eh_frame_hdr` has: a row for each entry of `.eh_frame`, ascending by the places of their code
//! (elf-eh-frame.c, `_bfd_elf_maybe_strip_eh_frame_hdr`, `_bfd_elf_discard_section_eh_frame_hdr`,
//! `write_dwarf_eh_frame_hdr`).

use super::discard::Frames;
use super::parse::Field;
use crate::layout::flags::Flags;
use crate::layout::ids::{OutputId, SectionId};
use crate::layout::link::Link;
use crate::layout::make_evaluation::first_made;
use crate::objects::{
    Binding, Home, LinkNames, Object, ObjectIndex, SectionIndex, SymbolIndex, EH_FRAME_HDR_HEAD, EH_FRAME_HDR_SECTION,
    FRAME_COUNT_SIZE, FRAME_ROW_SIZE,
};

/// The bytes of a section that has no entry.
const NO_ENTRY: u64 = 8;

/// The table.
#[derive(Clone, PartialEq, Eq, Debug)]
pub struct EhFrameHdr {
    /// Its section.
    pub section: SectionId,
    /// The output section of the entries.
    pub frames: OutputId,
    /// Its rows, ascending; `None` if it has none, as GNU ld does not understand the entries of an object.
    pub rows: Option<Vec<FrameRow>>,
    /// Whether it says that it has rows, which it does not if nothing stays of `.eh_frame`.
    pub says_rows: bool,
    /// The sections whose entries are not understood.
    pub unknown: Vec<SectionId>,
    /// Why GNU ld makes no such table, or one that is not known.
    pub problem: Option<EhFrameHdrProblem>,
}

/// A row of the table.
#[derive(Clone, Copy, PartialEq, Eq, PartialOrd, Ord, Debug)]
pub struct FrameRow {
    /// The address of the code.
    pub code: u64,
    /// Its bytes.
    pub range: u64,
    /// The address of the entry.
    pub entry: u64,
    /// The section of the code, if it is in one.
    pub code_in: Option<SectionId>,
    /// The section of the entry.
    pub entry_in: SectionId,
}

/// Why there is no table.
#[derive(Clone, Copy, PartialEq, Eq, Debug, thiserror::Error)]
pub enum EhFrameHdrProblem {
    /// Two entries are of the same code.
    #[error(".eh_frame_hdr refers to overlapping FDEs")]
    Overlap,
    /// A distance has more than 32 bits.
    #[error(".eh_frame_hdr entry overflow")]
    Overflow,
    /// The address in an entry is of a kind that is not followed.
    #[error("the code of an entry of .eh_frame is not known")]
    Unknown,
}

impl EhFrameHdr {
    /// Takes rows in any order; `start` is the address of the table's output section.
    fn with_rows(mut self, rows: Result<Vec<FrameRow>, EhFrameHdrProblem>, start: u64) -> EhFrameHdr {
        match rows {
            Ok(mut rows) => {
                rows.sort_unstable();
                self.problem = problem_of(&rows, start);
                self.rows = Some(rows);
            }
            Err(problem) => self.problem = Some(problem),
        }
        self
    }
}

/// What GNU ld has against rows that ascend.
fn problem_of(rows: &[FrameRow], start: u64) -> Option<EhFrameHdrProblem> {
    let is_short = |address: u64| is_short(address.wrapping_sub(start));
    if !rows.iter().all(|row| is_short(row.code) && is_short(row.entry)) {
        return Some(EhFrameHdrProblem::Overflow);
    }
    let follows = |(before, row): (&FrameRow, &FrameRow)| row.code >= before.code.wrapping_add(before.range);
    let all_follow = rows.iter().zip(rows.iter().skip(1)).all(follows);
    (!all_follow).then_some(EhFrameHdrProblem::Overlap)
}

/// Whether a distance has 32 bits.
fn is_short(distance: u64) -> bool {
    distance as i32 as u64 == distance
}

/// What is known of the symbols of entries.
pub(in crate::layout) struct Targets<'a> {
    link: &'a Link<'a>,
    objects: &'a [Object],
    /// The definitions of the names among them.
    names: LinkNames,
}

impl<'a> Targets<'a> {
    /// For symbols of objects.
    pub(in crate::layout) fn of(
        link: &'a Link<'a>,
        objects: &'a [Object],
        symbols: impl Iterator<Item = (ObjectIndex, SymbolIndex)>,
    ) -> Targets<'a> {
        let symbol = |(index, number): (ObjectIndex, SymbolIndex)| objects.get(index.0 as usize)?.symbol(number);
        let names = symbols.filter_map(symbol).filter(|symbol| symbol.binding != Binding::Local);
        let names = LinkNames::look_up(objects, names.map(|symbol| symbol.name.to_owned()).collect::<Vec<_>>());
        Targets { link, objects, names }
    }

    /// The address that a symbol stands for, and the section that it is in.
    fn address(&self, index: ObjectIndex, number: SymbolIndex) -> Option<(u64, Option<SectionId>)> {
        let symbol = self.objects.get(index.0 as usize)?.symbol(number)?;
        if symbol.binding == Binding::Local {
            return self.of_home(index, symbol.home, symbol.value);
        }
        let known = self.link.program.symbols.find(symbol.name).and_then(|id| self.link.symbol(id));
        if let Some(known) = known.filter(|known| known.is_known && known.is_defined()) {
            return Some((self.link.symbol_value(known)?.address, known.section));
        }
        match self.names.definition(symbol.name) {
            Some(found) => self.of_home(found.object, found.home, found.value),
            None => Some((0, None)),
        }
    }

    fn of_home(&self, index: ObjectIndex, home: Home, value: u64) -> Option<(u64, Option<SectionId>)> {
        match home {
            Home::Section(number) => {
                let id = self.link.own_section(index, number)?;
                let section = self.link.section(id).filter(|section| !section.flags.has(Flags::MERGE))?;
                let place = self.link.place(section.output()?)?;
                Some((place.address.wrapping_add(section.offset).wrapping_add(value), Some(id)))
            }
            Home::Absolute => Some((value, None)),
            Home::Undefined | Home::Common | Home::Reserved(_) => None,
        }
    }

    /// What GNU ld reads in a field of an object that was at an address, and the section that the target is in.
    pub(in crate::layout) fn value(
        &self,
        index: ObjectIndex,
        field: &Field,
        place: u64,
    ) -> Option<(u64, Option<SectionId>)> {
        let (address, section) = self.address(index, field.relocation.symbol)?;
        let target = address.wrapping_add(field.relocation.addend as u64);
        Some((field.value(target, place)?, section))
    }
}

impl Link<'_> {
    /// Looks for the object of the table.
    pub(in crate::layout) fn find_eh_frame_hdr(&mut self, objects: &[Object]) {
        let object = objects.iter().position(Object::is_eh_frame_hdr);
        let object = object.map(|object| ObjectIndex(object as u32));
        self.eh_frame_hdr = object.and_then(|object| self.own_section(object, EH_FRAME_HDR_SECTION));
        self.headers.eh_frame_hdr = self.eh_frame_hdr;
    }

    /// Leaves the table out if the script does, or there are no entries.
    pub(in crate::layout) fn check_eh_frame_hdr(&mut self) {
        let id = match self.eh_frame_hdr {
            Some(id) => id,
            None => return,
        };
        let is_placed = self.section(id).map_or(false, |section| section.output().is_some());
        let frames = first_made(self, b".eh_frame").and_then(|output| self.place(output));
        let mut inputs = frames.into_iter().flat_map(|place| &place.inputs);
        let has_entries = inputs.any(|id| self.section(*id).map_or(false, |section| section.size > NO_ENTRY));
        let is_left_out = !is_placed || !has_entries;
        if let Some(section) = self.section_mut(id) {
            section.flags |= if is_left_out { Flags::EXCLUDE } else { Flags::NONE };
            section.size = 0; // until `.eh_frame` is known
        }
        if is_left_out {
            self.eh_frame_hdr = None;
            self.headers.eh_frame_hdr = None;
        }
    }

    /// Gives the table its size, for a number of rows if it has any; says whether there is a table.
    pub(in crate::layout) fn size_eh_frame_hdr(&mut self, rows: Option<usize>) -> bool {
        let size = EH_FRAME_HDR_HEAD + rows.map_or(0, |rows| FRAME_COUNT_SIZE + FRAME_ROW_SIZE * rows as u64);
        let table = self.eh_frame_hdr.and_then(|id| self.section_mut(id));
        table.map(|section| section.size = size).is_some()
    }

    /// The table of what stays of `.eh_frame`, as all places are known.
    pub(in crate::layout) fn eh_frame_hdr_of(
        &self,
        frames: &Frames,
        rows: Result<Vec<FrameRow>, EhFrameHdrProblem>,
    ) -> Option<EhFrameHdr> {
        let section = self.eh_frame_hdr?;
        let start = self.place(self.section(section)?.output()?)?.address;
        let table = EhFrameHdr {
            section,
            frames: first_made(self, b".eh_frame")?,
            rows: None,
            says_rows: frames.has_entries(),
            unknown: frames.unknown().to_vec(),
            problem: None,
        };
        Some(if table.unknown.is_empty() { table.with_rows(rows, start) } else { table })
    }

    /// The section of an object by the number of its header.
    pub(in crate::layout) fn own_section(&self, index: ObjectIndex, number: SectionIndex) -> Option<SectionId> {
        let first = self.first_of(index);
        let own = self.sections.get(first..)?;
        let is_before = |one: &crate::layout::evaluation::InputSection| {
            one.object == index && one.number().map_or(false, |own| own < number)
        };
        let at = own.partition_point(is_before);
        own.get(at).filter(|one| one.object == index && one.number() == Some(number))?;
        Some(SectionId::new(first + at))
    }
}

#[cfg(test)]
mod tests {
    use super::*;

    fn row(code: u64, range: u64) -> FrameRow {
        FrameRow { code, range, entry: 0x2000, code_in: None, entry_in: SectionId::new(0) }
    }

    /// elf-eh-frame.c, `write_dwarf_eh_frame_hdr`
    #[test]
    fn rows_ascend_apart_and_near() {
        let made = |rows: &[FrameRow]| {
            let (section, frames) = (SectionId::new(1), OutputId::new(2));
            let table = EhFrameHdr { section, frames, rows: None, says_rows: true, unknown: Vec::new(), problem: None };
            let made = table.with_rows(Ok(rows.to_vec()), 0x3000);
            (made.rows.unwrap().iter().map(|row| row.code).collect::<Vec<_>>(), made.problem)
        };
        assert_eq!(made(&[row(0x1010, 4), row(0x1000, 0x10)]), (vec![0x1000, 0x1010], None));
        assert_eq!(made(&[row(0x1000, 0x11), row(0x1010, 4)]).1, Some(EhFrameHdrProblem::Overlap));
        assert_eq!(made(&[row(0x8000_3000, 4)]).1, Some(EhFrameHdrProblem::Overflow));
        assert_eq!(made(&[row(0x8000_2FFF, 4)]).1, None);
        assert_eq!(made(&[]), (vec![], None));
    }
}
