//! The symbols of sections, which relocations refer to (elflink.c, `bfd_elf_final_link`).

use object::elf;

use super::numbers::Numbers;
use super::outputs::Outputs;
use super::table::{SymbolEntry, Writer};
use crate::layout::Evaluation;

/// Writes one for each section that GNU ld's file has, in its order.
pub(super) fn write(writer: &mut Writer, evaluation: &Evaluation, outputs: &Outputs, numbers: &mut Numbers<'_>) {
    for output in evaluation.listed.iter().filter_map(|id| outputs.get(*id)) {
        numbers.set_section(output.number.into(), writer.count());
        let (section, value) = (output.number, output.address);
        writer.add(b"", SymbolEntry { info: elf::STT_SECTION, section, value, ..SymbolEntry::default() });
    }
}
