//! References by a global offset table that GNU ld leaves as they are, since the value that their symbol has before
//! sections have places fits into no immediate operand (bfd/elf64-x86-64.c, `elf_x86_64_convert_load_reloc`:
//! `abs_relocation`).

use bstr::{BStr, BString};
use object::elf;

use crate::layout::Evaluation;
use crate::objects::Object;

/// The symbols of the script for which GNU ld has entries for this reason, if the objects are linked without.
pub(super) fn kept_by_first_values(objects: &[Object], evaluation: &Evaluation) -> Vec<BString> {
    let with_values = evaluation.symbols.iter().filter(|symbol| symbol.is_in_objects).filter_map(|symbol| {
        let value = symbol.first_value.filter(|value| *value >= 1 << 31)?;
        Some((&symbol.name, value))
    });
    let is_kept = |(name, value): &(&BString, u64)| {
        objects.iter().any(|object| object.has_relaxed() && has_immediate(object, (*name).as_ref(), *value))
    };
    with_values.filter(is_kept).map(|(name, _)| name.clone()).collect()
}

/// Whether an object has a symbol's value as an operand in place of a reference, and this value does not fit.
fn has_immediate(object: &Object, name: &BStr, value: u64) -> bool {
    object.sections().any(|section| {
        object.relocations(section.index).any(|one| {
            !fits(one.kind, value)
                && object.is_relaxed(section.index, one.offset)
                && object.symbol(one.symbol).map_or(false, |symbol| symbol.name == name)
        })
    })
}

/// Whether a value fits into the field of such an operand.
fn fits(kind: u32, value: u64) -> bool {
    match kind {
        elf::R_X86_64_32S => value.wrapping_add(1 << 31) <= u64::from(u32::MAX),
        elf::R_X86_64_32 => value <= u64::from(u32::MAX),
        _ => true,
    }
}

#[cfg(test)]
mod tests {
    use super::*;

    /// elf64-x86-64.c, `elf_x86_64_convert_load_reloc`: 'Check if R_X86_64_32S/R_X86_64_32 fits'.
    #[test]
    fn values_that_fit() {
        let fit = |kind| [0, 0x7FFF_FFFF, 0x8000_0000, u64::MAX, 1 << 32].map(|value| fits(kind, value));
        assert_eq!(fit(elf::R_X86_64_32S), [true, true, false, true, false]);
        assert_eq!(fit(elf::R_X86_64_32), [true, true, true, false, false]);
        assert_eq!(fit(elf::R_X86_64_PC32), [true; 5]);
    }
}
