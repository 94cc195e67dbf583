//! Relocations of sections that are not loaded (psABI, 'Relocation Types'; bfd/elf64-x86-64.c,
//! `x86_64_elf_howto_table`).

use object::elf;

use crate::objects::Relocation;

/// What a field may have.
#[derive(Clone, Copy, PartialEq, Eq, Debug)]
enum Range {
    Any,
    Unsigned,
    Signed,
    Either,
}

/// A field of a relocation.
#[derive(Clone, Copy, PartialEq, Eq, Debug)]
pub(super) struct Field {
    /// Its bytes.
    pub(super) width: usize,
    /// Whether it is a distance from its place.
    pub(super) is_relative: bool,
    range: Range,
}

/// Why a relocation does not apply.
#[derive(Clone, Copy, PartialEq, Eq, Debug, thiserror::Error)]
pub enum Fault {
    /// The relocation has no type of a section that is not loaded.
    #[error("relocations of type {0}")]
    Kind(u32),
    /// The field is not in the section.
    #[error("a relocation past the end")]
    PastEnd,
    /// The value does not fit.
    #[error("a value that does not fit")]
    Overflow,
}

impl Field {
    /// The field of a type; `None` of one that has none.
    pub(super) fn of(kind: u32) -> Result<Option<Field>, Fault> {
        let field = |width, is_relative, range| Ok(Some(Field { width, is_relative, range }));
        match kind {
            elf::R_X86_64_NONE => Ok(None),
            elf::R_X86_64_64 => field(8, false, Range::Any),
            elf::R_X86_64_PC64 => field(8, true, Range::Any),
            elf::R_X86_64_32 => field(4, false, Range::Unsigned),
            elf::R_X86_64_32S => field(4, false, Range::Signed),
            elf::R_X86_64_PC32 | elf::R_X86_64_PLT32 => field(4, true, Range::Signed),
            elf::R_X86_64_16 => field(2, false, Range::Either),
            elf::R_X86_64_PC16 => field(2, true, Range::Either),
            elf::R_X86_64_8 => field(1, false, Range::Either),
            elf::R_X86_64_PC8 => field(1, true, Range::Signed),
            _ => Err(Fault::Kind(kind)),
        }
    }

    fn fits(self, value: u64) -> bool {
        let bits = 8 * self.width as u32;
        if bits == 64 {
            return true;
        }
        let (high, sign) = (value >> bits, (value as i64) >> (bits - 1));
        match self.range {
            Range::Any => true,
            Range::Unsigned => high == 0,
            Range::Signed => sign == 0 || sign == -1,
            Range::Either => high == 0 || sign == -1,
        }
    }
}

/// Writes a value into the field of a relocation; `None`: what it names is not in the output, and `placeholder` stands
/// for it.
pub(super) fn apply(
    bytes: &mut [u8],
    relocation: &Relocation,
    value: Option<u64>,
    placeholder: u64,
) -> Result<(), Fault> {
    let field = match Field::of(relocation.kind)? {
        Some(field) => field,
        None => return Ok(()),
    };
    let start = usize::try_from(relocation.offset).map_err(|_| Fault::PastEnd)?;
    let end = start.checked_add(field.width).ok_or(Fault::PastEnd)?;
    let place = bytes.get_mut(start..end).ok_or(Fault::PastEnd)?;
    if value.map_or(false, |value| !field.fits(value)) {
        return Err(Fault::Overflow);
    }
    let bytes = value.unwrap_or(placeholder).to_le_bytes();
    place.iter_mut().zip(bytes).for_each(|(to, from)| *to = from);
    Ok(())
}

#[cfg(test)]
mod tests {
    use super::*;
    use crate::objects::SymbolIndex;

    fn applied(kind: u32, offset: u64, value: Option<u64>, placeholder: u64) -> Result<Vec<u8>, Fault> {
        let mut bytes = vec![0xEE; 10];
        let relocation = Relocation { offset, kind, symbol: SymbolIndex(0), addend: 0 };
        apply(&mut bytes, &relocation, value, placeholder).map(|()| bytes)
    }

    #[test]
    fn fields_are_written() {
        assert_eq!(applied(elf::R_X86_64_32, 1, Some(0x0102_0304), 0).unwrap()[..6], [0xEE, 4, 3, 2, 1, 0xEE]);
        assert_eq!(applied(elf::R_X86_64_64, 2, Some(5), 0).unwrap()[2..], [5, 0, 0, 0, 0, 0, 0, 0]);
        assert_eq!(applied(elf::R_X86_64_NONE, 99, Some(5), 0).unwrap(), [0xEE; 10]);
    }

    /// elf64-x86-64.c: `complain_overflow_unsigned` and its like.
    #[test]
    fn values_that_do_not_fit_are_faults() {
        for (kind, value, fits) in [
            (elf::R_X86_64_32, 0xFFFF_FFFF, true),
            (elf::R_X86_64_32, 0x1_0000_0000, false),
            (elf::R_X86_64_32S, 0x8000_0000, false),
            (elf::R_X86_64_32S, 0xFFFF_FFFF_8000_0000, true),
            (elf::R_X86_64_16, 0xFFFF, true),
            (elf::R_X86_64_16, 0xFFFF_FFFF_FFFF_8000, true),
            (elf::R_X86_64_16, 0x1_0000, false),
            (elf::R_X86_64_8, 0x100, false),
        ] {
            assert_eq!(applied(kind, 0, Some(value), 0).is_ok(), fits, "{} {:#x}", kind, value);
        }
        assert_eq!(applied(elf::R_X86_64_64, 3, Some(0), 0), Err(Fault::PastEnd));
        assert_eq!(applied(elf::R_X86_64_64, u64::MAX, Some(0), 0), Err(Fault::PastEnd));
        assert_eq!(applied(elf::R_X86_64_GOTPCREL, 0, Some(0), 0), Err(Fault::Kind(9)));
    }

    /// bfd/reloc.c, `_bfd_clear_contents`.
    #[test]
    fn what_is_gone_has_a_placeholder() {
        assert_eq!(applied(elf::R_X86_64_64, 0, None, 1).unwrap()[..8], [1, 0, 0, 0, 0, 0, 0, 0]);
        assert_eq!(applied(elf::R_X86_64_32, 0, None, 0).unwrap()[..4], [0; 4]);
    }
}
