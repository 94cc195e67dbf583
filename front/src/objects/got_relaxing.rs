//! References by a global offset table that need no entry (psABI, B.2 'Optimize GOTPCRELX Relocations'), relaxed as by
//! GNU ld in a static image (bfd/elf64-x86-64.c, `elf_x86_64_convert_load_reloc`).

use object::elf;

/// `mov foo@GOTPCREL(%rip), %reg`
const MOV: u8 = 0x8B;
/// `lea foo(%rip), %reg`
const LEA: u8 = 0x8D;
/// `mov $foo, %reg`
const MOV_IMMEDIATE: u8 = 0xC7;
/// `test %reg, foo@GOTPCREL(%rip)`, and with an immediate
const TEST: u8 = 0x85;
const TEST_IMMEDIATE: u8 = 0xF7;
/// A binary operation with an immediate
const BINARY_IMMEDIATE: u8 = 0x81;
/// `call *foo@GOTPCREL(%rip)` or `jmp *foo@GOTPCREL(%rip)`
const BRANCH: u8 = 0xFF;
/// The ModRM byte of such a `jmp`
const JMP_MODRM: u8 = 0x25;
const CALL_DIRECT: u8 = 0xE8;
const JMP_DIRECT: u8 = 0xE9;
/// The prefix in front of a call that is a byte shorter
const ADDR32: u8 = 0x67;
const NOP: u8 = 0x90;
/// Bits of a REX prefix
const REX_R: u8 = 4;
const REX_W: u8 = 8;

/// What is known of the symbol of such a reference.
#[derive(Clone, Copy, PartialEq, Eq, Debug)]
pub(super) enum Referred {
    /// A number.
    Number(u64),
    /// Anything else that has, or may get, a value.
    Other,
    /// What is never reached without a table: no symbol, or an indirect function.
    ByTableAlone,
}

/// A reference of R_X86_64_GOTPCREL and its like.
#[derive(Clone, Copy, PartialEq, Eq, Debug)]
pub(super) struct Reference {
    /// Where the field is, in bytes from the start of the section.
    pub(super) offset: u64,
    /// `ELF64_R_TYPE`
    pub(super) kind: u32,
    /// `r_addend`
    pub(super) addend: i64,
    /// Its symbol.
    pub(super) symbol: Referred,
}

/// A reference after it was relaxed.
#[derive(Clone, PartialEq, Eq, Debug)]
pub(super) struct Relaxed {
    /// Where the field is now.
    pub(super) offset: u64,
    /// The type of the relocation.
    pub(super) kind: u32,
    /// Its addend.
    pub(super) addend: i64,
    /// Places in the section, and the bytes there.
    pub(super) bytes: Vec<(u64, u8)>,
}

/// Whether a relocation of this type may become another one.
pub(super) fn may_relax(kind: u32) -> bool {
    matches!(kind, elf::R_X86_64_GOTPCREL | elf::R_X86_64_GOTPCRELX | elf::R_X86_64_REX_GOTPCRELX)
}

/// A reference as it is without a global offset table; `None` if GNU ld makes an entry for it.
pub(super) fn relaxed(code: &[u8], reference: Reference) -> Option<Relaxed> {
    let Reference { offset, kind, addend, symbol } = reference;
    let has_rex = kind == elf::R_X86_64_REX_GOTPCRELX;
    let is_new = has_rex || kind == elf::R_X86_64_GOTPCRELX;
    let at = |back: u64| offset.checked_sub(back).and_then(|at| code.get(usize::try_from(at).ok()?)).copied();
    if !may_relax(kind) || addend != -4 || symbol == Referred::ByTableAlone {
        return None;
    }
    let instruction = Instruction {
        rex: if has_rex { at(3)? } else { 0 },
        operation: at(2)?,
        modrm: at(1)?,
        offset,
        has_field: usize::try_from(offset).ok().and_then(|at| code.get(at..at.checked_add(4)?)).is_some(),
    };
    match instruction.operation {
        _ if !instruction.has_field => None,
        MOV if !is_new => Some(instruction.lea()),
        _ if !is_new => None,
        BRANCH => Some(instruction.branch()),
        MOV => instruction.immediate(MOV_IMMEDIATE, instruction.register(), REX_W, symbol),
        TEST => instruction.immediate(TEST_IMMEDIATE, instruction.register(), 0, symbol),
        operation => instruction.immediate(BINARY_IMMEDIATE, instruction.register() | operation & 0x3C, 0, symbol),
    }
}

/// The instruction that such a reference is the operand of.
#[derive(Clone, Copy)]
struct Instruction {
    /// The REX prefix, or 0.
    rex: u8,
    operation: u8,
    modrm: u8,
    /// Where the field is.
    offset: u64,
    /// Whether the field is in the section.
    has_field: bool,
}

impl Instruction {
    fn place(&self, back: u64, byte: u8) -> (u64, u8) {
        (self.offset.wrapping_sub(back), byte)
    }

    /// The ModRM byte of an operation on the same register alone.
    fn register(&self) -> u8 {
        0xC0 | (self.modrm & 0x38) >> 3
    }

    fn lea(&self) -> Relaxed {
        Relaxed { offset: self.offset, kind: elf::R_X86_64_PC32, addend: -4, bytes: vec![self.place(2, LEA)] }
    }

    /// `addr32 call foo`, or `jmp foo` and `nop`.
    fn branch(&self) -> Relaxed {
        let kind = elf::R_X86_64_PC32;
        if self.modrm == JMP_MODRM {
            let bytes = vec![self.place(2, JMP_DIRECT), (self.offset.wrapping_add(3), NOP)];
            return Relaxed { offset: self.offset.wrapping_sub(1), kind, addend: -4, bytes };
        }
        let bytes = vec![self.place(2, ADDR32), self.place(1, CALL_DIRECT)];
        Relaxed { offset: self.offset, kind, addend: -4, bytes }
    }

    /// An operation with the value itself; `narrowing` are the bits of REX that are not needed if the value is not
    /// extended by its sign.
    fn immediate(&self, operation: u8, modrm: u8, narrowing: u8, symbol: Referred) -> Option<Relaxed> {
        let is_wide = self.rex & REX_W != 0;
        let (kind, mask) = match is_wide {
            true => (elf::R_X86_64_32S, REX_R),
            false => (elf::R_X86_64_32, REX_R | narrowing),
        };
        let fits = match symbol {
            Referred::Number(value) if is_wide => value.wrapping_add(1 << 31) <= u64::from(u32::MAX),
            Referred::Number(value) => value <= u64::from(u32::MAX),
            Referred::Other | Referred::ByTableAlone => true,
        };
        let mut bytes = vec![self.place(1, modrm), self.place(2, operation)];
        if self.rex != 0 {
            bytes.push(self.place(3, self.rex & !mask | (self.rex & REX_R) >> 2));
        }
        fits.then_some(Relaxed { offset: self.offset, kind, addend: 0, bytes })
    }
}

#[cfg(test)]
mod tests {
    use super::*;

    const OLD: u32 = elf::R_X86_64_GOTPCREL;
    const NEW: u32 = elf::R_X86_64_GOTPCRELX;
    const REX: u32 = elf::R_X86_64_REX_GOTPCRELX;

    fn reference(kind: u32, offset: u64) -> Reference {
        Reference { offset, kind, addend: -4, symbol: Referred::Other }
    }

    /// The code, the type, the place and the addend after it.
    fn of(code: &[u8], reference: Reference) -> Option<(Vec<u8>, u32, u64, i64)> {
        let found = relaxed(code, reference)?;
        let mut code = code.to_vec();
        for (at, byte) in found.bytes {
            code[at as usize] = byte;
        }
        Some((code, found.kind, found.offset, found.addend))
    }

    /// psABI, B.2: `mov` with R_X86_64_GOTPCREL.
    #[test]
    fn mov_of_old_objects_is_lea() {
        let found = of(b"\x48\x8b\x05\0\0\0\0", reference(OLD, 3));
        assert_eq!(found, Some((b"\x48\x8d\x05\0\0\0\0".to_vec(), elf::R_X86_64_PC32, 3, -4)));
    }

    /// psABI, B.2: `mov` to `mov` with an immediate: %r9 and %rax; %ecx; %r8d.
    #[test]
    fn mov_is_one_of_an_immediate() {
        let found = of(b"\x4c\x8b\x0d\0\0\0\0", reference(REX, 3));
        assert_eq!(found, Some((b"\x49\xc7\xc1\0\0\0\0".to_vec(), elf::R_X86_64_32S, 3, 0)));
        let found = of(b"\x48\x8b\x05\0\0\0\0", reference(REX, 3));
        assert_eq!(found, Some((b"\x48\xc7\xc0\0\0\0\0".to_vec(), elf::R_X86_64_32S, 3, 0)));
        let found = of(b"\x8b\x0d\0\0\0\0", reference(NEW, 2));
        assert_eq!(found, Some((b"\xc7\xc1\0\0\0\0".to_vec(), elf::R_X86_64_32, 2, 0)));
        let found = of(b"\x44\x8b\x05\0\0\0\0", reference(REX, 3));
        assert_eq!(found, Some((b"\x41\xc7\xc0\0\0\0\0".to_vec(), elf::R_X86_64_32, 3, 0)));
    }

    /// psABI, B.2: `call` and `jmp`.
    #[test]
    fn branches_are_direct() {
        let found = of(b"\xff\x15\0\0\0\0", reference(NEW, 2));
        assert_eq!(found, Some((b"\x67\xe8\0\0\0\0".to_vec(), elf::R_X86_64_PC32, 2, -4)));
        let found = of(b"\xff\x25\0\0\0\0", reference(NEW, 2));
        assert_eq!(found, Some((b"\xe9\x25\0\0\0\x90".to_vec(), elf::R_X86_64_PC32, 1, -4)));
        assert_eq!(of(b"\xff\x15\0\0\0\0", reference(OLD, 2)), None);
    }

    /// psABI, B.2: `test`, and a binary operation (`cmp`, `add`), %r15 and %rax.
    #[test]
    fn operations_are_those_of_an_immediate() {
        let found = of(b"\x4c\x85\x3d\0\0\0\0", reference(REX, 3));
        assert_eq!(found, Some((b"\x49\xf7\xc7\0\0\0\0".to_vec(), elf::R_X86_64_32S, 3, 0)));
        let found = of(b"\x48\x3b\x05\0\0\0\0", reference(REX, 3));
        assert_eq!(found, Some((b"\x48\x81\xf8\0\0\0\0".to_vec(), elf::R_X86_64_32S, 3, 0)));
        let found = of(b"\x03\x0d\0\0\0\0", reference(NEW, 2));
        assert_eq!(found, Some((b"\x81\xc1\0\0\0\0".to_vec(), elf::R_X86_64_32, 2, 0)));
    }

    /// elf64-x86-64.c, `elf_x86_64_convert_load_reloc`: a number must fit.
    #[test]
    fn a_number_that_does_not_fit_has_an_entry() {
        let number = |value| Reference { symbol: Referred::Number(value), ..reference(REX, 3) };
        assert!(of(b"\x48\x8b\x05\0\0\0\0", number(0x7FFF_FFFF)).is_some());
        assert!(of(b"\x48\x8b\x05\0\0\0\0", number(0xFFFF_FFFF_8000_0000)).is_some());
        assert_eq!(of(b"\x48\x8b\x05\0\0\0\0", number(0x8000_0000)), None);
        assert!(of(b"\x40\x8b\x05\0\0\0\0", number(0x8000_0000)).is_some());
        assert_eq!(of(b"\x40\x8b\x05\0\0\0\0", number(0x1_0000_0000)), None);
    }

    #[test]
    fn what_has_an_entry() {
        assert_eq!(of(b"\x48\x3b\x05\0\0\0\0", reference(OLD, 3)), None);
        assert_eq!(of(b"\x48\x8b\x05\0\0\0\0", Reference { addend: 0, ..reference(REX, 3) }), None);
        assert_eq!(
            of(b"\x48\x8b\x05\0\0\0\0", Reference { symbol: Referred::ByTableAlone, ..reference(REX, 3) }),
            None
        );
        assert_eq!(of(b"\x48\x8b\x05\0\0\0\0", reference(elf::R_X86_64_GOT64, 3)), None);
    }

    #[test]
    fn a_field_at_an_end_is_no_panic() {
        for offset in [0, 1, 2, 3, 4, 7, u64::MAX] {
            for kind in [OLD, NEW, REX] {
                let _ = of(b"\x48\x8b\x05\0", reference(kind, offset));
            }
        }
        assert_eq!(of(b"", reference(REX, 3)), None);
    }
}
