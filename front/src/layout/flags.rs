//! Flags of sections, as GNU ld has them (`SEC_*` of bfd).

use object::elf;
use std::ops::{BitAnd, BitOr, BitOrAssign, BitXor, Not};

/// A set of flags.
#[derive(Clone, Copy, PartialEq, Eq, Hash, Default, Debug)]
pub struct Flags(u32);

impl Flags {
    /// No flags.
    pub const NONE: Flags = Flags(0);
    /// SEC_ALLOC: takes memory.
    pub const ALLOC: Flags = Flags(1);
    /// SEC_LOAD: its bytes are loaded.
    pub const LOAD: Flags = Flags(1 << 1);
    /// SEC_READONLY
    pub const READONLY: Flags = Flags(1 << 2);
    /// SEC_CODE
    pub const CODE: Flags = Flags(1 << 3);
    /// SEC_DATA
    pub const DATA: Flags = Flags(1 << 4);
    /// SEC_HAS_CONTENTS: has bytes in the file.
    pub const CONTENTS: Flags = Flags(1 << 5);
    /// SEC_NEVER_LOAD
    pub const NEVER_LOAD: Flags = Flags(1 << 6);
    /// SEC_THREAD_LOCAL
    pub const TLS: Flags = Flags(1 << 7);
    /// SEC_EXCLUDE: left out of the image.
    pub const EXCLUDE: Flags = Flags(1 << 8);
    /// SEC_KEEP: kept although nothing refers to it, or although it is empty.
    pub const KEEP: Flags = Flags(1 << 9);
    /// SEC_LINKER_CREATED
    pub const CREATED: Flags = Flags(1 << 10);
    /// SEC_DEBUGGING
    pub const DEBUGGING: Flags = Flags(1 << 11);
    /// SEC_MERGE
    pub const MERGE: Flags = Flags(1 << 12);
    /// SEC_STRINGS
    pub const STRINGS: Flags = Flags(1 << 13);

    /// Whether it has a flag of a set.
    pub fn has(self, flags: Flags) -> bool {
        self.0 & flags.0 != 0
    }

    /// Whether it has all flags of a set.
    pub fn has_all(self, flags: Flags) -> bool {
        self.0 & flags.0 == flags.0
    }

    /// Without the flags of a set.
    pub fn without(self, flags: Flags) -> Flags {
        Flags(self.0 & !flags.0)
    }

    /// The flags of an object's section, by its header (elf.c, `_bfd_elf_make_section_from_shdr`).
    pub fn of_section(name: &[u8], kind: u32, bits: u64) -> Flags {
        let has = |flag: u32| bits & u64::from(flag) != 0;
        let mut flags = if kind == elf::SHT_NOBITS { Flags::NONE } else { Flags::CONTENTS };
        if has(elf::SHF_ALLOC) {
            flags |= Flags::ALLOC;
            if kind != elf::SHT_NOBITS {
                flags |= Flags::LOAD;
            }
        }
        if !has(elf::SHF_WRITE) {
            flags |= Flags::READONLY;
        }
        if has(elf::SHF_EXECINSTR) {
            flags |= Flags::CODE;
        } else if flags.has(Flags::LOAD) {
            flags |= Flags::DATA;
        }
        for (bit, flag) in [
            (elf::SHF_MERGE, Flags::MERGE),
            (elf::SHF_STRINGS, Flags::STRINGS),
            (elf::SHF_TLS, Flags::TLS),
            (elf::SHF_EXCLUDE, Flags::EXCLUDE),
        ] {
            if has(bit) {
                flags |= flag;
            }
        }
        if !has(elf::SHF_ALLOC) && is_debugging(name) {
            flags |= Flags::DEBUGGING;
        }
        flags
    }
}

/// Whether a section without ALLOC is of debug information, which its name says alone.
fn is_debugging(name: &[u8]) -> bool {
    const FRONTS: [&[u8]; 6] =
        [b".debug", b".gnu.debuglto_.debug_", b".gnu.linkonce.wi.", b".zdebug", b".line", b".stab"];
    name == b".gdb_index" || FRONTS.iter().any(|front| name.starts_with(front))
}

impl BitOr for Flags {
    type Output = Flags;
    fn bitor(self, other: Flags) -> Flags {
        Flags(self.0 | other.0)
    }
}

impl BitAnd for Flags {
    type Output = Flags;
    fn bitand(self, other: Flags) -> Flags {
        Flags(self.0 & other.0)
    }
}

impl BitXor for Flags {
    type Output = Flags;
    fn bitxor(self, other: Flags) -> Flags {
        Flags(self.0 ^ other.0)
    }
}

impl Not for Flags {
    type Output = Flags;
    fn not(self) -> Flags {
        Flags(!self.0)
    }
}

impl BitOrAssign for Flags {
    fn bitor_assign(&mut self, other: Flags) {
        self.0 |= other.0;
    }
}
