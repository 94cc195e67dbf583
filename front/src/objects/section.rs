//! Sections of an object.

use bstr::BStr;
use std::fmt;

/// The number of a section header in its object; 0 is no section.
#[derive(Clone, Copy, PartialEq, Eq, PartialOrd, Ord, Hash, Debug, Default)]
pub struct SectionIndex(pub u32);

/// The type of a section (`sh_type`).
#[derive(Clone, Copy, PartialEq, Eq, PartialOrd, Ord, Hash, Debug)]
pub struct SectionKind(pub u32);

impl SectionKind {
    /// SHT_NULL
    pub const NULL: SectionKind = SectionKind(0);
    /// SHT_PROGBITS
    pub const PROGBITS: SectionKind = SectionKind(1);
    /// SHT_SYMTAB
    pub const SYMTAB: SectionKind = SectionKind(2);
    /// SHT_STRTAB
    pub const STRTAB: SectionKind = SectionKind(3);
    /// SHT_RELA
    pub const RELA: SectionKind = SectionKind(4);
    /// SHT_NOTE
    pub const NOTE: SectionKind = SectionKind(7);
    /// SHT_NOBITS
    pub const NOBITS: SectionKind = SectionKind(8);
    /// SHT_INIT_ARRAY
    pub const INIT_ARRAY: SectionKind = SectionKind(14);
    /// SHT_FINI_ARRAY
    pub const FINI_ARRAY: SectionKind = SectionKind(15);
    /// SHT_PREINIT_ARRAY
    pub const PREINIT_ARRAY: SectionKind = SectionKind(16);
    /// SHT_GROUP
    pub const GROUP: SectionKind = SectionKind(17);
    /// SHT_X86_64_UNWIND
    pub const X86_64_UNWIND: SectionKind = SectionKind(0x7000_0001);

    /// Whether sections of this type are linked; symbol tables, string tables and relocations are not.
    pub fn is_linked(self) -> bool {
        matches!(
            self,
            SectionKind::PROGBITS
                | SectionKind::NOTE
                | SectionKind::NOBITS
                | SectionKind::INIT_ARRAY
                | SectionKind::FINI_ARRAY
                | SectionKind::PREINIT_ARRAY
                | SectionKind::X86_64_UNWIND
        )
    }
}

/// The flags of a section (`sh_flags`).
#[derive(Clone, Copy, PartialEq, Eq, PartialOrd, Ord, Hash, Default)]
pub struct SectionFlags(pub u64);

impl SectionFlags {
    /// SHF_WRITE
    pub const WRITE: SectionFlags = SectionFlags(0x1);
    /// SHF_ALLOC
    pub const ALLOC: SectionFlags = SectionFlags(0x2);
    /// SHF_EXECINSTR
    pub const EXECINSTR: SectionFlags = SectionFlags(0x4);
    /// SHF_MERGE
    pub const MERGE: SectionFlags = SectionFlags(0x10);
    /// SHF_STRINGS
    pub const STRINGS: SectionFlags = SectionFlags(0x20);
    /// SHF_INFO_LINK
    pub const INFO_LINK: SectionFlags = SectionFlags(0x40);
    /// SHF_LINK_ORDER
    pub const LINK_ORDER: SectionFlags = SectionFlags(0x80);
    /// SHF_OS_NONCONFORMING
    pub const OS_NONCONFORMING: SectionFlags = SectionFlags(0x100);
    /// SHF_GROUP
    pub const GROUP: SectionFlags = SectionFlags(0x200);
    /// SHF_TLS
    pub const TLS: SectionFlags = SectionFlags(0x400);
    /// SHF_COMPRESSED
    pub const COMPRESSED: SectionFlags = SectionFlags(0x800);
    /// SHF_GNU_RETAIN, in files of the systems GNU and FreeBSD
    pub const GNU_RETAIN: SectionFlags = SectionFlags(0x20_0000);
    /// SHF_X86_64_LARGE
    pub const X86_64_LARGE: SectionFlags = SectionFlags(0x1000_0000);
    /// SHF_EXCLUDE
    pub const EXCLUDE: SectionFlags = SectionFlags(0x8000_0000);

    /// Whether all of some flags are here.
    pub fn has(self, flags: SectionFlags) -> bool {
        self.0 & flags.0 == flags.0
    }
}

impl fmt::Debug for SectionFlags {
    fn fmt(&self, f: &mut fmt::Formatter<'_>) -> fmt::Result {
        write!(f, "SectionFlags({:#x})", self.0)
    }
}

/// A section header, with its name.
#[derive(Clone, Copy, PartialEq, Eq, Debug)]
pub struct Section<'a> {
    /// Its number.
    pub index: SectionIndex,
    /// Its name; empty if the table of names does not have it.
    pub name: &'a BStr,
    /// `sh_type`
    pub kind: SectionKind,
    /// `sh_flags`
    pub flags: SectionFlags,
    /// `sh_size`, in bytes
    pub size: u64,
    /// `sh_addralign`, and 1 for 0
    pub align: u64,
    /// `sh_offset`: where its bytes are in the object
    pub offset: u64,
    /// `sh_link`
    pub link: u32,
    /// `sh_info`
    pub info: u32,
    /// `sh_entsize`
    pub entry_size: u64,
}

impl Section<'_> {
    /// Whether it is linked and has memory in the image: its type is linked, and it has SHF_ALLOC.
    pub fn is_loaded(&self) -> bool {
        self.kind.is_linked() && self.flags.has(SectionFlags::ALLOC)
    }

    /// Whether it has bytes in its object.
    pub fn has_file_bytes(&self) -> bool {
        self.kind != SectionKind::NOBITS && self.kind != SectionKind::NULL && self.size > 0
    }
}

/// A relocation of a section (`Elf64_Rela`).
#[derive(Clone, Copy, PartialEq, Eq, Debug)]
pub struct Relocation {
    /// Where the field is, in bytes from the start of the section.
    pub offset: u64,
    /// `ELF64_R_TYPE`
    pub kind: u32,
    /// `ELF64_R_SYM`
    pub symbol: super::SymbolIndex,
    /// `r_addend`
    pub addend: i64,
}

impl Relocation {
    /// R_X86_64_NONE
    pub const NONE: u32 = 0;
    /// R_X86_64_64
    pub const ABSOLUTE_64: u32 = 1;
    /// R_X86_64_32
    pub const ABSOLUTE_32: u32 = 10;
}
