//! Symbols of an object.

use super::SectionIndex;
use bstr::BStr;
use object::elf;

/// The number of a symbol in the table of its object; 0 is no symbol.
#[derive(Clone, Copy, PartialEq, Eq, PartialOrd, Ord, Hash, Debug, Default)]
pub struct SymbolIndex(pub u32);

/// The binding of a symbol.
#[derive(Clone, Copy, PartialEq, Eq, Hash, Debug)]
pub enum Binding {
    /// STB_LOCAL
    Local,
    /// STB_GLOBAL
    Global,
    /// STB_WEAK
    Weak,
    /// STB_GNU_UNIQUE or another number
    Other(u8),
}

impl From<u8> for Binding {
    fn from(number: u8) -> Binding {
        match number {
            0 => Binding::Local,
            1 => Binding::Global,
            2 => Binding::Weak,
            other => Binding::Other(other),
        }
    }
}

/// The visibility of a symbol.
#[derive(Clone, Copy, PartialEq, Eq, Hash, Debug)]
pub enum Visibility {
    /// STV_DEFAULT
    Default,
    /// STV_INTERNAL
    Internal,
    /// STV_HIDDEN
    Hidden,
    /// STV_PROTECTED
    Protected,
}

impl Visibility {
    /// The visibility in `st_other`.
    pub fn of(other: u8) -> Visibility {
        match other & 3 {
            0 => Visibility::Default,
            1 => Visibility::Internal,
            2 => Visibility::Hidden,
            _ => Visibility::Protected,
        }
    }

    /// The number in `st_other`.
    pub fn number(self) -> u8 {
        match self {
            Visibility::Default => elf::STV_DEFAULT,
            Visibility::Internal => elf::STV_INTERNAL,
            Visibility::Hidden => elf::STV_HIDDEN,
            Visibility::Protected => elf::STV_PROTECTED,
        }
    }

    /// Whether the name is not exported.
    pub fn is_hidden(self) -> bool {
        matches!(self, Visibility::Internal | Visibility::Hidden)
    }
}

/// The type of a symbol (`ELF64_ST_TYPE`).
#[derive(Clone, Copy, PartialEq, Eq, Hash, Debug)]
pub struct SymbolKind(pub u8);

impl SymbolKind {
    /// STT_NOTYPE
    pub const NOTYPE: SymbolKind = SymbolKind(0);
    /// STT_OBJECT
    pub const OBJECT: SymbolKind = SymbolKind(1);
    /// STT_FUNC
    pub const FUNCTION: SymbolKind = SymbolKind(2);
    /// STT_SECTION
    pub const SECTION: SymbolKind = SymbolKind(3);
    /// STT_FILE
    pub const FILE: SymbolKind = SymbolKind(4);
    /// STT_COMMON
    pub const COMMON: SymbolKind = SymbolKind(5);
    /// STT_TLS
    pub const TLS: SymbolKind = SymbolKind(6);
    /// STT_GNU_IFUNC
    pub const GNU_IFUNC: SymbolKind = SymbolKind(10);
}

/// Where a symbol is (`st_shndx`).
#[derive(Clone, Copy, PartialEq, Eq, Hash, Debug, Default)]
pub enum Home {
    /// SHN_UNDEF
    #[default]
    Undefined,
    /// SHN_ABS: its value is a number
    Absolute,
    /// SHN_COMMON: a common block, its value is the alignment
    Common,
    /// A section
    Section(SectionIndex),
    /// Another reserved number.
    Reserved(u16),
}

impl From<u16> for Home {
    fn from(number: u16) -> Home {
        match number {
            0 => Home::Undefined,
            0xFFF1 => Home::Absolute,
            0xFFF2 => Home::Common,
            0xFF00..=0xFFFF => Home::Reserved(number),
            index => Home::Section(SectionIndex(index.into())),
        }
    }
}

/// An entry of the symbol table, with its name.
#[derive(Clone, Copy, PartialEq, Eq, Debug)]
pub struct Symbol<'a> {
    /// Its number.
    pub index: SymbolIndex,
    /// Its name; empty if the table of names does not have it.
    pub name: &'a BStr,
    /// Its binding.
    pub binding: Binding,
    /// Its type.
    pub kind: SymbolKind,
    /// Its visibility.
    pub visibility: Visibility,
    /// Where it is.
    pub home: Home,
    /// Its value: in its section, a number, or the alignment of a common block.
    pub value: u64,
    /// Its size in bytes.
    pub size: u64,
}

impl Symbol<'_> {
    /// Whether the object has the name and not its definition.
    pub fn is_undefined(&self) -> bool {
        self.home == Home::Undefined
    }

    /// How good a definition it is: strong, a common block, weak; `None` if it is none.
    pub fn rank(&self) -> Option<Rank> {
        match (self.home, self.binding) {
            (Home::Undefined, _) => None,
            (Home::Common, _) => Some(Rank::Common),
            (_, Binding::Weak) => Some(Rank::Weak),
            _ => Some(Rank::Strong),
        }
    }
}

/// How good a definition is: the better one of a name counts (GNU ld: a common block goes before a weak definition).
#[derive(Clone, Copy, PartialEq, Eq, PartialOrd, Ord, Hash, Debug)]
pub enum Rank {
    /// A weak definition
    Weak,
    /// A common block
    Common,
    /// A strong definition
    Strong,
}
