//! The rules of `ldi` that are tables. `tools/rules` writes this file: do not edit it.

use Word::{Hex, Literal, Name, Number, Text};

/// A type of relocations that `ldi` links (psABI for x86-64, 'Relocation Types').
#[derive(Clone, Copy, PartialEq, Eq, Debug)]
pub struct RelocationRule {
    /// Its number.
    pub number: u32,
    /// Its name.
    pub name: &'static str,
    /// The bytes of its field.
    pub width: u8,
    /// The least and the greatest value that fits, if not every value does.
    pub range: Option<(i64, i64)>,
    /// Whether it counts from the place of its field.
    pub is_pc_relative: bool,
}

type Range = Option<(i64, i64)>;

const fn row(number: u32, name: &'static str, width: u8, range: Range, is_pc_relative: bool) -> RelocationRule {
    RelocationRule { number, name, width, range, is_pc_relative }
}

/// What a word of a fault line is.
#[derive(Clone, Copy, PartialEq, Eq, Debug)]
pub enum Word {
    /// A name, without a space.
    Name,
    /// A number in decimal.
    Number,
    /// A number of 16 hexadecimal digits.
    Hex,
    /// All that follows in the line.
    Text,
    /// This word itself.
    Literal(&'static str),
}

/// A fault line: its number, its rule and its words.
#[derive(Clone, Copy, PartialEq, Eq, Debug)]
pub struct FaultForm {
    /// `F1` to `F15`
    pub code: &'static str,
    /// The rule.
    pub rule: FaultRule,
    /// What follows the number.
    pub words: &'static [Word],
}

/// The types of relocations.
pub const RELOCATIONS: &[RelocationRule] = &[
    row(0, "R_X86_64_NONE", 0, None, false),
    row(1, "R_X86_64_64", 8, None, false),
    row(2, "R_X86_64_PC32", 4, Some((-2147483648, 2147483647)), true),
    row(4, "R_X86_64_PLT32", 4, Some((-2147483648, 2147483647)), true),
    row(10, "R_X86_64_32", 4, Some((0, 4294967295)), false),
    row(11, "R_X86_64_32S", 4, Some((-2147483648, 2147483647)), false),
    row(12, "R_X86_64_16", 2, Some((-32768, 65535)), false),
    row(13, "R_X86_64_PC16", 2, Some((-32768, 32767)), true),
    row(14, "R_X86_64_8", 1, Some((-128, 255)), false),
    row(15, "R_X86_64_PC8", 1, Some((-128, 127)), true),
    row(24, "R_X86_64_PC64", 8, None, true),
];

/// The psABI's names of all types of relocations, by their numbers, without `R_X86_64_`.
pub const RELOCATION_NAMES: [&str; 43] = [
    "NONE",
    "64",
    "PC32",
    "GOT32",
    "PLT32",
    "COPY",
    "GLOB_DAT",
    "JUMP_SLOT",
    "RELATIVE",
    "GOTPCREL",
    "32",
    "32S",
    "16",
    "PC16",
    "8",
    "PC8",
    "DTPMOD64",
    "DTPOFF64",
    "TPOFF64",
    "TLSGD",
    "TLSLD",
    "DTPOFF32",
    "GOTTPOFF",
    "TPOFF32",
    "PC64",
    "GOTOFF64",
    "GOTPC32",
    "GOT64",
    "GOTPCREL64",
    "GOTPC64",
    "GOTPLT64",
    "PLTOFF64",
    "SIZE32",
    "SIZE64",
    "GOTPC32_TLSDESC",
    "TLSDESC_CALL",
    "TLSDESC",
    "IRELATIVE",
    "RELATIVE64",
    "PC32_BND",
    "PLT32_BND",
    "GOTPCRELX",
    "REX_GOTPCRELX",
];

/// The rules of fault lines.
#[derive(Clone, Copy, PartialEq, Eq, Hash, Debug)]
pub enum FaultRule {
    /// `F1 NAME OBJECT FIRST`
    DuplicateDefinition,
    /// `F2 NAME`
    UndefinedEntry,
    /// `F3 OBJECT SECTION`
    Orphan,
    /// `F4 LINE NAME`
    NotReady,
    /// `F5 LINE`
    NoValue,
    /// `F6 LINE`
    MovedBack,
    /// `F7 SECTION REGION`
    RegionFull,
    /// `F8 LINE`
    PastAddressSpace,
    /// `F9 SECTION EARLIER`
    AddressesOverlap,
    /// `F10 SECTION EARLIER`
    LoadAddressesOverlap,
    /// `F11 LENGTH`
    ImageTooLong,
    /// `F12 OBJECT SECTION OFFSET NAME`
    UndefinedSymbol,
    /// `F13 OBJECT SECTION OFFSET INDEX`
    TargetNotInOutput,
    /// `F13 entry`
    EntryNotInOutput,
    /// `F14 OBJECT SECTION OFFSET TYPE VALUE`
    FieldOverflow,
    /// `F15 LINE MESSAGE`
    AssertionFailed,
}

/// The fault lines.
pub const FAULTS: &[FaultForm] = &[
    FaultForm { code: "F1", rule: FaultRule::DuplicateDefinition, words: &[Name, Name, Name] },
    FaultForm { code: "F2", rule: FaultRule::UndefinedEntry, words: &[Text] },
    FaultForm { code: "F3", rule: FaultRule::Orphan, words: &[Name, Name] },
    FaultForm { code: "F4", rule: FaultRule::NotReady, words: &[Number, Name] },
    FaultForm { code: "F5", rule: FaultRule::NoValue, words: &[Number] },
    FaultForm { code: "F6", rule: FaultRule::MovedBack, words: &[Number] },
    FaultForm { code: "F7", rule: FaultRule::RegionFull, words: &[Name, Name] },
    FaultForm { code: "F8", rule: FaultRule::PastAddressSpace, words: &[Number] },
    FaultForm { code: "F9", rule: FaultRule::AddressesOverlap, words: &[Name, Name] },
    FaultForm { code: "F10", rule: FaultRule::LoadAddressesOverlap, words: &[Name, Name] },
    FaultForm { code: "F11", rule: FaultRule::ImageTooLong, words: &[Number] },
    FaultForm { code: "F12", rule: FaultRule::UndefinedSymbol, words: &[Name, Name, Hex, Name] },
    FaultForm { code: "F13", rule: FaultRule::TargetNotInOutput, words: &[Name, Name, Hex, Number] },
    FaultForm { code: "F13", rule: FaultRule::EntryNotInOutput, words: &[Literal("entry")] },
    FaultForm { code: "F14", rule: FaultRule::FieldOverflow, words: &[Name, Name, Hex, Number, Hex] },
    FaultForm { code: "F15", rule: FaultRule::AssertionFailed, words: &[Number, Text] },
];

/// The refusal of an edit: the name is in use.
pub const IN_USE: u32 = 1;
/// The refusal of an edit: no object has the name.
pub const UNKNOWN: u32 = 2;
/// The refusal of an edit: the position is past the end.
pub const PAST_END: u32 = 3;
/// The refusal of an edit: the payload is no object.
pub const NOT_AN_OBJECT: u32 = 4;
/// The refusal of an edit: the payload is no script.
pub const NOT_A_SCRIPT: u32 = 5;
/// The refusal of an edit: limit: a name that isn't 1 to 255 bytes from `!` to `~`, or 4,096 objects there already.
pub const LIMIT: u32 = 6;
/// The refusal of an edit: out of memory.
pub const NO_MEMORY: u32 = 7;

/// A sentence for each refusal of an edit.
#[rustfmt::skip]
pub const EDITS: &[(u32, &str)] = &[
    (1, "an object of this name is there already"),
    (2, "there is no object of this name"),
    (3, "the position is past the end of the objects"),
    (4, "this is no object that can be linked"),
    (5, "this is no script of the profile"),
    (6, "there are 4,096 objects already, which is the most that a link may have"),
    (7, "out of memory"),
];

/// What docs/objects.md says of each number, for where `readobj` cannot be had.
#[rustfmt::skip]
pub const OBJECTS: &[(u32, &str)] = &[
    (1, "the file has fewer than 64 bytes, less than an ELF header"),
    (2, "the file does not begin with 7F 45 4C 46: it is no ELF file"),
    (3, "the ELF header is not that of a relocatable 64-bit object for x86-64"),
    (4, "the section headers are not of 64 bytes, or end past the end of the file"),
    (5, "the ELF header has no section headers, too many, or a wrong number of the table of names"),
    (6, "\
        a section ends past the end of the file, is longer than 2^31 bytes or has a wrong alignment, or the table \
        of names is no string table"),
    (7, "\
        an allocated section has a type, a flag or a name that is not in the profile: TLS, COMDAT and the like are \
        not"),
    (8, "the symbol table is not as it must be, or there are two"),
    (9, "a symbol has a binding, type, section or name that is not in the profile"),
    (10, "a relocation section is not as it must be"),
    (11, "a relocation has a type that is not in the profile: compile with -fno-pic, and without TLS"),
    (12, "the field of a relocation ends past the end of its section"),
    (13, "the fields of two relocations share a byte"),
];

/// What docs/scripts.md says of each number.
#[rustfmt::skip]
pub const SCRIPTS: &[(u32, &str)] = &[
    (1, "somewhere no token begins, or a comment or string has no end"),
    (2, "the text does not follow the grammar"),
    (3, "something is given twice, or a region is named before it is declared"),
    (4, "`.' is used where it may not be"),
    (5, "a limit of scripts is passed"),
];

/// The words that scripts of the profile keep for themselves.
#[rustfmt::skip]
pub const RESERVED: &[&str] = &[
    "ADDR", "ALIGN", "ASSERT", "AT", "BYTE", "CONSTANT", "DEFINED", "ENTRY", "EXCLUDE_FILE", "FILL", "HIDDEN",
    "INPUT_SECTION_FLAGS", "KEEP", "LENGTH", "LOADADDR", "LONG", "MAX", "MEMORY", "MIN", "NOLOAD", "ORIGIN", "PROVIDE",
    "PROVIDE_HIDDEN", "QUAD", "SECTIONS", "SHORT", "SIZEOF", "SIZEOF_HEADERS", "SORT", "SORT_BY_ALIGNMENT",
    "SORT_BY_NAME", "SQUAD",
];
