//! Reads the entries of `.eh_frame` as GNU ld does (elf-eh-frame.c, `_bfd_elf_parse_eh_frame`), which leaves a section
//! as it is if it does not understand it.

use crate::objects::{Object, Relocation, SectionIndex, SymbolIndex};
use bstr::ByteSlice;
use object::elf;

/// The bytes of a word, and of an address.
const WORD: usize = 4;
const ADDRESS: usize = 8;
/// The encoding of what is not there, of an address, and of one that is aligned.
const OMITTED: u8 = 0xFF;
const ABSOLUTE: u8 = 0;
const ALIGNED: u8 = 0x50;
const APPLICATION: u8 = 0x70;
/// That of a distance from the field, and of a number with a sign.
const DISTANCE: u8 = 0x10;
const SIGNED: u8 = 8;
/// The bytes that the letters of a CIE have at most, with the zero behind them.
const MAX_LETTERS: usize = 20;

/// An entry.
#[derive(Clone, PartialEq, Eq, Debug)]
pub(in crate::layout) struct Entry {
    /// Where it begins.
    pub(in crate::layout) at: u64,
    /// Its bytes, without the instructions at its end that do nothing.
    pub(in crate::layout) size: u64,
    pub(in crate::layout) kind: EntryKind,
}

/// What an entry is.
#[derive(Clone, PartialEq, Eq, Debug)]
pub(in crate::layout) enum EntryKind {
    /// The end of all, or several.
    End,
    /// A CIE.
    Common(Common),
    /// An FDE.
    Frame(Frame),
}

/// What a CIE says.
#[derive(Clone, PartialEq, Eq, Hash, Debug)]
pub(in crate::layout) struct Common {
    length: u64,
    version: u8,
    /// Letters for what it has.
    pub(in crate::layout) augmentation: Vec<u8>,
    code_align: u64,
    data_align: u64,
    return_column: u64,
    augmentation_size: u64,
    /// The symbol of the function that handles exceptions, and how it is encoded.
    pub(in crate::layout) personality: Option<SymbolIndex>,
    personality_encoding: u8,
    table_encoding: u8,
    code_encoding: u8,
    /// Its instructions, without those at their end that do nothing.
    pub(in crate::layout) instructions: Vec<u8>,
}

/// What an FDE says.
#[derive(Clone, PartialEq, Eq, Debug)]
pub(in crate::layout) struct Frame {
    /// The number of its CIE among the entries; `None` of one for no code at all.
    pub(in crate::layout) common: Option<usize>,
    /// The symbol of its code.
    pub(in crate::layout) code: SymbolIndex,
    /// The field with the place of its code.
    pub(in crate::layout) start: Field,
    /// The bytes of its code; `None` if a relocation gives them.
    pub(in crate::layout) range: Option<u64>,
    /// The field with the place of its table of exceptions, if it has one that a relocation gives.
    pub(in crate::layout) table: Option<Field>,
    /// The bytes of an address.
    width: usize,
}

impl Frame {
    /// The fields with addresses that relocations give.
    pub(in crate::layout) fn fields(&self) -> impl Iterator<Item = &Field> {
        std::iter::once(&self.start).chain(&self.table)
    }
}

/// A field of an FDE, with an address that a relocation gives.
#[derive(Clone, PartialEq, Eq, Debug)]
pub(in crate::layout) struct Field {
    /// Its relocation, with its place.
    pub(in crate::layout) relocation: Relocation,
    /// How the address is encoded (dwarf2.h, `DW_EH_PE_*`).
    encoding: u8,
}

impl Field {
    /// The bytes of the field.
    pub(in crate::layout) fn width(&self) -> usize {
        width_of(self.encoding)
    }

    /// Whether the address is a distance from the field.
    pub(in crate::layout) fn is_distance(&self) -> bool {
        self.encoding & APPLICATION == DISTANCE
    }

    /// Whether it is a distance by its encoding, and none by its relocation, or the other way: it does not move with
    /// its entry.
    pub(in crate::layout) fn is_mixed(&self) -> bool {
        let kinds = [elf::R_X86_64_PC32, elf::R_X86_64_PLT32, elf::R_X86_64_PC64];
        kinds.contains(&self.relocation.kind) != self.is_distance()
    }

    /// What GNU ld reads in the field, which it has relocated where the field was (`read_value`), if the relocation's
    /// symbol and addend stand for `target` and the field was at `place`; `None` if the relocation has other bytes.
    pub(in crate::layout) fn value(&self, target: u64, place: u64) -> Option<u64> {
        let (value, width) = match self.relocation.kind {
            elf::R_X86_64_64 => (target, ADDRESS),
            elf::R_X86_64_PC64 => (target.wrapping_sub(place), ADDRESS),
            elf::R_X86_64_32 | elf::R_X86_64_32S => (target, WORD),
            elf::R_X86_64_PC32 | elf::R_X86_64_PLT32 => (target.wrapping_sub(place), WORD),
            _ => return None,
        };
        let is_signed = self.encoding & SIGNED != 0;
        Some(match width {
            _ if width != self.width() => return None,
            WORD if is_signed => value as i32 as u64,
            WORD => u64::from(value as u32),
            _ => value,
        })
    }

    /// The address that GNU ld takes a value for; `None` if it takes it for none.
    pub(in crate::layout) fn address(&self, value: u64, place: u64) -> Option<u64> {
        match self.encoding & APPLICATION {
            _ if value == 0 => Some(0),
            0 | ALIGNED => Some(value),
            DISTANCE => Some(value.wrapping_add(place)),
            _ => None,
        }
    }
}

impl Entry {
    /// What its place is a multiple of.
    pub(in crate::layout) fn align(&self) -> u64 {
        match &self.kind {
            EntryKind::Common(common) if common.is_aligned() => ADDRESS as u64,
            EntryKind::Frame(frame) => frame.width.max(WORD) as u64,
            EntryKind::Common(_) | EntryKind::End => WORD as u64,
        }
    }
}

impl Common {
    /// The same without the symbol of the function that handles exceptions, which other objects have by another number.
    pub(in crate::layout) fn without_personality(&self) -> Common {
        Common { personality: None, ..self.clone() }
    }

    fn is_aligned(&self) -> bool {
        self.personality_encoding & APPLICATION == ALIGNED && width_of(self.personality_encoding) == ADDRESS
    }
}

/// The entries of a section; `is_elsewhere` says of a symbol whether another object has its definition.
pub(in crate::layout) fn entries_of(
    object: &Object,
    number: SectionIndex,
    is_elsewhere: &dyn Fn(SymbolIndex) -> bool,
) -> Option<Vec<Entry>> {
    let (data, relocations) = (object.contents(number), object.relocations(number).collect::<Vec<_>>());
    u32::try_from(data.len()).ok()?;
    let mut reader = Reader { data, at: 0, end: data.len(), relocations: &relocations, found: Vec::new() };
    reader.check_lengths()?;
    while reader.at != data.len() {
        reader.entry(is_elsewhere)?;
    }
    Some(reader.found)
}

/// What is read of a section.
struct Reader<'a> {
    data: &'a [u8],
    at: usize,
    /// The end of the entry.
    end: usize,
    /// The relocations that were not passed yet.
    relocations: &'a [Relocation],
    found: Vec<Entry>,
}

impl<'a> Reader<'a> {
    /// Whether the lengths of entries lead to an end.
    fn check_lengths(&self) -> Option<()> {
        let mut at = 0;
        while at != self.data.len() {
            let length = word_at(self.data, at)? as usize;
            if length == 0 {
                break;
            }
            at = at.checked_add(WORD)?.checked_add(length).filter(|end| *end <= self.data.len())?;
            if length < WORD || length == u32::MAX as usize {
                return None;
            }
        }
        Some(())
    }

    fn entry(&mut self, is_elsewhere: &dyn Fn(SymbolIndex) -> bool) -> Option<()> {
        let at = self.at;
        let length = word_at(self.data, at)? as usize;
        self.end = at.checked_add(WORD)?.checked_add(length).filter(|end| *end <= self.data.len())?;
        self.at = at + WORD;
        if length == 0 {
            return self.ends(at);
        }
        let link = self.word()?;
        let (kind, begin, width) = if link == 0 {
            let (common, begin) = self.common()?;
            let width = width_of(common.code_encoding);
            (EntryKind::Common(common), begin, width)
        } else {
            let (frame, begin) = self.frame(at, link, is_elsewhere)?;
            let width = frame.width;
            (EntryKind::Frame(frame), begin, width)
        };
        let instructions = self.data.get(begin..self.end)?;
        let used = used_of(instructions, width, matches!(kind, EntryKind::Common(_)))?;
        let unused = (instructions.len() - used) as u64;
        let kind = match kind {
            EntryKind::Common(common) => EntryKind::Common(Common {
                length: length as u64 - unused,
                instructions: instructions.get(..used)?.to_vec(),
                ..common
            }),
            other => other,
        };
        self.found.push(Entry { at: at as u64, size: (WORD + length) as u64 - unused, kind });
        self.at = self.end;
        Some(())
    }

    /// Ends, behind which there is nothing else.
    fn ends(&mut self, at: usize) -> Option<()> {
        let rest = self.data.get(at..)?;
        let is_zero = rest.chunks_exact(WORD).all(|word| word.iter().all(|byte| *byte == 0));
        self.at = self.data.len();
        self.has_no_relocations()?;
        self.found.push(Entry { at: at as u64, size: WORD as u64, kind: EntryKind::End });
        is_zero.then_some(())
    }

    /// A CIE, and where its instructions begin.
    fn common(&mut self) -> Option<(Common, usize)> {
        let version = self.byte().filter(|version| matches!(version, 1 | 3 | 4))?;
        let length = self.data.get(self.at..)?.find_byte(0).filter(|length| *length < MAX_LETTERS)?;
        let augmentation = self.data.get(self.at..self.at + length)?.to_vec();
        self.at += length + 1;
        self.has_no_relocations()?;
        if self.data.get(self.at..)?.starts_with(b"eh") {
            self.skip(ADDRESS)?;
            self.pass_relocations(self.at);
        }
        if version == 4 {
            if self.at + 1 >= self.end || self.data.get(self.at..)?.get(..2)? != [ADDRESS as u8, 0] {
                return None;
            }
            self.at += 2;
        }
        let (code_align, data_align) = (self.number()?, self.signed_number()?);
        let return_column = if version == 1 { self.byte().map(u64::from)? } else { self.number()? };
        self.has_no_relocations()?;
        let mut common = Common {
            length: 0,
            version,
            augmentation,
            code_align,
            data_align,
            return_column,
            augmentation_size: 0,
            personality: None,
            personality_encoding: OMITTED,
            table_encoding: OMITTED,
            code_encoding: OMITTED,
            instructions: Vec::new(),
        };
        self.augment(&mut common)?;
        if common.code_encoding == OMITTED {
            common.code_encoding = ABSOLUTE;
        }
        let begin = self.at;
        self.at = self.end;
        self.has_no_relocations()?;
        (begin <= self.end).then_some((common, begin))
    }

    /// What the letters of a CIE say that it has.
    fn augment(&mut self, common: &mut Common) -> Option<()> {
        let letters = common.augmentation.clone();
        let mut letters = letters.as_slice();
        if letters.starts_with(b"eh") {
            return Some(());
        }
        if let Some(rest) = letters.strip_prefix(b"z") {
            letters = rest;
            common.augmentation_size = self.number()?;
            self.has_no_relocations()?;
        }
        for letter in letters {
            match letter {
                b'B' | b'S' => {}
                b'L' => common.table_encoding = self.encoding()?,
                b'R' => common.code_encoding = self.encoding()?,
                b'P' => self.personality(common)?,
                _ => return None,
            }
        }
        Some(())
    }

    fn encoding(&mut self) -> Option<u8> {
        let encoding = self.byte()?;
        self.has_no_relocations()?;
        (width_of(encoding) != 0).then_some(encoding)
    }

    fn personality(&mut self, common: &mut Common) -> Option<()> {
        common.personality_encoding = self.byte()?;
        let width = Some(width_of(common.personality_encoding)).filter(|width| *width != 0)?;
        if common.personality_encoding & APPLICATION == ALIGNED {
            self.skip(self.at.wrapping_neg() & (width - 1))?;
        }
        self.has_no_relocations()?;
        common.personality = Some(self.relocation()?.symbol);
        while self.relocation().is_some() {
            self.relocations = self.relocations.get(1..).unwrap_or_default();
        }
        self.skip(width)
    }

    /// An FDE, and where its instructions begin.
    fn frame(&mut self, at: usize, link: u32, is_elsewhere: &dyn Fn(SymbolIndex) -> bool) -> Option<(Frame, usize)> {
        let common_at = u64::from((at as u32).wrapping_add(WORD as u32).wrapping_sub(link));
        let found = self.found.iter().enumerate().find_map(|(number, one)| match &one.kind {
            EntryKind::Common(common) if one.at == common_at => Some((number, common)),
            _ => None,
        });
        let (number, common) = found?;
        let (encoding, table, has_length) =
            (common.code_encoding, common.table_encoding, common.augmentation.first() == Some(&b'z'));
        let width = width_of(encoding);
        self.has_no_relocations()?;
        let start = Field { relocation: *self.relocation()?, encoding };
        let code = start.relocation.symbol;
        if is_elsewhere(code) {
            return None;
        }
        self.skip(2 * width)?;
        let range_at = self.at - width;
        self.pass_relocations(range_at);
        let has_relocation = self.relocations.first().map_or(false, |one| one.offset == range_at as u64);
        let range = self.data.get(range_at..self.at)?.iter().rev().fold(0, |sum, byte| sum << 8 | u64::from(*byte));
        let common = (has_relocation || range != 0).then_some(number);
        let mut length = if has_length { usize::try_from(self.number()?).ok()? } else { 0 };
        if table != OMITTED && !has_length {
            length = self.end.checked_sub(self.at)?;
        }
        self.pass_relocations(self.at);
        let of_table = self.relocation().filter(|_| table != OMITTED);
        let table = of_table.map(|relocation| Field { relocation: *relocation, encoding: table });
        self.skip(length)?;
        let begin = self.at;
        self.pass_relocations(self.end);
        let range = (!has_relocation).then_some(range);
        Some((Frame { common, code, start, range, table, width }, begin))
    }

    // --- bytes ---

    fn byte(&mut self) -> Option<u8> {
        let byte = self.data.get(self.at..self.end)?.first().copied()?;
        self.at += 1;
        Some(byte)
    }

    fn word(&mut self) -> Option<u32> {
        let at = self.at;
        self.skip(WORD)?;
        word_at(self.data, at)
    }

    fn skip(&mut self, count: usize) -> Option<()> {
        self.at = self.at.checked_add(count).filter(|at| *at <= self.end)?;
        Some(())
    }

    fn number(&mut self) -> Option<u64> {
        let (value, size) = number_of(self.data.get(self.at..self.end)?)?;
        self.at += size;
        Some(value)
    }

    /// A number with a sign, of one part as GNU ld reads it: the sign is that of its last part.
    fn signed_number(&mut self) -> Option<u64> {
        let begin = self.at;
        let value = self.number()?;
        let bits = 7 * (self.at - begin) as u32;
        let is_negative = self.data.get(self.at - 1).map_or(false, |last| last & 0x40 != 0);
        Some(if is_negative && bits < u64::BITS { value | u64::MAX << bits } else { value })
    }

    // --- relocations ---

    /// Whether there is none of this section before the place.
    fn has_no_relocations(&mut self) -> Option<()> {
        while let Some(one) = self.relocations.first().filter(|one| one.offset < self.at as u64) {
            if one.kind != Relocation::NONE || one.symbol.0 != 0 {
                return None;
            }
            self.relocations = self.relocations.get(1..).unwrap_or_default();
        }
        Some(())
    }

    fn pass_relocations(&mut self, at: usize) {
        let passed = self.relocations.iter().take_while(|one| one.offset < at as u64).count();
        self.relocations = self.relocations.get(passed..).unwrap_or_default();
    }

    /// The relocation at the place.
    fn relocation(&self) -> Option<&'a Relocation> {
        self.relocations.first().filter(|one| one.offset == self.at as u64)
    }
}

/// The bytes of an address by its encoding; 0 if that has none of one size (`get_DW_EH_PE_width`).
fn width_of(encoding: u8) -> usize {
    match encoding & 7 {
        _ if encoding & 0x60 == 0x60 => 0,
        0 | 4 => ADDRESS,
        2 => 2,
        3 => WORD,
        _ => 0,
    }
}

/// How many bytes of instructions do something; `None` if they are not understood (`skip_non_nops`).
fn used_of(instructions: &[u8], width: usize, is_common: bool) -> Option<usize> {
    const SET_LOCATION: u8 = 1;
    let (mut at, mut used) = (0, 0);
    while let Some(operation) = instructions.get(at) {
        at += 1;
        if *operation == 0 {
            continue;
        }
        if *operation == SET_LOCATION && is_common {
            return None;
        }
        at += operands_of(*operation, instructions.get(at..)?, width)?;
        if at > instructions.len() {
            return None;
        }
        used = at;
    }
    Some(used)
}

/// The bytes of an instruction's operands (`skip_cfa_op`).
fn operands_of(operation: u8, rest: &[u8], width: usize) -> Option<usize> {
    let number = |at: usize| number_of(rest.get(at..)?).map(|(_, size)| at + size);
    let block = |at: usize| {
        let (length, size) = number_of(rest.get(at..)?)?;
        (at + size).checked_add(usize::try_from(length).ok()?)
    };
    match if operation & 0xC0 != 0 { operation & 0xC0 } else { operation } {
        0x40 | 0xC0 | 0x0A | 0x0B | 0x2D => Some(0),
        0x80 | 0x06 | 0x07 | 0x08 | 0x0D | 0x0E | 0x13 | 0x2E => number(0),
        0x05 | 0x09 | 0x0C | 0x11 | 0x12 | 0x14 | 0x15 | 0x2F => number(number(0)?),
        0x0F => block(0),
        0x10 | 0x16 => block(number(0)?),
        0x01 => Some(width),
        0x02 => Some(1),
        0x03 => Some(2),
        0x04 => Some(4),
        0x1D => Some(8),
        _ => None,
    }
}

/// A number of DWARF's in parts of seven bits, without a sign, and its bytes.
fn number_of(bytes: &[u8]) -> Option<(u64, usize)> {
    let size = bytes.iter().position(|byte| *byte < 0x80)? + 1;
    let parts = bytes.get(..size)?.iter().rev();
    let value = parts.fold(0u64, |value, byte| value << 7 | u64::from(byte & 0x7F));
    Some((value, size))
}

fn word_at(data: &[u8], at: usize) -> Option<u32> {
    Some(u32::from_le_bytes(data.get(at..at.checked_add(WORD)?)?.try_into().ok()?))
}

#[cfg(test)]
mod tests {
    use super::*;

    /// dwarf2.h, `DW_CFA_*`: what does nothing at the end is not used.
    #[test]
    fn instructions() {
        assert_eq!(used_of(&[0x0C, 7, 8, 0x90, 1, 0, 0], 4, true), Some(5));
        assert_eq!(used_of(&[0x0F, 2, 0, 0, 0], 4, true), Some(4), "a block");
        assert_eq!(used_of(&[0x16, 3, 1, 9, 0x2E, 0x80, 1], 4, false), Some(7));
        assert_eq!((used_of(&[1, 0, 0, 0, 0], 4, false), used_of(&[1, 0, 0, 0, 0], 4, true)), (Some(5), None));
        assert_eq!((used_of(&[0x3F], 4, false), used_of(&[0x04, 0], 4, false)), (None, None), "unknown, not whole");
        assert_eq!(used_of(&[0, 0], 8, false), Some(0));
    }

    /// `get_DW_EH_PE_width`
    #[test]
    fn widths() {
        assert_eq!([0, 0x1B, 3, 2, 4, 0x9B, 1, 0x60, OMITTED].map(width_of), [8, 4, 4, 2, 8, 4, 0, 0, 0]);
    }

    /// DWARF 4, 'Variable Length Data'
    #[test]
    fn numbers() {
        assert_eq!((number_of(&[0x7F]), number_of(&[0x80, 1, 9])), (Some((127, 1)), Some((128, 2))));
        assert_eq!((number_of(&[0x80]), number_of(&[])), (None, None));
        let mut reader = Reader { data: &[0x78, 0x80, 0x7F], at: 0, end: 3, relocations: &[], found: Vec::new() };
        assert_eq!((reader.signed_number(), reader.signed_number()), (Some(-8i64 as u64), Some(-128i64 as u64)));
    }
}
