//! Sections whose bytes GNU ld changes, and the layout takes as they are: `.eh_frame`, `.note.gnu.property`, and
//! `.gnu.linkonce.*` of which there are several.

use crate::layout::evaluation::{Evaluation, Fate, FramesLeft, InputSection, OutputSection, Placed};
use crate::objects::{Binding, Home, Object, ObjectIndex, SectionIndex, SymbolIndex};
use crate::script::tree::{Name, Span};
use bstr::{BStr, ByteSlice};
use std::collections::{BTreeMap, HashSet};
use std::fmt;

const UNWINDING: &str = ".eh_frame";
const PROPERTIES: &str = ".note.gnu.property";
const ONCE: &[u8] = b".gnu.linkonce.";
/// The bytes of the entry without contents that ends `.eh_frame`.
const TERMINATOR: u64 = 4;
/// The bytes that an entry of `.eh_frame` begins with: how many follow, and where its CIE is.
const HEAD: usize = 8;

/// A cause of other bytes.
#[derive(Clone, PartialEq, Eq, Debug)]
pub struct Merged {
    /// What it is.
    pub cause: MergedCause,
    /// Where in the script the output section stands.
    pub span: Option<Span>,
}

/// Why bytes are others.
#[derive(Clone, PartialEq, Eq, Debug)]
pub enum MergedCause {
    /// `.eh_frame`
    Unwinding(UnwindingCause),
    /// Notes of properties: GNU ld makes one of those of all objects.
    Properties {
        /// The first object that has one.
        first: Name,
        /// How many more have one.
        others: usize,
    },
    /// Sections `.gnu.linkonce.*` of one name: GNU ld takes the first.
    Once {
        /// The name.
        section: Name,
        /// The first object that has it.
        first: Name,
        /// How many more have it.
        others: usize,
        /// How many more such names there are.
        names: usize,
    },
}

/// What GNU ld does to entries of `.eh_frame` (elf-eh-frame.c, `_bfd_elf_discard_section_eh_frame`).
#[derive(Clone, PartialEq, Eq, Debug)]
pub enum UnwindingCause {
    /// Ends but one are taken out.
    Ends,
    /// The last entry of each object is filled up.
    Filled,
    /// The entries of an object are not understood.
    Unknown(Name),
    /// An end in the middle is taken out.
    EndInside(Name),
    /// What fills up entries is taken out.
    Filling(Name),
    /// Entries for code that is not in the image are taken out.
    Gone(Name),
    /// A CIE that no entry names is taken out.
    Unused(Name),
    /// Equal CIEs are merged.
    Equal,
}

impl fmt::Display for UnwindingCause {
    fn fmt(&self, f: &mut fmt::Formatter<'_>) -> fmt::Result {
        match self {
            UnwindingCause::Ends => write!(f, "GNU ld leaves one end"),
            UnwindingCause::Filled => write!(f, "GNU ld fills up the last entry of each object"),
            UnwindingCause::Unknown(object) => write!(f, "it is not known what GNU ld takes out of that of {object}"),
            UnwindingCause::EndInside(object) => {
                write!(f, "GNU ld takes out the end in the middle, in that of {object}")
            }
            UnwindingCause::Filling(object) => {
                write!(f, "GNU ld takes out what fills up entries, as in that of {object}")
            }
            UnwindingCause::Gone(object) => {
                write!(f, "GNU ld takes out entries for code that is not in the image, as in that of {object}")
            }
            UnwindingCause::Unused(object) => {
                write!(f, "GNU ld takes out a CIE that no entry names, in that of {object}")
            }
            UnwindingCause::Equal => write!(f, "GNU ld merges equal CIEs"),
        }
    }
}

impl fmt::Display for Merged {
    fn fmt(&self, f: &mut fmt::Formatter<'_>) -> fmt::Result {
        let files = |first: &Name, others: usize| match others {
            0 => first.to_string(),
            _ => format!("{first} and {others} more"),
        };
        match &self.cause {
            MergedCause::Unwinding(cause) => write!(f, "{UNWINDING}: {cause}; here all entries stay as they are"),
            MergedCause::Properties { first, others } => {
                let files = files(first, *others);
                write!(f, "{PROPERTIES} of {files}: GNU ld makes one note of those of all objects; ")?;
                write!(f, "here they stay as they are")
            }
            MergedCause::Once { section, first, others, names } => {
                write!(f, "{section} of {}", files(first, *others))?;
                if *names > 0 {
                    write!(f, ", and {names} more names")?;
                }
                write!(f, ": GNU ld takes the first section of a name; here all are in the image")
            }
        }
    }
}

/// What GNU ld merges or leaves out in the output sections that are in the image.
pub(super) fn merged(evaluation: &Evaluation, objects: &[Object]) -> Vec<Merged> {
    let mut found = Vec::new();
    let mut properties: Vec<(&OutputSection, &InputSection)> = Vec::new();
    let mut once: BTreeMap<&BStr, (&OutputSection, Vec<ObjectIndex>)> = BTreeMap::new();
    let outputs = evaluation.in_image().filter(|(_, place)| place.is_allocated());
    let watched: Vec<bool> = evaluation.names.iter().map(|name| name == PROPERTIES || name.starts_with(ONCE)).collect();
    for (output, place) in outputs {
        let inputs = place.inputs.iter().filter_map(|id| evaluation.section(*id));
        for section in inputs.filter(|section| watched.get(section.name.index()) == Some(&true)) {
            let name = evaluation.section_name(section);
            if name != PROPERTIES {
                once.entry(name).or_insert_with(|| (output, Vec::new())).1.push(section.object);
            } else if section.size != 0 {
                properties.push((output, section));
            }
        }
        if output.name == UNWINDING {
            let cause = match evaluation.frames_left {
                FramesLeft::All => unwinding_cause(evaluation, objects, place),
                FramesLeft::AsInGnu => None,
                FramesLeft::Unknown(id) => {
                    let object = evaluation.section(id).map_or_else(Name::default, |one| name_of(objects, one.object));
                    Some(UnwindingCause::Unknown(object))
                }
            };
            if let Some(cause) = cause {
                found.push(Merged { cause: MergedCause::Unwinding(cause), span: output.span });
            }
        }
    }
    let owners: Vec<ObjectIndex> = properties.iter().map(|(_, section)| section.object).collect();
    let has_others = distinct(&owners) < objects.len();
    let is_of_link = |section: &InputSection| {
        objects.get(section.object.0 as usize).map_or(false, |object| object.has_note_of_link())
    };
    properties.retain(|(_, section)| !is_of_link(section));
    if let (Some((output, section)), true) = (properties.first(), properties.len() > 1 || has_others) {
        let (first, others) = (name_of(objects, section.object), distinct(&owners).saturating_sub(1));
        found.push(Merged { cause: MergedCause::Properties { first, others }, span: output.span });
    }
    found.extend(several(once, objects));
    found
}

fn several(once: BTreeMap<&BStr, (&OutputSection, Vec<ObjectIndex>)>, objects: &[Object]) -> Option<Merged> {
    let several: Vec<_> = once.into_iter().filter(|(_, (_, owners))| owners.len() > 1).collect();
    let (name, (output, owners)) = several.first()?;
    let first = name_of(objects, *owners.first()?);
    let (others, names) = (distinct(owners).saturating_sub(1), several.len() - 1);
    let cause = MergedCause::Once { section: (*name).into(), first, others, names };
    Some(Merged { cause, span: output.span })
}

fn distinct(owners: &[ObjectIndex]) -> usize {
    owners.iter().collect::<HashSet<_>>().len()
}

fn name_of(objects: &[Object], index: ObjectIndex) -> Name {
    objects.get(index.0 as usize).map_or_else(Name::default, |object| object.name().into())
}

// --- .eh_frame ---

/// Why the bytes of an output section `.eh_frame` are others; `None` if they are the same.
fn unwinding_cause(evaluation: &Evaluation, objects: &[Object], place: &Placed) -> Option<UnwindingCause> {
    let all: Vec<&InputSection> =
        place.inputs.iter().filter_map(|id| evaluation.section(*id)).filter(|section| section.size != 0).collect();
    let align = all.iter().map(|section| section.align).max().unwrap_or(1);
    let ends = all.iter().rev().take_while(|section| section.size <= TERMINATOR).count();
    if ends > 1 {
        return Some(UnwindingCause::Ends);
    }
    let items = all.get(..all.len() - ends).unwrap_or_default();
    let mut known = HashSet::new();
    for (number, section) in items.iter().enumerate() {
        let is_last = number + 1 == items.len();
        if !is_last && section.size % align.max(1) != 0 {
            return Some(UnwindingCause::Filled);
        }
        let name = || name_of(objects, section.object);
        let file = match (objects.get(section.object.0 as usize), section.number()) {
            (Some(object), Some(number)) => File { object, number, evaluation, index: section.object },
            _ => return Some(UnwindingCause::Unknown(name())),
        };
        let entries = match file.entries() {
            Some(entries) => entries,
            None => return Some(UnwindingCause::Unknown(name())),
        };
        let cause = file.cause(&entries, &mut known, if is_last { 0 } else { align });
        if cause.is_some() {
            return cause;
        }
    }
    None
}

/// What tells a CIE from others: its bytes, and what is named in them.
type Key = (Vec<u8>, Vec<(u64, u32, i64, Named)>);

/// A symbol as CIEs name it: one that is local is what it is in its object alone.
#[derive(Clone, PartialEq, Eq, Hash, Debug)]
enum Named {
    Global(Vec<u8>),
    Local(u32, Option<u32>, u64),
    None,
}

/// An entry: where it is, how many bytes follow its first word, where its CIE is (`None` of a CIE), its code's symbol.
#[derive(Clone, Copy, Debug)]
struct Entry {
    at: usize,
    size: usize,
    common: Option<usize>,
    code: Option<SymbolIndex>,
}

/// A section `.eh_frame` of an object.
struct File<'a> {
    object: &'a Object,
    number: SectionIndex,
    evaluation: &'a Evaluation,
    index: ObjectIndex,
}

impl File<'_> {
    fn name(&self) -> Name {
        self.object.name().into()
    }

    /// The entries; `None` if it is none of entries as compilers write them.
    fn entries(&self) -> Option<Vec<Entry>> {
        let data = self.object.contents(self.number);
        let codes: BTreeMap<u64, SymbolIndex> =
            self.object.relocations(self.number).map(|relocation| (relocation.offset, relocation.symbol)).collect();
        let mut found = Vec::new();
        let mut at = 0;
        while at < data.len() {
            let length = word_at(data, at)? as usize;
            if length == 0 {
                found.push(Entry { at, size: 0, common: None, code: None });
                at += TERMINATOR as usize;
                continue;
            }
            let link = word_at(data, at + 4)? as usize;
            let end = at.checked_add(4)?.checked_add(length)?;
            if length == u32::MAX as usize || end > data.len() || link > at + 4 {
                return None;
            }
            let common = (link != 0).then(|| at + 4 - link);
            let code = codes.get(&((at + HEAD) as u64)).copied();
            found.push(Entry { at, size: length, common, code });
            at = end;
        }
        Some(found)
    }

    /// Why these entries are others; `known` are the CIEs so far. The last entry is filled up to `align`, but that of
    /// the last object, of which it is 0.
    fn cause(&self, entries: &[Entry], known: &mut HashSet<Key>, align: u64) -> Option<UnwindingCause> {
        let used: HashSet<usize> = entries.iter().filter_map(|entry| entry.common).collect();
        for (number, entry) in entries.iter().enumerate() {
            let is_last = number + 1 == entries.len();
            if entry.size == 0 {
                if align != 0 || !is_last {
                    return Some(UnwindingCause::EndInside(self.name()));
                }
                continue;
            }
            let fill = self.fill(entry);
            if fill != 0 && (!is_last || fill as u64 >= align) {
                return Some(UnwindingCause::Filling(self.name()));
            }
            if entry.common.is_some() {
                if self.is_gone(entry) {
                    return Some(UnwindingCause::Gone(self.name()));
                }
            } else if !used.contains(&entry.at) {
                return Some(UnwindingCause::Unused(self.name()));
            } else if !known.insert(self.key(entry)) {
                return Some(UnwindingCause::Equal);
            }
        }
        None
    }

    /// Whether the code of an entry is not in the image.
    fn is_gone(&self, entry: &Entry) -> bool {
        let symbol = entry.code.and_then(|code| self.object.symbol(code));
        let section = match symbol.map(|symbol| symbol.home) {
            Some(Home::Section(section)) => section,
            _ => return false,
        };
        let first = self.evaluation.sections.partition_point(|one| one.object < self.index);
        let own = self.evaluation.sections.get(first..).unwrap_or_default();
        let found = own.iter().take_while(|one| one.object == self.index).find(|one| one.number() == Some(section));
        found.map_or(true, |one| !matches!(one.fate, Fate::Output(_)))
    }

    fn content(&self, entry: &Entry) -> &[u8] {
        let data = self.object.contents(self.number);
        data.get(entry.at..entry.at + 4 + entry.size).unwrap_or_default()
    }

    fn key(&self, entry: &Entry) -> Key {
        let range = entry.at as u64..(entry.at + 4 + entry.size) as u64;
        let inside = self.object.relocations(self.number).filter(|one| range.contains(&one.offset));
        let named = inside.map(|one| (one.offset - range.start, one.kind, one.addend, self.named(one.symbol)));
        (self.content(entry).to_vec(), named.collect())
    }

    fn named(&self, symbol: SymbolIndex) -> Named {
        match self.object.symbol(symbol) {
            None => Named::None,
            Some(symbol) if symbol.binding != Binding::Local => Named::Global(symbol.name.to_vec()),
            Some(symbol) => {
                let section = match symbol.home {
                    Home::Section(section) => Some(section.0),
                    _ => None,
                };
                Named::Local(self.index.0, section, symbol.value)
            }
        }
    }

    /// The bytes that are taken out of the end of an entry, as they do nothing; all if that is not known.
    fn fill(&self, entry: &Entry) -> usize {
        let content = self.content(entry);
        let begin = match entry.common {
            None => common_of(content).map(|common| common.instructions),
            Some(at) => {
                let data = self.object.contents(self.number);
                data.get(at..).and_then(common_of).and_then(|common| {
                    let begin = HEAD + 2 * common.width;
                    if !common.has_length {
                        return Some(begin);
                    }
                    let (length, begin) = number_at(content, begin)?;
                    begin.checked_add(usize::try_from(length).ok()?)
                })
            }
        };
        match begin {
            None => entry.size,
            Some(begin) => {
                let rest = content.get(begin..).unwrap_or_default();
                let zeros = rest.iter().rev().take_while(|byte| **byte == 0).count();
                zeros - zeros % 4
            }
        }
    }
}

/// What a CIE says of its entries: where its own instructions begin, the bytes of an address, whether each entry has
/// more data with their length in front.
struct Common {
    instructions: usize,
    width: usize,
    has_length: bool,
}

/// Reads a CIE as compilers write them.
fn common_of(content: &[u8]) -> Option<Common> {
    let words_end = content.get(HEAD + 1..)?.find_byte(0)? + HEAD + 1;
    let words = content.get(HEAD + 1..words_end)?;
    let has_length = words.first() == Some(&b'z');
    if !words.is_empty() && !has_length {
        return None;
    }
    let (_, at) = number_at(content, words_end + 1)?;
    let (_, at) = number_at(content, at)?;
    let mut at = if content.get(HEAD) == Some(&1) { at + 1 } else { number_at(content, at)?.1 };
    let mut width = 8;
    if has_length {
        let (length, begin) = number_at(content, at)?;
        let mut place = begin;
        for word in words.get(1..)? {
            match word {
                b'R' => {
                    width = width_of(*content.get(place)?)?;
                    place += 1;
                }
                b'L' => place += 1,
                b'P' => place += 1 + width_of(*content.get(place)?)?,
                b'S' => {}
                _ => return None,
            }
        }
        at = begin.checked_add(usize::try_from(length).ok()?)?;
    }
    Some(Common { instructions: at, width, has_length })
}

/// The bytes of an address as DWARF writes it.
fn width_of(encoding: u8) -> Option<usize> {
    match encoding & 7 {
        0 | 4 => Some(8),
        2 => Some(2),
        3 => Some(4),
        _ => None,
    }
}

/// A number of DWARF's in parts of seven bits, without a sign, and where it ends.
fn number_at(content: &[u8], mut at: usize) -> Option<(u64, usize)> {
    let (mut value, mut shift) = (0u64, 0);
    loop {
        let byte = *content.get(at)?;
        value |= u64::from(byte & 127).checked_shl(shift).unwrap_or(0);
        at += 1;
        shift += 7;
        if byte < 128 {
            return Some((value, at));
        }
    }
}

fn word_at(data: &[u8], at: usize) -> Option<u32> {
    Some(u32::from_le_bytes(data.get(at..at.checked_add(4)?)?.try_into().ok()?))
}
