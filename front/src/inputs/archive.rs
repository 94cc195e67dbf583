//! Archives: plain and thin ones, with symbol tables of System V (`/` and `/SYM64/`), with long names, or without a
//! table.

use crate::snapshot::Bytes;
use bstr::{BStr, BString, ByteSlice};
use std::collections::HashMap;
use std::ffi::OsStr;
use std::ops::Range;
use std::os::unix::ffi::OsStrExt;
use std::path::{Component, Path, PathBuf};
use thiserror::Error;

const PLAIN: &[u8] = b"!<arch>\n";
const THIN: &[u8] = b"!<thin>\n";
/// The bytes of a member's header.
const HEADER: usize = 60;

/// A file that begins as an archive and is none.
#[derive(Clone, PartialEq, Eq, Debug, Error)]
pub enum BadArchive {
    /// There is no header where one must be.
    #[error("there is no header of a member at byte {0}")]
    NoHeader(usize),
    /// A member ends after the file.
    #[error("the member at byte {0} ends after the file")]
    CutOff(usize),
    /// A long name is not in the table of long names.
    #[error("a long name is not in its table")]
    NoLongName,
    /// The symbol table has fewer names than it says.
    #[error("its symbol table ends too early")]
    ShortTable,
}

/// The number of a member in its archive.
#[derive(Clone, Copy, PartialEq, Eq, PartialOrd, Ord, Hash, Debug)]
pub struct MemberIndex(pub usize);

/// A member of an archive.
#[derive(Clone, PartialEq, Eq, Debug)]
pub struct Member {
    /// Its name; of a thin archive the path of its file, by the folder of the archive.
    pub name: BString,
    /// Where its header stands.
    pub offset: u64,
    /// Its bytes in the archive; of a thin archive none.
    pub range: Range<usize>,
}

/// An entry of a symbol table: a name, and where the header of the member that defines it stands.
#[derive(Clone, PartialEq, Eq, Debug)]
pub struct ArchiveSymbol {
    /// The name.
    pub name: BString,
    /// The header's place.
    pub offset: u64,
}

/// An archive's members in their order, and its symbol table.
#[derive(Clone, Debug)]
pub struct Archive {
    path: PathBuf,
    data: Bytes,
    is_thin: bool,
    members: Vec<Member>,
    symbols: Option<Vec<ArchiveSymbol>>,
    by_offset: HashMap<u64, MemberIndex>,
}

impl Archive {
    /// Whether a file begins as an archive.
    pub fn is_one(data: &[u8]) -> bool {
        data.starts_with(PLAIN) || data.starts_with(THIN)
    }

    /// The archive of a file.
    ///
    /// # Errors
    /// If the archive is cut off, or a header in it is bad.
    pub fn parse(path: &Path, data: Bytes) -> Result<Archive, BadArchive> {
        let mut archive = Archive {
            path: path.to_owned(),
            is_thin: data.starts_with(THIN),
            data,
            members: Vec::new(),
            symbols: None,
            by_offset: HashMap::new(),
        };
        let mut long_names = 0..0;
        let mut at = PLAIN.len();
        while at + HEADER <= archive.data.len() {
            at = archive.read_member(at, &mut long_names)?;
        }
        let members = archive.members.iter().enumerate();
        archive.by_offset = members.map(|(number, member)| (member.offset, MemberIndex(number))).collect();
        Ok(archive)
    }

    /// Reads the member at a header; gives where the next header is.
    fn read_member(&mut self, at: usize, long_names: &mut Range<usize>) -> Result<usize, BadArchive> {
        let data = self.data.clone();
        let header = data.get(at..at + HEADER).unwrap_or_default();
        let size = match (header.get(48..58).and_then(number), header.get(58..)) {
            (Some(size), Some(b"`\n")) => size,
            _ => return Err(BadArchive::NoHeader(at)),
        };
        let name = header.get(..16).unwrap_or_default();
        let is_special = [&b"/ "[..], b"// ", b"/SYM64/ "].iter().any(|special| name.starts_with(special));
        let is_inside = is_special || !self.is_thin;
        let start = at + HEADER;
        let end = start.checked_add(size).filter(|end| !is_inside || *end <= data.len());
        let range = start..end.ok_or(BadArchive::CutOff(at))?;
        if name.starts_with(b"// ") {
            *long_names = range.clone();
        } else if is_special {
            let width = if name.starts_with(b"/SYM64/") { 8 } else { 4 };
            self.symbols = Some(symbols(width, data.get(range.clone()).unwrap_or_default())?);
        } else if let Some(length) = name.strip_prefix(b"#1/") {
            self.take_bsd_member(at, number(length).unwrap_or(0), range.clone());
        } else {
            let name = member_name(name, data.get(long_names.clone()).unwrap_or_default())?;
            let range = if is_inside { range.clone() } else { start..start };
            self.members.push(Member { name, offset: at as u64, range });
        }
        Ok(if is_inside { range.end + size % 2 } else { start })
    }

    /// A member whose name stands before its bytes (`#1/LENGTH`).
    fn take_bsd_member(&mut self, at: usize, length: usize, range: Range<usize>) {
        let begin = range.start.saturating_add(length).min(range.end);
        let name = self.data.get(range.start..begin).unwrap_or_default();
        let name = BString::from(name.trim_end_with(|c| c == '\0'));
        if !name.starts_with(b"__.SYMDEF") {
            self.members.push(Member { name, offset: at as u64, range: begin..range.end });
        }
    }

    /// The archive's file, as it was named or found.
    pub fn path(&self) -> &Path {
        &self.path
    }

    /// Its bytes.
    pub fn data(&self) -> &Bytes {
        &self.data
    }

    /// Whether its members are files of their own.
    pub fn is_thin(&self) -> bool {
        self.is_thin
    }

    /// Whether both are thin and list the same members, in the same order and with the same symbol table: then they are
    /// the same input, whose members are files of their own.
    pub fn lists_the_same(&self, other: &Archive) -> bool {
        self.is_thin && other.is_thin && self.members == other.members && self.symbols == other.symbols
    }

    /// The members in their order.
    pub fn members(&self) -> &[Member] {
        &self.members
    }

    /// The entries of the symbol table, in their order; `None` if it has none.
    pub fn symbols(&self) -> Option<&[ArchiveSymbol]> {
        self.symbols.as_deref()
    }

    /// A member by its number.
    pub fn member(&self, index: MemberIndex) -> Option<&Member> {
        self.members.get(index.0)
    }

    /// The member whose header stands at an offset.
    pub fn member_at(&self, offset: u64) -> Option<MemberIndex> {
        self.by_offset.get(&offset).copied()
    }

    /// The file of a member of a thin archive.
    pub fn file_of(&self, member: &Member) -> PathBuf {
        let name = Path::new(OsStr::from_bytes(&member.name));
        self.path.parent().unwrap_or_else(|| Path::new("")).join(name)
    }
}

/// A number in a field of a header, filled with spaces.
fn number(field: &[u8]) -> Option<usize> {
    let text = std::str::from_utf8(field).ok()?.trim_matches(' ');
    let is_number = !text.is_empty() && text.bytes().all(|byte| byte.is_ascii_digit());
    is_number.then(|| text.parse().ok()).flatten()
}

/// The entries of a symbol table whose numbers have so many bytes.
fn symbols(width: usize, table: &[u8]) -> Result<Vec<ArchiveSymbol>, BadArchive> {
    let word = |bytes: &[u8]| bytes.iter().fold(0, |value: u64, byte| value << 8 | u64::from(*byte));
    let count = usize::try_from(word(table.get(..width).unwrap_or_default())).map_err(|_| BadArchive::ShortTable)?;
    let end = count.checked_add(1).and_then(|count| count.checked_mul(width)).ok_or(BadArchive::ShortTable)?;
    let offsets = table.get(width.min(end)..end).ok_or(BadArchive::ShortTable)?;
    let mut names = table.get(end..).unwrap_or_default().split(|byte| *byte == 0);
    offsets
        .chunks(width)
        .map(|offset| {
            let name = names.next().ok_or(BadArchive::ShortTable)?;
            Ok(ArchiveSymbol { name: name.into(), offset: word(offset) })
        })
        .collect()
}

/// The name that the first sixteen bytes of a header stand for.
fn member_name(field: &[u8], long_names: &[u8]) -> Result<BString, BadArchive> {
    let name = field.trim_end_with(|c| c == ' ');
    // `ar -T -P` ends the number of a long name with a slash
    let place = name.strip_prefix(b"/").map(|rest| rest.strip_suffix(b"/").unwrap_or(rest)).and_then(number);
    let name = match place {
        Some(begin) => {
            let rest = long_names.get(begin..).unwrap_or_default();
            rest.get(..rest.find_byte(b'\n').ok_or(BadArchive::NoLongName)?).unwrap_or_default()
        }
        None => name,
    };
    Ok(name.strip_suffix(b"/").unwrap_or(name).into())
}

/// A path without `.`, doubled slashes, and `..` after a folder; `.` for none.
pub fn normalized(path: &Path) -> PathBuf {
    let mut parts: Vec<Component<'_>> = Vec::new();
    for part in path.components() {
        match (part, parts.last()) {
            (Component::CurDir, _) | (Component::ParentDir, Some(Component::RootDir)) => {}
            (Component::ParentDir, Some(Component::Normal(_))) => {
                parts.pop();
            }
            _ => parts.push(part),
        }
    }
    if parts.is_empty() {
        return PathBuf::from(".");
    }
    parts.iter().collect()
}

/// The text before the bytes of a path that is shown.
pub fn shown(path: &Path) -> &BStr {
    path.as_os_str().as_bytes().as_bstr()
}
