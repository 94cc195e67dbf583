//! The files of the objects that a map names: files, and members of archives.

use std::cell::RefCell;
use std::collections::HashMap;
use std::ffi::OsStr;
use std::io;
use std::os::unix::ffi::OsStrExt;
use std::path::{Path, PathBuf};
use std::rc::Rc;

use bstr::{BStr, BString, ByteSlice};

use crate::inputs::{normalized, Archive, BadArchive};
use crate::report::link_map::{LinkMap, Piece};
use crate::report::os_message;
use crate::snapshot::Bytes;

/// An object that the map names and that is not there.
#[derive(Debug, thiserror::Error)]
#[error("{name}: {why}")]
pub(super) struct MissingObject {
    name: BString,
    why: WhyMissing,
}

/// Why an object is not there.
#[derive(Debug, thiserror::Error)]
enum WhyMissing {
    #[error("{}", os_message(.0))]
    File(#[from] io::Error),
    #[error(transparent)]
    Archive(#[from] BadArchive),
    #[error("its archive is none")]
    NoArchive,
    #[error("the archive has no such member")]
    NoMember,
}

/// An object with its sections in the output that are not empty, in the order of the map.
pub(super) struct Placed<'a> {
    pub(super) name: &'a BStr,
    pub(super) pieces: Vec<&'a Piece>,
}

/// The objects of a map with what is to be placed, in the order in which they come in the map.
pub(super) fn placed_objects(map: &LinkMap) -> Vec<Placed<'_>> {
    let mut numbers: HashMap<&BStr, usize> = HashMap::new();
    let mut objects: Vec<Placed<'_>> = Vec::new();
    for piece in map.pieces().filter(|piece| piece.size > 0 && piece.section != "COMMON") {
        let name = piece.object.as_bstr();
        let number = *numbers.entry(name).or_insert(objects.len());
        if number == objects.len() {
            objects.push(Placed { name, pieces: Vec::new() });
        }
        if let Some(object) = objects.get_mut(number) {
            object.pieces.push(piece);
        }
    }
    objects
}

/// The name of an archive's member, `lib.a(member.o)`, with a number if it came more than once: `lib.a(member.o)#2`.
struct MemberName<'a> {
    archive: &'a [u8],
    member: &'a [u8],
    /// From 0.
    count: usize,
}

impl<'a> MemberName<'a> {
    fn read(name: &'a [u8]) -> Option<MemberName<'a>> {
        let (name, count) = match name.rfind_byte(b'#') {
            Some(at) => (name.get(..at)?, name.get(at + 1..)?.to_str().ok()?.parse::<usize>().ok()?.checked_sub(1)?),
            None => (name, 0),
        };
        let inside = name.strip_suffix(b")")?;
        let at = inside.rfind_byte(b'(')?;
        let (archive, member) = (inside.get(..at)?, inside.get(at + 1..)?);
        let is_name = !archive.is_empty() && !member.is_empty() && !member.contains(&b')');
        is_name.then_some(MemberName { archive, member, count })
    }
}

/// Reads objects by their names in a map; archives are read once.
pub(super) struct Objects<'a> {
    folder: &'a Path,
    archives: RefCell<HashMap<PathBuf, Rc<Archive>>>,
}

impl<'a> Objects<'a> {
    /// The objects whose names count from a folder.
    pub(super) fn new(folder: &'a Path) -> Objects<'a> {
        Objects { folder, archives: RefCell::default() }
    }

    /// The file of a name.
    pub(super) fn path(&self, name: &[u8]) -> PathBuf {
        absolute(&self.folder.join(OsStr::from_bytes(name)))
    }

    /// Whether a name is that of an archive's member, and not of a file.
    pub(super) fn is_member(&self, name: &[u8]) -> bool {
        MemberName::read(name).is_some() && !self.path(name).exists()
    }

    /// The bytes of an object.
    pub(super) fn read(&self, name: &BStr) -> Result<Bytes, MissingObject> {
        let read = match MemberName::read(name).filter(|_| !self.path(name).exists()) {
            Some(member) => self.member(&member),
            None => std::fs::read(self.path(name)).map(Bytes::from).map_err(WhyMissing::from),
        };
        read.map_err(|why| MissingObject { name: name.to_owned(), why })
    }

    fn member(&self, name: &MemberName<'_>) -> Result<Bytes, WhyMissing> {
        let archive = self.archive(self.path(name.archive))?;
        let mut named = archive.members().iter().filter(|member| member.name == name.member);
        let member = named.nth(name.count).ok_or(WhyMissing::NoMember)?;
        if archive.is_thin() {
            return Ok(Bytes::from(std::fs::read(archive.file_of(member))?));
        }
        archive.data().slice(member.range.clone()).ok_or(WhyMissing::NoMember)
    }

    fn archive(&self, path: PathBuf) -> Result<Rc<Archive>, WhyMissing> {
        if let Some(archive) = self.archives.borrow().get(&path) {
            return Ok(Rc::clone(archive));
        }
        let data = Bytes::from(std::fs::read(&path)?);
        if !Archive::is_one(&data) {
            return Err(WhyMissing::NoArchive);
        }
        let archive = Rc::new(Archive::parse(&path, data)?);
        self.archives.borrow_mut().insert(path, Rc::clone(&archive));
        Ok(archive)
    }
}

/// A path from the root, without `.` and `..`.
fn absolute(path: &Path) -> PathBuf {
    let here = std::env::current_dir().unwrap_or_default();
    normalized(&here.join(path))
}

/// The file in a folder for a member of an archive.
pub(super) fn member_path(name: &[u8], folder: &Path) -> PathBuf {
    let plain = |byte: &u8| byte.is_ascii_alphanumeric() || b"_.+-".contains(byte);
    let name: Vec<u8> = name.iter().map(|byte| if plain(byte) { *byte } else { b'_' }).collect();
    absolute(folder).join(OsStr::from_bytes(&name))
}

#[cfg(test)]
mod tests {
    use super::*;

    #[test]
    fn names_of_members() {
        let read = |name: &'static str| {
            MemberName::read(name.as_bytes()).map(|it| (it.archive.as_bstr(), it.member.as_bstr(), it.count))
        };
        assert_eq!(read("lib/x.a(m.o)"), Some((b"lib/x.a".as_bstr(), b"m.o".as_bstr(), 0)));
        assert_eq!(read("x.a(m.o)#2"), Some((b"x.a".as_bstr(), b"m.o".as_bstr(), 1)));
        for name in ["x.o", "(m.o)", "x.a()", "x.a(m.o)#", "x.a(m.o)#0", "x.a(m.o))"] {
            assert_eq!(read(name), None, "{name}");
        }
    }

    #[test]
    fn files_of_members_have_plain_names() {
        assert_eq!(member_path(b"libtext.a(text.o)", Path::new("/u")), Path::new("/u/libtext.a_text.o_"));
    }
}
