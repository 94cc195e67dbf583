//! A script of gdb from the map of a link: each object is loaded where its sections lie. gdb then has the object's
//! source lines, static functions and types, which the image does not have.

use std::fmt::Write as _;
use std::os::unix::ffi::OsStrExt;
use std::path::Path;

use bstr::{BStr, BString, ByteSlice};

use super::objects::{member_path, placed_objects, Objects, Placed};
use crate::objects::{Elf, SectionFlags};
use crate::report::link_map::{LinkMap, Piece};
use crate::snapshot::Bytes;

/// Where sections are put that are not in the image: an address that no x86-64 has, so that gdb sets nothing there.
const NOWHERE: u64 = 1 << 63;
/// Each of them begins on a page of its own.
const PAGE: u64 = 4096;
/// A section that is put nowhere if it is not in the image: gdb would count its entries from there, and lose the
/// callers of functions. Without it gdb finds them by the code of the functions.
const UNWINDING: &str = ".eh_frame";

/// A script, and what it leaves out.
pub(super) struct Script {
    pub(super) text: Vec<u8>,
    pub(super) left_out: Vec<String>,
}

impl Script {
    /// The script for a map. gdb cannot load members of archives from their archive: they are loaded from files in
    /// `members`, or left out.
    pub(super) fn of(map: &LinkMap, objects: &Objects<'_>, members: Option<&Path>) -> Script {
        let head = "# by ldi-gdb: the objects of an image, each loaded where its sections lie\nset pagination off\n";
        let mut script = Script { text: head.into(), left_out: Vec::new() };
        for placed in placed_objects(map) {
            let path = match (objects.is_member(placed.name), members) {
                (true, None) => {
                    script.leave_out(format!(
                        "{}: a member of an archive; `ldi-gdb --members FOLDER` unpacks it",
                        placed.name
                    ));
                    continue;
                }
                (true, Some(folder)) => member_path(placed.name, folder),
                (false, _) => objects.path(placed.name),
            };
            match objects.read(placed.name) {
                Ok(data) => script.load(path.as_os_str().as_bytes(), &placed, data),
                Err(fault) => script.leave_out(format!("left out: {fault}")),
            }
        }
        script
    }

    fn leave_out(&mut self, why: String) {
        self.text.extend_from_slice(format!("# {why}\n").as_bytes());
        self.left_out.push(why);
    }

    /// The command that loads an object's symbols where its sections lie.
    fn load(&mut self, path: &[u8], placed: &Placed<'_>, data: Bytes) {
        self.text.extend_from_slice(b"add-symbol-file ");
        self.text.extend_from_slice(&quoted(path));
        let elf = Elf::parse(data).ok();
        let is_whole = |piece: &&&Piece| elf.as_ref().map_or(true, |elf| !is_merged(elf, piece));
        let pieces: Vec<&Piece> = placed.pieces.iter().filter(is_whole).copied().collect();
        let inside = pieces.iter().map(|piece| (piece.section.clone(), piece.address));
        for (name, address) in inside.chain(left_out(&pieces, elf.as_ref())) {
            self.text.extend_from_slice(b" -s ");
            self.text.extend_from_slice(&quoted(&name));
            let mut text = String::new();
            let _ = write!(text, " {address:#x}");
            self.text.extend_from_slice(text.as_bytes());
        }
        self.text.push(b'\n');
    }
}

/// A word as gdb reads it: between quotes if it has other than plain bytes.
fn quoted(word: &[u8]) -> Vec<u8> {
    if !word.is_empty() && word.iter().all(|byte| byte.is_ascii_alphanumeric() || b"_./+@%:=,~-".contains(byte)) {
        return word.to_vec();
    }
    let escaped = word.iter().flat_map(|byte| match byte {
        b'"' | b'\\' => vec![b'\\', *byte],
        _ => vec![*byte],
    });
    std::iter::once(b'"').chain(escaped).chain(std::iter::once(b'"')).collect()
}

/// Whether a piece is what `ld.ldi` has left of strings or constants, so that what is at a place of the section is
/// elsewhere.
fn is_merged(elf: &Elf, piece: &Piece) -> bool {
    let mut own = elf.sections().filter(|section| section.name == piece.section).peekable();
    own.peek().map_or(false, |first| first.flags.has(SectionFlags::MERGE))
        && own.all(|section| section.size != piece.size)
}

/// The sections of an object that are not in the image, each at an address of its own if nothing is.
fn left_out(pieces: &[&Piece], elf: Option<&Elf>) -> Vec<(BString, u64)> {
    let elf = match elf {
        Some(elf) => elf,
        None => return Vec::new(),
    };
    let mut inside: Vec<(&BStr, u64)> = pieces.iter().map(|it| (it.section.as_bstr(), it.size)).collect();
    inside.sort_unstable();
    let mut taken = vec![false; inside.len()];
    let mut address = NOWHERE;
    let mut result = Vec::new();
    for section in elf.sections().filter(|section| section.flags.has(SectionFlags::ALLOC) && section.size > 0) {
        let key = (section.name, section.size);
        let first = inside.partition_point(|it| *it < key);
        let same = inside.iter().skip(first).take_while(|it| **it == key).count();
        let free = (first..first + same).find(|number| taken.get(*number) == Some(&false));
        if let Some(slot) = free.and_then(|number| taken.get_mut(number)) {
            *slot = true;
        } else if section.name != UNWINDING {
            result.push((section.name.to_owned(), address));
            let pages = (section.size - 1) / PAGE + 1;
            address = address.saturating_add(pages.saturating_mul(PAGE));
        }
    }
    result
}

#[cfg(test)]
mod tests {
    use super::*;
    use crate::objects::tests::{object, WrittenSection};

    /// docs/makefiles.md, 'What it does': strings are merged.
    #[test]
    fn a_piece_of_another_size_is_merged() {
        let flags = (SectionFlags::ALLOC.0 | SectionFlags::MERGE.0, SectionFlags::ALLOC.0);
        let sections = [(".rodata.str", flags.0, &b"text\0"[..]), (".rodata", flags.1, b"1234")];
        let sections = sections.map(|(name, flags, data)| WrittenSection { name, kind: 1, flags, data });
        let elf = Elf::parse(object(&sections, &[], &[]).into()).unwrap();
        let piece = |section: &str, size| Piece { address: 0, size, object: "a.o".into(), section: section.into() };
        let found = [(".rodata.str", 5), (".rodata.str", 3), (".rodata", 3), (".other", 3)];
        assert_eq!(found.map(|(name, size)| is_merged(&elf, &piece(name, size))), [false, true, false, false]);
    }

    #[test]
    fn words_of_gdb() {
        assert_eq!(quoted(b"/a/b-c.o"), b"/a/b-c.o");
        assert_eq!(quoted(b"a b\"c"), b"\"a b\\\"c\"");
        assert_eq!(quoted(b""), b"\"\"");
    }
}
