//! An object that has the note of a build ID (elf/common.h, NT_GNU_BUILD_ID).

use object::elf;

use crate::snapshot::Bytes;

/// The name of the section of the note.
pub const BUILD_ID_SECTION: &str = ".note.gnu.build-id";
/// The bytes of the note in front of the ID: the sizes of name and ID, the type, and `GNU` with its end.
pub const NOTE_HEAD: usize = 16;
const FILE_HEADER: usize = 64;
const ALIGN: u64 = 4;

/// A note with an ID.
pub fn build_note(id: &[u8]) -> Vec<u8> {
    let mut note = Vec::with_capacity(NOTE_HEAD + id.len());
    for word in [4, id.len() as u32, elf::NT_GNU_BUILD_ID] {
        note.extend(word.to_le_bytes());
    }
    note.extend(b"GNU\0");
    note.extend(id);
    note
}

/// An object with such a note, in its section number 1, and nothing else.
pub fn build_note_object(id: &[u8]) -> Bytes {
    const NAMES: &[u8] = b"\0.note.gnu.build-id\0.shstrtab\0";
    let note = build_note(id);
    let names_at = FILE_HEADER + note.len();
    let headers_at = (names_at + NAMES.len() + 7) & !7;
    let mut file = b"\x7fELF\x02\x01\x01".to_vec();
    file.resize(16, 0);
    file.extend([1, 0, 62, 0, 1, 0, 0, 0]); // ET_REL, EM_X86_64, EV_CURRENT
    file.resize(40, 0);
    file.extend((headers_at as u64).to_le_bytes());
    file.extend([0, 0, 0, 0, 64, 0, 0, 0, 0, 0, 64, 0, 3, 0, 2, 0]);
    file.extend(&note);
    file.extend(NAMES);
    file.resize(headers_at + 64, 0);
    header(&mut file, 1, elf::SHT_NOTE, u64::from(elf::SHF_ALLOC), [FILE_HEADER, note.len()], ALIGN);
    header(&mut file, 20, elf::SHT_STRTAB, 0, [names_at, NAMES.len()], 1);
    file.into()
}

/// Adds a section header: the place of the name, type, flags, the place of the bytes and their number, the alignment.
fn header(file: &mut Vec<u8>, name: u32, kind: u32, flags: u64, [offset, size]: [usize; 2], align: u64) {
    file.extend(name.to_le_bytes());
    file.extend(kind.to_le_bytes());
    for word in [flags, 0, offset as u64, size as u64, 0, align, 0] {
        file.extend(word.to_le_bytes());
    }
}

#[cfg(test)]
mod tests {
    use super::super::{Object, Origin, SectionIndex, SectionKind};
    use super::*;
    use std::path::Path;

    /// ldelf.c, `ldelf_setup_build_id` and `write_build_id`.
    #[test]
    fn an_object_with_a_note() {
        let object = Object::new("id".into(), Origin::of_file(Path::new("id")), build_note_object(&[7; 20]));
        assert!(object.fault().is_none());
        let section = object.section(SectionIndex(1)).unwrap();
        assert_eq!((section.name, section.kind, section.flags.0), (BUILD_ID_SECTION.into(), SectionKind::NOTE, 2));
        assert_eq!((section.size, section.align), (36, 4));
        assert_eq!(object.contents(SectionIndex(1)), build_note(&[7; 20]));
        assert_eq!(&build_note(&[7])[..], b"\x04\0\0\0\x01\0\0\0\x03\0\0\0GNU\0\x07");
    }
}
