//! Where an address of an image lies: object, section and offset, and the source line by addr2line on the object.

use std::collections::HashMap;
use std::path::PathBuf;
use std::process::{Command as Process, Stdio};

use bstr::{BStr, ByteSlice};

use crate::report::link_map::{LinkMap, Piece};

/// The input sections of a map by their addresses.
pub(super) struct Places<'a>(Vec<&'a Piece>);

impl<'a> Places<'a> {
    /// The input sections of a map that have bytes, by their addresses.
    pub(super) fn of(map: &'a LinkMap) -> Places<'a> {
        let mut pieces: Vec<&Piece> = map.pieces().filter(|piece| piece.size > 0).collect();
        pieces.sort_by_key(|piece| piece.address);
        Places(pieces)
    }

    /// The input section that an address lies in, and its distance from the start.
    fn at(&self, address: u64) -> Option<(&'a Piece, u64)> {
        let after = self.0.partition_point(|piece| piece.address <= address);
        let piece = self.0.get(after.checked_sub(1)?)?;
        let offset = address.checked_sub(piece.address)?;
        (offset < piece.size).then_some((*piece, offset))
    }

    /// A line for an address: its function and line, and its place.
    pub(super) fn describe(&self, address: u64, paths: &HashMap<&BStr, PathBuf>) -> String {
        match self.at(address) {
            None => format!("{address:#x}: in no section"),
            Some((piece, offset)) => {
                let line = source_line(paths, piece, offset);
                format!("{address:#x}: {line} ({} {}+{offset:#x})", piece.object, piece.section)
            }
        }
    }
}

/// The function and the line that addr2line finds in an object; question marks if it finds none.
fn source_line(paths: &HashMap<&BStr, PathBuf>, piece: &Piece, offset: u64) -> String {
    let unknown = || "?? ??:0".to_owned();
    let path = match paths.get(piece.object.as_bstr()) {
        Some(path) => path,
        None => return unknown(),
    };
    let mut words = Process::new("addr2line");
    words.arg("-fiCpe").arg(path).arg("-j").arg(piece.section.to_os_str_lossy()).arg(format!("{offset:#x}"));
    let done = words.stdin(Stdio::null()).stderr(Stdio::null()).output();
    let text = done.map(|done| done.stdout.to_str_lossy().trim().to_owned()).unwrap_or_default();
    if text.is_empty() {
        unknown()
    } else {
        text
    }
}

#[cfg(test)]
mod tests {
    use super::*;

    #[test]
    fn addresses_lie_in_sections() {
        let text = b"entry 0000000000001000\nsection .text 0000000000001000 0000000000001000 20 AX\n\
            piece 0000000000001000 8 a.o .text\npiece 0000000000001010 4 b.o .text\n";
        let map = LinkMap::read(text).unwrap_or_default();
        let places = Places::of(&map);
        let at = |address| places.at(address).map(|(piece, offset)| (piece.object.to_string(), offset));
        assert_eq!(at(0x1007), Some(("a.o".to_owned(), 7)));
        assert_eq!(at(0x1008), None);
        assert_eq!(at(0x1013), Some(("b.o".to_owned(), 3)));
        assert_eq!((at(0xfff), at(0x1014)), (None, None));
    }
}
