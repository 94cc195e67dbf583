//! The map of a link, read into tables (docs/manual.md, 'The map').

use bstr::{BString, ByteSlice};

use super::plain;

/// An input section in an output section.
#[derive(Clone, PartialEq, Eq, Debug)]
pub struct Piece {
    /// Its address.
    pub address: u64,
    /// Its size in bytes.
    pub size: u64,
    /// The object that it is of.
    pub object: BString,
    /// Its name.
    pub section: BString,
}

/// An output section with its input sections, in the order of the script.
#[derive(Clone, PartialEq, Eq, Debug)]
pub struct MapSection {
    /// Its name.
    pub name: BString,
    /// Its address.
    pub start: u64,
    /// Its load address.
    pub load: u64,
    /// Its size in bytes.
    pub size: u64,
    /// Its flags, as letters.
    pub flags: BString,
    /// Its input sections.
    pub pieces: Vec<Piece>,
}

/// A name that is not local.
#[derive(Clone, PartialEq, Eq, Debug)]
pub struct MapSymbol {
    /// Its value; none if its section is not in the output.
    pub value: Option<u64>,
    /// The name.
    pub name: BString,
    /// The object that defines it, or `script`.
    pub owner: BString,
}

/// A whole map.
#[derive(Clone, PartialEq, Eq, Debug, Default)]
pub struct LinkMap {
    /// The entry point.
    pub entry: u64,
    /// The output sections.
    pub sections: Vec<MapSection>,
    /// The names.
    pub symbols: Vec<MapSymbol>,
}

/// A text that is no map of `ldi`.
#[derive(Clone, PartialEq, Eq, Debug, thiserror::Error)]
#[error("line {line} is no line of a map: {text}")]
pub struct BadMap {
    /// The line, from 1.
    pub line: usize,
    /// Its text.
    pub text: String,
}

/// The value of a symbol whose section is not in the output.
const NO_VALUE: &[u8] = b"----------------";

impl LinkMap {
    /// Reads a map.
    ///
    /// # Errors
    /// If a line is not one of a map.
    pub fn read(data: &[u8]) -> Result<LinkMap, BadMap> {
        let mut map = LinkMap::default();
        for (index, line) in data.lines().enumerate() {
            map.read_line(line).ok_or_else(|| {
                let text = plain(line).chars().take(80).collect();
                BadMap { line: index + 1, text }
            })?;
        }
        Ok(map)
    }

    /// All input sections in the output.
    pub fn pieces(&self) -> impl Iterator<Item = &Piece> {
        self.sections.iter().flat_map(|section| &section.pieces)
    }

    fn read_line(&mut self, line: &[u8]) -> Option<()> {
        let words: Vec<&[u8]> = line.split(|byte| *byte == b' ').collect();
        match *words.as_slice() {
            [b"piece", address, size, object, section] => {
                let (object, section) = (object.into(), section.into());
                let piece = Piece { address: hex(address)?, size: hex(size)?, object, section };
                self.sections.last_mut()?.pieces.push(piece);
            }
            [b"symbol", value, name, owner] => {
                let value = if value == NO_VALUE { None } else { Some(hex(value)?) };
                self.symbols.push(MapSymbol { value, name: name.into(), owner: owner.into() });
            }
            [b"section", name, start, load, size, flags] => {
                let (name, flags) = (name.into(), flags.into());
                let (start, load, size) = (hex(start)?, hex(load)?, hex(size)?);
                self.sections.push(MapSection { name, start, load, size, flags, pieces: Vec::new() });
            }
            [b"entry", value] => self.entry = hex(value)?,
            _ => return None,
        }
        Some(())
    }
}

fn hex(word: &[u8]) -> Option<u64> {
    u64::from_str_radix(word.to_str().ok()?, 16).ok()
}

#[cfg(test)]
mod tests {
    use super::*;

    #[test]
    fn lines_of_a_map() {
        let text = b"entry 0000000000401000\nsection .text 0000000000401000 0000000000001000 8 AX\n\
            piece 0000000000401000 8 a.o .text\nsymbol 0000000000401000 f a.o\nsymbol ---------------- g b.o\n";
        let map = LinkMap::read(text).unwrap_or_default();
        assert_eq!((map.entry, map.sections.len(), map.symbols.len()), (0x401000, 1, 2));
        assert_eq!(map.pieces().map(|piece| (piece.address, piece.size)).collect::<Vec<_>>(), [(0x401000, 8)]);
        assert_eq!(map.symbols.iter().map(|symbol| symbol.value).collect::<Vec<_>>(), [Some(0x401000), None]);
    }

    #[test]
    fn what_is_no_map() {
        for (text, line) in [(&b"entry x\n"[..], 1), (b"entry 0\npiece 0 0 a b\n", 2), (b"\n", 1), (b"symbol 0 a\n", 1)]
        {
            assert_eq!(LinkMap::read(text).map_err(|fault| fault.line), Err(line));
        }
    }
}
