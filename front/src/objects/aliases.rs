//! Adds aliases to an object: the names to which a script assigns its symbols.

use super::draft::Headers;
use bstr::{BStr, ByteSlice};
use object::elf::{self, SectionHeader64, Sym64};
use object::LittleEndian as Little;

/// Where fields are in a section header.
const OFFSET_AT: usize = 24;
const SIZE_AT: usize = 32;
/// What tables in a file are aligned to.
const WORD: usize = 8;

/// The bytes of an object in which each first name is one for the place of the second; `None` if one cannot be had.
pub fn with_aliases(data: &[u8], aliases: &[(&BStr, &BStr)]) -> Option<Vec<u8>> {
    let headers = Headers::of(data)?;
    let (table_number, table) = headers.iter().find(|(_, header)| header.sh_type.get(Little) == elf::SHT_SYMTAB)?;
    let names_number = super::SectionIndex(table.sh_link.get(Little));
    let names = headers.get(names_number)?;
    let (mut symbols, mut texts) = (headers.symbols(table).1.to_vec(), headers.contents(names).1.to_vec());
    for (alias, target) in aliases {
        add(&mut symbols, &mut texts, table, alias, target)?;
    }
    let mut changed = data.to_vec();
    let symbols: Vec<u8> = symbols.iter().flat_map(|symbol| object::bytes_of(symbol).to_vec()).collect();
    for (number, bytes) in [(table_number, symbols), (names_number, texts)] {
        changed.resize(changed.len() + (changed.len().wrapping_neg() & (WORD - 1)), 0);
        let (place, at) = (headers.place(number), changed.len() as u64);
        put(&mut changed, place + OFFSET_AT, at);
        put(&mut changed, place + SIZE_AT, bytes.len() as u64);
        changed.extend(bytes);
    }
    Some(changed)
}

/// Adds one name: in the place of a reference to it if there is one.
fn add(
    symbols: &mut Vec<Sym64<Little>>,
    texts: &mut Vec<u8>,
    table: &SectionHeader64<Little>,
    alias: &BStr,
    target: &BStr,
) -> Option<()> {
    let first = table.sh_info.get(Little) as usize;
    let is_named = |symbol: &&Sym64<Little>, name: &BStr| text_at(texts, symbol.st_name.get(Little)) == Some(name);
    let is_home = |symbol: &&Sym64<Little>| (1..elf::SHN_LORESERVE).contains(&symbol.st_shndx.get(Little));
    let globals = symbols.get(first..)?;
    let own = *globals.iter().filter(is_home).find(|symbol| is_named(symbol, target))?;
    let reference = globals.iter().position(|symbol| is_named(&symbol, alias)).map(|at| first + at);
    let mut added = Sym64 { st_info: elf::STB_GLOBAL << 4 | own.st_info & 0xF, st_other: 0, ..own };
    added.st_size.set(Little, 0);
    match reference.and_then(|at| symbols.get_mut(at)) {
        Some(old) if old.st_shndx.get(Little) != elf::SHN_UNDEF => return None,
        Some(old) => *old = Sym64 { st_name: old.st_name, ..added },
        None => {
            added.st_name.set(Little, u32::try_from(texts.len()).ok()?);
            texts.extend_from_slice(alias);
            texts.push(0);
            symbols.push(added);
        }
    }
    Some(())
}

fn text_at(texts: &[u8], at: u32) -> Option<&BStr> {
    let rest = texts.get(at as usize..)?;
    Some(rest.get(..memchr::memchr(0, rest)?)?.as_bstr())
}

fn put(data: &mut [u8], at: usize, value: u64) {
    if let Some(place) = data.get_mut(at..at.saturating_add(WORD)) {
        place.copy_from_slice(&value.to_le_bytes());
    }
}

#[cfg(test)]
mod tests {
    use super::super::tests::code;
    use super::super::{Elf, Home, SectionIndex};
    use super::*;

    fn homes(data: Vec<u8>, name: &str) -> Vec<(Home, u64)> {
        let elf = Elf::parse(data.into()).unwrap();
        elf.globals_named(name.into()).map(|symbol| (symbol.home, symbol.value)).collect()
    }

    #[test]
    fn a_name_is_one_more_or_that_of_a_reference() {
        let data = code(&[("f", 1, 1, 2, 1), ("wanted", 1, 0, 0, 0)]);
        let own = [(b"more".as_bstr(), b"f".as_bstr()), (b"wanted".as_bstr(), b"f".as_bstr())];
        let changed = with_aliases(&data, &own).unwrap();
        for name in ["f", "more", "wanted"] {
            assert_eq!(homes(changed.clone(), name), [(Home::Section(SectionIndex(1)), 2)], "{name}");
        }
    }

    #[test]
    fn what_is_not_there_has_no_other_name() {
        let data = code(&[("f", 1, 1, 2, 1), ("wanted", 1, 0, 0, 0)]);
        for (alias, target) in [("more", "nothing"), ("more", "wanted"), ("f", "f")] {
            assert_eq!(with_aliases(&data, &[(alias.into(), target.into())]), None, "{alias}");
        }
        assert_eq!(with_aliases(b"no object", &[]), None);
    }
}
