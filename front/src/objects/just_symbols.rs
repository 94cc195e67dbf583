//! `-R FILE`: an object of the symbols of another image, each at its address (GNU ld manual, `--just-symbols`).

use super::got_entries::Written;
use crate::snapshot::Bytes;
use object::elf::{self, FileHeader64, Sym64};
use object::read::elf::FileHeader;
use object::LittleEndian as Little;

/// The object; `None` if a file is no ELF file of x86-64.
pub fn just_symbols(data: &[u8]) -> Option<Bytes> {
    let header = FileHeader64::<Little>::parse(data).ok()?;
    if header.e_machine.get(Little) != elf::EM_X86_64 {
        return None;
    }
    let sections = header.sections(Little, data).ok()?;
    let symbols = sections.symbols(Little, data, elf::SHT_SYMTAB).ok()?;
    let (mut table, mut texts) = (vec![0; std::mem::size_of::<Sym64<Little>>()], vec![0]);
    for symbol in symbols.iter() {
        let name = symbols.strings().get(symbol.st_name.get(Little)).unwrap_or_default();
        if !is_taken(symbol) || name.is_empty() {
            continue;
        }
        let mut own = *symbol;
        own.st_name.set(Little, u32::try_from(texts.len()).ok()?);
        own.st_shndx.set(Little, elf::SHN_ABS);
        table.extend_from_slice(object::bytes_of(&own));
        texts.extend_from_slice(name);
        texts.push(0);
    }
    const NAMES: &[u8] = b"\0.symtab\0.strtab\0.shstrtab\0";
    let mut written = Written::default();
    written.section(1, elf::SHT_SYMTAB, 0, &table, [2, 1, 24]);
    written.section(9, elf::SHT_STRTAB, 0, &texts, [0; 3]);
    written.section(17, elf::SHT_STRTAB, 0, NAMES, [0; 3]);
    Some(written.finish())
}

/// Whether a symbol is one that others may refer to, at an address.
fn is_taken(symbol: &Sym64<Little>) -> bool {
    let is_global = matches!(symbol.st_info >> 4, elf::STB_GLOBAL | elf::STB_WEAK);
    let is_placed = !matches!(symbol.st_shndx.get(Little), elf::SHN_UNDEF | elf::SHN_COMMON);
    is_global && is_placed && symbol.st_info & 0xF != elf::STT_TLS
}

#[cfg(test)]
mod tests {
    use super::super::tests::code;
    use super::super::{Elf, Home};
    use super::*;

    #[test]
    fn symbols_are_numbers() {
        let data = code(&[("f", 1, 1, 2, 1), ("g", 1, 0, 0, 0), ("h", 2, 1, 7, 1)]);
        let elf = Elf::parse(just_symbols(&data).unwrap()).unwrap();
        let found: Vec<_> = elf.globals().map(|one| (one.name.to_string(), one.home, one.value)).collect();
        assert_eq!(found, [("f".to_owned(), Home::Absolute, 2), ("h".to_owned(), Home::Absolute, 7)]);
        assert_eq!(just_symbols(b"text"), None);
    }
}
