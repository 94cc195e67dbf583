//! Makes some names that an object defines undefined in it.

use super::draft::{Draft, Headers};
use crate::snapshot::Bytes;
use bstr::{BStr, ByteSlice};
use object::elf::{self, Sym64};
use object::LittleEndian as Little;

const SYMBOL: usize = std::mem::size_of::<Sym64<Little>>();
/// Where fields are in a symbol.
const HOME_AT: usize = 6;
const VALUE_AT: usize = 8;

/// The bytes of an object in which these names are undefined; `None` if there are none of them, or it has no
/// symbols.
pub fn without_names(data: &Bytes, names: &[&BStr]) -> Option<Bytes> {
    let headers = Headers::of(data).filter(|_| !names.is_empty())?;
    let (_, table) = headers.iter().find(|(_, header)| header.sh_type.get(Little) == elf::SHT_SYMTAB)?;
    let (_, texts) = headers.contents(headers.get(super::SectionIndex(table.sh_link.get(Little)))?);
    let (begin, symbols) = headers.symbols(table);
    let mut draft = Draft::new(data.clone());
    for (index, symbol) in symbols.iter().enumerate().skip(table.sh_info.get(Little) as usize) {
        let name = texts.get(symbol.st_name.get(Little) as usize..).unwrap_or_default();
        let name = name.split(|byte| *byte == 0).next().unwrap_or_default().as_bstr();
        if names.contains(&name) && symbol.st_shndx.get(Little) != elf::SHN_UNDEF {
            let at = begin + index * SYMBOL;
            draft.put(at + HOME_AT, &elf::SHN_UNDEF.to_le_bytes());
            draft.put(at + VALUE_AT, &[0; 8]);
        }
    }
    Some(draft.finish())
}

#[cfg(test)]
mod tests {
    use super::super::tests::code;
    use super::super::{Elf, Home, SectionIndex};
    use super::*;

    #[test]
    fn definitions_become_references() {
        let data: Bytes = code(&[("f", 1, 1, 2, 1), ("g", 1, 1, 4, 1), ("number", 1, elf::SHN_ABS, 7, 0)]).into();
        let elf = Elf::parse(without_names(&data, &["f".into(), "number".into()]).unwrap()).unwrap();
        let found: Vec<_> = elf.globals().map(|one| (one.name.to_string(), one.home, one.value)).collect();
        let wanted =
            [("f", Home::Undefined, 0), ("g", Home::Section(SectionIndex(1)), 4), ("number", Home::Undefined, 0)];
        assert_eq!(found, wanted.map(|(name, home, value)| (name.to_owned(), home, value)));
        assert_eq!(without_names(&data, &[]), None);
        assert_eq!(without_names(&Bytes::from(b"text".to_vec()), &["f".into()]), None);
    }
}
