//! `--wrap=NAME`: references to NAME are to `__wrap_NAME`, those to `__real_NAME` to NAME (linker.c,
//! `bfd_wrapped_link_hash_lookup`, which is asked for names that an object does not define).

use super::draft::{Draft, Headers};
use super::SectionIndex;
use crate::snapshot::Bytes;
use bstr::{BStr, BString, ByteSlice};
use object::elf::{self, Sym64};
use object::LittleEndian as Little;

const WRAP: &[u8] = b"__wrap_";
const REAL: &[u8] = b"__real_";
/// Where fields are in a section header.
const OFFSET_AT: usize = 24;
const SIZE_AT: usize = 32;
const SYMBOL: usize = std::mem::size_of::<Sym64<Little>>();

/// The name that a reference to a name is to, under `--wrap`; `None` if that is the name itself.
pub fn wrapped_name(name: &BStr, wraps: &[BString]) -> Option<BString> {
    let has = |name: &[u8]| wraps.iter().any(|one| one == name);
    if has(name) {
        return Some([WRAP, name].concat().into());
    }
    name.strip_prefix(REAL).filter(|real| has(real)).map(BString::from)
}

/// The bytes of an object with such references.
pub fn with_wraps(data: Bytes, wraps: &[BString]) -> Bytes {
    if wraps.is_empty() {
        return data;
    }
    let changed = Headers::of(&data).and_then(|headers| with_names_wrapped(headers, &data, wraps));
    changed.unwrap_or(data)
}

fn with_names_wrapped(headers: Headers<'_>, data: &Bytes, wraps: &[BString]) -> Option<Bytes> {
    let (_, table) = headers.iter().find(|(_, header)| header.sh_type.get(Little) == elf::SHT_SYMTAB)?;
    let number = SectionIndex(table.sh_link.get(Little));
    let texts = headers.contents(headers.get(number)?).1;
    let (begin, symbols) = headers.symbols(table);
    let name_of = |symbol: &Sym64<Little>| {
        let rest = texts.get(symbol.st_name.get(Little) as usize..)?;
        Some(rest.get(..memchr::memchr(0, rest)?)?.as_bstr())
    };
    let mut draft = Draft::new(data.clone());
    let mut added = texts.to_vec();
    for (index, symbol) in symbols.iter().enumerate().skip(table.sh_info.get(Little) as usize) {
        let is_reference = symbol.st_shndx.get(Little) == elf::SHN_UNDEF;
        if let Some(name) = name_of(symbol).filter(|_| is_reference).and_then(|name| wrapped_name(name, wraps)) {
            draft.put(begin + index * SYMBOL, &u32::try_from(added.len()).ok()?.to_le_bytes());
            added.extend_from_slice(&name);
            added.push(0);
        }
    }
    if added.len() == texts.len() {
        return None;
    }
    let (place, at) = (headers.place(number), data.len() as u64);
    draft.put(place + OFFSET_AT, &at.to_le_bytes());
    draft.put(place + SIZE_AT, &(added.len() as u64).to_le_bytes());
    Some([draft.finish().to_vec(), added].concat().into())
}

#[cfg(test)]
mod tests {
    use super::super::tests::code;
    use super::super::Elf;
    use super::*;

    #[test]
    fn references_have_other_names() {
        let data = code(&[("f", 1, 1, 2, 1), ("malloc", 1, 0, 0, 0), ("__real_malloc", 1, 0, 0, 0), ("g", 1, 0, 0, 0)]);
        let elf = Elf::parse(with_wraps(data.into(), &["malloc".into(), "f".into()])).unwrap();
        let names: Vec<_> = elf.globals().map(|symbol| symbol.name.to_string()).collect();
        assert_eq!(names, ["f", "__wrap_malloc", "malloc", "g"]);
    }

    #[test]
    fn a_file_without_them_stays() {
        let data: Bytes = code(&[("f", 1, 1, 2, 1), ("g", 1, 0, 0, 0)]).into();
        assert!(with_wraps(data.clone(), &["f".into()]).is_identical(&data));
        assert!(with_wraps(data.clone(), &[]).is_identical(&data));
    }
}
