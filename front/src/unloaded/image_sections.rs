//! Sections and names of the image that `ldi` answered.

use bstr::{BStr, ByteSlice};
use object::elf::{self, FileHeader64, SectionHeader64, Sym64};
use object::read::elf::{FileHeader, SectionHeader};
use object::LittleEndian as LE;

use crate::fast_map::{FastMap, FastSet};

/// The sections of an image, by addresses and sizes, and the values of its names.
pub(super) struct ImageSections<'a> {
    sections: FastSet<(u64, u64)>,
    values: FastMap<&'a BStr, u64>,
}

impl<'a> ImageSections<'a> {
    /// Reads the sections of an image, and the values of some names; what cannot be read is not in it.
    pub(super) fn read(image: &'a [u8], wanted: &FastSet<&BStr>) -> ImageSections<'a> {
        let header = FileHeader64::<LE>::parse(image).ok();
        let headers: &[SectionHeader64<LE>] =
            header.and_then(|header| header.section_headers(LE, image).ok()).unwrap_or_default();
        let loaded = headers.iter().filter(|one| one.sh_flags.get(LE) & u64::from(elf::SHF_ALLOC) != 0);
        ImageSections {
            sections: loaded.map(|one| (one.sh_addr.get(LE), one.sh_size.get(LE))).collect(),
            values: values_of(image, headers, wanted).unwrap_or_default(),
        }
    }

    /// Whether a section of that size is at an address.
    pub(super) fn has_section(&self, address: u64, size: u64) -> bool {
        self.sections.contains(&(address, size))
    }

    /// The value of a name.
    pub(super) fn value(&self, name: &BStr) -> Option<u64> {
        self.values.get(name).copied()
    }
}

fn values_of<'a>(
    image: &'a [u8],
    headers: &[SectionHeader64<LE>],
    wanted: &FastSet<&BStr>,
) -> Option<FastMap<&'a BStr, u64>> {
    let table = headers.iter().find(|one| one.sh_type.get(LE) == elf::SHT_SYMTAB)?;
    let strings = headers.get(table.sh_link.get(LE) as usize)?.data(LE, image).ok()?;
    let bytes = table.data(LE, image).ok()?;
    let count = bytes.len() / std::mem::size_of::<Sym64<LE>>();
    let (symbols, _) = object::slice_from_bytes::<Sym64<LE>>(bytes, count).ok()?;
    let of_symbol = |symbol: &Sym64<LE>| {
        let rest = strings.get(symbol.st_name.get(LE) as usize..)?;
        let name = rest.get(..memchr::memchr(0, rest)?)?.as_bstr();
        (symbol.st_shndx.get(LE) != elf::SHN_UNDEF).then(|| (name, symbol.st_value.get(LE)))
    };
    let mut values = FastMap::default();
    if !wanted.is_empty() {
        values.extend(symbols.iter().skip(1).filter_map(of_symbol).filter(|(name, _)| wanted.contains(name)));
    }
    Some(values)
}
