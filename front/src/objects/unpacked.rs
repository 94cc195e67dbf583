//! Debug information that is compressed as GNU tools did before SHF_COMPRESSED: GNU ld takes `.zdebug_NAME` for
//! `.debug_NAME` with the bytes of before (compress.c, `bfd_init_section_decompress_status`; elf.c,
//! `_bfd_elf_make_section_from_shdr`).

use super::draft::Headers;
use super::merged_object::Written;
use super::SectionIndex;
use crate::snapshot::Bytes;
use object::elf::{self, SectionHeader64};
use object::read::elf::SectionHeader;
use object::LittleEndian as Little;

const PACKED: &[u8] = b".zdebug";
const PLAIN: &[u8] = b".debug";
/// How such a section begins: this and the number of bytes before, the greatest part first.
const MARK: &[u8] = b"ZLIB";
const HEADER: usize = 12;
/// The bytes that such a section has at most.
const GREATEST: u64 = 1 << 31;

/// The bytes of an object without such sections; `None` if it has none.
pub(super) fn unpacked(data: &Bytes) -> Option<Bytes> {
    let headers = Headers::of(data)?;
    let is_one = |(_, header): &(SectionIndex, &SectionHeader64<Little>)| {
        let is_loaded = header.sh_flags(Little) & u64::from(elf::SHF_ALLOC) != 0;
        header.sh_type(Little) == elf::SHT_PROGBITS && !is_loaded && headers.name(header).starts_with(PACKED)
    };
    let mut packed = headers.iter().filter(is_one).peekable();
    packed.peek()?;
    let mut names = headers.contents(headers.get(headers.names_in())?).1.to_vec();
    let mut written = Written::of(data, headers)?;
    for (number, header) in packed {
        if let Some(bytes) = inflated(headers.contents(header).1) {
            written.put_section(number, &bytes)?;
            written.put_name(number, u32::try_from(names.len()).ok()?)?;
            names.extend(PLAIN.iter().chain(headers.name(header).get(PACKED.len()..)?));
            names.push(0);
        }
    }
    written.put_section(headers.names_in(), &names)?;
    written.finish()
}

/// The bytes of a section of before; `None` if it is not compressed.
fn inflated(data: &[u8]) -> Option<Vec<u8>> {
    let (head, packed) = (data.get(..HEADER)?, data.get(HEADER..)?);
    let size = u64::from_be_bytes(head.strip_prefix(MARK)?.try_into().ok()?);
    let size = usize::try_from(Some(size).filter(|size| *size <= GREATEST)?).ok()?;
    let bytes = miniz_oxide::inflate::decompress_to_vec_zlib_with_limit(packed, size).ok()?;
    (bytes.len() == size).then_some(bytes)
}

#[cfg(test)]
mod tests {
    use super::super::tests::{object, WrittenSection};
    use super::super::Elf;
    use super::*;

    fn packed(text: &[u8]) -> Vec<u8> {
        let size = (text.len() as u64).to_be_bytes();
        [MARK, &size, &miniz_oxide::deflate::compress_to_vec_zlib(text, 6)].concat()
    }

    /// A section that is compressed is a plain one, and one that only has such a name stays.
    #[test]
    fn sections_are_what_they_were() {
        let (text, data) = (b"the same, the same, the same", packed(b"the same, the same, the same"));
        let section = |name, data| WrittenSection { name, kind: 1, flags: 0, data };
        let sections = [section(".zdebug_info", data.as_slice()), section(".zdebug_line", b"plain")];
        let own = Bytes::from(object(&sections, &[], &[]));
        let plain = Elf::parse(unpacked(&own).unwrap()).unwrap();
        let found: Vec<_> =
            plain.sections().take(2).map(|one| (one.name.to_string(), plain.contents(one.index))).collect();
        assert_eq!(found, [(".debug_info".into(), &text[..]), (".zdebug_line".into(), b"plain")]);
        assert_eq!(unpacked(&object(&[section(".debug_info", text)], &[], &[]).into()), None);
        for end in 0..data.len() {
            assert_eq!(inflated(&data[..end]), None);
        }
    }
}
