//! Sections with SHF_COMPRESSED (gABI, 'Section Compression'), as their bytes were before.

use std::convert::TryInto;

/// The type of zlib, ELFCOMPRESS_ZLIB.
const ZLIB: u32 = 1;
/// The bytes of a header: type, four bytes that are free, size and alignment.
const HEADER: usize = 24;
/// The bytes that such a section has at most.
const GREATEST: u64 = 1 << 31;

/// The bytes and the alignment of a section; `None` if it is compressed in another way, or is not whole.
pub(super) fn inflated(data: &[u8]) -> Option<(Vec<u8>, u64)> {
    let word = |at: usize| data.get(at..at + 8).and_then(|bytes| bytes.try_into().ok()).map(u64::from_le_bytes);
    let (kind, size, align) = (word(0)? as u32, word(8)?, word(16)?);
    if kind != ZLIB || size > GREATEST {
        return None;
    }
    let size = usize::try_from(size).ok()?;
    let bytes = miniz_oxide::inflate::decompress_to_vec_zlib_with_limit(data.get(HEADER..)?, size).ok()?;
    (bytes.len() == size).then_some((bytes, align.max(1)))
}

#[cfg(test)]
mod tests {
    use super::*;

    #[test]
    fn zlib_is_read_and_nothing_else() {
        let text = b"the same, the same, the same";
        let mut data = Vec::new();
        for word in [1, text.len() as u64, 1] {
            data.extend(word.to_le_bytes());
        }
        data.extend(miniz_oxide::deflate::compress_to_vec_zlib(text, 6));
        assert_eq!(inflated(&data), Some((text.to_vec(), 1)));
        for end in 0..data.len() - 4 {
            assert_eq!(inflated(&data[..end]), None);
        }
        data[0] = 2;
        assert_eq!(inflated(&data), None);
    }
}
