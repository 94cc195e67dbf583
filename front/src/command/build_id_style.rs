//! `--build-id`: the styles of GNU ld (ld/ldbuildid.c).

/// What the note of a build ID has.
#[derive(Clone, PartialEq, Eq, Hash, Debug)]
pub enum BuildId {
    /// `--build-id`, `--build-id=sha1`: a hash of the file.
    Sha1,
    /// `md5`
    Md5,
    /// `uuid`: random bytes.
    Uuid,
    /// `0xHEX`: these bytes.
    Bytes(Vec<u8>),
}

impl BuildId {
    /// The style of a word; `None` if it is none (`compute_build_id_size`).
    pub fn of_style(style: &[u8]) -> Option<BuildId> {
        match style {
            b"" | b"sha1" => Some(BuildId::Sha1),
            b"md5" => Some(BuildId::Md5),
            b"uuid" => Some(BuildId::Uuid),
            _ => bytes_of(style.strip_prefix(b"0x")?).filter(|bytes| !bytes.is_empty()).map(BuildId::Bytes),
        }
    }

    /// Whether it is found after the link, and not given.
    pub fn is_found(&self) -> bool {
        !matches!(self, BuildId::Bytes(_))
    }

    /// The bytes that the note has room for.
    pub fn size(&self) -> usize {
        match self {
            BuildId::Sha1 => 20,
            BuildId::Md5 | BuildId::Uuid => 16,
            BuildId::Bytes(bytes) => bytes.len(),
        }
    }
}

/// The bytes of hexadecimal digits, with `-` and `:` between them.
fn bytes_of(mut digits: &[u8]) -> Option<Vec<u8>> {
    let value = |digit: u8| char::from(digit).to_digit(16);
    let mut bytes = Vec::new();
    loop {
        digits = match digits {
            [] => return Some(bytes),
            [b'-' | b':', rest @ ..] => rest,
            [high, low, rest @ ..] => {
                bytes.push((value(*high)? * 16 + value(*low)?) as u8);
                rest
            }
            [_] => return None,
        };
    }
}

#[cfg(test)]
mod tests {
    use super::*;

    /// ld/ldbuildid.c, `compute_build_id_size` and `generate_build_id`.
    #[test]
    fn styles() {
        assert_eq!(BuildId::of_style(b""), Some(BuildId::Sha1));
        assert_eq!(BuildId::of_style(b"uuid").map(|style| style.size()), Some(16));
        assert_eq!(BuildId::of_style(b"0x12-aB:c3"), Some(BuildId::Bytes(vec![0x12, 0xAB, 0xC3])));
        for style in ["fast", "0x", "0x123", "0x1g", "0X12", "0x1-2"] {
            assert_eq!(BuildId::of_style(style.as_bytes()), None, "{}", style);
        }
    }
}
