//! Names that compilers and assemblers give to places of their own.

/// Whether a name is one (bfd/elf.c, `_bfd_elf_is_local_label_name`).
pub(super) fn is_label(name: &[u8]) -> bool {
    match name {
        [b'.', b'L' | b'.', ..] | [b'_', b'.', b'L', b'_', ..] => true,
        [b'L', first, rest @ ..] if first.is_ascii_digit() => is_of_assembler(rest),
        _ => false,
    }
}

/// Whether digits with a byte 1 or 2 among them follow; all may follow a byte 1 right after the first digit.
fn is_of_assembler(rest: &[u8]) -> bool {
    if rest.first() == Some(&1) {
        return true;
    }
    let mut has_mark = false;
    for byte in rest {
        has_mark |= matches!(byte, 1 | 2);
        if !byte.is_ascii_digit() {
            return false;
        }
    }
    has_mark
}

#[cfg(test)]
mod tests {
    use super::is_label;

    #[test]
    fn labels() {
        for name in [&b".L3"[..], b"..x", b"_.L_1", b"L0\x01more", b".L"] {
            assert!(is_label(name), "{:?}", name);
        }
        for name in [&b"L3"[..], b"L", b"L1x", b"f", b"", b".data", b"_.L", b"L1\x02", b"L1\x02f"] {
            assert!(!is_label(name), "{:?}", name);
        }
    }
}
