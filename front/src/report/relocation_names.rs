//! The psABI's names of all relocation types, and what those need that `ldi` does not link (psABI for x86-64,
//! 'Relocation Types').

use super::rules::RELOCATION_NAMES;

/// What a type of relocations needs.
#[derive(Clone, Copy, PartialEq, Eq, Debug)]
pub(super) enum Need {
    /// Thread-local storage.
    Tls,
    /// A global offset table.
    Got,
    /// Something else that `ldi` does not have.
    Other,
}

/// The name of a type, such as `R_X86_64_PC32`; of one without a name its number.
pub(super) fn relocation_name(kind: u32) -> String {
    match RELOCATION_NAMES.get(kind as usize) {
        Some(name) => format!("R_X86_64_{name}"),
        None => format!("relocation type {kind}"),
    }
}

/// What a link needs for a relocation of a type that `ldi` does not link.
pub(super) fn need_of(kind: u32) -> Need {
    match kind {
        16..=23 | 34..=36 => Need::Tls,
        3 | 9 | 25..=31 | 41 | 42 => Need::Got,
        _ => Need::Other,
    }
}
