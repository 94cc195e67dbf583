//! A difference between an image and the layout.

use crate::script::tree::{Name, Span};
use std::fmt;

/// A difference between the image and what GNU ld makes.
#[derive(Clone, PartialEq, Eq, Debug)]
pub struct Difference {
    /// What it is.
    pub kind: DifferenceKind,
    /// Where in the script it comes from; `None` if it is of no statement.
    pub span: Option<Span>,
}

/// What is another. Numbers are addresses, bytes or values; `found` is the image's, `wanted` GNU ld's.
#[derive(Clone, PartialEq, Eq, Debug)]
pub enum DifferenceKind {
    /// An output section is not at its place, or not of its size.
    Section {
        /// The section.
        name: Name,
        /// Size and address in the image; `None` if it is not there.
        found: Option<(u64, u64)>,
        /// Size and address.
        wanted: (u64, u64),
    },
    /// The image has a section that is none to GNU ld.
    OtherSection {
        /// The section.
        name: Name,
        /// Size and address in the image.
        found: (u64, u64),
    },
    /// The load address of an output section.
    LoadAddress {
        /// The section.
        name: Name,
        /// In the image.
        found: u64,
        /// To GNU ld.
        wanted: u64,
    },
    /// Whether the file has bytes for an output section.
    FileBytes {
        /// The section.
        name: Name,
        /// Whether it has some in the image.
        found: bool,
    },
    /// The value of a data command.
    Data {
        /// The output section.
        section: Name,
        /// The distance from its start.
        offset: u64,
        /// To GNU ld.
        wanted: u64,
    },
    /// What fills a gap.
    Gap {
        /// The output section.
        section: Name,
        /// The distance from its start.
        offset: u64,
    },
    /// The place of an input section.
    Input {
        /// The input section.
        section: Name,
        /// Its object, by its name in the session.
        object: Name,
        /// Its address in the image; `None` if it is not there.
        found: Option<u64>,
        /// To GNU ld.
        wanted: u64,
    },
    /// The value of a symbol of the script.
    Symbol {
        /// The symbol.
        name: Name,
        /// Its value in the image; `None` if it has none.
        found: Option<u64>,
        /// To GNU ld.
        wanted: u64,
    },
    /// The place of a common block.
    Common {
        /// Its name.
        name: Name,
        /// In the image.
        found: u64,
        /// To GNU ld.
        wanted: u64,
    },
    /// `__start_NAME` or `__stop_NAME`.
    Bound {
        /// The symbol.
        name: Name,
        /// To GNU ld.
        wanted: u64,
    },
    /// A row of the table of `.eh_frame`.
    FrameRow {
        /// Its number.
        number: usize,
    },
    /// Where the program begins.
    Entry {
        /// In the image.
        found: u64,
        /// To GNU ld.
        wanted: u64,
    },
}

impl fmt::Display for DifferenceKind {
    fn fmt(&self, f: &mut fmt::Formatter<'_>) -> fmt::Result {
        match self {
            DifferenceKind::Section { name, found: None, wanted: (size, address) } => {
                write!(f, "{name} is not in the image; to GNU ld it is {size:#x} bytes at {address:#x}")
            }
            DifferenceKind::Section { name, found: Some((own, at)), wanted: (size, address) } => {
                write!(f, "{name} is {own:#x} bytes at {at:#x}; to GNU ld it is {size:#x} bytes at {address:#x}")
            }
            DifferenceKind::OtherSection { name, found: (size, address) } => {
                let more = "to GNU ld there is no such section that is loaded";
                write!(f, "{name} is {size:#x} bytes at {address:#x}; {more}")
            }
            DifferenceKind::LoadAddress { name, found, wanted } => {
                write!(f, "{name} is loaded at {found:#x}; to GNU ld at {wanted:#x}")
            }
            DifferenceKind::FileBytes { name, found: true } => {
                write!(f, "{name} has bytes in the file; to GNU ld it has none")
            }
            DifferenceKind::FileBytes { name, found: false } => {
                write!(f, "{name} has no bytes in the file; to GNU ld it has some")
            }
            DifferenceKind::Data { section, offset, wanted } => {
                write!(f, "the data of {section} at {offset:#x} are not {wanted:#x} as to GNU ld")
            }
            DifferenceKind::Gap { section, offset } => {
                write!(f, "a gap of {section} at {offset:#x} is filled otherwise than by GNU ld")
            }
            DifferenceKind::Input { section, object, found: None, wanted } => {
                write!(f, "{section} of {object} is not in the image; to GNU ld it is at {wanted:#x}")
            }
            DifferenceKind::Input { section, object, found: Some(found), wanted } => {
                write!(f, "{section} of {object} is at {found:#x}; to GNU ld it is at {wanted:#x}")
            }
            DifferenceKind::Symbol { name, found: None, wanted } => {
                write!(f, "{name} has no value; to GNU ld it is {wanted:#x}")
            }
            DifferenceKind::Symbol { name, found: Some(found), wanted } => {
                write!(f, "{name} is {found:#x}; to GNU ld it is {wanted:#x}")
            }
            DifferenceKind::Common { name, found, wanted } => {
                write!(f, "the common block {name} is at {found:#x}; to GNU ld it is at {wanted:#x}")
            }
            DifferenceKind::FrameRow { number } => {
                write!(f, "row {number} of .eh_frame_hdr does not say where the code of an entry of .eh_frame is")
            }
            DifferenceKind::Bound { name, wanted } => write!(f, "{name} is not {wanted:#x} as to GNU ld"),
            DifferenceKind::Entry { found, wanted } => {
                write!(f, "the entry is {found:#x}; to GNU ld it is {wanted:#x}")
            }
        }
    }
}

impl fmt::Display for Difference {
    fn fmt(&self, f: &mut fmt::Formatter<'_>) -> fmt::Result {
        self.kind.fmt(f)
    }
}

/// For each difference the construct of the script that explains it, of those that the script of the profile says
/// otherwise (`changed`): the one that the difference stands in, else the last one in front of it, as what follows
/// moves with it; if the difference is of no statement, the first.
pub fn explained(differences: &[Difference], changed: &[Span]) -> Vec<Option<Span>> {
    let mut changed = changed.to_vec();
    changed.sort_by_key(|span| (span.start, span.end));
    let cause = |difference: &Difference| match difference.span {
        None => changed.first().copied(),
        Some(own) => {
            let is_around = |span: &&Span| span.start <= own.start && own.end <= span.end;
            let is_before = |span: &&Span| span.start <= own.end;
            let inner = changed.iter().rev().find(is_around);
            inner.or_else(|| changed.iter().rev().find(is_before)).copied()
        }
    };
    differences.iter().map(cause).collect()
}

#[cfg(test)]
mod tests {
    use super::*;

    fn at(start: u32, end: u32) -> Difference {
        Difference { kind: DifferenceKind::Entry { found: 1, wanted: 2 }, span: Some(Span { start, end }) }
    }

    #[test]
    fn a_difference_has_the_construct_around_it_or_before_it() {
        let changed = [Span { start: 40, end: 50 }, Span { start: 10, end: 20 }];
        let found = explained(&[at(12, 14), at(30, 35), at(45, 46), at(0, 5)], &changed);
        assert_eq!(found, [Some(changed[1]), Some(changed[1]), Some(changed[0]), None]);
        let of_none = Difference { span: None, ..at(0, 0) };
        assert_eq!(explained(std::slice::from_ref(&of_none), &changed), [Some(changed[1])]);
        assert_eq!(explained(&[of_none], &[]), [None]);
    }

    #[test]
    fn sentences() {
        let of = |kind| Difference { kind, span: None }.to_string();
        let kind = DifferenceKind::Section { name: ".text".into(), found: Some((16, 4096)), wanted: (32, 8192) };
        assert_eq!(of(kind), ".text is 0x10 bytes at 0x1000; to GNU ld it is 0x20 bytes at 0x2000");
        let kind = DifferenceKind::Symbol { name: "end".into(), found: None, wanted: 3 };
        assert_eq!(of(kind), "end has no value; to GNU ld it is 0x3");
    }
}
