//! Why the inputs are none of a link.

use bstr::BString;
use thiserror::Error;

use super::archive::BadArchive;
use crate::snapshot::ReadFault;

/// Why the inputs are none of a link.
#[derive(Debug, Error)]
pub enum InputFault {
    /// Only another linker can do this; the text says why.
    #[error("{0}")]
    OfOtherLinkers(String),
    /// What is no input.
    #[error(transparent)]
    Bad(#[from] BadInput),
    /// An input that is not there or cannot be read.
    #[error(transparent)]
    Missing(#[from] MissingInput),
}

/// A file that is no input, or not the archive that it begins as.
#[derive(Clone, PartialEq, Eq, Debug, Error)]
pub enum BadInput {
    /// A text that names no inputs.
    #[error("{0}: no object, no archive, and no script")]
    Text(BString),
    /// An archive that is none.
    #[error("{name}: {fault}")]
    Archive {
        /// The archive.
        name: BString,
        /// What is wrong with it.
        fault: BadArchive,
    },
    /// An archive whose symbol table leads to no member.
    #[error("{archive}: its symbol table names no member at {offset}")]
    NoMember {
        /// The archive.
        archive: BString,
        /// What its symbol table has in place of a member's offset.
        offset: u64,
    },
    /// Archives within archives, too many of them.
    #[error("{0}: archives within archives")]
    Nested(BString),
}

/// An input that is not there or cannot be read.
#[derive(Debug, Error)]
pub enum MissingInput {
    /// A library that no folder has.
    #[error("cannot find -l{0}: No such file or directory")]
    Library(BString),
    /// A file.
    #[error("{}", said(.path, .fault))]
    File {
        /// The file.
        path: BString,
        /// Why it was not read.
        fault: ReadFault,
    },
    /// A member of a thin archive, which is a file of its own.
    #[error("cannot find {path}, a member of {archive}: {fault}")]
    Member {
        /// The member's file.
        path: BString,
        /// The archive.
        archive: BString,
        /// Why the file was not read.
        fault: ReadFault,
    },
}

fn said(path: &BString, fault: &ReadFault) -> String {
    match fault {
        ReadFault::NotRegular | ReadFault::NoWriter => format!("{path}: {fault}"),
        fault => format!("cannot find {path}: {fault}"),
    }
}
