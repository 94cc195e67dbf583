//! `.eh_frame`: its entries, what refers to them, and what GNU ld leaves of them.

pub(super) mod discard;
pub(super) mod hdr;
pub(super) mod parse;
pub(super) mod references;
