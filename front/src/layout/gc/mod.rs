//! `--gc-sections`, and what refers to something that is not in the image.

pub(super) mod deleted_symbols;
pub(super) mod dropped_groups;
pub(super) mod mark;
