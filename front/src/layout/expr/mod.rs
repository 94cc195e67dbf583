//! Expressions: compiled, and evaluated as GNU ld does.

pub(super) mod assignment_place;
pub(super) mod compiled;
pub(super) mod fold;
