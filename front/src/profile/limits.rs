//! The limits of the profile of `ldi` (docs/limits.md). `tools/rules` writes this file: do not edit it.

/// The bytes that an object or a script has at most.
pub const MAX_PAYLOAD: usize = 67_108_864;
/// The bytes that an object's name has at most.
pub const MAX_OBJECT_NAME: usize = 255;
/// The objects that a session has at most.
pub const MAX_OBJECTS: usize = 4_096;
/// The bytes of a script, at most.
pub const MAX_SCRIPT: usize = 1_048_576;
/// The bytes that a NAME or a WORD has at most.
pub const MAX_WORD: usize = 255;
/// The braces that a script opens, at most.
pub const MAX_BRACES: usize = 4_096;
/// The signs of a run, at most.
pub const MAX_SIGNS: usize = 64;
/// The bytes of an image, at most.
pub const MAX_IMAGE: u64 = 268_435_456;
