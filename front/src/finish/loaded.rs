//! The test that a file loads what the image of `ldi` loads, byte for byte and at the same addresses.

use bstr::{BString, ByteSlice};
use object::elf;

use super::file_image::FileImage;
use super::image_headers::{Image, Section, Segment};
use super::FinishError;

/// A file would not load what `ldi` answered.
#[derive(Clone, PartialEq, Eq, Debug, thiserror::Error)]
#[error("the file would not have {section} as the session answered it: {what}; none is written")]
pub struct Differs {
    /// The output section.
    pub section: BString,
    /// What is different.
    pub what: &'static str,
}

/// Tests each section that takes memory, but for those that are said to be in no segment.
pub(super) fn check(file: &FileImage, segments: &[Segment], outside: &[BString]) -> Result<(), FinishError> {
    let image = Image::read(file.image())?;
    for section in image.sections.iter().filter(|one| one.is_allocated() && one.size != 0) {
        let name = image.name(section)?;
        let load = image.load_of(section);
        let what = match segments.iter().find(|one| holds(one, section, load)) {
            Some(segment) => difference(file, segment, section, image.content(section)?),
            None if outside.iter().any(|other| other.as_bstr() == name) => None,
            None => Some("no segment loads it there"),
        };
        if let Some(what) = what {
            return Err(Differs { section: name.to_owned(), what }.into());
        }
    }
    Ok(())
}

/// Whether a segment loads a section, at its load address.
fn holds(segment: &Segment, section: &Section, load: u64) -> bool {
    let within = section.address.checked_sub(segment.address);
    let room = segment.memory_size.checked_sub(section.size);
    let is_inside = within.zip(room).map_or(false, |(within, room)| within <= room);
    let distance = segment.load.wrapping_sub(segment.address);
    segment.kind == elf::PT_LOAD && is_inside && distance == load.wrapping_sub(section.address)
}

/// The first difference in the bytes that a segment loads for a section; `None` if there is none.
fn difference(file: &FileImage, segment: &Segment, section: &Section, content: &[u8]) -> Option<&'static str> {
    let within = section.address.wrapping_sub(segment.address);
    let in_file = segment.file_size.saturating_sub(within).min(section.size);
    let at = segment.offset.wrapping_add(within);
    if section.is_in_file() {
        let is_whole = in_file == section.size;
        return (!is_whole || !file.has_bytes(at, content)).then_some("its bytes are others");
    }
    (!file.has_zeros(at, in_file)).then_some("it does not begin as zeros")
}
