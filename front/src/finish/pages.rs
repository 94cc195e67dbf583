//! Segments aligned to larger pages than the 4,096 bytes of `ldi`, for `-z max-page-size=N`.
//!
//! The segments' places in the file, and `p_align`, become what N asks for: p_offset and p_vaddr are equal modulo
//! p_align (gABI, 'Program Header'). What is loaded, all addresses and the section headers but for `sh_offset` stay as
//! they are.

use super::file_image::{range, FilePlan};
use super::image_headers::{Image, Section, Segment, ELF_HEADER, PROGRAM_HEADER};
use super::{FinishError, MAX_FILE, PAGE};

/// The segments would lie too far apart in the file.
#[derive(Clone, Copy, PartialEq, Eq, Debug, thiserror::Error)]
#[error("with segments aligned to {page:#x} the image would have {end} bytes: -z max-page-size={PAGE:#x}")]
pub struct TooFar {
    page: u64,
    end: u64,
}

/// The file with segments aligned to a page; `None` if `ldi` aligns them so already.
///
/// The program headers are in the order of addresses, as the gABI has them; with `in_file_order` in that of the script,
/// as of a script whose PHDRS cannot be written.
pub(super) fn with_pages(data: &[u8], page: u64, in_file_order: bool) -> Result<Option<FilePlan>, FinishError> {
    if page <= PAGE || !page.is_power_of_two() {
        return Ok(None);
    }
    let image = Image::read(data)?;
    let (mut placed, end) = place(&image.segments, page);
    if end > MAX_FILE {
        return Err(TooFar { page, end }.into());
    }
    let sections = image.sections.iter().map(|section| moved(section, &placed)).collect();
    if in_file_order {
        placed.sort_by_key(|(old, _)| old.offset);
    }
    let loaded = placed.iter().map(|(old, new)| (new.offset, range(old.offset, old.file_size))).collect();
    let segments = placed.iter().map(|(_, new)| *new).collect();
    Ok(Some(FilePlan { segments, loaded, end, sections, ..FilePlan::unchanged(&image) }))
}

/// The segments with their new places, in the order of the image's headers; and the end of the last one.
fn place(segments: &[Segment], page: u64) -> (Vec<(Segment, Segment)>, u64) {
    let mut end = ELF_HEADER + PROGRAM_HEADER * segments.len() as u64;
    let mut placed: Vec<(Segment, Segment)> = segments.iter().map(|one| (*one, *one)).collect();
    let mut order: Vec<usize> = (0..placed.len()).collect();
    order.sort_by_key(|index| segments.get(*index).map(|one| one.offset));
    for index in order {
        if let Some((_, new)) = placed.get_mut(index) {
            new.offset = end.saturating_add(new.address.wrapping_sub(end) & (page - 1));
            new.align = page;
            if new.file_size != 0 {
                end = new.offset.saturating_add(new.file_size);
            }
        }
    }
    (placed, end)
}

/// A section header with the place that its bytes have now.
fn moved(section: &Section, placed: &[(Segment, Segment)]) -> Section {
    let place = |(old, new): &(Segment, Segment)| {
        let distance = section.address.checked_sub(old.address)?;
        let is_inside = distance <= old.memory_size && section.offset.checked_sub(old.offset) == Some(distance);
        is_inside.then(|| new.offset.wrapping_add(distance))
    };
    let offset = if section.is_allocated() { placed.iter().find_map(place) } else { None };
    Section { offset: offset.unwrap_or(section.offset), ..*section }
}
