//! The bytes of an image as they lie in memory, for `--oformat binary`.

use super::image_headers::{Image, NotAnImage};
use super::FinishError;

/// The bytes that a flat image has at most.
const GREATEST: u64 = 1 << 28;

/// The load addresses are too far apart.
#[derive(Clone, Copy, PartialEq, Eq, Debug, thiserror::Error)]
#[error("load addresses from {base:#x} to {end:#x}: a flat image would have {} bytes", .end.wrapping_sub(*.base))]
pub struct NoFlatImage {
    base: u64,
    end: u64,
}

/// What `objcopy -O binary` makes of an image: the sections with file bytes, by their load addresses, but for those of
/// these addresses and sizes.
pub(super) fn flat_binary(data: &[u8], left_out: &[(u64, u64)]) -> Result<Vec<u8>, FinishError> {
    let parts = parts(&Image::read(data)?, left_out)?;
    let range = (
        parts.iter().map(|(load, _)| *load).min(),
        parts.iter().map(|(load, bytes)| load.wrapping_add(bytes.len() as u64)).max(),
    );
    let (base, end) = match range {
        (Some(base), Some(end)) => (base, end),
        _ => return Ok(Vec::new()),
    };
    let size = end.wrapping_sub(base);
    if size > GREATEST {
        return Err(NoFlatImage { base, end }.into());
    }
    let mut flat = vec![0; usize::try_from(size).unwrap_or(0)];
    for (load, bytes) in parts {
        let start = usize::try_from(load.wrapping_sub(base)).unwrap_or(usize::MAX);
        if let Some(place) = start.checked_add(bytes.len()).and_then(|end| flat.get_mut(start..end)) {
            place.copy_from_slice(bytes);
        }
    }
    Ok(flat)
}

/// The sections that the file has bytes for, with their load addresses.
fn parts<'a>(image: &Image<'a>, left_out: &[(u64, u64)]) -> Result<Vec<(u64, &'a [u8])>, NotAnImage> {
    let has_bytes = image.sections.iter().filter(|one| one.is_allocated() && one.is_in_file() && one.size != 0);
    let taken = has_bytes.filter(|one| !left_out.contains(&(one.address, one.size)));
    taken.map(|section| Ok((image.load_of(section), image.content(section)?))).collect()
}
