//! Compares the image that `ldi` answered with the layout, to find where it differs from GNU ld's image.
//!
//! ```text
//! Evaluation, Objects, image, LinkMap --> check() --> Checked: differences, merged bytes, what is not loaded
//! ```

mod changed_bytes;
mod compare;
mod difference;
mod eh_frame_hdr;
mod loaded_image;

pub use changed_bytes::Merged;
pub use compare::NotLoaded;
pub use difference::{explained, Difference, DifferenceKind};
pub use loaded_image::NoImage;

use crate::layout::evaluation::Evaluation;
use crate::objects::Object;
use crate::report::link_map::LinkMap;

/// The outcome of a comparison.
#[derive(Clone, PartialEq, Eq, Debug, Default)]
pub struct Checked {
    /// What is another in the image; ten at most.
    pub differences: Vec<Difference>,
    /// What GNU ld makes other bytes of than the objects have, which is not compared.
    pub merged: Vec<Merged>,
    /// Sections of the script that are not loaded, which are not in the image.
    pub not_loaded: Vec<NotLoaded>,
}

/// Compares an image of `ldi` with the layout of its objects: output sections with their places, load addresses and
/// data, what fills gaps, the script's symbols, common blocks, bounds of sections and the entry; with the map also the
/// places of input sections.
///
/// # Errors
/// If the bytes are no image.
pub fn check(
    evaluation: &Evaluation,
    objects: &[Object],
    image: &[u8],
    map: Option<&LinkMap>,
) -> Result<Checked, NoImage> {
    let differences = compare::Comparison::new(evaluation, objects, image)?.run(map)?;
    let (merged, not_loaded) = (changed_bytes::merged(evaluation, objects), compare::not_loaded(evaluation));
    Ok(Checked { differences, merged, not_loaded })
}
