//! Output sections that have another name in the image of `ldi`: the second of two that share a name, and those whose
//! name is not in the profile. GNU ld writes such names as they are.

use std::collections::HashMap;

use bstr::{BStr, BString, ByteSlice};

use super::file_image::{plan_or_unchanged, FilePlan};
use super::image_headers::{Image, NotAnImage};

/// Gives sections their names: pairs of the name in the image and the name that is wanted.
pub(super) fn rename(data: &[u8], names: &[(BString, BString)], plan: &mut Option<FilePlan>) -> Result<(), NotAnImage> {
    let wanted: HashMap<&BStr, &BStr> = names.iter().map(|(old, new)| (old.as_bstr(), new.as_bstr())).collect();
    let image = Image::read(data)?;
    let is_renamed = |section| Ok(wanted.contains_key(image.name(section)?));
    if wanted.is_empty() || !image.sections.iter().map(is_renamed).collect::<Result<Vec<_>, _>>()?.contains(&true) {
        return Ok(());
    }
    let mut changed = plan_or_unchanged(data, plan.take())?;
    let mut table = vec![0];
    for (old, section) in image.sections.iter().zip(&mut changed.sections) {
        let name = image.name(old)?;
        section.name = enter(&mut table, wanted.get(name).copied().unwrap_or(name));
    }
    changed.names = Some(table);
    *plan = Some(changed);
    Ok(())
}

/// Puts a name at the end of a table; gives its place. The empty name is the first byte.
fn enter(table: &mut Vec<u8>, name: &BStr) -> u32 {
    if name.is_empty() {
        return 0;
    }
    let at = u32::try_from(table.len()).unwrap_or(0);
    table.extend_from_slice(name);
    table.push(0);
    at
}
