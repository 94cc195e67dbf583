//! Appends the sections that are not loaded to those of the image.

use bstr::BString;

use super::file_image::{plan_or_unchanged, FilePlan};
use super::image_headers::{Image, NotAnImage, Section};
use crate::snapshot::Bytes;

/// A section of the file that is not loaded.
#[derive(Clone, PartialEq, Eq, Debug)]
pub struct Unloaded {
    /// Its name.
    pub name: BString,
    /// `sh_type`
    pub kind: u32,
    /// `sh_flags`, without SHF_ALLOC
    pub flags: u64,
    /// `sh_addr`
    pub address: u64,
    /// `sh_addralign`
    pub align: u64,
    /// `sh_entsize`
    pub entry_size: u64,
    /// `sh_size`
    pub size: u64,
    /// Its bytes; none of SHT_NOBITS.
    pub content: Bytes,
}

/// Adds sections behind those that are loaded.
pub(super) fn add(data: &[u8], unloaded: Vec<Unloaded>, plan: &mut Option<FilePlan>) -> Result<(), NotAnImage> {
    if unloaded.is_empty() {
        return Ok(());
    }
    let mut changed = plan_or_unchanged(data, plan.take())?;
    let image = Image::read(data)?;
    let mut names = match changed.names.take() {
        Some(names) => names,
        None => {
            let table = image.sections.get(image.names_in).map(|table| image.content(table)).transpose()?;
            table.unwrap_or(&[0]).to_vec()
        }
    };
    let is_apart = |section: &Section| section.kind != 0 && !section.is_allocated();
    let first = changed.sections.iter().position(is_apart).unwrap_or(changed.sections.len());
    for section in changed.sections.iter_mut().filter(|one| is_apart(one) && one.link as usize >= first) {
        section.link = section.link.saturating_add(unloaded.len() as u32);
    }
    changed.names_in += if changed.names_in >= first { unloaded.len() } else { 0 };
    let rest = changed.sections.split_off(first);
    for one in unloaded {
        changed.contents.insert(changed.sections.len(), vec![one.content.clone()]);
        changed.sections.push(header_of(&one, enter(&mut names, &one.name)));
    }
    changed.sections.extend(rest);
    changed.names = Some(names);
    *plan = Some(changed);
    Ok(())
}

fn header_of(one: &Unloaded, name: u32) -> Section {
    Section {
        name,
        kind: one.kind,
        flags: one.flags,
        address: one.address,
        offset: 0,
        size: one.size,
        link: 0,
        info: 0,
        align: one.align,
        entry_size: one.entry_size,
    }
}

/// Puts a name at the end of a table; gives its place.
fn enter(table: &mut Vec<u8>, name: &[u8]) -> u32 {
    let at = u32::try_from(table.len()).unwrap_or(0);
    table.extend_from_slice(name);
    table.push(0);
    at
}
