//! Common blocks at the places that GNU ld gives them.

use std::collections::HashMap;

use bstr::BStr;

use crate::layout::evaluation::{Base, Definer, InputSection, Symbol};
use crate::layout::Evaluation;
use crate::objects::{with_common_section, BlockPlace, CommonSection, Object};
use crate::session_client::SessionObject;

/// The objects with common blocks with a section of them.
pub(super) fn with_places(held: &mut [SessionObject], objects: &[Object], evaluation: &Evaluation) {
    let own = |section: &&InputSection| section.is_common();
    let sections: HashMap<u32, &InputSection> =
        evaluation.sections.iter().filter(own).map(|section| (section.object.0, section)).collect();
    for (number, (held, object)) in held.iter_mut().zip(objects).enumerate() {
        let number = number as u32;
        if !object.has_commons() {
            continue;
        }
        let place = |name: &BStr| place_of(evaluation, number, name);
        let (size, align) = sections.get(&number).map_or((0, 1), |section| (section.size, section.own_align.max(1)));
        if let Some(data) = with_common_section(&held.data, &CommonSection { size, align, place: &place }) {
            held.data = data.into();
        }
    }
}

/// What becomes of the common block of a name in an object; `None` if a definition or the script takes its place.
fn place_of(evaluation: &Evaluation, object: u32, name: &BStr) -> Option<BlockPlace> {
    let symbol = evaluation.symbol(name)?;
    let section = match symbol.definer {
        Definer::Object(Some(id)) => evaluation.section(id).filter(|section| section.is_common())?,
        _ => return None,
    };
    if section.object.0 != object {
        return Some(BlockPlace::Elsewhere);
    }
    Some(BlockPlace::Here(offset_of(evaluation, symbol, section)))
}

/// How far a block is from the start of its section; nothing refers to one whose section is left out.
fn offset_of(evaluation: &Evaluation, symbol: &Symbol, section: &InputSection) -> u64 {
    match (symbol.value, evaluation.section_address(section)) {
        (Some(value), Some(start)) => value.address.wrapping_sub(start),
        (Some(value), None) if matches!(value.base, Base::Section(_)) => value.offset,
        _ => 0,
    }
}
