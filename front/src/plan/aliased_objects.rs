//! Objects with the names that the script has for their symbols (`a = b;`).

use std::collections::HashMap;

use bstr::{BStr, ByteSlice};

use crate::adapted::Alias;
use crate::layout::Evaluation;
use crate::objects::with_aliases;
use crate::session_client::SessionObject;

/// Gives the objects these names.
pub(super) fn with_names(held: &mut [SessionObject], evaluation: &Evaluation, aliases: &[Alias]) {
    let mut of_objects: HashMap<u32, Vec<(&BStr, &BStr)>> = HashMap::new();
    for alias in aliases {
        if let Some(section) = evaluation.section(alias.section) {
            of_objects.entry(section.object.0).or_default().push((alias.name.as_bstr(), alias.target.as_bstr()));
        }
    }
    for (number, names) in of_objects {
        if let Some(held) = held.get_mut(number as usize) {
            if let Some(data) = with_aliases(&held.data, &names) {
                held.data = data.into();
            }
        }
    }
}
