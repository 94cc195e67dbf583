//! The table of `--cref` (ld/ldcref.c, `output_cref`).

use std::collections::BTreeMap;

use bstr::BStr;

use super::{padded, Request};
use crate::objects::{Home, ObjectIndex, EH_FRAME_HDR_START, GLOBAL_OFFSET_TABLE};

/// The column of files.
const COLUMN: usize = 50;

/// Stands for the output, in which GNU ld defines the start of the table of `.eh_frame`.
const OUTPUT: usize = usize::MAX;

/// What an object has of a name.
#[derive(Clone, Copy, PartialEq, Eq, PartialOrd, Ord, Debug)]
enum Has {
    Definition,
    Common,
    Reference,
}

/// The table: each name with the files that define it and those that refer to it, the last ones first.
pub(super) fn text(request: &Request<'_>) -> String {
    let mut names: BTreeMap<&BStr, Vec<(Has, usize)>> = BTreeMap::new();
    for (number, object) in request.objects.iter().enumerate() {
        let is_own = |name: &BStr| object.is_build_note() || object.is_eh_frame_hdr() || name.starts_with(b"ldi.");
        for symbol in object.globals().filter(|symbol| !is_own(symbol.name)) {
            let has = match symbol.home {
                Home::Common => Has::Common,
                _ if symbol.is_undefined() => Has::Reference,
                _ => Has::Definition,
            };
            let found = names.entry(symbol.name).or_default();
            match found.last_mut().filter(|(_, last)| *last == number) {
                Some((last, _)) => *last = has.min(*last),
                None => found.push((has, number)),
            }
        }
    }
    if let Some(owner) = request.table_owner() {
        names.entry(GLOBAL_OFFSET_TABLE.into()).or_insert_with(|| vec![(Has::Definition, owner)]);
    }
    if request.evaluation.eh_frame_hdr.is_some() {
        names.entry(EH_FRAME_HDR_START.into()).or_default().push((Has::Definition, OUTPUT));
    }
    let owner = |number: usize| match number {
        OUTPUT => request.command.output.display().to_string(),
        _ => request.owner(ObjectIndex(number as u32)),
    };
    let mut text = format!("\nCross Reference Table\n\n{}File\n", padded("Symbol", COLUMN));
    for (name, mut found) in names {
        found.reverse();
        found.sort_by_key(|(has, _)| *has);
        let mut front = format!("{name} ");
        for (_, number) in found {
            text.push_str(&format!("{}{}\n", padded(&front, COLUMN), owner(number)));
            front.clear();
        }
    }
    text
}
