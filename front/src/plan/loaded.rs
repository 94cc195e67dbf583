//! Input sections without SHF_ALLOC that GNU ld loads all the same, as they stand in an output section that is loaded.

use std::collections::HashMap;

use object::elf;

use crate::layout::evaluation::InputSection;
use crate::layout::{Evaluation, Flags};
use crate::objects::{with_loaded, SectionIndex};
use crate::session_client::SessionObject;

const ALLOC: u64 = elf::SHF_ALLOC as u64;

/// The sections that become loaded, by their objects.
pub(super) type MadeLoaded = HashMap<u32, Vec<SectionIndex>>;

/// Gives such sections SHF_ALLOC in an evaluation, and says which they are.
pub(super) fn load(evaluation: &mut Evaluation) -> MadeLoaded {
    let is_other: Vec<bool> = evaluation.sections.iter().map(|section| becomes_loaded(section, evaluation)).collect();
    let mut found = MadeLoaded::new();
    for (section, _) in evaluation.sections.iter_mut().zip(is_other).filter(|(_, is_other)| *is_other) {
        section.bits |= ALLOC;
        if let Some(number) = section.number() {
            found.entry(section.object.0).or_default().push(number);
        }
    }
    found
}

fn becomes_loaded(section: &InputSection, evaluation: &Evaluation) -> bool {
    let is_plain = matches!(section.kind, elf::SHT_PROGBITS | elf::SHT_STRTAB)
        && section.bits & u64::from(elf::SHF_COMPRESSED) == 0;
    let is_taken = section.size > 0 && !section.flags.has(Flags::CREATED | Flags::EXCLUDE);
    if section.bits & ALLOC != 0 || !is_plain || !is_taken || section.number().is_none() {
        return false;
    }
    let output = section.output().and_then(|id| evaluation.output(id));
    output.and_then(|output| output.in_image()).map_or(false, |place| place.is_allocated())
}

/// The objects with these sections loaded.
pub(super) fn with_flags(held: &mut [SessionObject], made_loaded: &MadeLoaded) {
    for (number, sections) in made_loaded {
        if let Some(held) = held.get_mut(*number as usize) {
            if let Some(data) = with_loaded(&held.data, sections) {
                held.data = data.into();
            }
        }
    }
}
