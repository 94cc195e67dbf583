//! What `--print-memory-usage` and `--print-gc-sections` print, in GNU ld's words.

use std::collections::HashMap;

use bstr::ByteSlice;

use crate::layout::{Evaluation, Merges};
use crate::objects::{Object, ObjectIndex, SectionKind};

/// The name of the region that no script names.
const DEFAULT_REGION: &str = "*default*";

/// A number of bytes as GNU ld prints it; 0 is in gigabytes there too.
fn amount(size: u64) -> String {
    for (shift, unit) in [(30, "GB"), (20, "MB"), (10, "KB")] {
        if size % (1 << shift) == 0 {
            return format!("{:10} {unit}", size >> shift);
        }
    }
    format!(" {size:10} B")
}

/// The table of memory regions.
pub(super) fn memory_usage(evaluation: &Evaluation) -> String {
    let mut text = String::from("Memory region         Used Size  Region Size  %age Used\n");
    for region in evaluation.regions.iter().filter(|region| region.name != DEFAULT_REGION && region.span.is_some()) {
        let used = region.current.saturating_sub(region.origin);
        let share = match region.length {
            0 => String::new(),
            length => format!("    {:6.2}%", used as f64 * 100.0 / length as f64),
        };
        text.push_str(&format!(
            "{:>16}: {}{}{share}\n",
            region.name.to_str_lossy(),
            amount(used),
            amount(region.length)
        ));
    }
    text
}

/// A line for each section that is not in the output, of those that are not empty.
pub(super) fn removed_sections(objects: &[Object], merges: Option<&Merges>, map: &[u8]) -> Vec<String> {
    let mut placed: HashMap<(Vec<u8>, Vec<u8>, u64), usize> = HashMap::new();
    for line in map.lines() {
        let words: Vec<&[u8]> = line.split_str(" ").collect();
        if let [b"piece", _, size, owner, name] = words.as_slice() {
            let size = size.to_str().ok().and_then(|size| u64::from_str_radix(size, 16).ok()).unwrap_or(0);
            *placed.entry((owner.to_vec(), name.to_vec(), size)).or_default() += 1;
        }
    }
    let mut lines = Vec::new();
    for (number, object) in objects.iter().enumerate() {
        let own = |section| merges.and_then(|merges| merges.own(ObjectIndex(number as u32), section));
        let sections = object.sections().filter(|one| one.flags.has(crate::objects::SectionFlags::ALLOC));
        for section in sections.filter(|one| one.size > 0 && one.kind != SectionKind::NOTE && own(one.index).is_none())
        {
            let key = (object.name().to_vec(), section.name.to_vec(), section.size);
            match placed.get_mut(&key).filter(|count| **count > 0) {
                Some(count) => *count -= 1,
                None => lines.push(format!("removing unused section '{}' in file '{}'", section.name, object.name())),
            }
        }
    }
    lines
}
