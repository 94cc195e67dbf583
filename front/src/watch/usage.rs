//! What an edit did to sizes, for `--print-memory-usage`: the sections that grew or shrank, and how full regions are.

use std::collections::BTreeMap;

use bstr::{BString, ByteSlice};

use crate::layout::Evaluation;
use crate::report::{json_string, JsonObject};

/// The sections that are named in a line.
const MAX_SECTIONS: usize = 3;

/// The bytes of output sections, and what regions of MEMORY have.
#[derive(Clone, PartialEq, Eq, Debug, Default)]
pub(super) struct Sizes {
    /// By name: the bytes, in all sections of one name.
    sections: BTreeMap<BString, u64>,
    /// The names in the order of the image.
    order: Vec<BString>,
    regions: Vec<Region>,
}

/// A region of MEMORY.
#[derive(Clone, PartialEq, Eq, Debug)]
struct Region {
    name: BString,
    used: u64,
    length: u64,
}

impl Sizes {
    /// The sizes of a layout: of sections that take memory, of regions that the script has.
    pub(super) fn of(evaluation: &Evaluation) -> Sizes {
        let mut sizes = Sizes::default();
        for (output, place) in evaluation.in_image().filter(|(_, place)| place.is_allocated()) {
            *sizes.sections.entry(output.name.clone()).or_default() += place.size;
            sizes.order.push(output.name.clone());
        }
        let regions = evaluation.regions.iter().filter(|region| region.span.is_some());
        let region = |region: &crate::layout::evaluation::Region| Region {
            name: region.name.clone(),
            used: region.current.saturating_sub(region.origin),
            length: region.length,
        };
        sizes.regions = regions.map(region).collect();
        sizes
    }

    /// The changes since other sizes; without these all regions, and no section.
    pub(super) fn since(&self, before: Option<&Sizes>) -> Usage {
        let before = match before {
            Some(before) => before,
            None => return Usage { sections: Vec::new(), regions: self.regions.iter().map(share_of).collect() },
        };
        let gone = before.order.iter().filter(|name| !self.sections.contains_key(*name));
        let mut sections: Vec<(BString, i64)> = Vec::new();
        for name in self.order.iter().chain(gone) {
            let size = |sizes: &Sizes| sizes.sections.get(name).copied().unwrap_or(0) as i64;
            let more = size(self).wrapping_sub(size(before));
            if more != 0 && sections.iter().all(|(other, _)| other != name) {
                sections.push((name.clone(), more));
            }
        }
        let is_other = |region: &&Region| !before.regions.contains(region);
        Usage { sections, regions: self.regions.iter().filter(is_other).map(share_of).collect() }
    }
}

fn share_of(region: &Region) -> (BString, u64, u64) {
    (region.name.clone(), region.used, region.length)
}

/// What there is to say of sizes.
#[derive(Clone, PartialEq, Eq, Debug, Default)]
pub(super) struct Usage {
    /// Sections, and by how many bytes they are larger.
    sections: Vec<(BString, i64)>,
    /// Regions, what they have, and their bytes.
    regions: Vec<(BString, u64, u64)>,
}

impl Usage {
    /// For people: `.text +48, rom 71.3 %`; empty if nothing has changed.
    pub(super) fn text(&self) -> String {
        let mut parts: Vec<String> = self
            .sections
            .iter()
            .take(MAX_SECTIONS)
            .map(|(name, more)| format!("{} {more:+}", name.to_str_lossy()))
            .collect();
        match self.sections.len().saturating_sub(MAX_SECTIONS) {
            0 => {}
            more => parts.push(format!("{more} more")),
        }
        parts.extend(self.regions.iter().map(|(name, used, length)| match length {
            0 => format!("{} {used} bytes", name.to_str_lossy()),
            length => format!("{} {:.1} %", name.to_str_lossy(), *used as f64 * 100.0 / *length as f64),
        }));
        parts.join(", ")
    }

    /// The changes for `--json`.
    pub(super) fn json(&self, json: JsonObject) -> JsonObject {
        let sections = self.sections.iter().map(|(name, more)| {
            JsonObject::new().text("name", &name.to_str_lossy()).raw("more", &more.to_string()).finish()
        });
        let regions = self.regions.iter().map(|(name, used, length)| {
            let json = JsonObject::new().raw("name", &json_string(&name.to_str_lossy()));
            json.number("used", *used).number("length", *length).finish()
        });
        json.list("sections", sections).list("regions", regions)
    }
}

#[cfg(test)]
mod tests {
    use super::*;

    fn sizes(sections: &[(&str, u64)], used: u64) -> Sizes {
        let sections: Vec<(BString, u64)> = sections.iter().map(|(name, size)| ((*name).into(), *size)).collect();
        Sizes {
            order: sections.iter().map(|(name, _)| name.clone()).collect(),
            sections: sections.into_iter().collect(),
            regions: vec![Region { name: "rom".into(), used, length: 1000 }],
        }
    }

    #[test]
    fn what_has_changed_is_said() {
        let first = sizes(&[(".text", 100), (".data", 8), (".old", 4)], 650);
        assert_eq!(first.since(None).text(), "rom 65.0 %");
        assert_eq!(first.since(Some(&first)).text(), "");
        let next = sizes(&[(".text", 148), (".data", 8), (".new", 2)], 713);
        assert_eq!(next.since(Some(&first)).text(), ".text +48, .new +2, .old -4, rom 71.3 %");
        let many = sizes(&[(".a", 1), (".b", 1), (".c", 1), (".d", 1), (".e", 1)], 650);
        assert_eq!(many.since(Some(&sizes(&[], 650))).text(), ".a +1, .b +1, .c +1, 2 more");
    }
}
