//! NOCROSSREFS and NOCROSSREFS_TO: references between output sections that a script prohibits (GNU ld manual,
//! 'Miscellaneous Commands'; ldcref.c, `check_reloc_refs`).

use std::fmt;

use bstr::{BStr, BString, ByteSlice};

use super::collecting::{definitions, Part};
use crate::fast_map::FastMap;
use crate::layout::evaluation::{Base, Definer, Origin, OutputSection};
use crate::layout::Evaluation;
use crate::objects::{Binding, Home, Object, SectionIndex, Symbol};
use crate::script::tree::{Name, Script, Statement};

/// A relocation that a script prohibits.
#[derive(Clone, PartialEq, Eq, Debug)]
pub struct Prohibited {
    /// The object.
    pub object: BString,
    /// The input section.
    pub section: BString,
    /// The place of the field, in bytes from the start of the section.
    pub offset: u64,
    /// The output section that it is in.
    pub from: Name,
    /// The symbol; the name of its section if it has none.
    pub symbol: BString,
    /// The output section of the symbol.
    pub to: Name,
}

impl fmt::Display for Prohibited {
    fn fmt(&self, f: &mut fmt::Formatter<'_>) -> fmt::Result {
        let Prohibited { object, section, offset, from, symbol, to } = self;
        let what = "prohibited cross reference from";
        write!(f, "{object}: ({section}+{offset:#x}): {what} {from} to `{symbol}' in {to}")
    }
}

/// Output sections between which there is to be no reference.
#[derive(Clone, Copy, Debug)]
struct List<'a> {
    names: &'a [Name],
    /// Whether only references to the first one are prohibited.
    is_to_first: bool,
}

impl List<'_> {
    fn has(&self, name: &Name) -> bool {
        self.names.contains(name)
    }

    /// Whether a reference from one to another is prohibited.
    fn prohibits(&self, from: &Name, to: &Name) -> bool {
        let is_target = if self.is_to_first { self.names.first() == Some(to) } else { self.has(to) };
        from != to && is_target && self.has(from)
    }
}

fn lists(script: &Script) -> Vec<List<'_>> {
    let statements = script.statements.iter().filter_map(|statement| match &statement.node {
        Statement::NoCrossReferences(names) => Some((names, false)),
        Statement::NoCrossReferencesTo(names) => Some((names, true)),
        _ => None,
    });
    statements.map(|(names, is_to_first)| List { names, is_to_first }).collect()
}

/// The relocations that a script prohibits, in the order of the lists, of objects and of sections.
pub fn prohibited(script: &Script, objects: &[Object], evaluation: &Evaluation) -> Vec<Prohibited> {
    let lists = lists(script);
    if lists.is_empty() {
        return Vec::new();
    }
    let places = Places::new(objects, evaluation);
    let mut found = Vec::new();
    for list in lists {
        for (number, object) in objects.iter().enumerate() {
            for section in object.sections() {
                let part = Part { object: number as u32, section: Some(section.index.0) };
                match places.outputs.get(&part) {
                    Some(from) if list.has(&from.name) => places.of_section(list, object, part, from, &mut found),
                    _ => {}
                }
            }
        }
    }
    found
}

/// In which output section everything is.
struct Places<'a> {
    evaluation: &'a Evaluation,
    definitions: FastMap<&'a BStr, Part>,
    outputs: FastMap<Part, &'a OutputSection>,
}

impl<'a> Places<'a> {
    fn new(objects: &'a [Object], evaluation: &'a Evaluation) -> Places<'a> {
        let mut outputs = FastMap::default();
        for section in &evaluation.sections {
            let number = match section.origin {
                Origin::Header(number) => Some(number.0),
                Origin::Common => None,
                Origin::Linker => continue,
            };
            if let Some(output) = section.output().and_then(|id| evaluation.output(id)) {
                outputs.insert(Part { object: section.object.0, section: number }, output);
            }
        }
        Places { evaluation, definitions: definitions(objects, evaluation), outputs }
    }

    /// Adds what is prohibited of an input section.
    fn of_section(
        &self,
        list: List<'_>,
        object: &Object,
        part: Part,
        from: &OutputSection,
        found: &mut Vec<Prohibited>,
    ) {
        let index = SectionIndex(part.section.unwrap_or(0));
        for relocation in object.relocations(index) {
            let symbol = match object.symbol(relocation.symbol) {
                Some(symbol) => symbol,
                None => continue,
            };
            let to = match self.output_of(part.object, &symbol) {
                Some(to) if list.prohibits(&from.name, &to.name) => to,
                _ => continue,
            };
            found.push(Prohibited {
                object: object.name().to_owned(),
                section: object.section(index).map_or_else(BString::default, |section| section.name.to_owned()),
                offset: relocation.offset,
                from: from.name.clone(),
                symbol: name_of(object, &symbol),
                to: to.name.clone(),
            });
        }
    }

    /// The output section of a symbol.
    fn output_of(&self, object: u32, symbol: &Symbol<'_>) -> Option<&'a OutputSection> {
        if symbol.binding == Binding::Local {
            return match symbol.home {
                Home::Section(section) => self.outputs.get(&Part { object, section: Some(section.0) }).copied(),
                _ => None,
            };
        }
        if let Some(part) = self.definitions.get(symbol.name) {
            return self.outputs.get(part).copied();
        }
        let assigned = self.evaluation.symbol(symbol.name)?;
        match (assigned.definer, assigned.value?.base) {
            (Definer::Script(_) | Definer::Linker, Base::Output(id)) => self.evaluation.output(id),
            _ => None,
        }
    }
}

/// The name of a symbol, or of the section that it stands for.
fn name_of(object: &Object, symbol: &Symbol<'_>) -> BString {
    match symbol.home {
        Home::Section(section) if symbol.name.is_empty() => {
            object.section(section).map_or_else(BString::default, |section| section.name.to_owned())
        }
        _ => symbol.name.as_bstr().to_owned(),
    }
}

#[cfg(test)]
mod tests {
    use super::*;

    fn list(is_to_first: bool, names: &[&str], from: &str, to: &str) -> bool {
        let names: Vec<Name> = names.iter().map(|name| Name::from(*name)).collect();
        List { names: &names, is_to_first }.prohibits(&from.into(), &to.into())
    }

    /// GNU ld manual, NOCROSSREFS.
    #[test]
    fn no_section_of_a_list_refers_to_another() {
        assert!(list(false, &[".a", ".b"], ".a", ".b") && list(false, &[".a", ".b"], ".b", ".a"));
        assert!(!list(false, &[".a", ".b"], ".a", ".a") && !list(false, &[".a", ".b"], ".c", ".a"));
    }

    /// GNU ld manual, NOCROSSREFS_TO.
    #[test]
    fn none_refers_to_the_first() {
        let names = [".to", ".a", ".b"];
        assert!(list(true, &names, ".a", ".to") && list(true, &names, ".b", ".to"));
        assert!(!list(true, &names, ".to", ".a") && !list(true, &names, ".a", ".b"));
    }

    #[test]
    fn a_line_has_place_and_sections() {
        let one = Prohibited {
            object: "a.o".into(),
            section: ".text".into(),
            offset: 1,
            from: ".text".into(),
            symbol: "first".into(),
            to: ".init.text".into(),
        };
        let text = "a.o: (.text+0x1): prohibited cross reference from .text to `first' in .init.text";
        assert_eq!(one.to_string(), text);
    }
}
