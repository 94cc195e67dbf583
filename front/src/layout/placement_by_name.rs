//! Which output section takes a section, by names alone.

use super::program::StepKind;
use super::Layout;
use crate::objects::{ObjectIndex, SectionIndex};

/// What becomes of a section.
#[derive(Clone, Copy, PartialEq, Eq, Debug)]
pub enum NamePlacement {
    /// No statement takes the section.
    Nobody,
    /// `/DISCARD/` does first.
    Discard,
    /// An output section does first.
    Output,
}

impl Layout {
    /// Which kind of statement takes a section of an object first, in the order of the script.
    pub fn placement_by_name(&self, object: ObjectIndex, number: SectionIndex) -> NamePlacement {
        let section = match self.rows.find(object, number) {
            Some(section) => section,
            None => return NamePlacement::Nobody,
        };
        let program = &self.program;
        let outputs = program.top.iter().filter_map(|id| match program.steps.get(id.index())?.kind {
            StepKind::Output(output) => program.outputs.get(output.index()),
            _ => None,
        });
        let takes = |taking: usize| {
            let matches = self.rows.matches.get(taking);
            matches.map_or(false, |matches| matches.iter().any(|one| one.section == section))
        };
        for output in outputs {
            let is_taken = output.body.iter().any(|id| match program.steps.get(id.index()).map(|step| &step.kind) {
                Some(StepKind::Input(taking)) => takes(*taking),
                _ => false,
            });
            if is_taken {
                return if output.is_discard { NamePlacement::Discard } else { NamePlacement::Output };
            }
        }
        NamePlacement::Nobody
    }
}

#[cfg(test)]
mod tests {
    use super::*;
    use crate::layout::Settings;
    use crate::objects::{build_note_object, Object, Origin};
    use crate::script::parse;
    use std::path::Path;

    /// ldlang.c, `map_input_to_output_sections`: the first statement of the script takes it.
    #[test]
    fn the_first_statement() {
        let object = Object::new("a.o".into(), Origin::of_file(Path::new("a.o")), build_note_object(&[0; 20]));
        let placement_by_name = |text: &str| {
            let script = parse(Path::new("t.ld"), text.as_bytes()).unwrap().script;
            let layout = Layout::new(&script, std::slice::from_ref(&object), &Settings::default()).unwrap();
            layout.placement_by_name(ObjectIndex(0), SectionIndex(1))
        };
        assert_eq!(placement_by_name("SECTIONS { .text : { *(.text) } }"), NamePlacement::Nobody);
        assert_eq!(
            placement_by_name("SECTIONS { .n : { a.o(.note.*) } /DISCARD/ : { *(.note.*) } }"),
            NamePlacement::Output
        );
        assert_eq!(
            placement_by_name("SECTIONS { .n : { b.o(.note.*) } /DISCARD/ : { *(.note.*) } .m : { *(*) } }"),
            NamePlacement::Discard
        );
    }
}
