//! One note of properties for all objects of a link, in the first that has one (bfd/elf-properties.c,
//! `_bfd_elf_link_setup_gnu_properties`).

use super::default_headers::stack_size;
use crate::command::Command;
use crate::layout::glob;
use crate::objects::{Object, Properties, SectionIndex, PROPERTIES};
use crate::script::tree::{InputStatement, Script, SectionStatement, SectionsStatement, Statement};

/// The objects of a link with one note.
#[derive(Debug)]
pub(super) struct GnuProperty {
    /// The place of the object that has it.
    first: usize,
    /// Its bytes; `None` if no property is left.
    note: Option<Vec<u8>>,
    /// The objects.
    objects: Vec<Object>,
}

impl GnuProperty {
    /// The note of the link's properties; `None` if there is none, the script leaves all notes out, or it is not known
    /// what GNU ld makes of them.
    pub(super) fn of(command: &Command, script: &Script, objects: &[Object]) -> Option<GnuProperty> {
        let first = objects.iter().position(|object| object.property_notes().next().is_some())?;
        if leaves_out(script, PROPERTIES.as_bytes()) {
            return None;
        }
        let mut merged = properties_of(objects.get(first)?)?.unwrap_or_default();
        for (place, object) in objects.iter().enumerate() {
            let other = properties_of(object)?;
            if place != first {
                merged.merge(other.as_ref());
            }
        }
        merged.merge_stack_size(stack_size(command));
        let mut notes = GnuProperty { first, note: merged.note(), objects: Vec::new() };
        notes.objects = objects.iter().enumerate().map(|(place, object)| notes.rewritten(place, object)).collect();
        Some(notes)
    }

    /// The objects.
    pub(super) fn objects(&self) -> &[Object] {
        &self.objects
    }

    /// Takes an object in the place of another one with the same note; gives it as it is in the link.
    pub(super) fn put(&mut self, place: usize, object: &Object) -> Object {
        let object = self.rewritten(place, object);
        if let Some(old) = self.objects.get_mut(place) {
            *old = object.clone();
        }
        object
    }

    fn rewritten(&self, place: usize, object: &Object) -> Object {
        let sections: Vec<SectionIndex> = object.property_notes().collect();
        match (sections.first(), &self.note) {
            (None, _) => object.clone(),
            (Some(section), Some(note)) if place == self.first => {
                object.with_note(*section, note).unwrap_or_else(|| object.clone())
            }
            _ => object.clone().without(&sections),
        }
    }
}

/// The properties of an object, if it has a note of them; `None` if it is not known what GNU ld makes of its notes.
fn properties_of(object: &Object) -> Option<Option<Properties>> {
    let mut sections = object.property_notes();
    match (sections.next(), sections.next()) {
        (None, _) => Some(None),
        (Some(section), None) => Properties::parse(object.contents(section)).map(Some),
        (Some(_), Some(_)) => None,
    }
}

/// Whether the first statement of a script that takes sections of a name leaves out those of all objects.
pub(super) fn leaves_out(script: &Script, name: &[u8]) -> bool {
    let blocks = script.statements.iter().filter_map(|statement| match &statement.node {
        Statement::Sections(items) => Some(items),
        _ => None,
    });
    let outputs = blocks.flatten().filter_map(|item| match &item.node {
        SectionsStatement::Output(section) => Some(section),
        _ => None,
    });
    let mut inputs = outputs.flat_map(|output| {
        let is_left_out = output.name.node == "/DISCARD/";
        output.body.node.iter().filter_map(move |statement| match &statement.node {
            SectionStatement::Input(input) if takes(input, name) => Some((is_left_out, input)),
            _ => None,
        })
    });
    inputs.next().map_or(false, |(is_left_out, input)| is_left_out && is_of_all(input))
}

fn takes(input: &InputStatement, name: &[u8]) -> bool {
    match &input.sections {
        Some(patterns) => patterns.iter().any(|one| glob::matches(&one.node.glob, name)),
        None => true,
    }
}

/// Whether a statement is of all files.
fn is_of_all(input: &InputStatement) -> bool {
    let is_any = |file: &crate::script::tree::Pattern| file.glob == "*" && file.excluded_files.is_empty();
    let patterns = input.sections.iter().flatten();
    input.section_flags.is_empty()
        && input.file.as_ref().map_or(true, |file| is_any(&file.node))
        && patterns.map(|one| &one.node).all(|one| one.excluded_files.is_empty())
}
