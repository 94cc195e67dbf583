//! The note of a build ID: a section of the linker's own in the first object, as GNU ld has it (ldelf.c,
//! `ldelf_after_open`), here in an object of its own beside that one.

use std::collections::HashSet;

use bstr::BString;

use super::{settings_of, Scripts};
use crate::command::{BuildId, Command, Orphans};
use crate::layout::{Layout, NamePlacement};
use crate::objects::{build_note, session_name, Object, ObjectIndex, SectionIndex, BUILD_ID_SECTION};

/// The name of the object.
const NAME: &[u8] = b"ldi.build-id";
/// Its place among the objects of the link: behind the first.
const AT: usize = 1;
/// The section of the note in its object.
const NOTE: SectionIndex = SectionIndex(1);

/// The objects of a link with the note.
#[derive(Debug)]
pub struct BuildIdNote {
    style: BuildId,
    id: Vec<u8>,
    objects: Vec<Object>,
}

/// Why there is no build ID.
#[derive(Clone, Copy, PartialEq, Eq, Debug, thiserror::Error)]
pub(super) enum NoBuildId {
    /// Nobody asks for one, or the file can have none.
    #[error("none is asked for")]
    NotWanted,
    /// The script discards it.
    #[error("--build-id: the script discards {BUILD_ID_SECTION}, so the image has no build ID")]
    Discarded,
    /// No statement takes it.
    #[error(
        "--build-id: no statement takes {BUILD_ID_SECTION}, and what none takes is discarded: the image has no \
         build ID"
    )]
    NotTaken,
}

impl BuildIdNote {
    /// The note for objects; `before` is the ID that the link had.
    pub(super) fn of(
        command: &Command,
        scripts: &Scripts,
        objects: &[Object],
        before: Option<Vec<u8>>,
    ) -> Result<BuildIdNote, NoBuildId> {
        let style = command.build_id.clone().ok_or(NoBuildId::NotWanted)?;
        let first = objects.first().ok_or(NoBuildId::NotWanted)?;
        let id = match &style {
            BuildId::Bytes(bytes) => bytes.clone(),
            BuildId::Sha1 | BuildId::Md5 | BuildId::Uuid => vec![0; style.size()],
        };
        let id = before.filter(|before| before.len() == id.len()).unwrap_or(id);
        let mut used: HashSet<BString> = objects.iter().map(|object| object.name().to_owned()).collect();
        let own = Object::build_note(session_name(NAME, &mut used), first.origin().clone(), &id);
        match placement_of(command, scripts, first, &own) {
            NamePlacement::Output => {}
            NamePlacement::Discard => return Err(NoBuildId::Discarded),
            NamePlacement::Nobody if command.orphans == Some(Orphans::Discard) => return Err(NoBuildId::NotTaken),
            NamePlacement::Nobody => {} // it is placed as GNU ld places what no statement takes
        }
        let mut objects = objects.to_vec();
        objects.insert(AT, own);
        Ok(BuildIdNote { style, id, objects })
    }

    /// The style of the ID in the note.
    pub fn style(&self) -> &BuildId {
        &self.style
    }

    /// The ID that the session has.
    pub fn id(&self) -> &[u8] {
        &self.id
    }

    /// The whole note.
    pub fn note(&self) -> Vec<u8> {
        build_note(&self.id)
    }

    /// The place of its object, and its section there.
    pub fn place(&self) -> (ObjectIndex, SectionIndex) {
        (ObjectIndex(AT as u32), NOTE)
    }

    /// The objects of the link.
    pub(super) fn objects(&self) -> &[Object] {
        &self.objects
    }

    /// The place that an object has beside that of the note.
    pub(super) fn place_beside(place: usize) -> usize {
        place + usize::from(place >= AT)
    }

    /// Takes an object in the place of another one.
    pub(super) fn put(&mut self, place: usize, object: Object) {
        let place = BuildIdNote::place_beside(place);
        if let Some(old) = self.objects.get_mut(place) {
            *old = object.clone();
        }
    }

    /// Gives the note an ID of the same size.
    pub(super) fn set(&mut self, id: Vec<u8>) {
        if let Some(own) = self.objects.get_mut(AT) {
            *own = Object::build_note(own.name().to_owned(), own.origin().clone(), &id);
        }
        self.id = id;
    }
}

/// Which kind of statement takes the note, by the script alone.
fn placement_of(command: &Command, scripts: &Scripts, first: &Object, own: &Object) -> NamePlacement {
    let objects = [first.clone(), own.clone()];
    let settings = settings_of(command, scripts);
    let layout = Layout::new(&scripts.reading.script, &objects, &settings);
    // A script that is no layout is said of later.
    layout.map_or(NamePlacement::Output, |layout| layout.placement_by_name(ObjectIndex(AT as u32), NOTE))
}
