//! `.eh_frame_hdr`, which GNU ld makes of `.eh_frame` in the first object that has entries (ldelf.c,
//! `ldelf_after_open`), here in an object of its own beside that one.

use std::collections::{BTreeMap, HashMap, HashSet};

use bstr::BString;

use super::{is_flat, settings_of, Scripts};
use crate::adapted::{Note, NoteKind, Topic};
use crate::command::{Command, Orphans};
use crate::layout::ids::{OutputId, SectionId};
use crate::layout::{EhFrameHdr, Evaluation, FrameRow, Layout, NamePlacement};
use crate::objects::{
    eh_frame_hdr_object, no_eh_frame_hdr_object, session_name, with_section_names, Distance, Object, ObjectIndex,
    EH_FRAME_HDR, EH_FRAME_HDR_HEAD, EH_FRAME_HDR_SECTION, FRAME_ANCHOR, FRAME_COUNT_SIZE, FRAME_ROW_SIZE,
};
use crate::session_client::SessionObject;

const FRAMES: &str = ".eh_frame";
/// The bytes of a section that has no entry.
const NO_ENTRY: u64 = 8;
/// How a table begins: its version, and how the place of `.eh_frame`, the number of rows and the rows are encoded
/// (dwarf2.h: a distance of 4 bytes from the field; 4 bytes; distances of 4 bytes from the table).
const HEAD: [u8; 4] = [1, 0x1B, 0x03, 0x3B];
/// How one without rows does.
const HEAD_WITHOUT_ROWS: [u8; 4] = [1, 0x1B, 0xFF, 0xFF];
/// What is said of a table of which GNU ld does not set all bytes.
const NO_ROWS: &str =
    "nothing is left of .eh_frame: the last 4 bytes of .eh_frame_hdr are 0; GNU ld writes what is in its memory";

/// The objects of a link with the table.
#[derive(Debug)]
pub(super) struct EhFrameHdrs {
    /// The place of its object.
    at: usize,
    objects: Vec<Object>,
}

impl EhFrameHdrs {
    /// The objects with the table; `None` if nobody asks for one, no object has entries, or the script leaves it out.
    pub(super) fn of(command: &Command, scripts: &Scripts, objects: &[Object]) -> Option<EhFrameHdrs> {
        if !command.has_eh_frame_hdr || command.is_traditional || is_flat(command, scripts) {
            return None;
        }
        let owner = owner(objects)?;
        let first = objects.get(owner).filter(|first| !has_section(first, EH_FRAME_HDR))?;
        let mut used: HashSet<BString> = objects.iter().map(|object| object.name().to_owned()).collect();
        let own = Object::eh_frame_hdr(session_name(FRAME_ANCHOR.as_bytes(), &mut used), first.origin().clone());
        let is_left_out = match placement_of(command, scripts, first, &own) {
            NamePlacement::Output => false,
            NamePlacement::Discard => true,
            NamePlacement::Nobody => command.orphans == Some(Orphans::Discard),
        };
        let mut objects = objects.to_vec();
        objects.insert(owner + 1, own);
        (!is_left_out).then_some(EhFrameHdrs { at: owner + 1, objects })
    }

    /// The objects of the link.
    pub(super) fn objects(&self) -> &[Object] {
        &self.objects
    }

    /// The place of the table's object.
    pub(super) fn at(&self) -> usize {
        self.at
    }

    /// Takes an object in the place of another one; gives its place.
    pub(super) fn put(&mut self, place: usize, object: &Object) -> usize {
        let place = place + usize::from(place >= self.at);
        self.objects.get_mut(place).into_iter().for_each(|old| *old = object.clone());
        place
    }
}

/// The place of the first object that has entries.
fn owner(objects: &[Object]) -> Option<usize> {
    let has_entries = |object: &Object| {
        object.sections().any(|one| one.kind.is_linked() && one.name == FRAMES && one.size > NO_ENTRY)
    };
    objects.iter().position(has_entries)
}

fn has_section(object: &Object, name: &str) -> bool {
    object.sections().any(|one| one.kind.is_linked() && one.name == name)
}

/// Which kind of statement takes the table, by the script alone.
fn placement_of(command: &Command, scripts: &Scripts, first: &Object, own: &Object) -> NamePlacement {
    let objects = [first.clone(), own.clone()];
    let layout = Layout::new(&scripts.reading.script, &objects, &settings_of(command, scripts));
    // A script that is no layout is said of later.
    layout.map_or(NamePlacement::Output, |layout| layout.placement_by_name(ObjectIndex(1), EH_FRAME_HDR_SECTION))
}

// --- the table for the session ---

/// A section that has a name for the table.
struct Anchor {
    section: SectionId,
    address: u64,
}

/// What a table refers to.
struct Writer<'a> {
    evaluation: &'a Evaluation,
    /// By output section.
    anchors: BTreeMap<OutputId, Anchor>,
    /// The address of the table.
    own: u64,
    /// Its distance from the start of its output section, from which the rows are counted.
    offset: u64,
}

/// Puts the table in the place of that without rows, and gives the objects that it refers to names for their sections.
/// A distance is by a section of the same output section, so that it is right wherever `ldi` places that.
pub(super) fn put(held: &mut [SessionObject], objects: &[Object], evaluation: Option<&Evaluation>) {
    let at = match objects.iter().position(Object::is_eh_frame_hdr) {
        Some(at) => at,
        None => return,
    };
    let made = evaluation.and_then(|evaluation| made(held, evaluation));
    if let Some(own) = held.get_mut(at) {
        own.data = made.unwrap_or_else(no_eh_frame_hdr_object);
    }
}

fn made(held: &mut [SessionObject], evaluation: &Evaluation) -> Option<crate::snapshot::Bytes> {
    let table = evaluation.eh_frame_hdr.as_ref()?;
    let section = evaluation.section(table.section)?;
    let writer = Writer {
        evaluation,
        anchors: anchors(table, evaluation),
        own: evaluation.section_address(section)?,
        offset: section.offset,
    };
    let names: Vec<BString> =
        (0..writer.anchors.len()).map(|number| format!("{FRAME_ANCHOR}.{number}").into()).collect();
    let mut of_objects: HashMap<ObjectIndex, Vec<_>> = HashMap::new();
    for (anchor, name) in writer.anchors.values().zip(&names) {
        let section = evaluation.section(anchor.section)?;
        of_objects.entry(section.object).or_default().push((section.number()?, name.clone()));
    }
    for (object, names) in of_objects {
        let held = held.get_mut(object.0 as usize)?;
        held.data = with_section_names(&held.data, &names)?;
    }
    Some(writer.table(table, &names))
}

/// By output section of entries and their code: a section of an object that is in it.
fn anchors(table: &EhFrameHdr, evaluation: &Evaluation) -> BTreeMap<OutputId, Anchor> {
    let mut found = BTreeMap::new();
    let rows = table.rows.iter().flatten();
    for section in rows.flat_map(|row| std::iter::once(row.entry_in).chain(row.code_in)) {
        let output =
            evaluation.section(section).and_then(|one| Some((one.output()?, evaluation.section_address(one)?)));
        if let Some((output, address)) = output {
            found.entry(output).or_insert(Anchor { section, address });
        }
    }
    found
}

impl Writer<'_> {
    /// The object of a table.
    fn table(&self, table: &EhFrameHdr, names: &[BString]) -> crate::snapshot::Bytes {
        let start = self.evaluation.output(table.frames).and_then(|output| output.place.as_ref());
        let start = start.map_or(0, |place| place.address);
        let says_rows = table.rows.is_some() && table.says_rows;
        let mut bytes = if says_rows { HEAD } else { HEAD_WITHOUT_ROWS }.to_vec();
        let at = bytes.len() as u64;
        let mut distances = vec![self.distance(at, Some(table.frames), start.wrapping_sub(self.own).wrapping_sub(at))];
        bytes.resize(EH_FRAME_HDR_HEAD as usize, 0);
        if let Some(rows) = &table.rows {
            bytes.extend((rows.len() as u32).to_le_bytes());
            distances.extend(rows.iter().enumerate().flat_map(|(number, row)| self.row(number, row)));
            bytes.resize(bytes.len() + rows.len() * FRAME_ROW_SIZE as usize, 0);
        }
        eh_frame_hdr_object(&bytes, names, &distances)
    }

    fn row(&self, number: usize, row: &FrameRow) -> [Distance; 2] {
        let at = EH_FRAME_HDR_HEAD + FRAME_COUNT_SIZE + FRAME_ROW_SIZE * number as u64;
        let output = |section: SectionId| self.evaluation.section(section)?.output();
        let value = |address: u64| address.wrapping_sub(self.own).wrapping_add(self.offset);
        let code = self.distance(at, row.code_in.and_then(output), value(row.code));
        [code, self.distance(at + 4, output(row.entry_in), value(row.entry))]
    }

    /// A field that has a value, by a section that is in an output section.
    fn distance(&self, at: u64, output: Option<OutputId>, value: u64) -> Distance {
        let anchor = output.and_then(|output| {
            let name = self.anchors.keys().position(|one| *one == output)?;
            Some((name, self.anchors.get(&output)?.address))
        });
        let (name, address) = anchor.map_or((None, self.own), |(name, address)| (Some(name), address));
        let from = self.own.wrapping_add(at);
        Distance { at, name, addend: value.wrapping_add(from).wrapping_sub(address) as i64 }
    }
}

// --- what is said ---

/// The lines of GNU ld's about a table that it does not make, or makes without rows.
pub(super) fn warnings(command: &Command, objects: &[Object], evaluation: Option<&Evaluation>) -> Vec<String> {
    let first = owner(objects).filter(|_| command.has_eh_frame_hdr && !command.is_traditional);
    let has_own = first.and_then(|first| objects.get(first)).map_or(false, |first| has_section(first, EH_FRAME_HDR));
    let has_none = evaluation.is_none() && objects.iter().any(Object::is_eh_frame_hdr);
    let not_known =
        "--eh-frame-hdr: there is no table .eh_frame_hdr, as the layout of the script is not known".to_owned();
    let refused = "warning: cannot create .eh_frame_hdr section, --eh-frame-hdr ignored".to_owned();
    let unknown = evaluation.and_then(|evaluation| Some((evaluation, evaluation.eh_frame_hdr.as_ref()?)));
    let unknown = unknown.into_iter().flat_map(|(evaluation, table)| {
        let sections = table.unknown.iter().filter_map(|id| evaluation.section(*id));
        sections.map(|section| (section, evaluation.section_name(section))).collect::<Vec<_>>()
    });
    let unknown = unknown.map(|(section, name)| {
        let object = objects.get(section.object.0 as usize).map(|object| object.origin().full_name());
        format!("error in {}({name}); no .eh_frame_hdr table will be created", object.unwrap_or_default())
    });
    let others = has_own.then_some(refused).into_iter().chain(has_none.then_some(not_known));
    others.chain(unknown).collect()
}

/// What is said if the table is not made as GNU ld makes it: it is GNU ld's link, but for bytes that GNU ld does not
/// set.
pub(super) fn note(scripts: &Scripts, evaluation: &Evaluation) -> Option<Note> {
    let table = evaluation.eh_frame_hdr.as_ref()?;
    let is_empty = !table.says_rows && table.rows.as_ref().map_or(false, Vec::is_empty);
    let (kind, why) = match table.problem {
        Some(problem) => (NoteKind::Left, problem.to_string()),
        None if is_empty => (NoteKind::Changed, NO_ROWS.to_owned()),
        None => return None,
    };
    let at = evaluation.output(table.frames).and_then(|output| output.span).map_or(0, |span| span.start);
    let (topic, place) = (Topic::Beside, scripts.reading.source.place(at));
    Some(Note { kind, topic, place, sentence: format!("--eh-frame-hdr: {why}") })
}
