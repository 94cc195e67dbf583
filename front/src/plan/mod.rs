//! The plan of a link: a function of the command and of what was read.
//!
//! [`Inputs::load`] reads scripts and objects; [`LinkPlan::new`] lays the script out over the objects and writes it in
//! the profile. [`LinkPlan::replan`] is the same plan with other bytes of some objects.

mod aliased_objects;
mod build_id_note;
mod collecting;
mod crossrefs;
mod default_headers;
mod draft;
mod eh_frame_hdr;
mod gnu_property;
mod got;
mod got_references;
mod got_unrelaxed;
mod incremental;
mod loaded;
mod merged_objects;
mod other_linkers;
mod overridden;
mod placed_commons;
mod programs;
mod scripts;
mod settings;
mod shortened_objects;
mod symbols;
mod wraps;

use std::collections::HashSet;
use std::path::PathBuf;
use std::sync::Arc;

use bstr::{BStr, BString, ByteSlice};

use crate::adapted::{adapted_script, has_names, AdaptedScript, Request};
use crate::command::{Command, Orphans, OutputFormat};
use crate::finish::{Form, KeptTables, LaidOut, LinkedNames, Rights, Symbols, PAGE};
use crate::gnu_map::{Named, NamedDefinition};
use crate::inputs::{self, InputFault, Loaded, ScriptInputs};
use crate::layout::evaluation::Placed;
use crate::layout::ids::SectionId;
use crate::layout::{AllMerges, Evaluation, Flags, Layout, Settings, Stop};
use crate::objects::{LinkNames, Object, ObjectIndex, ENTRY_SIZE, HEADER_SECTION};
use crate::session_client;
use crate::session_client::SessionObject;
use crate::snapshot::Snapshot;
use crate::unloaded::{KeptStrings, Spans};
pub use build_id_note::BuildIdNote;
use build_id_note::NoBuildId;
pub use crossrefs::{prohibited, Prohibited};
pub(crate) use default_headers::is_stack_executed;
pub use draft::PlanDraft;
use eh_frame_hdr::EhFrameHdrs;
use gnu_property::GnuProperty;
use got::Got;
use loaded::MadeLoaded;
use merged_objects::MergedObjects;
pub use programs::{find_program, is_own, others, own_version, Environment, WITHIN};
pub use scripts::{Scripts, ScriptsFault};
pub use settings::settings_of;
use shortened_objects::ShortenedObjects;

/// Why there is no plan.
#[derive(Debug, thiserror::Error)]
pub enum PlanFault {
    /// A script cannot be read, or is none.
    #[error(transparent)]
    Script(#[from] ScriptsFault),
    /// An input is none of a static link, or is not there.
    #[error(transparent)]
    Input(#[from] InputFault),
    /// A name of `--require-defined` that nothing defines.
    #[error("required symbol `{0}' not defined")]
    Required(BString),
}

/// The scripts and the objects of a link.
#[derive(Debug)]
pub struct Inputs {
    /// The scripts.
    pub scripts: Scripts,
    /// The objects.
    pub loaded: Loaded,
    /// The objects as the session holds them.
    pub held: Vec<SessionObject>,
    /// The note of properties of the link, and the objects with it.
    notes: Option<GnuProperty>,
    /// The table of the entries of `.eh_frame`, and the objects with it.
    eh_frame_hdr: Option<EhFrameHdrs>,
    /// The global offset table, and the objects with it.
    got: Option<Got>,
    /// The note of the build ID, and the objects with it.
    build_id_note: Result<BuildIdNote, NoBuildId>,
    /// The names of `--retain-symbols-file`.
    retained: HashSet<BString>,
}

impl Inputs {
    /// Reads scripts and objects.
    ///
    /// # Errors
    /// If a script or an object cannot be read, or is none, or a required name is not defined.
    pub fn load(command: &Command, mut scripts: Scripts, snapshot: &mut Snapshot) -> Result<Inputs, PlanFault> {
        let entry = command.entry.clone().or_else(|| scripts.entry().cloned());
        let wanted: Vec<BString> =
            entry.filter(|name| !name.first().map_or(true, u8::is_ascii_digit)).into_iter().collect();
        let request =
            inputs::Request { command, scripts: &scripts.parts, has_own_script: scripts.is_own, wanted: &wanted };
        let mut loaded = inputs::load(&request, snapshot, None)?;
        if let Some(name) = loaded.missing_required(command) {
            return Err(PlanFault::Required(name.to_owned()));
        }
        got_references::check(command, &loaded.objects)?;
        wraps::check(command, &scripts)?;
        other_linkers::check(command, &scripts, &loaded.objects)?;
        scripts.rename_files(&loaded.renamed);
        let mut inputs = Inputs {
            scripts,
            loaded,
            held: Vec::new(),
            notes: None,
            eh_frame_hdr: None,
            got: None,
            build_id_note: Err(NoBuildId::NotWanted),
            retained: symbols::retained(command, snapshot)?,
        };
        inputs.loaded.files.extend(command.retained.clone());
        inputs.add_linker_objects(command);
        Ok(inputs)
    }

    /// The objects.
    pub fn objects(&self) -> &[Object] {
        self.build_id_note.as_ref().map_or_else(|_| self.objects_with_got(), BuildIdNote::objects)
    }

    /// The note of the build ID.
    pub fn build_id_note(&self) -> Option<&BuildIdNote> {
        self.build_id_note.as_ref().ok()
    }

    /// Why the image has no build ID, if one is asked for.
    pub fn why_no_build_id(&self) -> Option<String> {
        self.build_id_note.as_ref().err().filter(|why| **why != NoBuildId::NotWanted).map(ToString::to_string)
    }

    /// The objects with the table of references, and without the note of the build ID.
    fn objects_with_got(&self) -> &[Object] {
        self.got.as_ref().map_or_else(|| self.objects_with_eh_frame_hdr(), Got::objects)
    }

    /// The place among the objects of that of the table of references.
    fn place_of_got(&self) -> Option<usize> {
        let place = self.got.as_ref().and_then(Got::at)?;
        Some(if self.build_id_note.is_ok() { BuildIdNote::place_beside(place) } else { place })
    }

    /// The objects with the note of properties and the table of entries, and without the other two.
    fn objects_with_eh_frame_hdr(&self) -> &[Object] {
        self.eh_frame_hdr.as_ref().map_or_else(|| self.objects_with_note(), EhFrameHdrs::objects)
    }

    /// The objects that the session gets as they were read, whatever the plan is.
    pub fn unaltered(&self) -> Vec<SessionObject> {
        let objects = self.held.iter().zip(self.objects());
        objects
            .filter(|(_, object)| !merged_objects::may_change(object) && !object.is_eh_frame_hdr())
            .map(|(held, _)| held.clone())
            .collect()
    }

    /// The objects with the note of properties, and without the other three.
    fn objects_with_note(&self) -> &[Object] {
        self.notes.as_ref().map_or(&self.loaded.objects, GnuProperty::objects)
    }

    /// Makes what GNU ld makes of all objects: a note of properties, a table of the entries of `.eh_frame`, a global
    /// offset table, and the note of a build ID; says whether the objects stand where they stood.
    fn add_linker_objects(&mut self, command: &Command) -> bool {
        let places =
            |inputs: &Inputs| (inputs.got.as_ref().map(Got::at), inputs.eh_frame_hdr.as_ref().map(EhFrameHdrs::at));
        let before = places(self);
        self.notes = GnuProperty::of(command, &self.scripts.reading.script, &self.loaded.objects);
        self.eh_frame_hdr = EhFrameHdrs::of(command, &self.scripts, self.objects_with_note());
        self.got = Got::of(command, &self.scripts, self.objects_with_eh_frame_hdr());
        let id = self.build_id_note.as_ref().ok().map(|build_id_note| build_id_note.id().to_owned());
        self.build_id_note = match is_flat(command, &self.scripts) {
            true => Err(NoBuildId::NotWanted),
            false => BuildIdNote::of(command, &self.scripts, self.objects_with_got(), id),
        };
        self.held = held_of(self.objects());
        places(self) == before
    }
}

fn held_of(objects: &[Object]) -> Vec<SessionObject> {
    objects.iter().map(|object| SessionObject { name: object.name().to_owned(), data: object.data().clone() }).collect()
}

/// What was made for a file, of which the next one has what is the same.
#[derive(Debug, Default)]
pub struct Kept {
    /// The tables of symbols and relocations, and what is not loaded: of plans that differ in bytes of objects alone.
    pub tables: KeptTables,
    /// The strings that were merged of what is not loaded.
    pub strings: KeptStrings,
}

/// What a link is to be.
#[derive(Debug)]
pub struct LinkPlan {
    /// The scripts and objects.
    pub inputs: Inputs,
    /// What GNU ld makes of them, or why that is not known.
    pub evaluation: Result<Evaluation, Stop>,
    /// The script of the profile.
    pub adapted: AdaptedScript,
    /// The options of the session.
    pub options: session_client::Options,
    /// The form of the file.
    pub form: Form,
    /// What was made for the last file.
    pub kept: Kept,
    layout: Option<Layout>,
    /// The names for the table of symbols, in their order.
    names: Option<LinkedNames>,
    /// The sections that are loaded though their objects do not say so.
    made_loaded: MadeLoaded,
    /// The objects that merging has made.
    merged_objects: MergedObjects,
    /// The objects of which rows are left out.
    shortened: ShortenedObjects,
    /// The objects as the session is to hold them, where these are others than were read.
    changed: Option<Vec<SessionObject>>,
}

/// The options of a session for a command; `entry` is the entry symbol if the script cannot name it.
pub fn options_of(command: &Command, entry: Option<&BStr>) -> session_client::Options {
    let orphans = command.orphans.map(|orphans| match orphans {
        Orphans::Discard => session_client::Orphans::Discard,
        Orphans::Place | Orphans::Warn | Orphans::Error => session_client::Orphans::Error,
    });
    let entry = entry.map(|name| name.to_os_str_lossy().into_owned());
    session_client::Options { collects_sections: command.collects_sections, entry, orphans }
}

impl LinkPlan {
    /// Lays the script out over the objects, and writes it in the profile.
    pub fn new(command: &Command, inputs: Inputs) -> LinkPlan {
        LinkPlan::finish(command, LinkPlan::begin(command, inputs))
    }

    /// Lays the script out over the objects.
    pub fn begin(command: &Command, inputs: Inputs) -> PlanDraft {
        let settings = settings_of(command, &inputs.scripts);
        let laid_out = as_collected(command, &inputs, laid_out(&inputs, &settings));
        PlanDraft::new(command, inputs, laid_out, None, Default::default())
    }

    /// Writes the script in the profile.
    pub fn finish(command: &Command, begun: PlanDraft) -> LinkPlan {
        let PlanDraft { inputs, layout, evaluation, made_loaded, merged_objects, shortened, names, held } = begun;
        let keeps_more = layout.as_ref().map_or(false, Layout::keeps_named_by_frames);
        let mut adapted = write_script(command, &inputs, evaluation.as_ref().ok(), keeps_more);
        let table = evaluation.as_ref().ok().and_then(|evaluation| eh_frame_hdr::note(&inputs.scripts, evaluation));
        adapted.notes.extend(table);
        let options = options_of(command, adapted.entry.as_ref().map(|name| name.as_bstr()));
        let form = form_of(command, &inputs, &adapted, evaluation.as_ref().ok());
        let changed = as_changed(held, &inputs, &evaluation, &made_loaded, &adapted);
        let wanted = evaluation.as_ref().ok().filter(|_| !form.is_flat);
        let names = wanted.map(|evaluation| LinkedNames::of(inputs.objects(), evaluation, names));
        let kept = Kept::default();
        LinkPlan {
            inputs,
            evaluation,
            adapted,
            options,
            form,
            kept,
            layout,
            names,
            made_loaded,
            merged_objects,
            shortened,
            changed,
        }
    }

    /// The plan for files that have other bytes now; `None` if all must be planned anew, as these files are no objects,
    /// or decide about members of archives.
    pub fn replan(mut self, command: &Command, snapshot: &mut Snapshot, changed: &[PathBuf]) -> Option<LinkPlan> {
        if !self.inputs.loaded.take_changed(command, snapshot, changed) {
            return None;
        }
        let before = std::mem::take(&mut self.inputs.held);
        let is_in_place = self.inputs.add_linker_objects(command);
        let others: Vec<usize> = (0..self.inputs.held.len())
            .filter(|at| {
                let (old, new) = (before.get(*at), self.inputs.held.get(*at));
                old.zip(new).map_or(true, |(old, new)| !old.data.is_identical(&new.data))
            })
            .collect();
        let settings = settings_of(command, &self.inputs.scripts);
        let objects = self.inputs.objects();
        let changed: Vec<ObjectIndex> = others.into_iter().map(|at| ObjectIndex(at as u32)).collect();
        let kept = self
            .layout
            .take()
            .filter(|_| is_in_place)
            .and_then(|mut layout| layout.update(objects, &changed).then_some(layout));
        let merged = self.evaluation.as_ref().ok().map(|evaluation| AllMerges {
            loaded: Arc::clone(&evaluation.merges),
            beside: Arc::clone(&evaluation.merges_beside),
        });
        let laid_out = match kept {
            Some(mut layout) => {
                merged.into_iter().for_each(|merged| layout.set_merged(merged));
                layout.set_keeps_named_by_frames(false);
                let evaluation = layout.evaluate(objects);
                (Some(layout), evaluation)
            }
            None => laid_out(&self.inputs, &settings),
        };
        let laid_out = as_collected(command, &self.inputs, laid_out);
        let begun = PlanDraft::new(command, self.inputs, laid_out, self.names, (self.merged_objects, self.shortened));
        let kept = Kept { strings: self.kept.strings, ..Kept::default() };
        Some(LinkPlan { kept, ..LinkPlan::finish(command, begun) })
    }

    /// Takes an object in the place of another one that says the same of names, sections and relocations.
    fn put(&mut self, place: usize, new: Object) {
        let noted = self.inputs.notes.as_mut().map_or_else(|| new.clone(), |notes| notes.put(place, &new));
        let framed = self.inputs.eh_frame_hdr.as_mut().map_or(place, |table| table.put(place, &noted));
        let (at, with_got) = match &mut self.inputs.got {
            Some(got) => got.put(framed, &noted),
            None => (framed, noted),
        };
        self.inputs.build_id_note.iter_mut().for_each(|build_id_note| build_id_note.put(at, with_got.clone()));
        self.inputs.loaded.put(place, new);
    }

    /// Holds the objects as they are now, if all of the plan but their bytes stays.
    fn update_session_objects(&mut self) {
        self.inputs.held = held_of(self.inputs.objects());
        if let Some(names) = &mut self.names {
            names.hold(self.inputs.objects());
        }
        let (inputs, made_loaded) = (&self.inputs, &self.made_loaded);
        let mut held = inputs.held.clone();
        if let Ok(evaluation) = &self.evaluation {
            let collects = self.options.collects_sections;
            self.merged_objects.put(&mut held, inputs.objects(), evaluation, made_loaded, collects);
            self.shortened.put(&mut held, evaluation);
        }
        eh_frame_hdr::put(&mut held, inputs.objects(), self.evaluation.as_ref().ok());
        self.changed = as_changed(held, inputs, &self.evaluation, made_loaded, &self.adapted);
    }

    /// Gives the note of the build ID other bytes.
    pub fn set_id(&mut self, id: Vec<u8>) {
        self.inputs.build_id_note.iter_mut().for_each(|build_id_note| build_id_note.set(id.clone()));
        if self.hold_note().is_none() {
            self.update_session_objects();
        }
    }

    /// Holds the note of the build ID as it is now; `None` if that is not all, as it was not held as it is.
    fn hold_note(&mut self) -> Option<()> {
        let build_id_note = self.inputs.build_id_note.as_ref().ok()?;
        let at = build_id_note.place().0 .0 as usize;
        let now = build_id_note.objects().get(at)?.data().clone();
        let held = self.inputs.held.get_mut(at)?;
        if let Some(changed) = &mut self.changed {
            let one = changed.get_mut(at).filter(|one| one.data.is_identical(&held.data))?;
            one.data = now.clone();
        }
        held.data = now;
        if let Some(names) = &mut self.names {
            names.hold(build_id_note.objects());
        }
        Some(())
    }

    /// The lines of GNU ld's about a table of `.eh_frame` that is not there, or has no rows.
    pub fn eh_frame_hdr_warnings(&self, command: &Command) -> Vec<String> {
        eh_frame_hdr::warnings(command, self.inputs.objects(), self.evaluation.as_ref().ok())
    }

    /// What the table of symbols of an image is made of; `None` if the layout is not known. `spans` are those of what
    /// is not loaded.
    pub fn symbols<'a>(&'a self, laid_out: LaidOut<'a>, spans: Option<&'a Spans>) -> Option<Symbols<'a>> {
        let (evaluation, names) = (self.evaluation.as_ref().ok()?, self.names.as_ref()?);
        let map = match laid_out {
            LaidOut::AsEvaluated => None,
            LaidOut::ByMap(map) => Some(map),
            LaidOut::Unknown => return None,
        };
        let spans = spans.filter(|_| !self.form.strips_debugging);
        Some(Symbols { objects: self.inputs.objects(), evaluation, names, map, spans })
    }

    /// The names of script and objects, if they are listed.
    pub fn linked_names(&self) -> Option<&LinkedNames> {
        self.names.as_ref()
    }

    /// Whether the image may be laid out otherwise than was evaluated.
    pub fn may_differ(&self) -> bool {
        self.evaluation.is_ok() && self.adapted.changed().next().is_some()
    }

    /// The names of script and objects, in the order of GNU ld's table of symbols.
    pub fn named(&self) -> Vec<Named<'_>> {
        if let Some(names) = &self.names {
            return names.named();
        }
        let (layout, objects) = (self.layout.as_ref(), self.inputs.objects());
        let names = layout.map_or_else(Vec::new, |layout| layout.table_order(objects, &|_| true));
        let known = LinkNames::look_up(objects, &names);
        let named = |name: BString| {
            let definition = known.definition(name.as_bstr()).map(NamedDefinition::from);
            Named { name: name.into(), definition, is_spoken: true }
        };
        names.into_iter().map(named).collect()
    }

    /// The objects as the session holds them.
    pub fn held(&self) -> &[SessionObject] {
        self.changed.as_ref().unwrap_or(&self.inputs.held)
    }
}

/// The objects as the session is to hold them, of those that were merged and of the table of entries; `None` if they
/// are those that were read.
fn as_changed(
    held: Vec<SessionObject>,
    inputs: &Inputs,
    evaluation: &Result<Evaluation, Stop>,
    made_loaded: &MadeLoaded,
    adapted: &AdaptedScript,
) -> Option<Vec<SessionObject>> {
    match evaluation {
        Ok(evaluation) => changed_of(held, inputs, evaluation, made_loaded, adapted),
        Err(_) => inputs.eh_frame_hdr.is_some().then_some(held),
    }
}

/// The objects as the session is to hold them, of those that were merged; `None` if they are those that were read.
fn changed_of(
    mut held: Vec<SessionObject>,
    inputs: &Inputs,
    evaluation: &Evaluation,
    made_loaded: &MadeLoaded,
    adapted: &AdaptedScript,
) -> Option<Vec<SessionObject>> {
    let has_commons = inputs.objects().iter().any(|object| object.has_commons());
    let overridden = overridden::names(evaluation);
    let is_as_read = made_loaded.is_empty() && !has_commons && adapted.aliases.is_empty() && overridden.is_empty();
    let is_as_read = is_as_read && inputs.eh_frame_hdr.is_none();
    if is_as_read && evaluation.merges.is_empty() && evaluation.shortened.is_empty() {
        return None;
    }
    loaded::with_flags(&mut held, made_loaded);
    if has_commons {
        placed_commons::with_places(&mut held, inputs.objects(), evaluation);
    }
    aliased_objects::with_names(&mut held, evaluation, &adapted.aliases);
    overridden::undefine(&mut held, inputs.objects(), &overridden);
    Some(held)
}

/// A layout and what it came to.
type LaidOutScript = (Option<Layout>, Result<Evaluation, Stop>);

fn laid_out(inputs: &Inputs, settings: &Settings) -> LaidOutScript {
    match Layout::new(&inputs.scripts.reading.script, inputs.objects(), settings) {
        Ok(layout) => {
            let evaluation = layout.evaluate(inputs.objects());
            (Some(layout), evaluation)
        }
        Err(stop) => (None, Err(stop)),
    }
}

/// The layout as `ldi` collects sections: if it keeps more than GNU ld for `.eh_frame`, with that, since numbers in
/// the script are those of the layout.
fn as_collected(command: &Command, inputs: &Inputs, laid_out: LaidOutScript) -> LaidOutScript {
    let has_frames = |evaluation: &Evaluation| {
        let mut kept = evaluation.sections.iter().filter(|one| one.size > 0 && one.output().is_some());
        command.collects_sections && kept.any(|one| evaluation.section_name(one) == ".eh_frame")
    };
    let keeps_more = |evaluation| has_frames(evaluation) && kept_beside(command, inputs, Some(evaluation)).1;
    match laid_out {
        (Some(mut layout), Ok(evaluation)) if keeps_more(&evaluation) => {
            layout.set_keeps_named_by_frames(true);
            let evaluation = layout.evaluate(inputs.objects());
            (Some(layout), evaluation)
        }
        other => other,
    }
}

/// What of `--gc-sections` is other than GNU ld's: the sections that get KEEP, and whether more than GNU ld's are kept.
fn kept_beside(command: &Command, inputs: &Inputs, evaluation: Option<&Evaluation>) -> (Vec<bool>, bool) {
    let entry = command.entry.as_ref().or_else(|| inputs.scripts.entry());
    match evaluation.filter(|_| command.collects_sections) {
        Some(evaluation) => {
            let entry = entry.map_or_else(|| b"start".as_bstr(), |name| name.as_bstr());
            collecting::kept_beside(&inputs.scripts.reading.script, inputs.objects(), evaluation, entry)
        }
        None => (Vec::new(), false),
    }
}

/// The script in the profile; `keeps_more`: as many sections are kept as `.eh_frame` names.
fn write_script(
    command: &Command,
    inputs: &Inputs,
    evaluation: Option<&Evaluation>,
    keeps_more: bool,
) -> AdaptedScript {
    let objects: Vec<&BStr> = inputs.held.iter().map(|held| held.name.as_bstr()).collect();
    let defines =
        |name: &BStr| inputs.objects().iter().any(|object| object.globals_named(name).any(|one| one.rank().is_some()));
    let (kept, keeps_others) = kept_beside(command, inputs, evaluation);
    let of = |evaluation| got_unrelaxed::kept_by_first_values(inputs.objects(), evaluation);
    let without_entries = evaluation.map_or_else(Vec::new, of);
    adapted_script(Request {
        script: &inputs.scripts.reading.script,
        source: &inputs.scripts.reading.source,
        evaluation,
        others: None,
        objects: &objects,
        is_followed: true,
        entry: command.entry.as_ref().map(|name| name.as_bstr()),
        has_default_entry: true,
        defines: &defines,
        has_names: &|section| has_names(inputs.objects(), section),
        sort_section: command.sort_section,
        leaves_unique: command.unique.as_ref().map_or(false, |patterns| !patterns.is_empty()),
        places_orphans: command.orphans != Some(Orphans::Error),
        kept: &kept,
        keeps_more: keeps_more || keeps_others,
        collects_start_stop: command.collects_sections && command.collects_start_stop,
        without_entries: &without_entries,
    })
}

/// The form of the file that a command and a script ask for.
fn form_of(command: &Command, inputs: &Inputs, adapted: &AdaptedScript, evaluation: Option<&Evaluation>) -> Form {
    let scripts = &inputs.scripts;
    Form {
        page: if command.is_omagic || command.is_nmagic { 1 } else { command.page_size.unwrap_or(PAGE) },
        segments: adapted.segments.clone(),
        segments_problem: adapted.segments_problem.clone(),
        headers: evaluation
            .and_then(|evaluation| default_headers::headers_of(command, &inputs.loaded.objects, evaluation)),
        names: adapted.names.clone(),
        rights: evaluation.map_or_else(Vec::new, |evaluation| rights_of(inputs, evaluation)),
        symbols: symbols::options_of(command, &inputs.retained),
        strips_debugging: symbols::strips_debugging(command),
        is_flat: is_flat(command, scripts),
        left_out: evaluation.map_or_else(Vec::new, left_out_of),
    }
}

/// The sections of NOLOAD.
fn left_out_of(evaluation: &Evaluation) -> Vec<(u64, u64)> {
    let is_out = |place: &Placed| place.flags.has(Flags::NEVER_LOAD) && place.size != 0;
    evaluation.in_image().filter(|(_, place)| is_out(place)).map(|(_, place)| (place.address, place.size)).collect()
}

/// Whether the bytes are wanted as they lie in memory.
fn is_flat(command: &Command, scripts: &Scripts) -> bool {
    match command.output_format {
        Some(format) => format == OutputFormat::Binary,
        None => scripts.is_own && scripts.parts.iter().any(is_binary),
    }
}

/// The rights of GNU ld's sections. What has `.got.plt` says the size of its entries (elfxx-x86.c,
/// `_bfd_x86_elf_finish_dynamic_sections`).
fn rights_of(inputs: &Inputs, evaluation: &Evaluation) -> Vec<Rights> {
    let table = inputs.place_of_got().map(|at| ObjectIndex(at as u32));
    let is_of_table = |id: &SectionId| {
        let section = evaluation.sections.get(id.index());
        section.map_or(false, |one| Some(one.object) == table && one.number() == Some(HEADER_SECTION))
    };
    let rights = |place: &Placed| Rights {
        address: place.address,
        size: place.size,
        flags: place.bits,
        kind: place.kind,
        align: place.header_align(),
        entry_size: if place.inputs.iter().any(is_of_table) { ENTRY_SIZE as u64 } else { place.entry_size },
    };
    let loaded = evaluation.in_image().filter(|(_, place)| place.is_allocated() && place.size != 0);
    loaded.map(|(_, place)| rights(place)).collect()
}

fn is_binary(part: &ScriptInputs) -> bool {
    part.image_format() == Some(OutputFormat::Binary)
}

#[cfg(test)]
pub(crate) mod tests;
