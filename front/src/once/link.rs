//! One link, from the command to the files.

use std::ffi::OsStr;
use std::os::unix::ffi::OsStrExt;
use std::path::{Path, PathBuf};

use bstr::{BStr, ByteSlice};

use super::build_id::{with_build_id, without_build_id, Beside, Early, FileFault, WithoutBuildId, WriteEarly};
use super::fallback::Reasons;
use super::host::{Asked, Host};
use super::maps::{self, Maps};
use super::verdict::Verdict;
use super::{fatal, messages, orphans, reasons_for_gnu_ld, say, tables, verdict};
use crate::adapted::{Note, NoteKind, Topic};
use crate::checker::NoImage;
use crate::command::Command;
use crate::finish::{FileImage, FinishError, Finished, KeptTables, LaidOut};
use crate::inputs::InputFault;
use crate::layout::stop::RefusedReason;
use crate::layout::Stop;
use crate::parallel::beside;
use crate::plan::{find_program, options_of, Inputs, Kept, LinkPlan, PlanFault, Scripts, ScriptsFault};
use crate::publish::{NotWritten, PROGRAM, TEXT};
use crate::report::link_map::LinkMap;
use crate::script::tree::{Script, SectionsStatement, Statement};
use crate::session_client::{Options, SessionClient, SessionError, SessionObject, SyncOutcome, Target};
use crate::snapshot::Snapshot;
use crate::stdio;
use crate::stdio::Stream;
use crate::unloaded::{KeptStrings, NotMade};

/// Why no image is written if it is another than GNU ld's.
pub(crate) const DIFFERS: &str = "the image would differ from GNU ld's (see above): none is written";
/// The refused objects that are named.
const MAX_LIST: usize = 20;
/// The references that NOCROSSREFS prohibits and that are named.
const MAX_LINES: usize = 1000;

/// The statuses of `ldi link`.
#[derive(Clone, Copy, PartialEq, Eq, Debug)]
#[repr(u8)]
pub enum Status {
    /// The image is written.
    Good = 0,
    /// The link has faults.
    Faults = 1,
    /// Words, script or an object are refused.
    Refused = 2,
    /// A file cannot be read or written, or the session ended.
    Device = 3,
    /// Memory ran out.
    Memory = 4,
}

impl Status {
    /// The status of a number; `None` if it has none.
    pub(crate) fn of(number: u8) -> Option<Status> {
        let all = [Status::Good, Status::Faults, Status::Refused, Status::Device, Status::Memory];
        all.into_iter().find(|status| *status as u8 == number)
    }
}

/// Why a link ends without a status of its own.
#[derive(Debug, thiserror::Error)]
pub enum LinkFault {
    /// The link cannot be planned.
    #[error(transparent)]
    Plan(PlanFault),
    /// The session gave no answer.
    #[error("the session of {program} ended: {fault}")]
    Session {
        /// The program.
        program: String,
        /// Why the session gave none.
        fault: SessionError,
    },
    /// The image has no such form.
    #[error(transparent)]
    Form(FinishError),
    /// A file cannot be written.
    #[error(transparent)]
    NotWritten(NotWritten),
    /// The session answered no image.
    #[error(transparent)]
    NoImage(#[from] NoImage),
    /// A file that was read would be written.
    #[error("input file '{0}' is the same as output file")]
    SameFile(String),
}

impl LinkFault {
    /// The status of a program that ends by it.
    pub fn status(&self) -> Status {
        match self {
            LinkFault::Plan(PlanFault::Script(ScriptsFault::Missing(_)) | PlanFault::Input(InputFault::Missing(_))) => {
                Status::Device
            }
            LinkFault::Plan(_) | LinkFault::SameFile(_) => Status::Refused,
            LinkFault::Form(_) => Status::Faults,
            LinkFault::Session { .. } | LinkFault::NotWritten(_) | LinkFault::NoImage(_) => Status::Device,
        }
    }
}

impl From<PlanFault> for LinkFault {
    fn from(fault: PlanFault) -> LinkFault {
        LinkFault::Plan(fault)
    }
}

/// A link that was planned.
#[derive(Debug)]
pub(crate) struct Planned {
    /// The command, with the output that a script names.
    pub(crate) command: Command,
    /// The plan.
    pub(crate) plan: LinkPlan,
    /// The outcome of the comparison of its last image; it is the same for objects that are alike.
    pub(crate) verdict: Option<Verdict>,
}

/// Reads the inputs and plans the link, while the session takes the objects.
pub(crate) fn plan_link(
    mut command: Command,
    scripts: Scripts,
    snapshot: &mut Snapshot,
    client: &mut SessionClient,
    asked: &Asked<'_>,
) -> Result<Planned, LinkFault> {
    if client.session().is_none() {
        // It gets ready while the objects are read; if it cannot be started, that is said once they are.
        let _ = client.start(&options_of(&command, None));
    }
    let inputs = Inputs::load(&command, scripts, snapshot)?;
    if let (Some(output), false) = (inputs.scripts.output(), command.has_output) {
        command.output = PathBuf::from(OsStr::from_bytes(output));
    }
    if command.traces {
        inputs.loaded.objects.iter().for_each(|object| println!("{}", object.name()));
    }
    check_outputs(&command, snapshot)?;
    let plan = make_plan(&command, inputs, client).map_err(|fault| session_fault(fault, asked))?;
    Ok(Planned { command, plan, verdict: None })
}

/// Links what is planned, and gives the exit status.
pub(crate) fn make(
    planned: &mut Planned,
    client: &mut SessionClient,
    asked: Asked<'_>,
    host: &dyn Host,
) -> Result<Status, LinkFault> {
    let Planned { command, plan, verdict } = planned;
    let mut kept = std::mem::take(&mut plan.kept);
    let made = Link { command, plan, asked, host }.make(verdict, client, &mut kept);
    plan.kept = kept;
    let mut made = match made? {
        Outcome::Made(made) => made,
        Outcome::Ended(status) => return Ok(status),
    };
    let laid_out = LaidOut::of(made.verdict.agrees, made.pieces.as_ref());
    let warned = made.file.as_ref().ok().and_then(|file| fatal::warning(command, plan, file.file()));
    if let Some(why) = warned {
        let link = Link { command, plan, asked, host };
        return Ok(link.no_image(Some(why.clone()), &|| say(&why), Status::Faults));
    }
    let write = |file: &FileImage| write_image(command, file, host);
    let early: Option<WriteEarly<'_>> = if host.writes_beside() { Some(&write) } else { None };
    let finished = made.file.and_then(|file| with_build_id(plan, file, laid_out, client, early));
    let link = Link { command, plan, asked, host };
    let (finished, early) = match finished {
        Ok(finished) => finished,
        Err(fault) => return link.no_file(fault),
    };
    made.verdict.maps = made.maps;
    link.write_files((&finished, early), &made.map, &made.verdict, client)?;
    if host.keeps_session() {
        client.reuse(finished.file.into_image());
    }
    *verdict = Some(made.verdict);
    Ok(Status::Good)
}

fn session_fault(fault: SessionError, asked: &Asked<'_>) -> LinkFault {
    LinkFault::Session { program: find_program("ldi", asked.environment).to_string_lossy().into_owned(), fault }
}

/// Plans a link. A session without objects takes them meanwhile; one that has some gets changes when the plan is made.
fn make_plan(command: &Command, inputs: Inputs, client: &mut SessionClient) -> Result<LinkPlan, SessionError> {
    if client.has_objects() {
        return Ok(LinkPlan::new(command, inputs));
    }
    plan_while_sending(command, inputs, client)
}

/// A plan that is made while a session takes the objects: first those that are sent as they were read, whatever the
/// layout is, then the others.
pub(crate) fn plan_while_sending(
    command: &Command,
    inputs: Inputs,
    client: &mut SessionClient,
) -> Result<LinkPlan, SessionError> {
    let options = options_of(command, None);
    let unaltered = inputs.unaltered();
    let begun = while_sending(client, &options, &unaltered, || LinkPlan::begin(command, inputs))?;
    let held = begun.held().to_vec();
    while_sending(client, &options, &held, || LinkPlan::finish(command, begun))
}

/// Runs `act` on this thread while another sends objects to the session.
fn while_sending<T>(
    client: &mut SessionClient,
    options: &Options,
    objects: &[SessionObject],
    act: impl FnOnce() -> T,
) -> Result<T, SessionError> {
    std::thread::scope(|scope| {
        let sending = scope.spawn(|| client.prepare(options, objects));
        let done = act();
        match sending.join() {
            Ok(sent) => sent.map(|()| done),
            Err(_) => Err(SessionError::Ended),
        }
    })
}

/// A link whose plan is made.
struct Link<'a> {
    command: &'a Command,
    plan: &'a LinkPlan,
    asked: Asked<'a>,
    host: &'a dyn Host,
}

/// What goes by the layout alone, and is made while the session links.
struct Ahead<'a> {
    beside: Beside<'a>,
    /// The maps as of an image that is laid out as was evaluated, if they were not known.
    maps: Option<Maps>,
}

/// A good link before the build ID is in its file.
struct Made {
    file: Result<WithoutBuildId, FileFault>,
    maps: Option<Maps>,
    /// The outcome of the comparison.
    verdict: Verdict,
    /// The map of `ldi`, if it is wanted; what it says if the image is not laid out as was evaluated.
    map: Vec<u8>,
    pieces: Option<LinkMap>,
}

/// What a link has come to before its build ID is found.
enum Outcome {
    /// A file.
    Made(Box<Made>),
    /// No file.
    Ended(Status),
}

impl<'a> Link<'a> {
    /// Has the session link, and makes the file. `known` is the outcome of the comparison, if an image of the plan was
    /// compared before.
    fn make(
        &self,
        known: &mut Option<Verdict>,
        client: &mut SessionClient,
        kept: &mut Kept,
    ) -> Result<Outcome, LinkFault> {
        let session = |fault| session_fault(fault, &self.asked);
        if self.plan.adapted.is_left() {
            return self.end_with_left(client).map(Outcome::Ended).map_err(session);
        }
        let wants_maps = known.as_ref().map_or(true, |known| known.maps.is_none());
        let (brought, ahead) = self.sync(wants_maps, client, &mut kept.strings);
        match self.not_good(&brought.map_err(session)?, client).map_err(session)? {
            Some(status) => Ok(Outcome::Ended(status)),
            None => self.make_file(known, ahead, client, &mut kept.tables),
        }
    }

    /// Brings the session to the plan. What goes by the layout alone is made meanwhile.
    fn sync(
        &self,
        wants_maps: bool,
        client: &mut SessionClient,
        strings: &mut KeptStrings,
    ) -> (Result<SyncOutcome, SessionError>, Result<Ahead<'a>, NotMade>) {
        let plan = self.plan;
        let wanted = Target { options: &plan.options, objects: plan.held(), script: &plan.adapted.text };
        let command = self.command;
        let (ahead, brought) = beside(|| Ahead::of(command, plan, wants_maps, strings), || client.sync(wanted));
        (brought, ahead.unwrap_or_else(|| Ahead::of(command, plan, wants_maps, strings)))
    }

    fn path(&self) -> String {
        self.plan.inputs.scripts.path.display().to_string()
    }

    /// The status of a link of whose script something is left; objects that are refused go before.
    fn end_with_left(&self, client: &mut SessionClient) -> Result<Status, SessionError> {
        let wanted = Target { options: &self.plan.options, objects: self.plan.held(), script: b"" };
        let brought = client.sync(wanted)?;
        if !brought.refused.is_empty() {
            return Ok(self.refused(&brought));
        }
        let say_left = || self.say_left();
        Ok(self.no_image(reasons_for_gnu_ld::left_constructs(self.plan), &say_left, Status::Refused))
    }

    /// Says what is left of the script.
    fn say_left(&self) {
        let left: Vec<&Note> = self.plan.adapted.notes.iter().filter(|note| note.kind == NoteKind::Left).collect();
        for note in &left {
            eprintln!("{note}");
        }
        self.say_section_outside();
        self.say_changed();
        let constructs = if left.len() == 1 { "1 construct".to_owned() } else { format!("{} constructs", left.len()) };
        say(format!("{}: ldi does not support {constructs} of it (see above)", self.path()));
    }

    /// Says what is changed in the script.
    fn say_changed(&self) {
        self.plan
            .adapted
            .changed()
            .filter(|note| verdict::is_said(self.plan, note))
            .for_each(|note| eprintln!("{note}"));
    }

    /// The status of a link that makes no image: another linker makes it if there is a reason, else `say` says why.
    fn no_image(&self, why: Option<String>, say: &dyn Fn(), status: Status) -> Status {
        match why {
            Some(why) => {
                let reasons = Reasons::of_no_image(why, say, status);
                self.host.hand_over(&reasons, &self.asked)
            }
            None => {
                say();
                status
            }
        }
    }

    /// Says that a symbol has no value as its section is not in the image.
    fn say_section_outside(&self) {
        section_outside(self.plan).into_iter().for_each(say);
    }

    /// What ends a link without an image.
    fn not_good(&self, brought: &SyncOutcome, client: &mut SessionClient) -> Result<Option<Status>, SessionError> {
        if !brought.refused.is_empty() {
            return Ok(Some(self.refused(brought)));
        }
        if let Some(refusal) = brought.script_refused {
            let say = || {
                self.report();
                messages::say_refused_script(self.plan, refusal, self.asked.environment);
            };
            let (why, status) = match refusal.is_memory() {
                true => (None, Status::Memory),
                false => (Some("the adapted script is outside the profile of ldi".to_owned()), Status::Refused),
            };
            return Ok(Some(self.no_image(why, &say, status)));
        }
        if let Some((name, refusal)) = brought.not_removed.first() {
            // A session that is kept, and does not let go of an object of an earlier link: the next one is another.
            client.end();
            let text = format!("{name} was not taken out: refused {} {}", refusal.number, refusal.inner);
            return Err(SessionError::NoAnswer(text));
        }
        if !brought.is_good {
            let faults = client.faults()?;
            let say = || {
                self.report();
                self.say_changed();
                self.notes();
                messages::say_faults(self.command, self.plan, &faults);
            };
            let why = reasons_for_gnu_ld::faults(self.command, self.plan, &faults);
            return Ok(Some(self.no_image(why, &say, Status::Faults)));
        }
        Ok(None)
    }

    /// Objects that are refused go to the other linker, but not for memory.
    fn refused(&self, brought: &SyncOutcome) -> Status {
        let name = |index: usize| self.plan.held().get(index).map_or_else(String::new, |held| held.name.to_string());
        let say_more = || {
            for (index, refusal) in brought.refused.iter().take(MAX_LIST) {
                messages::say_refused_object(self.plan, *index, *refusal, self.asked.environment);
            }
        };
        if brought.refused.iter().any(|(_, refusal)| refusal.is_memory()) {
            say_more();
            return Status::Memory;
        }
        let first = brought.refused.first().map_or_else(String::new, |(index, _)| name(*index));
        let more = match brought.refused.len() {
            0 | 1 => String::new(),
            count => format!(" and {} others", count - 1),
        };
        let line = format!("{first}{more}: outside the profile of ldi");
        let detail = || messages::detail(self.plan, &brought.refused, self.asked.environment);
        let reasons = Reasons::of_kind(line, "outside the profile of ldi", &say_more).with_first(&detail);
        self.host.hand_over(&reasons, &self.asked)
    }

    /// What was done to the script: with `--verbose` all of it.
    fn report(&self) {
        messages::say_warnings(self.plan);
        for note in &self.plan.adapted.notes {
            let is_wanted = self.command.is_verbose && note.kind != NoteKind::Changed;
            if is_wanted && note.topic != Topic::Segments {
                eprintln!("{note}");
            }
        }
    }

    /// Options and inputs of which something is said.
    fn notes(&self) {
        notes_of(self.command, self.plan).into_iter().for_each(say);
    }

    /// Compares the image with GNU ld's, and makes the file.
    fn make_file(
        &self,
        known: &mut Option<Verdict>,
        ahead: Result<Ahead<'_>, NotMade>,
        client: &mut SessionClient,
        tables: &mut KeptTables,
    ) -> Result<Outcome, LinkFault> {
        let session = |fault| session_fault(fault, &self.asked);
        let image = client.image().map_err(session)?;
        let known = known.take();
        let is_compared = known.is_none() && verdict::wants_map(self.plan, self.command.collects_sections);
        let wants_map = self.wants_map(is_compared, known.as_ref());
        let mut map = if wants_map { client.map().map_err(session)? } else { Vec::new() };
        if !self.host.keeps_session() && self.plan.inputs.build_id_note().is_none() {
            client.ask_to_end();
        }
        let compared = if is_compared { &map[..] } else { b"" };
        let compare = || verdict::compare(self.plan, &image, compared, self.command.is_verbose);
        let mut verdict = known.map_or_else(compare, Ok)?;
        if let Some(why) = reasons_for_gnu_ld::verdict(self.plan, &verdict) {
            let say = || self.say_verdict(&verdict);
            return Ok(Outcome::Ended(self.no_image(Some(why), &say, Status::Faults)));
        }
        self.say_verdict(&verdict);
        if !verdict.prohibited.is_empty() {
            return Ok(Outcome::Ended(Status::Faults));
        }
        if !wants_map && !verdict.agrees && maps::has_map(self.command) {
            map = client.map().map_err(session)?;
        }
        let pieces = if verdict.agrees { None } else { LinkMap::read(&map).ok() };
        let laid_out = LaidOut::of(verdict.agrees, pieces.as_ref());
        let mut maps = verdict.maps.take();
        let file = ahead.map_err(FileFault::from).and_then(|ahead| {
            maps = maps.take().or_else(|| Some(ahead.maps?.of_laid_out(verdict.agrees)));
            without_build_id(self.plan, image, laid_out, &ahead.beside, (tables, client))
        });
        Ok(Outcome::Made(Box::new(Made { file, maps, verdict, map, pieces })))
    }

    /// Whether the map of `ldi` is asked for.
    fn wants_map(&self, is_compared: bool, known: Option<&Verdict>) -> bool {
        let command = self.command;
        let tables = command.prints_memory_usage || command.collects_sections && command.prints_collected;
        let may_differ = known.map_or_else(|| self.plan.may_differ(), |known| !known.agrees);
        // The session's own map, if there is to be one; a session that ends now cannot be asked later.
        let is_written = maps::has_map(command) && (command.has_own_map || !self.host.keeps_session());
        is_written || tables || is_compared || may_differ
    }

    /// What ends a link of whose image no file can be made.
    fn no_file(&self, fault: FileFault) -> Result<Status, LinkFault> {
        match fault {
            FileFault::Form(fault @ (FinishError::NoHeaders(_) | FinishError::NoTable(_))) => {
                let why = format!("{}: {fault}", self.path());
                Ok(self.no_image(Some(why.clone()), &|| say(&why), Status::Faults))
            }
            FileFault::Form(fault) => Err(LinkFault::Form(fault)),
            FileFault::Session(fault) => Err(session_fault(fault, &self.asked)),
            FileFault::NotMade(fault) => {
                let why = fault.to_string();
                Ok(self.no_image(Some(why.clone()), &|| say(&why), Status::Refused))
            }
        }
    }

    /// Writes the files of a good link.
    fn write_files(
        &self,
        (finished, early): (&Finished, Early),
        map: &[u8],
        verdict: &Verdict,
        client: &mut SessionClient,
    ) -> Result<(), LinkFault> {
        if !self.host.keeps_session() {
            client.ask_to_end();
        }
        for note in &finished.notes {
            say(format!("{}: {note}", self.path()));
        }
        self.write_map(map, verdict.maps.as_ref())?;
        self.write_rest(&finished.file, early).map_err(LinkFault::NotWritten)?;
        self.write_dependencies()?;
        self.print_tables(map);
        Ok(())
    }

    /// Prints the outcome of the comparison with GNU ld's image.
    fn say_verdict(&self, verdict: &Verdict) {
        self.report();
        verdict.lines.iter().for_each(|line| eprintln!("{}", line.text));
        self.notes();
        if verdict.differs {
            say(format!("{}: {DIFFERS}", self.path()));
        }
        let prohibited = verdict.prohibited.iter().take(MAX_LINES);
        prohibited.for_each(|one| say(one.to_string()));
    }

    /// Writes what is not written yet of the image.
    fn write_rest(&self, file: &FileImage, early: Early) -> Result<(), NotWritten> {
        let write = || write_image(self.command, file, self.host);
        match early {
            Early::Nothing => write(),
            Early::Written(written, id) => {
                let amend = |(at, id): (u64, Vec<u8>)| self.host.amend(&self.command.output, at, &id);
                // One that this user may not write again, as by its mode, is written anew.
                written.and_then(|()| id.map_or(Ok(()), amend)).or_else(|_| write())
            }
        }
    }

    fn write_map(&self, map: &[u8], maps: Option<&Maps>) -> Result<(), LinkFault> {
        let path = map_path(self.command);
        let own = maps.and_then(|maps| maps.own.as_deref());
        let references = maps.map_or(&[][..], |maps| &maps.references);
        let has_map = maps::has_map(self.command);
        if has_map && !self.command.has_own_map && own.is_none() {
            say(format!("{}: the image is laid out otherwise than GNU ld's: the map is that of ldi", self.path()));
        }
        if !has_map {
            stdio::print(Stream::Output, references);
            return Ok(());
        }
        let map = own.unwrap_or(map);
        let is_printed = path.as_deref() == Some(Path::new("-"));
        if self.command.prints_map || is_printed {
            stdio::print(Stream::Output, &[map, references].concat());
        }
        match path.filter(|_| !is_printed) {
            Some(path) => self.host.write(&path, &[map, references], TEXT).map_err(LinkFault::NotWritten),
            None => Ok(()),
        }
    }

    /// The files that were read, as a rule of make.
    fn write_dependencies(&self) -> Result<(), LinkFault> {
        let path = match &self.command.dependency_file {
            Some(path) => path,
            None => return Ok(()),
        };
        let inputs = &self.plan.inputs;
        let mut names: Vec<&[u8]> = Vec::new();
        for file in inputs.scripts.files.iter().chain(&inputs.loaded.files) {
            let name = file.as_os_str().as_bytes();
            if !names.contains(&name) {
                names.push(name);
            }
        }
        let mut text = [self.command.output.as_os_str().as_bytes(), b": \\\n"].concat();
        let listed: Vec<Vec<u8>> = names.iter().map(|name| [b"  ", *name].concat()).collect();
        text.extend(listed.join(&b" \\\n"[..]));
        text.push(b'\n');
        for name in names {
            text.extend([b"\n", name, b":\n"].concat());
        }
        self.host.write(path, &[&text], TEXT).map_err(LinkFault::NotWritten)
    }

    fn print_tables(&self, map: &[u8]) {
        if self.command.collects_sections && self.command.prints_collected {
            let merges = self.plan.evaluation.as_ref().ok().map(|evaluation| &*evaluation.merges);
            tables::removed_sections(self.plan.inputs.objects(), merges, map).iter().for_each(say);
        }
        if self.command.prints_memory_usage {
            if let Ok(evaluation) = &self.plan.evaluation {
                stdio::print(Stream::Output, tables::memory_usage(evaluation).as_bytes());
            }
        }
    }
}

impl<'a> Ahead<'a> {
    fn of(
        command: &Command,
        plan: &'a LinkPlan,
        wants_maps: bool,
        strings: &mut KeptStrings,
    ) -> Result<Ahead<'a>, NotMade> {
        let beside = Beside::of(plan, strings)?;
        let maps = wants_maps.then(|| maps::of(command, plan, beside.spans.as_ref()));
        Ok(Ahead { beside, maps })
    }
}

/// Options and inputs of which something is said.
pub(crate) fn notes_of(command: &Command, plan: &LinkPlan) -> Vec<String> {
    let script = &plan.inputs.scripts.reading.script;
    let is_placed = |name: &[u8]| {
        let mut outputs = plan.evaluation.iter().flat_map(|evaluation| evaluation.in_image());
        outputs.any(|(output, _)| output.name == name)
    };
    let absent = command.section_starts.keys().filter(|name| !has_section(script, name) && !is_placed(name));
    let absent = absent.map(|section| format!("the address of {section}: the script has no such section"));
    let placed = orphans::warnings(command, plan);
    let notes = command.notes.iter().cloned().chain(absent).chain(plan.inputs.why_no_build_id());
    notes.chain(plan.eh_frame_hdr_warnings(command)).chain(placed).collect()
}

/// Why a symbol has no value, if its section is not in the image.
pub(crate) fn section_outside(plan: &LinkPlan) -> Option<String> {
    match &plan.evaluation {
        Err(Stop::Refused(refused)) => match &refused.reason {
            RefusedReason::UnresolvableSymbol(name) => {
                let why = "is not in the image, so that its value cannot be written: take it in, under KEEP where \
                           --gc-sections leaves it out";
                Some(format!("{}: the section of {name} {why}", plan.inputs.scripts.path.display()))
            }
            _ => None,
        },
        _ => None,
    }
}

/// Whether a script has an output section of a name.
fn has_section(script: &Script, name: &[u8]) -> bool {
    script.statements.iter().any(|statement| match &statement.node {
        Statement::Sections(items) => items.iter().any(|item| match &item.node {
            SectionsStatement::Output(section) => section.name.node == name,
            _ => false,
        }),
        _ => false,
    })
}

fn write_image(command: &Command, file: &FileImage, host: &dyn Host) -> Result<(), NotWritten> {
    let zeros = zeros_of(file);
    host.write(&command.output, &pieces_of(file, &zeros), PROGRAM)
}

/// The zeros of the greatest gap between two pieces.
pub(crate) fn zeros_of(file: &FileImage) -> Vec<u8> {
    vec![0; gap_most(file)]
}

/// The pieces of a file one after the other, with zeros between them.
pub(crate) fn pieces_of<'a>(file: &'a FileImage, zeros: &'a [u8]) -> Vec<&'a [u8]> {
    let mut pieces: Vec<&[u8]> = Vec::new();
    let mut end = 0;
    for (at, bytes) in file.pieces() {
        pieces.push(zeros.get(..at.saturating_sub(end) as usize).unwrap_or_default());
        pieces.push(bytes);
        end = at + bytes.len() as u64;
    }
    pieces
}

/// The greatest gap between two pieces.
fn gap_most(file: &FileImage) -> usize {
    let mut end = 0;
    let mut most = 0;
    for (at, bytes) in file.pieces() {
        most = most.max(at.saturating_sub(end));
        end = end.max(at.saturating_add(bytes.len() as u64));
    }
    usize::try_from(most).unwrap_or(0)
}

/// The file of the map: in a folder the image's name with `.map`; `%` stands for the image's path.
pub(crate) fn map_path(command: &Command) -> Option<PathBuf> {
    let path = command.map_file.as_ref()?;
    let output = command.output.as_os_str().as_bytes();
    if path.is_dir() {
        let mut name = command.output.file_name().unwrap_or_default().to_owned();
        name.push(".map");
        return Some(path.join(name));
    }
    let bytes = path.as_os_str().as_bytes();
    match bytes.find_byte(b'%') {
        None => Some(path.clone()),
        Some(at) => {
            let (front, rest) = bytes.split_at(at);
            let rest = rest.get(1..).unwrap_or_default();
            let end: &[u8] = if rest.is_empty() { b".map" } else { b"" };
            Some(PathBuf::from(OsStr::from_bytes(&[front, output, rest, end].concat())))
        }
    }
}

/// Tests that no file that was read would be written.
fn check_outputs(command: &Command, snapshot: &Snapshot) -> Result<(), LinkFault> {
    let map = map_path(command);
    let written = [Some(command.output.as_path()), map.as_deref(), command.dependency_file.as_deref()];
    for path in written.into_iter().flatten() {
        if let Some(name) = snapshot.read_as(path) {
            let name: &BStr = name.as_os_str().as_bytes().as_bstr();
            return Err(LinkFault::SameFile(name.to_string()));
        }
    }
    Ok(())
}
