//! The file of an image, with its build ID and with what is not loaded: the file is hashed, the note with the hash is
//! sent to the session, and the file is made from the image that the session then answers.

use std::ops::Range;

use crate::command::BuildId;
use crate::finish::{
    finish, finish_with, hash_of, place_of_note, put_image, tables_of, FileImage, FinishError, Finished, HashKind,
    KeptTables, LaidOut, Unloaded,
};
use crate::objects::NOTE_HEAD;
use crate::parallel;
use crate::plan::{BuildIdNote, LinkPlan};
use crate::publish::NotWritten;
use crate::session_client::{SessionClient, SessionError, SessionImage, Target};
use crate::unloaded::{self, unloaded, Arrangement, Before, KeptStrings, NotMade, Spans};

/// How far around a build ID the session may answer bytes again that are the same.
const AROUND: usize = 2 * 4096;

/// Why there is no file.
#[derive(Debug, thiserror::Error)]
pub(crate) enum FileFault {
    /// The session gave no answer.
    #[error(transparent)]
    Session(#[from] SessionError),
    /// The image has no such form.
    #[error(transparent)]
    Form(#[from] FinishError),
    /// What is not loaded cannot be made.
    #[error(transparent)]
    NotMade(#[from] NotMade),
}

/// What is not loaded of a link, in its place; empty if the file has none of it.
pub(crate) struct Beside<'a> {
    arrangement: Arrangement<'a>,
    /// Where it is; `None` if the layout is not known.
    pub(crate) spans: Option<Spans>,
}

impl<'a> Beside<'a> {
    /// That of a plan; `kept` has the strings that were merged last.
    pub(crate) fn of(plan: &'a LinkPlan, kept: &mut KeptStrings) -> Result<Beside<'a>, NotMade> {
        let (evaluation, objects) = (plan.evaluation.as_ref().ok(), plan.inputs.objects());
        let arrange = |evaluation| Arrangement::of(evaluation, objects, plan.form.strips_debugging, kept);
        let found = evaluation.filter(|_| !plan.form.is_flat).map(arrange).transpose()?;
        let spans = evaluation.zip(found.as_ref()).map(|(evaluation, found)| Spans::arranged(evaluation, found));
        Ok(Beside { arrangement: found.unwrap_or_default(), spans })
    }
}

/// A file before its build ID is in it.
pub(crate) struct WithoutBuildId {
    finished: Finished,
    /// Where its ID is, if that is to be found.
    id: Option<PlaceOfId>,
    /// What is not loaded, if the file may be made once more.
    again: Vec<Unloaded>,
}

impl WithoutBuildId {
    /// The file.
    pub(crate) fn file(&self) -> &FileImage {
        &self.finished.file
    }
}

/// Where an ID is.
struct PlaceOfId {
    in_image: Range<usize>,
    in_file: Range<u64>,
}

/// Writes a file, but for its ID.
pub(crate) type WriteEarly<'a> = &'a (dyn Fn(&FileImage) -> Result<(), NotWritten> + Sync);

/// What of a file was written while its ID was found.
pub(crate) enum Early {
    /// Nothing that counts.
    Nothing,
    /// All, but that other bytes are to be at a place.
    Written(Result<(), NotWritten>, Option<(u64, Vec<u8>)>),
}

/// The file of the image that the session has.
pub(crate) fn file_of(
    plan: &mut LinkPlan,
    image: SessionImage,
    laid_out: LaidOut<'_>,
    client: &mut SessionClient,
) -> Result<Finished, FileFault> {
    let mut kept = std::mem::take(&mut plan.kept);
    let made = Beside::of(plan, &mut kept.strings)
        .map_err(FileFault::from)
        .and_then(|beside| without_build_id(plan, image, laid_out, &beside, (&mut kept.tables, &mut *client)));
    plan.kept = kept;
    with_build_id(plan, made?, laid_out, client, None).map(|(finished, _)| finished)
}

/// The file of the image that the session has, before its build ID is in it.
pub(crate) fn without_build_id(
    plan: &LinkPlan,
    image: SessionImage,
    laid_out: LaidOut<'_>,
    beside: &Beside<'_>,
    (tables, client): (&mut KeptTables, &mut SessionClient),
) -> Result<WithoutBuildId, FileFault> {
    let note = plan.inputs.build_id_note();
    let place = note.and_then(|note| place_of(plan, note, &image)).map(|place| place + NOTE_HEAD);
    let symbols = plan.symbols(laid_out, beside.spans.as_ref());
    let (before, outlines) = (tables.before(&image, plan.inputs.objects()), beside.arrangement.outlines());
    let (unloaded, made) = parallel::beside(
        || unloaded_of(plan, &image, laid_out, beside, before, client),
        || tables_of(&image, &plan.form, symbols.as_ref(), &outlines, tables),
    );
    let unloaded = unloaded.unwrap_or_else(|| unloaded_of(plan, &image, laid_out, beside, None, client))?;
    let made = made?;
    tables.hold(&image, &unloaded, plan.inputs.objects());
    let has_hash = note.map_or(false, |note| note.style().is_found());
    let again = if has_hash { unloaded.clone() } else { Vec::new() };
    let finished = finish_with(image, &plan.form, made, unloaded)?;
    let id = note.filter(|_| has_hash).zip(place).and_then(|(note, start)| {
        let (size, place) = (note.id().len(), finished.file.place_of(start)?);
        Some(PlaceOfId { in_image: start..start + size, in_file: place..place + size as u64 })
    });
    Ok(WithoutBuildId { finished, id, again })
}

/// A file with its build ID. While that is found, `write` writes the file.
pub(crate) fn with_build_id(
    plan: &mut LinkPlan,
    made: WithoutBuildId,
    laid_out: LaidOut<'_>,
    client: &mut SessionClient,
    write: Option<WriteEarly<'_>>,
) -> Result<(Finished, Early), FileFault> {
    let WithoutBuildId { mut finished, id, again } = made;
    let place = match id {
        Some(place) => place,
        None => return Ok((finished, Early::Nothing)),
    };
    let file = &finished.file;
    let mut find = || link_with_id(plan, file, place.in_file.clone(), client);
    let (written, found) = match write {
        Some(write) => parallel::beside(|| write(file), find),
        None => (None, find()),
    };
    let early = |id| written.map_or(Early::Nothing, |written| Early::Written(written, id));
    let id = match found? {
        Some(id) => id,
        None => return Ok((finished, early(None))),
    };
    match with_id(plan, &mut finished.file, place.in_image, client)? {
        Some(image) => {
            let again = finish(image, &plan.form, plan.symbols(laid_out, None).as_ref(), again)?;
            Ok((again, Early::Nothing))
        }
        None => Ok((finished, early(Some((place.in_file.start, id))))),
    }
}

/// Finds the ID of a file, and has the session link with it; `None` if the note has it already.
fn link_with_id(
    plan: &mut LinkPlan,
    file: &FileImage,
    place: Range<u64>,
    client: &mut SessionClient,
) -> Result<Option<Vec<u8>>, SessionError> {
    let note = plan.inputs.build_id_note();
    let found = note.and_then(|note| id_of(note.style(), file, place).filter(|id| note.id() != id.as_slice()));
    if let Some(id) = &found {
        plan.set_id(id.clone());
        let wanted = Target { options: &plan.options, objects: plan.held(), script: &plan.adapted.text };
        let brought = client.sync(wanted)?;
        if !brought.is_good || !brought.refused.is_empty() {
            return Err(SessionError::NoAnswer("the note of the build ID was not taken".to_owned()));
        }
    }
    Ok(found)
}

/// Gives a file the image of the session's link with the ID, which stands at a place of it; if that image differs from
/// the one before in more, it is given, and the file is to be made anew.
fn with_id(
    plan: &mut LinkPlan,
    file: &mut FileImage,
    id: Range<usize>,
    client: &mut SessionClient,
) -> Result<Option<SessionImage>, FileFault> {
    let mut image = file.take_image();
    image.uncover();
    let length = image.len();
    let around = id.start.saturating_sub(AROUND)..id.end.saturating_add(AROUND).min(length);
    let before = image.get(around.clone()).unwrap_or_default().to_vec();
    client.reuse(image);
    let image = client.image()?;
    let is_around = |range: &Range<usize>| around.start <= range.start && range.end <= around.end;
    let is_near = image.len() == length && image.changed().map_or(false, |ranges| ranges.iter().all(is_around));
    let now = image.get(around.clone()).unwrap_or_default();
    let mut places = around.clone().zip(before.iter().zip(now));
    let is_same = before.len() == now.len() && places.all(|(at, (old, new))| id.contains(&at) || old == new);
    if is_near && is_same {
        plan.kept.tables.follow(&image);
        put_image(file, &plan.form, image)?;
        return Ok(None);
    }
    Ok(Some(image))
}

/// What is in the file and not loaded.
fn unloaded_of(
    plan: &LinkPlan,
    image: &SessionImage,
    laid_out: LaidOut<'_>,
    beside: &Beside<'_>,
    before: Option<Before>,
    client: &mut SessionClient,
) -> Result<Vec<Unloaded>, FileFault> {
    match &plan.evaluation {
        Ok(evaluation) if !plan.form.is_flat => {
            let objects = plan.inputs.objects();
            let link = unloaded::Link { evaluation, objects, laid_out, names: plan.linked_names() };
            unloaded(link, &beside.arrangement, image, before, || client.map().map_err(FileFault::from))
        }
        _ => Ok(Vec::new()),
    }
}

/// Where the note is in the image.
fn place_of(plan: &LinkPlan, identity: &BuildIdNote, image: &[u8]) -> Option<usize> {
    let (object, number) = identity.place();
    let address = plan.evaluation.as_ref().ok().and_then(|evaluation| {
        let mut sections = evaluation.sections.iter();
        let section = sections.find(|one| one.object == object && one.number() == Some(number))?;
        evaluation.section_address(section)
    });
    place_of_note(image, &identity.note(), address)
}

/// The ID of a file, whose ID so far is at a stretch; `None` if it is a number that is given.
fn id_of(style: &BuildId, file: &FileImage, stretch: Range<u64>) -> Option<Vec<u8>> {
    match style {
        BuildId::Sha1 => Some(hash_of(file, HashKind::Sha1, stretch)),
        BuildId::Md5 => Some(hash_of(file, HashKind::Md5, stretch)),
        BuildId::Uuid => {
            let mut random = vec![0; style.size()];
            getrandom::getrandom(&mut random).ok().map(|()| random)
        }
        BuildId::Bytes(_) => None,
    }
}
