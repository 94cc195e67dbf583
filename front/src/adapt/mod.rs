//! `ldi-adapt`: rewrites a script of GNU ld's language into the profile.

mod arguments;
pub(crate) mod invented;
mod refusal;
mod writing;

use std::ffi::OsString;
use std::io::Write;
use std::path::{Path, PathBuf};

use crate::adapted::{AdaptedScript, NoteKind};
use crate::checker::check;
use crate::layout::{Evaluation, Stop};
use crate::objects::{Object, Origin};
use crate::plan::{find_program, own_version, Environment};
use crate::publish::{write_file, Reader as PipeReader, TEXT};
use crate::report::link_map::LinkMap;
use crate::report::os_message;
use crate::script::{Disk, Reader, Reading, ScriptError};
use crate::session_client::{Options, SessionClient, SessionObject, Target};
use crate::snapshot::Bytes;
use arguments::{AdaptArguments, USAGE};

/// The statuses of the program (docs/scripts.md, 'Rewriting scripts of GNU ld').
#[derive(Clone, Copy, PartialEq, Eq, PartialOrd, Ord, Debug)]
enum Status {
    /// Nothing is left or changed.
    Good = 0,
    /// Something is changed.
    Changed = 1,
    /// Something is left, or nothing is written.
    Left = 2,
}

/// Why no script is written.
#[derive(Debug, thiserror::Error)]
enum AdaptFault {
    /// The words are refused.
    #[error("ldi-adapt: {0}\n{USAGE}")]
    Words(#[from] arguments::WordsRefused),
    /// The script is none.
    #[error("{0}")]
    Script(#[from] ScriptError),
    /// A file cannot be read or written.
    #[error("ldi-adapt: {0}: {1}")]
    File(String, String),
    /// A file is no object.
    #[error("ldi-adapt: {0}: no object of ELF-64; of an archive, give the members")]
    NoObject(String),
}

/// The program `ldi-adapt`; gives its exit status.
pub fn main(words: &[OsString]) -> u8 {
    let environment: Environment = std::env::vars_os().collect();
    if words.iter().any(|word| word == "-h" || word == "--help") {
        print!("{USAGE}");
        return Status::Good as u8;
    }
    if words == ["--version"] {
        println!("ldi-adapt {}", own_version(&environment));
        return Status::Good as u8;
    }
    match run(words, &environment) {
        Ok(status) => status as u8,
        Err(fault) => {
            eprint!("{fault}{}", if matches!(fault, AdaptFault::Words(_)) { "" } else { "\n" });
            Status::Left as u8
        }
    }
}

fn file_fault(path: &Path, error: &std::io::Error) -> AdaptFault {
    AdaptFault::File(path.display().to_string(), os_message(error))
}

fn run(words: &[OsString], environment: &Environment) -> Result<Status, AdaptFault> {
    let call = AdaptArguments::read(words)?;
    let objects = call.objects.as_ref().map(|paths| read_objects(paths)).transpose()?;
    let text = std::fs::read(&call.script).map_err(|error| file_fault(&call.script, &error))?;
    if call.is_check {
        let refused = refusal::of_given(&call, &text, environment);
        refused.iter().for_each(|line| eprintln!("{line}"));
        if !refused.is_empty() {
            return Ok(Status::Left);
        }
    }
    let reading = match read_script(&call, text) {
        Err(AdaptFault::Script(error)) if call.is_check => {
            eprintln!("{}: changed: ldi takes it, and GNU ld refuses it: {}", error.place(), error.kind());
            return Ok(Status::Changed);
        }
        read => read?,
    };
    let (result, evaluation) = writing::adapted(&reading, objects.as_deref());
    for note in &result.notes {
        eprintln!("{note}");
    }
    let mut status = status_of(&result);
    if let (Some(objects), true) = (&objects, status < Status::Left) {
        let lines = differences(&reading, objects, &result, evaluation, environment);
        lines.iter().for_each(|line| eprintln!("{line}"));
        status = if lines.is_empty() { status } else { status.max(Status::Changed) };
    }
    let refused = if status < Status::Left { refusal::lines(&call.script, &result, environment) } else { Vec::new() };
    for line in refused {
        eprintln!("{line}: left: the adapted script is refused there");
        status = Status::Left;
    }
    match &call.out {
        _ if call.is_check => {}
        Some(path) => write_file(path, &[&result.text], TEXT, PipeReader::IsWaitedFor)
            .map_err(|fault| AdaptFault::File(path.display().to_string(), os_message(&fault.fault)))?,
        None => std::io::stdout()
            .write_all(&result.text)
            .and_then(|()| std::io::stdout().flush())
            .map_err(|error| file_fault(Path::new("standard output"), &error))?,
    }
    Ok(status)
}

/// The status by what became of the constructs.
fn status_of(result: &AdaptedScript) -> Status {
    let statuses = result.notes.iter().map(|note| match note.kind {
        NoteKind::Left => Status::Left,
        NoteKind::Changed => Status::Changed,
        NoteKind::Dropped | NoteKind::Rewritten => Status::Good,
    });
    statuses.max().unwrap_or(Status::Good)
}

fn read_objects(paths: &[PathBuf]) -> Result<Vec<Object>, AdaptFault> {
    paths
        .iter()
        .map(|path| {
            let data = std::fs::read(path).map_err(|error| file_fault(path, &error))?;
            if !data.starts_with(b"\x7fELF\x02") {
                return Err(AdaptFault::NoObject(path.display().to_string()));
            }
            let origin = Origin::of_file(path);
            Ok(Object::new(origin.name.clone(), origin, Bytes::from(data)))
        })
        .collect()
}

/// Reads the script with what it includes, after the assignments of `--defsym`.
fn read_script(call: &AdaptArguments, text: Vec<u8>) -> Result<Reading, AdaptFault> {
    let mut files = Disk;
    let mut reader = Reader::new(&mut files, call.all_folders());
    for defsym in &call.defsyms {
        reader.defsym(defsym)?;
    }
    reader.text(&call.script, text)?;
    Ok(reader.finish())
}

/// What is another in the image of the objects than GNU ld makes, if `ldi` can be had and links them.
fn differences(
    reading: &Reading,
    objects: &[Object],
    result: &AdaptedScript,
    evaluation: Option<Result<Evaluation, Stop>>,
    environment: &Environment,
) -> Vec<String> {
    let at = |span: Option<crate::script::tree::Span>| reading.source.place(span.map_or(0, |span| span.start));
    let evaluation = match evaluation {
        Some(Ok(evaluation)) => evaluation,
        Some(Err(stop)) => {
            let why = "it is not known whether GNU ld makes the same of it";
            return vec![format!("{}: changed: {why}: {stop}", at(stop.span()))];
        }
        None => return Vec::new(),
    };
    let held: Vec<SessionObject> = objects
        .iter()
        .map(|object| SessionObject { name: object.name().to_owned(), data: object.data().clone() })
        .collect();
    let mut client = SessionClient::new(find_program("ldi", environment), None);
    let options = Options::default();
    let linked = client.sync(Target { options: &options, objects: &held, script: &result.text });
    if !linked.map_or(false, |linked| linked.is_good) {
        return Vec::new();
    }
    let (image, map) = match (client.image(), client.map()) {
        (Ok(image), Ok(map)) => (image, map),
        _ => return Vec::new(),
    };
    let checked = match check(&evaluation, objects, &image, LinkMap::read(&map).ok().as_ref()) {
        Ok(checked) => checked,
        Err(_) => return Vec::new(),
    };
    let of_places = checked.differences.iter().map(|one| format!("{}: changed: {one}", at(one.span)));
    of_places.chain(checked.merged.iter().map(|one| format!("{}: changed: {one}", at(one.span)))).collect()
}
