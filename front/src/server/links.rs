//! The links of a server: inputs that have not changed are not read again, and the session gets those that have.
//!
//! A call tests all inputs. If only objects changed, the plan of the last link is repeated with them; else the link is
//! planned from the command line. Output is released to the call only if no input changed meanwhile.

use std::ffi::{OsStr, OsString};
use std::fs;
use std::os::unix::ffi::OsStrExt;
use std::path::{Path, PathBuf};
use std::sync::atomic::AtomicU32;
use std::sync::Arc;

use super::call::{hand_over_message, Answer};
use super::host::{Found, NewFiles, ServerHost};
use super::wire::{Kind, Message};
use crate::command::{split_words, Command};
use crate::once::{make, read_words, report_end, run, Asked, Done, LinkFault, Planned, Status};
use crate::plan::{find_program, others, Environment};
use crate::report::Style;
use crate::session_client::SessionClient;
use crate::snapshot::{is_by_process, stat, Snapshot, Stamp};
use crate::stdio;
use crate::stdio::Printed;

/// How often a call begins anew as inputs change meanwhile.
const TRIES: usize = 4;
/// The depth to which response files that name other ones are looked at.
const MAX_DEPTH: usize = 100;

/// What a call asks for.
#[derive(Clone, PartialEq, Eq, Debug)]
pub(super) struct LinkRequest {
    /// The words.
    pub(super) words: Vec<OsString>,
    /// The umask.
    pub(super) mask: u32,
    /// How messages are shown.
    pub(super) style: Style,
}

/// The outcome of a call.
#[derive(Debug)]
pub(super) struct Outcome {
    /// The answer that is sent to the call.
    pub(super) message: Message,
    /// Whether a link was made.
    pub(super) is_made: bool,
}

impl Outcome {
    fn declined(why: impl AsRef<str>) -> Outcome {
        Outcome { message: Message::of(Kind::Refused).with(why.as_ref()), is_made: false }
    }
}

/// A link as it was made last.
#[derive(Debug)]
struct Kept {
    words: Vec<OsString>,
    /// What the words ask for.
    command: Command,
    planned: Planned,
    default_script: Option<(PathBuf, Option<Stamp>)>,
}

/// The link of an output.
#[derive(Debug)]
pub(super) struct Links {
    environment: Environment,
    client: SessionClient,
    snapshot: Snapshot,
    kept: Option<Kept>,
    files: NewFiles,
}

impl Links {
    /// The links of an output of which nothing was linked yet.
    pub(super) fn new(environment: Environment) -> Links {
        let client = SessionClient::new(find_program("ldi", &environment), None);
        Links { environment, client, snapshot: Snapshot::shared(), kept: None, files: NewFiles::default() }
    }

    /// The new files of the link that was made last.
    pub(super) fn files(&self) -> NewFiles {
        self.files.clone()
    }

    /// The number of the session's process.
    pub(super) fn session(&self) -> Arc<AtomicU32> {
        self.client.process()
    }

    /// Makes the link that a call wishes.
    pub(super) fn make(&mut self, request: &LinkRequest) -> Outcome {
        nix::sys::stat::umask(nix::sys::stat::Mode::from_bits_truncate(request.mask));
        if !are_lasting_words(&request.words) {
            return Outcome::declined("only the call itself can read a response file");
        }
        let mut has_ended = false;
        for _ in 0..TRIES {
            let host = ServerHost::new(self.files());
            let (done, texts) = stdio::keep(request.style, || {
                let done = self.make_once(request, &host);
                let is_first_end = matches!(done, Err(LinkFault::Session { .. })) && !has_ended;
                (!is_first_end).then(|| report_end(done))
            });
            let found = host.found();
            let outcome = match done {
                Some(done) => self.outcome(done, found, texts, request),
                None => {
                    has_ended = true; // a session that has ended is started again once
                    None
                }
            };
            if let Some(outcome) = outcome {
                return outcome;
            }
            self.files.remove();
        }
        Outcome::declined("inputs change all the time")
    }

    /// The outcome of a link; `None` if inputs changed meanwhile.
    fn outcome(&mut self, done: Done, found: Found, texts: Vec<Printed>, request: &LinkRequest) -> Option<Outcome> {
        let Done(status, planned) = done;
        let why_not_ours = self.why_not_ours(status, &found);
        let is_same = self.is_unchanged(request);
        if is_same && why_not_ours.is_none() {
            if let Some(handed_over) = &found.handed_over {
                let message = hand_over_message(&texts, handed_over);
                return Some(Outcome { message, is_made: false });
            }
        }
        self.keep(planned, request);
        if is_same && why_not_ours.is_none() {
            // A file that was written before the link had a fault stays beside its place.
            let places = if status == Status::Good { self.files.places() } else { Vec::new() };
            let answer = Answer { status: status as u8, places, texts };
            return Some(Outcome { message: answer.message(), is_made: true });
        }
        why_not_ours.map(Outcome::declined)
    }

    /// Why the server cannot make a link.
    fn why_not_ours(&self, status: Status, found: &Found) -> Option<String> {
        if let Some(path) = self.snapshot.refused() {
            return Some(format!("{}: only the call itself can read it", path.display()));
        }
        let is_good = matches!(status, Status::Good | Status::Faults) || found.handed_over.is_some();
        found.why_not_ours.clone().or_else(|| (!is_good).then(|| format!("status {}", status as u8)))
    }

    /// Whether all is still what was read.
    fn is_unchanged(&mut self, request: &LinkRequest) -> bool {
        let words = || match &self.kept {
            Some(kept) if has_files(&request.words) => read_words(&request.words).1.as_ref() == Ok(&kept.command),
            _ => true,
        };
        words() && self.snapshot.is_provable() && self.snapshot.changed().is_empty()
    }

    fn keep(&mut self, planned: Option<Planned>, request: &LinkRequest) {
        if let (Some(planned), Ok(command)) = (planned, read_words(&request.words).1) {
            let default_script = self.default_script(&planned);
            self.kept = Some(Kept { words: request.words.clone(), command, planned, default_script });
        }
    }

    /// Makes a link, with the plan of the last one if that still holds.
    fn make_once(&mut self, request: &LinkRequest, host: &ServerHost) -> Result<Done, LinkFault> {
        let planned = match self.kept.take() {
            Some(kept) if self.is_same(&kept, request) => self.plan_again(kept.planned),
            _ => None,
        };
        let environment = self.environment.clone();
        let asked = Asked { words: &request.words, environment: &environment, is_verbose: false };
        match planned {
            Some(mut planned) => {
                let asked = Asked { is_verbose: planned.command.is_verbose, ..asked };
                let status = make(&mut planned, &mut self.client, asked, host);
                Ok(Done(status?, Some(planned)))
            }
            None => {
                self.snapshot = std::mem::take(&mut self.snapshot).next();
                run(asked, &mut self.snapshot, &mut self.client, host)
            }
        }
    }

    /// Whether the words ask for what they did: a compiler's have names of files of its own, which differ each time.
    fn is_same(&self, kept: &Kept, request: &LinkRequest) -> bool {
        let is_same_command = || {
            let is_same = request.words == kept.words && !has_files(&request.words);
            is_same || read_words(&request.words).1.as_ref() == Ok(&kept.command)
        };
        let says_more = kept.command.traces || kept.command.is_verbose || !kept.command.asks.is_empty();
        !says_more
            && !kept.command.is_without_fallback
            && is_same_command()
            && kept.default_script == self.default_script(&kept.planned)
    }

    /// The plan of the link before with the objects as they are now; `None` if all is to be planned anew.
    fn plan_again(&mut self, planned: Planned) -> Option<Planned> {
        let changes = self.snapshot.changed();
        if changes.has_other_inputs {
            return None;
        }
        let changed = self.read_again(changes.files)?;
        let Planned { command, mut plan, verdict } = planned;
        let changed = plan.take_lists(&self.snapshot, &changed);
        if changed.is_empty() || plan.take_alike(&self.snapshot, &changed) {
            return Some(Planned { command, plan, verdict });
        }
        let plan = plan.replan(&command, &mut self.snapshot, &changed)?;
        Some(Planned { command, plan, verdict: None })
    }

    /// Reads files again; gives those that have other bytes, or `None` if one cannot be read.
    fn read_again(&mut self, files: Vec<PathBuf>) -> Option<Vec<PathBuf>> {
        let mut changed = Vec::new();
        for path in files {
            let old = self.snapshot.seen(&path)?.data.clone();
            if !self.snapshot.read(&path).ok()?.is_identical(&old) {
                changed.push(path);
            }
        }
        Some(changed)
    }

    /// The linker that the default script is asked of, with its stamp; `None` if the link has a script of its own.
    fn default_script(&self, planned: &Planned) -> Option<(PathBuf, Option<Stamp>)> {
        if planned.plan.inputs.scripts.is_own {
            return None;
        }
        let path = others(OsStr::new("ld.bfd"), &self.environment).into_iter().next()?;
        let stamp = stat(&path).ok().map(|found| Stamp::of(&found));
        Some((path, stamp))
    }
}

/// Whether some words are those of response files.
fn has_files(words: &[OsString]) -> bool {
    words.iter().any(|word| word.as_bytes().starts_with(b"@"))
}

/// Whether each response file is a regular one that is the same to each process.
pub(crate) fn are_lasting_words(words: &[OsString]) -> bool {
    words.iter().all(|word| is_lasting(word.as_bytes(), MAX_DEPTH))
}

fn is_lasting(word: &[u8], depth: usize) -> bool {
    let path = match word.strip_prefix(b"@").filter(|_| depth > 0) {
        Some(name) => Path::new(OsStr::from_bytes(name)),
        None => return true,
    };
    if is_by_process(path) {
        return false;
    }
    match fs::metadata(path) {
        Ok(found) if found.is_file() => {
            let text = fs::read(path).unwrap_or_default();
            split_words(&text).iter().all(|word| is_lasting(word, depth - 1))
        }
        Ok(found) => found.is_dir(),
        Err(_) => true,
    }
}

#[cfg(test)]
mod tests {
    use super::*;
    use crate::objects::tests::{code, object, WrittenSection};
    use crate::plan::tests::thin;
    use crate::publish::PROGRAM;
    use crate::server::wire::Reader;
    use std::os::unix::fs::PermissionsExt;

    /// A session that notes the words of its edits and links, and has a fault.
    const SESSION: &str = r#"#!/bin/sh
while read word name first second; do
    case $word in
        add) head -c "$second" > /dev/null ;;
        replace) head -c "$first" > /dev/null ;;
        script) head -c "$name" > /dev/null ;;
        faults) text='F12 a.o .text 0000000000000001 nowhere'; printf 'bytes %d\n%s' ${#text} "$text"; continue ;;
    esac
    echo "$word" >> LOG
    case $word in
        link) echo 'linked 1 0' ;;
        *) echo accepted ;;
    esac
done
"#;
    const SCRIPT: &str = "ENTRY(a) SECTIONS { . = 0x1000; .text : { *(.text) } }\n";

    /// A folder with a link of two objects, and its server's links; removed after the test.
    struct Project {
        folder: PathBuf,
        links: Links,
        request: LinkRequest,
    }

    impl Project {
        fn new(name: &str, files: &[&str]) -> Project {
            let folder = std::env::temp_dir().join(format!("ldi-front-links-{}-{name}", std::process::id()));
            fs::create_dir_all(&folder).unwrap();
            let path = |name: &str| folder.join(name);
            fs::write(path("ldi"), SESSION.replace("LOG", &path("log").display().to_string())).unwrap();
            fs::set_permissions(path("ldi"), fs::Permissions::from_mode(PROGRAM.bits())).unwrap();
            fs::write(path("t.ld"), SCRIPT).unwrap();
            fs::write(path("a.o"), code(&[("a", 1, 1, 0, 0)])).unwrap();
            fs::write(path("b.o"), code(&[("b", 1, 1, 0, 0)])).unwrap();
            let environment: Environment = std::env::vars_os()
                .filter(|(name, _)| name == "PATH")
                .chain([("LDI".into(), path("ldi").into()), ("LDI_FALLBACK".into(), "none".into())])
                .collect();
            let files = files.iter().map(|name| path(name).into());
            let words = ["-T".into(), path("t.ld").into(), "-o".into(), path("image").into()];
            let words: Vec<OsString> = words.into_iter().chain(files).collect();
            Project {
                links: Links::new(environment),
                request: LinkRequest { words, mask: 0o22, style: Style::Line },
                folder,
            }
        }

        fn write(&self, name: &str, data: impl AsRef<[u8]>) {
            fs::write(self.folder.join(name), data).unwrap();
        }

        /// Makes the link; gives the edits that the session got for it, and `link` if it was to link.
        fn edits(&mut self) -> Vec<String> {
            let log = self.folder.join("log");
            fs::write(&log, "").unwrap();
            let outcome = self.links.make(&self.request);
            assert!(outcome.is_made, "{:?}", outcome.message);
            assert_eq!((outcome.message.kind, self.links.files.places().len()), (Kind::Done, 0));
            assert_eq!(Reader::of(outcome.message).number(), Some(Status::Faults as u8));
            fs::read_to_string(log).unwrap().lines().map(str::to_owned).collect()
        }
    }

    impl Drop for Project {
        fn drop(&mut self) {
            fs::remove_dir_all(&self.folder).unwrap();
        }
    }

    fn with_code(bytes: &[u8]) -> Vec<u8> {
        object(&[WrittenSection { name: ".text", kind: 1, flags: 6, data: bytes }], &[("b", 1, 1, 0, 0)], &[])
    }

    #[test]
    fn a_call_sends_what_has_changed() {
        let mut project = Project::new("changed", &["a.o", "b.o"]);
        assert_eq!(project.edits(), ["add", "add", "script", "link"]);
        assert!(project.edits().is_empty(), "nothing has changed");
        project.write("b.o", with_code(b"\xcc\xc3"));
        assert_eq!(project.edits(), ["replace", "link"], "other bytes");
        project.write("b.o", with_code(b"\xcc\xc3"));
        assert!(project.edits().is_empty(), "the same bytes, written anew");
        project.write("b.o", with_code(b"\xcc\x90\xc3"));
        assert_eq!(project.edits(), ["replace", "link"], "another size");
        project.write("t.ld", SCRIPT.replace("0x1000", "0x2000"));
        assert_eq!(project.edits(), ["script", "link"], "another script");
        project.write("t.ld", SCRIPT);
        project.write("a.o", code(&[("a", 1, 1, 1, 0)]));
        assert_eq!(project.edits(), ["replace", "script", "link"], "both");
    }

    #[test]
    fn other_words_are_another_link_of_the_session() {
        let mut project = Project::new("words", &["a.o", "b.o"]);
        project.edits();
        project.request.words.pop();
        assert_eq!(project.edits(), ["remove", "link"]);
        let first = project.request.words.len() - 1;
        project.request.words.insert(first, project.folder.join("b.o").into());
        assert_eq!(project.edits(), ["add", "link"]);
    }

    #[test]
    fn a_thin_archive_that_lists_the_same_members_is_the_same_input() {
        let mut project = Project::new("lists", &["a.o"]);
        let words = ["--whole-archive".into(), project.folder.join("x.a").into()];
        project.request.words.extend(words);
        project.write("x.a", thin(&[("b.o", 100)]));
        assert_eq!(project.edits(), ["add", "add", "script", "link"]);
        project.write("b.o", with_code(b"\xcc\x90\xc3"));
        project.write("x.a", thin(&[("b.o", 101)]));
        assert_eq!(project.edits(), ["replace", "link"]);
        project.write("c.o", code(&[("c", 1, 1, 0, 0)]));
        project.write("x.a", thin(&[("b.o", 101), ("c.o", 102)]));
        assert_eq!(project.edits(), ["add", "link"]);
        project.write("x.a", thin(&[("c.o", 102)]));
        assert_eq!(project.edits(), ["remove", "link"]);
    }

    #[test]
    fn an_input_that_is_gone_is_declined_and_taken_when_it_is_back() {
        let mut project = Project::new("gone", &["a.o", "b.o"]);
        project.edits();
        let data = fs::read(project.folder.join("b.o")).unwrap();
        fs::remove_file(project.folder.join("b.o")).unwrap();
        let outcome = project.links.make(&project.request);
        assert_eq!((outcome.message.kind, outcome.is_made), (Kind::Refused, false));
        project.write("b.o", data);
        assert!(project.edits().is_empty());
    }

    #[test]
    fn a_session_that_was_killed_is_started_again() {
        let mut project = Project::new("killed", &["a.o", "b.o"]);
        project.edits();
        project.links.client.ask_to_end();
        project.write("b.o", with_code(b"\xcc\xc3"));
        assert_eq!(project.edits(), ["add", "add", "script", "link"]);
    }

    #[test]
    fn response_files_are_regular_ones() {
        let project = Project::new("words-of-files", &[]);
        project.write("list", format!("a.o @{}", project.folder.join("more").display()));
        project.write("more", "b.o @/dev/stdin");
        let file = |name: &str| [OsString::from(format!("@{}", project.folder.join(name).display()))];
        assert!(!are_lasting_words(&file("list")));
        project.write("more", "b.o @nothing");
        assert!(are_lasting_words(&file("list")));
        assert!(!are_lasting_words(&["@/dev/null".into()]));
        assert!(are_lasting_words(&["a.o".into(), "@nothing".into()]));
    }
}
