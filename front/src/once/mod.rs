//! `ld.ldi`: one link by GNU ld's command line.

mod ask;
mod build_id;
mod builds;
mod fallback;
mod fatal;
mod host;
mod link;
mod maps;
pub(crate) mod messages;
mod orphans;
mod reasons_for_gnu_ld;
mod tables;
pub(crate) mod verdict;

use std::ffi::OsString;
use std::os::unix::ffi::OsStrExt;

use bstr::BString;

use crate::command::{expand_words, read_command, Ask, Command, WordsRefused};
use crate::inputs::InputFault;
use crate::plan::{find_program, Environment, PlanFault, Scripts, ScriptsFault};
use crate::session_client::SessionClient;
use crate::snapshot::Snapshot;
pub(crate) use build_id::{file_of, FileFault};
pub(crate) use fallback::{HandedOver, Reasons};
use host::Alone;
pub(crate) use host::{Asked, Host};
use link::plan_link;
pub(crate) use link::{make, notes_of, pieces_of, plan_while_sending, section_outside, zeros_of, Planned, DIFFERS};
pub use link::{LinkFault, Status};

/// Prints a line on standard error, after the program's name.
pub(crate) fn say(text: impl AsRef<str>) {
    eprintln!("ld.ldi: {}", text.as_ref());
}

/// The program `ld.ldi`; gives its exit status.
pub fn main(words: &[OsString]) -> u8 {
    let environment: Environment = std::env::vars_os().collect();
    crate::server::call(words, &environment, |words| by_itself(words, &environment))
}

/// Links without a server.
fn by_itself(words: &[OsString], environment: &Environment) -> u8 {
    let mut client = SessionClient::new(find_program("ldi", environment), None);
    let asked = Asked { words, environment, is_verbose: false };
    let mut snapshot = Snapshot::new();
    let Done(status, planned) = report_end(run(asked, &mut snapshot, &mut client, &Alone));
    // The process ends, by which its memory is given back at once.
    std::mem::forget((planned, snapshot));
    status as u8
}

/// Says why a link ended, if it did; gives its status, and the plan that it went by.
pub(crate) fn report_end(done: Result<Done, LinkFault>) -> Done {
    match done {
        Ok(done) => done,
        Err(fault) => {
            match &fault {
                LinkFault::Plan(PlanFault::Script(ScriptsFault::NoScript(error))) => messages::say_no_script(error),
                _ => say(fault.to_string()),
            }
            Done(fault.status(), None)
        }
    }
}

/// The outcome of a link.
#[derive(Debug)]
pub(crate) struct Done(pub(crate) Status, pub(crate) Option<Planned>);

impl From<Status> for Done {
    fn from(status: Status) -> Done {
        Done(status, None)
    }
}

/// The words with those of response files, and what they ask for.
pub(crate) fn read_words(words: &[OsString]) -> (Vec<BString>, Result<Command, WordsRefused>) {
    let own: Vec<BString> = words.iter().map(|word| BString::from(word.as_bytes())).collect();
    let expanded = expand_words(&own).words;
    let read = read_command(&expanded);
    (expanded, read)
}

/// Does what the words ask for.
pub(crate) fn run(
    asked: Asked<'_>,
    snapshot: &mut Snapshot,
    client: &mut SessionClient,
    host: &dyn Host,
) -> Result<Done, LinkFault> {
    let (expanded, read) = read_words(asked.words);
    // Of words that are no command line these two options are looked for as they are written.
    let has = |name: &str| expanded.iter().any(|word| word == name);
    let is_forbidden = read.as_ref().map_or_else(|_| has("--no-fallback"), |command| command.is_without_fallback);
    let is_verbose = read.as_ref().map_or_else(|_| has("--verbose"), |command| command.is_verbose);
    let mut environment = asked.environment.clone();
    if is_forbidden {
        fallback::forbid(&mut environment);
    }
    let asked = Asked { environment: &environment, is_verbose, ..asked };
    let command = match read {
        Ok(command) => command,
        Err(fault) => return Ok(host.hand_over(&Reasons::of(vec![fault.to_string()]), &asked).into()),
    };
    match run_command(command, asked, snapshot, client, host) {
        Err(LinkFault::Plan(PlanFault::Input(InputFault::OfOtherLinkers(text)))) => {
            Ok(host.hand_over(&Reasons::of(vec![text]), &asked).into())
        }
        done => done,
    }
}

/// Does what a command asks for.
fn run_command(
    command: Command,
    asked: Asked<'_>,
    snapshot: &mut Snapshot,
    client: &mut SessionClient,
    host: &dyn Host,
) -> Result<Done, LinkFault> {
    let environment = asked.environment;
    let is_asked = !command.asks.is_empty() || command.is_verbose;
    let names_script = !command.scripts.is_empty() || command.default_script.is_some();
    if !command.has_inputs() && !names_script {
        if !is_asked {
            say("no input files");
            return Ok(Status::Refused.into());
        }
        let scripts = Scripts::read(&command, environment, snapshot)?;
        ask::print(&command, Some(&scripts), environment);
        return Ok(Status::Good.into());
    }
    if command.asks.contains(&Ask::Help) {
        ask::print(&command, None, environment);
        return Ok(Status::Good.into());
    }
    if !command.impossible.is_empty() {
        return Ok(host.hand_over(&Reasons::of(command.impossible.clone()), &asked).into());
    }
    let scripts = Scripts::read(&command, environment, snapshot)?;
    if !crate::inputs::has_inputs(&command, &scripts.parts) {
        if is_asked {
            ask::print(&command, Some(&scripts), environment);
            return Ok(Status::Good.into());
        }
        say("no input files");
        return Ok(Status::Refused.into());
    }
    ask::print(&command, Some(&scripts), environment);
    let mut planned = plan_link(command, scripts, snapshot, client, &asked)?;
    let status = make(&mut planned, client, asked, host)?;
    Ok(Done(status, Some(planned)))
}

impl From<ScriptsFault> for LinkFault {
    fn from(fault: ScriptsFault) -> LinkFault {
        LinkFault::Plan(PlanFault::Script(fault))
    }
}
