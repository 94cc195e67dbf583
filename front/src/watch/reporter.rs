//! What people and editors see: one state at a time, as lines of text or as JSON, one object a line.

use std::collections::HashMap;
use std::io::{self, Write};
use std::path::{Path, PathBuf};
use std::process::ExitStatus;
use std::time::{SystemTime, UNIX_EPOCH};

use super::commands::how_ended;
use super::linking::{Refusals, Report};
use super::usage::Usage;
use crate::report::{has_colours, json_string, os_message, Diagnostic, JsonObject};

/// The messages of one state that are printed for people; JSON has all.
const MAX_LINES: usize = 20;

const GREEN: &str = "32";
const RED: &str = "31";
const YELLOW: &str = "33";

/// Standard output cannot be written.
#[derive(Debug, thiserror::Error)]
#[error("standard output: {}", os_message(.0))]
pub(super) struct NoOutput(io::Error);

/// The image is that of the inputs.
#[derive(Clone, PartialEq, Debug)]
pub(super) struct Good {
    pub(super) after: Vec<PathBuf>,
    pub(super) milliseconds: f64,
    pub(super) length: u64,
    pub(super) is_written: bool,
    pub(super) usage: Usage,
}

/// The state of a watch.
#[derive(Clone, PartialEq, Debug)]
pub(super) enum State {
    /// The image is that of the inputs.
    Good(Good),
    /// The link has faults, and after which inputs; the old image stays.
    Faulty(Vec<Diagnostic>, Vec<PathBuf>),
    /// Inputs are refused; the old image stays.
    Refused(Refusals),
    /// An input is not there yet, or something cannot be done: names, and what there is to say of each; the old image
    /// stays.
    Waiting(Vec<(String, String)>),
}

/// What was said last; of faults the messages alone.
#[derive(Clone, PartialEq, Debug)]
enum Known {
    Faults(Vec<Diagnostic>),
    Other(State),
}

/// Reports each state once.
#[derive(Debug)]
pub(super) struct Reporter {
    is_json: bool,
    is_coloured: bool,
    image: PathBuf,
    /// Since when faults stand, by what stays of their lines if code before the place grows or shrinks.
    standing: HashMap<Vec<String>, usize>,
    number: usize,
    said: Option<Known>,
    report: Option<Report>,
}

impl Reporter {
    pub(super) fn new(is_json: bool, image: &Path) -> Reporter {
        Reporter {
            is_json,
            is_coloured: !is_json && has_colours(&io::stdout()),
            image: image.to_owned(),
            standing: HashMap::new(),
            number: 0,
            said: None,
            report: None,
        }
    }

    /// Says this state, if it is not the one that was said last.
    pub(super) fn say(&mut self, state: &State) -> Result<(), NoOutput> {
        let mut state = state.clone();
        match &mut state {
            State::Faulty(messages, _) => self.sort(messages),
            State::Good(_) => self.standing.clear(),
            _ => {}
        }
        let known = match &state {
            State::Faulty(messages, _) => Known::Faults(messages.clone()),
            other => Known::Other(other.clone()),
        };
        if self.said.as_ref() == Some(&known) {
            return Ok(());
        }
        self.said = Some(known);
        match self.is_json {
            true => self.print_json(&state),
            false => self.print_text(&state),
        }
    }

    /// Says that the session was started again.
    pub(super) fn report_restart(&self, why: &str) -> Result<(), NoOutput> {
        match self.is_json {
            true => self.object("restarted", |json| json.text("why", why)),
            false => self.line(YELLOW, "session", &format!(": {why}; started again")),
        }
    }

    /// Says what was changed in a script of GNU ld, and which options have no effect, if that is new.
    pub(super) fn report_adapted(&mut self, report: Report) -> Result<(), NoOutput> {
        if report.lines.is_empty() || self.report.as_ref() == Some(&report) {
            return Ok(());
        }
        if self.is_json {
            let lines = report.lines.iter().map(|line| json_string(line));
            let script = report.script.display().to_string();
            self.object("adapted", |json| json.text("script", &script).list("report", lines))?;
        } else {
            report.lines.iter().try_for_each(|line| print(line))?;
        }
        self.report = Some(report);
        Ok(())
    }

    /// Says something of an input that is no state.
    pub(super) fn note(&self, name: &str, text: &str) -> Result<(), NoOutput> {
        match self.is_json {
            true => self.object("waiting", |json| json.list("reasons", [reason(name, text)])),
            false => self.line(YELLOW, name, &format!(": {text}")),
        }
    }

    /// Says that the command of `--run` has ended with a status that is not 0.
    pub(super) fn report_command_end(&self, command: &str, status: ExitStatus) -> Result<(), NoOutput> {
        match self.is_json {
            true => Ok(()),
            false => self.line(YELLOW, "run", &format!(": `{command}` {}", how_ended(status))),
        }
    }

    /// Sorts faults: those first that stand longest.
    fn sort(&mut self, messages: &mut [Diagnostic]) {
        let mut standing = HashMap::new();
        for message in messages.iter() {
            self.number += 1;
            let kind = kind_of(message);
            let since = self.standing.get(&kind).copied().unwrap_or(self.number);
            standing.insert(kind, since);
        }
        messages.sort_by_key(|message| standing.get(&kind_of(message)).copied());
        self.standing = standing;
    }

    fn print_text(&self, state: &State) -> Result<(), NoOutput> {
        match state {
            State::Good(good) => {
                let milliseconds = good.milliseconds;
                let mut what: Vec<String> = Vec::new();
                if !good.is_written {
                    what.push("as it was".into());
                }
                if !good.after.is_empty() {
                    what.push(format!("{milliseconds:.1} ms after {}", listed(&shown(&good.after))));
                }
                if what.is_empty() {
                    what.push(format!("{milliseconds:.1} ms"));
                }
                let usage = good.usage.text();
                let usage = if usage.is_empty() { usage } else { format!("; {usage}") };
                self.line(GREEN, "image", &format!(": {}{usage}", what.join(", ")))
            }
            State::Faulty(messages, after) => {
                let lines: Vec<&Diagnostic> = messages.iter().collect();
                messages_of(&lines)?;
                let count = match messages.len() {
                    1 => "1 error".to_owned(),
                    count => format!("{count} errors"),
                };
                self.line(RED, &count, &format!(", after {}; {}", listed(&shown(after)), self.old_image()))
            }
            State::Refused(inputs) => {
                let lines: Vec<&Diagnostic> = inputs.iter().map(|(_, message)| message).collect();
                messages_of(&lines)?;
                let mut names: Vec<String> = Vec::new();
                for (name, _) in inputs {
                    if !names.contains(name) {
                        names.push(name.clone());
                    }
                }
                self.line(RED, "refused", &format!(": {}; {}", listed(&names), self.old_image()))
            }
            State::Waiting(reasons) => {
                let (name, why) = reasons.first().cloned().unwrap_or_default();
                let more = match reasons.len() {
                    0 | 1 => String::new(),
                    count => format!(", and {} more", count - 1),
                };
                self.line(YELLOW, "waiting", &format!(": {name}: {why}{more}; {}", self.old_image()))
            }
        }
    }

    fn old_image(&self) -> &'static str {
        match self.image.exists() {
            true => "the old image stays",
            false => "there is no image yet",
        }
    }

    fn line(&self, colour: &str, head: &str, rest: &str) -> Result<(), NoOutput> {
        match self.is_coloured {
            true => print(&format!("\x1b[{colour}m{head}\x1b[0m{rest}")),
            false => print(&format!("{head}{rest}")),
        }
    }

    fn print_json(&self, state: &State) -> Result<(), NoOutput> {
        let strings = |names: &[PathBuf]| shown(names).iter().map(|name| json_string(name)).collect::<Vec<_>>();
        match state {
            State::Good(good) => self.object("linked", |json| {
                let json = json
                    .raw("milliseconds", &format!("{:.3}", good.milliseconds))
                    .list("after", strings(&good.after))
                    .number("bytes", good.length)
                    .raw("written", if good.is_written { "true" } else { "false" });
                match good.usage == Usage::default() {
                    true => json,
                    false => good.usage.json(json),
                }
            }),
            State::Faulty(messages, after) => self.object("faults", |json| {
                let faults = messages.iter().map(|message| of_message(JsonObject::new(), message).finish());
                json.number("count", messages.len() as u64).list("faults", faults).list("after", strings(after))
            }),
            State::Refused(inputs) => self.object("refused", |json| {
                let said = inputs.iter();
                let said = said.map(|(name, one)| of_message(JsonObject::new().text("name", name), one).finish());
                json.list("inputs", said)
            }),
            State::Waiting(reasons) => {
                let reasons = reasons.iter().map(|(name, why)| reason(name, why));
                self.object("waiting", |json| json.list("reasons", reasons))
            }
        }
    }

    fn object(&self, event: &str, with: impl FnOnce(JsonObject) -> JsonObject) -> Result<(), NoOutput> {
        let now = SystemTime::now().duration_since(UNIX_EPOCH).map_or(0.0, |since| since.as_secs_f64());
        let json = JsonObject::new().text("event", event).raw("time", &format!("{now:.3}"));
        print(&with(json.text("image", &self.image.display().to_string())).finish())
    }
}

fn of_message(json: JsonObject, message: &Diagnostic) -> JsonObject {
    json.text("message", &message.message()).text("line", message.rule.as_deref().unwrap_or_default())
}

fn reason(name: &str, why: &str) -> String {
    JsonObject::new().text("name", name).text("why", why).finish()
}

/// Prints a line.
fn print(line: &str) -> Result<(), NoOutput> {
    let mut out = io::stdout().lock();
    writeln!(out, "{line}").and_then(|()| out.flush()).map_err(NoOutput)
}

fn messages_of(messages: &[&Diagnostic]) -> Result<(), NoOutput> {
    messages.iter().take(MAX_LINES).try_for_each(|message| print(&message.to_string()))?;
    match messages.len().saturating_sub(MAX_LINES) {
        0 => Ok(()),
        more => print(&format!("and {more} more")),
    }
}

/// What of a fault line stays if code before the place grows or shrinks: all but the places.
fn kind_of(message: &Diagnostic) -> Vec<String> {
    let is_place = |word: &str| word.len() == 16 && word.bytes().all(|byte| byte.is_ascii_hexdigit());
    let line = message.rule.as_deref().unwrap_or_default();
    line.split_whitespace().filter(|word| !is_place(word)).map(str::to_owned).collect()
}

fn shown(names: &[PathBuf]) -> Vec<String> {
    names.iter().map(|name| name.display().to_string()).collect()
}

/// Names for people: the first one, and how many more.
fn listed(names: &[String]) -> String {
    match names {
        [] => String::new(),
        [name] => name.clone(),
        [name, rest @ ..] => format!("{name} and {} more", rest.len()),
    }
}

#[cfg(test)]
mod tests {
    use super::{kind_of, listed, Reporter};
    use crate::report::Diagnostic;
    use std::path::Path;

    fn fault(line: &str) -> Diagnostic {
        let mut one = Diagnostic::error("it is wrong");
        one.rule = Some(line.into());
        one
    }

    #[test]
    fn names_are_the_first_one_and_how_many_more() {
        let names: Vec<String> = ["a.o", "b.o", "c.o"].iter().map(|name| (*name).to_owned()).collect();
        assert_eq!((listed(&names[..0]).as_str(), listed(&names[..1]).as_str()), ("", "a.o"));
        assert_eq!(listed(&names), "a.o and 2 more");
    }

    #[test]
    fn faults_that_stand_longest_come_first_wherever_code_moves_them() {
        let mut reporter = Reporter::new(true, Path::new("image"));
        reporter.sort(&mut [fault("F12 a.o .text 0000000000000010 x")]);
        let mut next = [fault("F12 b.o .text 0000000000000010 x"), fault("F12 a.o .text 0000000000000020 x")];
        reporter.sort(&mut next);
        assert!(next[0].rule.as_deref().unwrap().contains("a.o"));
        assert_eq!(kind_of(&next[0]), ["F12", "a.o", ".text", "x"]);
    }
}
