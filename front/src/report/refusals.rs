//! Messages of refused edits (docs/manual.md, 'Refusals'): for an object the section, symbol or relocation that is to
//! blame, else what `readobj` says; for a script the places that its profile has not.

use std::collections::HashSet;
use std::ffi::{OsStr, OsString};
use std::fs::File;
use std::io::{Read, Write};
use std::os::unix::ffi::OsStrExt;
use std::os::unix::io::AsRawFd;
use std::path::{Path, PathBuf};
use std::process::{Command, Stdio};
use std::sync::mpsc;
use std::time::Duration;

use bstr::{BStr, ByteSlice};

use super::names::{symbol_name, Names};
use super::outline::{origin, Lines};
use super::plain::{plain, trimmed};
use super::relocation_names::{need_of, relocation_name, Need};
use super::rules::{EDITS, LIMIT, NOT_AN_OBJECT, NOT_A_SCRIPT, OBJECTS, RELOCATIONS, SCRIPTS};
use super::Diagnostic;
use crate::objects::{Object, Relocation, Section, SectionFlags, SymbolKind};
use crate::profile::limits::{MAX_OBJECT_NAME, MAX_PAYLOAD};
use crate::profile::{objections, refused_for, Objection};
use crate::script::Place;
use crate::session_client::Refusal;

/// How long `readobj` may take.
const PATIENCE: Duration = Duration::from_secs(10);
/// The places of a refusal that are said.
const MAX_PLACES: usize = 20;
/// What to do about thread-local storage.
const WITHOUT_TLS: &str = "there is no TLS: no __thread, thread_local or #[thread_local]";
/// What to do about references to a global offset table.
const WITHOUT_GOT: &str =
    "compile with -fno-pic -mcmodel=small, or -mcmodel=kernel for the upper 2 GB, and without -fno-plt";

/// Files that are no ELF files, by their first bytes.
const FORMS: [(&[u8], &str); 4] = [
    (b"BC\xc0\xde", "it is LLVM's bitcode, which has no code: compile without -flto"),
    (b"\xde\xc0\x17\x0b", "it is LLVM's bitcode, which has no code: compile without -flto"),
    (b"!<arch>\n", "it is an archive: take its objects out, with `ar x`"),
    (b"!<thin>\n", "it is a thin archive: name its objects themselves"),
];

/// An edit that was refused.
#[derive(Clone, Copy)]
pub struct RefusedInput<'a> {
    /// The name that people know the object by, or the path of the script.
    pub name: &'a BStr,
    /// The refusal.
    pub refusal: Refusal,
    /// What was sent, if it is there.
    pub data: Option<&'a [u8]>,
    /// The program `ldi`: `readobj` is looked for beside it.
    pub ldi: &'a OsStr,
}

/// The messages of a refused object or of another refused edit: one for each place that is known, at least one.
#[must_use]
pub fn refusals_of_object(input: &RefusedInput<'_>, object: Option<&Object>) -> Vec<Diagnostic> {
    if input.refusal.number != NOT_AN_OBJECT {
        return vec![finished(of_edit(input), input)];
    }
    let places = object.map(|object| places_of(object, input.refusal.inner)).unwrap_or_default();
    if !places.is_empty() {
        return places.into_iter().map(|diagnostic| finished(diagnostic, input)).collect();
    }
    let mut reasons = reasons_of_object(input);
    if reasons.is_empty() {
        reasons.push(sentence_of(OBJECTS, input.refusal.inner).unwrap_or_else(|| edit_sentence(NOT_AN_OBJECT)));
    }
    let form = FORMS.iter().find(|(start, _)| input.data.map_or(false, |data| data.starts_with(start)));
    let with_form = |reason: String| {
        let is_said = reason.contains("it is an archive");
        let diagnostic = Diagnostic::error(reason);
        match form {
            Some((_, form)) if !is_said => diagnostic.with_advice(*form),
            _ => diagnostic,
        }
    };
    reasons.into_iter().map(|reason| finished(with_form(reason), input)).collect()
}

/// The messages of a refused script; `origin_of` says where a line of it came from, as in `Inputs`.
#[must_use]
pub fn refusals_of_script(input: &RefusedInput<'_>, origin_of: &dyn Fn(u32) -> Option<Place>) -> Vec<Diagnostic> {
    if input.refusal.number != NOT_A_SCRIPT {
        return vec![finished(of_edit(input), input)];
    }
    let path = Path::new(OsStr::from_bytes(input.name));
    let data = input.data.unwrap_or_default();
    let found = objections(path, data, &mut |_: &Path| Ok(Vec::new()), Vec::new());
    let lines = Lines::new(data);
    let at_line = |one: Objection| {
        let mut diagnostic = Diagnostic::error(one.sentence).at(&origin(path, origin_of, one.place.line));
        diagnostic.excerpt = lines.excerpt(one.place.line);
        diagnostic
    };
    let found = refused_for(found, input.refusal.inner).into_iter().take(MAX_PLACES);
    let mut said: Vec<Diagnostic> = found.map(at_line).collect();
    if said.is_empty() {
        let sentence = sentence_of(SCRIPTS, input.refusal.inner).unwrap_or_else(|| edit_sentence(NOT_A_SCRIPT));
        said.push(Diagnostic::error(sentence));
    }
    said.into_iter().map(|one| finished(one, input)).collect()
}

/// The first of several messages, which says how many there are beside it.
#[must_use]
pub fn first_of(diagnostics: &[Diagnostic]) -> Option<Diagnostic> {
    let (first, others) = diagnostics.split_first()?;
    Some(match others.len() {
        0 => first.clone(),
        1 => first.clone().with_note("and 1 more place"),
        more => first.clone().with_note(format!("and {more} more places")),
    })
}

/// A message with the line of `ldi`, and the file if it has none.
fn finished(mut diagnostic: Diagnostic, input: &RefusedInput<'_>) -> Diagnostic {
    let Refusal { number, inner } = input.refusal;
    diagnostic.rule = Some(format!("{}: refused {number} {inner}", plain(input.name)));
    if diagnostic.file.is_none() {
        diagnostic.file = Some(plain(input.name));
    }
    diagnostic
}

fn sentence_of(table: &[(u32, &str)], number: u32) -> Option<String> {
    table.iter().find(|(own, _)| *own == number).map(|(_, sentence)| (*sentence).to_owned())
}

fn edit_sentence(number: u32) -> String {
    sentence_of(EDITS, number).unwrap_or_else(|| format!("refused {number}"))
}

/// The message of a refusal that is not of the bytes.
fn of_edit(input: &RefusedInput<'_>) -> Diagnostic {
    let Refusal { number, inner } = input.refusal;
    if number != LIMIT {
        let unknown = || format!("refused {number} {inner}");
        return Diagnostic::error(sentence_of(EDITS, number).unwrap_or_else(unknown));
    }
    if input.data.map_or(false, |data| data.len() > MAX_PAYLOAD) {
        return Diagnostic::error(format!("it has more than {MAX_PAYLOAD} bytes"));
    }
    let rule = "an object's name has 1 to 255 bytes, each from `!' to `~'";
    match input.name.iter().find(|byte| !byte.is_ascii_graphic()) {
        Some(byte) => Diagnostic::error(format!("its name has the byte {byte:#04x}: {rule}")),
        None if input.name.is_empty() || input.name.len() > MAX_OBJECT_NAME => {
            Diagnostic::error(format!("its name has {} bytes: {rule}", input.name.len()))
        }
        None => Diagnostic::error(edit_sentence(LIMIT)),
    }
}

// What an object has that is not linked

/// The sections, symbols or relocations that an object is refused for, as far as they are known.
fn places_of(object: &Object, inner: u32) -> Vec<Diagnostic> {
    let is_tls = |need: Need| need == Need::Tls;
    let mut found: Vec<Diagnostic> = match inner {
        7 => object.sections().filter_map(|section| of_section(object, &section)).collect(),
        9 => of_symbols(object),
        11 => of_relocations(object, &|_| true),
        _ => Vec::new(),
    };
    if !found.is_empty() && inner != 11 {
        found.extend(of_relocations(object, &is_tls));
    }
    found.truncate(MAX_PLACES);
    found
}

/// A loaded section with thread-local storage, with its first symbol.
fn of_section(object: &Object, section: &Section<'_>) -> Option<Diagnostic> {
    let is_tls = section.flags.has(SectionFlags::ALLOC) && section.flags.has(SectionFlags::TLS);
    if !is_tls {
        return None;
    }
    let home = crate::objects::Home::Section(section.index);
    let first = object.symbols().find(|symbol| symbol.home == home && symbol.kind == SymbolKind::TLS);
    let what = first.map(|symbol| format!(" with `{}'", plain(symbol.name))).unwrap_or_default();
    let mut diagnostic =
        Diagnostic::error(format!("this section{what} is thread-local storage (TLS), which is not linked"));
    diagnostic.file = Some(plain(object.name()));
    diagnostic.site = Some(format!("({})", plain(section.name)));
    Some(diagnostic.with_advice(WITHOUT_TLS))
}

/// The symbols whose binding or type is not linked.
fn of_symbols(object: &Object) -> Vec<Diagnostic> {
    let mut found = Vec::new();
    for symbol in object.symbols() {
        let name = plain(symbol.name);
        let (what, advice) = match (symbol.kind, symbol.binding) {
            (SymbolKind::TLS, _) => (format!("`{name}' is thread-local storage (TLS)"), Some(WITHOUT_TLS)),
            (kind, _) if kind.0 > 5 => (format!("`{name}' has the symbol type {}", kind.0), None),
            (_, crate::objects::Binding::Other(number)) => (format!("`{name}' has the symbol binding {number}"), None),
            _ => continue,
        };
        let mut diagnostic = Diagnostic::error(format!("{what}, which is not linked"));
        diagnostic.advice = advice.map(str::to_owned);
        diagnostic.file = Some(plain(object.name()));
        found.push(diagnostic);
        if found.len() == MAX_PLACES {
            break;
        }
    }
    found
}

/// The relocations whose types are not linked and need what is meant: of each type and symbol the first one, with its
/// place in the source.
fn of_relocations(object: &Object, is_meant: &dyn Fn(Need) -> bool) -> Vec<Diagnostic> {
    let mut names = Names::new(std::slice::from_ref(object));
    let mut seen = HashSet::new();
    let mut found = Vec::new();
    for section in object.sections().filter(Section::is_loaded) {
        for relocation in object.relocations(section.index) {
            let is_known = RELOCATIONS.iter().any(|row| row.number == relocation.kind);
            let is_known = is_known || !is_meant(need_of(relocation.kind));
            if is_known || found.len() == MAX_PLACES || !seen.insert((relocation.kind, relocation.symbol)) {
                continue;
            }
            let is_it = |_: &Object, other: Relocation| other == relocation;
            let site = names.site(object.name(), section.name, relocation.offset, &is_it);
            let target = object.symbol(relocation.symbol).map(|symbol| symbol_name(object, &symbol));
            let target = target.filter(|name| !name.is_empty()).map(|name| format!(" against `{name}'"));
            let what = format!("{}{}", relocation_name(relocation.kind), target.unwrap_or_default());
            found.push(match need_of(relocation.kind) {
                Need::Tls => site
                    .error(format!("{what} is of thread-local storage (TLS), which is not linked"))
                    .with_advice(WITHOUT_TLS),
                Need::Got => site
                    .error(format!("{what} needs a global offset table, and there is none"))
                    .with_advice(WITHOUT_GOT),
                Need::Other => site.error(format!("{what} is a relocation that is not linked")),
            });
        }
    }
    found
}

// What `readobj` says

/// What `readobj` says of refused bytes, a reason for each place; none if it cannot be asked, or says another
/// number.
fn reasons_of_object(input: &RefusedInput<'_>) -> Vec<String> {
    let output = input.data.and_then(|data| ask(&beside(input.ldi, "readobj"), data)).unwrap_or_default();
    let mut lines = output.lines();
    let Refusal { number, inner } = input.refusal;
    let is_same = lines.next().map_or(false, |line| line.ends_with_str(format!(": refused {number} {inner}")));
    let mut reasons: Vec<String> = Vec::new();
    for line in lines.filter(|_| is_same) {
        let text = plain(trimmed(line));
        let is_more = line.starts_with(b"   ");
        match reasons.last_mut() {
            _ if text.is_empty() => {}
            Some(last) if is_more => last.push_str(&format!("; {text}")),
            _ => reasons.push(text),
        }
    }
    reasons.truncate(MAX_PLACES);
    reasons
}

/// A program of the linker: beside `ldi`, or in its own crate of a repository, else on PATH.
fn beside(ldi: &OsStr, program: &str) -> OsString {
    let folder = Path::new(ldi).parent().filter(|folder| !folder.as_os_str().is_empty());
    let own = folder.map(|folder| folder.join(program));
    let of_crate = folder.and_then(|folder| folder.parent()?.parent()).map(|crates| crates.join(program).join("out"));
    let candidates = [own, of_crate.map(|out| out.join(program))];
    let found: Option<PathBuf> = candidates.into_iter().flatten().find(|path| path.is_file());
    found.map_or_else(|| program.into(), PathBuf::into_os_string)
}

/// What a program prints of a file with these bytes, which is in memory alone; nothing if it cannot be asked.
fn ask(program: &OsStr, data: &[u8]) -> Option<Vec<u8>> {
    let file = rustix::fs::memfd_create("payload", rustix::fs::MemfdFlags::empty()).ok()?;
    let mut file = File::from(rustix::fd::OwnedFd::from(file));
    file.write_all(data).ok()?;
    let mut child = Command::new(program)
        .arg(format!("/proc/self/fd/{}", file.as_raw_fd()))
        .stdin(Stdio::null())
        .stdout(Stdio::piped())
        .stderr(Stdio::null())
        .spawn()
        .ok()?;
    let mut stdout = child.stdout.take()?;
    let (sender, receiver) = mpsc::channel();
    std::thread::spawn(move || {
        let mut output = Vec::new();
        let read = stdout.read_to_end(&mut output);
        let _ = sender.send(read.ok().map(|_| output));
    });
    let output = receiver.recv_timeout(PATIENCE).ok().flatten();
    if output.is_none() {
        let _ = child.kill();
    }
    let _ = child.wait();
    output
}
