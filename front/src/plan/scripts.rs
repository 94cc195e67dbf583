//! The scripts of a link: those of `-T` in their order, as they stand or in a folder of `-L`, else that of `-dT`, else
//! the default one.

use std::os::unix::ffi::OsStrExt;
use std::path::{Path, PathBuf};
use std::process::{Command as Process, Stdio};

use bstr::{BString, ByteSlice};
use indexmap::IndexMap;

use super::programs::{others, Environment, WITHIN};
use crate::command::{Command, Defsym};
use crate::inputs::ScriptInputs;
use crate::script::tree::{InputStatement, Script, SectionStatement, SectionsStatement, Statement};
use crate::script::{ErrorKind, Reader, Reading, ScriptError};
use crate::snapshot::Snapshot;

/// A script of the same sections as GNU ld's default one, if GNU ld is not there.
const DEFAULT: &str = include_str!("default.ld");

/// The names of default scripts, which are no files: that of GNU ld, and the one that comes with this program.
const DEFAULT_NAMES: [&str; 2] = ["ld.bfd's default script", "default.ld"];

/// How the version of `ld.ldi` itself begins.
const OWN_VERSION: &[u8] = b"GNU ld (ldi ";

/// Why there are no scripts.
#[derive(Debug, thiserror::Error)]
pub enum ScriptsFault {
    /// A script is none.
    #[error("{0}")]
    NoScript(ScriptError),
    /// A script cannot be read.
    #[error("{}", .0.kind())]
    Missing(ScriptError),
}

/// The scripts of a link as they were read.
#[derive(Debug)]
pub struct Scripts {
    /// The name of the first one.
    pub path: PathBuf,
    /// Their text, for `--verbose`.
    pub text: Vec<u8>,
    /// Whether they are the user's.
    pub is_own: bool,
    /// Their statements and text.
    pub reading: Reading,
    /// What each says of files and names.
    pub parts: Vec<ScriptInputs>,
    /// How many statements there are up to the end of each that `-T` gives.
    ends: Vec<usize>,
    /// The files that were read for them, with what they include.
    pub files: Vec<PathBuf>,
}

impl Scripts {
    /// Reads the scripts of a command.
    ///
    /// # Errors
    /// If a script cannot be read, or is no script of GNU ld's.
    pub fn read(
        command: &Command,
        environment: &Environment,
        snapshot: &mut Snapshot,
    ) -> Result<Scripts, ScriptsFault> {
        let mut names: Vec<&Path> = command.scripts.iter().map(PathBuf::as_path).collect();
        if names.is_empty() {
            names.extend(command.default_script.as_deref());
        }
        if names.is_empty() {
            return default_script(command, environment);
        }
        let mut reader = Reader::new(snapshot, command.folders.clone());
        let mut ranges = Vec::new();
        put_defsyms(&mut reader, command, |defsym| defsym.scripts_before == 0)?;
        for (index, name) in names.iter().enumerate() {
            ranges.push(reader.open(name.as_os_str()).map_err(fault_of)?);
            let is_last = index + 1 == names.len();
            put_defsyms(&mut reader, command, |defsym| {
                defsym.scripts_before == index + 1 || is_last && defsym.scripts_before > index + 1
            })?;
        }
        let ends = ranges.iter().map(|range| range.end).collect();
        // What stands before INSERT goes into the default script if no other is given (ldlang.c, `lang_add_insert`).
        let is_own = command.default_script.is_some() || !ranges.iter().all(|range| reader.has_insert(range));
        if !is_own {
            let (path, text) = default_text(command, environment);
            ranges.push(reader.text(Path::new(path), text).map_err(ScriptsFault::NoScript)?);
        }
        let reading = reader.finish();
        let parts = ranges.into_iter().map(|range| part_of(&reading.script, range)).collect();
        let mut files = files_of(&reading);
        files.retain(|path| !DEFAULT_NAMES.iter().any(|name| path.as_os_str() == *name));
        let text = files.iter().zip(reading.source.files().iter().filter(|file| is_file(&file.path)));
        let text = text.flat_map(|(_, file)| file.text.iter().copied()).collect();
        let path =
            files.first().cloned().unwrap_or_else(|| names.first().map_or_else(PathBuf::new, |name| name.into()));
        Ok(Scripts { path, text, is_own, reading, parts, ends, files })
    }

    /// How many statements the first so many scripts of `-T` have.
    pub fn end_of(&self, count: usize) -> usize {
        count.checked_sub(1).and_then(|last| self.ends.get(last)).copied().unwrap_or(0)
    }

    /// The symbol of ENTRY; the last one counts.
    pub fn entry(&self) -> Option<&BString> {
        self.parts.iter().rev().find_map(|part| part.entry.as_ref())
    }

    /// The name of OUTPUT.
    pub fn output(&self) -> Option<&BString> {
        self.parts.iter().find_map(|part| part.output.as_ref())
    }

    /// Gives files that statements name the names that their objects have, as they were found in another folder.
    pub fn rename_files(&mut self, names: &IndexMap<BString, BString>) {
        if names.is_empty() {
            return;
        }
        for_each_input(&mut self.reading.script, &mut |input| {
            if let Some(file) = &mut input.file {
                if let Some(name) = names.get(&file.node.glob) {
                    file.node.glob = name.clone();
                }
            }
        });
    }
}

fn for_each_input(script: &mut Script, act: &mut dyn FnMut(&mut InputStatement)) {
    for statement in &mut script.statements {
        if let Statement::Sections(items) = &mut statement.node {
            for item in items {
                if let SectionsStatement::Output(section) = &mut item.node {
                    for statement in &mut section.body.node {
                        if let SectionStatement::Input(input) = &mut statement.node {
                            act(input);
                        }
                    }
                }
            }
        }
    }
}

fn fault_of(fault: ScriptError) -> ScriptsFault {
    match fault.kind() {
        ErrorKind::MissingScript(..) => ScriptsFault::Missing(fault),
        _ => ScriptsFault::NoScript(fault),
    }
}

fn put_defsyms(
    reader: &mut Reader<'_>,
    command: &Command,
    is_wanted: impl Fn(&Defsym) -> bool,
) -> Result<(), ScriptsFault> {
    for defsym in command.defsyms.iter().filter(|defsym| is_wanted(defsym)) {
        let text = [defsym.name.as_bytes(), b"=", &defsym.value].concat();
        reader.defsym(&text).map_err(ScriptsFault::NoScript)?;
    }
    Ok(())
}

/// The files and names that a part of the statements gives.
fn part_of(script: &Script, range: std::ops::Range<usize>) -> ScriptInputs {
    let statements = script.statements.get(range).unwrap_or_default().to_vec();
    ScriptInputs::of(&Script { statements })
}

/// Whether a path of a reading is that of a file, and not a word of the command line.
fn is_file(path: &Path) -> bool {
    !path.as_os_str().as_bytes().starts_with(b"--defsym ")
}

fn files_of(reading: &Reading) -> Vec<PathBuf> {
    let files = reading.source.files().iter().map(|file| &file.path);
    files.filter(|path| is_file(path)).cloned().collect()
}

/// GNU ld's default script if GNU ld is there, else one of the same sections.
fn default_script(command: &Command, environment: &Environment) -> Result<Scripts, ScriptsFault> {
    let (path, text) = default_text(command, environment);
    let mut files = crate::script::NoFiles;
    let mut reader = Reader::new(&mut files, Vec::new());
    put_defsyms(&mut reader, command, |_| true)?;
    let range = reader.text(Path::new(path), text.clone()).map_err(ScriptsFault::NoScript)?;
    let reading = reader.finish();
    let parts = vec![part_of(&reading.script, range)];
    Ok(Scripts { path: path.into(), text, is_own: false, reading, parts, ends: Vec::new(), files: Vec::new() })
}

/// The name and the text of the default script.
fn default_text(command: &Command, environment: &Environment) -> (&'static str, Vec<u8>) {
    let programs = match environment.contains_key(std::ffi::OsStr::new(WITHIN)) {
        true => Vec::new(),
        false => others("ld.bfd".as_ref(), environment),
    };
    let [of_gnu, own] = DEFAULT_NAMES;
    match programs.iter().find_map(|program| ask_linker(program, command, environment)) {
        Some(text) => (of_gnu, text),
        None => (own, own_default(command)),
    }
}

/// The default script as a linker prints it.
fn ask_linker(program: &Path, command: &Command, environment: &Environment) -> Option<Vec<u8>> {
    let mut process = Process::new(program);
    process.args(["-m", "elf_x86_64", "-static"]).args(command.is_nmagic.then_some("-n"));
    process.args(command.is_omagic.then_some("-N")).args(keywords(command)).arg("--verbose");
    process.env_clear().envs(environment).env(WITHIN, "1").stdin(Stdio::null());
    let done = process.output().ok().filter(|done| done.status.success())?;
    let line = [&b"=".repeat(50)[..], b"\n"].concat();
    let parts: Vec<&[u8]> = done.stdout.split_str(&line).collect();
    match parts.as_slice() {
        [version, text, _] if !version.starts_with(OWN_VERSION) => Some(text.to_vec()),
        _ => None,
    }
}

/// The words of `-z` by which GNU ld chooses one of its scripts (emultempl/elf.em, `gld_get_script`).
fn keywords(command: &Command) -> impl Iterator<Item = String> + '_ {
    const CHOOSE: [&[u8]; 6] = [b"separate-code", b"noseparate-code", b"relro", b"norelro", b"now", b"lazy"];
    let chosen = command.keywords.iter().filter(|word| CHOOSE.contains(&word.as_slice()));
    chosen.map(|word| format!("-z{word}"))
}

fn own_default(command: &Command) -> Vec<u8> {
    let is_border = |line: &&str| line.starts_with("  . = ALIGN(4096)");
    match command.is_omagic {
        true => {
            DEFAULT.lines().filter(|line| !is_border(line)).flat_map(|line| [line, "\n"]).collect::<String>().into()
        }
        false => DEFAULT.into(),
    }
}
