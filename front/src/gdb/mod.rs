//! `ldi-gdb`: a script of gdb for an image, a copy of an image with static functions, and source lines of addresses.

mod arguments;
mod lines;
mod objects;
mod script;
mod symbols;

use std::collections::HashMap;
use std::ffi::OsString;
use std::io::{self, Read, Write};
use std::os::unix::ffi::OsStrExt;
use std::path::{Path, PathBuf};

use bstr::{BStr, ByteSlice};

use crate::plan::{own_version, Environment};
use crate::publish::{write_file, NotWritten, Reader, PROGRAM, TEXT};
use crate::report::link_map::{BadMap, LinkMap};
use crate::report::os_message;
use arguments::{GdbArguments, Task, WordsRefused, USAGE};
use lines::Places;
use objects::{member_path, placed_objects, MissingObject, Objects};
use script::Script;
use symbols::{with_local_names, CannotAdd};

/// The statuses of the program (docs/manual.md, 'Debugging').
#[derive(Clone, Copy, PartialEq, Eq, Debug)]
enum Status {
    Good = 0,
    LeftOut = 1,
    Refused = 2,
    Device = 3,
}

/// Why nothing is written.
#[derive(Debug, thiserror::Error)]
enum GdbFault {
    #[error("{USAGE}ldi-gdb: error: {0}")]
    Words(#[from] WordsRefused),
    #[error("ldi-gdb: {}: {}", .0.display(), os_message(.1))]
    File(PathBuf, io::Error),
    #[error("ldi-gdb: {0}")]
    NotWritten(#[from] NotWritten),
    #[error("ldi-gdb: {}: {1}", .0.display())]
    Map(PathBuf, BadMap),
    #[error("ldi-gdb: {0}")]
    Copy(#[from] CannotAdd),
    #[error("ldi-gdb: {0}")]
    Missing(#[from] MissingObject),
}

impl GdbFault {
    fn status(&self) -> Status {
        match self {
            GdbFault::File(..) | GdbFault::NotWritten(_) => Status::Device,
            _ => Status::Refused,
        }
    }
}

/// The script of gdb for a map, whose objects are in the working folder; `None` if the map is none.
pub fn script_of(map: &[u8]) -> Option<Vec<u8>> {
    Some(Script::of(&LinkMap::read(map).ok()?, &Objects::new(Path::new(".")), None).text)
}

/// The program `ldi-gdb`; gives its exit status.
pub fn main(words: &[OsString]) -> u8 {
    let environment: Environment = std::env::vars_os().collect();
    if words.iter().any(|word| word == "-h" || word == "--help") {
        print!("{USAGE}");
        return Status::Good as u8;
    }
    if words.len() == 1 && words.iter().all(|word| word == "--version") {
        println!("ldi-gdb {}", own_version(&environment));
        return Status::Good as u8;
    }
    let status = run(words).unwrap_or_else(|fault| {
        eprintln!("{fault}");
        fault.status()
    });
    status as u8
}

fn read(path: &Path) -> Result<Vec<u8>, GdbFault> {
    std::fs::read(path).map_err(|fault| GdbFault::File(path.to_owned(), fault))
}

/// Does what the words ask for.
fn run(words: &[OsString]) -> Result<Status, GdbFault> {
    let call = GdbArguments::read(words)?;
    let map = LinkMap::read(&read(&call.map)?).map_err(|fault| GdbFault::Map(call.map.clone(), fault))?;
    let objects = Objects::new(&call.objects);
    if let (Some(folder), false) = (&call.members, matches!(call.task, Task::Copy(_))) {
        unpack_members(&map, &objects, folder)?;
    }
    match &call.task {
        Task::Script => write_script(&call, &map, &objects),
        Task::Copy(image) => write_copy(&call, image, &map, &objects),
        Task::Lines(addresses) => print_lines(&call, addresses, &map, &objects),
    }
}

/// Writes the members of archives that a map names as files into a folder.
fn unpack_members(map: &LinkMap, objects: &Objects<'_>, folder: &Path) -> Result<(), GdbFault> {
    std::fs::create_dir_all(folder).map_err(|fault| GdbFault::File(folder.to_owned(), fault))?;
    for placed in placed_objects(map) {
        if objects.is_member(placed.name) {
            let data = objects.read(placed.name)?;
            write_file(&member_path(placed.name, folder), &[&data], TEXT, Reader::IsWaitedFor)?;
        }
    }
    Ok(())
}

/// Writes bytes to standard output.
fn print_bytes(bytes: &[u8]) -> Result<(), GdbFault> {
    let mut out = io::stdout();
    let written = out.write_all(bytes).and_then(|()| out.flush());
    written.map_err(|fault| GdbFault::File(PathBuf::from("standard output"), fault))
}

/// Writes the script, and says what it leaves out.
fn write_script(call: &GdbArguments, map: &LinkMap, objects: &Objects<'_>) -> Result<Status, GdbFault> {
    let script = Script::of(map, objects, call.members.as_deref());
    match &call.output {
        Some(path) => write_file(path, &[&script.text], TEXT, Reader::IsWaitedFor)?,
        None => print_bytes(&script.text)?,
    }
    for why in &script.left_out {
        eprintln!("ldi-gdb: {why}");
    }
    Ok(if script.left_out.is_empty() { Status::Good } else { Status::LeftOut })
}

/// Writes the copy of the image with local names.
fn write_copy(call: &GdbArguments, image: &Path, map: &LinkMap, objects: &Objects<'_>) -> Result<Status, GdbFault> {
    let (copy, count) = with_local_names(&read(image)?, map, objects)?;
    if let Some(path) = &call.output {
        write_file(path, &[&copy], PROGRAM, Reader::IsWaitedFor)?;
        eprintln!("ldi-gdb: {}: {count} local names added", path.display());
    }
    Ok(Status::Good)
}

/// Prints a line for each address.
fn print_lines(
    call: &GdbArguments,
    addresses: &[OsString],
    map: &LinkMap,
    objects: &Objects<'_>,
) -> Result<Status, GdbFault> {
    let places = Places::of(map);
    let folder = call.members.as_deref().unwrap_or_else(|| Path::new("."));
    let path_of = |name: &BStr| match objects.is_member(name) {
        true => member_path(name, folder),
        false => objects.path(name),
    };
    let placed = placed_objects(map);
    let paths: HashMap<&BStr, PathBuf> = placed.iter().map(|placed| (placed.name, path_of(placed.name))).collect();
    let mut text = Vec::new();
    if addresses.is_empty() {
        let given = io::stdin().read_to_end(&mut text);
        given.map_err(|fault| GdbFault::File(PathBuf::from("standard input"), fault))?;
    }
    let mut status = Status::Good;
    for word in addresses.iter().map(|word| word.as_bytes()).chain(text.fields()) {
        match address(word) {
            Some(address) => print_bytes(format!("{}\n", places.describe(address, &paths)).as_bytes())?,
            None => {
                eprintln!("ldi-gdb: {} is no address", word.as_bstr());
                status = Status::Refused;
            }
        }
    }
    Ok(status)
}

/// An address in hexadecimal, with or without `0x`.
fn address(word: &[u8]) -> Option<u64> {
    let text = word.to_str().ok()?;
    let digits = text.strip_prefix("0x").or_else(|| text.strip_prefix("0X")).unwrap_or(text);
    u64::from_str_radix(digits, 16).ok().filter(|_| !digits.starts_with('+'))
}
