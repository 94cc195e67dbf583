//! Tests of messages, over objects by `gcc` and `as` if these are there.

mod faults;
mod messages;
mod refusals;
mod sources;

use std::path::Path;
use std::process::Command;
use std::sync::atomic::{AtomicUsize, Ordering};

use bstr::BString;

use super::{fault_diagnostics, Diagnostic, Inputs};
use crate::objects::{Object, Origin};

/// The object of a source, which is `text` with this suffix in a folder of its own, as if in `/project`; none if the
/// program is not there.
fn built(program: &str, words: &[&str], prefix_map: &str, source: &str, suffix: &str) -> Option<Vec<u8>> {
    static COUNT: AtomicUsize = AtomicUsize::new(0);
    let number = COUNT.fetch_add(1, Ordering::Relaxed);
    let folder = std::env::temp_dir().join(format!("ldi-front-{}-{number}", std::process::id()));
    std::fs::create_dir_all(&folder).ok()?;
    std::fs::write(folder.join(format!("text{suffix}")), format!("{source}\n")).ok()?;
    let map = format!("{prefix_map}={}=/project", folder.display());
    let status = Command::new(program)
        .args(words)
        .args([&map, "-o", "text.o", &format!("text{suffix}")])
        .current_dir(&folder)
        .status();
    let data =
        status.ok().filter(std::process::ExitStatus::success).and_then(|_| std::fs::read(folder.join("text.o")).ok());
    let _ = std::fs::remove_dir_all(&folder);
    data
}

/// An object by `as`.
fn assembled(source: &str) -> Option<Vec<u8>> {
    built("as", &[], "--debug-prefix-map", source, ".s")
}

/// An object of a C text by `gcc`.
fn compiled(source: &str, flags: &[&str]) -> Option<Vec<u8>> {
    let plain = ["-c", "-O1", "-fno-pic", "-ffreestanding", "-fno-asynchronous-unwind-tables"];
    built("gcc", &[&plain, flags].concat(), "-fdebug-prefix-map", source, ".c")
}

fn object(name: &str, data: Vec<u8>) -> Object {
    Object::new(BString::from(name), Origin::of_file(Path::new(name)), data.into())
}

/// The messages of fault lines of a link of a script `image.ld`.
fn messages(script: &str, faults: &str, objects: &[Object]) -> Vec<Diagnostic> {
    let inputs = Inputs {
        script_path: Path::new("image.ld"),
        script: script.as_bytes(),
        origin: &|_| None,
        objects,
        entry: None,
    };
    fault_diagnostics(faults.as_bytes(), &inputs, None)
}

/// Checks the whole text of all messages of fault lines.
fn check(script: &str, faults: &str, objects: &[Object], wanted: &[&str]) {
    let texts: Vec<String> = messages(script, faults, objects).iter().map(ToString::to_string).collect();
    assert_eq!(texts, wanted);
}
