//! Programs beside this one, and other linkers on PATH, never `ld.ldi` itself.

use std::collections::HashMap;
use std::ffi::{OsStr, OsString};
use std::os::unix::fs::PermissionsExt;
use std::path::{Path, PathBuf};
use std::process::{Command as Process, Stdio};

use bstr::ByteSlice;

/// Set for a linker that `ld.ldi` starts to ask it something: a `ld.ldi` that has it asks no other. So also if a
/// script on PATH, which cannot be told from a linker, leads back to `ld.ldi`.
pub const WITHIN: &str = "LDI_WITHIN";

/// The names under which this program is `ld.ldi`, in the file system.
const OWN_NAMES: [&str; 2] = ["ld.ldi", "ldi-front"];

/// The variables of a process.
pub type Environment = HashMap<OsString, OsString>;

/// The path of a program of the linker: `$LDI` and its neighbours, else the one beside the program that runs, as
/// `make install` puts it there, else its name, for PATH.
///
/// `LDI` names `ldi` itself; `readobj` and `readscript` are looked for beside it, and in the crates of a repository.
pub fn find_program(name: &str, environment: &Environment) -> OsString {
    let given = environment.get(OsStr::new("LDI")).filter(|path| !path.is_empty());
    if let (Some(path), "ldi") = (given, name) {
        return path.clone();
    }
    let own = given.map(PathBuf::from).or_else(|| std::env::current_exe().ok());
    let folder = own.and_then(|own| Some(own.canonicalize().ok()?.parent()?.to_owned())).unwrap_or_default();
    let built = Path::new(name).join("out").join(name);
    // Beside `crates/ldi/out/ldi`, and from `front/bin` and `front/target/release`.
    let crates = ["../..", "../../crates", "../../../crates"].map(|up| folder.join(up).join(&built));
    let found = std::iter::once(folder.join(name)).chain(crates).find(|path| is_program(path));
    found.map_or_else(|| name.into(), PathBuf::into_os_string)
}

/// The version of `ldi`, which is that of the programs around it: the last word of `ldi --version`, or `unknown`.
pub fn own_version(environment: &Environment) -> String {
    let done = Process::new(find_program("ldi", environment)).arg("--version").stdin(Stdio::null()).output();
    let own = done.ok().filter(|done| done.status.success());
    let last = own.as_ref().and_then(|done| done.stdout.fields().last());
    last.map_or_else(|| "unknown".to_owned(), |word| word.to_str_lossy().into_owned())
}

/// Whether a program is `ld.ldi`, also by a symbolic link of another name.
pub fn is_own(path: &Path) -> bool {
    let real = path.canonicalize().unwrap_or_else(|_| path.to_owned());
    OWN_NAMES.iter().any(|name| real.file_name() == Some(OsStr::new(name)))
}

/// Whether a file can be run.
pub fn is_program(path: &Path) -> bool {
    path.metadata().map_or(false, |seen| seen.is_file() && seen.permissions().mode() & 0o111 != 0)
}

/// The programs of a name in the folders of PATH that are not `ld.ldi`.
pub fn others(name: &OsStr, environment: &Environment) -> Vec<PathBuf> {
    let path = environment.get(OsStr::new("PATH")).cloned().unwrap_or_else(|| "/bin:/usr/bin".into());
    std::env::split_paths(&path)
        .map(|folder| if folder.as_os_str().is_empty() { PathBuf::from(".") } else { folder }.join(name))
        .filter(|path| is_program(path) && !is_own(path))
        .collect()
}
