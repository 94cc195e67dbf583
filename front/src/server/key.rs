//! What identifies the server of a call: its output, where names lead, the programs, and the environment variables.

use std::collections::hash_map::DefaultHasher;
use std::ffi::{OsStr, OsString};
use std::fs;
use std::hash::{Hash, Hasher};
use std::io;
use std::os::unix::ffi::OsStrExt;
use std::os::unix::io::AsRawFd;
use std::path::{Path, PathBuf};

use rustix::fs::{cwd, openat, Mode, OFlags};

use crate::plan::{find_program, Environment};
use crate::publish::runtime_folder;
use crate::snapshot::Stamp;

/// The environment that has a part in a link.
const VARIABLES: [&str; 7] = ["LDI", "LDI_FALLBACK", "LDI_WITHIN", "PATH", "LC_ALL", "LC_CTYPE", "LANG"];
/// How the names of sockets begin; 32 hexadecimal digits follow.
const PREFIX: &str = "ld.";
const DIGITS: usize = 32;
/// The bytes of a folder's path at most: a socket's address has room for 108.
const MAX_FOLDER: usize = 64;

/// The key of a call's server.
#[derive(Clone, PartialEq, Eq, Debug)]
pub(super) struct Key {
    text: Vec<u8>,
}

impl Key {
    /// The key of a call with these words.
    ///
    /// # Errors
    /// If it is not known where names lead, for example because the working folder was removed.
    pub(super) fn of(words: &[OsString], environment: &Environment) -> io::Result<Key> {
        let mut parts: Vec<Vec<u8>> = vec![real_path(&output_of(words)).as_os_str().as_bytes().to_owned()];
        parts.extend(mounts()?);
        parts.extend(program_marks(environment).iter().map(|mark| format!("{mark:?}").into_bytes()));
        parts.extend(VARIABLES.map(|name| value_of(environment, name).as_bytes().to_owned()));
        parts.extend(
            words.iter().filter(|word| word.as_bytes().starts_with(b"@")).map(|word| word.as_bytes().to_owned()),
        );
        Ok(Key { text: parts.join(&0) })
    }

    /// The key's bytes.
    pub(super) fn text(&self) -> &[u8] {
        &self.text
    }

    /// The socket of the server; `None` if there is no place for one.
    pub(super) fn socket(&self, folder: &Path) -> Option<PathBuf> {
        let digest: String = (0..2_u8)
            .map(|half| {
                let mut hasher = DefaultHasher::new();
                (half, &self.text).hash(&mut hasher);
                format!("{:016x}", hasher.finish())
            })
            .collect();
        (folder.as_os_str().len() < MAX_FOLDER).then(|| folder.join(format!("{PREFIX}{digest}")))
    }
}

/// The value of a variable; empty if it is not set.
pub(super) fn value_of(environment: &Environment, name: &str) -> OsString {
    environment.get(OsStr::new(name)).cloned().unwrap_or_default()
}

/// The folder of the sockets.
pub(super) fn sockets_folder(environment: &Environment) -> Option<PathBuf> {
    runtime_folder(environment.get(OsStr::new("XDG_RUNTIME_DIR")).map(OsString::as_os_str))
}

/// The sockets of a folder, also of servers that have ended.
pub(super) fn sockets(folder: &Path) -> Vec<PathBuf> {
    let is_socket = |name: &OsStr| {
        let digits = name.as_bytes().strip_prefix(PREFIX.as_bytes());
        digits.map_or(false, |digits| digits.len() == DIGITS && digits.iter().all(u8::is_ascii_hexdigit))
    };
    let names = fs::read_dir(folder).into_iter().flatten().flatten().map(|entry| entry.file_name());
    let mut paths: Vec<PathBuf> = names.filter(|name| is_socket(name)).map(|name| folder.join(name)).collect();
    paths.sort();
    paths
}

/// The output that the words name, as far as it is named in them by itself.
pub(super) fn output_of(words: &[OsString]) -> PathBuf {
    let mut found = OsString::from("a.out");
    let mut rest = words.iter();
    while let Some(word) = rest.next() {
        let bytes = word.as_bytes();
        if bytes == b"-o" || bytes == b"--output" {
            found = rest.next().cloned().unwrap_or(found);
        } else if let Some(name) = bytes.strip_prefix(b"--output=") {
            found = OsStr::from_bytes(name).to_owned();
        } else if let (Some(name), false) = (bytes.strip_prefix(b"-o"), bytes.starts_with(b"--")) {
            found = OsStr::from_bytes(name.strip_prefix(b"=").unwrap_or(name)).to_owned();
        }
    }
    found.into()
}

/// The path without symbolic links, also if no file is there yet.
pub(super) fn real_path(path: &Path) -> PathBuf {
    if let Ok(whole) = path.canonicalize() {
        return whole;
    }
    let folder = path.parent().filter(|folder| !folder.as_os_str().is_empty()).unwrap_or_else(|| Path::new("."));
    match (folder.canonicalize(), path.file_name(), fs::read_link(path)) {
        (Ok(folder), Some(_), Ok(link)) => folder.join(link),
        (Ok(folder), Some(name), Err(_)) => folder.join(name),
        _ => path.to_owned(),
    }
}

/// What names go by: the text of the working folder, the mounts, that folder and the root, each with the mount by which
/// it is reached.
///
/// # Errors
/// If the system does not say one of these.
pub(super) fn mounts() -> io::Result<Vec<Vec<u8>>> {
    let mut found = vec![
        std::env::current_dir()?.into_os_string().as_bytes().to_owned(),
        fs::read_link("/proc/self/ns/mnt")?.into_os_string().as_bytes().to_owned(),
    ];
    for name in [".", "/"] {
        let folder = openat(cwd(), name, OFlags::PATH | OFlags::CLOEXEC, Mode::empty())?;
        let id = Stamp::of(&rustix::fs::fstat(&folder)?).id;
        let text = fs::read_to_string(format!("/proc/self/fdinfo/{}", folder.as_raw_fd()))?;
        let mount = text.lines().find(|line| line.starts_with("mnt_id:")).unwrap_or_default();
        found.push(format!("{} {} {mount}", id.device, id.inode).into_bytes());
    }
    Ok(found)
}

/// What tells `ldi` and this program from other versions of them: paths and stamps, without the time of a change of
/// their modes or names.
pub(super) fn program_marks(environment: &Environment) -> Vec<(PathBuf, Option<Stamp>)> {
    let own = std::env::current_exe().unwrap_or_default();
    let mark = |path: PathBuf| {
        let stamp = crate::snapshot::stat(&path).ok().map(|found| Stamp::of(&found));
        let mark = stamp.map(|stamp| Stamp { changed: 0, ..stamp });
        (path, mark)
    };
    vec![mark(own), mark(on_path(find_program("ldi", environment), environment))]
}

/// The path of a program that may be on PATH.
fn on_path(program: OsString, environment: &Environment) -> PathBuf {
    if program.as_bytes().contains(&b'/') {
        return program.into();
    }
    let path = value_of(environment, "PATH");
    let found = std::env::split_paths(&path).map(|folder| folder.join(&program)).find(|path| path.is_file());
    found.unwrap_or_else(|| program.into())
}

#[cfg(test)]
mod tests {
    use super::*;

    fn words(text: &str) -> Vec<OsString> {
        text.split_whitespace().map(OsString::from).collect()
    }

    #[test]
    fn the_output_is_that_of_the_last_word() {
        for (text, output) in [
            ("a.o", "a.out"),
            ("-o x a.o", "x"),
            ("-ox a.o", "x"),
            ("-o=x a.o -o y", "y"),
            ("--output x", "x"),
            ("--output=x --oformat=binary", "x"),
            ("-o", "a.out"),
        ] {
            assert_eq!(output_of(&words(text)), PathBuf::from(output), "{text}");
        }
    }

    #[test]
    fn a_key_goes_by_output_variables_and_response_files() {
        let environment =
            |text: &str| Environment::from([("LDI".into(), "/bin/true".into()), ("PATH".into(), text.into())]);
        let key = |text: &str, path: &str| Key::of(&words(text), &environment(path)).unwrap();
        assert_eq!(key("-o x a.o", "/bin"), key("b.o -ox", "/bin"));
        assert_ne!(key("-o x a.o", "/bin"), key("-o y a.o", "/bin"));
        assert_ne!(key("-o x a.o", "/bin"), key("-o x a.o", "/usr/bin"));
        assert_ne!(key("-o x @one", "/bin"), key("-o x @two", "/bin"));
        let socket = key("-o x", "/bin").socket(Path::new("/run")).unwrap();
        assert_eq!(socket.file_name().unwrap().len(), PREFIX.len() + DIGITS);
        assert_eq!(key("-o x", "/bin").socket(Path::new(&"/long".repeat(20))), None);
    }
}
