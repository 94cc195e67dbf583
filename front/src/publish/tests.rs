use super::*;
use std::fs::{self, File};
use std::os::unix::fs::{MetadataExt, PermissionsExt};
use std::process::Command;

/// A folder of a test, removed after it.
struct Folder(PathBuf);

impl Folder {
    fn new(name: &str) -> Folder {
        let path = std::env::temp_dir().join(format!("ldi-front-place-{}-{name}", std::process::id()));
        fs::create_dir_all(&path).unwrap();
        Folder(path)
    }

    fn names(&self) -> Vec<String> {
        let mut names: Vec<String> =
            fs::read_dir(&self.0).unwrap().map(|entry| entry.unwrap().file_name().into_string().unwrap()).collect();
        names.sort();
        names
    }
}

impl Drop for Folder {
    fn drop(&mut self) {
        fs::remove_dir_all(&self.0).unwrap();
    }
}

fn write(path: &Path, pieces: &[&[u8]], mode: Mode) -> Result<(), NotWritten> {
    write_file(path, pieces, mode, Reader::IsNeeded)
}

fn umask() -> u32 {
    let text = fs::read_to_string("/proc/self/status").unwrap();
    let line = text.lines().find_map(|line| line.strip_prefix("Umask:")).unwrap();
    u32::from_str_radix(line.trim(), 8).unwrap()
}

#[test]
fn a_file_is_written_whole_and_nothing_stays_beside_it() {
    let folder = Folder::new("whole");
    let path = folder.0.join("image");
    write(&path, &[b"one", b"", b"two"], PROGRAM).unwrap();
    assert_eq!(fs::read(&path).unwrap(), b"onetwo");
    write(&path, &[b"three"], PROGRAM).unwrap();
    assert_eq!(fs::read(&path).unwrap(), b"three");
    assert_eq!(folder.names(), ["image"]);
}

#[test]
fn the_mode_is_that_of_its_kind_less_the_umask() {
    let folder = Folder::new("mode");
    let path = folder.0.join("image");
    for (mode, bits) in [(TEXT, 0o644), (PROGRAM, 0o755)] {
        write(&path, &[b"x"], mode).unwrap();
        assert_eq!(fs::metadata(&path).unwrap().mode() & 0o7777, bits & !umask());
    }
}

#[test]
fn the_mode_of_the_old_file_may_be_kept() {
    let folder = Folder::new("keeps");
    let path = folder.0.join("image");
    fs::write(&path, "old").unwrap();
    fs::set_permissions(&path, fs::Permissions::from_mode(0o700)).unwrap();
    match NewFile::open(&path, TEXT, true).unwrap() {
        Opened::Beside(new) => drop(new.commit().unwrap()),
        Opened::InPlace(_) => panic!("it is a regular file"),
    }
    assert_eq!(fs::metadata(&path).unwrap().mode() & 0o7777, 0o700);
}

#[test]
fn the_old_file_has_the_name_beside_after_an_exchange() {
    let folder = Folder::new("exchange");
    let path = folder.0.join("image");
    fs::write(&path, "old").unwrap();
    let inode = fs::metadata(&path).unwrap().ino();
    if let Opened::Beside(mut new) = NewFile::open(&path, TEXT, false).unwrap() {
        new.write(&[b"new"]).unwrap();
        let old = new.commit().unwrap();
        assert_eq!(fs::read(&path).unwrap(), b"new");
        assert!(old.map_or(true, |old| fs::metadata(old).unwrap().ino() == inode));
    }
}

#[test]
fn a_symbolic_link_stays_one() {
    let folder = Folder::new("link");
    let (path, link) = (folder.0.join("image"), folder.0.join("link"));
    std::os::unix::fs::symlink("image", &link).unwrap();
    write(&link, &[b"1"], TEXT).unwrap();
    write(&link, &[b"2"], TEXT).unwrap();
    assert_eq!(fs::read(&path).unwrap(), b"2");
    assert!(fs::symlink_metadata(&link).unwrap().file_type().is_symlink());
    assert_eq!(folder.names(), ["image", "link"]);
}

#[test]
fn a_link_to_itself_and_a_folder_are_errors() {
    let folder = Folder::new("loop");
    let link = folder.0.join("link");
    std::os::unix::fs::symlink("link", &link).unwrap();
    assert!(write(&link, &[b"1"], TEXT).is_err());
    let fault = write(&folder.0, &[b"1"], TEXT).unwrap_err();
    assert!(fault.to_string().ends_with(": Is a directory"), "{fault}");
    assert!(write(&folder.0.join("new/"), &[b"1"], TEXT).is_err());
}

#[test]
fn what_is_no_regular_file_is_written_in_place() {
    let inode = fs::metadata("/dev/null").unwrap().ino();
    write(Path::new("/dev/null"), &[b"x"], PROGRAM).unwrap();
    assert_eq!(fs::metadata("/dev/null").unwrap().ino(), inode);
}

#[test]
fn a_pipe_without_a_reader_is_an_error_where_one_is_needed() {
    let folder = Folder::new("pipe");
    let pipe = folder.0.join("pipe");
    if Command::new("mkfifo").arg(&pipe).status().map_or(false, |status| status.success()) {
        assert!(write(&pipe, &[b"x"], TEXT).is_err());
    }
}

#[test]
fn a_full_disk_leaves_the_old_file() {
    if !Path::new("/dev/full").exists() {
        return;
    }
    let mut full = fs::OpenOptions::new().write(true).open("/dev/full").unwrap();
    assert!(write_all(&mut full, &[b"x"]).is_err());
    let folder = Folder::new("full");
    let path = folder.0.join("image");
    fs::write(&path, "old").unwrap();
    if let Opened::Beside(mut new) = NewFile::open(&path, TEXT, false).unwrap() {
        new.write(&[b"half"]).unwrap();
        drop(new); // as when a write fails
    }
    assert_eq!(fs::read(&path).unwrap(), b"old");
    assert_eq!(folder.names(), ["image"]);
}

#[test]
fn no_name_beside_is_used_twice_and_none_that_is_there_is_written() {
    let folder = Folder::new("names");
    let path = folder.0.join("image");
    let mut names = std::collections::HashSet::new();
    for _ in 0..100 {
        if let Opened::Beside(new) = NewFile::open(&path, TEXT, false).unwrap() {
            assert!(is_beside(new.path().file_name().unwrap()));
            assert!(names.insert(new.path().to_owned()));
        }
    }
    assert!(!is_beside("image".as_ref()) && !is_beside(".image.1.0.new".as_ref()) && !is_beside("".as_ref()));
}

#[test]
fn files_that_killed_processes_left_are_removed() {
    let folder = Folder::new("left");
    let path = folder.0.join("image");
    let random = "0123456789abcdef0123456789abcdef";
    let (left, other) = (format!(".image.4000000000.{random}.new"), format!(".other.4000000000.{random}.new"));
    [&left, &other].iter().for_each(|name| fs::write(folder.0.join(name), "").unwrap());
    if let Opened::Beside(mut new) = NewFile::open(&path, TEXT, false).unwrap() {
        remove_left(&path);
        new.write(&[b"new"]).unwrap();
        new.commit().unwrap();
    }
    assert_eq!(folder.names(), [other, "image".to_owned()]);
}

#[test]
fn a_file_that_a_process_of_another_container_holds_stays() {
    let folder = Folder::new("held");
    let path = folder.0.join("image");
    let held = folder.0.join(".image.4000000000.0123456789abcdef0123456789abcdef.new");
    fs::write(&held, "").unwrap();
    let reader = File::open(&held).unwrap();
    rustix::fs::flock(&reader, rustix::fs::FlockOperation::NonBlockingLockShared).unwrap();
    remove_left(&path);
    assert!(held.exists());
    drop(reader);
    remove_left(&path);
    assert!(!held.exists());
}

#[test]
fn many_pieces_are_written_in_their_order() {
    /// Takes few bytes at once.
    struct Slow(Vec<u8>);
    impl io::Write for Slow {
        fn write(&mut self, bytes: &[u8]) -> io::Result<usize> {
            let count = bytes.len().min(3);
            self.0.extend_from_slice(&bytes[..count]);
            Ok(count)
        }
        fn flush(&mut self) -> io::Result<()> {
            Ok(())
        }
    }
    let bytes: Vec<u8> = (0..=255).cycle().take(5000).collect();
    let pieces: Vec<&[u8]> = bytes.chunks(2).flat_map(|piece| [piece, &[]]).collect();
    let mut slow = Slow(Vec::new());
    write_all(&mut slow, &pieces).unwrap();
    assert_eq!(slow.0, bytes);
    let folder = Folder::new("pieces");
    write(&folder.0.join("image"), &pieces, TEXT).unwrap();
    assert_eq!(fs::read(folder.0.join("image")).unwrap(), bytes);
}

#[test]
fn a_writer_is_seen() {
    let folder = Folder::new("writer");
    let path = folder.0.join("file");
    let writer = File::create(&path).unwrap();
    let reader = File::open(&path).unwrap();
    if let Some(has) = has_writer(&reader) {
        assert!(has);
        drop(writer);
        assert_eq!(has_writer(&reader), Some(false));
    }
}

#[test]
fn the_runtime_folder_is_the_users_own() {
    let folder = Folder::new("runtime");
    fs::set_permissions(&folder.0, fs::Permissions::from_mode(0o700)).unwrap();
    let found = runtime_folder(Some(folder.0.as_os_str())).unwrap();
    assert_eq!(found, folder.0.join("ldi"));
    assert_eq!(fs::metadata(&found).unwrap().mode() & 0o7777, 0o700);
    fs::set_permissions(&found, fs::Permissions::from_mode(0o770)).unwrap();
    assert_eq!(runtime_folder(Some(folder.0.as_os_str())), None);
    fs::remove_dir(&found).unwrap();
    std::os::unix::fs::symlink("/tmp", &found).unwrap();
    assert_eq!(runtime_folder(Some(folder.0.as_os_str())), None);
}

#[test]
fn a_runtime_folder_that_others_can_enter_is_passed_over() {
    let folder = Folder::new("open");
    fs::set_permissions(&folder.0, fs::Permissions::from_mode(0o755)).unwrap();
    assert_ne!(runtime_folder(Some(folder.0.as_os_str())), Some(folder.0.join("ldi")));
    assert_ne!(runtime_folder(Some("relative".as_ref())), Some(PathBuf::from("relative/ldi")));
}

#[test]
fn a_file_that_is_not_whole_has_no_name_where_the_system_can() {
    let folder = Folder::new("nameless");
    let path = folder.0.join("image");
    if let Opened::Beside(mut new) = NewFile::open(&path, TEXT, false).unwrap() {
        new.write(&[b"half"]).unwrap();
        let is_nameless = folder.names().is_empty();
        assert!(is_nameless || new.path().exists());
        new.write(&[b" and half"]).unwrap();
        let beside = new.leave().unwrap();
        assert_eq!(fs::read(&beside).unwrap(), b"half and half");
        assert_eq!(put_in_place(&beside, &path).unwrap(), None);
    }
    assert_eq!(folder.names(), ["image"]);
}

#[test]
fn what_cannot_be_named_leaves_nothing() {
    let folder = Folder::new("gone");
    let inside = folder.0.join("inside");
    fs::create_dir(&inside).unwrap();
    if let Opened::Beside(mut new) = NewFile::open(&inside.join("image"), TEXT, false).unwrap() {
        new.write(&[b"x"]).unwrap();
        fs::rename(&inside, folder.0.join("other")).unwrap();
        assert!(new.commit().is_err());
    }
    assert_eq!(folder.names(), ["other"]);
}
