use super::*;
use std::fs;
use std::process::Command;
use std::time::{Duration, Instant};

/// A folder of a test, removed after it.
struct Folder(PathBuf);

impl Folder {
    fn new(name: &str) -> Folder {
        let path = std::env::temp_dir().join(format!("ldi-front-snapshot-{}-{name}", std::process::id()));
        fs::create_dir_all(&path).unwrap();
        Folder(path)
    }

    fn write(&self, name: &str, text: &str) -> PathBuf {
        let path = self.0.join(name);
        fs::write(&path, text).unwrap();
        path
    }

    /// A file whose times are old enough for its stamp to tell any change.
    fn write_settled(&self, name: &str, text: &str) -> PathBuf {
        let path = self.write(name, text);
        std::thread::sleep(Duration::from_millis(25));
        path
    }
}

impl Drop for Folder {
    fn drop(&mut self) {
        fs::remove_dir_all(&self.0).unwrap();
    }
}

#[test]
fn what_stands_is_not_changed() {
    let folder = Folder::new("stands");
    let (one, two) = (folder.write("one", "1"), folder.write_settled("two", "2"));
    let mut snapshot = Snapshot::new();
    assert_eq!(&*snapshot.read(&one).unwrap(), b"1");
    assert_eq!(&*snapshot.read(&two).unwrap(), b"2");
    assert!(snapshot.changed().is_empty());
    assert!(snapshot.changed().is_empty());
    assert!(snapshot.is_provable());
}

#[test]
fn another_size_time_or_inode_is_a_change() {
    let folder = Folder::new("change");
    let paths = [folder.write("size", "1"), folder.write("time", "1"), folder.write_settled("inode", "1")];
    let mut snapshot = Snapshot::new();
    paths.iter().for_each(|path| assert!(snapshot.read(path).is_ok()));
    fs::write(&paths[0], "12").unwrap();
    fs::write(&paths[1], "2").unwrap();
    fs::rename(folder.write("other", "1"), &paths[2]).unwrap();
    assert_eq!(snapshot.changed(), Changes { files: paths.to_vec(), has_other_inputs: false });
}

#[test]
fn a_file_that_goes_is_a_change() {
    let folder = Folder::new("goes");
    let path = folder.write_settled("one", "1");
    let mut snapshot = Snapshot::new();
    snapshot.read(&path).unwrap();
    fs::remove_file(&path).unwrap();
    assert_eq!(snapshot.changed().files, [path]);
}

#[test]
fn a_folder_in_the_place_of_another_is_looked_into() {
    let folder = Folder::new("folders");
    let (inside, beside) = (folder.0.join("in"), folder.0.join("beside"));
    fs::create_dir_all(&inside).unwrap();
    let path = folder.write_settled("in/one", "1");
    let mut snapshot = Snapshot::new();
    snapshot.read(&path).unwrap();
    assert!(snapshot.changed().is_empty());
    fs::rename(&inside, &beside).unwrap();
    assert_eq!(snapshot.changed().files, std::slice::from_ref(&path));
    fs::create_dir_all(&inside).unwrap();
    fs::write(&path, "1").unwrap();
    assert_eq!(snapshot.changed().files, [path]);
}

#[test]
fn bytes_tell_a_change_where_the_stamp_cannot() {
    let folder = Folder::new("bytes");
    let path = folder.write("one", "1");
    let mut snapshot = Snapshot::new();
    snapshot.read(&path).unwrap();
    let seen = snapshot.files.get_mut(&path).unwrap().as_mut().unwrap();
    assert!(!seen.is_settled);
    seen.data = b"0".to_vec().into();
    assert_eq!(snapshot.changed().files, [path]);
}

#[test]
fn times_of_whole_seconds_settle_after_two() {
    let id = FileId { device: 1, inode: 1 };
    let stamp = |time| Stamp { id, size: 0, modified: time, changed: time };
    let second = 1_000_000_000;
    assert!(!stamp(second).is_settled(3 * second));
    assert!(stamp(second).is_settled(3 * second + 20_000_001));
    assert!(!stamp(second + 1).is_settled(second + 20_000_001));
    assert!(stamp(second + 1).is_settled(second + 20_000_002));
}

#[test]
fn a_file_that_comes_is_another_input() {
    let folder = Folder::new("comes");
    let path = folder.0.join("one");
    let mut snapshot = Snapshot::new();
    assert!(matches!(snapshot.read(&path), Err(ReadFault::Missing)));
    assert!(snapshot.changed().is_empty());
    folder.write("one", "");
    assert!(snapshot.changed().has_other_inputs);
}

#[test]
fn a_question_with_another_answer_is_another_input() {
    let folder = Folder::new("question");
    let path = folder.0.join("one");
    let mut snapshot = Snapshot::new();
    assert!(!snapshot.exists(&path) && !snapshot.is_file(&path));
    fs::create_dir(&path).unwrap();
    assert!(snapshot.changed().has_other_inputs);
    let mut snapshot = Snapshot::new();
    assert!(snapshot.exists(&path) && !snapshot.is_file(&path));
    assert!(snapshot.changed().is_empty());
}

#[test]
fn a_pipe_is_no_input_and_does_not_wait() {
    let folder = Folder::new("pipe");
    let pipe = folder.0.join("pipe");
    if !Command::new("mkfifo").arg(&pipe).status().map_or(false, |status| status.success()) {
        return;
    }
    let begun = Instant::now();
    let mut snapshot = Snapshot::new();
    assert!(matches!(snapshot.read(&pipe), Err(ReadFault::NotRegular)));
    assert!(matches!(snapshot.read_any(&pipe), Err(ReadFault::NoWriter)));
    assert!(begun.elapsed() < Duration::from_secs(5));
}

#[test]
fn an_input_that_becomes_a_pipe_is_a_change_and_does_not_wait() {
    let folder = Folder::new("becomes-pipe");
    let path = folder.write("one", "1");
    let mut snapshot = Snapshot::new();
    snapshot.read(&path).unwrap();
    fs::remove_file(&path).unwrap();
    if Command::new("mkfifo").arg(&path).status().map_or(false, |status| status.success()) {
        assert_eq!(snapshot.changed().files, [path]);
    }
}

#[test]
fn what_somebody_writes_to_a_pipe_is_read() {
    let mut words = Command::new("sh");
    words.args(["-c", "echo text; sleep 0.1; echo more"]).stdout(std::process::Stdio::piped());
    let mut child = words.spawn().unwrap();
    let pipe = child.stdout.take().unwrap();
    let path = PathBuf::from(format!("/proc/self/fd/{}", std::os::unix::io::AsRawFd::as_raw_fd(&pipe)));
    let mut snapshot = Snapshot::new();
    assert_eq!(&*snapshot.read_any(&path).unwrap(), b"text\nmore\n");
    assert!(!snapshot.is_provable());
    child.wait().unwrap();
}

#[test]
fn devices_and_folders_are_no_inputs() {
    let mut snapshot = Snapshot::new();
    assert!(matches!(snapshot.read(Path::new("/dev/null")), Err(ReadFault::NotRegular)));
    assert_eq!(snapshot.read_any(Path::new("/dev/null")).unwrap().len(), 0);
    assert!(matches!(snapshot.read(Path::new("/")), Err(ReadFault::Folder)));
    assert_eq!(snapshot.read(Path::new("/")).unwrap_err().to_string(), "Is a directory");
}

#[test]
fn what_the_next_one_finds_the_same_is_not_read_again() {
    let folder = Folder::new("next");
    let (one, two) = (folder.write("one", "1"), folder.write_settled("two", "2"));
    let mut snapshot = Snapshot::new();
    let old = [snapshot.read(&one).unwrap(), snapshot.read(&two).unwrap()];
    fs::write(&two, "3").unwrap();
    let mut next = snapshot.next();
    assert!(next.read(&one).unwrap().is_identical(&old[0]));
    assert_eq!(&*next.read(&two).unwrap(), b"3");
    fs::write(&two, "3").unwrap();
    let third = next.read(&two).unwrap();
    assert!(next.read(&two).unwrap().is_identical(&third));
}

#[test]
fn a_file_is_known_under_another_name() {
    let folder = Folder::new("names");
    let path = folder.write("one", "1");
    let mut snapshot = Snapshot::new();
    snapshot.read(&path).unwrap();
    let other = folder.0.join("other");
    fs::hard_link(&path, &other).unwrap();
    assert_eq!(snapshot.read_as(&other), Some(path.as_path()));
    assert_eq!(snapshot.read_as(&folder.write("third", "1")), None);
    assert_eq!(snapshot.read_as(&folder.0.join("none")), None);
}

#[test]
fn a_file_of_this_process_alone_is_none_that_lasts() {
    let folder = Folder::new("lasting");
    let path = folder.write("one", "1");
    let file = fs::File::open(&path).unwrap();
    let number = std::os::unix::io::AsRawFd::as_raw_fd(&file);
    let (link, deep) = (folder.0.join("link"), folder.0.join("deep"));
    std::os::unix::fs::symlink(format!("/dev/fd/{number}"), &link).unwrap();
    std::os::unix::fs::symlink("/proc/self/fd", &deep).unwrap();
    assert!(are_lasting([path.as_path()]));
    let by_deep = deep.join(number.to_string());
    for other in [&link, &by_deep, &PathBuf::from(format!("/proc/self/fd/{number}")), &"/dev/null".into(), &folder.0] {
        assert!(!are_lasting([path.as_path(), other]), "{other:?}");
    }
    let plain = folder.0.join("plain");
    std::os::unix::fs::symlink("one", &plain).unwrap();
    assert!(are_lasting([plain.as_path()]));
    let mut snapshot = Snapshot::new();
    assert_eq!(&*snapshot.read(&link).unwrap(), b"1");
    assert!(!snapshot.is_provable());
}

#[test]
fn a_file_that_is_longer_than_memory_is_an_error() {
    let folder = Folder::new("sparse");
    let path = folder.write("sparse", "");
    if fs::OpenOptions::new().write(true).open(&path).unwrap().set_len(1 << 43).is_ok() {
        assert!(matches!(Snapshot::new().read(&path), Err(ReadFault::System(_))));
    }
}
