//! Tests with a shell script as the session, and with sessions that end.

use std::io::Write;
use std::os::unix::fs::PermissionsExt;
use std::path::PathBuf;

use super::*;

/// A program that does what a text for the shell says; it is removed at the end.
struct Program(PathBuf);

impl Program {
    fn new(name: &str, text: &str) -> Program {
        let path = std::env::temp_dir().join(format!("ldi-front-{}-{name}", std::process::id()));
        let mut file = File::create(&path).unwrap();
        file.write_all(format!("#!/bin/sh\n{text}\n").as_bytes()).unwrap();
        file.set_permissions(PermissionsExt::from_mode(0o700)).unwrap();
        Program(path)
    }

    fn client(&self) -> SessionClient {
        SessionClient::new(self.0.clone().into(), Some(Duration::from_secs(20)))
    }
}

impl Drop for Program {
    fn drop(&mut self) {
        let _ = std::fs::remove_file(&self.0);
    }
}

/// Reads commands with their payloads, and says yes to each: the image has the number of edits as of the last link, and
/// that of links.
const YES: &str = r#"
[ "$1 $2" = 'session --deferred' ] || exit 2
edits=0 links=0 image=
while read word name first second; do
    case $word in
        add) head -c "$second" > /dev/null ;;
        replace) head -c "$first" > /dev/null ;;
        script) head -c "$name" > /dev/null ;;
        link) links=$((links + 1)); image="$edits $links"; echo "linked 0 ${#image}"; continue ;;
        image) printf 'bytes %d\n%s' ${#image} "$image"; continue ;;
        map|faults) printf 'bytes 0\n'; continue ;;
    esac
    edits=$((edits + 1))
    echo accepted
done
"#;

fn objects(count: usize, size: usize) -> Vec<SessionObject> {
    let one =
        |index: usize| SessionObject { name: format!("o{index}").into(), data: Bytes::from(vec![index as u8; size]) };
    (0..count).map(one).collect()
}

#[test]
fn a_project_is_opened_and_edited() {
    let program = Program::new("yes", YES);
    let mut client = program.client();
    let options = Options::default();
    let mut objects = objects(30, 1000);
    let wanted = Target { options: &options, objects: &objects, script: b"SECTIONS { }" };
    let brought = client.sync(wanted).unwrap();
    assert_eq!((brought.is_good, brought.edits, brought.refused.len()), (true, 31, 0));
    assert_eq!((brought.length, brought.accepted), (4, 31));
    assert_eq!(&*client.image().unwrap(), b"31 1");
    let again = client.sync(wanted).unwrap();
    assert_eq!((again.is_good, again.length, again.edits, again.accepted), (true, 4, 0, 0));
    assert_eq!(&*client.image().unwrap(), b"31 1");
    objects.swap(3, 4);
    let wanted = Target { options: &options, objects: &objects, script: b"SECTIONS { }" };
    assert_eq!(client.sync(wanted).unwrap().edits, 1);
    let mut file = File::create(std::env::temp_dir().join(format!("ldi-front-{}-image", std::process::id()))).unwrap();
    assert_eq!(client.image_to(&mut file).unwrap(), 4);
    let path = std::env::temp_dir().join(format!("ldi-front-{}-image", std::process::id()));
    assert_eq!(std::fs::read(&path).unwrap(), b"32 2");
    std::fs::remove_file(path).unwrap();
}

#[test]
fn other_options_start_another_session() {
    let program = Program::new("options", YES);
    let mut client = program.client();
    let (one, other) = (Options::default(), Options { collects_sections: true, ..Options::default() });
    let objects = objects(2, 10);
    assert_eq!(client.sync(Target { options: &one, objects: &objects, script: b"a = 1;" }).unwrap().edits, 3);
    let first = client.session().unwrap().process();
    assert_eq!(client.sync(Target { options: &other, objects: &objects, script: b"a = 1;" }).unwrap().edits, 3);
    assert_ne!(client.session().unwrap().process(), first);
}

#[test]
fn objects_are_brought_before_the_script_and_linked_with_it() {
    let program = Program::new("prepare", YES);
    let mut client = program.client();
    let objects = objects(9, 10);
    for options in [Options::default(), Options { entry: Some("main".into()), ..Options::default() }] {
        client.prepare(&options, &objects).unwrap();
        assert_eq!(&*client.image().unwrap(), b"");
        let brought = client.sync(Target { options: &options, objects: &objects, script: b"a = 1;" }).unwrap();
        assert_eq!((brought.edits, brought.accepted), (1, 10));
        assert_eq!(&*client.image().unwrap(), b"10 1");
    }
}

#[test]
fn what_is_brought_before_a_script_that_is_there_is_linked() {
    let program = Program::new("there", YES);
    let mut client = program.client();
    let (options, objects) = (Options::default(), objects(2, 10));
    let sync = |client: &mut SessionClient, count: usize| {
        client.sync(Target { options: &options, objects: &objects[..count], script: b"a = 1;" }).unwrap()
    };
    sync(&mut client, 0);
    client.prepare(&options, &objects).unwrap();
    let brought = sync(&mut client, 2);
    assert_eq!((brought.edits, brought.accepted), (0, 2));
    assert_eq!(&*client.image().unwrap(), b"3 2");
}

#[test]
fn the_others_are_linked_where_objects_are_refused() {
    let refuses = YES.replace("    edits=$", "    [ $name = o1 ] && { echo refused 4 2; continue; }\n    edits=$");
    let program = Program::new("others", &refuses);
    let mut client = program.client();
    let (options, objects) = (Options::default(), objects(4, 10));
    let wanted = Target { options: &options, objects: &objects, script: b"a = 1;" };
    let brought = client.sync(wanted).unwrap();
    assert_eq!(brought.refused, [(1, Refusal { number: 4, inner: 2 })]);
    assert_eq!((brought.edits, brought.accepted), (4, 3));
    assert_eq!(&*client.image().unwrap(), b"3 1");
    let brought = client.sync(wanted).unwrap();
    assert_eq!((brought.refused.len(), brought.edits, brought.accepted), (1, 0, 0));
    assert_eq!(&*client.image().unwrap(), b"3 1");
}

#[test]
fn a_link_without_memory_is_tried_again() {
    let once =
        YES.replace("        link) ", "        link) [ $((tried += 1)) = 2 ] && { echo refused 7 0; continue; };");
    let program = Program::new("memory", &once);
    let mut client = program.client();
    let (options, mut objects) = (Options::default(), objects(2, 10));
    assert!(client.sync(Target { options: &options, objects: &objects, script: b"a = 1;" }).unwrap().is_good);
    objects[1].data = Bytes::from(b"other".to_vec());
    let wanted = Target { options: &options, objects: &objects, script: b"a = 1;" };
    let brought = client.sync(wanted).unwrap();
    assert_eq!((brought.is_good, brought.edits, brought.accepted), (false, 1, 1));
    assert!(brought.script_refused.map_or(false, Refusal::is_memory));
    assert_eq!(&*client.image().unwrap(), b"3 1");
    let brought = client.sync(wanted).unwrap();
    assert_eq!((brought.is_good, brought.edits, brought.accepted, brought.script_refused), (true, 0, 1, None));
    assert_eq!(&*client.image().unwrap(), b"4 2");
}

#[test]
fn a_session_that_ends_is_an_error_and_started_again() {
    let program = Program::new("ends", "read line; echo accepted; exit 0");
    let mut client = program.client();
    let (options, objects) = (Options::default(), objects(1, 100));
    let wanted = Target { options: &options, objects: &objects, script: b"a = 1;" };
    assert!(matches!(client.sync(wanted), Err(SessionError::Ended)));
    assert!(client.session().is_none());
    for text in ["echo no answer", "echo linked 0 4", &YES.replace("linked 0", "accepted")] {
        let program = Program::new("no", text);
        assert!(matches!(program.client().sync(wanted), Err(SessionError::NoAnswer(_))), "{text}");
    }
    let mut client = SessionClient::new("/nowhere/ldi".into(), None);
    assert!(matches!(client.sync(wanted), Err(SessionError::NotStarted { .. })));
}

#[test]
fn a_session_that_says_nothing_is_waited_for_so_long() {
    let program = Program::new("late", "sleep 5");
    let mut client = SessionClient::new(program.0.clone().into(), Some(Duration::from_millis(50)));
    let wanted = Target { options: &Options::default(), objects: &[], script: b"a = 1;" };
    assert!(matches!(client.sync(wanted), Err(SessionError::TooLate(_))));
}

#[test]
fn large_edits_and_many_answers_block_nobody() {
    let program = Program::new("large", YES);
    let mut client = program.client();
    let (options, objects) = (Options::default(), objects(40, 300_000));
    let brought = client.sync(Target { options: &options, objects: &objects, script: b"a = 1;" }).unwrap();
    assert!(brought.is_good);
}

#[test]
fn a_session_goes_on_where_its_image_cannot_be_written() {
    let program = Program::new("full", &YES.replace("printf 'bytes %d\\n%s' ${#image} \"$image\"", FULL));
    let mut client = program.client();
    let (options, objects) = (Options::default(), objects(2, 10));
    client.sync(Target { options: &options, objects: &objects, script: b"a = 1;" }).unwrap();
    for _ in 0..2 {
        let mut full = File::options().write(true).open("/dev/full").unwrap();
        match client.image_to(&mut full) {
            Err(TakeError::File(error)) => assert_eq!(error.raw_os_error(), Some(libc::ENOSPC)),
            other => panic!("{other:?}"),
        }
        assert_eq!(client.image().unwrap().len(), 300_000);
    }
    assert!(client.sync(Target { options: &options, objects: &objects[..1], script: b"a = 1;" }).unwrap().is_good);
}

/// An image of more bytes than a pipe holds at once.
const FULL: &str = "printf 'bytes 300000\\n'; head -c 300000 /dev/zero";

#[test]
fn the_memory_of_an_image_is_used_again() {
    let program = Program::new("spare", YES);
    let mut client = program.client();
    let options = Options::default();
    let wanted = Target { options: &options, objects: &objects(3, 10), script: b"SECTIONS { }" };
    client.sync(wanted).unwrap();
    client.reuse(vec![b'x'; 100].into());
    let image = client.image().unwrap();
    assert_eq!((&*image, image.changed()), (&b"4 1"[..], None));
    assert_eq!(image.into_vec().capacity(), 100);
    assert!(client.image().unwrap().into_vec().capacity() < 100);
}

/// Says yes to each edit; the image is of 8 bytes, and then of 6, the third of which is another.
const CHANGES: &str = r#"
while read word name first second; do
    case $word in
        add) head -c "$second" > /dev/null ;;
        script) head -c "$name" > /dev/null ;;
        link) echo "linked 0 8"; continue ;;
        image) printf 'bytes 8\nabcdefgh'; continue ;;
        changes) printf 'changes 6 2\n2 1\n4 2\nCEF'; continue ;;
    esac
    echo accepted
done
"#;

#[test]
fn of_an_image_that_was_given_back_what_has_changed_is_asked_for() {
    let program = Program::new("changes", CHANGES);
    let mut client = program.client();
    let options = Options::default();
    let wanted = Target { options: &options, objects: &objects(3, 10), script: b"SECTIONS { }" };
    client.sync(wanted).unwrap();
    let mut image = client.image().unwrap();
    image.cover(0, b"xy");
    client.reuse(image);
    let image = client.image().unwrap();
    assert_eq!((&*image, image.changed()), (&b"abCdEF"[..], Some(&[2..3, 4..6][..])));
    assert_eq!(&*client.image().unwrap(), b"abcdefgh", "it was not given back");
    client.reuse(image);
    assert_eq!(&*client.image().unwrap(), b"abcdefgh", "it is not the last one");
    let image = client.image().unwrap();
    client.end();
    client.sync(wanted).unwrap();
    client.reuse(image);
    assert_eq!(&*client.image().unwrap(), b"abcdefgh", "it is another session's");
}
